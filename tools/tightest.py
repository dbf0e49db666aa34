#!/usr/bin/env python3
"""The tightest list for its budget (document 02, F-9) by search, beside the proof and outside the gate.

python3 tools/tightest.py    every set of up to 10 identifiers in a row, with budgets 1 to 5, then covers at depth 1 and 2

Of all lists of at most the budget of ranges that contain a set, none contains fewer identifiers than the outer list that the model htm.py makes. A list may be
any: its ranges stand in any order, overlap, are reversed, and go one identifier beyond either end. The model's list is also made by the rule's own steps, and
with another one among equal gaps, which gives as many identifiers; a rule that takes the largest gap, or joins once more, must be found out.
"""
import sys

sys.dont_write_bytecode = True
import htm
from cover_cases import AXES, DEGREE, K2, K3, cap
from htm import K, gap, identifiers, joined, outer_of
from region_cases import file_of


def bits(ranges):
    """The identifiers in a range, as the bits of a number: each counts once."""
    return sum(1 << i for i in {i for low, high in ranges for i in range(low, high + 1)})


def contents(size, budget):
    """What lists contain, of identifiers 0 to size - 1: a set for each number of ranges, from 0 to the budget."""
    every = (1 << size) - 1
    ends = range(-1, size + 1)
    ranges = {(bits([(low + 1, high + 1)]) >> 1) & every for low in ends for high in ends}
    found = [{0}]
    for _ in range(budget):
        found.append({u | r for u in found[-1] for r in ranges})
    return found


def by_steps(accepted, budget, choose=min, more=0):
    """The outer list by the rule's steps: while there are more ranges than the budget, join over a gap, the earliest of those that `choose` gives.
    `more` joins follow."""
    outer = joined(accepted)
    while len(outer) > budget or more and len(outer) > 1:
        more -= len(outer) <= budget
        gaps = [gap(a, b) for a, b in zip(outer, outer[1:])]
        k = gaps.index(choose(gaps))
        outer[k:k + 2] = [(outer[k][0], outer[k + 1][1])]
    return outer


def latest(accepted, budget):
    """As above, with the latest among equal gaps: the list read backwards."""
    turned = [(-high, -low) for low, high in reversed(accepted)]
    return [(-high, -low) for low, high in reversed(by_steps(turned, budget))]


def fewest(lists, wanted):
    return min(u.bit_count() for u in lists if u & wanted == wanted)


def search(size, budget, lists):
    """Every set of identifiers: how many there are, and in how many each of two wrong rules is found out."""
    largest = once_more = 0
    for wanted in range(1 << size):
        accepted = [(i, i) for i in range(size) if wanted >> i & 1]
        outer, swallowed = outer_of(accepted, budget)
        best = fewest(lists, wanted)
        assert bits(outer) & wanted == wanted and len(outer) <= budget and (accepted or not outer)
        assert identifiers(outer) == bits(outer).bit_count() == best == wanted.bit_count() + swallowed
        assert outer == by_steps(accepted, budget) and identifiers(latest(accepted, budget)) == best
        largest += identifiers(by_steps(accepted, budget, max)) > best
        once_more += identifiers(by_steps(accepted, budget, more=1)) > best
    return 1 << size, largest, once_more


def regions():
    """Caps about the axes and about other directions, and both together."""
    vectors = AXES + [(K2, K2, 0), (-K2, 0, K2), (0, K2, -K2), (K3, K3, K3), (-K3, K3, K3), (K3, -K3, -K3)]
    caps = [cap(n, d) for n in vectors for d in DEGREE.values()]
    return caps + [a + b for a, b in zip(caps, reversed(caps))] + [[[(AXES[0], 0), (AXES[2], 0)], [(AXES[1], 0), (AXES[3], 0)]], cap(AXES[0], K)]


def covers(depth, budget, lists):
    """The covers of some regions: how many there are, and how many of them had to be joined over a gap."""
    base = 2 * 4**depth
    swallowing = 0
    for region in regions():
        accepted = htm.cover(file_of(region, depth, 2048))[1]
        outer = htm.cover(file_of(region, depth, budget))[1]
        down = lambda ranges: bits([(low - base, high - base) for low, high in ranges])
        assert len(outer) <= budget and down(outer).bit_count() == identifiers(outer) == fewest(lists, down(accepted))
        swallowing += outer != accepted
    return len(regions()), swallowing


if __name__ == '__main__':
    for size in range(11):
        found = contents(size, 5)
        tried = [search(size, budget, found[budget]) for budget in range(1, 6)]
        sets, largest, once_more = map(sum, zip(*tried))
        count = sum((size + 2)**(2 * k) for k in range(6))
        print(f'{size} identifiers: {sets} sets and budgets against {count} lists; found out: largest gap {largest}, once more {once_more}')
    for depth, most in (1, 4), (2, 3):
        found = contents(2 * 4**depth, most)
        for budget in range(1, most + 1):
            print('depth %d, budget %d: %d covers, of which %d swallow' % (depth, budget, *covers(depth, budget, found[budget])))
