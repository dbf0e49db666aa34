#!/usr/bin/env python3
"""The trials of docs/PROGRAMS.md: 1024 frames of owner 0, drawn evenly from the sky within 30 degrees of a field's middle, and three regions
around that middle, each under pairs of settings.

python3 tools/trials.py             the command lines for program archive
python3 tools/trials.py --table     the rows of the table, by the model htm.py
"""
import sys

sys.dont_write_bytecode = True
import htm
from cases import Draws, direction, into_rule
from cover_cases import DEGREE, Sky, cap, turned
from grouped_cases import grouped
from htm import K
from index_cases import OWNER_CAPACITY, add, trial

SEED = 20261117
MIDDLE = 377487, 503316, 838860                     # 0.36, 0.48, 0.8
TWENTY = 985339                                     # the offset of a cap of 20 degrees
PAIRS = {'cap, 5 degrees': [((6, 16), (9, 16)), ((9, 64), (12, 64))],
         'cap, 20 degrees': [((5, 16), (8, 16)), ((8, 64), (8, 128))],
         'square with a hole': [((6, 16), (8, 64)), ((7, 64), (10, 8))]}


def frames(draws):
    found = []
    while len(found) < OWNER_CAPACITY:
        p = direction(draws)
        if htm.dot(MIDDLE, p) >= DEGREE[30] * K:
            found.append(p)
    return found


def regions(draws):
    square = Sky(draws, lambda: direction(draws), into_rule).polygon(MIDDLE, 4, 176)     # 10 degrees to a side
    return [cap(MIDDLE, DEGREE[5]), cap(MIDDLE, TWENTY), [square + [turned((MIDDLE, DEGREE[5]))]]]


def sky(file, setting):
    """The share of the sky that the outer list spans, in percent."""
    depth, outer, *_ = htm.cover(htm.under(setting, file))
    return 100 * htm.identifiers(outer) / (2 * 4**depth)


def rows(index, name, file, pair):
    """The two rows of a trial."""
    tried, choice, _ = index.trial(0, file, *pair)
    for k, (setting, (unchecked, held, discarded, outer, inner)) in enumerate(zip(pair, tried), 1):
        depth, budget = setting
        numbers = f'{unchecked} | {held} | {discarded} | {outer}, {inner} | {sky(file, setting):.2f} %'
        yield f'| {name} | {depth}, {budget} | {numbers} | {"chosen" if k == choice else ""} |'


def main(table):
    draws, index = Draws(SEED), htm.Index()
    for number, p in enumerate(frames(draws), 1):
        index.add(0, number, p)
        if not table:
            print(add(0, number, p).decode())
    for region, (name, pairs) in zip(regions(draws), PAIRS.items()):
        for pair in pairs:
            file = grouped(region)
            print('\n'.join(rows(index, name, file, pair)) if table else trial(0, file, *pair).decode())


if __name__ == '__main__':
    main('--table' in sys.argv[1:])
