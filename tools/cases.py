#!/usr/bin/env python3
"""cases.py [--compare]: makes the stored cases of the programs query, catalogue and archive: stdin and stdout in crates/query, crates/catalogue and
crates/archive. With --compare it writes nothing, and ends with 1 where a stored file is another.

Each run writes the same bytes. The answers come from the model, tools/htm.py; how a line is read is written here again, apart from the
program (its head, crates/query/src/main.rt, has the grammar in words)."""
import pathlib
import re
import sys
from math import gcd, isqrt

import cover_cases
import grouped_cases
import htm
import index_cases
import line_cases
import region_cases as regions
import report_cases as reports
from htm import K, Refused

CRATES = pathlib.Path(__file__).resolve().parent.parent / 'crates'
HOME = CRATES / 'query'
CATALOGUE = CRATES / 'catalogue'
ARCHIVE = CRATES / 'archive'
LINE = regions.LINE


# ---- the answer of a line

def number(word, sign, low, high):
    """The number of a word, or None: decimal digits, a minus only where a sign is allowed, from low to high."""
    parts = re.fullmatch(rb'(-?)(?=[0-9])0*([0-9]*)' if sign else rb'()(?=[0-9])0*([0-9]*)', word)
    if parts is None or len(parts[2]) > 20:         # no number, or far beyond every type
        return None
    n = int(parts[1] + b'0' + parts[2])
    return n if low <= n <= high else None


def lookup(words):
    numbers = [number(w, True, -2**31, 2**31 - 1) for w in words[:3]] + [number(w, False, 0, 2**32 - 1) for w in words[3:]]
    if len(words) != 4 or None in numbers:
        return 'usage'
    i = htm.lookup(tuple(numbers[:3]), numbers[3])
    return f'{i} {htm.name_of(i)}'


def report(width):
    def answer(words):
        bits, depth = [reports.bits_of(w, width) for w in words[:3]], [number(w, False, 0, 2**32 - 1) for w in words[3:]]
        if len(words) != 4 or None in bits + depth:
            return 'usage'
        i = htm.lookup_report(bits, width, *depth)
        return f'{i} {htm.name_of(i)}'
    return answer


def with_identifier(call):
    def answer(words):
        i = number(words[0], False, 0, 2**64 - 1) if len(words) == 1 else None
        return 'usage' if i is None else call(i)
    return answer


def identifier(words):
    if len(words) != 1:
        return 'usage'
    return str(htm.id_of(words[0].decode('latin-1')))


def written(answer):
    def of_numbers(words):
        return answer([number(w, False, 0, 2**32 - 1) for w in words[:2]] + [number(w, True, -2**31, 2**31 - 1) for w in words[2:]])
    return of_numbers


def holds(words):
    point = [number(w, True, -2**31, 2**31 - 1) for w in words[1:]]
    return regions.holds_answer(words[0], point) if words else 'usage'


COMMANDS = {
    b'lookup': lookup,
    b'double': report(64),
    b'single': report(32),
    b'line': lambda words: line_cases.answer(words, number(words[-1], False, 0, 2**32 - 1) if words else None),
    b'name': with_identifier(htm.name_of),
    b'id': identifier,
    b'corners': with_identifier(lambda i: ' '.join(str(c) for v in htm.corners(i) for c in v)),
    b'rows': regions.rows_answer,
    b'file': written(regions.file_answer),
    b'grouped': written(grouped_cases.grouped_answer),
    b'togrouped': lambda words: grouped_cases.convert_answer(words, htm.GROUPED),
    b'toplain': lambda words: grouped_cases.convert_answer(words, htm.PLAIN),
    b'holds': holds,
    b'cover': cover_cases.cover_answer,
}


OF_FILES = b'line', b'rows', b'togrouped', b'toplain', b'holds', b'cover'    # the word after the name is a file in digits


def answer(line):
    words = line.split(b' ')
    if regions.is_long(words, 1 if words[0] in OF_FILES else None) or b'' in words or words[0] not in COMMANDS:
        return 'usage'
    try:
        return COMMANDS[words[0]](words[1:])
    except Refused as r:
        return f'refused {r.n}'


# ---- draws: a generator of our own, so that the cases do not depend on Python's

class Draws:
    def __init__(self, seed):
        self.state = seed

    def bits(self):
        self.state = (self.state * 6364136223846793005 + 1442695040888963407) % 2**64
        return self.state >> 32

    def below(self, n):
        return (self.bits() << 64 | self.bits() << 32 | self.bits()) % n

    def between(self, low, high):
        return low + self.below(high - low + 1)

    def pick(self, choices):
        return choices[self.below(len(choices))]


DRAWS = Draws(20140521)


def direction(draws=DRAWS):
    """Any vector: a point of the ball of radius K that is not too near its middle, made a unit."""
    while True:
        s = tuple(draws.between(-K, K) for _ in range(3))
        if K * K // 16 <= htm.dot(s, s) <= K * K:
            return into_rule(htm.unit(s))


def into_rule(p):
    """The nearest vector in the sense of the rule: a component cut to K, then the largest one that may change moved by ones."""
    p = [max(-K, min(K, c)) for c in p]
    while not htm.is_vector(p):
        longer = htm.dot(p, p) < (K - 2)**2
        free = [k for k in range(3) if abs(p[k]) < K or not longer]
        k = max(free, key=lambda k: abs(p[k]))
        step = 1 if p[k] >= 0 else -1
        p[k] += step if longer else -step
    return tuple(p)


def trixel_at(depth):
    return DRAWS.between(*span(depth))


def span(depth):
    """The first and the last identifier of a depth."""
    return 2 * 4**depth, 4 * 4**depth - 1


# ---- lines

def line(*words):
    return b' '.join(w if isinstance(w, bytes) else str(w).encode() for w in words)


def look(p, depth):
    return line('lookup', *p, depth)


K2 = 741455                                         # the components of Unit(K, 0, K) that are not 0
K3 = 605396                                         # those of the middle of an octant


def document_01():
    """The starred facts, the edges and the names of document 01, as far as the four commands carry them."""
    for p in ((0, 0, K), (K, 0, 0), (0, K, 0), (-K, 0, 0), (0, -K, 0), (0, 0, -K), (K3, K3, K3), (0, K2, K2)):
        yield look(p, 2)
    yield from (line('id', 'N01'), line('name', 0x31))
    yield from (look((0, 0, K - 2), 2), look((0, 0, K - 3), 2), look((0, 0, K + 1), 2))
    yield from (line(c, i) for i in (15, 32, 16, 31) for c in ('name', 'corners'))
    yield from (look((0, 0, K), 12), look((0, 0, K), 13))
    names = 'S00 S02 S10 S12 S20 S22 S30 S32 N33 N01 N11 N21 N31'
    yield from (line('id', n) for n in names.split())


def document_000():
    """Names that the published description has, and what it says of them: the one with a digit 4 is none."""
    yield line('id', 'N204130012')
    yield from (line('id', n + d) for n in ('N2', 'S0', 'N0', 'N3') for d in ('', '0', '1', '2', '3'))
    for depth in range(1, 32):
        yield from (line('name', span(depth)[0]), line('id', 'S' + '0' * depth))
    for letter in 'NS':
        yield from (line('id', f'{letter}{x}' + '3' * k) for x in range(4) for k in (1, 4, 11, 20, 30))


def depths():
    points = [(0, 0, K), (K3, -K3, K3), (-K2, 0, -K2), direction(), direction()]
    bad = [p for p in ((0, 0, 0), (0, 0, K - 3), (K + 1, 0, 0), (2**31 - 1, -2**31, 0))]
    far = [31, 32, 63, 64, 255, 256, 65535, 65536, 2**31 - 1, 2**31, 2**32 - 1]
    for depth in [*range(0, 21), *far]:
        yield from (look(p, depth) for p in points + bad)


def borders():
    """Points with components 0: the axes, the arcs between them near both ends and in between, with each sign."""
    ends = (1, 2, 3, 1023, 1024, 2047, 2048, 46341, 300000, K2, 1000000)
    pairs = [(a, isqrt(K * K - a * a)) for a in ends]
    points = {tuple(s * K if k == m else 0 for k in range(3)) for m in range(3) for s in (1, -1)}
    for a, b in pairs:
        for x, y in ((s * a, t * b) for s in (1, -1) for t in (1, -1)):
            points |= {into_rule(p) for p in ((x, y, 0), (y, 0, x), (0, x, y))}
    for n, p in enumerate(sorted(points)):
        for depth in (range(1, 13) if p.count(0) == 2 else (1, 2 + n % 11)):
            yield look(p, depth)


def corners_and_middles():
    """Corners, middles of edges and middles of trixels, looked up around the trixel's depth and at 12."""
    seen = set()
    for depth in range(1, 12):
        first, last = span(depth)
        ids = range(first, last + 1) if depth <= 2 else [first, last, *(trixel_at(depth) for _ in range(5))]
        for i in ids:
            v = htm.trixel(i)[0]
            sums = [htm.add(v[0], v[1]), htm.add(v[1], v[2]), htm.add(v[0], v[2]), htm.add(*v)]
            for p in [*v, *(htm.unit(s) for s in sums)]:
                seen |= {(into_rule(p), d) for d in (depth, depth + 1, 12)}
    yield from (look(*s) for s in sorted(seen))


def lattice(c):
    """Where c's largest component is K or -K: its place m, the other two places, and two short vectors of the lattice of those two
    components of p for which c·p can be 0."""
    m = max(range(3), key=lambda k: abs(c[k]))
    r, s = (k for k in range(3) if k != m)
    a, b = c[r], c[s]
    g = gcd(b, K)
    u = g // gcd(a, g)
    v = -(a * u // g) * pow(b // g, -1, K // g) % (K // g) if g < K else 0
    e, f = (u, v), (0, K // g)
    while True:                                     # reduce the pair: the shorter one is taken from the longer one
        if e[0]**2 + e[1]**2 > f[0]**2 + f[1]**2:
            e, f = f, e
        n = e[0]**2 + e[1]**2
        q = (2 * (e[0] * f[0] + e[1] * f[1]) + n) // (2 * n)
        if q == 0:
            return m, r, s, e, f
        f = f[0] - q * e[0], f[1] - q * e[1]


def on_plane(c, start, end, steps):
    """Vectors p with c·p exactly 0, near the arc from start to end."""
    m, r, s, e, f = lattice(c)
    det = e[0] * f[1] - e[1] * f[0]
    for k in range(steps + 1):
        t = htm.unit(tuple((steps - k) * x + k * y for x, y in zip(start, end)))
        i, j = (t[r] * f[1] - t[s] * f[0]) // det, (e[0] * t[s] - e[1] * t[r]) // det
        for x, y in ((i, j), (i + 1, j), (i, j + 1), (i + 1, j + 1)):
            p = [0, 0, 0]
            p[r], p[s] = x * e[0] + y * f[0], x * e[1] + y * f[1]
            p[m] = -(c[r] * p[r] + c[s] * p[s]) // c[m]
            if htm.is_vector(p):
                assert htm.dot(c, p) == 0
                yield tuple(p)


def cut_arcs(i):
    """The three planes of the cut of a trixel, each with the ends of its arc."""
    v0, v1, v2 = htm.trixel(i)[0]
    w0, w1, w2 = (htm.unit(htm.add(*pair)) for pair in ((v1, v2), (v0, v2), (v0, v1)))
    return zip(htm.cut(htm.trixel(i))[0], (w2, w0, w1), (w1, w2, w0))


def ties():
    """Points that lie exactly on the plane of a cut, C·p = 0, in the child that such a tie goes to. Middles of edges are off these planes by
    rounding, from the second cut on. Up to four for each depth of the cut trixel and each plane; for one of these there are none."""
    for depth in range(1, 12):
        for child in range(3):
            found = set()
            for n in range(20000 if depth > 2 else 2 * 4**depth):
                i = trixel_at(depth) if depth > 2 else span(depth)[0] + n
                c, start, end = list(cut_arcs(i))[child]
                found |= {p for p in on_plane(c, start, end, 2 + 4096 // 2**depth) if htm.lookup(p, depth + 1) == 4 * i + child}
                if len(found) >= 4:
                    break
            for p in sorted(found)[::1 + len(found) // 5][:4]:
                yield from (look(p, d) for d in (depth + 1, 12))


def squares(n):
    """Every way to write n as a sum of four squares, in falling order."""
    for a in range(isqrt(n), 0, -1):
        for b in range(min(a, isqrt(n - a * a)), -1, -1):
            for c in range(min(b, isqrt(n - a * a - b * b)), -1, -1):
                d = isqrt(n - a * a - b * b - c * c)
                if d <= c and a * a + b * b + c * c + d * d == n:
                    yield a, b, c, d


def exactly(n, count):
    """Points whose length is exactly n."""
    ways = squares(n)
    for _ in range(count):
        a, b, c, d = next(ways)
        p = (a * a + b * b - c * c - d * d, 2 * (b * c + a * d), 2 * (b * d - a * c))
        assert htm.dot(p, p) == n * n
        yield p


def lengths():
    """Shortest and longest vectors: exactly (K − 2)² and (K + 2)² long, and on both sides of these."""
    exact = [p for n in (K - 2, K + 2) for p in exactly(n, 12)]
    for n, p in enumerate(exact):
        steps = [(0, 0, 0), (1, 0, 0), (-1, 0, 0), (0, 1, 0), (0, -1, 0), (0, 0, 1), (0, 0, -1)]
        yield from (look(htm.add(p, s), 1 + n % 12) for s in steps)
    for n in range(60):
        x, y, z = sorted(direction(), key=abs)
        for radius in (K - 2, K + 2):
            size = isqrt(radius * radius - x * x - y * y)
            for c in (size, size + 1):
                p = [x, y]
                p.insert(n % 3, c if z >= 0 else -c)
                yield look(p, 1 + n % 12)


def octants():
    for depth in range(1, 13):
        for x, y, z in ((s, t, u) for s in (1, -1) for t in (1, -1) for u in (1, -1)):
            a, b, c = (abs(t) for t in direction())
            yield from (look((x * a, y * b, z * c), depth), look((x * K3, y * K3, z * K3), depth))


def anywhere():
    yield from (look(direction(), 1 + n % 12) for n in range(900))


def beside_edges():
    """Points on edges and corners of trixels of every depth and up to 4 units beside them, where digits of a jump are not sure."""
    draws = Draws(20261117)
    for depth in range(1, 13):
        first, last = span(depth)
        for _ in range(6):
            v = htm.trixel(draws.between(first, last))[0]
            a, b = v[0], v[1]
            n = draws.below(5)
            for p in (a, htm.unit(tuple(n * x + (4 - n) * y for x, y in zip(a, b)))):
                near = [tuple(c + draws.between(-4, 4) for c in p) for _ in range(3)]
                yield from (look(into_rule(q), 12) for q in (p, *near))


def no_vectors():
    """Just not allowed, far off and out of range: 8; with a bad depth 5, which comes first."""
    far = (K + 1, -K - 1, 2 * K, 2**31 - 1, -2**31)
    points = [(0, 0, 0), (1, 1, 1), (K - 3, 0, 0), (0, 3 - K, 0), (K, K, K), (K, -K, 0), (K, 2049, 2049)]
    points += [tuple(c if k == m else 0 for k in range(3)) for c in far for m in range(3)]
    points += [tuple(2 * c for c in direction()) for _ in range(10)]
    points += [tuple(c // 2 for c in direction()) for _ in range(10)]
    points += [tuple(DRAWS.between(-2**31, 2**31 - 1) for _ in range(3)) for _ in range(20)]
    for n, p in enumerate(points):
        yield from (look(p, 1 + n % 12), look(p, (0, 13, 2**32 - 1)[n % 3]))


def identifiers():
    """Each bit length from 0 to 64: even ones from 4 on have names."""
    ids = [0]
    for n in range(1, 65):
        ids += [2**(n - 1), 2**n - 1, *(2**(n - 1) + DRAWS.below(2**(n - 1)) for _ in range(4))]
    for depth in range(1, 32):
        ids += [i for end in span(depth) for i in (end - 1, end, end + 1) if i < 2**64]
    for i in dict.fromkeys(ids):
        yield line('name', i)
        if DRAWS.below(4) == 0:
            yield line('corners', i)


def names():
    """Good and bad names of each length from the letter alone to 33 digits."""
    for n in range(0, 34):
        digits = [b'0' * n, b'3' * n, *(bytes(b'0123'[DRAWS.below(4)] for _ in range(n)) for _ in range(3))]
        yield from (line('id', letter + d) for letter in (b'S', b'N') for d in digits)
        good = DRAWS.pick([b'S', b'N']) + digits[-1]
        yield from (line('id', b + good[1:]) for b in (b'n', b's', b'E', b'0', b'\xce'))
        yield from (line('id', good[1:]), line('id', good.lower())) if n else ()
        for k in {1, 1 + n // 2, n} if n else ():
            wrong = DRAWS.pick([b'4', b'9', b'/', b'N', b'o', b'-', b'\t', b'\r', b'\x00', b'\xff'])
            yield line('id', good[:k] + wrong + good[k + 1:])
    yield from (line('id', w) for w in (b'NN0', b'SN', b'3N', b'N0\r', b'\x00', b'\xff', b'lookup', b'id', b'N' + b'0' * 300))


def trixel_corners():
    """All of the depths 1 to 3, some of each depth to 12, and none below."""
    yield from (line('corners', i) for depth in (1, 2, 3) for i in range(span(depth)[0], span(depth)[1] + 1))
    for depth in range(4, 13):
        yield from (line('corners', i) for i in [*span(depth), *(trixel_at(depth) for _ in range(30))])
    for depth in (13, 14, 20, 30, 31):
        yield from (line('corners', i) for i in [*span(depth), *(trixel_at(depth) for _ in range(3))])


def other_shapes():
    """Lines that are no command, one fault each, and lines that look odd and are commands."""
    good = [b'lookup 0 0 1048576 2', b'name 15', b'id N31', b'corners 15']
    yield from (b'', b' ', b'  ', b'\t', b'\r', b'\x00', b'\xff\xfe', b'?', b'usage', b'help', b'0', b'lookup', b'name', b'id', b'corners')
    for g in good:
        first, rest = g.split(b' ', 1)
        yield from (b' ' + g, g + b' ', b'\t' + g, g + b'\t', g + b'\r', g.replace(b' ', b'\t'), g.replace(b' ', b'  ', 1), g.replace(b' ', b'', 1))
        yield from (g.upper(), first.title() + b' ' + rest, first[:-1] + b' ' + rest, first + b's ' + rest, first + b' ', g + b' 1', g + b' ' + g)
        yield from (b'\xef\xbb\xbf' + g, g + b'\x00', b'"' + g + b'"', g)
    yield from (b'lookup 0 0', b'lookup 0 0 1048576', b'lookup 0 0 1048576 2 2', b'lookup  0 0 1048576 2', b'lookup 0 0  1048576 2', b'lookup 0 0 1048576  2')
    faults = [b'+1', b'--1', b'-', b'+', b'1-', b'- 1', b'1.0', b'1e3', b'0x1', b'1_0', b'1,', b'a', b'\xb2', b'\xd9\xa1', b'N', b'/', b':']
    whole = [b'2147483648', b'-2147483649', b'4294967296', b'-4294967296', b'18446744073709551616', b'9' * 40, b'-' + b'9' * 40, b'1' + b'0' * 300]
    for w in faults + whole:
        yield from (line('lookup', w, 0, 0, 1), line('lookup', 0, w, 0, 1), line('lookup', 0, 0, w, 1))
    depth = [b'-1', b'-0', b'4294967296', b'4294967297', b'18446744073709551617', b'1' + b'0' * 300]
    yield from (line('lookup', 0, 0, K, w) for w in faults + depth)
    large = [b'-1', b'-0', b'18446744073709551616', b'18446744073709551625', b'36893488147419103240', b'9' * 20, b'1' + b'0' * 300]
    yield from (line(c, w) for c in ('name', 'corners') for w in faults + large)


def odd_numbers():
    """Numbers in unusual forms that are taken: leading zeros, −0, the ends of each type."""
    yield from (b'lookup -0 -0 1048576 2', b'lookup 00 -000 0001048576 02', b'lookup 0 0 -01048576 012', b'lookup -00001048576 0 0 0000000000000000012')
    yield from (line('lookup', w, 0, 0, 1) for w in (b'2147483647', b'-2147483648', b'0' * 40, b'-' + b'0' * 40, b'0' * 40 + b'1048576', b'-' + b'0' * 300 + b'1048576'))
    yield from (line('lookup', 0, 0, K, w) for w in (b'0', b'00', b'4294967295', b'0' * 60 + b'12', b'0' * 60 + b'4294967295'))
    ids = (b'08', b'0' * 40 + b'15', b'18446744073709551615', b'0' * 300 + b'18446744073709551615', b'0' * 100)
    yield from (line(c, w) for c in ('name', 'corners') for w in ids)


def long_lines():
    """Around the longest line, and past two blocks; a line after a long one is read from its own beginning."""
    for n in (LINE, LINE + 1, 2 * LINE + 1):
        yield from (b'name ' + b'0' * (n - 7) + b'15', b'name 15')
    yield b'id N' + b'3' * (LINE - 4)


def mounts():
    yield from reports.lines(DRAWS, [list(exactly(n, 12)) for n in (K - 2, K + 2)])


def points():
    yield from regions.points(DRAWS, direction)


def covers():
    yield from cover_cases.lines(DRAWS, direction, into_rule)


def covers_beside_edges():
    yield from cover_cases.edge_lines(Draws(20140522), direction, into_rule)     # draws of their own: the other cases stay as they are


def lines():
    yield from line_cases.lines(DRAWS, direction)


def group_files():
    yield from grouped_cases.lines(DRAWS, direction)


def cases():
    groups = (document_01, document_000, depths, borders, corners_and_middles, ties, beside_edges, lengths, octants, anywhere, no_vectors, identifiers, names,
              trixel_corners, regions.damaged, regions.two_faults, regions.limits, regions.edges, regions.writer_rows, points, regions.planes, regions.region_shapes,
              odd_numbers, other_shapes, long_lines, covers, mounts, lines, group_files, covers_beside_edges,
              regions.check_orders, regions.long_files, regions.long_lines_of_files)
    for group in groups:
        yield from group()
    yield b'id N00000000000'                        # the last line, which ends without a line feed


def runs():
    """The stored runs: the folder of a program, its input and its output."""
    lines = list(cases())
    assert not any(b'\n' in l for l in lines)
    yield HOME, b'\n'.join(lines), [answer(l) for l in lines]
    text = line_cases.text(DRAWS, direction)
    yield CATALOGUE, text, line_cases.catalogue(text, int((CATALOGUE / 'args').read_text()))
    yield archive()


def main():
    differ = []
    for folder, given, answers in runs():
        for name, content in (('stdin', given), ('stdout', ''.join(a + '\n' for a in answers).encode())):
            if '--compare' not in sys.argv:
                (folder / name).write_bytes(content)
            elif (folder / name).read_bytes() != content:
                differ.append(f'crates/{folder.name}/{name}')
    if differ:
        sys.exit('not what the model makes: ' + ' '.join(differ))


def archive():
    """The run of the program archive, from draws of its own."""
    draws = Draws(20250306)
    lines = list(index_cases.lines(draws, lambda: direction(draws), into_rule))
    assert not any(b'\n' in l for l in lines)
    return ARCHIVE, b'\n'.join(lines), list(index_cases.answers(lines, number))


if __name__ == '__main__':
    main()
