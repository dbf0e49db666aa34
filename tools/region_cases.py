"""Cases of the region commands of the program query: rows, file, holds. Used by cases.py."""
import re
from math import isqrt
from struct import pack

import htm
from htm import K

LINE = 65536                                        # the longest line, without its line feed
DIGITS = 2 * 10509                                  # how many digits of a file count: it is too long then, whatever follows
BASE = ((K, 0, 0), (3, -K, 7), (-699845, 499889, 599867), (0, 0, -K))
CONVEX, END = pack('<HH', 4, 2), pack('<HH', 4, 4)


# ---- the answer of a line

def is_long(words, place):
    """Whether a line is too long; `place` is that of the word which is a file, if there is one. Of its digits, which are whole pairs or else no file, DIGITS count."""
    more = len(words[place]) - DIGITS if place and place < len(words) else 0
    return len(b' '.join(words)) - max(more, 0) > LINE


def bytes_of(word):
    """The bytes that a word writes in hex, or None; - is the empty file."""
    if word == b'-':
        return b''
    return bytes.fromhex(word.decode()) if re.fullmatch(rb'([0-9a-fA-F]{2})+', word) else None


def rows_answer(words):
    file = bytes_of(words[0]) if len(words) == 1 else None
    if file is None:
        return 'usage'
    depth, budget, convexes = htm.read(file)
    rows = htm.rows_of(convexes)
    return ' '.join(str(n) for n in [depth, budget, len(rows)] + [n for r in rows for n in r])


def file_answer(numbers):
    return 'usage' if len(numbers) < 2 or None in numbers else htm.write(numbers[0], numbers[1], numbers[2:]).hex()


def holds_answer(word, point):
    file = bytes_of(word)
    if file is None or len(point) != 3 or None in point:
        return 'usage'
    return 'yes' if htm.holds_file(file, tuple(point)) else 'no'


# ---- files

def header(depth=9, budget=64):
    return pack('<HHHH', 8, 1, depth, budget)


def halfspace(n=BASE[0], d=0):
    return pack('<HHiiii', 20, 3, *n, d)


def file_of(convexes, depth=9, budget=64):
    return header(depth, budget) + b''.join(CONVEX + b''.join(halfspace(n, d) for n, d in c) for c in convexes) + END


def spread(count, convexes):
    """A region of `count` halfspaces, as evenly as may be in `convexes` convexes."""
    return [[(BASE[(i + k) % 4], 1000 * k - i) for k in range((count + i) // convexes)] for i in range(convexes)]


GOOD = [header(), CONVEX, halfspace(BASE[0], 5), halfspace(BASE[1], -K), CONVEX, halfspace(BASE[2], K), END]


def faults(i):
    """Records that fail a check at place i of a good file, one for each way."""
    good = GOOD[i]
    yield from (pack('<H', n) + good[2:] for n in (0, 3, 65535))                        # 2
    yield from (good[:2] + pack('<H', kind) + good[4:] for kind in (0, 5, 256, 65535))   # 3
    yield pack('<H', len(good) + 1) + good[2:] + b'\0'
    yield from (pack('<HH', n, k) + bytes(n - 4) for n, k in ((7, 1), (9, 1), (5, 2), (19, 3), (21, 3), (6, 4)))
    if i == 0:
        yield from (header(d, b) for d in (0, 13, 65535) for b in (64, 2049))           # 5
        yield from (header(12, b) for b in (2049, 65535))                               # 6
        yield from (CONVEX, halfspace(), END)                                           # 4
        return
    yield from (header(), header(0, 2049), b'', END)
    yield from (halfspace(n) for n in ((0, 0, 0), (K + 1, 0, 0), (0, -K - 1, 0), (0, K, 2**31 - 1), (-2**31, 0, K), (1, 2, 3)))   # 8
    yield from (halfspace(BASE[0], d) for d in (K + 1, -K - 1, 2**31 - 1, -2**31))       # 9
    yield halfspace((0, 0, 0), K + 1)
    yield CONVEX + CONVEX


def with_fault(place, record):
    return b''.join(GOOD[:place] + [record] + GOOD[place + 1:])


# ---- lines

def rows_line(file):
    return b'rows ' + (file.hex().encode() or b'-')


def file_line(depth, budget, rows):
    return ' '.join(['file', str(depth), str(budget)] + [str(n) for n in rows]).encode()


def holds_line(file, p):
    return b'holds ' + (file.hex().encode() or b'-') + ' {} {} {}'.format(*p).encode()


# ---- groups

def damaged():
    """Every refusal of the reader at every place, the good file cut at each byte, and bytes after it."""
    good = b''.join(GOOD)
    yield from (rows_line(good[:n]) for n in range(len(good) + 1))
    yield from (rows_line(good + tail) for tail in (b'\0', END, CONVEX, good))
    for i in range(len(GOOD)):
        yield from (rows_line(with_fault(i, r)) for r in faults(i))


def two_faults():
    """Two faults in one file, in both orders."""
    picked = [pack('<HH', 3, 3), pack('<HH', 4, 9), header(), halfspace((0, 0, 0)), halfspace(BASE[0], K + 1)]
    for a in picked:
        for b in picked:
            yield rows_line(b''.join([header(), CONVEX, halfspace(), a, b, END]))
        yield from (rows_line(header(d, b) + a) for d, b in ((0, 64), (9, 2049), (0, 2049)))
        yield rows_line(a + header(0, 2049))
        yield from (holds_line(b''.join([header(), CONVEX, a, END]), p) for p in ((0, 0, 0), (K, 0, 0)))


def limits():
    """The limits 64, 100, 512 and 10508 from both sides."""
    full = file_of(spread(512, 64))
    for file in (full, full + b'\0', full[:-1], bytes(10508), bytes(10509), file_of(spread(513, 64)), file_of(spread(512, 64) + [[(BASE[0], 0)]]),
                 file_of(spread(64, 64)), file_of(spread(64, 64) + [[(BASE[0], 0)]]), file_of(spread(65, 64) + [[]]), file_of([[]] + spread(64, 64)),
                 file_of(spread(100, 1)), file_of(spread(101, 1)), file_of(spread(100, 1) + [[((0, 0, 0), 0)]]),
                 file_of([[(BASE[0], 0)] * 100 + [((0, 0, 0), 0)]]), file_of(spread(512, 6)), file_of(spread(512, 6) + [[((0, 0, 0), 0)]])):
        yield rows_line(file)
    yield holds_line(full, BASE[2])
    for region in (spread(512, 64), spread(513, 64), spread(64, 64), spread(65, 65), spread(101, 1), spread(100, 1)):
        yield file_line(12, 2048, [n for r in htm.rows_of(region) for n in r])


def edges():
    """Depths, budgets, vectors and offsets at their edges, both ways."""
    for depth, budget in ((1, 0), (12, 2048), (1, 2048), (12, 0), (0, 0), (13, 0), (1, 2049), (0, 2049), (65535, 65535)):
        yield rows_line(file_of([[(BASE[0], 0)]], depth, budget))
        yield file_line(depth, budget, [0, K, 0, 0, 0])
    yield from (file_line(d, b, [0, K, 0, 0, 0]) for d, b in ((2**32 - 1, 0), (1, 2**32 - 1), (2**32, 0), (1, 2**32)))
    for n in ((K, K, K), (K - 2, 0, 0), (K - 3, 0, 0), (0, K - 3, 1449), (0, K - 3, 1448), (K, 2048, 2), (K, 2048, 3), (-K, -2048, -2), (-K, 0, 1), (0, K + 1, 0)):
        for d in (0, K, -K, K + 1, -K - 1):
            yield rows_line(file_of([[(n, d)]]))
            yield file_line(9, 64, [0, *n, d])


def writer_rows():
    """The writer's checks, in their order."""
    good = [[0, K, 0, 0, 5], [0, 3, -K, 7, -K], [1, 0, 0, -K, K]]
    flat = [n for r in good for n in r]
    yield from (file_line(9, 64, flat[:n]) for n in range(len(flat) + 1))
    yield from (file_line(d, b, rows) for d, b in ((0, 0), (13, 2049), (9, 2049)) for rows in ([], flat, [7]))
    for i in range(3):
        for row in ([-1, K, 0, 0, 0], [-2**31, K, 0, 0, 0], [2**31 - 1, K, 0, 0, 0], [3, K, 0, 0, 0], [0, 0, 0, 0, 0], [1, K, 0, 0, K + 1], [0, K, K + 1, 0, K + 1],
                    [2, K, 0, 0, -K - 1], [0, 1, 2, 3, 4], [5, 0, 0, 0, K + 1]):
            yield file_line(9, 64, [n for r in good[:i] + [row] + good[i + 1:] for n in r])
    first = [n for k in range(64) for n in [k, K, 0, 0, k]]
    yield from (file_line(9, 64, first + [k, K, 0, 0, 0]) for k in (63, 64, 65, 62, -1))
    yield file_line(9, 64, first + [64, 0, 0, 0, K + 1])
    yield file_line(9, 64, [0, K, 0, 0, K + 1, 5, K, 0, 0, 0])
    yield from (file_line(9, 64, [0, K, 0, 0, 0] * n) for n in (99, 100, 101))


def check_orders():
    """Two faults in one record or row list, where the earlier check decides: the 65th convex after an empty 64th (4 and not 7), and row lists not in whole
    fives with a bad row (4 and not 7, 8 or 9); each beside the one with the later fault alone."""
    for convex in ([], [(BASE[0], 0)]):
        file = file_of(spread(63, 63) + [convex, [(BASE[1], 0)]]).hex().encode()
        yield from (command + b' ' + file for command in (b'rows', b'cover', b'togrouped'))
    for rows in ([0, 0, 0, 0, 0], [0, K, 0, 0, K + 1], [0, K, 0, 0, 0] * 101):
        for more in range(5):
            yield from (b' '.join([command, *file_line(9, 64, rows + [0] * more).split(b' ')[1:]]) for command in (b'file', b'grouped'))


def points(draws, direction):
    """Points inside, outside and on the plane, against one and several convexes."""
    yield from (holds_line(file_of([[((0, 0, K), d)]]), p) for d in (-K, 1 - K, 0, K - 1, K) for p in ((0, 0, -K), (0, 0, K), (K, 0, 0), (K, 0, 1), (K, 0, -1)))
    yield from (holds_line(file_of([[((0, 0, K), -K)]]), p) for p in ((0, 0, 0), (K + 1, 0, 0), (-2**31, 0, 0), (1, 1, 1), (0, 0, 2**31 - 1)))
    yield from (holds_line(b'', p) for p in ((K, 0, 0), (0, 0, 0)))
    for n in range(300):
        region = [[(direction(), draws.between(-K, K) // draws.pick((1, 2, 9))) for _ in range(1 + draws.below(3))] for _ in range(1 + draws.below(4))]
        file = file_of(region, 1 + draws.below(12), draws.below(2049))
        yield rows_line(file)
        yield file_line(1 + draws.below(12), draws.below(2049), [n for r in htm.rows_of(region) for n in r])
        yield from (holds_line(file, direction()) for _ in range(3))


SLANTED = (((-611568, 832792, 178755), (-726097, 431045, -621688), 659846),     # n·p - d·K is 0
           ((-344619, -302421, -943022), (776911, 700356, 73637), -523550),     # 1
           ((-367595, 417673, 888782), (29899, -929454, 484493), 29955))        # -1


def planes():
    """Points exactly on planes and one unit to either side: one halfspace, its opposite, both as two convexes and as one; d = K and d = -K. And directions
    in general position, where n·p is d·K or one unit beside it, with a second halfspace in the convex that holds the point or refuses it."""
    for axis in range(3):
        for z in (-K, 1 - K, -741455, -1, 0, 1, 300000, 741455, K - 1, K):
            for sign in (1, -1):
                n = [0, 0, 0]
                n[axis] = sign * K
                away, p = isqrt(K*K - z*z), [0, 0, 0]
                p[axis], p[axis - 1] = z, away if axis else -away
                for d in (sign * z - 1, sign * z, sign * z + 1):
                    if -K <= d <= K:
                        h, o = (tuple(n), d), (tuple(-c for c in n), -d)
                        yield from (holds_line(file_of(r), tuple(p)) for r in ([[h]], [[o]], [[h], [o]], [[h, o]]))
    for x in (0, 1, 20000, 524288, 741455, K):
        y = isqrt(K*K - x*x)
        h, o = ((x, y, 0), 0), ((-x, -y, 0), 0)
        for p in ((-y, x, 0), (y, -x, 0), (0, 0, K), (0, 0, -K), (x, y, 0)):
            yield from (holds_line(file_of(r), p) for r in ([[h]], [[o]], [[h], [o]], [[h, o]]))
    for n, p, offset in SLANTED:
        for d in (offset - 1, offset, offset + 1):
            h, o = (n, d), (tuple(-c for c in n), -d)
            beside, behind = (p, 0), (tuple(-c for c in p), 0)
            yield from (holds_line(file_of(r), p) for r in ([[h]], [[o]], [[h], [o]], [[h, o]], [[h, beside]], [[h, behind]], [[o, behind]], [[behind, h]]))


def region_shapes():
    """Lines of the region commands that are usage, and hex of either case."""
    good = b''.join(GOOD)
    yield from (b'rows ' + w for w in (good.hex().upper().encode(), b'', b'0', b'0g', b'--', b'- -', b'-0', b'00 00', b'0x00', good.hex().encode() + b'0', b'zz'))
    yield from (b'rows', b'file', b'holds', b'file 9', b'file 9 ', b'file 9 64', b'file -9 64', b'file 9 64 x', b'file 9 64 2147483648', b'file 9 64 -2147483649', b'file 9 64 +1')
    yield from (b'holds ' + w for w in (b'-', b'- 1 2', b'- 1 2 3 4', b'- 1 2 x', b'0 1 2 3', b'1 2 3', b'- 1 2 2147483648'))
    yield from (b'rows ' + b'00' * 32765, b'rows ' + b'0' * 65531, b'rows ' + b'00' * 10509)


def digits(count):
    """`count` digits, 16 different ones in turn."""
    return (b'0123456789abcdef' * (count // 16 + 1))[:count]


def spoilt(count, *places):
    """`count` digits, and at these places another byte."""
    word = bytearray(digits(count))
    for n, place in enumerate(places):
        word[place] = b'gG/:-@'[n]
    return bytes(word)


def long_files():
    """Files that are too long, up to past several blocks: refused 1, or 13 as a catalogue line, where the line has the right shape; an odd number of digits, another
    byte at and behind the last digit that counts, and faults behind the file. A line after such a one is read from its own beginning."""
    point, few = b' 0 0 1048576', digits(DIGITS + 2)
    yield from (b'rows ' + digits(2 * 32767), b'rows -', b'holds ' + digits(2 * 32768) + point, b'name 15', b'cover ' + digits(2 * 32769), b'togrouped ' + digits(2 * 40000))
    yield from (b'rows ' + digits(2 * 200000), b'lookup 0 0 1048576 2', b'toplain ' + few, b'line ' + digits(2 * 32767) + b' 12')
    yield from (b'holds ' + digits(DIGITS + 1) + point, b'cover ' + few + b'0')
    yield from (b'rows ' + spoilt(DIGITS + 2, place) for place in (DIGITS, DIGITS + 1))
    yield b'holds ' + spoilt(DIGITS + 3, DIGITS - 1, DIGITS) + point
    yield b'rows ' + few + b' 0'
    yield from (b'holds ' + few + w for w in (b' 0 0', b' 0 0 2147483648', b' 0 0 0'))


def long_lines_of_files():
    """The longest line whose file counts in part, and one that is a byte longer: numbers in unusual forms behind the file."""
    for n in (0, 1):
        yield b'holds ' + digits(DIGITS + 2) + b' 0 0 ' + b'0' * (LINE - DIGITS - 6 - 5 - 7 + n) + b'1048576'
