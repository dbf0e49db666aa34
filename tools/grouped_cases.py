"""Cases of grouped region files, document 02, F-7: the commands grouped, togrouped and toplain of the program query, and rows, holds and cover of files of
either style. Used by cases.py."""
from struct import pack

import htm
import region_cases as regions
from htm import GROUPED, K, PLAIN
from region_cases import BASE, CONVEX, END, bytes_of, file_of, halfspace, header, rows_line, spread


# ---- the answer of a line

def grouped_answer(numbers):
    return 'usage' if len(numbers) < 2 or None in numbers else htm.write(numbers[0], numbers[1], numbers[2:], GROUPED).hex()


def convert_answer(words, wanted):
    file = bytes_of(words[0]) if len(words) == 1 else None
    return 'usage' if file is None else htm.convert(file, wanted).hex()


# ---- files

def group(*halfspaces):
    """A record of kind 5."""
    return pack('<HH', 4 + 16 * len(halfspaces), 5) + b''.join(pack('<iiii', *n, d) for n, d in halfspaces)


def grouped(convexes, depth=9, budget=64):
    return header(depth, budget) + b''.join(group(*c) for c in convexes) + END


FIRST, SECOND, THIRD = (BASE[0], 5), (BASE[1], -K), (BASE[2], K)
GOOD = [header(), group(FIRST, SECOND), group(THIRD), group(SECOND), END]
BAD = [((0, 0, 0), 0), ((K + 1, 0, 0), 0), (BASE[0], K + 1), (BASE[0], -K - 1), ((0, 0, 0), K + 1)]


def faults(i):
    """Records that fail a check at place i of a good grouped file, one for each way."""
    good = GOOD[i]
    yield from (pack('<H', n) + good[2:] for n in (0, 3, 65535))                                                         # 2
    yield from (good[:2] + pack('<H', kind) + good[4:] for kind in (0, 6, 1280, 65535))                                  # 3
    yield from (pack('<HH', n, 5) + bytes(n - 4) for n in (4, 5, 8, 19, 21, 35, 37, 1603, 1605, 1620))                   # 3
    yield from (pack('<HH', n, k) + bytes(n - 4) for n, k in ((20, 1), (20, 2), (36, 3), (20, 4)))                       # 3
    yield from (pack('<HH', n, 5) + bytes(n - 4) for n in (20, 36, 1604))                                                # 8, and 4 at the head
    if i == 0:
        yield from (group(FIRST), group(*BAD[:1]))                                                                       # 4
        yield from (header(0), header(13), header(9, 2049), header(0, 2049))                                             # 5, 5, 6, 5
        return
    yield from (CONVEX, halfspace(), halfspace((0, 0, 0)), CONVEX + halfspace())                                         # 14, in the first place 4
    yield from (header(), header(0, 2049), b'', END, END + END)                                                          # 4
    for bad in BAD:                                                                                                      # 8, 9: each halfspace in turn
        yield from (group(bad), group(bad, FIRST), group(FIRST, bad), group(FIRST, bad, SECOND), group(FIRST, SECOND, bad))
    yield from (group(a, b) for a in BAD for b in BAD)


def with_fault(records, place, record):
    return b''.join(records[:place] + [record] + records[place + 1:])


def refused():
    """A grouped file for each of the refusals 3 to 9."""
    yield with_fault(GOOD, 1, pack('<HH', 4, 5))
    yield with_fault(GOOD, 1, END)
    yield from (with_fault(GOOD, 0, header(13)), with_fault(GOOD, 0, header(9, 2049)))
    yield grouped(spread(64, 64) + [[FIRST]])
    yield from (with_fault(GOOD, 2, group(FIRST, BAD[0])), with_fault(GOOD, 2, group(FIRST, BAD[2])))


# ---- lines

def grouped_line(depth, budget, rows):
    return ' '.join(['grouped', str(depth), str(budget)] + [str(n) for n in rows]).encode()


def both_ways(file):
    """A file as rows, and converted to either style."""
    yield rows_line(file)
    yield from (command + b' ' + (file.hex().encode() or b'-') for command in (b'togrouped', b'toplain'))


# ---- groups

def damaged_groups():
    """Every refusal at every place of a grouped file, the file cut at each byte, and bytes after it."""
    good = b''.join(GOOD)
    yield from (rows_line(good[:n]) for n in range(len(good) + 1))
    yield from (rows_line(good + tail) for tail in (b'\0', END, CONVEX, group(FIRST), good))
    for i in range(len(GOOD)):
        yield from (rows_line(with_fault(GOOD, i, r)) for r in faults(i))
    for cut in (0, 3, 4, 7, 8, len(good) - 1, len(good)):
        yield from both_ways(good[:cut])
    for file in refused():
        yield from both_ways(file)


def mixed():
    """The second style at every place, alone and with a second fault before it, in it or after it."""
    plain = regions.GOOD
    others = {GROUPED: [CONVEX, halfspace(), halfspace((0, 0, 0)), halfspace(BASE[0], K + 1), CONVEX + CONVEX],
              PLAIN: [group(FIRST), group(BAD[0]), group(*spread(100, 1)[0])]}
    for style, records in ((GROUPED, GOOD), (PLAIN, plain)):
        for i in range(len(records) + 1):
            for other in others[style]:
                yield rows_line(b''.join(records[:i] + [other] + records[i:]))
        for i in range(1, len(records)):
            other = others[style][0]
            for fault in (header(), END, b'\3\0', pack('<HH', 4, 5), pack('<HH', 4, 9), pack('<HH', 21, 3) + bytes(17)):
                yield from (rows_line(b''.join(records[:i] + pair + records[i:])) for pair in ([other, fault], [fault, other]))
    yield from both_ways(b''.join(GOOD[:2] + [CONVEX, halfspace(), END]))
    yield from both_ways(b''.join(plain[:4] + [group(FIRST), END]))
    records = halfspace(), END, CONVEX, group(FIRST), group(BAD[0])
    yield from (rows_line(header() + a + b + END) for a in records for b in records)


def group_lengths():
    """Kind 5 of the lengths around those of 1 and of 100 halfspaces, with as many good halfspaces as fit."""
    short = 4, 5, 6, 7, 8, 12, 16, 18, 19, 20, 21, 22, 24, 28, 32, 34, 35, 36, 37, 52
    long = 1588, 1603, 1604, 1605, 1606, 1619, 1620, 1621, 1636, 8196
    for n, kind in [(n, 5) for n in short + long] + [(n, 261) for n in short]:
        payload = (pack('<iiii', *BASE[0], 7) * (n // 16 + 1))[:n - 4]
        yield rows_line(header() + pack('<HH', n, kind) + payload + END)
    yield from (rows_line(header() + pack('<HH', n, 5) + b''.join(GOOD[1:])) for n in (20, 36, 52, 68))


def group_limits():
    """The limits 64, 100 and 512 from both sides, in files and in rows."""
    sizes = (spread(512, 64), spread(513, 64), spread(64, 64), spread(64, 64) + [[FIRST]], spread(64, 64) + [[BAD[0]]], spread(100, 1), spread(512, 6),
             spread(500, 5) + [[FIRST] * 12], spread(500, 5) + [[FIRST] * 13], spread(500, 5) + [[BAD[0]] * 13], spread(500, 5) + [[FIRST] * 12, [FIRST]],
             spread(500, 5) + [[FIRST] * 11 + [BAD[0]]], spread(500, 5) + [[FIRST] * 12, [BAD[2]]], [[FIRST] * 99 + [BAD[0]]], [[FIRST] * 99 + [BAD[2]]])
    yield from (rows_line(grouped(region, 12, 2048)) for region in sizes)
    yield from (grouped_line(12, 2048, [n for r in htm.rows_of(region) for n in r]) for region in sizes[:4] + sizes[5:6])
    long = grouped(spread(512, 64))
    for file in (long, file_of(spread(512, 64))):
        yield from list(both_ways(file))[1:]
    yield from (rows_line(f) for f in (long + b'\0', long + bytes(10508 - len(long)), long + bytes(10509 - len(long))))
    yield grouped_line(12, 2048, [n for r in htm.rows_of(spread(101, 1)) for n in r])


def grouped_rows():
    """The grouped writer's checks, in their order: those of the plain one."""
    yield from (b'grouped ' + line.split(b' ', 1)[1] for line in regions.writer_rows())
    yield from (b'grouped ' + line.split(b' ', 1)[1] for line in regions.edges() if line.startswith(b'file '))


def round_trips(draws, direction):
    """Random regions in both styles: as rows, converted to either style, their points and their covers."""
    for _ in range(150):
        region = [[(direction(), draws.between(-K, K) // draws.pick((1, 2, 9))) for _ in range(1 + draws.below(4))] for _ in range(1 + draws.below(5))]
        depth, budget = 1 + draws.below(12), draws.pick((0, 1, 16, 2048, draws.below(2049)))
        files = file_of(region, depth, budget), grouped(region, depth, budget)
        for file in files:
            yield from both_ways(file)
        yield grouped_line(depth, budget, [n for r in htm.rows_of(region) for n in r])
        p = direction()
        yield from (regions.holds_line(file, p) for file in files)
        shallow = file_of(region, 1 + depth % 4, budget), grouped(region, 1 + depth % 4, budget)
        yield from (b'cover ' + file.hex().encode() for file in shallow)


def grouped_shapes():
    """Lines of the three commands that are usage, and hex of either case."""
    good = b''.join(GOOD).hex()
    for command in (b'togrouped', b'toplain'):
        yield from (command + b' ' + w for w in (good.upper().encode(), b'', b'0', b'0g', b'--', b'- -', b'00 00', good.encode() + b'0', b'zz', b'-'))
        yield from (command, command.title(), command + b's -')
    yield from (b'grouped', b'grouped 9', b'grouped 9 ', b'grouped 9 64', b'grouped -9 64', b'grouped 9 64 x', b'grouped 9 64 2147483648')
    yield b'group 9 64 0 1048576 0 0 0'


def lines(draws, direction):
    for cases in (damaged_groups, mixed, group_lengths, group_limits, grouped_rows):
        yield from cases()
    yield from round_trips(draws, direction)
    yield from grouped_shapes()
