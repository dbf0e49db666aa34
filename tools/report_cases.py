"""Cases of the commands of the program query for a mount's reports: double and single. Used by cases.py."""
import re
from math import isqrt
from struct import pack, unpack

from htm import K

WORD = {64: 'double', 32: 'single'}
FRACTION = {64: 52, 32: 23}
FORM = {64: ('<d', '<Q'), 32: ('<f', '<I')}


# ---- the answer of a line

def bits_of(word, width):
    """The bits that a word writes in hex, or None: a digit for four of them, no more and no fewer."""
    return int(word, 16) if re.fullmatch(rb'[0-9a-fA-F]{%d}' % (width // 4), word) else None


# ---- floats by their bits

def bits(value, width):
    """Those of the float nearest to a value."""
    float_form, bits_form = FORM[width]
    return unpack(bits_form, pack(float_form, value))[0]


def sign(width):
    return 1 << width - 1


def infinity(width):
    return sign(width) - (1 << FRACTION[width])


def line(report, width, depth):
    return ' '.join([WORD[width], *(f'{b:0{width // 4}x}' for b in report), str(depth)]).encode()


# ---- lines

def directions(draws, width):
    """Any directions: whole numbers drawn from a ball, over their length."""
    n = 0
    while n < 300:
        s = [draws.between(-2**60, 2**60) for _ in range(3)]
        length = isqrt(sum(c * c for c in s))
        if 2**56 <= length <= 2**60:
            yield line([bits(c / length, width) for c in s], width, 1 + n % 12)
            n += 1


def beside_whole_numbers(width, shortest, longest):
    """Components whose 2^20-fold is a whole number, just below it and just above it in size. The vectors are the shortest and the longest of the
    rule, so that one less or one more in a component is refused as 8."""
    for n, p in enumerate(shortest + longest):
        exact = [bits(c / K, width) for c in p]
        for k in range(3):
            if p[k] == 0:
                continue
            more = bits((p[k] + (1 if p[k] > 0 else -1)) / K, width)
            for b in (exact[k] - 1, exact[k], exact[k] + 1, more - 1, more, more + 1):
                yield line([*exact[:k], b, *exact[k + 1:]], width, 1 + n % 12)


def special(width):
    """Bits without their sign: zero, subnormals, the least normal, 2^-20, 0.3, 1, the greatest, each with its neighbours; infinity and NaNs."""
    f, top = FRACTION[width], infinity(width)
    yield from (0, 1, 2, (1 << f) - 1, 1 << f, (1 << f) + 1)
    for value in (2.0**-21, 2.0**-20, 0.3, 0.5, 1.0, 2.0):
        yield from (bits(value, width) + d for d in (-1, 0, 1))
    yield from (top - 1, top)
    quiet = top + (1 << f - 1)
    yield from (top + 1, top + 0x155, quiet - 1, quiet, quiet + 1, quiet + 0x2aa, sign(width) - 1)


def specials(draws, width):
    one, low = bits(1.0, width), sign(width)
    for n, b in enumerate(special(width)):
        for s in (0, low):
            for k in range(3):
                beside = [[0, low][draws.below(2)], [one, one + low, 0][draws.below(3)]]
                yield line([*beside[:k], b + s, *beside[k:]], width, 1 + (n + k) % 12)
                yield line([b + s if j == k else 0 for j in range(3)], width, 1 + (n + k) % 12)
    yield line([bits(-0.3, width), 0, bits((1 - 0.09)**0.5, width)], width, 12)


def orders(width):
    """5 before 12, and 12 before 8."""
    one, top = bits(1.0, width), infinity(width)
    for bad in (top + 1, top, one + 1, sign(width) + one + 1):
        for k in range(3):
            alone, full = ([bad if j == k else c for j in range(3)] for c in (0, one))
            for report in (alone, full):
                yield from (line(report, width, depth) for depth in (0, 1, 12, 13, 2**32 - 1))
        yield line([bad] * 3, width, 0)
    for value in (0.0, 0.5, 1.0):
        yield from (line([bits(value, width)] * 3, width, depth) for depth in (0, 6, 13))


def other_shapes(width):
    digits, word = width // 4, WORD[width].encode()
    good = line([0, 0, bits(-1.0, width)], width, 2).split(b' ')
    first, last = good[1], good[3]
    for k in (1, 2, 3):
        wrong = [good[k][1:], good[k] + b'0', good[k] * 2, good[k][:digits // 2], b'0', b'1.0', b'-' + good[k][1:], b'+' + good[k][1:], b'0x' + good[k][2:]]
        wrong += [good[k][:-1] + c for c in (b'g', b'G', b'/', b':', b'@', b'`', b'_', b'\xff')]
        yield from (b' '.join([*good[:k], w, *good[k + 1:]]) for w in wrong)
    yield from (word, word + b' ', b' '.join(good[:4]), b' '.join(good + [b'2']), b' '.join(good) + b' ', b' '.join(good).replace(b' ', b'  ', 1))
    yield from (b' '.join([*good[:4], d]) for d in (b'-1', b'x', b'4294967296', b'02', b'0'))
    yield b' '.join([word, first.upper(), first, last.upper(), b'2'])
    yield b' '.join([word.upper(), *good[1:]])
    yield b' '.join([word, first, first, last[:2].upper() + last[2:], b'12'])


def lines(draws, edges):
    for width in (64, 32):
        yield from directions(draws, width)
        yield from beside_whole_numbers(width, *edges)
        yield from specials(draws, width)
        yield from orders(width)
        yield from other_shapes(width)
