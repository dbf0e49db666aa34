"""Tests of htmsky. HTM_LIBRARY_PATH=target/lib python3 hosts/python/test_htmsky.py; HTMSKY_NUMPY=no runs them as if there were no numpy."""
import array
import bisect
import doctest
import math
import os
import pathlib
import pickle
import random
import re
import shutil
import subprocess
import sys
import tempfile
import threading
import unittest

sys.dont_write_bytecode = True
if os.environ.get("HTMSKY_NUMPY") == "no":
    sys.modules["numpy"] = None
try:
    import numpy as np
except ImportError:
    np = None

HERE = pathlib.Path(__file__).resolve().parent
sys.path.insert(0, str(HERE))
import htmsky
from htmsky import K, Refused

NORTH = [[(0, 0, K, 0)]]
ARCSEC = 1 / 3600


def load_tests(loader, tests, pattern):
    """The examples of the docstrings, and those of docs/DATABASES.md in its blocks that begin with ```pycon, are tests too; of the latter one has numpy."""
    tests.addTests(doctest.DocTestSuite(htmsky))
    text = (HERE.parent.parent / "docs" / "DATABASES.md").read_text(encoding="utf-8")
    blocks = [block for block in re.findall(r"^```pycon\n(.*?)^```$", text, flags=re.M | re.S) if np or "import numpy" not in block]
    assert len(blocks) > 5, "docs/DATABASES.md has no examples"
    tests.addTest(doctest.DocTestCase(doctest.DocTestParser().get_doctest("\n".join(blocks), {}, "DATABASES.md", "DATABASES.md", 0)))
    return tests


# ---- the plain model: directions as unit vectors of floats

def vector(ra, dec):
    a, d = math.radians(ra), math.radians(dec)
    return math.cos(d) * math.cos(a), math.cos(d) * math.sin(a), math.sin(d)


def dot(u, v):
    return sum(a * b for a, b in zip(u, v))


def cross(u, v):
    return u[1] * v[2] - u[2] * v[1], u[2] * v[0] - u[0] * v[2], u[0] * v[1] - u[1] * v[0]


def angle(u, v):
    """In degrees, also where it is small."""
    return math.degrees(math.atan2(math.sqrt(dot(cross(u, v), cross(u, v))), dot(u, v)))


def direction(draws):
    """A direction drawn evenly from the sky."""
    return draws.uniform(0, 360), math.degrees(math.asin(draws.uniform(-1, 1)))


def beside(draws, ra, dec, radius):
    """A direction within radius degrees of another, drawn about evenly."""
    r, t = radius * math.sqrt(draws.random()), draws.uniform(0, 2 * math.pi)
    u = vector(ra, dec)
    east = vector(ra + 90, 0)
    north = cross(u, east)
    r = math.radians(r)
    v = [math.cos(r) * a + math.sin(r) * (math.cos(t) * b + math.sin(t) * c) for a, b, c in zip(u, east, north)]
    return math.degrees(math.atan2(v[1], v[0])), math.degrees(math.asin(max(-1.0, min(1.0, v[2]))))


class Table:
    """Rows of directions in the order of their trixels, as lists."""

    def __init__(self, rows):
        rows = sorted((htmsky.lookup_degrees(*row), *htmsky.pointing(*row), *row) for row in rows)
        self.identifiers, self.x, self.y, self.z, self.ra, self.dec = map(list, zip(*rows))
        self.vectors = [vector(*row) for row in zip(self.ra, self.dec)]

    def columns(self):
        return self.identifiers, self.x, self.y, self.z


class Header(unittest.TestCase):
    """The module's numbers are those of include/htm.h and hosts/sky/htm_sky.h."""

    def setUp(self):
        self.header = (HERE / "../../include/htm.h").read_text(encoding="utf-8")
        self.constants = {name: int(value) for name, value in re.findall(r"^#define HTM_(\w+) (\d+)\b", self.header, re.M)}

    def test_constants(self):
        self.assertEqual(self.constants.pop("K"), K)
        for part in ("MAJOR", "MINOR", "PATCH"):
            del self.constants["VERSION_" + part]
        self.assertEqual(self.constants, {name: getattr(htmsky, "_" + name, None) for name in self.constants})
        self.assertGreaterEqual(len(self.constants), 17)

    def test_refusals(self):
        named = re.findall(r"^    HTM_([A-Z]+) = (\d+),? ", self.header, re.M)
        self.assertEqual(htmsky.WORDS, {int(number): name.lower() for name, number in named})

    def test_version(self):
        self.assertIn(f'lib{{library}}.so.{self.constants["VERSION_MAJOR"]}"', (HERE / "htmsky.py").read_text(encoding="utf-8"))

    def test_pieces(self):
        sky = (HERE / "../sky/htm_sky.h").read_text(encoding="utf-8")
        self.assertIn("#define SKY_PIECES (3 * HTM_MAX_BUDGET)\n", sky)
        self.assertEqual(htmsky._PIECES, 3 * self.constants["MAX_BUDGET"])
        self.assertIn("#define SKY_FILED_DEPTH HTM_MAX_DEPTH\n", sky)
        self.assertEqual(htmsky.FILED_DEPTH, self.constants["MAX_DEPTH"])


class Directions(unittest.TestCase):
    def test_axes(self):
        self.assertEqual(htmsky.pointing(0, 0), (K, 0, 0))
        self.assertEqual(htmsky.pointing(90, 0), (0, K, 0))
        self.assertEqual(htmsky.pointing(0, 90), (0, 0, K))
        self.assertEqual(htmsky.pointing(-360, -90), (0, 0, -K))
        self.assertEqual(htmsky.pointing(-90, 0), htmsky.pointing(270, 0))

    def test_formula(self):
        draws = random.Random(1)
        for _ in range(2000):
            row = direction(draws)
            for ours, true in zip(htmsky.pointing(*row), vector(*row)):
                self.assertLessEqual(abs(ours - K * true), 0.5 + 1e-6)

    def test_lookups_agree(self):
        draws = random.Random(2)
        for _ in range(500):
            row = direction(draws)
            p = htmsky.pointing(*row)
            deepest = htmsky.lookup(*p)
            for depth in range(1, 13):
                self.assertEqual(htmsky.lookup(*p, depth), deepest >> 2 * (12 - depth))
                self.assertEqual(htmsky.lookup_degrees(*row, depth), htmsky.lookup(*p, depth))
            self.assertEqual(htmsky.lookup_floats(*(c / K for c in p)), deepest)
        self.assertEqual(htmsky.lookup_floats(0.0, 0.6, 0.8, single=True), htmsky.lookup(0, 629145, 838860))
        self.assertEqual(htmsky.lookup_floats(0, 0, -1), htmsky.lookup(0, 0, -K))
        self.assertEqual(htmsky.lookup_line(b"0.0 0.6 -0.8\n"), htmsky.lookup(0, 629145, -838860))
        self.assertEqual(htmsky.lookup_line(bytearray(b"0.0 0.6 -0.8\n"), depth=3), htmsky.lookup(0, 629145, -838860, 3))

    def test_names(self):
        draws = random.Random(3)
        for depth in range(1, 32):
            for _ in range(20):
                name = draws.choice("SN") + "".join(draws.choice("0123") for _ in range(depth))
                number = int("1" + {"S": "0", "N": "1"}[name[0]] + "".join(f"{int(d):02b}" for d in name[1:]), 2)
                self.assertEqual(htmsky.identifier(name), number)
                self.assertEqual(htmsky.name(number), name)

    def test_corners(self):
        draws = random.Random(4)
        for _ in range(200):
            row = direction(draws)
            three = htmsky.corners(htmsky.lookup_degrees(*row, 6))
            middle = [sum(c) for c in zip(*three)]
            self.assertLess(angle(middle, vector(*row)), 3)
            for corner in three:
                self.assertAlmostEqual(math.sqrt(dot(corner, corner)), K, delta=2)


class Columns(unittest.TestCase):
    def setUp(self):
        draws = random.Random(5)
        rows = [direction(draws) for _ in range(300)]
        self.ra, self.dec = map(list, zip(*rows))
        self.file = htmsky.cone(100, 10, 60)

    def test_lists(self):
        ra, dec = self.ra, self.dec
        one_by_one = [htmsky.pointing(*row) for row in zip(ra, dec)]
        xyz = htmsky.pointing(ra, dec)
        self.assertEqual(list(zip(*xyz)), one_by_one)
        self.assertEqual(htmsky.lookup_degrees(ra, dec, 9), [htmsky.lookup_degrees(*row, 9) for row in zip(ra, dec)])
        held = htmsky.holds(self.file, *xyz)
        self.assertEqual(held, [htmsky.holds(self.file, *p) for p in one_by_one])
        self.assertEqual(held, htmsky.holds_degrees(self.file, ra, dec))
        self.assertTrue(any(held) and not all(held) and type(held[0]) is bool)

    def test_other_sequences(self):
        whole = list(range(90))
        expected = htmsky.lookup_degrees(whole, whole)
        for kind in (tuple, lambda v: array.array("d", v), lambda v: array.array("i", v), lambda v: range(90)):
            self.assertEqual(htmsky.lookup_degrees(kind(whole), kind(whole)), expected)
        self.assertEqual(htmsky.lookup_degrees(whole, 5), htmsky.lookup_degrees(whole, [5] * 90))
        self.assertEqual(htmsky.pointing(7, whole), htmsky.pointing([7] * 90, whole))

    def test_empty(self):
        self.assertEqual(htmsky.pointing([], []), ([], [], []))
        self.assertEqual(htmsky.lookup_degrees([], []), [])
        self.assertEqual(htmsky.holds(self.file, [], [], []), [])
        with self.assertRaises(Refused):
            htmsky.holds(b"", [], [], [])

    def test_bad_rows(self):
        with self.assertRaisesRegex(ValueError, "row 2: the right ascension"):
            htmsky.lookup_degrees([0, 1, math.nan], [0, 0, 0])
        with self.assertRaisesRegex(ValueError, "row 1: the declination"):
            htmsky.pointing([0, 1], [0, 90.001])
        with self.assertRaises(Refused) as caught:
            htmsky.holds(self.file, [K, 5], [0, 5], [0, 5])
        self.assertEqual((caught.exception.number, caught.exception.row), (8, 1))
        self.assertTrue(str(caught.exception).startswith("row 1: refused 8 (vector)"))
        with self.assertRaises(Refused) as caught:
            htmsky.lookup_degrees([1.0], [1.0], 13)
        self.assertEqual(caught.exception.number, 5)
        with self.assertRaisesRegex(ValueError, "ra has 2, dec has 3"):
            htmsky.pointing([1, 2], [1, 2, 3])
        with self.assertRaisesRegex(TypeError, r"x\[1\] is 0.5"):
            htmsky.holds(self.file, [0, 0.5], [0, 0], [K, K])
        with self.assertRaisesRegex(ValueError, r"y\[0\] is 2147483648"):
            htmsky.holds(self.file, [0], [1 << 31], [0])
        for bad in ("1", None, 1j, [1]):
            with self.assertRaisesRegex(TypeError, r"dec\[1\]"):
                htmsky.lookup_degrees([0, 0], [0, bad])

    @unittest.skipUnless(np, "numpy is missing")
    def test_arrays(self):
        ra, dec = np.array(self.ra), np.array(self.dec)
        xyz = htmsky.pointing(ra, dec)
        self.assertEqual([c.dtype for c in xyz], [np.int32] * 3)
        self.assertEqual(tuple(c.tolist() for c in xyz), htmsky.pointing(self.ra, self.dec))
        found = htmsky.lookup_degrees(ra, dec)
        self.assertEqual(found.dtype, np.int64)
        self.assertEqual(found.tolist(), htmsky.lookup_degrees(self.ra, self.dec))
        held = htmsky.holds(self.file, *xyz)
        self.assertEqual(held.dtype, bool)
        self.assertEqual(held.tolist(), htmsky.holds_degrees(self.file, self.ra, self.dec))

    @unittest.skipUnless(np, "numpy is missing")
    def test_other_arrays(self):
        whole = np.arange(80)
        expected = htmsky.lookup_degrees(whole.tolist(), whole.tolist())
        frozen = whole.astype(float)
        frozen.flags.writeable = False
        for kind in (whole, frozen, whole.astype("f4"), whole.astype(">f8"), whole.astype("u1"), np.repeat(whole, 3)[::3], np.asfortranarray(whole)):
            self.assertEqual(htmsky.lookup_degrees(kind, kind).tolist(), expected)
        square = whole.reshape(8, 10)
        self.assertEqual(htmsky.lookup_degrees(square, square).tolist(), np.array(expected).reshape(8, 10).tolist())
        self.assertEqual(htmsky.lookup_degrees(square.T, square.T).tolist(), np.array(expected).reshape(8, 10).T.tolist())
        self.assertEqual(htmsky.lookup_degrees(whole[:, None], whole[None, :]).shape, (80, 80))
        self.assertEqual(htmsky.lookup_degrees(whole, 5).tolist(), htmsky.lookup_degrees(whole.tolist(), 5))
        self.assertEqual(htmsky.lookup_degrees(np.array(3.0), np.float32(3)), htmsky.lookup_degrees(3, 3))
        self.assertEqual(htmsky.lookup_degrees(np.float64(3), np.int16(3)), htmsky.lookup_degrees(3, 3))
        self.assertEqual(htmsky.lookup_degrees(np.array([]), np.array([])).shape, (0,))
        self.assertEqual(htmsky.holds(self.file, np.array([K], "i8"), np.array([0], "u1"), [0]).tolist(), [htmsky.holds(self.file, K, 0, 0)])

    @unittest.skipUnless(np, "numpy is missing")
    def test_bad_arrays(self):
        zero = np.zeros(3)
        with self.assertRaisesRegex(ValueError, "row 2: the right ascension"):
            htmsky.lookup_degrees(np.array([0, 1, np.inf]), zero)
        with self.assertRaisesRegex(ValueError, "row 1: the declination"):
            htmsky.pointing(zero, np.array([0, np.nan, 0]))
        with self.assertRaisesRegex(ValueError, "masked"):
            htmsky.lookup_degrees(np.ma.masked_array([1.0, 2, 3], [0, 1, 0]), zero)
        for bad in (np.array(["a", "b", "c"]), np.array([None, 1, 2]), np.array([True, False, True]), np.array([1j, 2, 3]), np.array([1, 2, 3], "m8[s]")):
            with self.assertRaises(TypeError):
                htmsky.lookup_degrees(bad, zero)
        whole = np.zeros(3, int)
        with self.assertRaisesRegex(TypeError, "float64"):
            htmsky.holds(self.file, zero, whole, whole)
        with self.assertRaisesRegex(ValueError, "x is 4294967296"):
            htmsky.holds(self.file, np.array([1 << 32, 0, 0]), whole, whole)
        with self.assertRaisesRegex(ValueError, "y is -4294967296"):
            htmsky.holds(self.file, whole, np.array([-1 << 32, 0, 0]), whole)
        with self.assertRaises(ValueError):
            htmsky.lookup_degrees(zero, np.zeros(4))
        with self.assertRaises(Refused) as caught:
            htmsky.holds(self.file, whole, whole, np.array([K, K, 1]))
        self.assertEqual((caught.exception.number, caught.exception.row), (8, 2))

        class Quantity(np.ndarray):
            unit = "rad"
        with self.assertRaisesRegex(TypeError, "unit"):
            htmsky.lookup_degrees(zero.view(Quantity), zero)


class BadInput(unittest.TestCase):
    def test_degrees(self):
        for bad in (math.nan, math.inf, -math.inf, 360.0001, -360.0001, 1e300):
            with self.assertRaisesRegex(ValueError, "right ascension"):
                htmsky.pointing(bad, 0)
        for bad in (math.nan, math.inf, 90.0001, -91):
            for call in (htmsky.pointing, htmsky.lookup_degrees, lambda r, d: htmsky.cone(r, d, 1)):
                with self.assertRaisesRegex(ValueError, "declination"):
                    call(0, bad)
        for bad in (math.nan, -0.0001, 180.0001):
            with self.assertRaisesRegex(ValueError, "radius"):
                htmsky.cone(0, 0, bad)
        with self.assertRaisesRegex(ValueError, "too large"):
            htmsky.pointing(10 ** 400, 0)

    def test_polygons(self):
        square = [(10, 0), (12, 0), (12, 2), (10, 2)]
        for corners, words in (([], "at least 3"), (square[:2], "at least 3"), ([(k, 0) for k in range(101)], "at most 100"),
                               ([(10, 0), (10, 0), (12, 2)], "in a row"), ([(10, 0), (190, 0), (12, 2)], "opposite"),
                               ([square[0], square[2], square[1], square[3]], "convex"), (square + [(11, 1)], "convex"),
                               ([(10, 0), (math.nan, 0), (12, 2)], "right ascension"), ([(10, 0), (12, 95), (12, 2)], "declination")):
            with self.assertRaisesRegex(ValueError, words) as caught:
                htmsky.polygon(corners)
            self.assertNotIsInstance(caught.exception, Refused)
        with self.assertRaisesRegex(ValueError, "corner 1 has 3"):
            htmsky.polygon([(1, 2), (1, 2, 3), (3, 4)])
        with self.assertRaises(TypeError):
            htmsky.polygon([(1, 2), 5, (3, 4)])
        with self.assertRaisesRegex(TypeError, "dec of corner 2"):
            htmsky.polygon([(1, 2), (3, 4), (5, "6")])

    def test_types(self):
        file = htmsky.region(NORTH)
        for call in (lambda: htmsky.lookup(0.0, 0, K), lambda: htmsky.lookup(0, 0, K, 12.0), lambda: htmsky.lookup("0", 0, K), lambda: htmsky.name(8.0),
                     lambda: htmsky.name("S0"), lambda: htmsky.identifier(8), lambda: htmsky.identifier(b"S0"), lambda: htmsky.corners(None),
                     lambda: htmsky.region([[(0, 0, float(K), 0)]]), lambda: htmsky.region(NORTH, depth=3.5), lambda: htmsky.region(5),
                     lambda: htmsky.pointing("1", 0), lambda: htmsky.pointing(None, 0), lambda: htmsky.cone(0, 0, "1"), lambda: htmsky.cone(0, 0, 1j),
                     lambda: htmsky.holds("file", 0, 0, K), lambda: htmsky.holds(36, 0, 0, K), lambda: htmsky.holds(None, 0, 0, K), lambda: htmsky.cover([1]),
                     lambda: htmsky.holds(file, 0, 0, float(K)), lambda: htmsky.lookup_line("0.0 0.0 1.0\n"), lambda: htmsky.lookup_floats("0", 0, 1),
                     lambda: htmsky.Index().add(0, 1.0, 0, 0, K), lambda: htmsky.Index().remove(None, 1), lambda: htmsky.Index().trial(0, file, 5, (1, 2)),
                     lambda: htmsky.search(file, 5), lambda: htmsky.search(file, iter([]))):
            with self.assertRaises(TypeError):
                call()

    def test_large_numbers(self):
        file = htmsky.region(NORTH)
        for call in (lambda: htmsky.lookup(1 << 31, 0, 0), lambda: htmsky.lookup((1 << 32) + K, 0, 0), lambda: htmsky.lookup(0, 0, K, (1 << 32) + 12),
                     lambda: htmsky.lookup(0, 0, K, -1), lambda: htmsky.name(1 << 64), lambda: htmsky.name((1 << 64) + 8), lambda: htmsky.name(-8),
                     lambda: htmsky.corners((1 << 64) + 8), lambda: htmsky.region([[(0, 0, K, 1 << 32)]]), lambda: htmsky.region(NORTH, 1 << 32),
                     lambda: htmsky.region(NORTH, 5, (1 << 32) + 5), lambda: htmsky.cone(0, 0, 1, budget=-1), lambda: htmsky.holds(file, 0, 0, (1 << 32) + K),
                     lambda: htmsky.Index().add(1 << 32, 1, 0, 0, K), lambda: htmsky.Index().add(0, 1 << 32, 0, 0, K),
                     lambda: htmsky.Index().trial(0, file, (1 << 32, 1), (1, 2))):
            with self.assertRaisesRegex(ValueError, "not from") as caught:
                call()
            self.assertNotIsInstance(caught.exception, Refused)
        with self.assertRaisesRegex(ValueError, "3 numbers"):
            htmsky.region([[(0, 0, K)]])

    def test_short_messages(self):
        for call in (lambda: htmsky.lookup(list(range(100000)), 0, 0), lambda: htmsky.cone(list(range(100000)), 0, 1), lambda: htmsky.identifier([0] * 100000)):
            with self.assertRaises(TypeError) as caught:
                call()
            self.assertLess(len(str(caught.exception)), 200)

    def test_buffers(self):
        file = htmsky.region(NORTH)
        for kind in (bytearray(file), memoryview(file), array.array("B", file)):
            self.assertTrue(htmsky.holds(kind, 0, 0, K))


class Refusals(unittest.TestCase):
    def refused(self, number, call, *arguments, **named):
        with self.assertRaises(Refused) as caught:
            call(*arguments, **named)
        error = caught.exception
        self.assertEqual((error.number, error.word), (number, htmsky.WORDS[number]))
        self.assertTrue(str(error).startswith(f"refused {number} ({error.word}): "), str(error))
        self.reached.add(number)

    def test_every_number(self):
        """All but 10: the module lends long enough lists."""
        self.reached = set()
        file = htmsky.region(NORTH)
        grouped = htmsky.to_grouped(file)
        index = htmsky.Index()
        for call in (lambda f: htmsky.holds(f, 0, 0, K), htmsky.cover, htmsky.ranges, htmsky.read, htmsky.to_grouped, htmsky.to_plain,
                     lambda f: htmsky.search(f, []), lambda f: index.frames(0, f), lambda f: index.trial(1, f, (1, 1), (2, 2)), lambda f: htmsky.holds(f, [], [], [])):
            self.refused(1, call, bytes(10509))
            self.refused(2, call, b"")
            self.refused(2, call, file[:-1])
            self.refused(3, call, file[:2] + b"\x09" + file[3:])
            self.refused(4, call, file + b"\x04\x00\x04\x00")
            self.refused(5, call, file[:4] + b"\x0d" + file[5:])
            self.refused(6, call, file[:6] + b"\x01\x08" + file[8:])
            self.refused(8, call, file[:24] + b"\x00\x00\x00\x00" + file[28:])
            self.refused(9, call, file[:28] + b"\x01\x00\x10\x00" + file[32:])
            self.refused(14, call, file[:-4] + grouped[8:])
        self.refused(4, htmsky.region, [])
        self.refused(4, htmsky.region, [[]])
        self.refused(4, htmsky.region, [*NORTH, []])
        self.refused(4, htmsky.region, [*NORTH, [], *NORTH])
        self.refused(5, htmsky.region, [], depth=0)
        self.refused(6, htmsky.region, [], budget=2049)
        self.refused(7, htmsky.region, NORTH * 65)
        self.refused(7, htmsky.region, [NORTH[0] * 101])
        self.refused(7, htmsky.region, [NORTH[0] * 64] * 9)
        self.refused(8, htmsky.region, [[(0, 0, K + 3, 0)]])
        self.refused(9, htmsky.region, [[(0, 0, K, K + 1)]], grouped=True)
        for depth in (0, 13, 4294967295):
            self.refused(5, htmsky.lookup, 0, 0, K, depth)
            self.refused(5, htmsky.lookup_degrees, 0, 0, depth)
            self.refused(5, htmsky.lookup_floats, 0, 0, 1, depth)
            self.refused(5, htmsky.lookup_line, b"0.0 0.0 1.0\n", depth)
        self.refused(5, htmsky.cone, 0, 0, 1, depth=13)
        self.refused(6, htmsky.cone, 0, 0, 1, budget=2049)
        self.refused(5, htmsky.polygon, [(0, 0), (1, 0), (0, 1)], depth=13)
        self.refused(8, htmsky.lookup, 1, 2, 3)
        self.refused(8, htmsky.holds, file, 1, 2, 3)
        self.refused(8, htmsky.lookup_floats, 0.5, 0.5, 0.5)
        for bad in ("", "S", "N4", "s0", "S0 ", "Ñ0", "N" + "0" * 32, "S0\0"):
            self.refused(11, htmsky.identifier, bad)
        for bad in (0, 7, 16, 31):
            self.refused(11, htmsky.name, bad)
        self.refused(11, htmsky.corners, 1 << 27)
        for bad in (math.nan, math.inf, 1.0000001, -2):
            self.refused(12, htmsky.lookup_floats, 0, 0, bad)
            self.refused(12, htmsky.lookup_floats, 0, 0, bad, single=True)
        for bad in (b"", b"0.0 0.0 1.0", b"0.0 0.0 1.0\r\n", b"0.0  0.0 1.0\n", b"+0.0 0.0 1.0\n", bytes(40)):
            self.refused(13, htmsky.lookup_line, bad)
        index.add(0, 7, 0, 0, K)
        self.refused(15, index.add, 0, 7, K, 0, 0)
        self.refused(17, index.remove, 1, 7)
        self.refused(8, index.add, 0, 8, 0, 0, 0)
        for owner in (2, 4294967295):
            self.refused(18, index.add, owner, 8, 0, 0, 0)
            self.refused(18, index.remove, owner, 8)
            self.refused(18, index.frames, owner, b"")
            self.refused(18, index.trial, owner, b"", (0, 0), (0, 0))
            self.refused(18, index.entries, owner)
        self.refused(5, index.trial, 0, file, (13, 2049), (0, 0))
        self.refused(6, index.trial, 0, file, (1, 2049), (0, 0))
        self.refused(5, index.trial, 0, file, (1, 2048), (0, 2049))
        for number in range(1, 1024):
            index.add(0, 1000 + number, 0, 0, K)
        self.refused(16, index.add, 0, 5, 0, 0, K)
        index.add(1, 5, 0, 0, K)
        self.assertEqual(self.reached, set(range(1, 19)) - {10})

    def test_pickled(self):
        error = pickle.loads(pickle.dumps(Refused(8, 3)))
        self.assertEqual((error.number, error.word, error.row, str(error)), (8, "vector", 3, str(Refused(8, 3))))

    def test_words(self):
        for number, word in htmsky.WORDS.items():
            self.assertTrue(str(Refused(number)).startswith(f"refused {number} ({word}): "))


class Files(unittest.TestCase):
    def test_round_trips(self):
        draws = random.Random(6)
        for _ in range(100):
            convexes = [[(*htmsky.pointing(*direction(draws)), draws.randint(-K, K)) for _ in range(draws.randint(1, 6))] for _ in range(draws.randint(1, 5))]
            depth, budget = draws.randint(1, 12), draws.randint(0, 2048)
            plain = htmsky.region(convexes, depth, budget)
            grouped = htmsky.region(convexes, depth, budget, grouped=True)
            self.assertNotEqual(plain, grouped)
            self.assertEqual(htmsky.read(plain), (depth, budget, convexes))
            self.assertEqual(htmsky.read(grouped), (depth, budget, convexes))
            self.assertEqual((htmsky.to_grouped(plain), htmsky.to_plain(plain)), (grouped, plain))
            self.assertEqual((htmsky.to_grouped(grouped), htmsky.to_plain(grouped)), (grouped, plain))

    def test_both_styles(self):
        draws = random.Random(7)
        index = htmsky.Index()
        for number in range(200):
            index.add(0, number, *htmsky.pointing(*direction(draws)))
        columns = htmsky.pointing(*zip(*(direction(draws) for _ in range(500))))
        for plain in (htmsky.cone(40, 50, 20, 7, 32), htmsky.polygon([(0, 0), (40, 0), (20, 30)], 6, 40), htmsky.region(NORTH * 3, 4, 0)):
            grouped = htmsky.to_grouped(plain)
            self.assertEqual(htmsky.cover(plain), htmsky.cover(grouped))
            self.assertEqual(htmsky.ranges(plain), htmsky.ranges(grouped))
            self.assertEqual(htmsky.holds(plain, *columns), htmsky.holds(grouped, *columns))
            self.assertEqual(index.frames(0, plain), index.frames(0, grouped))
            self.assertEqual(index.trial(0, plain, (5, 9), (8, 0)), index.trial(0, grouped, (5, 9), (8, 0)))

    def test_limits(self):
        most = [[(0, 0, K, 0)] * 8] * 64
        self.assertEqual(len(htmsky.region(most)), 10508)
        self.assertEqual(htmsky.read(htmsky.region(most)).convexes, most)
        self.assertEqual(htmsky.read(htmsky.region(NORTH, 1, 2048)).budget, 2048)


class Covers(unittest.TestCase):
    def regions(self):
        draws = random.Random(8)
        for depth, budget in ((1, 1), (3, 5), (6, 16), (9, 0), (12, 64), (10, 2048)):
            ra, dec = direction(draws)
            yield htmsky.cone(ra, dec, draws.uniform(0.1, 40), depth, budget)
            yield htmsky.polygon([(ra, 10), (ra - 15, 5), (ra - 10, 40)], depth, budget)
            yield htmsky.region([[(*htmsky.pointing(*direction(draws)), draws.randint(-K, K)) for _ in range(2)] for _ in range(3)], depth, budget)

    def test_lists(self):
        draws = random.Random(9)
        rows = [direction(draws) for _ in range(400)]
        for file in self.regions():
            depth, budget, _ = htmsky.read(file)
            outer, inner, counts = htmsky.cover(file)
            self.assertEqual((len(outer), len(inner)), counts[:2])
            self.assertLessEqual(max(counts[:2]), budget or 16)
            self.assertEqual(sum(high - low + 1 for low, high in outer), counts.full + counts.partial + counts.swallowed)
            for row in rows:
                found = htmsky.lookup_degrees(*row, depth)
                held = htmsky.holds_degrees(file, *row)
                self.assertLessEqual(any(low <= found <= high for low, high in inner), held)
                self.assertLessEqual(held, any(low <= found <= high for low, high in outer))

    def test_pieces(self):
        """The pieces are the two lists at depth 12, by identifiers one after the other at the file's depth."""
        for file in self.regions():
            depth = htmsky.read(file).depth
            outer, inner, _ = htmsky.cover(file)
            bounds = sorted({b for low, high in outer + inner for b in (low, high + 1)})
            model = []
            for low, end in zip(bounds, bounds[1:]):
                is_inner = any(a <= low <= b for a, b in inner)
                if any(a <= low <= b for a, b in outer):
                    shift = 2 * (12 - depth)
                    model.append((low << shift, (end << shift) - 1, is_inner))
            self.assertEqual(htmsky.ranges(file), model)
            self.assertTrue(all(type(piece.inner) is bool for piece in htmsky.ranges(file)))


class Searches(unittest.TestCase):
    """Search beside a test of every row, by the point test and by the angle."""

    def compare(self, file, table):
        """The rows found, the same by lists and arrays, and by the point test of every row."""
        columns = table.columns()
        found = htmsky.search(file, *columns)
        self.assertEqual(found, [k for k, held in enumerate(htmsky.holds(file, *columns[1:])) if held])
        self.assertEqual(found, htmsky.search(file, *map(tuple, columns), ordered=True))
        self.assertLessEqual(set(found), set(htmsky.search(file, columns[0])))
        if np:
            arrays = [np.array(column) for column in columns]
            self.assertEqual(htmsky.search(file, *arrays).tolist(), found)
            self.assertEqual(htmsky.search(file, arrays[0].astype("u4"), *columns[1:], ordered=True).tolist(), found)
            self.assertEqual(htmsky.search(file, arrays[0].astype("u8")).tolist(), htmsky.search(file, columns[0]))
        return found

    def test_cones(self):
        """From 10 seconds of arc to 90 degrees, and beyond. Half of the rows are drawn from twice the radius."""
        draws = random.Random(10)
        for ra, dec in ((83.82, -5.39), (0, 0), (359.99, 60), (12, 90), (200, -89.99), (-45, 35.26)):
            for radius in (10 * ARCSEC, 1 / 60, 5 / 60, 0.1, 0.5, 1, 1.99, 2, 5, 20, 45, 90, 120, 180):
                middle = vector(ra, dec)
                near = [beside(draws, ra, dec, min(180, 2 * radius)) for _ in range(400)]
                edge = [beside(draws, ra, dec, min(180, radius * (1 + draws.uniform(-1e-4, 1e-4)))) for _ in range(200)]
                table = Table(near + edge + [direction(draws) for _ in range(400)] + [(ra, dec)])
                angles = [angle(middle, v) for v in table.vectors]
                found = set(self.compare(htmsky.cone(ra, dec, radius), table))
                inside = {k for k, a in enumerate(angles) if a <= radius}
                self.assertLessEqual(inside, found, (ra, dec, radius))
                beyond = max((angles[k] - radius for k in found - inside), default=0)
                self.assertLess(beyond, (ARCSEC + 0.005 * radius) if radius < 2 else 26 * ARCSEC, (ra, dec, radius))

    def test_depths_and_budgets(self):
        draws = random.Random(11)
        table = Table([beside(draws, 150, 20, 10) for _ in range(1500)])
        expected = None
        for depth in range(0, 13):
            for budget in (0, 1, 7, 300):
                found = self.compare(htmsky.cone(150, 20, 5, depth, budget), table)
                expected = found if expected is None else expected
                self.assertEqual(found, expected)

    def test_polygons(self):
        draws = random.Random(12)
        for ra, dec, size, corners in ((10, 20, 0.05, 4), (0, 0, 1, 3), (300, -60, 5, 6), (77, 89, 3, 5), (180, -90, 10, 4), (250, 45, 50, 3), (33, 33, 1, 100)):
            around = [self.at(ra, dec, size, 360 / corners * k + 17) for k in range(corners)]
            table = Table([beside(draws, ra, dec, min(180, 1.5 * size)) for _ in range(800)] + [direction(draws) for _ in range(300)] + [(ra, dec)])
            plain = set(self.compare(htmsky.polygon(around), table))
            self.assertEqual(plain, set(self.compare(htmsky.polygon(around[::-1]), table)))
            if np:
                self.assertEqual(htmsky.polygon(np.array(around)), htmsky.polygon(around))
            vectors = [vector(*corner) for corner in around]
            sides = [cross(a, b) for a, b in zip(vectors, vectors[1:] + vectors[:1])]
            sign = 1 if dot(sides[0], vector(ra, dec)) > 0 else -1
            for k, v in enumerate(table.vectors):
                height = min(sign * dot(side, v) / math.sqrt(dot(side, side)) for side in sides)
                if height >= 0:
                    self.assertIn(k, plain)
                elif height < -math.radians(ARCSEC):
                    self.assertNotIn(k, plain)

    @staticmethod
    def at(ra, dec, r, t):
        """The direction at r degrees from another, toward the angle t."""
        u, r, t = vector(ra, dec), math.radians(r), math.radians(t)
        east = vector(ra + 90, 0)
        v = [math.cos(r) * a + math.sin(r) * (math.cos(t) * b + math.sin(t) * c) for a, b, c in zip(u, east, cross(u, east))]
        return math.degrees(math.atan2(v[1], v[0])), math.degrees(math.asin(max(-1.0, min(1.0, v[2]))))

    def test_bad_columns(self):
        file = htmsky.cone(10, 10, 5)
        table = Table([(10, 10), (11, 11), (100, 0), (12, 10)])
        ids, x, y, z = table.columns()
        with self.assertRaisesRegex(ValueError, "do not ascend"):
            htmsky.search(file, ids[::-1], x, y, z)
        with self.assertRaisesRegex(ValueError, "not of depth 12"):
            htmsky.search(file, [i >> 2 for i in ids], x, y, z)
        with self.assertRaisesRegex(ValueError, "different lengths"):
            htmsky.search(file, ids, x, y, z[1:])
        with self.assertRaisesRegex(TypeError, "belong together"):
            htmsky.search(file, ids, x, y)
        with self.assertRaises(TypeError):
            htmsky.search(file, list(map(float, ids)), x, y, z)
        self.assertEqual(htmsky.search(file, [], [], [], []), [])
        if np:
            with self.assertRaisesRegex(ValueError, "do not ascend"):
                htmsky.search(file, np.array(ids[::-1]), x, y, z)
            with self.assertRaisesRegex(ValueError, "not of depth 12"):
                htmsky.search(file, np.array(ids) * 4, x, y, z)
            with self.assertRaises(TypeError):
                htmsky.search(file, np.array(ids, float), x, y, z)
            with self.assertRaises(TypeError):
                htmsky.search(file, np.array([ids]), [x], [y], [z])
            self.assertEqual(htmsky.search(file, np.array([]), np.array([]), [], []).tolist(), [])
            self.assertEqual(htmsky.search(file, ids, np.array(x), y, z).tolist(), htmsky.search(file, ids, x, y, z))


class Indexes(unittest.TestCase):
    def in_list(self, found, pairs):
        k = bisect.bisect_right(pairs, (found, 1 << 64)) - 1
        return k >= 0 and found <= pairs[k][1]

    def result(self, entries, file, depth, budget):
        """One setting by a plain model, with its outer list and how many identifiers of depth 12 it spans."""
        outer, inner, _ = htmsky.cover(htmsky.region(htmsky.read(file).convexes, depth, budget))
        unchecked = held = discarded = 0
        for entry in entries:
            found = entry[0] >> 2 * (12 - depth)
            if self.in_list(found, inner):
                unchecked += 1
            elif self.in_list(found, outer):
                if htmsky.holds(file, *entry[3:]):
                    held += 1
                else:
                    discarded += 1
        span = sum(high - low + 1 for low, high in outer) << 2 * (12 - depth)
        return (unchecked, held, discarded, len(outer), len(inner)), outer, span

    def test_histories(self):
        draws = random.Random(13)
        index, model = htmsky.Index(), {}
        files = [htmsky.cone(*direction(draws), draws.choice((3, 20, 60)), draws.randint(1, 12), draws.choice((0, 5, 60))) for _ in range(20)]
        for step in range(3000):
            owner, number = draws.randint(0, 1), draws.randint(0, 300) << draws.choice((0, 23))
            if draws.random() < 0.6:
                p = htmsky.pointing(*direction(draws))
                if (owner, number) in model:
                    with self.assertRaises(Refused) as caught:
                        index.add(owner, number, *p)
                    self.assertEqual(caught.exception.number, 15)
                else:
                    index.add(owner, number, *p)
                    model[owner, number] = p
            elif (owner, number) in model:
                index.remove(owner, number)
                del model[owner, number]
            else:
                with self.assertRaises(Refused) as caught:
                    index.remove(owner, number)
                self.assertEqual(caught.exception.number, 17)
            if step % 100 == 0:
                self.check(draws, index, model, draws.choice(files))

    def check(self, draws, index, model, file):
        entries = sorted((htmsky.lookup(*p), number, owner, *p) for (owner, number), p in model.items())
        self.assertEqual(list(index), entries)
        self.assertEqual(len(index), len(entries))
        for owner in (0, 1):
            own = [entry for entry in entries if entry[2] == owner]
            self.assertEqual(index.entries(owner), own)
            depth, budget, _ = htmsky.read(file)
            (_, held, discarded, *_), _, _ = self.result(own, file, depth, budget)
            numbers = [entry[1] for entry in own if htmsky.holds(file, *entry[3:])]
            self.assertEqual(index.frames(owner, file), (numbers, held + discarded))
            settings = [(draws.randint(1, 10), draws.choice((0, 1, 9, 100))) for _ in range(2)]
            first, second = (self.result(own, file, *setting) for setting in settings)
            choice = 1 if first[2] <= second[2] else 2
            self.assertEqual(index.trial(owner, file, *settings), (first[0], second[0], choice, (first, second)[choice - 1][1]))

    def test_full(self):
        draws = random.Random(14)
        index = htmsky.Index()
        for owner in (0, 1):
            for number in range(1024):
                index.add(owner, 4294967295 - number, *htmsky.pointing(*direction(draws)))
            with self.assertRaises(Refused) as caught:
                index.add(owner, 1, 0, 0, K)
            self.assertEqual(caught.exception.number, 16)
        self.assertEqual(len(index), 2048)
        everything = htmsky.cone(0, 0, 180)
        self.assertEqual(sorted(index.frames(1, everything).numbers), list(range(4294967295 - 1023, 4294967296)))
        index.remove(1, 4294967295)
        index.add(1, 1, 0, 0, K)

    def test_threads(self):
        index = htmsky.Index()
        threads = [threading.Thread(target=lambda k=k: [index.add(k % 2, 256 * k + n, *htmsky.pointing(k, n / 4)) for n in range(256)]) for k in range(8)]
        for thread in threads:
            thread.start()
        for thread in threads:
            thread.join()
        entries = index.entries()
        self.assertEqual(len(entries), 2048)
        self.assertEqual(entries, sorted(entries))
        self.assertEqual({entry.number for entry in entries}, set(range(2048)))


class Loading(unittest.TestCase):
    def run_in(self, folder, **variables):
        environment = {k: v for k, v in os.environ.items() if k not in ("HTM_LIBRARY_PATH", "LD_LIBRARY_PATH", "PYTHONPATH")}
        done = subprocess.run([sys.executable, "-B", "-c", "import htmsky; print(htmsky.lookup_degrees(0, 90))"], cwd=folder, env={**environment, **variables},
                              stdout=subprocess.PIPE, stderr=subprocess.PIPE, universal_newlines=True)
        return done.stdout + done.stderr

    def test_places(self):
        libraries = [pathlib.Path(htmsky._htm._name), pathlib.Path(htmsky._sky._name)]
        if not all(path.is_file() for path in libraries):
            self.skipTest("the libraries are the system's")
        with tempfile.TemporaryDirectory() as work:
            top = pathlib.Path(work)
            for folder in ("beside", "elsewhere", "prefix/share/htm", "prefix/lib", "alone"):
                (top / folder).mkdir(parents=True)
            for folder in ("beside", "prefix/share/htm", "alone"):
                shutil.copy(HERE / "htmsky.py", top / folder)
            for folder in ("beside", "elsewhere", "prefix/lib"):
                for path in libraries:
                    shutil.copy(path, top / folder)
            self.assertEqual(self.run_in(top / "beside"), "63963136\n")
            self.assertEqual(self.run_in(top / "prefix/share/htm"), "63963136\n")
            self.assertEqual(self.run_in(top / "alone", HTM_LIBRARY_PATH=str(top / "elsewhere")), "63963136\n")
            self.assertEqual(self.run_in(top / "alone", HTM_LIBRARY_PATH=f"{top / 'none'}{os.pathsep}{top / 'elsewhere'}"), "63963136\n")
            self.assertEqual(self.run_in(top / "alone", LD_LIBRARY_PATH=str(top / "elsewhere")), "63963136\n")
            self.assertEqual(self.run_in(top / "beside", HTM_LIBRARY_PATH=""), "63963136\n")
            self.assertIn("ImportError: libhtm.so.1 is not found", self.run_in(top / "beside", HTM_LIBRARY_PATH=str(top / "none")))

    def test_example(self):
        done = subprocess.run([sys.executable, "-B", str(HERE / "example.py")], stdout=subprocess.PIPE, universal_newlines=True, check=True)
        self.assertEqual(done.stdout, (HERE / "example.expected").read_text())


if __name__ == "__main__":
    unittest.main()
