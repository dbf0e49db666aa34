"""htmsky: trixels, cones and polygons of the sky, covers and searches, over the libraries libhtm and libhtm_sky.

Directions are right ascension and declination in degrees, or pointings: three whole numbers x, y, z, K = 1048576 times the unit vector. x points to
ra 0 and dec 0, y to ra 90 and dec 0, z to the north pole. A region is a region file, as bytes: cone, polygon and region make one. Identifiers are whole
numbers, of depth 12 where nothing else is said.

    >>> import htmsky
    >>> file = htmsky.cone(83.82, -5.39, 1)         # 1 degree around the Orion nebula
    >>> htmsky.holds_degrees(file, 83.63, -5.01), htmsky.holds_degrees(file, 85, -5)
    (True, False)

pointing, lookup_degrees, holds and holds_degrees take one direction, or columns of them: lists give lists, numpy arrays give arrays. numpy is not needed.

Errors: what the library refuses raises Refused, a ValueError with the refusal's number and word. Degrees out of range, and numbers that do not fit,
raise ValueError; another type than the one asked for, such as a float for a whole number, raises TypeError. Nothing is cut off or rounded to fit.

The libraries are looked for in the folders of the environment variable HTM_LIBRARY_PATH. Where it is not set: beside this file, in lib of the place that
make install put this file into, and where the system looks for libraries.

The calls may be made from several threads. The library is proved; this module and libhtm_sky are tested.
"""
import array
import bisect
import ctypes
import numbers
import operator
import os
import reprlib
import struct
import threading
from itertools import islice
from typing import NamedTuple

__all__ = ["K", "WORDS", "Refused", "pointing", "lookup", "lookup_degrees", "lookup_floats", "lookup_line", "name", "identifier", "corners", "region", "cone",
           "polygon", "read", "to_grouped", "to_plain", "holds", "holds_degrees", "cover", "ranges", "search", "Index", "Region", "Cover", "Counts", "Piece",
           "Entry", "Frames", "Result", "Trial"]

K = 1048576
FILED_DEPTH = 12
WORDS = dict(enumerate("long torn kind order depth budget crowd vector offset space name float line mixed twice full absent owner".split(), 1))

# Limits and lengths of lists, those of htm.h
_MAX_DEPTH, _MAX_NAME_DEPTH = 12, 31
_DEFAULT_BUDGET, _MAX_BUDGET = 16, 2048
_NAME_BYTES, _CORNERS_LENGTH = 32, 9
_FILE_BYTES, _ROWS_LENGTH, _HEADER_LENGTH, _CONTENTS_LENGTH = 10508, 2560, 3, 4
_RANGES_LENGTH, _COVER_COUNTS = 8192, 6
_INDEX_LENGTH, _ENTRY_LENGTH = 12289, 6
_NUMBERS_LENGTH, _FRAME_COUNTS = 1024, 2
_TRIAL_COUNTS, _PART_LENGTH = 11, 2
_PIECES = 3 * _MAX_BUDGET


# ---- the libraries

def _folders():
    """Where the libraries are looked for before the system is asked."""
    said = os.environ.get("HTM_LIBRARY_PATH")
    if said:
        return [folder for folder in said.split(os.pathsep) if folder]
    here = os.path.dirname(os.path.abspath(__file__))
    return [here, os.path.join(here, "..", "..", "lib")]


def _load(library):
    """A library of ours."""
    file = f"lib{library}.so.1"
    for folder in _folders():
        path = os.path.join(folder, file)
        if os.path.exists(path):
            return ctypes.CDLL(path)
    if not os.environ.get("HTM_LIBRARY_PATH"):
        try:
            return ctypes.CDLL(file)
        except OSError:
            pass
    raise ImportError(f"{file} is not found: make install, or set HTM_LIBRARY_PATH to its folder (it is {os.environ.get('HTM_LIBRARY_PATH') or 'not set'})")


_htm = _load("htm")
_sky = _load("htm_sky")     # needs the one before, and finds it loaded

_i32, _u32, _i64, _u64, _size, _double, _float, _list = (
    ctypes.c_int32, ctypes.c_uint32, ctypes.c_int64, ctypes.c_uint64, ctypes.c_size_t, ctypes.c_double, ctypes.c_float, ctypes.c_void_p)


def _call(library, called, gives, *takes):
    """A call with its types. Lists are addresses."""
    found = getattr(library, called)
    found.restype, found.argtypes = gives, takes
    return found


_lookup = _call(_htm, "htm_lookup", _i64, _i32, _i32, _i32, _u32)
_lookup_f64 = _call(_htm, "htm_lookup_f64", _i64, _double, _double, _double, _u32)
_lookup_f32 = _call(_htm, "htm_lookup_f32", _i64, _float, _float, _float, _u32)
_lookup_line = _call(_htm, "htm_lookup_line", _i64, _list, _size, _u32)
_name = _call(_htm, "htm_name", _i64, _u64, _list, _size)
_identifier = _call(_htm, "htm_identifier", _u64, _list, _size)
_corners = _call(_htm, "htm_corners", _i64, _u64, _list, _size)
_header = _call(_htm, "htm_header", _i64, _list, _size, _list, _size)
_read = _call(_htm, "htm_read", _i64, _list, _size, _list, _size, _list, _size)
_write = _call(_htm, "htm_write", _i64, _u32, _u32, _list, _size, _list, _size)
_write_grouped = _call(_htm, "htm_write_grouped", _i64, _u32, _u32, _list, _size, _list, _size)
_to_grouped = _call(_htm, "htm_to_grouped", _i64, _list, _size, _list, _size)
_to_plain = _call(_htm, "htm_to_plain", _i64, _list, _size, _list, _size)
_holds = _call(_htm, "htm_holds", _i64, _list, _size, _i32, _i32, _i32)
_cover = _call(_htm, "htm_cover", _i64, _list, _size, _list, _size, _list, _size)
_add = _call(_htm, "htm_add", _i64, _list, _size, _u32, _u32, _i32, _i32, _i32)
_remove = _call(_htm, "htm_remove", _i64, _list, _size, _u32, _u32)
_index_count = _call(_htm, "htm_index_count", _i64, _list, _size)
_index_entry = _call(_htm, "htm_index_entry", _i64, _list, _size, _u32, _list, _size)
_frames = _call(_htm, "htm_frames", _i64, _list, _size, _u32, _list, _size, _list, _size, _list, _size, _list, _size)
_trial = _call(_htm, "htm_trial", _i64, _list, _size, _u32, _list, _size, _u32, _u32, _u32, _u32, _list, _size, _list, _size, _list, _size)
_chosen = _call(_htm, "htm_chosen", _i64, _i64, _list, _size, _list, _size, _list, _size, _list, _size)
_message = _call(_sky, "sky_message", ctypes.c_char_p, _i64)
_sky_pointing = _call(_sky, "sky_pointing", _i64, _double, _double, _list)
_sky_lookup = _call(_sky, "sky_lookup", _i64, _double, _double, _u32)
_sky_cone = _call(_sky, "sky_cone", _i64, _double, _double, _double, _u32, _u32, _list, _size)
_sky_polygon = _call(_sky, "sky_polygon", _i64, _list, _size, _u32, _u32, _list, _size)
_sky_pieces = _call(_sky, "sky_pieces", _i64, _list, _size, _list, _size)
_pointing_all = _call(_sky, "sky_pointing_all", _i64, _list, _list, _size, _list, _list, _list)
_lookup_all = _call(_sky, "sky_lookup_all", _i64, _list, _list, _size, _u32, _list)
_holds_all = _call(_sky, "sky_holds_all", _i64, _list, _size, _list, _list, _list, _size, _list)


# ---- errors, and arguments that are checked

class Refused(ValueError):
    """What the library refuses: number is the refusal's, 1 to 18, word its word, and row the row of a column that is meant, or None."""

    def __init__(self, number, row=None):
        super().__init__(number, row)
        self.number = number
        self.word = WORDS.get(number, "unknown")
        self.row = row

    def __str__(self):
        return _in_row(self.row) + _message(-self.number).decode()


def _in_row(row):
    return "" if row is None else f"row {row}: "


def _good(answer, row=None):
    """The answer of a call where it is 0 or more; else an error."""
    if answer >= 0:
        return answer
    if answer >= -len(WORDS):
        raise Refused(-answer, row)
    raise ValueError(_in_row(row) + _message(answer).decode())


def _whole(what, value, low, high):
    """A whole number from low to high."""
    try:
        number = operator.index(value)
    except TypeError:
        raise TypeError(f"{what} is {reprlib.repr(value)}: a whole number is expected, not {type(value).__name__}") from None
    if not low <= number <= high:
        raise ValueError(f"{what} is {number}: not from {low} to {high}")
    return number


def _int32(what, value):
    return _whole(what, value, -(1 << 31), (1 << 31) - 1)


def _uint32(what, value):
    return _whole(what, value, 0, (1 << 32) - 1)


def _uint64(what, value):
    return _whole(what, value, 0, (1 << 64) - 1)


def _number(what, value):
    """A float. What it may be is checked by the call that takes it."""
    try:
        return _double(value).value
    except TypeError:
        raise TypeError(f"{what} is {reprlib.repr(value)}: a number is expected, not {type(value).__name__}") from None
    except OverflowError:
        raise ValueError(f"{what} is too large for a float") from None


def _bytes(what, value):
    """Bytes of a file or a line."""
    if isinstance(value, bytes):
        return value
    try:
        return memoryview(value).tobytes()
    except TypeError:
        raise TypeError(f"{what} is of type {type(value).__name__}: bytes are expected") from None


# ---- columns

_CODES = {"d": (_number, "float64", "iuf"), "i": (_int32, "int32", "iu")}


def _is_column(value):
    """Whether a value is a list or an array, and not one number."""
    return isinstance(value, (list, tuple, range, array.array)) or (hasattr(value, "__array__") and not isinstance(value, numbers.Number))


class _Columns:
    """Columns of one length, of C's doubles (code d) or int32 (code i), and how a result of as many rows is made: as lists, or as arrays where a column is one."""

    def __init__(self, code, columns):
        self.np = None
        if any(hasattr(value, "__array__") for value in columns.values()):
            import numpy
            self.np = numpy
        self._kept = self._arrays(code, columns) if self.np else self._lists(code, columns)
        self.addresses = [_address(kept) for kept in self._kept]

    def _lists(self, code, columns):
        lengths = {what: len(value) for what, value in columns.items() if _is_column(value)}
        if len(set(lengths.values())) > 1:
            raise ValueError("columns of different lengths: " + ", ".join(f"{what} has {n}" for what, n in lengths.items()))
        self.length = next(iter(lengths.values()))
        self.shape = (self.length,)
        return [_typed(code, what, value) if what in lengths else _typed(code, what, [value]) * self.length for what, value in columns.items()]

    def _arrays(self, code, columns):
        found = self.np.broadcast_arrays(*(_array(self.np, code, what, value) for what, value in columns.items()))
        self.shape, self.length = found[0].shape, found[0].size
        return [self.np.ascontiguousarray(column, dtype=_CODES[code][1]).reshape(-1) for column in found]

    def room(self, code, dtype):
        """A list that the library may write, of as many elements as there are rows."""
        if self.np:
            return self.np.empty(self.length, dtype)
        return array.array(code, bytes(array.array(code).itemsize * self.length))

    def result(self, column):
        return column.reshape(self.shape)[()] if self.np else column.tolist()


def _address(kept):
    """Where the elements of an array are. It may be null where there are none."""
    return kept.buffer_info()[0] if isinstance(kept, array.array) else kept.ctypes.data


def _typed(code, what, values):
    """A list as C's numbers."""
    try:
        return array.array(code, values)
    except (TypeError, OverflowError):
        for k, value in enumerate(values):
            _CODES[code][0](f"{what}[{k}]", value)
        raise


def _array(np, code, what, value):
    """An array of numbers of the right kind, that fit."""
    if hasattr(value, "unit"):
        raise TypeError(f"{what} has a unit: give plain numbers, as by .to_value('deg')")
    if np.ma.is_masked(value):
        raise ValueError(f"{what} has masked elements")
    found = np.asarray(value)
    if found.size and found.dtype.kind not in _CODES[code][2]:
        raise TypeError(f"{what} has elements of type {found.dtype}: {'numbers' if code == 'd' else 'whole numbers'} are expected")
    if code == "i" and found.size and found.dtype != np.int32:
        for bound in (found.min(), found.max()):
            _int32(what, bound)
    return found


# ---- directions and trixels

def pointing(ra, dec):
    """The pointing x, y, z of a direction in degrees: K times its unit vector, each component rounded. Columns give three columns.

    >>> pointing(90, 0), pointing([0, 180], [0, 45])
    ((0, 1048576, 0), ([1048576, -741455], [0, 0], [0, 741455]))
    """
    if not _is_column(ra) and not _is_column(dec):
        out = (_i32 * 3)()
        _good(_sky_pointing(_number("ra", ra), _number("dec", dec), out))
        return tuple(out)
    columns = _Columns("d", {"ra": ra, "dec": dec})
    xyz = [columns.room("i", "int32") for _ in range(3)]
    if _pointing_all(*columns.addresses, columns.length, *map(_address, xyz)):
        row = next(k for k, p in enumerate(zip(*xyz)) if not any(p))
        ra, dec = columns._kept
        _good(_sky_pointing(ra[row], dec[row], (_i32 * 3)()), row)
    return tuple(map(columns.result, xyz))


def lookup(x, y, z, depth=FILED_DEPTH):
    """The identifier of the trixel of a depth from 1 to 12 in which the pointing lies.

    >>> lookup(0, 0, 1048576), lookup(0, 0, 1048576, 1)
    (63963136, 15)
    """
    return _good(_lookup(_int32("x", x), _int32("y", y), _int32("z", z), _uint32("depth", depth)))


def lookup_degrees(ra, dec, depth=FILED_DEPTH):
    """The identifier of the trixel of a depth from 1 to 12 in which the direction in degrees lies. Columns give a column.

    >>> lookup_degrees(0, 90), lookup_degrees([0, 83.82], [90, -5.39], depth=5)
    (63963136, [3904, 2190])
    """
    depth = _uint32("depth", depth)
    if not _is_column(ra) and not _is_column(dec):
        return _good(_sky_lookup(_number("ra", ra), _number("dec", dec), depth))
    columns = _Columns("d", {"ra": ra, "dec": dec})
    out = columns.room("q", "int64")
    if _lookup_all(*columns.addresses, columns.length, depth, _address(out)):
        row = next(k for k, found in enumerate(out) if found < 0)
        _good(int(out[row]), row)
    return columns.result(out)


def lookup_floats(x, y, z, depth=FILED_DEPTH, single=False):
    """The identifier for a mount's report, the three floats of a unit vector: each is multiplied by K and truncated toward zero. single takes them in single
    precision first."""
    call = _lookup_f32 if single else _lookup_f64
    return _good(call(_number("x", x), _number("y", y), _number("z", z), _uint32("depth", depth)))


def lookup_line(line, depth=FILED_DEPTH):
    """The identifier for a catalogue line: bytes of three decimals parted by one blank and closed by a line feed.

    >>> lookup_line(b"-0.6 0.8 -0.0\\n")
    61118482
    """
    line = _bytes("line", line)
    return _good(_lookup_line(line, len(line), _uint32("depth", depth)))


def name(identifier):
    """The name of an identifier of depth 1 to 31.

    >>> name(63963136)
    'N310000000000'
    """
    out = ctypes.create_string_buffer(_NAME_BYTES)
    length = _good(_name(_uint64("identifier", identifier), out, _NAME_BYTES))
    return out.raw[:length].decode("ascii")


def identifier(name):
    """The identifier of a name: S or N and 1 to 31 digits 0 to 3.

    >>> identifier("N310000000000")
    63963136
    """
    if not isinstance(name, str):
        raise TypeError(f"name is {reprlib.repr(name)}: a str is expected, not {type(name).__name__}")
    letters = name.encode("ascii", "replace")
    found = _identifier(letters, len(letters))
    if not found:
        raise Refused(11)
    return found


def corners(identifier):
    """The three corners of the trixel of an identifier of depth 1 to 12, each x, y, z.

    >>> corners(8)
    ((1048576, 0, 0), (0, 0, -1048576), (0, 1048576, 0))
    """
    out = (_i32 * _CORNERS_LENGTH)()
    _good(_corners(_uint64("identifier", identifier), out, _CORNERS_LENGTH))
    return tuple(out[0:3]), tuple(out[3:6]), tuple(out[6:9])


# ---- region files

class Region(NamedTuple):
    """A region file's content. A budget of 0 is as it is written, and counts as 16."""
    depth: int
    budget: int
    convexes: list


def region(convexes, depth=FILED_DEPTH, budget=64, grouped=False):
    """The region file of convexes: each is a list of halfspaces (x, y, z, offset). A convex holds what all its halfspaces hold, the region what any of its
    convexes holds; a halfspace holds the pointings p with (x, y, z).p >= offset * K. grouped gives the grouped style.

    >>> north = region([[(0, 0, K, 0)]], depth=2, budget=5)
    >>> holds_degrees(north, 10, 20)
    True
    """
    rows = array.array("i")
    convexes = [list(convex) for convex in convexes]
    for k, convex in enumerate(convexes):
        for halfspace in convex:
            numbers_in = tuple(halfspace)
            if len(numbers_in) != 4:
                raise ValueError(f"a halfspace of {len(numbers_in)} numbers: x, y, z and offset are expected")
            rows.append(k)
            rows.extend(_int32(what, value) for what, value in zip(("x", "y", "z", "offset"), numbers_in))
    out = ctypes.create_string_buffer(_FILE_BYTES)
    call = _write_grouped if grouped else _write
    length = _good(call(_uint32("depth", depth), _uint32("budget", budget), _address(rows), len(rows), out, _FILE_BYTES))
    if not convexes[-1]:
        raise Refused(4)    # rows do not show an empty convex behind the others
    return out.raw[:length]


def cone(ra, dec, radius, depth=0, budget=64):
    """The region file of all directions within radius degrees of a direction. None within the radius is lost by rounding. Some just beyond are
    held: below 2 degrees within 0.5 % of the radius and 1 second of arc, from 2 to 178 degrees within 26 seconds of arc. Depth 0 lets the library choose.

    >>> file = cone(10.68, 41.27, 0.5)
    >>> holds_degrees(file, 10.68, 41.7), holds_degrees(file, 10.68, 41.8)
    (True, False)
    """
    out = ctypes.create_string_buffer(_FILE_BYTES)
    length = _good(_sky_cone(_number("ra", ra), _number("dec", dec), _number("radius", radius), _uint32("depth", depth), _uint32("budget", budget), out,
                             _FILE_BYTES))
    return out.raw[:length]


def polygon(corners, depth=0, budget=64):
    """The region file of a convex polygon: corners are pairs ra, dec in degrees, in either sense. Its sides are great circles. Depth 0 lets the library
    choose.

    >>> field = polygon([(10, 0), (12, 0), (12, 2), (10, 2)])
    >>> holds_degrees(field, 11, 1), holds_degrees(field, 13, 1)
    (True, False)
    """
    degrees = array.array("d")
    for k, corner in enumerate(corners):
        pair = tuple(corner)
        if len(pair) != 2:
            raise ValueError(f"corner {k} has {len(pair)} numbers: ra and dec are expected")
        degrees.extend((_number(f"ra of corner {k}", pair[0]), _number(f"dec of corner {k}", pair[1])))
    out = ctypes.create_string_buffer(_FILE_BYTES)
    length = _good(_sky_polygon(_address(degrees), len(degrees) // 2, _uint32("depth", depth), _uint32("budget", budget), out, _FILE_BYTES))
    return out.raw[:length]


def read(file):
    """Depth, budget and convexes of a region file of either style, as region takes them.

    >>> read(region([[(0, 0, K, 0)]], depth=2, budget=5))
    Region(depth=2, budget=5, convexes=[[(0, 0, 1048576, 0)]])
    """
    file = _bytes("file", file)
    rows, header = (_i32 * _ROWS_LENGTH)(), (_u64 * _HEADER_LENGTH)()
    _good(_read(file, len(file), rows, _ROWS_LENGTH, header, _HEADER_LENGTH))
    convexes = []
    for k in range(0, 5 * header[0], 5):
        convex, *halfspace = rows[k:k + 5]
        if convex == len(convexes):
            convexes.append([])
        convexes[convex].append(tuple(halfspace))
    return Region(header[1], header[2], convexes)


def _converted(call, file):
    file = _bytes("file", file)
    out = ctypes.create_string_buffer(_FILE_BYTES)
    length = _good(call(file, len(file), out, _FILE_BYTES))
    return out.raw[:length]


def to_grouped(file):
    """A region file in the grouped style."""
    return _converted(_to_grouped, file)


def to_plain(file):
    """A region file in the plain style."""
    return _converted(_to_plain, file)


# ---- what a region holds

def holds(file, x, y, z):
    """Whether the region of a region file holds the pointing. Columns give a column."""
    file = _bytes("file", file)
    if not any(map(_is_column, (x, y, z))):
        return _good(_holds(file, len(file), _int32("x", x), _int32("y", y), _int32("z", z))) == 1
    columns = _Columns("i", {"x": x, "y": y, "z": z})
    out = columns.room("b", "int8")
    if _good(_holds_all(file, len(file), *columns.addresses, columns.length, _address(out))):
        row = next(k for k, found in enumerate(out) if found < 0)
        _good(int(out[row]), row)
    return columns.result(out.view("bool")) if columns.np else list(map(bool, out))


def holds_degrees(file, ra, dec):
    """Whether the region of a region file holds the direction in degrees. Columns give a column."""
    return holds(file, *pointing(ra, dec))


class Counts(NamedTuple):
    """Counts of a cover: outer and inner ranges, trixels classified; in identifiers, those below full trixels, the partial trixels, and those in the gaps that
    the outer list was joined over."""
    outer: int
    inner: int
    seen: int
    full: int
    partial: int
    swallowed: int


class Cover(NamedTuple):
    """The cover of a region: two lists of ranges (low, high) that include both ends, and counts."""
    outer: list
    inner: list
    counts: Counts


def cover(file):
    """The cover of a region file, in identifiers of the file's depth. What has its identifier in an inner range is in the region; what has it in no outer
    range is not; what has it in an outer range only is where holds says so.

    >>> outer, inner, counts = cover(region([[(0, 0, K, 0)]], depth=2, budget=5))
    >>> inner, counts.outer
    ([(49, 49), (53, 53), (57, 57), (61, 61)], 5)
    """
    file = _bytes("file", file)
    budget = _budget(file)
    out, counts = (_u64 * (4 * budget))(), (_u64 * _COVER_COUNTS)()
    _good(_cover(file, len(file), out, 4 * budget, counts, _COVER_COUNTS))
    return Cover(_pairs(out, 0, counts[0]), _pairs(out, 2 * budget, counts[1]), Counts(*counts))


def _budget(file):
    """The budget that counts for a region file."""
    contents = (_u64 * _CONTENTS_LENGTH)()
    _good(_header(file, len(file), contents, _CONTENTS_LENGTH))
    return contents[2] or _DEFAULT_BUDGET


def _pairs(numbers_in, start, count):
    return list(zip(numbers_in[start:start + 2 * count:2], numbers_in[start + 1:start + 2 * count:2]))


class Piece(NamedTuple):
    """A range of identifiers of depth 12 that includes both ends. All of an inner piece is in the region; of another, what holds says."""
    low: int
    high: int
    inner: bool


def _raw_pieces(file):
    """The library's pieces, as bytes: low, high, inner and four bytes of nothing, 24 for each."""
    out = ctypes.create_string_buffer(24 * _PIECES)
    count = _good(_sky_pieces(file, len(file), out, _PIECES))
    return out.raw[:24 * count]


def ranges(file):
    """The cover of a region file as a database searches it: pieces, ranges of identifiers of depth 12, which ascend and do not overlap.

    >>> for piece in ranges(region([[(0, 0, K, 0)]], depth=1, budget=2)):
    ...     print(piece)
    Piece(low=33554432, high=67108863, inner=False)
    """
    return [Piece(low, high, inner == 1) for low, high, inner in struct.iter_unpack("QQi4x", _raw_pieces(_bytes("file", file)))]


def search(file, identifiers, x=None, y=None, z=None, ordered=False):
    """The positions, ascending, of the rows that the region of a region file holds. identifiers is the column of the rows' identifiers of depth 12, in
    ascending order, and x, y, z are the columns of their pointings. Without x, y and z the positions are those of all candidates: no row that the region
    holds is missing, but near its border some are among them that it does not hold.

    Columns that are numpy arrays give an array. Whether identifiers ascend is looked at each time; ordered=True says that they do, and saves the look.

    >>> ids = lookup_degrees([10, 20, 30, 40], [0, 0, 0, 0])
    >>> order = sorted(range(4), key=ids.__getitem__)
    >>> [order[k] for k in search(cone(20, 0, 5), sorted(ids))]
    [1]
    """
    file = _bytes("file", file)
    given = [column for column in (x, y, z) if column is not None]
    if len(given) not in (0, 3):
        raise TypeError("x, y and z belong together")
    for column in (identifiers, *given):
        if not _is_column(column):
            raise TypeError(f"a column is of type {type(column).__name__}: a list or an array is expected")
        if len(column) != len(identifiers):
            raise ValueError(f"columns of different lengths: {len(identifiers)} identifiers, and {len(column)}")
    if any(hasattr(column, "__array__") for column in (identifiers, *given)):
        return _search_arrays(file, identifiers, given, ordered)
    if not ordered:
        _check_ascending(all(map(operator.le, identifiers, islice(identifiers, 1, None))))
    _check_depth(identifiers)
    found, unsure = [], []
    for low, high, inner in struct.iter_unpack("QQi4x", _raw_pieces(file)):
        rows = range(bisect.bisect_left(identifiers, low), bisect.bisect_right(identifiers, high))
        (found if inner or not given else unsure).extend(rows)
    if unsure:
        held = holds(file, *([column[k] for k in unsure] for column in given))
        found.extend(k for k, is_held in zip(unsure, held) if is_held)
        found.sort()
    return found


def _search_arrays(file, identifiers, given, ordered):
    import numpy as np
    identifiers = np.asarray(identifiers)
    if identifiers.ndim != 1 or (identifiers.size and identifiers.dtype.kind not in "iu"):
        raise TypeError(f"identifiers are an array of type {identifiers.dtype} in {identifiers.ndim} dimensions: whole numbers in one are expected")
    if identifiers.dtype.kind not in "iu" or identifiers.dtype.itemsize < 4:
        identifiers = identifiers.astype(np.int64)
    if not ordered:
        _check_ascending(bool((identifiers[1:] >= identifiers[:-1]).all()))
    _check_depth(identifiers)
    pieces = np.frombuffer(_raw_pieces(file), dtype=[("low", "u8"), ("high", "u8"), ("inner", "i4"), ("", "V4")])
    begin = np.searchsorted(identifiers, pieces["low"].astype(identifiers.dtype), "left")
    count = np.searchsorted(identifiers, pieces["high"].astype(identifiers.dtype), "right") - begin
    rows = np.repeat(begin - np.cumsum(count) + count, count) + np.arange(count.sum())
    if not given:
        return rows
    kept = np.repeat(pieces["inner"] == 1, count)
    unsure = np.flatnonzero(~kept)
    kept[unsure] = holds(file, *(np.asarray(column)[rows[unsure]] for column in given))
    return rows[kept]


def _check_ascending(ascends):
    if not ascends:
        raise ValueError("identifiers do not ascend: sort the rows by identifier")


def _check_depth(identifiers):
    for k in (0, -1) if len(identifiers) else ():
        if not 1 << 25 <= _whole("identifier", identifiers[k], 0, (1 << 64) - 1) < 1 << 26:
            raise ValueError(f"identifier {identifiers[k]} is not of depth {FILED_DEPTH}")


# ---- an index of exposures

class Entry(NamedTuple):
    """An exposure in an index."""
    identifier: int
    number: int
    owner: int
    x: int
    y: int
    z: int


class Frames(NamedTuple):
    """What a search of an index gives: the numbers of the exposures that the region holds, in index order, and how many point tests were made."""
    numbers: list
    tests: int


class Result(NamedTuple):
    """One setting of a trial: exposures delivered unchecked, tested and held, tested and discarded; outer and inner ranges."""
    unchecked: int
    held: int
    discarded: int
    outer: int
    inner: int


class Trial(NamedTuple):
    """Two settings tried: the result of each, the choice, 1 or 2, and the outer ranges of the setting chosen, at its depth."""
    first: Result
    second: Result
    choice: int
    ranges: list


class Index:
    """An index of the exposures of two owners, 0 and 1, with up to 1024 each. An exposure is a number from 0 to 4294967295 and a pointing; both owners may use the
    same number. It is ordered by identifier, then number, then owner. len, for and in go over the entries of both owners.

    >>> index = Index()
    >>> index.add(0, 7, *pointing(83.6, -5.0))
    >>> index.add(0, 8, *pointing(120.0, 30.0))
    >>> index.frames(0, cone(83.82, -5.39, 1))
    Frames(numbers=[7], tests=0)
    """

    def __init__(self):
        self._list = (_i64 * _INDEX_LENGTH)()
        self._lock = threading.Lock()           # a call lets other threads run

    def __len__(self):
        with self._lock:
            return _good(_index_count(self._list, _INDEX_LENGTH))

    def __iter__(self):
        return iter(self.entries())

    def entries(self, owner=None):
        """The entries in order: all, or those of one owner."""
        if owner is not None and _uint32("owner", owner) > 1:
            raise Refused(18)
        found, out, place = [], (_i64 * _ENTRY_LENGTH)(), 0
        with self._lock:
            while _good(_index_entry(self._list, _INDEX_LENGTH, place, out, _ENTRY_LENGTH)):
                found.append(Entry(*out))
                place += 1
        return [entry for entry in found if owner is None or entry.owner == owner]

    def add(self, owner, number, x, y, z):
        """Adds an exposure for the owner. Refusals: 18 no such owner, 8 no pointing, 15 the number is the owner's, 16 1024 are."""
        arguments = _uint32("owner", owner), _uint32("number", number), _int32("x", x), _int32("y", y), _int32("z", z)
        with self._lock:
            _good(_add(self._list, _INDEX_LENGTH, *arguments))

    def remove(self, owner, number):
        """Removes an exposure of the owner. Refusals: 18 no such owner, 17 the number is not the owner's."""
        arguments = _uint32("owner", owner), _uint32("number", number)
        with self._lock:
            _good(_remove(self._list, _INDEX_LENGTH, *arguments))

    def frames(self, owner, file):
        """The owner's exposures that the region of a region file holds."""
        owner, file = _uint32("owner", owner), _bytes("file", file)
        lists, found, counts = (_u64 * _RANGES_LENGTH)(), (_u32 * _NUMBERS_LENGTH)(), (_u64 * _FRAME_COUNTS)()
        with self._lock:
            _good(_frames(self._list, _INDEX_LENGTH, owner, file, len(file), lists, _RANGES_LENGTH, found, _NUMBERS_LENGTH, counts, _FRAME_COUNTS))
        return Frames(found[:counts[0]], counts[1])

    def trial(self, owner, file, first, second):
        """The region of a region file under two settings, pairs of depth and budget, tried on the owner's exposures."""
        owner, file = _uint32("owner", owner), _bytes("file", file)
        settings = []
        for what, setting in (("first", first), ("second", second)):
            depth, budget = setting
            settings += [_uint32(f"depth of {what}", depth), _uint32(f"budget of {what}", budget)]
        lists = (_u64 * _RANGES_LENGTH)(), (_u64 * _RANGES_LENGTH)()
        both = lists[0], _RANGES_LENGTH, lists[1], _RANGES_LENGTH
        result, part = (_u64 * _TRIAL_COUNTS)(), (_u64 * _PART_LENGTH)()
        with self._lock:
            status = _good(_trial(self._list, _INDEX_LENGTH, owner, file, len(file), *settings, *both, result, _TRIAL_COUNTS))
        _good(_chosen(status, result, _TRIAL_COUNTS, *both, part, _PART_LENGTH))
        return Trial(Result(*result[0:5]), Result(*result[5:10]), result[10], _pairs(lists[part[0] - 1], 0, part[1] // 2))
