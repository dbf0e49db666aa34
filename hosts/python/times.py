"""Times of cone searches beside a test of every row: HTM_LIBRARY_PATH=target/lib python3 hosts/python/times.py [ROWS]
A row is kept as identifier, pointing and unit vector, ready for both. The test of every row is the product of unit vectors beside the cosine. Each time is the
least of seven, in milliseconds; a search makes its region file and cover anew each time, and takes the rows as ordered. Lists are timed up to 200,000
rows. Ends with 1 where a search misses a row."""
import math
import random
import sys
import time

sys.dont_write_bytecode = True
import htmsky

try:
    import numpy as np
except ImportError:
    np = None

RADII = [("10\"", 10 / 3600), ("1'", 1 / 60), ("0.1°", 0.1), ("1°", 1), ("5°", 5), ("30°", 30), ("90°", 90)]
CENTRE = 83.82, -5.39


def unit(ra, dec):
    a, d = math.radians(ra), math.radians(dec)
    return math.cos(d) * math.cos(a), math.cos(d) * math.sin(a), math.sin(d)


def least(call):
    """What a call gives, and its least time."""
    times = []
    for _ in range(7):
        begin = time.perf_counter()
        result = call()
        times.append(time.perf_counter() - begin)
    return result, 1000 * min(times)


def table(columns, units, every_row):
    print("| radius | rows found | search | test of every row | point test of every row |\n|---|---|---|---|---|")
    for name, radius in RADII:
        file = htmsky.cone(*CENTRE, radius)
        found, search = least(lambda: htmsky.search(htmsky.cone(*CENTRE, radius), *columns, ordered=True))
        true, every = least(lambda: every_row(units, unit(*CENTRE), math.cos(math.radians(radius))))
        _, point = least(lambda: htmsky.holds(file, *columns[1:]))
        if not set(true) <= set(found):
            sys.exit(f"{name}: a row is missing")
        print(f"| {name} | {len(found)} | {search:.2f} | {every:.2f} | {point:.1f} |")


def by_list(units, centre, least_cosine):
    a, b, c = centre
    return [k for k, (x, y, z) in enumerate(units) if a * x + b * y + c * z >= least_cosine]


def by_array(units, centre, least_cosine):
    return np.flatnonzero(units @ np.array(centre) >= least_cosine)


def main(count):
    random.seed(7)
    ra = [random.uniform(0, 360) for _ in range(count)]
    dec = [math.degrees(math.asin(random.uniform(-1, 1))) for _ in range(count)]
    (identifiers, filing), (xyz, _) = least(lambda: htmsky.lookup_degrees(ra, dec)), least(lambda: htmsky.pointing(ra, dec))
    rows = sorted(zip(identifiers, *xyz, ra, dec))
    identifiers, x, y, z, ra, dec = map(list, zip(*rows))
    units = [unit(*row) for row in zip(ra, dec)]
    if count <= 200_000:
        print(f"\n{count} rows in lists, python {sys.version.split()[0]}; filing them takes {filing:.0f} ms\n")
        table((identifiers, x, y, z), units, by_list)
    if np:
        columns = [np.array(column) for column in (identifiers, x, y, z)]
        degrees = np.array(ra), np.array(dec)
        _, filing = least(lambda: htmsky.lookup_degrees(*degrees))
        print(f"\n{count} rows in arrays, numpy {np.__version__}; filing them takes {filing:.0f} ms\n")
        table(columns, np.array(units), by_array)


main(int(sys.argv[1]) if len(sys.argv) > 1 else 200_000)
