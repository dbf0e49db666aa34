"""A cone search of 200,000 frames: HTM_LIBRARY_PATH=target/lib python3 hosts/python/example.py prints hosts/python/example.expected."""
import math
import random

import htmsky

random.seed(2026)
ra = [random.uniform(0, 360) for _ in range(200_000)]
dec = [math.degrees(math.asin(random.uniform(-1, 1))) for _ in range(200_000)]

rows = sorted(zip(htmsky.lookup_degrees(ra, dec), *htmsky.pointing(ra, dec), range(200_000)))      # filed once, in the order of their trixels
identifiers, x, y, z, frame = zip(*rows)

cone = htmsky.cone(83.82, -5.39, 1.5)                                                              # 1.5 degrees around the Orion nebula
for k in htmsky.search(cone, identifiers, x, y, z):
    print(f"frame {frame[k]:6}  ra {ra[frame[k]]:8.4f}  dec {dec[frame[k]]:8.4f}  trixel {htmsky.name(identifiers[k])}")
