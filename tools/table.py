#!/usr/bin/env python3
"""Prints the numbers of crates/mesh_table/src/lib.rt by the model htm.py: for each of the trixels 128 to 143 a line with v0 v1 v2 and one with p0 p1 p2.

python3 tools/table.py              print the lines
python3 tools/table.py --compare    say whether the file has them, and whether the trixels 144 to 255 are these, turned
"""
import sys
from pathlib import Path

sys.dont_write_bytecode = True
from htm import trixel

FILE = Path(__file__).resolve().parent.parent / "crates/mesh_table/src/lib.rt"
TURNED = [
    lambda x, y, z: (x, y, z), lambda x, y, z: (-y, x, z), lambda x, y, z: (-x, -y, z), lambda x, y, z: (y, -x, z),
    lambda x, y, z: (x, -y, -z), lambda x, y, z: (-y, -x, -z), lambda x, y, z: (-x, y, -z), lambda x, y, z: (y, x, -z),
]


def vectors(i):
    corners, normals = trixel(i)
    return [tuple(v) for v in (*corners, *normals)]


def entries():
    lines = [vectors(i)[part:part + 3] for i in range(128, 144) for part in (0, 3)]
    return "".join("    " + ", ".join(str(list(v)) for v in line) + ",\n" for line in lines)


def rotated():
    return all(vectors(128 + 16 * r + t) == [TURNED[r](*v) for v in vectors(128 + t)] for r in range(8) for t in range(16))


if __name__ == "__main__":
    if sys.argv[1:] == ["--compare"]:
        numbers = "".join(l for l in FILE.read_text().splitlines(True) if l.startswith("    [") and l.strip(" -0123456789,[]\n") == "" and l.count(",") == 9)
        same = entries() == numbers and rotated()
        print("same" if same else "different")
        sys.exit(not same)
    sys.stdout.write(entries())
