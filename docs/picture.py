"""Makes docs/tiles.svg, the README's picture: hits of tracks in two dimensions, in tiles of 40, and the tiles that a window touches.

    PYTHONPATH=bindings/python python3 docs/picture.py
"""

import math
import pathlib
import random
import sys
import tempfile

root = pathlib.Path(__file__).resolve().parents[1]
sys.path.insert(0, str(root / "tests/reference"))

import pieces
import rules
from tussockbell.__main__ import main

KINDS = ["float64", "float64"]
CAPACITY, FANOUT, WINDOW = 40, 10, "12:34,-6:21"


def hits(chance):
    """Tracks that leave the middle in slight curves, with a hit on each of 24 layers."""
    made = []
    for _ in range(200):
        angle, bend = chance.uniform(0, 2 * math.pi), chance.gauss(0, 0.012)
        for layer in range(2, 50, 2):
            at = angle + bend * layer
            made.append((layer * math.cos(at), layer * math.sin(at)))
    return made


def morton(hit):
    """The hit's place on a curve that keeps neighbours together, as TileDB's cell orders do."""
    x, y = (int((end + 64) * 512) for end in hit)
    return sum((x >> bit & 1) << 2 * bit | (y >> bit & 1) << 2 * bit + 1 for bit in range(16))


def around(cells):
    return [(min(cell[i] for cell in cells), max(cell[i] for cell in cells)) for i in range(2)]


ordered = sorted(hits(random.Random(5)), key=morton)
leaves = [around(ordered[i : i + CAPACITY]) for i in range(0, len(ordered), CAPACITY)]
known = rules.Description(KINDS, 1, CAPACITY)
footer = pieces.Footer(known, pieces.around(leaves), tiles=len(leaves), last_cells=len(ordered) - CAPACITY * (len(leaves) - 1))
with tempfile.TemporaryDirectory() as folder:
    files = [pathlib.Path(folder, name) for name in ("footer", "tree")]
    files[0].write_bytes(footer.data())
    files[1].write_bytes(pieces.tree(KINDS, leaves, FANOUT))
    sys.exit(main([
        "plot", "--kinds", ",".join(KINDS), "--fields", "1", "--capacity", str(CAPACITY), "--file-size", str(footer.file_size),
        "--window", WINDOW, "--out", str(root / "docs/tiles.svg"), *map(str, files),
    ]))
