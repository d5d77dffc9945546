"""Run with the version before float32 was retired: what it says of trees with float32 dimensions goes to a file, a record a tree.

    then.py FILE
"""

import ctypes
import itertools
import pathlib
import pickle
import random
import struct
import sys
from decimal import Decimal
from fractions import Fraction

root = pathlib.Path(__file__).resolve().parents[2]
sys.path.insert(0, str(root / "tests/reference"))

import pieces
import rules
import tussockbell as tb
from said import said

TREES, WINDOWS, DAMAGED = 3, 120, 12
EDGES = [0.0, -0.0, 1e-45, -1e-45, 1.1754942e-38, 1.17549435e-38, 3.4028235e38, -3.4028235e38]


def mixes():
    """Every mix of kinds with a float32 dimension."""
    every = itertools.chain.from_iterable(itertools.product(rules.KINDS, repeat=dimensions) for dimensions in range(1, 5))
    return [list(kinds) for kinds in every if "float32" in kinds]


def single(number):
    return ctypes.c_float(number).value


def side(kind, chance):
    """A stored range: tenths, which no float holds exactly, and here and there an edge of float32."""
    low = chance.randrange(-300, 300)
    high = low + chance.randrange(60)
    if rules.KINDS[kind].whole:
        return pieces.origin(kind) + low, pieces.origin(kind) + high
    ends = sorted(chance.choices(EDGES, k=2)) if chance.random() < 0.05 else [low / 10, high / 10]
    return tuple(single(end) if kind == "float32" else end for end in ends)


def asked(kind, stored, chance):
    """A side of a window near a stored range, as a user may write it: numbers that are not rounded yet, or exact patterns."""
    low, high = stored
    if rules.KINDS[kind].whole:
        return max(low - chance.randrange(3), 0 if kind == "uint64" else low - 3), high + chance.randrange(3)
    near = [float(f"{end:.6g}") for end in stored]
    low, high = chance.choice([near, (near[0] - 2, near[0]), (near[1], near[1] + 2), (low, high), (-5, 5), (5, 4), (float("-inf"), near[1])])
    if chance.random() < 0.1:
        low, high = (Decimal(repr(float(end))) for end in (low, high))
    elif chance.random() < 0.1 and abs(low) < 1e30 and abs(high) < 1e30:
        low, high = Fraction(low), Fraction(high)
    elif chance.random() < 0.1:
        low, high = (struct.pack(rules.KINDS[kind].format, single(end)) for end in (low, high))
    return low, high


def damaged(data, chance):
    changed = bytearray(data)
    for _ in range(chance.randrange(1, 4)):
        changed[chance.randrange(len(data))] = chance.choice((0, 1, 2, 127, 128, 192, 255))
    return bytes(changed[: chance.choice([len(data)] * 4 + [chance.randrange(len(data))])])


def record(kinds, chance):
    n, fanout, fields = chance.randrange(1, 40), chance.randrange(2, 6), chance.randrange(1, 4)
    old, known = tb.Description(kinds, fields, 100), rules.Description(kinds, fields, 100)
    boxes = [[side(kind, chance) for kind in kinds] for _ in range(n)]
    tree = tb.write_tree(old, n, fanout, b"".join(pieces.box(kinds, box) for box in boxes))
    made = pieces.Footer(known, pieces.around(boxes), tiles=n, last_cells=chance.randrange(1, 101))
    footer, size = made.data(), made.file_size
    opened = tb.open_tree(old, size, footer, tree)
    windows = [[asked(kind, stored, chance) for kind, stored in zip(kinds, chance.choice(boxes))] for _ in range(WINDOWS)]
    hits = [tuple(hit) if isinstance(hit, tb.Hit) else None for hit in opened.query_batch(windows)]
    bad = []
    for _ in range(DAMAGED):
        pair = chance.choice([(damaged(footer, chance), tree), (footer, damaged(tree, chance)), (damaged(footer, chance), damaged(tree, chance))])
        bad.append((*pair, said(tb.open_tree, old, size, *pair), said(tb.read_footer, old, size, pair[0])))
    return kinds, fields, size, footer, tree, windows, hits, bad


def main():
    chance = random.Random(20261117)
    with open(sys.argv[1], "wb") as file:
        pickle.dump([record(kinds, chance) for kinds in mixes() for _ in range(TREES)], file)


main()
