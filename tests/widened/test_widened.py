"""Accepted trees whose parents are wider than their children need, beside the trees that the library writes from their leaves: on every
window the written tree has the same refusal and the same tiles, and looks at no more boxes."""

import pathlib
import random
import re
import sys
import unittest

root = pathlib.Path(__file__).resolve().parents[2]
sys.path.insert(0, str(root / "tests/reference"))

import pieces
import rules
import tussockbell as tb

MIXES = [["int32"], ["int64"], ["float64"], ["uint64"], ["int32", "float64"], ["uint64", "float64"], ["float64", "int64", "int32"],
         ["float64", "uint64", "int64", "int32"]]
SIZES = [(1, 2), (2, 2), (3, 2), (17, 2), (40, 3), (100, 10), (101, 10), (130, 64), (64, 4)]


def step(kind, x):
    """A difference of two numbers of a kind: quarters for floats, which both widths hold exactly."""
    return x if rules.KINDS[kind].whole else x / 4


def number(kind, x):
    """A number of a kind: around zero, and for unsigned ones around the middle."""
    return step(kind, x) + (2**63 if kind == "uint64" else 0)


def leaves(kinds, n, chance):
    """Small boxes, here and there with an end that is a zero of either sign."""
    made = []
    for i in range(n):
        box = []
        for position, kind in enumerate(kinds):
            low = 10 * i - 200 if position == 0 else chance.randrange(-300, 300)
            pair = [number(kind, low), number(kind, low + chance.randrange(0, 30))]
            if not rules.KINDS[kind].whole and chance.random() < 0.2:
                pair = [chance.choice([0.0, -0.0]), chance.choice([0.0, -0.0, 3.5])]
            box.append(tuple(pair))
        made.append(box)
    return made


def widened(kinds, below, f, chance, most):
    """The levels above some leaves, root first: each parent holds its children and reaches past them by up to `most`."""
    levels = [below]
    while len(levels[0]) > 1:
        above = []
        for k in range(0, len(levels[0]), f):
            around = pieces.around(levels[0][k : k + f])
            above.append([(low - step(kind, chance.randrange(most + 1)), high + step(kind, chance.randrange(most + 1)))
                          for kind, (low, high) in zip(kinds, around)])
        levels.insert(0, above)
    return levels


def body(kinds, levels, f):
    made = pieces.u32(f) + pieces.u32(len(levels))
    for level in levels:
        made += pieces.u64(len(level)) + b"".join(pieces.box(kinds, b) for b in level)
    return made


class Opened:
    """A tree by its levels, opened, so that it is accepted; and the footer that it is opened with."""

    def __init__(self, kinds, levels, f):
        self.kinds, self.description = kinds, tb.Description(kinds, 1, 100)
        self.footer = pieces.Footer(rules.Description(kinds, 1, 100), levels[0][0], tiles=len(levels[-1]))
        self.tree = self.open(body(kinds, levels, f))

    def open(self, data):
        return tb.open_tree(self.description, self.footer.file_size, self.footer.data(), data)

    def written(self, boxes):
        """The tree that the library writes from some leaves, opened with the same footer."""
        lent = b"".join(pieces.box(self.kinds, b) for b in boxes)
        return self.open(tb.write_tree(self.description, self.tree.tiles, self.tree.fanout, lent))


def windows(kinds, boxes, chance, count):
    """Points, edges, small windows and large ones; and some that are refused."""
    for _ in range(count):
        near = chance.choice(boxes)
        reach = chance.choice([0, 0, 1, 20, 200])
        yield [(low - step(kind, chance.randrange(reach + 1)), high + step(kind, chance.randrange(reach + 1)))
               for kind, (low, high) in zip(kinds, near)]
    yield [(low, low) for low, _ in boxes[-1]]
    yield [(high, high) for _, high in boxes[0]]
    yield [(number(kind, -10**6), number(kind, 10**6)) for kind in kinds]
    yield [(number(kind, 10**6), number(kind, 10**6 + 1)) for kind in kinds]
    yield [(5, 4)] * len(kinds)
    yield [(0, 1)] * (len(kinds) + 1)
    yield [(float("nan"), 0)] * len(kinds)


def outcome(tree, window, room):
    try:
        hit = tree.query(window, room)
        return (hit.tiles, hit.found), hit.looked
    except tb.Refused as refusal:
        return ("refused", refusal.number, refusal.place, refusal.which), 0


def flipped(kinds, boxes, chance):
    """Equal as ranges: zeros of the other sign, here and there."""
    turn = lambda x: -x if x == 0 and isinstance(x, float) and chance.random() < 0.5 else x
    return [[(turn(low), turn(high)) for low, high in box] for box in boxes]


# ---- a skim: one hit in twenty is kept of a tree of 4,096 tiles with 64 hits each, fanout 10, in the order of a Hilbert curve; the leaves
# are the boxes around the hits that are left, the parents those of the tree before the skim

ORDER, TILES, HITS, FANOUT, KEPT, WINDOWS, SIDE = 14, 4096, 64, 10, 0.05, 2000, 100


def hilbert(hit):
    """The place of a point on a Hilbert curve through a square of 2 ** ORDER a side."""
    (x, y), place, s = hit, 0, 1 << (ORDER - 1)
    while s:
        right, up = bool(x & s), bool(y & s)
        place += s * s * ((3 * right) ^ up)
        x, y = x & (s - 1), y & (s - 1)
        if not up:
            x, y = (s - 1 - y, s - 1 - x) if right else (y, x)
        s >>= 1
    return place


def skim(chance):
    """The skim's tree, and its leaves."""
    hits = sorted(((chance.randrange(1 << ORDER), chance.randrange(1 << ORDER)) for _ in range(TILES * HITS)), key=hilbert)
    tiles = [hits[k : k + HITS] for k in range(0, len(hits), HITS)]
    around = lambda some: [(min(h[i] for h in some), max(h[i] for h in some)) for i in (0, 1)]
    levels = pieces.levels([around(tile) for tile in tiles], FANOUT)
    levels[-1] = [around([h for h in tile if chance.random() < KEPT] or tile[:1]) for tile in tiles]
    return Opened(["int32", "int32"], levels, FANOUT), levels[-1]


class Widened(unittest.TestCase):
    def compare(self, wide, narrow, asked, room=None):
        """The number of windows on which the written tree looks at fewer boxes."""
        fewer = 0
        for window in asked:
            (there, more), (here, less) = outcome(wide, window, room), outcome(narrow, window, room)
            self.assertEqual(here, there, window)
            self.assertLessEqual(less, more, window)
            fewer += less < more
        return fewer

    def test_no_tree_looks_at_less(self):
        chance = random.Random(8)
        fewer = 0
        for kinds in MIXES:
            for n, f in SIZES:
                for most in (0, 3, 40, 400):
                    boxes = leaves(kinds, n, chance)
                    wide = Opened(kinds, widened(kinds, boxes, f, chance, most), f)
                    asked = list(windows(kinds, boxes, chance, 40))
                    seen = self.compare(wide.tree, wide.written(boxes), asked)
                    self.assertTrue(seen == 0 or most > 0)
                    fewer += seen
                    self.compare(wide.tree, wide.written(flipped(kinds, boxes, chance)), asked, room=chance.randrange(n + 1))
        self.assertGreater(fewer, 1000)

    def test_the_writer_refuses_nothing_but_the_room(self):
        chance = random.Random(88)
        for kinds in MIXES:
            boxes = leaves(kinds, 23, chance)
            wide = Opened(kinds, widened(kinds, boxes, 3, chance, 50), 3)
            lent = b"".join(pieces.box(kinds, b) for b in flipped(kinds, boxes, chance))
            size = len(tb.write_tree(wide.description, 23, 3, lent))
            for room in range(size + 1):
                out = bytearray(b"\xa5" * room)
                try:
                    self.assertEqual(tb.write_tree_into(wide.description, 23, 3, lent, out), room)
                    self.assertEqual(room, size)
                except tb.Refused as refusal:
                    self.assertEqual((refusal.number, refusal.place), (26, 0))
                    self.assertLess(room, size)
                    self.assertEqual(out, b"\xa5" * room)

    def test_a_skim_as_the_readme_says(self):
        chance = random.Random(9)
        wide, boxes = skim(chance)
        narrow = wide.written(boxes)
        more = less = 0
        for _ in range(WINDOWS):
            x, y = chance.randrange(1 << ORDER), chance.randrange(1 << ORDER)
            window = [(x, x + SIDE), (y, y + SIDE)]
            there, here = wide.tree.query(window), narrow.query(window)
            self.assertEqual((here.tiles, here.found), (there.tiles, there.found))
            more, less = more + there.looked, less + here.looked
        said = re.search(r"looks at (\d+\.\d) boxes a window on average, and with least parents at (\d+\.\d)",
                         " ".join((root / "README.md").read_text().split()))
        self.assertEqual(said.groups(), (f"{more / WINDOWS:.1f}", f"{less / WINDOWS:.1f}"))
