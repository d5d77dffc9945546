"""The Python binding against the reference and the header; its buffers, its window ends and numbers of any size."""

import array
import copy
import ctypes
import dataclasses
import importlib
import math
import mmap
import os
import pathlib
import pickle
import random
import re
import struct
import subprocess
import sys
import tempfile
import threading
import tracemalloc
import unittest
from decimal import Decimal
from fractions import Fraction
from unittest import mock

root = pathlib.Path(__file__).resolve().parents[2]
sys.path.insert(0, str(root / "tests/reference"))

import pieces
import rules
import tussockbell as tb
from tussockbell import _functions

MOST = 2**64 - 1
REFUSALS = sorted(number for name, number in vars(rules.Refusal).items() if name.isupper())
SAMPLE = {name: (root / "tests/fixtures/sample" / name).read_bytes() for name in ("footer", "tree", "offsets")}
SAMPLE_SIZE, SAMPLE_DATA_SIZE = 1166, 300
ONE = tb.Description(["int32"], fields=1, capacity=32)
NUMBERS = [f.name for f in dataclasses.fields(tb.Footer) if not f.name.startswith("_")]
NO_KINDS = ["int8", "uint32", "Int32", "", 4, 7, 9, 11, 300, -1, 10**30, 1.5, None, [], b"int32", int, object()]
BAD_KINDS = [[], ["int32"] * 5, ["int32"] * 300] + [[kind] for kind in NO_KINDS] + [["int32", "int"]]
BAD_DESCRIPTIONS = [tb.Description(kinds, 1, 32) for kinds in BAD_KINDS]
BAD_DESCRIPTIONS += [tb.Description(["int32"], fields, 32) for fields in (0, 65, -1, 2**70, MOST, 2**64 + 1)]
BAD_DESCRIPTIONS += [tb.Description(["int32"], 1, capacity) for capacity in (0, 10**9 + 1, -1, 10**30, MOST, 2**64 + 32)]


def outcome(ask, *arguments, **named):
    """What is answered, or the refusal's numbers."""
    try:
        return ask(*arguments, **named)
    except (tb.Refused, rules.Refused) as refusal:
        return "refused", refusal.number, refusal.place, refusal.which


def footer_numbers(description, file_size, data):
    """Every number of a footer as the binding has them, as text, so that zeros of both signs differ."""
    footer = tb.read_footer(description, file_size, data)
    around = range(-2, footer.tiles + 2)
    return repr({name: getattr(footer, name) for name in NUMBERS}), [footer.cells(i) for i in around]


def expected_footer_numbers(known, file_size, data):
    footer = rules.footer(known, min(max(file_size, 0), MOST), data)
    last, tiles = footer.pop("last_cells"), footer["tiles"]
    footer.update(schema_name=bytes(footer.pop("name")), last_tile_cells=last)
    footer["total_cells"] = rules.total_cells(tiles, last, known.capacity)
    footer = {name: tuple(x) if isinstance(x, list) else x for name, x in footer.items()}
    cells = [rules.cells(tiles, last, known.capacity, i) for i in range(tiles + 2)]
    return repr({name: footer[name] for name in NUMBERS}), [0, 0] + cells


def opened(description, file_size, footer, body):
    tree = tb.open_tree(description, file_size, footer, body)
    return {"tiles": tree.tiles, "fanout": tree.fanout, "levels": tree.levels}


def expected_hit(known, n, body, kinds, numbers, room=None):
    """The hit of the reference. A refusal of plain bytes says the first of the byte strings."""
    try:
        found, looked = rules.query(known, n, body, kinds, numbers)
    except rules.Refused as refusal:
        raise rules.Refused(refusal.number, refusal.place)
    return tb.Hit(found if room is None else found[: max(room, 0)], len(found), looked)


class Fragment:
    """A fragment's pieces, for the binding and for the reference."""

    def __init__(self, kinds, n, fanout, fields, chance):
        self.known, self.given = rules.Description(kinds, fields, 100), tb.Description(kinds, fields, 100)
        self.kinds, self.n, self.chance = kinds, n, chance
        self.boxes = [[self.near(kind, 10 * i) for kind in kinds] for i in range(n)]
        self.tree = pieces.tree(kinds, self.boxes, fanout)
        footer = pieces.Footer(self.known, pieces.around(self.boxes), tiles=n, last_cells=chance.randrange(1, 101))
        footer.version = chance.randrange(16, 22)
        self.footer, self.file_size = footer.data(), footer.file_size
        extents = [chance.randrange(1, 500) for _ in range(n)]
        self.data_size = sum(extents)
        self.offsets = pieces.entries([sum(extents[:i]) for i in range(n)])
        self.sizes = pieces.entries(extents)

    def near(self, kind, middle, width=25):
        low = pieces.origin(kind) + middle + self.chance.randrange(-30, 30)
        high = low + self.chance.randrange(0, width)
        return (low, high) if rules.KINDS[kind].whole else (low / 4, high / 4)

    def damaged(self, data):
        """Other bytes: some changed, some left off, some added, or the same."""
        way = self.chance.randrange(6)
        at = self.chance.randrange(len(data))
        if way == 0:
            return data[:at]
        if way == 1:
            return data + bytes(self.chance.randrange(1, 9))
        changed = bytearray(data)
        if way == 5:  # a NaN, where it falls on an end
            changed[at : at + 8] = b"\xff" * len(changed[at : at + 8])
        if way < 4:
            for _ in range(way - 1):
                changed[min(self.chance.randrange(len(data)) for _ in (0, 1))] = self.chance.choice((0, 1, 2, 127, 128, 255))
        return bytes(changed)

    def side(self, kind, middle):
        """A side as the binding takes it, and its kind and numbers as the reference does; NaN, reversed or not held at times."""
        low, high = self.near(kind, middle, 120)
        whole, way = rules.KINDS[kind].whole, self.chance.randrange(24)
        if way == 0:
            return (high + 1, low), kind, (high + 1, low)
        if way == 1:
            given = [5, None, (1,), (1, 2, 3), (low, b"123"), (1.5 if whole else b"", high), (low, 2**64 if whole else b"")]
            return self.chance.choice(given), "none", (0, 0)
        if way < 5 and not whole:
            nan, inf = math.nan, math.inf
            low, high = self.chance.choice([(nan, high), (low, nan), (-inf, high), (low, inf), (0.1, 1e300), (-1e300, 0.3)])
        patterns = [self.pattern(kind, x) for x in (low, high)]
        numbers = tuple(struct.unpack(rules.KINDS[kind].format, p)[0] for p in patterns)
        if way < 9:
            return patterns, kind, numbers
        exact = (float(low), float(high)) == (low, high)
        return ((float(low), float(high)) if way < 12 and exact else (low, high)), kind, numbers

    @staticmethod
    def pattern(kind, x):
        if kind == "float32":
            return bytes(ctypes.c_float(x))
        return pieces.end(kind, x)

    def window(self):
        """A window as the binding takes it, and its kinds and numbers as the reference does."""
        kinds, way = list(self.kinds), self.chance.randrange(12)
        if way == 0:
            kinds = kinds[:-1]
        if way == 1:
            kinds = kinds + ["int32"] * self.chance.randrange(1, 4)
        own = way in (1, 2, 3)
        if way == 2:
            kinds[self.chance.randrange(len(kinds))] = self.chance.choice(list(rules.KINDS))
        middle = self.chance.randrange(10 * self.n)
        sides = [self.side(kind, middle) for kind in kinds]
        ranges = [given for given, _, _ in sides]
        return tb.Window(kinds, ranges) if own else ranges, [kind for _, kind, _ in sides], [numbers for _, _, numbers in sides]


def known_of(description):
    """A description for the reference; one with something that is no kind has no dimensions there, which is refused alike."""
    kinds = description.kinds if all(k in list(rules.KINDS) for k in description.kinds) else []
    return rules.Description(list(kinds), description.fields, description.capacity)


def random_fragment(chance):
    kinds = [chance.choice(rules.DIMENSION_KINDS) for _ in range(chance.randrange(1, 5))]
    return Fragment(kinds, chance.randrange(1, 30), chance.randrange(2, 7), chance.randrange(1, 4), chance)


class Same(unittest.TestCase):
    """Compares the outcome of the binding with that of the reference."""

    def setUp(self):
        self.compared, self.refusals = 0, set()

    def same(self, got, expected):
        self.assertEqual(got, expected)
        self.compared += 1
        if isinstance(got, tuple) and got[0] == "refused":
            self.refusals.add(got[1])

    def same_footer(self, given, known, file_size, data):
        self.same(outcome(footer_numbers, given, file_size, data), outcome(expected_footer_numbers, known, file_size, data))

    def same_tree(self, given, known, file_size, footer, body):
        self.same(outcome(opened, given, file_size, footer, body), outcome(rules.open_tree, known, file_size, footer, body))

    def same_query(self, given, known, n, body, window, kinds, numbers, room=None):
        expected = outcome(expected_hit, known, n, body, kinds, numbers, room)
        self.same(outcome(tb.query, given, n, body, window, room=room), expected)
        return expected

    def same_batch(self, ask, known, n, body, windows, room):
        """A batch against the reference's, of windows as the binding takes them, and their kinds and numbers."""
        given = [window for window, _, _ in windows]
        places = 100_000 if room is None else min(max(room, 0), 100_000)
        records, out = rules.batch(known, n, body, [(kinds, numbers) for _, kinds, numbers in windows], len(windows), [None] * places)
        expected, free = [], 0
        for number, place, found, looked, used in records:
            expected.append(("refused", number, place, 0) if number else tb.Hit(out[free : free + used], found, looked))
            free += used
        got = [("refused", *one.args) if isinstance(one, tb.Refused) else one for one in ask(given, room=room)]
        self.same(got, expected)
        self.refusals |= {one[1] for one in got if one[0] == "refused"}
        return expected

    def same_lists(self, n, size, offsets, sizes):
        self.same(outcome(lambda: list(tb.tile_offsets(n, size, offsets))), outcome(rules.extents, n, size, offsets))
        nearest = min(max(size, 0), MOST)
        self.same(outcome(lambda: list(tb.var_tile_offsets(n, size, offsets))), outcome(rules.var_extents, n, nearest, offsets))
        self.same(outcome(tb.tile_sizes, n, sizes), outcome(rules.sizes, n, sizes))


class Fixtures(Same):
    def test_fixtures(self):
        folders = [folder for folder in sorted((root / "tests/fixtures").iterdir()) if (folder / "about").exists()]
        self.assertEqual(len(folders), 9)
        for folder in folders:
            kinds, fields, capacity, file_size, size = (folder / "about").read_text().splitlines()
            kinds, file_size, size = kinds.split(), int(file_size), int(size)
            known, given = (make(kinds, int(fields), int(capacity)) for make in (rules.Description, tb.Description))
            footer, body, offsets, sizes = ((folder / name).read_bytes() for name in ("footer", "tree", "offsets", "sizes"))
            self.same_footer(given, known, file_size, footer)
            self.same_tree(given, known, file_size, footer, body)
            tree = tb.open_tree(given, file_size, footer, body)
            self.same_lists(tree.tiles, size, offsets, sizes)
            self.assertEqual(tb.tile_sizes(tree.tiles, sizes), size)
            for line in (folder / "answers").read_text().splitlines():
                ends, tiles, looked, _ = line.split("\t")
                ends = [float(x) if "." in x else int(x) for x in ends.split()]
                tiles = [int(tile) for tile in tiles.split()]
                self.assertEqual(tree.query(zip(ends[::2], ends[1::2])), tb.Hit(tiles, len(tiles), int(looked)))

    def test_sample(self):
        footer = tb.read_footer(ONE, SAMPLE_SIZE, SAMPLE["footer"])
        self.assertEqual((footer.tiles, footer.last_tile_cells, footer.domain, footer.schema_name), (3, 5, ((0, 24),), b"schema"))
        self.assertEqual(tb.open_tree(ONE, SAMPLE_SIZE, SAMPLE["footer"], SAMPLE["tree"]).query([(12, 21)]), tb.Hit([1, 2], 2, 6))
        self.assertEqual(list(tb.tile_offsets(3, SAMPLE_DATA_SIZE, SAMPLE["offsets"])), [(0, 100), (100, 150), (250, 50)])


class Generated(Same):
    def test_pieces_whole_and_damaged(self):
        chance = random.Random(1)
        for _ in range(180):
            f = random_fragment(chance)
            self.same_footer(f.given, f.known, f.file_size, f.footer)
            self.same_tree(f.given, f.known, f.file_size, f.footer, f.tree)
            self.same_lists(f.n, f.data_size, f.offsets, f.sizes)
            for _ in range(4):
                file_size = f.file_size + chance.choice((0, 0, 0, -1, -950, -1001, MOST))
                self.same_footer(f.given, f.known, file_size, f.damaged(f.footer))
                self.same_tree(f.given, f.known, f.file_size, f.footer, f.damaged(f.tree))
                self.same_tree(f.given, f.known, f.file_size, f.damaged(f.footer), f.damaged(f.tree))
                n, size = f.n + chance.choice((0, 0, 0, 1, -1)), f.data_size + chance.choice((0, 0, 1, -1, -f.data_size))
                self.same_lists(n, size, f.damaged(f.offsets), f.damaged(f.sizes))
            numbers = sorted(chance.choice((0, 1, 2**63, MOST - 1, MOST)) for _ in range(f.n))
            self.same_lists(f.n, MOST, pieces.entries(numbers), pieces.entries(numbers))
            size = chance.choice((0, 1, 300, MOST - 1, MOST))
            numbers = [0, *sorted(chance.choice((0, size // 2, size, size, min(size + 1, MOST))) for _ in range(f.n - 1))]
            self.same_lists(f.n, size, pieces.entries(numbers), pieces.entries(numbers))
        self.assertGreater(self.compared, 4000)
        self.assertLessEqual({2, 3, 4, 5, *range(8, 19), 20}, self.refusals)

    def test_queries(self):
        chance = random.Random(2)
        hits = 0
        for _ in range(150):
            f = random_fragment(chance)
            tree = tb.open_tree(f.given, f.file_size, f.footer, f.tree)
            for _ in range(12):
                window, kinds, numbers = f.window()
                room = chance.choice((None, None, 0, 1, 2, 5, f.n - 1, f.n, f.n + 1, -1, 10**30, -(10**30)))
                expected = self.same_query(f.given, f.known, f.n, f.tree, window, kinds, numbers, room)
                self.same(outcome(tree.query, window, room), expected)
                hits += bool(isinstance(expected, tb.Hit) and expected.tiles)
                self.same_query(f.given, f.known, f.n + chance.choice((0, 0, 0, 1)), f.damaged(f.tree), window, kinds, numbers)
        self.assertGreater(self.compared, 4000)
        self.assertGreater(hits, 400)
        self.assertLessEqual({2, 8, 9, 13, 14, 19}, self.refusals)

    def test_box_tests(self):
        chance = random.Random(3)
        numbers_read = set()
        for _ in range(150):
            f = random_fragment(chance)
            for _ in range(12):
                window, kinds, numbers = f.window()
                box = pieces.box(f.kinds, chance.choice(f.boxes))
                for stored in (box, f.damaged(box)):
                    expected = outcome(rules.box_test, f.known, stored, kinds, numbers)
                    self.same(outcome(tb.box_test, f.given, stored, window), expected)
                    numbers_read.add(expected)
        self.assertGreater(self.compared, 3000)
        self.assertLessEqual({(False, 1), (False, 2), (False, 3), (True, 1), (True, 2), (True, 3)}, numbers_read)
        self.assertLessEqual({2, 8, 9, 19}, self.refusals)

    def test_first_miss(self):
        for kind in rules.DIMENSION_KINDS:
            known, zero = rules.KINDS[kind], pieces.origin(kind)
            above, below = (zero + 20, zero + 30), (zero - 30, zero - 20)
            ends = [above, below] + [(math.nan, 5), (5, math.nan)] * (not known.whole)
            for dimensions in range(1, 5):
                d, window = tb.Description([kind] * dimensions, 1, 32), [(zero, zero + 10)] * dimensions
                met = [(zero + 10, zero + 12)] * dimensions
                self.assertEqual(tb.box_test(d, pieces.box(d.kinds, met), window), (True, dimensions))
                for miss in range(dimensions):
                    for end in ends:
                        for rest in ((zero, zero + 1), above):
                            sides = met[:miss] + [end] + [rest] * (dimensions - miss - 1)
                            self.assertEqual(tb.box_test(d, pieces.box(d.kinds, sides), window), (False, miss + 1))

    def test_stored_infinities(self):
        """In the domain and in every box, at either end of each dimension, in order, reversed and beside a NaN. Asked as it is, the tree is walked."""
        kinds, inf, nan = ["float64", "float64"], math.inf, math.nan
        known, given = (make(kinds, 1, 32) for make in (rules.Description, tb.Description))
        body = pieces.tree(kinds, [[(float(i), i + 1.5), (-float(i), 2.0 * i)] for i in range(5)], 2)
        wide, window = [(-100.0, 100.0)] * 2, [(0.0, 2.0), (-inf, inf)]
        foot = pieces.Footer(known, wide, tiles=5)
        _, counts, starts = rules.check_shape(known, 5, body)
        for low, high in ((-inf, 1.0), (1.0, inf), (-inf, inf), (inf, inf), (inf, -inf), (1.0, -inf), (nan, inf), (-inf, nan)):
            number = 8 if math.isnan(low) or math.isnan(high) else 23
            for side, kind in enumerate(kinds):
                domain = pieces.Footer(known, wide[:side] + [(low, high)] + wide[side + 1 :], tiles=5)
                self.same_footer(given, known, domain.file_size, domain.data())
                self.same_tree(given, known, domain.file_size, domain.data(), body)
                for box in (start + 32 * k for start, count in zip(starts, counts) for k in range(count)):
                    at = box + 16 * side
                    bad = changed(body, at, pieces.box([kind], [(low, high)]))
                    self.assertEqual(outcome(opened, given, foot.file_size, foot.data(), bad), ("refused", number, at, 1))
                    self.same_tree(given, known, foot.file_size, foot.data(), bad)
                    self.assertIsInstance(self.same_query(given, known, 5, bad, window, kinds, window), tb.Hit)
        self.assertEqual(self.refusals, {8, 23})

    def test_bad_descriptions(self):
        f = Fragment(["int32"], 3, 2, 1, random.Random(3))
        for given in BAD_DESCRIPTIONS:
            known = known_of(given)
            self.same_footer(given, known, f.file_size, f.footer)
            self.same_tree(given, known, f.file_size, f.footer, f.tree)
            for n, window in ((3, [(0, 1)]), (0, [(1, 0)]), (3, [(0, 1), (0, 1)]), (3, [])):
                self.same_query(given, known, n, f.tree, window, ["int32"] * len(window), window)
        self.assertEqual(self.refusals, {1})
        self.assertEqual(self.compared, 6 * len(BAD_DESCRIPTIONS))

    def test_numbers_of_any_size(self):
        f = Fragment(["int32"], 3, 2, 1, random.Random(4))
        for n in (10**30, -(10**30), -1, 0, 2**64, 2**64 + 3, MOST, 65537, 4, 2):
            self.same_query(f.given, f.known, n, f.tree, [(0, 1)], ["int32"], [(0, 1)])
            self.same_lists(n, f.data_size, f.offsets, f.sizes)
        self.assertEqual(self.refusals, {2, 10, 14, 17})
        for size in (-1, -(10**30), 0):
            self.same_footer(f.given, f.known, size, f.footer)
            self.same_lists(3, size, f.offsets, f.sizes)
        self.same_footer(f.given, f.known, 10**30, f.footer)
        self.assertEqual(list(tb.tile_offsets(3, 10**30, f.offsets)), rules.extents(3, MOST, f.offsets))
        self.same_footer(tb.Description([0], True, 100), rules.Description(["int32"], 1, 100), f.file_size, f.footer)
        window = [(0, 1)] * 100
        self.same_query(f.given, f.known, 3, f.tree, window, ["int32"] * 100, window)
        self.same_query(f.given, f.known, 3, f.tree, tb.Window(["int32"] * 100, window), ["int32"] * 100, window)
        footer = tb.read_footer(f.given, f.file_size, f.footer)
        self.assertEqual([footer.cells(i) for i in (-1, -(10**30), 3, MOST, 2**64, 2**64 + 1, 10**30)], [0] * 7)

    def test_first_check_decides(self):
        bad = tb.Description(["int32"], 1, 0)
        for given, n, body, window, expected in (
            (bad, 0, b"", [(1, 0)], (1, 0)), (ONE, 0, b"", [(1, 0), (2, 3)], (10, 0)), (ONE, 3, b"", [(1, 0), (2, 3)], (19, 0)),
            (ONE, 3, b"", [(2**31, 0)], (19, 0)), (ONE, 3, b"", [(1, 0)], (9, 0)), (ONE, 3, b"", [(0, 1)], (2, 0)),
            (ONE, -1, b"", tb.Window([7], []), (10, 0)), (bad, -1, b"", tb.Window([7], []), (1, 0)),
        ):
            self.assertEqual(outcome(tb.query, given, n, body, window), ("refused", *expected, 0))


def changed(data, at, new):
    return data[:at] + new + data[at + len(new) :]


class Batches(Same):
    """All windows of a batch in one call, against the reference and against the same windows asked one after the other."""

    @staticmethod
    def plain(windows):
        """Windows of the description's kinds as the bytes of a run."""
        return b"".join(Fragment.pattern(kind, x) for _, kinds, numbers in windows for kind, pair in zip(kinds, numbers) for x in pair)

    def test_generated(self):
        chance, hits = random.Random(5), 0
        for _ in range(120):
            f = random_fragment(chance)
            tree = tb.open_tree(f.given, f.file_size, f.footer, f.tree)
            windows = [f.window() for _ in range(chance.choice((0, 1, 2, 5, 9, 32, 33)))]
            for room in (None, 0, 1, chance.randrange(1, 90), -1, 10**30):
                expected = self.same_batch(tree.query_batch, f.known, f.n, f.tree, windows, room)
                hits += sum(bool(one[0]) for one in expected if isinstance(one, tb.Hit))
            body, n = f.damaged(f.tree), f.n + chance.choice((0, 0, 0, 1))
            self.same_batch(lambda given, room: tb.query_batch(f.given, n, body, given, room), f.known, n, body, windows, None)
        self.assertGreater(hits, 1400)
        self.assertLessEqual({2, 8, 9, 14, 19}, self.refusals)

    def sound(self, chance, f, count):
        """Windows of the description's kinds, some of them reversed."""
        windows = []
        for _ in range(count):
            middle = chance.randrange(10 * f.n)
            sides = [f.near(kind, middle, 200) for kind in f.kinds]
            windows.append((sides, f.kinds, sides))
            if chance.randrange(6) == 0:
                low, high = sides[0]
                windows[-1] = ([(high + 1, low), *sides[1:]], f.kinds, [(high + 1, low), *sides[1:]])
        return windows

    def test_numbers_of_windows_and_room(self):
        chance = random.Random(6)
        for count in (0, 1, 32, 33, 1000):
            f = Fragment(["int32", "float64"], 60, 4, 1, chance)
            windows, data = self.sound(chance, f, count), None
            ask = tb.open_tree(f.given, f.file_size, f.footer, f.tree).query_batch
            found = [one.found for one in ask([w for w, _, _ in windows]) if isinstance(one, tb.Hit)]
            middle = sum(found[: len(found) // 2]) + 1
            for room in (None, 0, sum(found), sum(found) - 1, sum(found) + 1, min(middle, sum(found))):
                expected = self.same_batch(ask, f.known, f.n, f.tree, windows, room)
                data = self.plain(windows)
                got = [("refused", *one.args) if isinstance(one, tb.Refused) else one for one in ask(data, room=room)]
                self.assertEqual(got, expected)

    def test_refused_first_in_between_and_last(self):
        tree = tb.open_tree(ONE, SAMPLE_SIZE, SAMPLE["footer"], SAMPLE["tree"])
        bad, more, hit = [(1, 0)], [(0, 1), (0, 1)], tb.Hit([1, 2], 2, 6)
        reversed_, differs = tb.Refused(9, 0), tb.Refused(19, 0)
        asked = [bad, [(12, 21)], more, [(12, 21)], ["x"], tb.Window(["int64"], [(0, 1)]), bad]
        answers = [reversed_, hit, differs, hit, differs, differs, reversed_]
        self.assertEqual(tree.query_batch(asked), answers)
        self.assertEqual(tree.query_batch(asked, room=3), [*answers[:3], tb.Hit([1], 2, 6), *answers[4:]])
        self.assertEqual(tree.query_batch([bad, [(12, 21)], bad]), [reversed_, hit, reversed_])
        self.assertEqual(tree.query_batch(iter(asked)), answers)

    def test_bad_descriptions(self):
        for description in BAD_DESCRIPTIONS:
            for windows in ([[(0, 1)]] * 3, [], [tb.Window(["int32"], [(0, 1)]), []]):
                expected = [tb.Refused(1, 0)] * len(windows)
                self.assertEqual(tb.query_batch(description, 3, SAMPLE["tree"], windows), expected, msg=description)

    def test_calls(self):
        """One call, and a second one only where the room was not known and too short."""
        chance, calls, real = random.Random(7), [], tb._batch._c_query_batch
        f = Fragment(["float64"], 200, 10, 1, chance)
        self.assertLess(400, tb._tiles.FIRST_ROOM)
        everything = [[(-math.inf, math.inf)]]

        def counted(*arguments):
            calls.append(arguments)
            real(*arguments)

        tb._batch._c_query_batch = counted
        try:
            for windows, room, number in ((everything * 32, None, 2), (everything * 32, 50, 1), (everything * 2, None, 1), ([], None, 1)):
                calls.clear()
                self.assertEqual(len(tb.query_batch(f.given, f.n, f.tree, windows, room)), len(windows))
                self.assertEqual(len(calls), number)
        finally:
            tb._batch._c_query_batch = real

    def test_buffers(self):
        """Everything that lends the bytes of windows, and what does not fit."""
        f = Fragment(["float64", "float64"], 40, 4, 1, random.Random(8))
        windows = self.sound(random.Random(9), f, 32)
        expected, data = tb.query_batch(f.given, f.n, f.tree, [w for w, _, _ in windows]), self.plain(windows)
        doubles = memoryview(data).cast("d")
        shaped = memoryview(data).cast("d", shape=[32, 2, 2])
        own = ((ctypes.c_double * 4) * 32).from_buffer_copy(data)
        forms = [bytearray(data), memoryview(data), array.array("d", data), doubles, shaped, own, (ctypes.c_ubyte * len(data)).from_buffer_copy(data)]
        apart = memoryview(bytes(x for byte in data for x in (byte, 0)))[::2]
        forms += [memoryview(data).cast("d", shape=[32, 4]), memoryview(data).cast("c")]
        forms += [((ctypes.c_double * 2) * 2 * 32).from_buffer_copy(data)]
        for form in [data, *forms, apart]:
            self.assertEqual(tb.query_batch(f.given, f.n, f.tree, form), expected)
        wrong = [array.array("f", [0.0] * 8), array.array("q", [0] * 4), array.array("i", [0] * 8)]
        wrong += [memoryview(data).cast(letter) for letter in "Qb"]
        wrong += [memoryview(data).cast(letter, shape=[32, 32]) for letter in "Bc"]
        shapes = [2, 32, 2], [4, 32], [64, 2], [16, 8], [32, 2, 2, 1], [128, 1]
        wrong += [memoryview(data).cast("d", shape=shape) for shape in shapes]
        other = ctypes.c_double.__ctype_be__ * 128, ctypes.c_int8 * 1024
        wrong += [one.from_buffer_copy(data) for one in other]
        wrong += [array.array("d", [0.0] * 5), (ctypes.c_double * 3)(), ctypes.c_double(), (ctypes.c_bool * 32)()]
        for form in wrong:
            self.assertRaises(TypeError, tb.query_batch, f.given, f.n, f.tree, form)
        for cut in (1, 31, 33, 1023):
            self.assertEqual(outcome(tb.query_batch, f.given, f.n, f.tree, data[:cut]), ("refused", 22, 0, 0))
        ints = tb.Description(["int64"], 1, 32)
        self.assertEqual(tb.query_batch(ints, 1, b"", array.array("l" if array.array("l").itemsize == 8 else "q", [0, 1])), [tb.Refused(2, 0)])
        self.assertRaises(TypeError, tb.query_batch, f.given, f.n, f.tree, 5)
        mixed = tb.Description(["int32", "float64"], 1, 32)
        self.assertRaises(TypeError, tb.query_batch, mixed, 1, b"", doubles)


def kind_bytes(*kinds):
    return tb.Description(kinds, 1, 32)._given[0]


class Formats(unittest.TestCase):
    """What an item of a lent buffer says of itself, beside the kinds of a description."""

    def items(self, expected, kinds, width, *layouts):
        for layout in layouts:
            self.assertEqual(tb._boxes._items(kind_bytes(*kinds), layout, width), expected, msg=(kinds, layout, width))

    def test_numbers(self):
        letters = "bBhHiIlLqQnNefdgPcspx?OwuZt&"
        right = {"int32": ["i", "=l", "<l"], "int64": ["q", "l", "n"], "uint64": ["Q", "L", "N"]}
        right.update(float32=["f"], float64=["d"])
        for kind, known in rules.KINDS.items():
            width = known.range_bytes // 2
            for letter in letters:
                for order in ("", "@", "=", "<", ">", "!"):
                    standard = order in ("=", "<")
                    own = letter in right[kind] and not (standard and letter in "lLnN")
                    fits = own or order + letter in right[kind]
                    expected = "ends" if fits and order not in (">", "!") else None
                    if letter not in "Bc":
                        self.items(expected, [kind], width, order + letter)
                        self.items(expected, [kind] * 4, width, order + letter)
            self.items(None, [kind], 2 * width, *right[kind])
            self.items(None, [kind, "int32" if kind != "int32" else "int64"], width, *right[kind])

    def test_bytes(self):
        self.items("bytes", ["float64"], 1, "B", "c", "<B", "<c", "@B", "=c")
        self.items("bytes", ["int32", "float64", "no kind"], 1, "B")
        self.items(None, ["float64"], 1, "b", "?", "1s", "x", ">B", "2B", "BB", "T{B:a:}", "", "<")
        self.items(None, ["float64"], 8, "B", "<B", "c")

    def test_records(self):
        two, mixed = ["float64", "float64"], ["int32", "float64"]
        self.items(
            "records", two, 32, "T{d:a:d:b:d:c:d:d:}", "T{<d:a:<d:b:<d:c:<d:d:}", "T{(2)d:x:(2)<d:y:}", "T{(2,2)=d:x:}",
            "T{(2)T{d:a:d:b:}:w:}", "T{(2)T{<d:a:<d:b:}:w:}", "T{T{d:a:d:b:}:x:T{d:a:d:b:}:y:}", "dddd", "4d",
            "T{4d:x:}", "T{^d:a:d:b:d:c:d:d:}", "T{d:>:d:}:d:T{:d:(2):}",
        )
        self.items(
            None, two, 32, "T{>d:a:d:b:d:c:d:d:}", "T{d:a:d:b:d:c:>d:d:}", "T{T{>d:a:}:x:d:b:d:c:d:d:}",
            ">T{(2,2)d:x:}", "T{!d:a:d:b:d:c:d:d:}", "T{(2)>d:x:(2)d:y:}", "T{d:a:d:b:d:c:q:d:}", "T{Zd:a:Zd:b:}",
            "T{d:a:d:b:d:c:}",
            "T{d:a:d:b:d:c:d:d:d:e:}", "T{d:a:d:b:d:c:d:d:", "T{d:a:d:b:d:c:d:d:}}", "T{d:a:d:b:d:c:d:d:}2",
            "T{d:a:d:b:d:c:d:d",
            "T{d:a:d:b:d:c:8x:d:}", "T{d:a:d:b:d:c:d:d:0x:e:}", "T{(0)d:a:d:b:d:c:d:d:d:e:}", 
            "T{(999999999,999999999)d:a:}", "T{d:a: d:b:d:c:d:d:}", "T{(2,)d:a:(2,)d:b:}", "X{d:a:d:b:d:c:d:d:}",
            "T{&d:a:d:b:d:c:d:d:}",
        )
        self.items(None, two, 40, "T{d:a:d:b:d:c:d:d:}", "T{xxxxxxxxd:a:d:b:d:c:d:d:}", "T{d:a:8xd:b:d:c:d:d:}")
        self.items(None, two, 8, "T{d:a:}")
        self.items(None, two, 16, "T{d:a:d:b:}", "dd")
        right = "T{i:a:i:b:d:c:d:d:}", "T{i:a:i:b:=d:c:d:d:}", "T{<l:a:<l:b:<d:c:<d:d:}", "T{T{=i:a:=i:b:}:x:d:c:d:d:}"
        self.items("records", mixed, 24, *right)
        wrong = "T{d:a:d:b:i:c:i:d:}", "T{i:a:d:b:i:c:d:d:}", "T{i:a:i:b:q:c:q:d:}", "T{f:a:f:b:d:c:d:d:}"
        self.items(None, mixed, 24, *wrong, "T{I:a:I:b:d:c:d:d:}")
        # After a record in a record one writer of formats goes on in its order, another in the order before: an l is
        # then 4 or 8 bytes.
        longs = ["int64", "int64"]
        right = "T{T{l:a:l:b:}:x:l:c:l:d:}", "T{T{=q:a:q:b:}:x:@l:c:l:d:}", "T{T{=q:a:q:b:}:x:q:c:q:d:}"
        self.items("records", longs, 32, *right)
        self.items(None, longs, 32, "T{T{=q:a:q:b:}:x:l:c:l:d:}")
        self.items(None, longs, 24, "T{T{=q:a:q:b:}:x:l:c:l:d:}")

    def test_no_kinds(self):
        for kinds in ([], ["no kind"], ["float64"] * 5):
            self.items(None, kinds, 8, "d")
            self.items("bytes", kinds, 1, "B")

    def test_types_of_c(self):
        """Structures of ctypes: packed ones and unions say that they are bytes; padding and bit fields are left off."""

        def structure(*fields, base=ctypes.Structure, **more):
            return type("Window", (base,), {**more, "_fields_": [(f"f{i}", *field) for i, field in enumerate(fields)]})

        whole, real = (ctypes.c_int32,), (ctypes.c_double,)
        kinds = ["int32", "float64"]
        mixed = tb.Description(kinds, 1, 32), 1, pieces.tree(kinds, [[(0, 9), (0.0, 9.0)]], 2)
        inner = structure(real, real)
        for fits in (structure(whole, whole, real, real), structure((ctypes.c_int32 * 2,), (inner,))):
            made = (fits * 3)()
            self.assertEqual([hit.found for hit in tb.query_batch(*mixed, made)], [1] * 3)
            self.assertEqual(tb.box_test(mixed[0], made[0], [(0, 1), (0.0, 1.0)]), (True, 2))
            self.assertEqual(tb.write_tree(mixed[0], 1, 2, (fits * 1)()), tb.write_tree(mixed[0], 1, 2, bytes(24)))
        half = (ctypes.c_int32, 16)
        for wrong in (
            structure(real, real, whole, whole), structure(whole, real, whole, real), structure(half, half, real, real),
            structure(whole, whole, real), structure(whole, whole, real, real, _pack_=1), structure(),
            structure(whole, whole, real, real, base=ctypes.BigEndianStructure),
            structure(whole, real, real, real, base=ctypes.Union),
            structure((structure(half, half),), whole, real, real),
            structure(real, real, base=structure(half, half)),
        ):
            made = (wrong * 3)()
            self.assertRaises(TypeError, tb.query_batch, *mixed, made)
            self.assertRaises(TypeError, tb.write_tree, mixed[0], 3, 2, made)
            self.assertRaises(TypeError, tb.box_test, mixed[0], made[0], [(0, 1)] * 2)

    def test_said(self):
        """The error names both formats, or the shape."""
        given = tb.Description(["float64", "float64"], 1, 32)
        for form, *parts in (
            (array.array("q", [0] * 4), "windows", "'q'", "'<d'", "'T{<d<d<d<d}'"),
            (memoryview(bytes(64)).cast("d", shape=[1, 8]), "windows", "(1, 8)", "(k, 4)"),
            (memoryview(bytes(32)).cast("B", shape=[1, 32]), "(1, 32)", "bytes"),
        ):
            with self.assertRaises(TypeError) as caught:
                tb.query_batch(given, 1, b"", form)
            for part in parts:
                self.assertIn(part, str(caught.exception))

    def test_looked_at_before_a_copy(self):
        given = tb.Description(["float64"], 1, 32)
        large = memoryview(bytearray(2**24)).cast("q")[::-2]
        tracemalloc.start()
        self.addCleanup(tracemalloc.stop)
        self.assertRaises(TypeError, tb.query_batch, given, 1, b"", large)
        self.assertRaises(TypeError, tb.write_tree, given, 1, 2, large)
        self.assertRaises(TypeError, tb.write_tree_into, given, 1, 2, large, bytearray(9))
        self.assertRaises(TypeError, tb.box_test, given, large, [(0, 1)])
        self.assertLess(tracemalloc.get_traced_memory()[1], 2**18)

    def test_released(self):
        given, lent = tb.Description(["float64"], 1, 32), bytearray(64)
        with memoryview(lent) as whole, whole.cast("q") as view:
            for ask in (
                lambda: tb.query_batch(given, 1, b"", view), lambda: tb.write_tree(given, 1, 2, view),
                lambda: tb.box_test(given, view, [(0, 1)]),
            ):
                try:
                    ask()
                except TypeError as error:
                    kept = error
            self.assertIn("'q'", str(kept))
        lent.append(0)


class Refusals(unittest.TestCase):
    def test_each_number(self):
        """Each refusal by one field of the sample, with the number, the place and which bytes it counts in."""
        foot, body, offsets, u64 = SAMPLE["footer"], SAMPLE["tree"], SAMPLE["offsets"], pieces.u64

        def real_footer(low, high):
            made = pieces.Footer(rules.Description(["float64"], 1, 32), [(low, high)])
            return lambda: tb.read_footer(tb.Description(["float64"], 1, 32), made.file_size, made.data())

        def footer(at, new):
            return lambda: tb.read_footer(ONE, SAMPLE_SIZE, changed(foot, at, new))

        def tree(at, new):
            return lambda: tb.open_tree(ONE, SAMPLE_SIZE, foot, changed(body, at, new))

        def in_parts():
            parts = tb.TreeParts(ONE, SAMPLE_SIZE, foot, 80, bytearray(23))
            parts.write(body)
            parts.finish()

        cases = {
            1: (lambda: tb.read_footer(tb.Description([], 1, 32), SAMPLE_SIZE, foot), 0, 0),
            2: (lambda: tb.open_tree(ONE, SAMPLE_SIZE, foot, body[:79]), 79, 1),
            3: (footer(0, b"\x0f"), 0, 0),
            4: (footer(4, u64(256)), 4, 0),
            5: (footer(18, b"\2"), 18, 0),
            6: (footer(18, b"\1"), 18, 0),
            7: (footer(19, b"\1"), 19, 0),
            8: (real_footer(math.nan, 1.0), 20, 0),
            9: (tree(48 + 8, pieces.box(["int32"], [(5, 4)])), 56, 1),
            10: (footer(28, u64(0)), 28, 0),
            11: (footer(36, u64(33)), 36, 0),
            12: (footer(70, u64(1000)), 70, 0),
            13: (tree(0, b"\1"), 0, 1),
            14: (tree(8, b"\2"), 8, 1),
            15: (tree(72, pieces.box(["int32"], [(20, 25)])), 72, 1),
            16: (tree(16, pieces.box(["int32"], [(0, 25)])), 16, 1),
            17: (lambda: tb.tile_sizes(4, offsets), 0, 0),
            18: (lambda: tb.tile_offsets(3, 250, offsets), 24, 0),
            19: (lambda: tb.query(ONE, 3, body, [(0, 1), (0, 1)]), 0, 0),
            20: (lambda: tb.tile_sizes(2, pieces.entries([MOST, 1])), 16, 0),
            21: (in_parts, 0, 0),
            22: (lambda: tb.query_batch(ONE, 3, body, bytes(9)), 0, 0),
            23: (real_footer(1.0, math.inf), 20, 0),
            24: (lambda: tb.committed(b"wrt\t__1_2_ab_16\n\n", 5), 1, 0),
            25: (lambda: tb.committed(b"wrt\t__1_2_ab_16\nwrt\t__1_2_ab_16\n", 5), 1, 0),
            26: (lambda: tb.write_tree_into(ONE, 3, 2, body[56:], bytearray(79)), 0, 0),
            27: (lambda: tb.null_counts(ONE, SAMPLE_SIZE, foot, pieces.entries([0, 0, 6])), 24, 1),
            28: (lambda: tb.read_footer(tb.Description(["int32", "float32"], 1, 32), SAMPLE_SIZE, foot), 1, 0),
            29: (lambda: tb.DenseGrid(ONE, [(0, 9)], [3]), 0, 0),
        }
        self.assertEqual(list(cases), REFUSALS)
        for number, (ask, place, which) in cases.items():
            self.assertEqual(outcome(ask), ("refused", number, place, which))

    def test_exception(self):
        one = tb.Refused(9, 1)
        self.assertEqual(str(one), "refused 9 at 1: minimum above maximum")
        self.assertEqual(one.text, "minimum above maximum")
        self.assertEqual(str(tb.Refused(15, 72, 1)), "refused 15 at 72 of the second byte string: a box not inside its parent")
        self.assertEqual(tb.Refused(77, 0).text, "no refusal number")
        self.assertIsInstance(one, Exception)
        for other in (pickle.loads(pickle.dumps(tb.Refused(15, 72, 1))), copy.deepcopy(tb.Refused(15, 72, 1))):
            self.assertEqual((other.number, other.place, other.which, other), (15, 72, 1, tb.Refused(15, 72, 1)))
            self.assertEqual(hash(other), hash(tb.Refused(15, 72, 1)))
        for other in (tb.Refused(9, 2), tb.Refused(8, 1), tb.Refused(9, 1, 1), (9, 1, 0)):
            self.assertNotEqual(one, other)

    def test_other_values_pickle(self):
        footer = tb.read_footer(ONE, SAMPLE_SIZE, SAMPLE["footer"])
        for value in (ONE, footer, tb.Hit([1], 1, 2)):
            self.assertEqual(pickle.loads(pickle.dumps(value)), value)
        self.assertEqual(pickle.loads(pickle.dumps(footer)).cells(2), 5)


def pattern(kind, end):
    """The bytes that an end becomes, or None where its kind can't hold it."""
    window = tb.Window([kind], [(end, end)])
    half = len(window._ends) // 2
    return window._ends[:half] if window._kinds[0] != 255 else None


def nearest_float32(number):
    """By trying: of the patterns around an estimate the nearest, and of two as near the even one."""
    estimate = struct.unpack("<I", struct.pack("<f", float(number)))[0]
    near = [(struct.unpack("<f", struct.pack("<I", bits))[0], bits) for bits in (estimate - 1, estimate, estimate + 1)]
    return struct.pack("<I", min((abs(Fraction(x) - number), bits & 1, bits) for x, bits in near)[2])


class Windows(unittest.TestCase):
    def test_integer_ends(self):
        for kind, width in (("int32", 4), ("int64", 8)):
            most = 2 ** (8 * width - 1) - 1
            for end in (0, -1, most, -most - 1, True, 5.0, -0.0, Decimal(7), Fraction(8), Decimal(most), 2.0**30):
                self.assertEqual(pattern(kind, end), int(end).to_bytes(width, "little", signed=True))
            not_held = [most + 1, -most - 2, 2**70, 1.5, math.nan, math.inf, -math.inf, 1e300, Fraction(1, 3)]
            for end in not_held + [Decimal(x) for x in ("1.5", "NaN", "sNaN", "Infinity")]:
                self.assertIsNone(pattern(kind, end), msg=end)

    def test_unsigned_ends(self):
        for end in (0, 1, 2**63 - 1, 2**63, MOST, True, 5.0, -0.0, 2.0**63, Decimal(MOST), Fraction(8)):
            self.assertEqual(pattern("uint64", end), int(end).to_bytes(8, "little"))
        for end in (-1, -(2**63), MOST + 1, 2.0**64, -1.0, 1.5, math.nan, math.inf, -math.inf, Fraction(1, 3), Decimal("1.5"), Decimal("NaN")):
            self.assertIsNone(pattern("uint64", end), msg=end)

    def test_unsigned_order(self):
        half, given = 2**63, tb.Description(["uint64"], 1, 32)
        known = rules.Description(["uint64"], 1, 32)
        boxes = [[(0, 4)], [(half - 4, half - 1)], [(half - 1, half)], [(half, half + 4)], [(MOST - 1, MOST)]]
        body, footer = pieces.tree(["uint64"], boxes, 2), pieces.Footer(known, [(0, MOST)], tiles=5)
        tree = tb.open_tree(given, footer.file_size, footer.data(), body)
        self.assertEqual(tb.read_footer(given, footer.file_size, footer.data()).domain, ((0, MOST),))
        for window, tiles in (
            ((0, MOST), [0, 1, 2, 3, 4]), ((half, MOST), [2, 3, 4]), ((0, half - 1), [0, 1, 2]), ((half - 1, half), [1, 2, 3]),
            ((half, half), [2, 3]), ((MOST, MOST), [4]), ((half + 5, MOST - 2), []), ((5, 5), []),
        ):
            self.assertEqual(tree.query([window]).tiles, tiles)
            self.assertEqual(tree.query([window]), expected_hit(known, 5, body, ["uint64"], [window]))
        for window in ((half, half - 1), (MOST, 0)):
            self.assertEqual(outcome(tree.query, [window]), ("refused", 9, 0, 0))
        for window in ((-1, 0), (0, MOST + 1)):
            self.assertEqual(outcome(tree.query, [window]), ("refused", 19, 0, 0))
        self.assertEqual(outcome(tree.query, tb.Window(["int64"], [(0, 1)])), ("refused", 19, 0, 0))
        signed = tb.Description(["int64"], 1, 32)
        self.assertEqual(outcome(tb.query, signed, 5, body, tb.Window(["uint64"], [(0, 1)])), ("refused", 19, 0, 0))

    def test_types_as_kinds(self):
        """numpy's types, and its dtypes, are kinds by their names. numpy itself is not needed here: these look as its own do."""

        class DType:
            def __init__(self, name):
                self.name = name

        def ask(kind):
            window = tb.Window([kind], [(0, 1)])
            return window._kinds, window._ends, tb.Description([kind], 1, 32)._given[0]

        for name in rules.KINDS:
            for kind in (DType(name), type(name, (), {}), type(name, (float,), {})):
                self.assertEqual(ask(kind), ask(name))
        for kind in (DType("uint32"), DType(7), DType(None), DType([]), type("str", (), {}), DType):
            self.assertEqual(ask(kind), ask("no kind"))

    def test_a_string_is_no_list_of_kinds(self):
        for kinds in ("int32", "int32,float64", "", "i"):
            for ask in (lambda: tb.Description(kinds, 1, 1), lambda: tb.Window(kinds, [(0, 1)])):
                with self.assertRaises(TypeError) as caught:
                    ask()
                self.assertIn(repr(kinds.split(",")), str(caught.exception))

    def test_float_ends(self):
        for kind in ("float32", "float64"):
            for end in (0.0, -0.0, 1.5, -2.25, math.inf, -math.inf, 7, True, Decimal("0.5"), Fraction(-1, 4)):
                self.assertEqual(pattern(kind, end), struct.pack(rules.KINDS[kind].format, float(end)))
            for end in (10**400, Fraction(10**400), Decimal("1e400")):
                self.assertEqual(pattern(kind, end), pattern(kind, math.inf))
                self.assertEqual(pattern(kind, -end), pattern(kind, -math.inf))
            self.assertTrue(math.isnan(struct.unpack(rules.KINDS[kind].format, pattern(kind, math.nan))[0]))
        for end in (1e39, -1e39, 3.5e38, 2**128, -(2**200), 0.1, 1e-50, 1e-310, 16777217, 16777219, 2**128 - 2**103):
            self.assertEqual(pattern("float32", end), bytes(ctypes.c_float(end)))
        self.assertEqual(pattern("float32", 2**128 - 2**103 - 1), b"\xff\xff\x7f\x7f")
        self.assertEqual(pattern("float64", 2**53 + 1), struct.pack("<d", 2.0**53))

    def test_integers_round_to_the_nearest_float32_once(self):
        chance = random.Random(5)
        for _ in range(300):
            bits = chance.randrange(25, 100)
            middle = (chance.randrange(2**24, 2**25) | 1) << bits
            for number in (middle, middle - 1, middle + 1, chance.getrandbits(bits) + 1):
                self.assertEqual(pattern("float32", number), nearest_float32(number), msg=number)
                self.assertEqual(pattern("float32", -number)[:3], nearest_float32(number)[:3], msg=-number)

    def test_other_ends(self):
        for kind in rules.KINDS:
            for end in ("1", None, [], 1j, object()):
                for side in ((end, 1), (1, end)):
                    self.assertRaises(TypeError, tb.Window, [kind], [side])
                    self.assertRaises(TypeError, tb.query, ONE, 3, SAMPLE["tree"], [side])
        self.assertRaises(TypeError, tb.query, ONE, 3, SAMPLE["tree"], None)

        class Index:
            def __index__(self):
                return 7

        for kind in rules.KINDS:
            self.assertEqual(pattern(kind, Index()), pattern(kind, 7))

    def test_exact_patterns(self):
        for kind in rules.KINDS:
            width = rules.KINDS[kind].range_bytes // 2
            exact = bytes(range(1, width + 1))
            self.assertEqual(pattern(kind, exact), exact)
            self.assertEqual(pattern(kind, bytearray(exact)), exact)
            for wrong in (b"", exact[:-1], exact + b"\0"):
                self.assertIsNone(pattern(kind, wrong))
        real = tb.Description(["int32", "float64"], 1, 32)
        body = pieces.tree(["int32", "float64"], [[(0, 1), (-0.0, 0.0)], [(0, 1), (math.inf, math.inf)]], 2)
        minus_zero, signalling = struct.pack("<d", -0.0), pieces.u64(0x7FF0000000000001)

        def ask(*side):
            return outcome(tb.query, real, 2, body, [(0, 1), side])

        for side in ((signalling, 1.0), (1.0, signalling), (math.nan, math.nan), (bytes(8), pieces.u64(0xFFF8000000000000))):
            self.assertEqual(ask(*side), ("refused", 8, 1, 0))
        for side in ((minus_zero, minus_zero), (0.0, -0.0), (minus_zero, 0), (-5e-324, 5e-324)):
            self.assertEqual(ask(*side), tb.Hit([0], 1, 3))
        self.assertEqual(ask(math.inf, 10**400), tb.Hit([1], 1, 3))
        self.assertEqual(ask(-math.inf, math.inf), tb.Hit([0, 1], 2, 3))
        self.assertEqual(ask(math.inf, -math.inf), ("refused", 9, 1, 0))
        self.assertEqual(ask(5e-324, 1e308), tb.Hit([], 0, 3))

    def test_other_kind_at_its_dimension(self):
        two = tb.Description(["int32", "int64"], 1, 32)
        body = pieces.tree(["int32", "int64"], [[(0, 1), (0, 1)]], 2)
        good = (0, 1)
        plain = [([good, side], 1) for side in ((1.5, 2), (b"1234", 2), (0, 2**63), 5, None, (1, 2, 3), ())]
        plain += [([(2**40, 0), (1, 0)], 0), ([good], 0), ([good] * 3, 0), ([], 0)]
        own = [
            (["int32", "int32"], [good, good], 1), (["int64", "int64"], [good, (1, 0)], 0), (["int32"], [good, good], 1),
            ([0, 1], [good], 1), ([0, 1, 1], [good], 0), ([0], [good] * 3, 0), ([], [], 0),
        ]
        own += [(["int32", kind], [good, good], 1) for kind in NO_KINDS]
        for window, place in plain + [(tb.Window(kinds, ranges), place) for kinds, ranges, place in own]:
            self.assertEqual(outcome(tb.query, two, 1, body, window), ("refused", 19, place, 0))
        self.assertEqual(outcome(tb.query, two, 1, body, [(1, 0), (1.5, 0)]), ("refused", 9, 0, 0))
        for window in (tb.Window([0, 1], [good, good]), iter([good, good]), ([0, 1], [0, 1]), zip((0, 0), (1, 1))):
            self.assertEqual(tb.query(two, 1, body, window), tb.Hit([0], 1, 1))


class Buffers(unittest.TestCase):
    def setUp(self):
        space = tempfile.TemporaryDirectory()
        self.addCleanup(space.cleanup)
        self.folder = pathlib.Path(space.name)

    def mapped(self, data, access):
        path = self.folder / "mapped"
        path.write_bytes(data)
        with open(path, "r+b") as file:
            mapping = mmap.mmap(file.fileno(), 0, access=access)
        self.addCleanup(mapping.close)
        return mapping

    def forms(self, data):
        """The same bytes in every form."""
        wide = bytearray(x for byte in data for x in (byte, 170))
        padded = b"\xaa" * 3 + data + b"\xaa" * 5
        yield from (data, bytearray(data), memoryview(data), memoryview(bytearray(data)))
        yield from (memoryview(wide)[::2], memoryview(data[::-1])[::-1])
        yield from (memoryview(padded)[3:-5], memoryview(bytearray(padded))[3:-5])
        yield (ctypes.c_uint8 * len(data)).from_buffer_copy(data)
        if len(data) % 8 == 0:
            yield memoryview(data).cast("Q")
        yield from (self.mapped(data, access) for access in (mmap.ACCESS_READ, mmap.ACCESS_WRITE, mmap.ACCESS_COPY))

    def test_every_form(self):
        foot, body, offsets = SAMPLE["footer"], SAMPLE["tree"], SAMPLE["offsets"]
        expected = repr(tb.read_footer(ONE, SAMPLE_SIZE, foot))
        for form in self.forms(foot):
            self.assertEqual(repr(tb.read_footer(ONE, SAMPLE_SIZE, form)), expected)
            self.assertEqual(tb.open_tree(ONE, SAMPLE_SIZE, form, body).tiles, 3)
        for form in self.forms(body):
            self.assertEqual(tb.query(ONE, 3, form, [(12, 21)]), tb.Hit([1, 2], 2, 6))
            self.assertEqual(tb.open_tree(ONE, SAMPLE_SIZE, foot, form).query([(12, 21)]), tb.Hit([1, 2], 2, 6))
        for form in self.forms(offsets):
            self.assertEqual(tb.tile_offsets(3, SAMPLE_DATA_SIZE, form)[1], (100, 150))
            self.assertEqual(tb.tile_sizes(3, form), 350)

    def asked_with(self, data):
        """Each function with these bytes in each place where bytes are lent."""
        yield lambda: tb.read_footer(ONE, SAMPLE_SIZE, data)
        yield lambda: tb.open_tree(ONE, SAMPLE_SIZE, data, SAMPLE["tree"])
        yield lambda: tb.open_tree(ONE, SAMPLE_SIZE, SAMPLE["footer"], data)
        yield lambda: tb.query(ONE, 3, data, [(12, 21)])
        yield lambda: tb.tile_offsets(3, SAMPLE_DATA_SIZE, data)
        yield lambda: tb.var_tile_offsets(3, SAMPLE_DATA_SIZE, data)
        yield lambda: tb.tile_sizes(3, data)

    def test_no_bytes(self):
        for empty in (b"", bytearray(), memoryview(b""), memoryview(b"abc")[3:], memoryview(bytearray(4))[4::2]):
            for ask in self.asked_with(empty):
                self.assertEqual(outcome(ask)[1:3], (2, 0))

    def test_nothing_to_lend(self):
        for wrong in ("text", [1, 2], 5, None, 1.5, object()):
            for ask in self.asked_with(wrong):
                self.assertRaises(TypeError, ask)

    def test_integers_only(self):
        for wrong in (1.0, "1", None):
            for ask in (
                lambda: tb.Description(["int32"], wrong, 32), lambda: tb.Description(["int32"], 1, wrong),
                lambda: tb.read_footer(ONE, wrong, b""), lambda: tb.query(ONE, wrong, b"", []),
                lambda: tb.tile_offsets(3, wrong, b""), lambda: tb.tile_offsets(wrong, 3, b""), lambda: tb.tile_sizes(wrong, b""),
                lambda: tb.var_tile_offsets(3, wrong, b""), lambda: tb.var_tile_offsets(wrong, 3, b""),
            ):
                self.assertRaises(TypeError, ask)

    def test_released_after_each_call(self):
        """A bytearray can't be resized while it is lent. A refusal is kept, and its frames hold nothing of the bytes."""
        for data in (b"", SAMPLE["tree"], SAMPLE["footer"], SAMPLE["offsets"]):
            for number in range(7):
                lent = bytearray(data)
                refusal = None
                try:
                    list(self.asked_with(lent))[number]()
                except tb.Refused as refused:
                    refusal = refused
                lent.append(0)
                self.assertEqual(len(lent), len(data) + 1)
                self.assertEqual(refusal is None, number in {80: (2, 3), 166: (0, 1), 32: (4, 5, 6)}.get(len(data), ()))
        for mapping in (self.mapped(SAMPLE["tree"], access) for access in (mmap.ACCESS_READ, mmap.ACCESS_WRITE)):
            self.assertEqual(tb.query(ONE, 3, mapping, [(12, 21)]).found, 2)
            mapping.close()

    def test_tree_and_offsets_hold_their_bytes(self):
        for number, name in ((2, "tree"), (4, "offsets"), (5, "offsets")):
            lent = bytearray(SAMPLE[name])
            held = list(self.asked_with(lent))[number]()
            self.assertRaises(BufferError, lent.append, 0)
            del held
            lent.append(0)
        # as a view of another's view, too
        lent = bytearray(SAMPLE["tree"])
        with memoryview(lent) as view:
            tree = tb.open_tree(ONE, SAMPLE_SIZE, SAMPLE["footer"], view)
        self.assertRaises(BufferError, lent.append, 0)
        self.assertEqual(tree.query([(12, 21)]).tiles, [1, 2])

    def test_not_copied(self):
        """What is changed in the lent bytes is seen; of a memoryview with gaps a copy was taken."""
        lent, wide = bytearray(SAMPLE["tree"]), bytearray(2 * len(SAMPLE["tree"]))
        wide[::2] = lent
        straight, gaps = (tb.open_tree(ONE, SAMPLE_SIZE, SAMPLE["footer"], data) for data in (lent, memoryview(wide)[::2]))
        lent[56:64] = wide[112:128:2] = pieces.box(["int32"], [(12, 12)])
        self.assertEqual((straight.query([(12, 12)]).tiles, gaps.query([(12, 12)]).tiles), ([0, 1], [1]))
        listed = bytearray(SAMPLE["offsets"])
        offsets = tb.tile_offsets(3, SAMPLE_DATA_SIZE, listed)
        listed[16] = 101
        self.assertEqual(offsets[1], (101, 149))
        footer_bytes = bytearray(SAMPLE["footer"])
        footer = tb.read_footer(ONE, SAMPLE_SIZE, footer_bytes)
        footer_bytes[:] = bytes(len(footer_bytes))
        self.assertEqual((footer.cells(2), footer.schema_name), (5, b"schema"))

    def test_large_mapping_takes_no_memory(self):
        path = self.folder / "large"
        with open(path, "w+b") as file:
            file.truncate(2**28)
            mapping = mmap.mmap(file.fileno(), 0, access=mmap.ACCESS_READ)
        self.addCleanup(mapping.close)
        tracemalloc.start()
        self.addCleanup(tracemalloc.stop)
        for ask in self.asked_with(mapping):
            self.assertEqual(outcome(ask)[0], "refused")
        self.assertLess(tracemalloc.get_traced_memory()[1], 2**16)


class Trees(unittest.TestCase):
    def test_room(self):
        tree = tb.open_tree(ONE, SAMPLE_SIZE, SAMPLE["footer"], SAMPLE["tree"])
        for room in (-1, 0, 1, 2, 3, 4, 10**30):
            expected = tb.Hit([0, 1, 2][: max(room, 0)], 3, 6)
            self.assertEqual(tree.query([(0, 24)], room=room), expected)
            self.assertEqual(tb.query(ONE, 3, SAMPLE["tree"], [(0, 24)], room), expected)
        for room in (1.5, "2"):
            self.assertRaises(TypeError, tree.query, [(0, 24)], room=room)

    def test_many_tiles(self):
        n = 65537
        tree = self.line_of_tiles(n)
        self.assertEqual((tree.tiles, tree.fanout, tree.levels), (n, 1024, 3))
        self.assertEqual(tree.query([(-1, n)]), tb.Hit(list(range(n)), n, 1 + 65 + n))
        self.assertEqual(tree.query([(n - 1, n)]), tb.Hit([n - 1], 1, 1 + 65 + 1))

    def line_of_tiles(self, n):
        """A tree of tiles from i to i."""
        wide = rules.Description(["int32"], 1, 32)
        foot, body = pieces.Footer(wide, [(0, n)], tiles=n), pieces.tree(["int32"], [[(i, i)] for i in range(n)], 1024)
        return tb.open_tree(ONE, foot.file_size, foot.data(), body)

    def test_limit(self):
        """16,777,216 tiles are as many as there may be: one more is refused with 10, before anything of the tree is looked at."""
        wide, most = rules.Description(["int32"], 1, 32), rules.LIMITS["tiles"][1]
        self.assertEqual(most, 2**24)
        for n, number in ((most, 14), (most + 1, 10)):
            self.assertEqual(outcome(tb.query, ONE, n, SAMPLE["tree"], [(0, 24)])[1], number)
            foot = pieces.Footer(wide, [(0, 24)], tiles=n)
            self.assertEqual(outcome(tb.open_tree, ONE, foot.file_size, foot.data(), SAMPLE["tree"])[1], number)
        for ask in (lambda n: tb.tile_offsets(n, 300, SAMPLE["offsets"]), lambda n: tb.tile_sizes(n, SAMPLE["offsets"])):
            self.assertEqual([outcome(ask, n)[1] for n in (most, most + 1)], [17, 10])

    def test_query_costs_what_it_finds(self):
        """It is asked with little room, and once more only where it finds more than that."""
        first, n = tb._tiles.FIRST_ROOM, 3 * tb._tiles.FIRST_ROOM
        tree = self.line_of_tiles(n)
        for found, room, rooms in (
            (0, None, [first]), (1, None, [first]), (first, None, [first]), (first + 1, None, [first, first + 1]), (n, None, [first, n]),
            (n, 0, [0]), (n, 7, [7]), (n, first, [first]), (n, first + 1, [first, first + 1]), (7, first + 1, [first]),
            (first + 2, n, [first, first + 2]), (n, 10**30, [first, n]),
        ):
            with self.subTest(found=found, room=room), mock.patch.object(tb._query, "_c_query", wraps=tb._query._c_query) as asked:
                hit = tree.query([(-1, found - 1)], room)
                self.assertEqual((hit.tiles, hit.found), (list(range(found))[:room], found))
                self.assertEqual([call.args[-2] for call in asked.mock_calls], rooms)
        with mock.patch.object(tb._query, "_c_query", wraps=tb._query._c_query) as asked:
            self.assertRaises(tb.Refused, tree.query, [(1, 0)])
            self.assertEqual(asked.call_count, 1)

    def test_small_query_takes_little_memory(self):
        tree = self.line_of_tiles(16 * tb._tiles.FIRST_ROOM)
        tracemalloc.start()
        self.addCleanup(tracemalloc.stop)
        self.assertEqual(tree.query([(5, 9)]).tiles, [5, 6, 7, 8, 9])
        self.assertLess(tracemalloc.get_traced_memory()[1], 2**16)

    def test_offsets_are_a_sequence(self):
        offsets = tb.tile_offsets(3, SAMPLE_DATA_SIZE, SAMPLE["offsets"])
        expected = [(0, 100), (100, 150), (250, 50)]
        self.assertEqual(len(offsets), 3)
        for i in range(-3, 3):
            self.assertEqual(offsets[i], expected[i])
        for part in (slice(None), slice(1, None), slice(None, None, -1), slice(-2, 100), slice(5, 9), slice(0, 3, 2)):
            self.assertEqual(offsets[part], expected[part])
        for i in (3, -4, MOST, 10**30, -(10**30)):
            self.assertRaises(IndexError, offsets.__getitem__, i)
        self.assertRaises(TypeError, offsets.__getitem__, 1.0)
        self.assertEqual((list(offsets), list(reversed(offsets)), offsets.index((100, 150))), (expected, expected[::-1], 1))
        self.assertIn((250, 50), offsets)

    def test_var_tiles_of_no_bytes(self):
        listed = pieces.entries([0, 100, 300])
        self.assertEqual(outcome(tb.tile_offsets, 3, 300, listed)[1:3], (18, 24))
        self.assertEqual(list(tb.var_tile_offsets(3, 300, listed)), [(0, 100), (100, 200), (300, 0)])
        self.assertEqual(list(tb.var_tile_offsets(3, 0, pieces.entries([0, 0, 0]))), [(0, 0)] * 3)

    def test_threads(self):
        """Threads that ask one tree and one list at once, each many times."""
        f = Fragment(["int32", "float64"], 200, 4, 1, random.Random(6))
        tree = tb.open_tree(f.given, f.file_size, f.footer, f.tree)
        offsets, extents = tb.tile_offsets(f.n, f.data_size, f.offsets), rules.extents(f.n, f.data_size, f.offsets)
        windows = [pieces.around(f.boxes[5 * i : 5 * i + 4]) for i in range(32)]
        expected = [expected_hit(f.known, f.n, f.tree, f.kinds, window) for window in windows]
        wrong, start = [], threading.Barrier(6)

        def ask(first):
            start.wait()
            for turn in range(20):
                for i in range(32):
                    hit = tree.query(windows[(first + i) % 32])
                    if hit != expected[(first + i) % 32] or [offsets[t] for t in hit.tiles] != [extents[t] for t in hit.tiles]:
                        wrong.append((first, turn, i))

        threads = [threading.Thread(target=ask, args=(5 * i,)) for i in range(6)]
        for thread in threads:
            thread.start()
        for thread in threads:
            thread.join()
        self.assertEqual(wrong, [])
        self.assertGreater(sum(hit.found for hit in expected), 4 * 32)


class Writing(unittest.TestCase):
    def same(self, given, known, n, fanout, leaves):
        """The body, or the refusal, is the reference's, in a buffer with room to spare, with just enough and with too little."""
        right = outcome(rules.write_tree, known, n, fanout, leaves, MOST)
        self.assertEqual(outcome(tb.write_tree, given, n, fanout, leaves), right)
        length = len(right) if isinstance(right, bytes) else 100
        for room in (0, 1, length - 1, length, length + 9):
            out = bytearray(b"\xa5" * room)
            expected = outcome(rules.write_tree, known, n, fanout, leaves, room)
            body = expected if isinstance(expected, bytes) else b""
            said = outcome(tb.write_tree_into, given, n, fanout, leaves, out)
            self.assertEqual(said, len(body) if body else expected)
            self.assertEqual(out, body + b"\xa5" * (room - len(body)))
        self.assertEqual(outcome(tb.tree_length, given, n, fanout), outcome(rules.tree_length, known, n, fanout))
        return right

    def test_fixtures(self):
        """The writer of the fixtures, which knows nothing of this one, has written the same bytes."""
        folders = [folder for folder in sorted((root / "tests/fixtures").iterdir()) if (folder / "about").exists()]
        for folder in folders:
            kinds, fields, capacity = (folder / "about").read_text().splitlines()[:3]
            given, body = tb.Description(kinds.split(), int(fields), int(capacity)), (folder / "tree").read_bytes()
            known = rules.Description(kinds.split(), int(fields), int(capacity))
            n = rules.number((folder / "offsets").read_bytes(), 0, 8)
            self.assertEqual(tb.write_tree(given, n, rules.number(body, 0, 4), body[len(body) - n * known.box_bytes() :]), body)

    def test_generated(self):
        chance = random.Random(7)
        refusals = set()
        for _ in range(400):
            fanout = chance.choice([2, 2, 3, 4, 7, 1024])
            n = chance.choice([1, fanout, fanout + 1, fanout**2, fanout**2 + 1, chance.randrange(1, 30)]) % 70 or 1
            kinds = [chance.choice(rules.DIMENSION_KINDS) for _ in range(chance.randrange(1, 5))]
            f = Fragment(kinds, n, fanout, 1, chance)
            leaves = f.tree[len(f.tree) - n * f.known.box_bytes() :]
            self.assertEqual(self.same(f.given, f.known, n, fanout, leaves), f.tree)
            # What is written is accepted, and asked, with a footer whose domain holds the root.
            tree = tb.open_tree(f.given, f.file_size, f.footer, tb.write_tree(f.given, n, fanout, leaves))
            window, kinds, numbers = f.window()
            self.assertEqual(outcome(tree.query, window), outcome(expected_hit, f.known, n, f.tree, kinds, numbers))
            refused = self.same(f.given, f.known, n, fanout, f.damaged(leaves))
            refusals.add(0 if isinstance(refused, bytes) else refused[1])
        self.assertLessEqual({0, 2, 9}, refusals)

    def test_zeros(self):
        """Between 0.0 and -0.0 each end has the bytes of the first child, in every order of four."""
        given, known = tb.Description(["float64"], 1, 32), rules.Description(["float64"], 1, 32)
        for signs in range(2**8):
            ends = [struct.pack("<d", -0.0 if signs >> i & 1 else 0.0) for i in range(8)]
            body = self.same(given, known, 4, 2, b"".join(ends))
            self.assertEqual(body[16:32], ends[0] + ends[1])

    def test_checks_in_order(self):
        bad, leaves, one = tb.Description(["int32"], 1, 0), pieces.box(["int32"] * 2, [(5, 4), (3, 2)]), pieces.box(["int32"], [(4, 5)])
        real, nan = tb.Description(["float64"], 1, 32), pieces.box(["float64"] * 2, [(0.0, 1.0), (1.0, math.nan)])
        for given, n, fanout, data, room, expected in (
            (bad, 0, 1, b"", 0, (1, 0)), (ONE, 0, 1, b"", 0, (10, 0)), (ONE, 2, 1, b"", 0, (13, 0)), (ONE, 2, 1025, b"", 0, (13, 0)),
            (ONE, 3, 2, leaves, 0, (2, 16)), (ONE, 2, 2, leaves, 0, (9, 0)), (ONE, 2, 2, leaves[:8] + leaves, 0, (2, 24)),
            (ONE, 1, 2, one, 23, (26, 0)), (real, 2, 2, nan, 0, (8, 16)), (ONE, 2**64 + 1, 2, leaves, 0, (10, 0)), (ONE, 2, 2**32 + 2, leaves, 0, (13, 0)),
            (ONE, -1, -1, b"", 0, (10, 0)),
        ):
            self.assertEqual(outcome(tb.write_tree_into, given, n, fanout, data, bytearray(room)), ("refused", *expected, 0))
            if expected != (26, 0):
                self.assertEqual(outcome(tb.write_tree, given, n, fanout, data), ("refused", *expected, 0))
        for given in BAD_DESCRIPTIONS:
            self.assertEqual(outcome(tb.write_tree, given, 1, 2, one), ("refused", 1, 0, 0))
            self.assertEqual(outcome(tb.tree_length, given, 1, 2), ("refused", 1, 0, 0))

    def test_buffers(self):
        leaves, body = SAMPLE["tree"][56:], SAMPLE["tree"]
        held = bytearray(200)
        self.assertEqual(tb.write_tree_into(ONE, 3, 2, leaves, memoryview(held)[10:110]), 80)
        self.assertEqual(held, bytes(10) + body + bytes(110))
        with mmap.mmap(-1, 4096) as mapped:
            self.assertEqual(tb.write_tree_into(ONE, 3, 2, memoryview(leaves), mapped), 80)
            self.assertEqual(mapped[:81], body + b"\0")
        numbers = array.array("Q", [0] * 10)
        self.assertEqual((tb.write_tree_into(ONE, 3, 2, leaves, numbers), numbers.tobytes()), (80, body))
        for out in (bytes(80), memoryview(bytes(80)), memoryview(bytearray(160))[::2]):
            self.assertRaises(TypeError, tb.write_tree_into, ONE, 3, 2, leaves, out)
        for out in ("text", 80, None):
            self.assertRaises(TypeError, tb.write_tree_into, ONE, 3, 2, leaves, out)
        both = bytearray(leaves + bytes(80))
        whole = memoryview(both)
        for start in (0, 23):
            self.assertRaises(ValueError, tb.write_tree_into, ONE, 3, 2, whole[:24], whole[start:])
        self.assertEqual(both, leaves + bytes(80))
        self.assertEqual(tb.write_tree_into(ONE, 3, 2, whole[:24], whole[24:]), 80)
        self.assertEqual(both, leaves + body)
        whole.release()
        both += b"x"  # nothing is held any more


def everything():
    """All names of the modules that call the library, or read what it answers."""
    modules = [importlib.import_module(f"tussockbell.{path.stem}") for path in (root / "bindings/python/tussockbell").glob("_[a-z]*.py")]
    calling = [each for each in modules if tb._functions in vars(each).values()]
    return {name: value for each in (*calling, tb._kinds, tb._refused) for name, value in vars(each).items()}


class Header(unittest.TestCase):
    def setUp(self):
        self.header = (root / "include/tussockbell.h").read_text()
        self.defined = {name: int(value) for name, value in re.findall(r"#define TUSSOCKBELL_(\w+) (\d+)\n", self.header)}

    def test_texts(self):
        cases = re.findall(r'case TUSSOCKBELL_(\w+):\s+return "(.*)";', self.header)
        self.assertEqual({self.defined[name]: text for name, text in cases}, tb._refused._TEXTS)
        self.assertEqual(re.findall(r'default:\s+return "(.*)";', self.header), [tb.Refused(max(tb._refused._TEXTS) + 1, 0).text])
        self.assertEqual(sorted(tb._refused._TEXTS), [0, *REFUSALS])

    def test_places(self):
        constants = {name.strip("_"): value for name, value in everything().items() if re.fullmatch("_?[A-Z0-9_]+", name)}
        own = ("LARGEST", "NO_KIND", "FIRST_ROOM", "NAME_AT", "MOST_LINES", "BLOCK", "ADDED", "FOOTER_BYTES", "FIELD_BYTES")
        own += ("COORDINATES", "TIMESTAMPS", "DELETES")
        used = {name: value for name, value in constants.items() if isinstance(value, int) and name not in own}
        self.assertEqual(used, {name: self.defined.get(name) for name in used})
        self.assertGreater(len(used), 25)
        for name, place in {**tb._footer._FOOTER_NUMBERS, **tb._footer._FOOTER_LISTS}.items():
            self.assertEqual(self.defined["FOOTER_" + {"last_tile_cells": "last_cells"}.get(name, name).upper()], place)
        footer_places = [name for name in self.defined if name.startswith("FOOTER_")]
        self.assertEqual(len(footer_places), len(tb._footer._FOOTER_NUMBERS) + len(tb._footer._FOOTER_LISTS) + 3)
        self.assertEqual(tb._NAMES, {name: self.defined[name.upper()] for name in rules.KINDS})

    def test_functions(self):
        """Parameters and results as the header declares them."""
        types = {"uint64_t": ctypes.c_uint64, "size_t": ctypes.c_size_t, "void": None}
        declared = re.findall(r"^(\w+) tussockbell_(\w+)\(([^;{]*)\);", self.header, re.M)
        self.assertEqual(len(declared), 50)
        asked = {name: function for name, function in everything().items() if name.startswith("_c_")}
        # with a check that the binding has made before
        checked = {"schema_name", "dense_schema_name", "cells", "total_cells", "extent", "var_extent", "value", "range", "var_value", "sum", "null_count"}
        checked |= {"read_plan", "var_read_plan"}
        self.assertEqual({name for _, name, _ in declared if "_c_" + name not in asked}, {*checked, "convert_length", "report", "version"})
        for result, name, parameters in declared:
            if "_c_" + name in asked:
                parameters = re.sub(r"/\*.*?\*/", "", parameters).split(",")
                expected = [ctypes.c_void_p if "*" in p else types[p.split()[0]] for p in parameters]
                function = asked["_c_" + name]
                self.assertEqual((function.argtypes, function.restype), (expected, types[result]), msg=name)


def run_python(code, **variables):
    """What a program says that is run from the checkout."""
    paths = {"PYTHONPATH": str(root / "bindings/python"), **variables}
    command = [sys.executable, "-W", "error", "-c", code]
    return subprocess.run(command, cwd=root, env={**os.environ, **paths}, capture_output=True, text=True)


class Loading(unittest.TestCase):
    code = "import tussockbell as tb; print(tb.tile_sizes(1, bytes([1] + [0] * 7 + [5] + [0] * 7)))"

    def test_missing_library(self):
        got = run_python(self.code, TUSSOCKBELL_LIBRARY="/nonexistent")
        self.assertNotEqual(got.returncode, 0)
        last = got.stderr.strip().splitlines()[-1]
        for part in ("OSError", "/nonexistent", "make lib", "TUSSOCKBELL_LIBRARY"):
            self.assertIn(part, last)

    def test_library_of_another_version(self):
        """One that is earlier, one whose first part is another, and one that tells none: the package is imported, and every call says it."""
        major, minor, patch = map(int, tb.__version__.split("."))
        number = major * 1_000_000 + minor * 1_000 + patch
        self.assertEqual(_functions.VERSION, number)
        with tempfile.TemporaryDirectory() as folder:
            path = os.path.join(folder, "library.so")
            for told, said in ((number - 1, "version 1."), (number + 1_000_000, f"version {major + 1}."), (None, "tells no version")):
                code = "" if told is None else f"unsigned long tussockbell_version(void) {{ return {told}; }}"
                subprocess.run(["gcc", "-shared", "-o", path, "-x", "c", "-"], input=code, text=True, check=True)
                got = run_python(self.code, TUSSOCKBELL_LIBRARY=path)
                last = got.stderr.strip().splitlines()[-1]
                self.assertNotEqual(got.returncode, 0)
                for part in ("OSError", path, said, f"of {tb.__version__}", "make lib"):
                    self.assertIn(part, last)

    def test_found_library(self):
        with tempfile.TemporaryDirectory() as folder:
            # through a link to the folder, which stands in another place
            os.symlink(root / "bindings/python/tussockbell", os.path.join(folder, "tussockbell"))
            built = "build/libtussockbell.so"
            named = [{"TUSSOCKBELL_LIBRARY": path} for path in ("", built, str(root / built))]
            for variables in (*named, {"PYTHONPATH": folder, "TUSSOCKBELL_LIBRARY": ""}):
                got = run_python(self.code, **variables)
                self.assertEqual((got.stdout, got.stderr), ("5\n", ""))

    def test_names(self):
        self.assertEqual(sorted(tb.__all__), tb.__all__)
        for name in tb.__all__:
            self.assertTrue(getattr(tb, name).__doc__, msg=name)


class Usage(unittest.TestCase):
    def test_usage(self):
        kinds = ["int32", "float64"]
        known = rules.Description(kinds, 3, 1000)
        made = pieces.Footer(known, [(0, 99), (-9.0, 9.0)], tiles=2)
        footer_bytes, file_size, n = made.data(), made.file_size, 2
        tree_bytes = pieces.tree(kinds, [[(0, 4), (-1.0, 1.0)], [(11, 14), (0.0, 3.0)]], 2)
        list_bytes, data_file_size, window = pieces.entries([0, 30]), 80, [(0, 10), (-1.5, 2.5)]

        d = tb.Description(["int32", "float64"], fields=3, capacity=1000)
        footer = tb.read_footer(d, file_size, footer_bytes)
        tree = tb.open_tree(d, file_size, footer_bytes, tree_bytes)
        hit = tree.query([(0, 10), (-1.5, 2.5)])
        self.assertEqual((hit.tiles, hit.found, hit.looked), ([0], 1, 3))
        hit = tb.query(d, n, tree_bytes, window, room=None)
        self.assertEqual((hit.tiles, hit.found, hit.looked), ([0], 1, 3))
        offsets = tb.tile_offsets(n, data_file_size, list_bytes)
        self.assertEqual((len(offsets), offsets[0], offsets[1]), (2, (0, 30), (30, 50)))
        total = tb.tile_sizes(n, list_bytes)
        self.assertEqual(total, 30)
        self.assertEqual((footer.version, footer.schema_name, footer.tiles, footer.last_tile_cells), (21, b"schema", 2, 5))
        self.assertEqual((footer.cells(0), footer.cells(1), footer.total_cells), (1000, 5, 1005))
        self.assertEqual(footer.domain, ((0, 99), (-9.0, 9.0)))
        self.assertEqual((tree.tiles, tree.fanout, tree.levels), (2, 2, 2))
        with self.assertRaises(tb.Refused) as caught:
            tree.query([(0, 10), (2.5, -1.5)])
        refused = caught.exception
        self.assertEqual((refused.number, refused.place, refused.which, refused.text), (9, 1, 0, "minimum above maximum"))


if __name__ == "__main__":
    unittest.main()
