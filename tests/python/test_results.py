"""What the Python binding answers with: tiles as arrays, buffers that are lent, batches as arrays, refusals that say more; values that
are compared, printed and pickled; and what `help` says of each."""

import array
import base64
import copy
import ctypes
import dataclasses
import enum
import inspect
import itertools
import json
import mmap
import pathlib
import pickle
import random
import re
import sys
import tempfile
import threading
import tracemalloc
import typing
import unittest
from unittest import mock

root = pathlib.Path(__file__).resolve().parents[2]
sys.path.insert(0, str(root / "tests/reference"))

import pieces
import rules
import tussockbell as tb

SAMPLE = {name: (root / "tests/fixtures/sample" / name).read_bytes() for name in ("footer", "tree", "offsets")}
SIZE, DATA_SIZE = 1166, 300
ONE = tb.Description(["int32"], fields=1, capacity=32)
TWO = tb.Description(["int32", "float64"], fields=1, capacity=32)


def sample_tree():
    return tb.open_tree(ONE, SIZE, SAMPLE["footer"], SAMPLE["tree"])


def line_of_tiles(n, fanout=1024):
    """A tree of tiles from i to i."""
    body = tb.write_tree(ONE, n, fanout, array.array("i", [end for i in range(n) for end in (i, i)]))
    made = pieces.Footer(rules.Description(["int32"], 1, 32), [(0, n)], tiles=n)
    return tb.open_tree(ONE, made.file_size, made.data(), body)


class Tiles(unittest.TestCase):
    def tiles(self, numbers):
        return tb.TileNumbers("I", numbers)

    def test_as_a_list(self):
        for numbers in ([], [0], [1, 2], list(range(300)), [5, 2**32 - 1]):
            tiles = self.tiles(numbers)
            self.assertEqual((tiles, list(tiles), tiles.tolist()), (numbers, numbers, numbers))
            self.assertEqual((len(tiles), bool(tiles)), (len(numbers), bool(numbers)))
            self.assertTrue(tiles == numbers and numbers == tiles and not tiles != numbers and not numbers != tiles)
            for other in ([*numbers, 7], numbers[1:] or [9], [str(i) for i in numbers] or [1], tuple(numbers), None, "text"):
                self.assertTrue(tiles != other and other != tiles and not tiles == other and not other == tiles, msg=other)
            self.assertEqual(tiles, self.tiles(numbers))
            self.assertNotEqual(tiles, self.tiles([*numbers, 1]))
            self.assertEqual((repr(tiles), str(tiles), f"{tiles}"), (repr(numbers),) * 3)
            self.assertEqual(list(reversed(tiles)), numbers[::-1])
            self.assertEqual([*itertools.chain(tiles, tiles)], numbers + numbers)

    def test_indexed_and_sliced_as_a_list(self):
        numbers = list(range(10, 30))
        tiles = self.tiles(numbers)
        for i in range(-20, 20):
            self.assertEqual(tiles[i], numbers[i])
        for i in (20, -21, 10**30):
            self.assertRaises(IndexError, tiles.__getitem__, i)
        self.assertRaises(TypeError, tiles.__getitem__, 1.0)
        for part in (slice(None), slice(3, 7), slice(None, None, -2), slice(-4, 99), slice(9, 2)):
            self.assertIs(type(tiles[part]), tb.TileNumbers)
            self.assertEqual(tiles[part], numbers[part])
        self.assertEqual((tiles.index(15), tiles.count(15), 15 in tiles, 99 in tiles), (5, 1, True, False))
        self.assertRaises(ValueError, tiles.index, 99)
        self.assertEqual((tiles + [1], [1] + tiles, tiles + tiles), (numbers + [1], [1] + numbers, numbers + numbers))
        self.assertIs(type(tiles + [1]), list)
        gathered = []
        gathered += tiles
        self.assertEqual((gathered, sum([tiles, tiles], [])), (numbers, numbers + numbers))
        self.assertRaises(TypeError, hash, tiles)
        self.assertEqual(json.dumps(tiles.tolist()), json.dumps(numbers))

    def test_in_hits(self):
        tree, grid = sample_tree(), tb.DenseGrid(ONE, [(0, 99)], [10])
        for hit in (tree.query([(12, 21)]), tb.query(ONE, 3, SAMPLE["tree"], [(12, 21)]), tree.query_batch([[(12, 21)]])[0]):
            self.assertIs(type(hit.tiles), tb.TileNumbers)
            self.assertEqual((hit, repr(hit)), (tb.Hit([1, 2], 2, 6), "Hit(tiles=[1, 2], found=2, looked=6)"))
            self.assertEqual(tb.Hit([1, 2], 2, 6), hit)
        hit = grid.query([(15, 31)])
        self.assertIs(type(hit.tiles), tb.TileNumbers)
        self.assertEqual((hit, repr(hit)), (tb.DenseHit([1, 2, 3], 3), "DenseHit(tiles=[1, 2, 3], found=3)"))

    def test_copied_and_pickled(self):
        hit = sample_tree().query([(12, 21)])
        for protocol in range(pickle.HIGHEST_PROTOCOL + 1):
            other = pickle.loads(pickle.dumps(hit, protocol))
            self.assertEqual((other, type(other.tiles), other.tiles.typecode), (hit, tb.TileNumbers, "I"))
        for other in (copy.copy(hit.tiles), copy.deepcopy(hit.tiles)):
            self.assertEqual(other, [1, 2])
            other.append(3)
        self.assertEqual(hit.tiles, [1, 2])

    def test_lent_with_no_copy(self):
        tiles = sample_tree().query([(12, 21)]).tiles
        with memoryview(tiles) as view:
            self.assertEqual((view.format, view.tolist()), ("I", [1, 2]))
            tiles[0] = 7
            self.assertEqual(view[0], 7)
            self.assertRaises(BufferError, tiles.append, 1)
        offsets = tb.tile_offsets(3, DATA_SIZE, SAMPLE["offsets"])
        self.assertEqual(offsets.plan(sample_tree().query([(12, 21)]).tiles), offsets.plan([1, 2]))

    def test_memory(self):
        """Four bytes a tile are kept, and while it is asked not much more."""
        n = 2**18
        tree = line_of_tiles(n)
        tracemalloc.start()
        self.addCleanup(tracemalloc.stop)
        hit = tree.query([(-1, n)])
        kept, peak = tracemalloc.get_traced_memory()
        self.assertEqual((hit.found, hit.tiles[-1]), (n, n - 1))
        # an array takes a sixteenth more than it needs
        self.assertLess(kept, 4 * n * 17 // 16 + 2**16)
        self.assertLess(peak, 4 * n * 17 // 16 + 2**17)
        tracemalloc.reset_peak()
        batch = tree.query_batch_arrays([[(-1, n)]])
        self.assertEqual((len(batch.tiles), batch.starts), (n, array.array("q", [0, n])))
        self.assertLess(tracemalloc.get_traced_memory()[1], 8 * n + 2**18)

    def test_no_answer_is_in_another_s_buffer(self):
        """Result buffers are used again; an answer never is one. Calls may stand in each other, as those of a signal's handler do."""
        tree, real, inner, depth = line_of_tiles(5000), tb._query._c_query, [], []

        def interrupted(*arguments):
            real(*arguments)
            if len(depth) < 3:
                depth.append(None)
                inner.append(tree.query([(100, 102)]))

        with mock.patch.object(tb._query, "_c_query", interrupted):
            outer = tree.query([(7, 9)])
        self.assertEqual((outer.tiles, [hit.tiles for hit in inner]), ([7, 8, 9], [[100, 101, 102]] * 3))
        first = tree.query([(0, 3)])
        tree.query([(10, 20)]), tree.query_batch([[(30, 40)]]), tree.query_batch_arrays([[(50, 60)]])
        self.assertEqual(first.tiles, [0, 1, 2, 3])
        wrong = []

        def ask(number):
            for i in range(200):
                low = (number * 37 + i) % 4000
                hits = [tree.query([(low, low + 3)]), *tree.query_batch([[(low, low + 3)]] * 3)]
                if any(hit.tiles != list(range(low, low + 4)) for hit in hits):
                    wrong.append(hits)

        threads = [threading.Thread(target=ask, args=(number,)) for number in range(4)]
        for thread in threads:
            thread.start()
        for thread in threads:
            thread.join()
        self.assertEqual(wrong, [])


class Into(unittest.TestCase):
    def buffers(self, numbers):
        """Everything that has uint32 items to write to."""
        yield array.array("I", numbers)
        yield tb.TileNumbers("I", numbers)
        yield (ctypes.c_uint32 * len(numbers))(*numbers)
        yield memoryview(bytearray(array.array("I", numbers))).cast("I")
        yield memoryview(bytearray(array.array("I", [9, *numbers, 9]))).cast("I")[1:-1]

    def test_places(self):
        tree, grid = sample_tree(), tb.DenseGrid(ONE, [(0, 29)], [10])
        for room in range(6):
            for out in self.buffers([77] * room):
                expected = ([0, 1, 2] + [77] * 6)[: max(room, 0)] if room > 3 else [0, 1, 2][:room]
                self.assertEqual(tree.query_into([(0, 24)], out), (3, 6))
                self.assertEqual(list(out), expected)
            for out in self.buffers([77] * room):
                self.assertEqual(tb.query_into(ONE, 3, SAMPLE["tree"], [(0, 24)], out), tb.Counts(found=3, looked=6))
                self.assertEqual(list(out), expected)
            for out in self.buffers([77] * room):
                self.assertEqual(grid.query_into([(0, 29)], out), 3)
                self.assertEqual(list(out), expected)

    def test_as_a_query(self):
        chance, tree = random.Random(3), line_of_tiles(6000)
        for _ in range(40):
            low = chance.randrange(-10, 6000)
            window, out = [(low, low + chance.randrange(0, 5000))], array.array("I", [1] * chance.randrange(0, 6000))
            hit = tree.query(window)
            self.assertEqual(tree.query_into(window, out), (hit.found, hit.looked))
            self.assertEqual(out.tolist()[: hit.found], hit.tiles.tolist()[: len(out)])
            self.assertEqual(set(out[hit.found :]) | {1}, {1})

    def test_refused(self):
        """The buffer stays as it is, and nothing of it is held."""
        tree, grid, out = sample_tree(), tb.DenseGrid(ONE, [(0, 29)], [10]), array.array("I", [77] * 3)
        for ask in (tree, grid):
            with self.assertRaises(tb.Refused) as caught:
                ask.query_into([(1, 0)], out)
            self.assertEqual((caught.exception, out.tolist()), (tb.Refused(9, 0), [77] * 3))
        out.append(1)

    def test_what_is_no_buffer_of_tiles(self):
        tree, grid = sample_tree(), tb.DenseGrid(ONE, [(0, 29)], [10])
        wide = memoryview(bytearray(32)).cast("I")
        fixed = memoryview(bytes(16)).cast("I")
        wrong = [array.array(letter, [0] * 4) for letter in "bBhHilLqQfd"] + [bytearray(16), bytes(16), fixed, wide[::2], wide[::-1]]
        wrong += [memoryview(bytearray(16)).cast("I", shape=[2, 2]), [0] * 4, None, 5, "text", (ctypes.c_int32 * 4)()]
        wrong += [(ctypes.c_uint32.__ctype_be__ * 4)()]
        with mock.patch.object(tb._query, "_c_query") as asked, mock.patch.object(tb._dense, "_c_dense_query") as of_grid:
            for out in wrong:
                for ask in (tree.query_into, grid.query_into, lambda window, out: tb.query_into(ONE, 3, SAMPLE["tree"], window, out)):
                    self.assertRaises(TypeError, ask, [(0, 24)], out)
            self.assertEqual((asked.call_count, of_grid.call_count), (0, 0))

    def test_overlap(self):
        both = bytearray(SAMPLE["tree"])
        with memoryview(both) as whole:
            tree = tb.open_tree(ONE, SIZE, SAMPLE["footer"], whole)
            with whole.cast("I") as view, view[4:9] as out:
                self.assertRaises(ValueError, tree.query_into, [(0, 24)], out)
        self.assertEqual(both, SAMPLE["tree"])


class Batches(unittest.TestCase):
    WINDOWS = [[(12, 21)], [(1, 0)], [(0, 24)], ["x"], [(0, 1), (0, 1)], tb.Window(["int64"], [(0, 1)]), [(5, 9)]]

    def check(self, tree, windows, room=None):
        """The arrays say what the list says."""
        hits, batch = tree.query_batch(windows, room), tree.query_batch_arrays(windows, room)
        answers, tiles, starts = batch
        self.assertEqual((len(answers), len(starts), starts[0], starts[-1]), (len(hits), len(hits) + 1, 0, len(tiles)))
        for i, hit in enumerate(hits):
            part = tiles[starts[i] : starts[i + 1]]
            expected = (hit.number, hit.place, 0, 0, 0) if isinstance(hit, tb.Refused) else (0, 0, hit.found, hit.looked, len(hit.tiles))
            self.assertEqual((answers[i], part), (expected, [] if isinstance(hit, tb.Refused) else hit.tiles))
        return batch

    def test_as_the_list(self):
        tree, chance = line_of_tiles(5000, 7), random.Random(4)
        for count in (0, 1, 2, 33, 200):
            windows = [[(low, low + chance.randrange(-2, 90))] for low in (chance.randrange(5000) for _ in range(count))]
            data = array.array("i", [end for [(low, high)] in windows for end in (low, high)])
            for room in (None, 0, 1, 50, 10**9, -3):
                batch = self.check(tree, windows, room)
                self.assertEqual(tree.query_batch_arrays(data, room), batch)
                self.assertEqual(tree.query_batch_arrays(data.tobytes(), room), batch)
                self.assertEqual(tb.query_batch_arrays(ONE, 5000, tree._view, windows, room), batch)
        whole = self.check(tree, [[(0, 4999)]] * 3)
        self.assertEqual((len(whole.tiles), whole.starts.tolist()), (15000, [0, 5000, 10000, 15000]))
        self.assertEqual([hit.tiles for hit in tree.query_batch([[(0, 4999)]] * 3)], [list(range(5000))] * 3)

    def test_windows_of_other_kinds(self):
        batch = self.check(sample_tree(), self.WINDOWS)
        self.assertEqual([answer.number for answer in batch.answers], [0, 9, 0, 19, 19, 19, 0])
        self.assertEqual(sample_tree().query_batch_arrays(iter(self.WINDOWS)), batch)

    def test_answers(self):
        answers, _, _ = sample_tree().query_batch_arrays(self.WINDOWS)
        expected = [tuple(answer) for answer in answers]
        self.assertEqual(answers[0], tb.Answer(number=0, place=0, found=2, looked=6, used=2))
        self.assertEqual((list(answers), list(reversed(answers))), (expected, expected[::-1]))
        self.assertEqual((answers[:2], answers[-1]), (expected[:2], expected[-1]))
        self.assertRaises(IndexError, answers.__getitem__, 7)
        self.assertEqual(repr(answers[:0]) + repr(answers)[:15], "[]Answers([Answer")
        self.assertEqual((answers.numbers.format, answers.numbers.readonly, len(answers.numbers)), ("Q", True, 35))
        other = pickle.loads(pickle.dumps(answers))
        self.assertEqual((other, hash(other)), (answers, hash(answers)))
        self.assertNotEqual(other, sample_tree().query_batch_arrays([[(0, 1)]]).answers)

    def test_no_whole_windows(self):
        with self.assertRaises(tb.Refused) as caught:
            sample_tree().query_batch_arrays(bytes(9))
        self.assertEqual(caught.exception, tb.Refused(22, 0))
        self.assertIn("(9 bytes, where a window has 8)", str(caught.exception))

    def test_raised(self):
        tree = sample_tree()
        fragment = tb.Fragment(ONE, SIZE, SAMPLE["footer"], SAMPLE["tree"])
        asked = [tree.query_batch, tree.query_batch_arrays, fragment.query_batch, fragment.query_batch_arrays]
        asked += [lambda windows, refused: tb.query_batch(ONE, 3, SAMPLE["tree"], windows, refused=refused)]
        asked += [lambda windows, refused: tb.query_batch_arrays(ONE, 3, SAMPLE["tree"], windows, refused=refused)]
        plain = array.array("i", [12, 21, 1, 0, 0, 24, 3, 2])
        for ask in asked:
            for windows, window, number in ((self.WINDOWS, 1, 9), (self.WINDOWS[2:], 1, 19), (plain, 1, 9), (plain.tobytes(), 1, 9)):
                with self.assertRaises(tb.Refused) as caught:
                    ask(windows, refused="raise")
                self.assertEqual((caught.exception, caught.exception.window), (tb.Refused(number, 0), window))
                self.assertIn(f"(window {window}", str(caught.exception))
            right = [[(12, 21)], [(0, 24)]]
            self.assertEqual(ask(right, refused="raise"), ask(right, refused="list"))
            for wrong in ("skip", "", None, 1, True):
                with mock.patch.object(tb._batch, "_c_query_batch") as called:
                    self.assertRaises(ValueError, ask, right, refused=wrong)
                    self.assertEqual(called.call_count, 0)
        self.assertEqual([one.window for one in tree.query_batch(self.WINDOWS) if isinstance(one, tb.Refused)], [None] * 4)
        self.assertEqual(str(tree.query_batch(self.WINDOWS)[1]), "refused 9 at 0: minimum above maximum")


class Said(unittest.TestCase):
    """What a refusal says for people, beside number, place and which, that other tests have."""

    def said(self, ask, *parts):
        with self.assertRaises(tb.Refused) as caught:
            ask()
        for part in parts:
            self.assertIn(part, str(caught.exception))
        return caught.exception

    def test_names_and_limits(self):
        self.assertEqual({one.name: int(one) for one in tb.Refusal}, {n: x for n, x in vars(rules.Refusal).items() if n.isupper()})
        self.assertEqual((tb.Refusal.REVERSED, tb.Refusal(9)), (9, tb.Refusal.REVERSED))
        self.assertEqual(tb.Refusal["REVERSED"].text, "minimum above maximum")
        for one in tb.Refusal:
            self.assertEqual(tb.Refused(int(one), 0).text, one.text)
        self.assertIs(pickle.loads(pickle.dumps(tb.Refusal.ROOM)), tb.Refusal.ROOM)
        with self.assertRaises(tb.Refused) as caught:
            sample_tree().query([(1, 0)])
        self.assertEqual(caught.exception.number, tb.Refusal.REVERSED)
        header = (root / "include/tussockbell.h").read_text()
        defined = {name: int(n) for name, n in re.findall(r"#define TUSSOCKBELL_((?:LEAST|MOST)_\w+) (\d+)", header)}
        self.assertEqual({name: n for name, n in vars(tb.limits).items() if name.isupper()}, defined)
        for name in defined:
            self.assertIn(name, tb.limits.__doc__)

    def test_which_of_the_two(self):
        foot, tree, u64 = SAMPLE["footer"], SAMPLE["tree"], pieces.u64
        other = tree[:8] + b"\2" + tree[9:]
        values = u64(3) + array.array("i", [1, 2, 3]).tobytes() + u64(0)
        low = u64(3) + array.array("i", [1, 0, 3]).tobytes() + u64(0)
        counts = pieces.entries([0, 0, 6])
        self.said(lambda: tb.open_tree(ONE, SIZE, foot, other), "refused 14 at 8 of the tree: level number")
        self.said(lambda: tb.open_tree(ONE, SIZE, b"\x0f" + foot[1:], tree), "refused 3 at 0 of the footer: version")
        self.said(lambda: tb.convert_tree(ONE, SIZE, foot, other), "refused 14 at 8 of the tree: level number")
        self.said(lambda: tb.convert_tree(ONE, SIZE, foot[:5], tree), "refused 2 at 5 of the footer: byte count")
        self.said(lambda: tb.null_counts(ONE, SIZE, foot, counts), "refused 27 at 24 of the null counts: a null")
        self.said(lambda: tb.null_counts(ONE, SIZE, b"\x0f" + foot[1:], counts), "refused 3 at 0 of the footer: version")
        self.said(lambda: tb.tile_ranges("int32", 3, values, low), "refused 9 at 12 of the maxes: minimum above maximum")
        self.said(lambda: tb.tile_ranges("int32", 3, u64(4), low), "refused 17 at 0 of the mins: a list's count")
        parts = tb.TreeParts(ONE, SIZE, foot, 80)
        parts.write(other)
        self.said(parts.finish, "refused 14 at 8 of the tree: level number")
        # what is about the bytes of neither
        for ask in (
            lambda: tb.open_tree(tb.Description(["int32"], 0, 1), SIZE, foot, tree), lambda: tb.tile_ranges("int32", 0, values, low),
            lambda: tb.open_tree(tb.Description(["float32"], 1, 1), SIZE, foot, tree), lambda: tb.tile_ranges("int8", 3, values, low),
            lambda: tb.convert_tree_into(ONE, SIZE, foot, tree, bytearray(9)),
        ):
            refused = self.said(ask, " at 0: ")
            self.assertIsNone(refused.of)
        self.assertEqual(str(tb.Refused(15, 72, 1)), "refused 15 at 72 of the second byte string: a box not inside its parent")

    def test_description(self):
        """1 says which number it is."""
        for kinds, fields, capacity, part in (
            ([], 1, 1, "(0 kinds, where they are 1 to 4)"), (["int32"] * 5, 1, 1, "(5 kinds, where they are 1 to 4)"),
            (["int32", "int33"], 1, 1, "('int33', of dimension 1, is no kind)"), ([">i8"], 1, 1, "('>i8', of dimension 0, is no kind)"),
            (["int32"], 65, 1, "(fields is 65, where it is 1 to 64)"), (["int32"], -1, 1, "(fields is -1, where it is 1 to 64)"),
            (["int32"], 1, 0, "(capacity is 0, where it is 1 to 1000000000)"),
            (["int32"], 1, 10**6000, "(capacity is a int, where it is 1 to 1000000000)"),
        ):
            d = tb.Description(kinds, fields, capacity)
            for ask in (
                lambda: tb.read_footer(d, SIZE, SAMPLE["footer"]), lambda: tb.open_tree(d, SIZE, SAMPLE["footer"], SAMPLE["tree"]),
                lambda: tb.query(d, 3, SAMPLE["tree"], [(0, 1)]), lambda: tb.box_test(d, bytes(8), [(0, 1)]),
                lambda: tb.tree_length(d, 3, 2), lambda: tb.write_tree(d, 3, 2, bytes(24)), lambda: tb.DenseGrid(d, [(0, 9)], [1]),
                lambda: tb.query_batch(d, 3, SAMPLE["tree"], [[(0, 1)]], refused="raise"),
                lambda: tb.query_into(d, 3, SAMPLE["tree"], [(0, 1)], array.array("I", [0])),
                lambda: tb.TreeParts(d, SIZE, SAMPLE["footer"], 80).finish(), lambda: tb.read_dense_footer(d, SIZE, SAMPLE["footer"]),
                lambda: tb.convert_tree(d, SIZE, SAMPLE["footer"], SAMPLE["tree"]), lambda: tb.convert_footer(d, SIZE, SAMPLE["footer"]),
            ):
                self.assertEqual(self.said(ask, "refused 1 at 0: description outside the limits (", part.strip("()")), tb.Refused(1, 0))
        self.said(lambda: tb.tile_values("int8", 3, b""), "('int8' is no kind)")
        self.said(lambda: tb.DenseGrid(ONE, [(0, 9)], [1], order="sideways"), "(an order is 'row-major' or 'column-major')")

    def test_lengths(self):
        """2 says how many bytes it takes and how many there are."""
        foot, tree, offsets, u64 = SAMPLE["footer"], SAMPLE["tree"], SAMPLE["offsets"], pieces.u64
        wide = tb.Description(["int32"], 2, 32)
        values = u64(3) + array.array("i", [1, 2, 3]).tobytes()
        for ask, part in (
            (lambda: tb.read_footer(ONE, SIZE, foot[:-1]), "(166 bytes expected, 165 given)"),
            (lambda: tb.read_footer(ONE, SIZE, foot[:11]), "(161 bytes expected at least, 11 given)"),
            (lambda: tb.read_footer(wide, SIZE, foot), "(254 bytes expected, 166 given, as with fields=1)"),
            (lambda: tb.read_footer(tb.Description(["int64"], 1, 32), SIZE, foot), "(174 bytes expected, 166 given)"),
            (lambda: tb.read_footer(ONE, 165, foot), "(the file's size is 165, and the footer's 166)"),
            (lambda: tb.read_footer(ONE, SIZE, foot[:-8] + u64(7)), "(the length field reads 7, where it is 158)"),
            (lambda: tb.open_tree(ONE, SIZE, foot, tree + b"x"), "of the tree: byte count or length field wrong (80 bytes expected, 81"),
            (lambda: tb.open_tree(ONE, SIZE, foot, b""), "(8 bytes expected at least, 0 given)"),
            (lambda: tb.query(ONE, 3, tree[:70], [(0, 1)]), "(80 bytes expected, 70 given)"),
            (lambda: tb.query_batch(ONE, 3, tree[:70], [[(0, 1)]], refused="raise"), "(window 0: 80 bytes expected, 70 given)"),
            (lambda: tb.tile_offsets(3, DATA_SIZE, offsets[:-1]), "(32 bytes expected, 31 given)"),
            (lambda: tb.tile_sizes(3, b""), "(32 bytes expected, 0 given)"),
            (lambda: tb.tile_offsets(4, DATA_SIZE, offsets), "(it is 3, and there are 4 tiles)"),
            (lambda: tb.tile_sums(3, offsets + b"x"), "(32 bytes expected, 33 given)"),
            (lambda: tb.null_counts(ONE, SIZE, foot, offsets[:-1]), "of the null counts: byte count or length field wrong (32 bytes"),
            (lambda: tb.tile_values("int32", 3, values), "(28 bytes expected, 20 given)"),
            (lambda: tb.tile_values("int32", 3, values + u64(1) + b"x"), "(the var buffer's size is 1, and a fixed kind has none)"),
            (lambda: tb.tile_values("int32", 3, values + u64(0) + b"x"), "(28 bytes expected, 29 given)"),
            (lambda: tb.tile_values("var", 1, u64(1) + u64(0) + u64(5) + b"abc"), "(29 bytes expected, 27 given)"),
            (lambda: tb.tile_values("var", 1, u64(1) + u64(0)), "(24 bytes expected at least, 16 given)"),
            (lambda: tb.tile_ranges("int32", 3, values + u64(0), values), "of the maxes: byte count or length field wrong (28 bytes"),
            (lambda: tb.box_test(ONE, bytes(7), [(0, 1)]), "(8 bytes expected, 7 given)"),
            (lambda: tb.write_tree(ONE, 3, 2, bytes(23)), "(24 bytes expected, 23 given)"),
            (lambda: tb.write_tree_into(ONE, 3, 2, bytes(24), bytearray(79)), "refused 26 at 0: the output buffer is too short (80 bytes"),
            (lambda: tb.convert_tree(ONE, SIZE, foot, tree[:-1]), "(80 bytes expected, 79 given)"),
        ):
            self.said(ask, part)
        parts = tb.TreeParts(ONE, SIZE, foot, 80)
        parts.write(tree[:79])
        self.said(parts.finish, "refused 2 at 79 of the tree: byte count or length field wrong (80 bytes stated, 79 received)")

    def test_windows(self):
        """19 says which of its reasons it has."""
        tree = tb.write_tree(TWO, 1, 2, pieces.box(["int32", "float64"], [(0, 9), (0.0, 9.0)]))
        of_grid = tb.DenseGrid(tb.Description(["int32", "int64"], 1, 1), [(0, 9), (0, 9)], [1, 1])
        for window, part in (
            ([(0, 1)], "(1 dimensions, where the description has 2)"), ([(0, 1)] * 3, "(3 dimensions, where the description has 2)"),
            ([(1.5, 2), (0, 1)], "(dimension 0 is int32, and can't hold 1.5)"),
            ([(0, 2**40), (0, 1)], "(dimension 0 is int32, and can't hold 1099511627776)"),
            ([(0, 1), 5], "(dimension 1 is float64, and 5 is no pair of ends)"),
            ([(0, 1), (b"1", 2)], "(dimension 1 is float64, and can't hold b'1')"),
            ([(0, 10**6000), (0, 1)], "(dimension 0 is int32, and can't hold a int)"),
            (tb.Window(["int64", "float64"], [(0, 1), (0, 1)]), "(dimension 0 is int64 in the window and int32 in the description)"),
            (tb.Window(["int32", "int8"], [(0, 1), (0, 1)]), "(dimension 1 is float64, and the window has no kind there"),
            (iter([(1.5, 2), (0, 1)]), "(dimension 0 is int32, and the window has no kind there"),
        ):
            asked = [lambda: tb.query(TWO, 1, tree, window)]
            if not hasattr(window, "__next__"):
                asked.append(lambda: tb.box_test(TWO, tree[-24:], window))
                asked.append(lambda: tb.query_into(TWO, 1, tree, window, array.array("I")))
            for ask in asked:
                self.assertEqual(self.said(ask, part).number, 19)
            if isinstance(window, list):
                refused = tb.query_batch(TWO, 1, tree, [window])[0]
                self.assertIn(part, str(refused))
        self.said(lambda: of_grid.query([(0, 1)]), "(1 dimensions, where the description has 2)")
        self.said(lambda: tb.DenseGrid(ONE, [(0.5, 9)], [1]), "(dimension 0 is int32, and can't hold 0.5)")

    def test_no_part_of_equality(self):
        refused = self.said(lambda: tb.open_tree(ONE, SIZE, SAMPLE["footer"], SAMPLE["tree"][:-1]))
        plain = tb.Refused(2, 79, 1)
        self.assertEqual((refused, hash(refused), refused.args), (plain, hash(plain), (2, 79, 1)))
        for other in (pickle.loads(pickle.dumps(refused)), copy.deepcopy(refused), copy.copy(refused)):
            self.assertEqual((other, str(other)), (refused, str(refused)))
            self.assertEqual((other.of, other.detail), ("the tree", "80 bytes expected, 79 given"))
        self.assertEqual((plain.of, plain.detail, plain.window), (None, None, None))


class Dimension:
    """As a tiledb.Dim has them."""

    def __init__(self, name, dtype, isvar=False):
        self.name, self.dtype, self.isvar = name, dtype, isvar


class DType:
    """As a numpy.dtype has it."""

    def __init__(self, name):
        self.name = name

    def __str__(self):
        return self.name


class Schema:
    """What TileDB-Py documents of a tiledb.ArraySchema: sparse, domain.ndim, domain.dim(i), nattr, attr(i) and capacity."""

    def __init__(self, dimensions, attributes, capacity=10000, sparse=True):
        self.sparse, self.capacity, self.nattr, self._attributes = sparse, capacity, len(attributes), attributes
        self.domain = self
        self._dimensions, self.ndim = dimensions, len(dimensions)

    def dim(self, i):
        return self._dimensions[i]

    def attr(self, i):
        return self._attributes[i]


class Descriptions(unittest.TestCase):
    SPELLED = {
        "int32": ["int32", "i4", "<i4", "=i4", 0, DType("int32"), type("int32", (), {})],
        "int64": ["int64", "i8", "<i8", 1, DType("int64")],
        "float32": ["float32", "f4", "<f4", 2], "float64": ["float64", "f8", "<f8", "=f8", 3], "uint64": ["uint64", "u8", "<u8", 10],
    }

    def test_equal_however_spelled(self):
        for name, spelled in self.SPELLED.items():
            first = tb.Description([name, "int32"], 3, 10)
            for kind in spelled:
                other = tb.Description([kind, "i4"], 3, 10)
                self.assertEqual((first, hash(first), len({first, other})), (other, hash(other), 1))
                self.assertEqual(other._given, first._given)
            for another in set(self.SPELLED) - {name}:
                self.assertNotEqual(first, tb.Description([another, "int32"], 3, 10))
            for others in (([name], 3, 10), ([name, "int32"], 4, 10), ([name, "int32"], 3, 11)):
                self.assertNotEqual(first, tb.Description(*others))
            self.assertEqual(first == tb.Description(["int32", name], 3, 10), name == "int32")
            self.assertEqual(repr(first), f"Description(kinds=({name!r}, 'int32'), fields=3, capacity=10)")
        self.assertEqual(pickle.loads(pickle.dumps(tb.Description(["<i8"], 1, 2))), tb.Description([1], 1, 2))
        self.assertNotEqual(tb.Description(["int32"], -1, 1), tb.Description(["int32"], 2**70, 1))
        self.assertNotEqual(ONE, ("int32",))

    def test_spellings_that_are_no_kind(self):
        for kind in (*"ilqdQ<", "", ">i8", "!i8", ">f8", "|i8", "i2", "u4", "f2", "f16", "i 4", "I4", "<int32", "c8", "M8[ns]"):
            with self.assertRaises(tb.Refused) as caught:
                tb.tree_length(tb.Description([kind], 1, 1), 3, 2)
            self.assertEqual(caught.exception, tb.Refused(1, 0), msg=kind)
        self.assertEqual(tb.tree_length(tb.Description(["<i4"], 1, 1), 3, 2), 80)
        self.assertEqual(list(tb.tile_values("i4", 1, pieces.u64(1) + bytes([7, 0, 0, 0]) + pieces.u64(0))), [7])
        self.assertEqual(tb.Window(["i4"], [(0, 1)]), tb.Window(["int32"], [(0, 1)]))

    def test_from_schema(self):
        for kinds in (["int32"], ["int64", "uint64"], ["float64", "int32", "uint64"], ["float32"]):
            for attributes in (["a"], ["a", "s"], list("abcdefg")):
                schema = Schema([Dimension(f"d{i}", DType(kind)) for i, kind in enumerate(kinds)], attributes, capacity=77)
                for timestamps, deletes in itertools.product((False, True), repeat=2):
                    made = tb.Description.from_schema(schema, timestamps=timestamps, deletes=deletes)
                    # attributes, then coordinates as a whole, then dimensions, as a metadata file of TileDB's has them
                    fields = len(attributes) + 1 + len(kinds) + timestamps + 2 * deletes
                    self.assertEqual(made, tb.Description(kinds, fields, 77))
                    self.assertEqual(made.kinds, tuple(kinds))
        plain = Schema([Dimension("d0", DType("int32"))], ["a", "s"], capacity=7)
        self.assertEqual(tb.Description.from_schema(plain), tb.Description(["int32"], fields=4, capacity=7))

    def test_schemas_of_others(self):
        right = Dimension("x", DType("int32"))
        for schema, *parts in (
            (Schema([right], ["a"], sparse=False), "dense", "DenseGrid"),
            (Schema([right, Dimension("text", DType("bytes"), isvar=True)], ["a"]), "'text'", "variable"),
            (Schema([right, Dimension("when", DType("datetime64[ns]"))], ["a"]), "'when'", "datetime64[ns]", "int64"),
            (Schema([Dimension("small", DType("uint16")), right], ["a"]), "'small'", "uint16"),
            (Schema([Dimension("odd", None)], ["a"]), "'odd'", "None"),
        ):
            with self.assertRaises(ValueError) as caught:
                tb.Description.from_schema(schema)
            for part in parts:
                self.assertIn(part, str(caught.exception))


class Values(unittest.TestCase):
    """Trees, offsets and windows: compared, printed and pickled."""

    def mapped(self, data):
        folder = tempfile.TemporaryDirectory()
        self.addCleanup(folder.cleanup)
        path = pathlib.Path(folder.name, "bytes")
        path.write_bytes(data)
        with open(path, "rb") as file:
            mapping = mmap.mmap(file.fileno(), 0, access=mmap.ACCESS_READ)
        return mapping

    def forms(self, data):
        return [data, bytearray(data), memoryview(data), memoryview(bytearray(data)).cast("H"), array.array("B", data)]

    def test_trees(self):
        tree = sample_tree()
        self.assertEqual(repr(tree), "<Tree: 3 tiles, fanout 2, 3 levels>")
        trees = [tb.open_tree(ONE, SIZE, SAMPLE["footer"], form) for form in (*self.forms(SAMPLE["tree"]), self.mapped(SAMPLE["tree"]))]
        for other in trees:
            self.assertEqual((tree, hash(tree)), (other, hash(other)))
        other = bytearray(SAMPLE["tree"])
        other[72:] = pieces.box(["int32"], [(21, 23)])
        self.assertNotEqual(tree, tb.open_tree(ONE, SIZE, SAMPLE["footer"], other))
        self.assertNotEqual(tree, tb.open_tree(tb.Description(["int32"], 1, 33), SIZE, SAMPLE["footer"], SAMPLE["tree"]))
        self.assertNotEqual(tree, "tree")
        for each in trees[:-1]:
            for protocol in range(pickle.HIGHEST_PROTOCOL + 1):
                again = pickle.loads(pickle.dumps(each, protocol))
                self.assertEqual((again, again.query([(12, 21)])), (tree, tb.Hit([1, 2], 2, 6)))
                self.assertEqual((again.tiles, again.fanout, again.levels, again.description), (3, 2, 3, ONE))
            self.assertEqual(copy.deepcopy(each), tree)

    def test_offsets(self):
        offsets = tb.tile_offsets(3, DATA_SIZE, SAMPLE["offsets"])
        self.assertEqual((repr(offsets), offsets.data_file_size), ("<Offsets: 3 tiles, 300 bytes>", 300))
        for form in self.forms(SAMPLE["offsets"]):
            other = tb.tile_offsets(3, DATA_SIZE, form)
            again = pickle.loads(pickle.dumps(other))
            self.assertEqual((other, hash(other), again, hash(again)), (offsets, hash(offsets)) * 2)
            self.assertEqual((list(again), again.plan([0, 2]).bytes), ([(0, 100), (100, 150), (250, 50)], 150))
        for other in (tb.tile_offsets(3, 301, SAMPLE["offsets"]), tb.tile_offsets(3, 300, pieces.entries([0, 101, 250])), list(offsets)):
            self.assertNotEqual(offsets, other)

    def test_mapped_files_are_not_pickled(self):
        tree = tb.open_tree(ONE, SIZE, SAMPLE["footer"], self.mapped(SAMPLE["tree"]))
        part = tb.open_tree(ONE, SIZE, SAMPLE["footer"], memoryview(self.mapped(SAMPLE["tree"] + b"more"))[:80])
        offsets = tb.tile_offsets(3, DATA_SIZE, self.mapped(SAMPLE["offsets"]))
        for value in (tree, part, offsets):
            with self.assertRaises(TypeError) as caught:
                pickle.dumps(value)
            self.assertIn("Fragment", str(caught.exception))

    def test_windows(self):
        window = tb.Window(["int32", "float64"], [(1, 2), (0.5, float("inf"))])
        self.assertEqual(repr(window), "Window(['int32', 'float64'], [(1, 2), (0.5, inf)])")
        same = tb.Window([0, "<f8"], [(1.0, b"\2\0\0\0"), (0.5, 10**400)])
        self.assertEqual((window, hash(window)), (same, hash(same)))
        others = [(["int32", "float64"], [(1, 2), (0.5, 7)]), (["int64", "float64"], [(1, 2), (0.5, float("inf"))]), (["int32"], [(1, 2)])]
        for other in (*(tb.Window(*other) for other in others), [(1, 2), (0.5, float("inf"))], None):
            self.assertNotEqual(window, other)
        self.assertNotEqual(tb.Window(["float64"], [(0.0, 1.0)]), tb.Window(["float64"], [(-0.0, 1.0)]))
        none = tb.Window(["int32", "int8"], [(1.5, 2), (0, 1)])
        self.assertEqual((repr(none), none), ("Window([None, None], [None, None])", tb.Window([None, None], [None, None])))
        everything = [window, none, tb.Window([], []), tb.Window(["uint64"] * 4, [(0, 2**64 - 1)] * 4)]
        everything += [tb.Window(["float32"], [(0.1, 0.2)])]
        for each in everything:
            for protocol in range(pickle.HIGHEST_PROTOCOL + 1):
                self.assertEqual(pickle.loads(pickle.dumps(each, protocol)), each)
            self.assertEqual(copy.deepcopy(each), each)
            if each is not everything[0]:
                self.assertEqual(eval(repr(each), {"Window": tb.Window}), each)
        self.assertEqual(tb.Description(["float32"], 1, 1).widen([(0.1, 0.2)]), tb.Description(["float32"], 1, 1).widen(everything[-1]))

    def test_by_the_package_s_name(self):
        for name in tb.__all__:
            self.assertEqual(getattr(getattr(tb, name), "__module__", "tussockbell"), "tussockbell", msg=name)
        self.assertIn("tussockbell.Refused", repr(tb.Refused))
        self.assertEqual(typing.get_type_hints(tb.Description)["fields"], int)
        self.assertEqual(typing.get_type_hints(tb.Hit), {"tiles": tb.TileNumbers, "found": int, "looked": int})
        # what 1.0.0 pickled
        old = base64.b64decode(
            "gASVvwAAAAAAAACMC3R1c3NvY2tiZWxslIwDSGl0lJOUXZQoSwFLAmVLAksGh5SBlGgAjAdSZWZ1c2VklJOUSwlLAUsAh5RSlH2U"
            "KIwGbnVtYmVylEsJjAVwbGFjZZRLAYwFd2hpY2iUSwB1YmgAjAtEZXNjcmlwdGlvbpSTlCmBlH2UKIwFa2luZHOUjAVpbnQzMpSF"
            "lIwGZmllbGRzlEsBjAhjYXBhY2l0eZRLAowGX2dpdmVulChDAQCUSwFLAUsCdJR1YoeULg=="
        )
        self.assertEqual(pickle.loads(old), (tb.Hit([1, 2], 2, 6), tb.Refused(9, 1), tb.Description(["int32"], 1, 2)))


class Documented(unittest.TestCase):
    def members(self, cls):
        """Public attributes and methods that a class of the package has of its own, and what `help` says of each."""
        for each in cls.__mro__:
            if each.__module__.split(".")[0] == "tussockbell":
                for name, value in vars(each).items():
                    if not name.startswith("_"):
                        yield name, value

    def test_every_class(self):
        seen = 0
        for public in tb.__all__:
            cls = getattr(tb, public)
            self.assertTrue(inspect.getdoc(cls), msg=public)
            if not isinstance(cls, type):
                continue
            fields = {f.name for f in dataclasses.fields(cls)} if dataclasses.is_dataclass(cls) else set(getattr(cls, "_fields", ()))
            whole = cls.__doc__ + (tb.Footer.__doc__ if cls is tb.DenseFooter else "")
            for name in sorted(name for name in fields if not name.startswith("_")):
                self.assertIn(f"`{name}`", whole, msg=(public, name))
                seen += 1
            for name, value in self.members(cls):
                if name in fields or isinstance(value, enum.Enum) or isinstance(cls, enum.EnumMeta):
                    continue
                described = value.__func__ if isinstance(value, (classmethod, staticmethod)) else value
                named = not callable(described) and not isinstance(described, property) and f"`{name}`" in whole
                slots = getattr(cls, "__slots__", ())
                documented = slots.get(name) if isinstance(slots, dict) else None
                self.assertTrue(documented or named or inspect.getdoc(described), msg=(public, name))
                seen += 1
        self.assertGreater(seen, 90)

    def test_sigbus_is_warned_of(self):
        for cls in (tb.Fragment, tb.Tree, tb.Offsets, tb):
            self.assertIn("SIGBUS", cls.__doc__)
        self.assertIn("SIGBUS", (root / "README.md").read_text())


if __name__ == "__main__":
    unittest.main()
