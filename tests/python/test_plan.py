"""Read plans through the Python binding, against the reference and byte by byte: lists, buffers of every integer type, gaps at
their edges; extents and cells of many tiles in one call."""

import array
import copy
import ctypes
import gc
import itertools
import pathlib
import pickle
import random
import sys
import unittest
from unittest import mock

root = pathlib.Path(__file__).resolve().parents[2]
sys.path.insert(0, str(root / "tests/reference"))

import pieces
import plan as reference
import rules
import tussockbell as tb

MOST = 2**64 - 1
CHECKS = {tb.tile_offsets: rules.extents, tb.var_tile_offsets: rules.var_extents}


def made(chance, n, var):
    """A list of n tiles, checked, and its extents."""
    lengths = [chance.randrange(0 if var else 1, 6) for _ in range(n)]
    starts = [sum(lengths[:i]) for i in range(n)]
    check, body = (tb.var_tile_offsets if var else tb.tile_offsets), pieces.entries(starts)
    return check(n, sum(lengths), body), CHECKS[check](n, sum(lengths), body)


def told(plan):
    return list(plan.ranges), plan.tiles, plan.bytes, plan.outside


class Plans(unittest.TestCase):
    def expected(self, extents, run, gap):
        ranges = reference.ranges(extents, run, gap)
        self.assertEqual(ranges, reference.ranges_by_bytes(extents, run, gap))
        tiles = len(reference.named(extents, run))
        return ranges, tiles, sum(length for _, length in ranges), sum(not 0 <= i < len(extents) for i in run)

    def test_every_run_of_a_small_file(self):
        for var, lengths in ((False, [2, 1, 3, 1]), (True, [2, 0, 3, 0]), (True, [0, 0, 1, 2]), (True, [0, 0, 0, 0])):
            starts = [sum(lengths[:i]) for i in range(4)]
            check, body = (tb.var_tile_offsets if var else tb.tile_offsets), pieces.entries(starts)
            offsets, extents = check(4, sum(lengths), body), CHECKS[check](4, sum(lengths), body)
            for length in range(4):
                for run in itertools.product(range(5), repeat=length):
                    for gap in range(5):
                        self.assertEqual(told(offsets.plan(run, gap)), self.expected(extents, run, gap), msg=(lengths, run, gap))

    def test_random_runs(self):
        chance = random.Random(36)
        for number in range(600):
            n = chance.choice((1, 7, 8, 9, 40, 300))
            offsets, extents = made(chance, n, number % 2 == 1)
            run = [chance.randrange(n + chance.choice((0, 0, 2))) for _ in range(chance.randrange(60))]
            gap = chance.choice((0, 0, 1, 2, 5, 50, MOST))
            expected = self.expected(extents, run, gap)
            self.assertEqual(told(offsets.plan(run, gap)), expected)
            chance.shuffle(run)
            self.assertEqual(told(offsets.plan(run + run[:3], gap))[:3], expected[:3], msg="the order and the repeats of a run")
            self.assertEqual(told(offsets.plan(array.array("I", run), gap=gap)), expected)

    def test_gap(self):
        offsets = tb.tile_offsets(3, 30, pieces.entries([0, 10, 20]))
        self.assertEqual(told(offsets.plan([0, 2])), ([(0, 10), (20, 10)], 2, 20, 0))
        self.assertEqual(told(offsets.plan([0, 2], 9)), ([(0, 10), (20, 10)], 2, 20, 0))
        self.assertEqual(told(offsets.plan([0, 2], 10)), ([(0, 30)], 2, 30, 0))
        self.assertEqual(told(offsets.plan([0, 2], gap=MOST)), ([(0, 30)], 2, 30, 0))
        for gap in (-1, 2**64, 10**30, -(10**30)):
            self.assertRaises(ValueError, offsets.plan, [0], gap)
        for gap in (1.0, "1", None):
            self.assertRaises(TypeError, offsets.plan, [0], gap)

    def test_large_offsets(self):
        offsets = tb.tile_offsets(3, MOST, pieces.entries([0, 2**63, MOST - 1]))
        self.assertEqual(told(offsets.plan([2, 0])), ([(0, 2**63), (MOST - 1, 1)], 2, 2**63 + 1, 0))
        self.assertEqual(told(offsets.plan([0, 1, 2])), ([(0, MOST)], 3, MOST, 0))


class Runs(unittest.TestCase):
    """What a run of tiles may come as."""

    def setUp(self):
        self.chance = random.Random(3)
        self.offsets, self.extents = made(self.chance, 40, False)
        self.run = [5, 3, 3, 39, 20, 21, 5]
        self.expected = told(self.offsets.plan(self.run, 2))

    def same(self, run):
        self.assertEqual(told(self.offsets.plan(run, 2)), self.expected, msg=repr(run))

    def test_numbers(self):
        self.same(tuple(self.run))
        self.same(set(self.run))
        self.same(iter(self.run))
        self.same({tile: None for tile in self.run})
        self.assertEqual(told(self.offsets.plan(range(40))), told(self.offsets.plan(list(range(40)))))
        self.assertEqual(told(self.offsets.plan([])), ([], 0, 0, 0))
        for run in ([1.0], [None], ["1"], "1", 1, None, 1.5, [[1]], [b"\0"]):
            self.assertRaises(TypeError, self.offsets.plan, run)

    def test_no_tile_is_another(self):
        """A number that a uint32 can't hold is outside, and never some tile by its low bits."""
        for number in (-1, -40, -(2**32), 2**32, 2**32 + 5, 2**33 + 3, 10**30, 40, 2**31, 2**32 - 1):
            self.assertEqual(told(self.offsets.plan([number])), ([], 0, 0, 1), msg=number)
            self.assertEqual(told(self.offsets.plan([3, number, 3]))[1:], (1, self.extents[3][1], 1), msg=number)

    def test_buffers(self):
        for letter in "iIlLqQ":
            self.same(array.array(letter, self.run))
        for kind in (ctypes.c_uint32, ctypes.c_int32, ctypes.c_int64, ctypes.c_uint64):
            self.same((kind * len(self.run))(*self.run))
        spread = memoryview(array.array("I", [each for tile in self.run for each in (tile, 7)]))[::2]
        self.assertFalse(spread.contiguous)
        self.same(spread)
        self.assertEqual(told(self.offsets.plan(array.array("I"))), ([], 0, 0, 0))
        self.assertEqual(told(self.offsets.plan(array.array("q")))[0], [])
        outside = {"i": -1, "l": -40, "q": 2**32 + 5, "Q": 2**32 + 5}
        for letter, number in outside.items():
            self.assertEqual(told(self.offsets.plan(array.array(letter, [number, 5])))[1:], (1, self.extents[5][1], 1))

    def test_no_other_buffer_is_read_as_numbers(self):
        four = array.array("I", self.run)
        others = [four.tobytes(), bytearray(four.tobytes()), memoryview(four).cast("B"), memoryview(four).cast("c"), memoryview(four).cast("b")]
        others += [array.array(letter, [1, 2]) for letter in "bBhHfd"]
        others += [(ctypes.c_uint32.__ctype_be__ * 2)(1, 2), (ctypes.c_uint16 * 2)(1, 2), (ctypes.c_bool * 2)(1, 0)]
        others += [memoryview(array.array("I", range(6))).cast("B").cast("I", (2, 3)), memoryview(array.array("I", [1])).cast("B").cast("I", ())]
        for run in others:
            for ask in (self.offsets.plan, self.offsets.extents):
                self.assertRaises(TypeError, ask, run)

    def test_a_buffer_is_free_again(self):
        run = bytearray(array.array("I", self.run).tobytes())
        with memoryview(run).cast("I") as view:
            self.same(view)
            self.same(view.toreadonly())
        run.append(0)
        self.assertRaises(TypeError, self.offsets.plan, memoryview(run))
        run.append(0)


class Many(unittest.TestCase):
    def test_extents(self):
        chance = random.Random(8)
        for var in (False, True):
            offsets, extents = made(chance, 30, var)
            run = [chance.randrange(33) for _ in range(50)]
            right = [extents[i] if i < 30 else (0, 0) for i in run]
            self.assertEqual(list(offsets.extents(run)), right)
            self.assertEqual(list(offsets.extents(array.array("I", run))), right)
            self.assertEqual(list(offsets.extents([-1, 2**40, 29])), [(0, 0), (0, 0), extents[29]])
            self.assertEqual(list(offsets.extents([])), [])

    def test_cells(self):
        known = rules.Description(["int32"], 1, 32)
        foot = pieces.Footer(known, [(0, 24)], tiles=3, last_cells=5)
        footer = tb.read_footer(tb.Description(["int32"], 1, 32), foot.file_size, foot.data())
        self.assertEqual([footer.cells(i) for i in (0, 1, 2, 3, -1)], [32, 32, 5, 0, 0])
        self.assertEqual(footer.cells([2, 0, 1, 3, 2, -1, 2**40]).tolist(), [5, 32, 32, 0, 5, 0, 0])
        self.assertEqual(footer.cells(array.array("q", [2, 2])), array.array("Q", [5, 5]))
        self.assertEqual(footer.cells(range(3)).tolist(), [32, 32, 5])
        self.assertEqual(footer.cells([]).tolist(), [])
        for bad in (1.5, "1", b"\1\0\0\0", None, [1.5]):
            self.assertRaises(TypeError, footer.cells, bad)


class Ranges(unittest.TestCase):
    def setUp(self):
        self.plan = tb.tile_offsets(4, 40, pieces.entries([0, 10, 20, 30])).plan([0, 2, 3])
        self.ranges = self.plan.ranges

    def test_sequence(self):
        self.assertEqual(list(self.ranges), [(0, 10), (20, 20)])
        self.assertEqual((len(self.ranges), self.ranges[0], self.ranges[-1]), (2, (0, 10), (20, 20)))
        self.assertEqual((self.ranges[1:], self.ranges[::-1]), ([(20, 20)], [(20, 20), (0, 10)]))
        self.assertEqual([(0, 10) in self.ranges, (0, 9) in self.ranges, self.ranges.index((20, 20))], [True, False, 1])
        for at in (2, -3):
            self.assertRaises(IndexError, self.ranges.__getitem__, at)
        self.assertEqual(repr(self.ranges), "Ranges([(0, 10), (20, 20)])")
        self.assertEqual(repr(self.plan), "Plan(ranges=Ranges([(0, 10), (20, 20)]), tiles=3, bytes=30, outside=0)")

    def test_numbers(self):
        numbers = self.ranges.numbers
        self.assertEqual((numbers.format, numbers.tolist(), numbers.readonly), ("Q", [0, 10, 20, 20], True))
        interface = self.ranges.__array_interface__
        self.assertEqual((interface["shape"], interface["typestr"]), ((2, 2), "<u8"))
        self.assertEqual(bytes(interface["data"]), numbers.tobytes())

    def test_equal(self):
        again = copy.deepcopy(self.plan)
        self.assertEqual((again, hash(again)), (self.plan, hash(self.plan)))
        self.assertEqual(pickle.loads(pickle.dumps(self.plan)), self.plan)
        self.assertNotEqual(tb.tile_offsets(4, 41, pieces.entries([0, 10, 20, 30])).plan([0, 2, 3]), self.plan)
        self.assertNotEqual(self.ranges, [(0, 10), (20, 20)])

    def test_nothing_of_the_caller_is_held(self):
        body = bytearray(pieces.entries([0, 10]))
        offsets = tb.tile_offsets(2, 20, body)
        plan, extents = offsets.plan([1]), offsets.extents([1])
        del offsets
        gc.collect()
        body += b"\0"
        self.assertEqual((list(plan.ranges), list(extents)), ([(10, 10)], [(10, 10)]))

    def test_refused(self):
        """The work buffer is made large enough; a library that says else is heard."""

        def short(*given):
            given[-1][0] = rules.Refusal.WORK

        with mock.patch.object(tb._plan, "_c_read_plan_at", short):
            with self.assertRaises(tb.Refused) as caught:
                tb.tile_offsets(1, 5, pieces.entries([0])).plan([0])
        self.assertEqual((caught.exception.number, caught.exception.place), (rules.Refusal.WORK, 0))


if __name__ == "__main__":
    unittest.main()
