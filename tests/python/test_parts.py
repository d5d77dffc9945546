"""Trees in parts through the Python binding, against the reference: every cut, lengths and work buffers around the right ones."""

import ctypes
import mmap
import pathlib
import random
import sys
import threading
import unittest
from unittest import mock

root = pathlib.Path(__file__).resolve().parents[2]
sys.path.insert(0, str(root / "tests/reference"))

import pieces
import rules
import tussockbell as tb

SAMPLE = {name: (root / "tests/fixtures/sample" / name).read_bytes() for name in ("footer", "tree")}
FILE = 1166
ONE = tb.Description(["int32"], fields=1, capacity=32)
KNOWN = rules.Description(["int32"], 1, 32)
NEEDED = 24


def said(description, file_size, footer, stated, blocks, work=None):
    parts = tb.TreeParts(description, file_size, footer, stated, work)
    for block in blocks:
        parts.write(block)
    try:
        return parts.finish()
    except tb.Refused as refused:
        return refused.args


def right(known, file_size, footer, stated, room, got):
    try:
        return tb.Opened(**rules.open_parts(known, file_size, footer, stated, room, got))
    except rules.Refused as refused:
        return refused.number, refused.place, refused.which


class Sample(unittest.TestCase):
    def same(self, blocks, stated=80, room=None):
        work = None if room is None else bytearray(b"\xa5" * room)
        answer = said(ONE, FILE, SAMPLE["footer"], stated, blocks, work)
        room = 10**6 if room is None else room
        self.assertEqual(answer, right(KNOWN, FILE, SAMPLE["footer"], stated, room, b"".join(blocks)))
        return answer

    def test_every_cut_in_two(self):
        tree = SAMPLE["tree"]
        for cut in range(81):
            self.assertEqual(self.same([tree[:cut], tree[cut:]]), (3, 2, 3))
            self.same([tree[:cut], b"", tree[cut:]], room=NEEDED)

    def test_one_byte_blocks(self):
        tree = SAMPLE["tree"]
        for length in range(81):
            self.same([tree[i : i + 1] for i in range(length)], room=NEEDED)
            self.same([tree[i : i + 1] for i in range(length)])

    def test_every_byte_wrong(self):
        for at in range(80):
            wrong = bytearray(SAMPLE["tree"])
            wrong[at] ^= 0x81
            for cut in (0, 1, at, at + 1, 79):
                self.same([bytes(wrong[:cut]), bytes(wrong[cut:])])
                self.same([bytes(wrong[:cut])])
                self.same([bytes(wrong), b"more"])

    def test_lengths_and_buffers_around_the_right_ones(self):
        tree = SAMPLE["tree"]
        for stated in [*range(12), *range(70, 90), 2**64 - 1]:
            for length in (0, 3, 4, 7, 8, 79, 80):
                self.same([tree[:length]], stated)
        for room in range(NEEDED + 9):
            for length in (0, 3, 4, 7, 8, 15, 16, 80):
                self.same([tree[:5], tree[5:length]] if length > 5 else [tree[:length]], room=room)

    def test_the_rules_own_cases(self):
        tree = SAMPLE["tree"]
        self.assertEqual(self.same([tree[:4]], stated=81), (2, 81, 1))
        self.assertEqual(self.same([tree[:4]], room=NEEDED - 1), (21, 0, 0))
        self.assertEqual(self.same([tree], room=NEEDED - 1), (21, 0, 0))
        self.assertEqual(self.same([tree[:79]]), (2, 79, 1))
        self.assertEqual(self.same([tree + b"x"]), (2, 80, 1))


class Buffers(unittest.TestCase):
    def test_a_work_buffer_is_writable(self):
        with self.assertRaises(TypeError):
            tb.TreeParts(ONE, FILE, SAMPLE["footer"], 80, work=b"x" * 24)

    def test_nothing_is_written_after_the_finish(self):
        parts = tb.TreeParts(ONE, FILE, SAMPLE["footer"], 80)
        parts.write(memoryview(SAMPLE["tree"]))
        self.assertEqual(parts.finish(), parts.finish())
        with self.assertRaises(ValueError):
            parts.write(b"x")

    def test_only_the_inner_boxes_are_kept(self):
        work = bytearray(b"\xa5" * 40)
        self.assertEqual(said(ONE, FILE, SAMPLE["footer"], 80, [SAMPLE["tree"]], work), (3, 2, 3))
        tree = SAMPLE["tree"]
        self.assertEqual(work, tree[16:24] + tree[32:48] + b"\xa5" * 16)

    def test_a_refused_footer_stays(self):
        self.assertEqual(said(ONE, FILE, SAMPLE["footer"][:-1], 80, [SAMPLE["tree"]]), (2, len(SAMPLE["footer"]) - 1, 0))


class Failures(unittest.TestCase):
    """A call that fails drops nothing unseen: every later one says so."""

    def broken(self, parts):
        for _ in range(2):
            for call in (lambda: parts.write(SAMPLE["tree"]), lambda: parts.write(b""), parts.finish):
                with self.assertRaises(RuntimeError) as caught:
                    call()
                self.assertIn("failed", str(caught.exception))

    def test_a_finish_that_was_interrupted(self):
        for whole in (b"", SAMPLE["tree"][:5], SAMPLE["tree"]):
            parts = tb.TreeParts(ONE, FILE, SAMPLE["footer"], 80)
            parts.write(whole)
            with mock.patch.object(tb._parts, "_c_parts_finish", side_effect=KeyboardInterrupt):
                self.assertRaises(KeyboardInterrupt, parts.finish)
            self.broken(parts)

    def test_no_memory_for_the_work_buffer(self):
        for blocks in ([SAMPLE["tree"]], [SAMPLE["tree"][:3], SAMPLE["tree"][3:20]]):
            parts = tb.TreeParts(ONE, FILE, SAMPLE["footer"], 80)
            with mock.patch.object(tb._parts, "_inner_bytes", side_effect=MemoryError):
                for block in blocks[:-1]:
                    parts.write(block)
                self.assertRaises(MemoryError, parts.write, blocks[-1])
            self.broken(parts)
        parts = tb.TreeParts(ONE, FILE, SAMPLE["footer"], 80)
        with mock.patch.object(tb._parts, "_inner_bytes", side_effect=MemoryError):
            self.assertRaises(MemoryError, parts.finish)
        self.broken(parts)

    def test_a_block_that_was_interrupted(self):
        parts = tb.TreeParts(ONE, FILE, SAMPLE["footer"], 80, bytearray(24))
        with mock.patch.object(tb._parts, "_c_parts_block", side_effect=KeyboardInterrupt):
            self.assertRaises(KeyboardInterrupt, parts.write, SAMPLE["tree"][:40])
        self.broken(parts)

    def test_what_is_no_block(self):
        for wrong in (5, "text", None, [1]):
            parts = tb.TreeParts(ONE, FILE, SAMPLE["footer"], 80)
            self.assertRaises(TypeError, parts.write, wrong)
            self.broken(parts)

    def test_a_write_after_the_finish_changes_nothing(self):
        parts = tb.TreeParts(ONE, FILE, SAMPLE["footer"], 80)
        parts.write(SAMPLE["tree"])
        self.assertEqual(parts.finish(), (3, 2, 3))
        self.assertRaises(ValueError, parts.write, b"")
        self.assertEqual(parts.finish(), (3, 2, 3))

    def test_two_threads_at_once(self):
        parts, real = tb.TreeParts(ONE, FILE, SAMPLE["footer"], 80, bytearray(24)), tb._parts._c_parts_block
        threads, said = [], []

        def other():
            try:
                parts.write(SAMPLE["tree"])
            except RuntimeError as error:
                said.append(str(error))

        def block(*arguments):
            if not threads:
                threads.append(threading.Thread(target=other))
                threads[0].start()
                threads[0].join()
            real(*arguments)

        with mock.patch.object(tb._parts, "_c_parts_block", block):
            parts.write(SAMPLE["tree"])
        self.assertEqual((len(said), parts.finish()), (1, (3, 2, 3)))
        self.assertIn("another thread", said[0])
        self.assertIn("for one thread at a time", tb.TreeParts.__doc__)


class Overlaps(unittest.TestCase):
    def overlapping(self, work, block):
        parts, before = tb.TreeParts(ONE, FILE, SAMPLE["footer"], 80, work), bytes(work)
        self.assertRaises(ValueError, parts.write, block)
        self.assertEqual(bytes(work), before)
        self.assertRaises(RuntimeError, parts.finish)

    def test_blocks_and_work_buffers(self):
        with mmap.mmap(-1, 4096) as mapped:
            for memory in (bytearray(300), mapped):
                with memoryview(memory) as whole:
                    work = whole[100:140]
                    whole[:80] = SAMPLE["tree"]
                    for start, end in ((100, 140), (0, 101), (60, 120), (139, 219), (110, 111), (0, 300)):
                        with whole[start:end] as block:
                            self.overlapping(work, block)
                    for start, end in ((20, 100), (140, 220), (100, 100), (120, 120)):
                        with whole[start:end] as block:
                            tb.TreeParts(ONE, FILE, SAMPLE["footer"], 80, work).write(block)
                    parts = tb.TreeParts(ONE, FILE, SAMPLE["footer"], 80, work)
                    with whole[:80] as block:
                        parts.write(block)
                    self.assertEqual(parts.finish(), (3, 2, 3))
                    del parts
                    work.release()

    def test_items_of_any_format(self):
        """A block, or a work buffer, whose items are numbers of C."""
        block = (ctypes.c_uint64 * 10).from_buffer_copy(SAMPLE["tree"])
        for work in (None, (ctypes.c_uint64 * 3)(), ((ctypes.c_uint32 * 2) * 3)()):
            self.assertEqual(said(ONE, FILE, SAMPLE["footer"], 80, [block], work), (3, 2, 3))
        work = (ctypes.c_uint64 * 10).from_buffer_copy(SAMPLE["tree"])
        self.overlapping(work, work)


class Drawn(unittest.TestCase):
    def test_random_trees_and_cuts(self):
        chance = random.Random(20261116)
        for _ in range(1500):
            kinds = [chance.choice(rules.DIMENSION_KINDS) for _ in range(chance.randrange(1, 5))]
            n, f = chance.randrange(1, 40), chance.randrange(2, 9)
            leaves = [[(low, low + chance.randrange(5)) for low in [chance.randrange(50)] for _ in kinds] for _ in range(n)]
            known = rules.Description(kinds, 1, 32)
            foot = pieces.Footer(known, [(0, 60)] * len(kinds), tiles=n)
            body = bytearray(pieces.tree(kinds, leaves, f))
            for _ in range(chance.choice([0, 0, 1, 2])):
                body[chance.randrange(len(body))] = chance.randrange(256)
            got = bytes(body)[: chance.choice([len(body)] * 3 + [chance.randrange(len(body))])] + b"x" * chance.choice([0, 0, 0, 5])
            blocks, at = [], 0
            while at < len(got):
                step = chance.choice([0, 1, 5, 8, 16, 33, 200])
                blocks.append(got[at : at + step])
                at += step
            d = tb.Description(kinds, fields=1, capacity=32)
            stated = len(body) + chance.choice([0, 0, 0, 0, 1, -1])
            self.assertEqual(
                said(d, foot.file_size, foot.data(), stated, blocks), right(known, foot.file_size, foot.data(), stated, 10**6, got)
            )


if __name__ == "__main__":
    unittest.main()
