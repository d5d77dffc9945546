"""Logs of queries through the Python binding and the command line, against the reference: each kind, each way a line can be bad, every room."""

import array
import itertools
import mmap
import pathlib
import random
import subprocess
import sys
import tempfile
import unittest

root = pathlib.Path(__file__).resolve().parents[2]
sys.path.insert(0, str(root / "tests/reference"))

import pieces
import replay
import rules
import tussockbell as tb

SAMPLE = {name: (root / "tests/fixtures/sample" / name).read_bytes() for name in ("footer", "tree")}
FILE = 1166
ONE = tb.Description(["int32"], fields=1, capacity=32)
KNOWN = rules.Description(["int32"], 1, 32)
LOG = b"12\t21\t2\t6\n5\t9\t0\t5\n30\t40\t1\t1\n4\t4\t1\t6\n\n21\t12\t0\t0\n12\t21\t2\t6"
TEXT = b"0\tsame\t2\t6\t2\t6\n1\tsame\t0\t5\t0\t5\n2\tdiffers\t1\t1\t0\t1\n3\tdiffers\t1\t6\t1\t5\n4\tbad\n5\tbad\n6\tsame\t2\t6\t2\t6\n"
LINE = 113

# What is bad wherever it stands in place of a number.
NO_NUMBERS = [b"", b"+5", b"-0", b"00", b"01", b"-01", b" 5", b"5 ", b"5\r", b"5.0", b"1e3", b"--5", b"0x5", b"\xb2", b"5\x00", b"five"]


def tree_of(kinds, tiles=9, fanout=2):
    """A tree of boxes that follow each other, and its reference description."""
    boxes = [[(pieces.origin(k) + 10 * i, pieces.origin(k) + 10 * i + 4) for k in kinds] for i in range(tiles)]
    leaves = b"".join(pieces.box(kinds, box) for box in boxes)
    return tb.write_tree(tb.Description(kinds, 1, 32), tiles, fanout, leaves), rules.Description(kinds, 1, 32)


class Replay(unittest.TestCase):
    def same(self, kinds, tiles, tree, log, known=None):
        """The text, which is the reference's."""
        known = known or rules.Description(kinds, 1, 32)
        said = tb.replay(tb.Description(kinds, 1, 32), tiles, tree, log)
        self.assertEqual(said, replay.replay(known, tiles, tree, log))
        return said

    def bad(self, *args):
        """Every line is bad."""
        said = self.same(*args)
        self.assertEqual(said, b"".join(b"%d\tbad\n" % i for i in range(said.count(b"\n"))))

    def test_sample(self):
        self.assertEqual(self.same(["int32"], 3, SAMPLE["tree"], LOG), TEXT)
        tree = tb.open_tree(ONE, FILE, SAMPLE["footer"], SAMPLE["tree"])
        self.assertEqual(tree.replay(LOG), TEXT)
        self.assertEqual(tree.replay(LOG + b"\n"), TEXT)

    def test_lines(self):
        for log, lines in [(b"", 0), (b"\n", 1), (b"\n\n", 2), (b"x", 1), (b"x\n", 1), (b"x\n\n", 2), (b"\nx", 2), (b"\r\n", 1)]:
            self.bad(["int32"], 3, SAMPLE["tree"], log)
            self.assertEqual(tb.replay(ONE, 3, SAMPLE["tree"], log).count(b"\n"), lines)

    def test_each_kind(self):
        for kinds in itertools.chain.from_iterable(itertools.product(replay.ENDS, repeat=d) for d in range(1, 4)):
            tree, known = tree_of(kinds)
            window = [(pieces.origin(k) + 12, pieces.origin(k) + 44) for k in kinds]
            found, looked = rules.query(known, 9, tree, kinds, window)
            line = tb.log_line(window, tb.Hit(found, len(found), looked))
            self.assertEqual(self.same(kinds, 9, tree, line).split(b"\t")[1], b"same")
            self.assertEqual(self.same(kinds, 9, tree, line.replace(b"\t%d\n" % looked, b"\t%d\n" % (looked + 1))).split(b"\t")[1], b"differs")

    def test_ends_of_the_kinds(self):
        for kind, (least, most) in replay.ENDS.items():
            tree, _ = tree_of([kind])
            for low, high, good in [
                (least, most, True), (least, least, True), (most, most, True),
                (least - 1, most, False), (least, most + 1, False), (most + 1, most + 1, False), (least - 1, least - 1, False),
            ]:
                said = self.same([kind], 9, tree, b"%d\t%d\t0\t0\n" % (low, high))
                self.assertEqual(said != b"0\tbad\n", good, msg=(kind, low, high))
        tree, _ = tree_of(["uint64"])
        self.bad(["uint64"], 9, tree, b"-1\t5\t0\t0\n0\t-5\t0\t0\n-0\t5\t0\t0\n")

    def test_found_and_looked_are_u64(self):
        for number, good in [(0, True), (2**64 - 1, True), (2**64, False), (10**30, False), (-1, False)]:
            for line in (b"12\t21\t%d\t6\n" % number, b"12\t21\t2\t%d\n" % number):
                self.assertEqual(self.same(["int32"], 3, SAMPLE["tree"], line).split(b"\t")[1][:3] != b"bad", good)

    def test_every_bad_number_everywhere(self):
        for kinds in (["int32"], ["int64", "uint64"]):
            tree, _ = tree_of(kinds)
            good = [b"1", b"5"] * len(kinds) + [b"0", b"1"]
            self.assertNotIn(b"bad", self.same(kinds, 9, tree, b"\t".join(good)))
            for place, wrong in itertools.product(range(len(good)), NO_NUMBERS):
                self.bad(kinds, 9, tree, b"\t".join([*good[:place], wrong, *good[place + 1 :]]) + b"\n")

    def test_another_number_of_numbers(self):
        for kinds in (["int32"], ["int32"] * 2, ["int64"] * 4):
            tree, _ = tree_of(kinds)
            for count in range(14):
                log = b"\t".join([b"7"] * count)
                if count == 2 * len(kinds) + 2:
                    self.assertNotIn(b"bad", self.same(kinds, 9, tree, log))
                else:
                    self.bad(kinds, 9, tree, log)
            self.bad(kinds, 9, tree, b"\t".join([b"7"] * (2 * len(kinds) + 2)) + b"\t\n")

    def test_reversed_windows(self):
        self.bad(["int32"], 3, SAMPLE["tree"], b"21\t12\t2\t6\n")
        tree, _ = tree_of(["int32", "int64"])
        self.bad(["int32", "int64"], 9, tree, b"1\t5\t5\t1\t0\t1\n5\t1\t1\t5\t0\t1\n")

    def test_long_lines(self):
        """No line of numbers has more than 210 bytes, so that 255 and 256 are both bad, and the longest is not."""
        for length in (210, 211, 254, 255, 256, 1000):
            self.bad(["int32"], 3, SAMPLE["tree"], b"1" * length)
            self.bad(["int32"], 3, SAMPLE["tree"], b"1\t5\t0\t" + b"0" * (length - 6) + b"\n" + b"\t" * length)
        kinds = ["int64"] * 4
        tree, _ = tree_of(kinds)
        longest = b"\t".join([b"%d" % -(2**63)] * 8 + [b"%d" % (2**64 - 1)] * 2)
        self.assertEqual(len(longest), 209)
        self.assertIn(b"differs", self.same(kinds, 9, tree, longest))

    def test_a_float_dimension(self):
        for kinds in (["float64"], ["int32", "float64"]):
            tree, _ = tree_of(kinds)
            self.bad(kinds, 9, tree, b"\t".join([b"1"] * (2 * len(kinds)) + [b"0", b"1"]) + b"\n" + LOG)

    def test_a_refused_tree(self):
        for tree in (b"", SAMPLE["tree"][:-1], SAMPLE["tree"] + b"\0", b"\1" + SAMPLE["tree"][1:]):
            self.bad(["int32"], 3, tree, LOG)
        for tiles in (0, 2, 4, 2**64 - 1):
            self.bad(["int32"], tiles, SAMPLE["tree"], LOG)
        lines = b"".join(b"%d\tbad\n" % i for i in range(7))
        for description in (tb.Description([], 1, 32), tb.Description(["int32"] * 5, 1, 32), tb.Description(["int8"], 1, 32),
                            tb.Description(["int32"], 0, 32), tb.Description(["int32"], 1, 0)):
            self.assertEqual(tb.replay(description, 3, SAMPLE["tree"], LOG), lines)
        self.assertEqual(tb.replay(ONE, -1, SAMPLE["tree"], LOG), lines)

    def test_every_room(self):
        for room in range(len(TEXT) + 3):
            out = bytearray(b"\xa5" * room)
            if room < len(TEXT):
                with self.assertRaises(tb.Refused) as raised:
                    tb.replay_into(ONE, 3, SAMPLE["tree"], LOG, out)
                self.assertEqual(raised.exception, tb.Refused(26, 0))
                self.assertEqual(out, b"\xa5" * room)
            else:
                self.assertEqual(tb.replay_into(ONE, 3, SAMPLE["tree"], LOG, out), len(TEXT))
                self.assertEqual(out, TEXT + b"\xa5" * (room - len(TEXT)))
        out = bytearray(b"\xa5" * 7 * LINE)
        self.assertEqual(tb.replay_into(ONE, 3, SAMPLE["tree"], LOG, out), len(TEXT))
        self.assertEqual(out, TEXT.ljust(7 * LINE, b"\xa5"))
        self.assertEqual(tb.replay_into(ONE, 3, SAMPLE["tree"], b"", bytearray()), 0)

    def test_the_buffer_to_write_to(self):
        for out in (TEXT, memoryview(bytearray(2000))[::2]):
            with self.assertRaises(TypeError):
                tb.replay_into(ONE, 3, SAMPLE["tree"], LOG, out)
        shared = bytearray(SAMPLE["tree"] + LOG + bytes(200))
        view = memoryview(shared)
        tree, log = view[:80], view[80 : 80 + len(LOG)]
        for out in (view[79:], view[80 + len(LOG) - 1 :], view):
            with self.assertRaises(ValueError):
                tb.replay_into(ONE, 3, tree, log, out)
        self.assertEqual(tb.replay_into(ONE, 3, tree, log, view[80 + len(LOG) :]), len(TEXT))
        self.assertEqual(shared[80 + len(LOG) :][: len(TEXT)], TEXT)

    def test_logs_are_lent(self):
        every_other = bytearray(2 * len(LOG))
        every_other[::2] = LOG
        with mmap.mmap(-1, len(LOG)) as mapped:
            mapped[:] = LOG
            for log in (bytearray(LOG), memoryview(LOG), memoryview(every_other)[::2], array.array("b", LOG), mapped):
                self.assertEqual(tb.replay(ONE, 3, SAMPLE["tree"], log), TEXT)
        for log in ("12\t21\t2\t6\n", None, 5):
            with self.assertRaises(TypeError):
                tb.replay(ONE, 3, SAMPLE["tree"], log)

    def test_many_lines(self):
        """More bytes than newlines are counted in at once."""
        log = b"12\t21\t2\t6\n" * 200_000
        said = tb.replay(ONE, 3, SAMPLE["tree"], log)
        self.assertEqual(said.count(b"\tsame\t"), 200_000)
        self.assertTrue(said.endswith(b"199999\tsame\t2\t6\t2\t6\n"))

    def test_random_logs(self):
        chance = random.Random(20261117)
        seen = set()
        for _ in range(1500):
            kinds = chance.choices(list(replay.ENDS), k=chance.randint(1, 4))
            tree, known = tree_of(kinds, chance.randint(1, 20), chance.choice([2, 3, 10]))
            tiles = chance.randint(1, 20) if chance.random() < 0.02 else len_of(tree, known)
            log = []
            for _ in range(chance.randint(0, 8)):
                ends = []
                for kind in kinds:
                    low = pieces.origin(kind) + chance.randint(-20, 150)
                    ends += [low, low + chance.choice([0, 3, 40, 200, -1])]
                hit = replay.answer(known, tiles, tree, list(zip(ends[::2], ends[1::2]))) or (0, 1)
                numbers = [*ends, hit[0] + (chance.random() < 0.1), hit[1] + (chance.random() < 0.1)]
                line = bytearray("\t".join(map(str, numbers)).encode())
                if chance.random() < 0.15:
                    line[chance.randrange(len(line))] = chance.choice(b"0-\t\r 9/:\x00")
                log.append(bytes(line))
            text = b"\n".join(log) + (b"\n" if chance.random() < 0.7 else b"")
            seen |= set(self.same(kinds, tiles, tree, text, known).replace(b"\n", b"\t").split(b"\t"))
        self.assertLessEqual({b"same", b"differs", b"bad"}, seen)


def len_of(tree, known):
    """The tiles of a tree that was written: the count of its last level."""
    fanout, at, levels = int.from_bytes(tree[:4], "little"), 8, int.from_bytes(tree[4:8], "little")
    for _ in range(levels):
        count = int.from_bytes(tree[at : at + 8], "little")
        at += 8 + known.box_bytes() * count
    assert at == len(tree) and fanout > 1
    return count


class LogLine(unittest.TestCase):
    def test_lines(self):
        hit = tb.Hit([1, 2], 2, 6)
        self.assertEqual(tb.log_line([(12, 21)], hit), b"12\t21\t2\t6\n")
        self.assertEqual(tb.log_line(((-5, 0), (2**63, 2**64 - 1)), hit), b"-5\t0\t9223372036854775808\t18446744073709551615\t2\t6\n")
        self.assertEqual(tb.log_line(iter([(True, 3)]), hit), b"1\t3\t2\t6\n")
        self.assertEqual(tb.log_line(tb.Window(["int32", "uint64"], [(-1, 1), (0, 2**64 - 1)]), hit), b"-1\t1\t0\t18446744073709551615\t2\t6\n")

    def test_what_cannot_be_logged(self):
        hit = tb.Hit([], 0, 1)
        for window in ([(1.0, 2)], [(1, 2), (3, 4.5)], [(b"\1\0\0\0", 2)], [("1", 2)], [5], tb.Window(["float64"], [(1, 2)]),
                       tb.Window(["int32", "float32"], [(1, 2), (1, 2)]), tb.Window(["int32"], [(1.5, 2)])):
            with self.assertRaises(TypeError):
                tb.log_line(window, hit)
        for other in (tb.Refused(9, 0), None, (0, 1), ([], 0, 1)):
            with self.assertRaises(TypeError):
                tb.log_line([(1, 2)], other)

    def test_a_nights_log(self):
        """What is logged of one tree is the same when it is replayed, and of another tree it may differ."""
        kinds = ["int32", "int64", "uint64"]
        tree, _ = tree_of(kinds, 20, 3)
        d = tb.Description(kinds, 1, 32)
        windows = [[(pieces.origin(k) + 7 * i, pieces.origin(k) + 9 * i + 5) for k in kinds] for i in range(40)]
        log = b"".join(tb.log_line(window, hit) for window, hit in zip(windows, tb.query_batch(d, 20, tree, windows)))
        said = tb.replay(d, 20, tree, log).splitlines()
        self.assertEqual([line.split(b"\t")[:2] for line in said], [[b"%d" % i, b"same"] for i in range(40)])
        other, _ = tree_of(kinds, 20, 10)
        words = {line.split(b"\t")[1] for line in tb.replay(d, 20, other, log).splitlines()}
        self.assertIn(b"differs", words)
        self.assertNotIn(b"bad", words)


class Command(unittest.TestCase):
    def setUp(self):
        folder = tempfile.TemporaryDirectory()
        self.addCleanup(folder.cleanup)
        self.folder = pathlib.Path(folder.name)
        self.files = [root / "tests/fixtures/sample" / name for name in ("footer", "tree")]

    def run_on(self, log, *more, kinds="int32", files=None):
        path = self.folder / "log"
        path.write_bytes(log)
        options = ["--kinds", kinds, "--fields", "1", "--capacity", "32", "--file-size", "1166", *more]
        words = [sys.executable, "-W", "error", "-m", "tussockbell", "replay", *options, *map(str, files or self.files), str(path)]
        done = subprocess.run(words, capture_output=True)
        return done.returncode, done.stdout, done.stderr

    def test_text_and_status(self):
        self.assertEqual(self.run_on(LOG), (1, TEXT, b""))
        self.assertEqual(self.run_on(b"12\t21\t2\t6\n5\t9\t0\t5\n"), (0, TEXT[: TEXT.index(b"2\tdiffers")], b""))
        self.assertEqual(self.run_on(b""), (0, b"", b""))
        self.assertEqual(self.run_on(b"\n"), (1, b"0\tbad\n", b""))

    def test_quiet(self):
        others = b"".join(line for line in TEXT.splitlines(keepends=True) if b"same" not in line)
        self.assertEqual(self.run_on(LOG, "--quiet"), (1, others, b""))
        self.assertEqual(self.run_on(b"12\t21\t2\t6\n", "--quiet"), (0, b"", b""))

    def test_a_refused_tree(self):
        """As `query` tells it, before any line."""
        cut = self.folder / "tree"
        cut.write_bytes(SAMPLE["tree"][:-1])
        status, said, failed = self.run_on(LOG, files=[self.files[0], cut])
        self.assertEqual((status, said), (1, b""))
        lengths = b"(80 bytes expected, 79 given)"
        self.assertEqual(failed, b"tussockbell: refused 2 at 79 of the tree: byte count or length field wrong " + lengths + b"\n")
        status, said, failed = self.run_on(LOG, kinds="int8")
        none = b"('int8', of dimension 0, is no kind)"
        self.assertEqual((status, said), (1, b""))
        self.assertEqual(failed, b"tussockbell: refused 1 at 0: description outside the limits " + none + b"\n")

    def test_files_and_words(self):
        status, said, failed = self.run_on(LOG, files=[self.files[0], self.folder / "none"])
        self.assertEqual((status, said), (2, b""))
        self.assertIn(b"none", failed)
        status, said, failed = self.run_on(LOG, "--window", "1:2")
        self.assertEqual((status, said), (2, b""))


if __name__ == "__main__":
    unittest.main()
