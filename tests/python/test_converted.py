"""Fragments from before float32 was retired: refused by every reader and writer, and converted, against the reference."""

import ctypes
import decimal
import itertools
import math
import mmap
import pathlib
import random
import resource
import struct
import subprocess
import sys
import tempfile
import unittest

root = pathlib.Path(__file__).resolve().parents[2]
sys.path.insert(0, str(root / "tests/reference"))

import converter
import pieces
import rules
import tussockbell as tb

MOST = 2**64 - 1
OLD, NEW = root / "tests/fixtures/float32/old", root / "tests/fixtures/float32"
# Zeros, the least and the greatest subnormal and normal numbers of float32, of either sign.
EDGES = [struct.unpack("<f", struct.pack("<I", bits | sign))[0] for bits in (0, 1, 0x7FFFFF, 0x800000, 0x7F7FFFFF) for sign in (0, 2**31)]


def outcome(ask, *arguments, **named):
    """What is answered, or the refusal's numbers."""
    try:
        return ask(*arguments, **named)
    except (tb.Refused, rules.Refused) as refusal:
        return "refused", refusal.number, refusal.place, refusal.which


def fixture(folder):
    """Description, file size, footer and tree."""
    kinds, fields, capacity, file_size, _ = (folder / "about").read_text().splitlines()
    description = tb.Description(kinds.split(), int(fields), int(capacity))
    return description, int(file_size), (folder / "footer").read_bytes(), (folder / "tree").read_bytes()


def single(number):
    """The nearest float32."""
    return ctypes.c_float(number).value


class Fragment:
    """An old fragment, of some float32 dimensions, for the binding and for the reference."""

    def __init__(self, chance):
        kinds = [chance.choice(list(rules.KINDS)) for _ in range(chance.randrange(1, 5))]
        if chance.random() < 0.8:
            kinds[chance.randrange(len(kinds))] = "float32"
        self.known = rules.Description(kinds, chance.randrange(1, 4), 100)
        self.given = tb.Description(kinds, self.known.fields, 100)
        self.kinds, self.n, self.fanout, self.chance = kinds, chance.randrange(1, 30), chance.randrange(2, 7), chance
        self.boxes = [[self.side(kind) for kind in kinds] for _ in range(self.n)]
        self.tree = pieces.tree(kinds, self.boxes, self.fanout)
        footer = pieces.Footer(self.known, pieces.around(self.boxes), tiles=self.n, last_cells=chance.randrange(1, 101))
        self.footer, self.file_size = footer.data(), footer.file_size

    def side(self, kind):
        low = pieces.origin(kind) + self.chance.randrange(-300, 300)
        high = low + self.chance.randrange(40)
        if rules.KINDS[kind].whole:
            return low, high
        ends = [low / 10, high / 10] if self.chance.random() < 0.9 else self.chance.choices(EDGES, k=2)
        return tuple(sorted(single(end) if kind == "float32" else end for end in ends))

    def window(self):
        """A window of plain numbers, near a box, its ends not rounded yet; and the numbers that an old query asked with."""
        near = self.chance.choice(self.boxes)
        window = []
        for kind, (low, high) in zip(self.kinds, near):
            step = self.chance.choice([0, 0, 1, 10])
            if kind == "float32" and self.chance.random() < 0.7:
                # up to the number that an end was rounded from, or from there on
                low, high = (float(f"{end:.6g}") for end in (low, high))
                low, high = self.chance.choice([(low - 5, low), (high, high + 5), (low, high)])
            window.append((low - step, high + step) if self.chance.random() < 0.9 else (high + 1, high + 2))
        return window, [tuple(map(single, pair)) if kind == "float32" else pair for kind, pair in zip(self.kinds, window)]

    def damaged(self, data):
        changed = bytearray(data)
        for _ in range(self.chance.randrange(1, 3)):
            changed[self.chance.randrange(len(data))] = self.chance.choice((0, 1, 2, 127, 128, 192, 255))
        return bytes(changed[: self.chance.choice([len(data)] * 4 + [self.chance.randrange(len(data))])])


class Retired(unittest.TestCase):
    def readers(self, given):
        footer, tree, lists = bytes(300), bytes(100), pieces.entries([0])
        width = sum(rules.KINDS[kind].range_bytes for kind in given.kinds)
        yield lambda: tb.read_footer(given, 10_000, footer)
        yield lambda: tb.open_tree(given, 10_000, footer, tree)
        yield lambda: tb.TreeParts(given, 10_000, footer, 0).finish()
        for tiles in (0, 3):
            yield lambda: tb.query(given, tiles, tree, [])
            yield lambda: tb.query(given, tiles, tree, [(2, 1)] * len(given.kinds))
        yield lambda: tb.box_test(given, b"", [])
        yield lambda: tb.tree_length(given, 0, 0)
        yield lambda: tb.write_tree(given, 0, 0, b"")
        yield lambda: tb.write_tree_into(given, 1, 2, bytes(width), bytearray(9))
        yield lambda: tb.null_counts(given, 10_000, footer, lists)

    def test_every_reader_and_writer(self):
        for kinds, place in ((["float32"], 0), (["float64", "float32"], 1), (["int32", "uint64", "float32", "float32"], 2)):
            given = tb.Description(kinds, 1, 100)
            for ask in self.readers(given):
                self.assertEqual(outcome(ask), ("refused", 28, place, 0), msg=kinds)
            outside = tb.Description(given.kinds, 0, 100)
            for ask in self.readers(outside):
                self.assertEqual(outcome(ask), ("refused", 1, 0, 0), msg=kinds)

    def test_windows_of_a_batch(self):
        """22 comes first, and then each window has its own 28, however it is asked."""
        given = tb.Description(["int32", "float32"], 1, 100)
        windows = [[(0, 1), (0.5, 1)], [(0, 1)], [(1, 0), (0, 1)], tb.Window(["float64"], [(0, 1)])]
        self.assertEqual(tb.query_batch(given, 3, b"", windows), [tb.Refused(28, 1)] * 4)
        self.assertEqual(tb.query_batch(given, 3, b"", bytes(32)), [tb.Refused(28, 1)] * 2)
        self.assertEqual(outcome(tb.query_batch, given, 3, b"", bytes(33)), ("refused", 22, 0, 0))

    def test_logs_are_bad(self):
        given = tb.Description(["int32", "float32"], 1, 100)
        self.assertEqual(tb.replay(given, 3, b"", b"1\t2\t3\t4\t0\t0\nx"), b"0\tbad\n1\tbad\n")

    def test_mins_and_maxes_stay(self):
        body = pieces.u64(2) + struct.pack("<2f", 0.5, -1.5) + pieces.u64(0)
        self.assertEqual(list(tb.tile_values("float32", 2, body)), [0.5, -1.5])


class Converted(unittest.TestCase):
    def test_the_old_fixture_becomes_the_new_one(self):
        (old, size, footer, tree), (new, new_size, new_footer, new_tree) = fixture(OLD), fixture(NEW)
        self.assertEqual(tb.convert_tree(old, size, footer, tree), new_tree)
        self.assertEqual(tb.convert_footer(old, size, footer), (new_footer, new_size))
        self.assertEqual(old.widened(), new)
        opened = tb.open_tree(new, new_size, new_footer, new_tree)
        for line in (OLD / "answers").read_text().splitlines():
            ends, tiles, looked, _ = line.split("\t")
            ends, tiles = [float(end) for end in ends.split()], [int(tile) for tile in tiles.split()]
            self.assertEqual(opened.query(old.widen(zip(ends[::2], ends[1::2]))), tb.Hit(tiles, len(tiles), int(looked)))

    def same_tree(self, f, file_size, footer, tree):
        """The tree, or the refusal, is the reference's, in buffers with room to spare, with just enough and with too little."""
        right = outcome(converter.convert, f.known, file_size, footer, tree, MOST)
        self.assertEqual(outcome(tb.convert_tree, f.given, file_size, footer, tree), right)
        length = len(right) if isinstance(right, bytes) else 50
        for room in (0, length - 1, length, length + 9):
            out = bytearray(b"\xa5" * room)
            expected = outcome(converter.convert, f.known, file_size, footer, tree, room)
            body = expected if isinstance(expected, bytes) else b""
            self.assertEqual(outcome(tb.convert_tree_into, f.given, file_size, footer, tree, out), len(body) if body else expected)
            self.assertEqual(out, body + b"\xa5" * (room - len(body)))
        return right

    def same_footer(self, f, file_size, footer):
        right = outcome(converter.convert_footer, f.known, file_size, footer, MOST)
        said = outcome(tb.convert_footer, f.given, file_size, footer)
        expected = (right, file_size + converter.added(f.known)) if isinstance(right, bytes) else right
        self.assertEqual(said, expected)

    def test_generated(self):
        chance, refusals, asked, rounded = random.Random(13), set(), 0, 0
        for _ in range(200):
            f = Fragment(chance)
            new_tree = self.same_tree(f, f.file_size, f.footer, f.tree)
            self.same_footer(f, f.file_size, f.footer)
            made = tb.convert_footer(f.given, f.file_size, f.footer)
            opened = tb.open_tree(f.given.widened(), made.file_size, made.footer, new_tree)
            for _ in range(6):
                window, numbers = f.window()
                right = outcome(rules.query, converter.Old.of(f.known), f.n, f.tree, f.kinds, numbers)
                if right[0] == "refused":
                    continue
                self.assertEqual(opened.query(f.given.widen(window)), tb.Hit(right[0], len(right[0]), right[1]))
                self.assertEqual(opened.query(f.given.widen(tb.Window(f.kinds, window))), tb.Hit(right[0], len(right[0]), right[1]))
                asked, rounded = asked + 1, rounded + (outcome(opened.query, window) != opened.query(f.given.widen(window)))
            for _ in range(3):
                footer, tree = chance.choice([(f.damaged(f.footer), f.tree), (f.footer, f.damaged(f.tree))])
                refused = self.same_tree(f, f.file_size, footer, tree)
                refusals.add((0, 0) if isinstance(refused, bytes) else refused[1::2])
                self.same_footer(f, f.file_size, footer)
        self.assertLessEqual({(0, 0), (2, 0), (2, 1), (14, 1), (15, 1)}, refusals)
        self.assertGreater(asked, 1000)
        # Windows that find other tiles, or look at other boxes, where nobody rounds them.
        self.assertGreater(rounded, 20)

    def test_edges_of_float32(self):
        given = tb.Description(["float32"], 1, 100)
        for ends in [*itertools.combinations_with_replacement(sorted(EDGES), 2), (0.0, -0.0), (-0.0, 0.0)]:
            tree = pieces.tree(["float32"], [[ends]], 2)
            footer = pieces.Footer(rules.Description(["float32"], 1, 100), [ends], tiles=1, last_cells=1)
            written = tb.convert_tree(given, footer.file_size, footer.data(), tree)
            self.assertEqual(written[16:], struct.pack("<2d", *ends))
            self.assertEqual(struct.pack("<2f", *struct.unpack("<2d", written[16:])), tree[16:])
            made = tb.convert_footer(given, footer.file_size, footer.data())
            self.assertEqual(repr(tb.read_footer(given.widened(), made.file_size, made.footer).domain), repr((ends,)))

    def test_without_float32_it_is_a_copy(self):
        folder = root / "tests/fixtures/mixed"
        given, size, footer, tree = fixture(folder)
        self.assertEqual(tb.convert_tree(given, size, footer, tree), tree)
        self.assertEqual(tb.convert_footer(given, size, footer), (footer, size))
        self.assertEqual(given.widened(), given)
        self.assertEqual(tb.convert_footer(given, MOST, footer), (footer, MOST))

    def test_file_sizes(self):
        old, _, footer, _ = fixture(OLD)
        self.assertEqual(tb.convert_footer(old, MOST - 8, footer).file_size, MOST)
        for size in (MOST - 7, MOST, 2**70):
            with self.assertRaises(ValueError) as caught:
                tb.convert_footer(old, size, footer)
            self.assertIn("past 2^64 - 1", str(caught.exception))
            self.assertNotIsInstance(caught.exception, tb.Refused)
        # a refusal comes before that
        self.assertEqual(outcome(tb.convert_footer, old, MOST, footer[:-1]), ("refused", 2, len(footer) - 1, 0))
        # with the old size the new footer may be refused
        new = old.widened()
        self.assertEqual(outcome(tb.read_footer, new, len(footer), tb.convert_footer(old, 10_000, footer).footer)[1], 2)

    def test_buffers(self):
        old, size, footer, tree = fixture(OLD)
        new_tree = fixture(NEW)[3]
        held = bytearray(len(new_tree) + 40)
        self.assertEqual(tb.convert_tree_into(old, size, memoryview(footer), bytearray(tree), memoryview(held)[10:]), len(new_tree))
        self.assertEqual(held, bytes(10) + new_tree + bytes(30))
        with mmap.mmap(-1, 4096) as mapped:
            self.assertEqual(tb.convert_tree_into(old, size, footer, tree, mapped), len(new_tree))
            self.assertEqual(mapped[: len(new_tree) + 1], new_tree + b"\0")
        for out in (bytes(999), memoryview(bytearray(1998))[::2], "text", None):
            self.assertRaises(TypeError, tb.convert_tree_into, old, size, footer, tree, out)
        both = memoryview(bytearray(tree + bytes(999)))
        for start in (0, len(tree) - 1):
            self.assertRaises(ValueError, tb.convert_tree_into, old, size, footer, both[: len(tree)], both[start:])
        self.assertEqual(tb.convert_tree_into(old, size, footer, both[: len(tree)], both[len(tree) :]), len(new_tree))


class Widened(unittest.TestCase):
    def test_the_readme_says_what_rounding_does(self):
        """The box from 0.1 to 0.2 of float32, the window from 0.05 to 0.1: found by the old query, and missed unrounded."""
        old = tb.Description(["float32"], 1, 100)
        box, window = [(single(0.1), single(0.2))], [(0.05, 0.1)]
        known = rules.Description(["float32"], 1, 100)
        tree, footer = pieces.tree(["float32"], [box], 2), pieces.Footer(known, box, tiles=1, last_cells=1)
        asked_before = [tuple(map(single, window[0]))]
        self.assertEqual(rules.query(converter.Old.of(known), 1, tree, ["float32"], asked_before), ([0], 1))
        made = tb.convert_footer(old, footer.file_size, footer.data())
        new = tb.open_tree(old.widened(), made.file_size, made.footer, tb.convert_tree(old, footer.file_size, footer.data(), tree))
        self.assertEqual(new.query(old.widen(window)), tb.Hit([0], 1, 1))
        self.assertEqual(new.query(window), tb.Hit([], 0, 1))
        readme = " ".join((root / "README.md").read_text().split())
        self.assertIn("window from 0.05 to 0.1", readme)

    def test_descriptions(self):
        class DType:
            name = "float32"

        for kind in ("float32", 2, DType(), type("float32", (), {})):
            given = tb.Description(["int32", kind, "float64"], 3, 7)
            self.assertEqual(given.widened(), tb.Description(["int32", "float64", "float64"], 3, 7))
        # one that is refused stays one that is refused
        for bad in (tb.Description([], 1, 1), tb.Description(["no kind"], 1, 1), tb.Description(["float32"] * 5, -1, 2**70)):
            self.assertEqual(outcome(tb.tree_length, bad.widened(), 1, 2), ("refused", 1, 0, 0))

    def sides(self, window):
        return window._kinds, window._ends

    def test_windows(self):
        old = tb.Description(["float32", "int32"], 1, 100)
        whole = struct.pack("<2i", 3, 4)
        for low, high in ((0.1, 0.2), (0.1, 7), (decimal.Decimal("0.1"), True), (-math.inf, math.inf), (1e300, -1e300), (16777217, 2**70)):
            ends = struct.pack("<2d", single(float(low)), single(float(high))) + whole
            for window in ([(low, high), (3, 4)], iter([(low, high), (3, 4)]), tb.Window(["float32", "int32"], [(low, high), (3, 4)])):
                self.assertEqual(self.sides(old.widen(window)), (bytes([3, 0]), ends))
        bits = struct.pack("<f", 0.1)
        self.assertEqual(self.sides(old.widen([(bits, bits), (3, 4)]))[1], struct.pack("<2d", single(0.1), single(0.1)) + whole)
        # a window of other kinds is widened by its own, and is refused, or not, as it then is
        other = tb.Window(["float64", "float32"], [(0.1, 0.2), (0.1, 0.2)])
        self.assertEqual(self.sides(old.widen(other)), (bytes([3, 3]), struct.pack("<4d", 0.1, 0.2, single(0.1), single(0.2))))

    def test_refused_windows_stay_refused(self):
        old = tb.Description(["float32", "int32"], 1, 100)
        new, tree = old.widened(), pieces.tree(["float64", "int32"], [[(0.0, 1.0), (0, 1)]], 2)
        for window, number, place in (
            ([(0.0, 1.0)], 19, 0), ([(0.0, 1.0)] * 3, 19, 0), ([(0.0, 1.0), (0.5, 1)], 19, 1), ([(0.0, b"12345678"), (0, 1)], 19, 0),
            ([(math.nan, 1.0), (0, 1)], 8, 0), ([(1.0, 0.5), (0, 1)], 9, 0), ([(0.0, 1.0), (1, 0)], 9, 1), ([5, (0, 1)], 19, 0),
        ):
            self.assertEqual(outcome(tb.query, new, 1, tree, old.widen(window)), ("refused", number, place, 0), msg=window)
        self.assertRaises(TypeError, old.widen, [("1", "2"), (0, 1)])
        self.assertRaises(TypeError, old.widen, None)


class Command(unittest.TestCase):
    def setUp(self):
        folder = tempfile.TemporaryDirectory()
        self.addCleanup(folder.cleanup)
        self.folder = pathlib.Path(folder.name)
        self.outputs = [self.folder / "footer", self.folder / "tree"]

    def convert(self, *files, kinds="float32", size=1169, outputs=None, **more):
        words = ["convert", "--kinds", kinds, "--fields", 1, "--capacity", 100, "--file-size", size]
        out_footer, out_tree = outputs or self.outputs
        words += ["--out-footer", out_footer, "--out-tree", out_tree, *(files or (OLD / "footer", OLD / "tree"))]
        command = [sys.executable, "-W", "error", "-m", "tussockbell", *map(str, words)]
        done = subprocess.run(command, capture_output=True, text=True, **more)
        return done.returncode, done.stdout, done.stderr

    def nothing_written(self, status, part, said):
        self.assertEqual(said[:2], (status, ""))
        self.assertIn(part, said[2])
        self.assertEqual(said[2].count("\n"), 1)
        self.assertEqual(sorted(self.folder.iterdir()), [])

    def test_converts(self):
        for _ in range(2):  # what was there is replaced
            self.assertEqual(self.convert(), (0, "kinds\tfloat64\tfile-size\t1177\n", ""))
            self.assertEqual([path.read_bytes() for path in self.outputs], [(NEW / name).read_bytes() for name in ("footer", "tree")])
            self.assertEqual(sorted(self.folder.iterdir()), sorted(self.outputs))

    def test_in_place(self):
        for path in self.outputs:
            path.write_bytes((OLD / path.name).read_bytes())
        self.assertEqual(self.convert(*self.outputs)[0], 0)
        self.assertEqual([path.read_bytes() for path in self.outputs], [(NEW / name).read_bytes() for name in ("footer", "tree")])

    def test_a_link_stays_one(self):
        aim = self.folder / "aim"
        self.outputs[1].symlink_to(aim)
        self.assertEqual(self.convert()[0], 0)
        self.assertTrue(self.outputs[1].is_symlink())
        self.assertEqual(aim.read_bytes(), (NEW / "tree").read_bytes())

    def test_refusals_write_nothing(self):
        self.nothing_written(1, "refused 3 at 0", self.convert(OLD / "tree", OLD / "footer"))
        self.nothing_written(1, "refused 14 at 4 of the tree", self.convert(OLD / "footer", OLD / "footer"))
        self.nothing_written(1, "refused 1 at 0", self.convert(kinds="float33"))

    def test_failures_write_nothing(self):
        self.nothing_written(2, "past 2^64 - 1", self.convert(size=MOST))
        self.nothing_written(2, "No such file", self.convert(outputs=(self.folder / "footer", self.folder / "none/tree")))
        self.nothing_written(2, "No such file", self.convert(self.folder / "none", OLD / "tree"))
        self.nothing_written(2, "one name", self.convert(outputs=(self.folder / "both", self.folder / "." / "both")))
        self.nothing_written(2, "no regular file", self.convert(outputs=(self.folder / "footer", "/dev/null")))
        self.assertTrue(pathlib.Path("/dev/null").is_char_device())

    def test_a_full_disk_leaves_no_half_file(self):
        def little_room():
            resource.setrlimit(resource.RLIMIT_FSIZE, (200, 200))

        self.assertGreater((NEW / "tree").stat().st_size, 200)
        self.nothing_written(2, "tree: File too large", self.convert(preexec_fn=little_room))
        for path in self.outputs:
            path.write_bytes(b"before")
        self.assertEqual(self.convert(preexec_fn=little_room)[0], 2)
        self.assertEqual([path.read_bytes() for path in sorted(self.folder.iterdir())], [b"before"] * 2)


if __name__ == "__main__":
    unittest.main()
