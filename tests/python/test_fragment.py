"""A fragment through the Python binding: what it is opened from, its plans against the reference, and what becomes of its bytes."""

import array
import copy
import gc
import mmap
import os
import pathlib
import pickle
import random
import subprocess
import sys
import tempfile
import threading
import unittest
from unittest import mock

root = pathlib.Path(__file__).resolve().parents[2]
sys.path.insert(0, str(root / "tests/reference"))

import pieces
import plan as reference
import rules
import tussockbell as tb

KINDS = ["int32", "float64"]


class Pieces:
    """The bytes of a fragment with two fields, of which the second is var and has a validity file, and of its reference."""

    def __init__(self, n=40, seed=1):
        chance = random.Random(seed)
        self.known, self.given, self.n = rules.Description(KINDS, 2, 100), tb.Description(KINDS, 2, 100), n
        self.boxes = []
        for i in range(n):
            low, side = 10 * i + chance.randrange(5), chance.randrange(100) / 4
            self.boxes.append([(low, low + chance.randrange(14)), (side, side + chance.randrange(12) / 2)])
        self.tree = pieces.tree(KINDS, self.boxes, 4)
        self.lists, self.extents, sizes = {}, {}, {}
        for field, least, check in ((0, 1, rules.extents), (1, 1, rules.extents), ((1, "var"), 0, rules.var_extents), ((1, "validity"), 1, rules.extents)):
            lengths = [chance.randrange(least, 9) for _ in range(n)]
            self.lists[field] = pieces.entries([sum(lengths[:i]) for i in range(n)])
            self.extents[field], sizes[field] = check(n, sum(lengths), self.lists[field]), sum(lengths)
        foot = pieces.Footer(self.known, pieces.around(self.boxes), tiles=n, last_cells=17)
        foot.sizes = [[sizes[0], sizes[1]], [3, sizes[(1, "var")]], [4, sizes[(1, "validity")]]]
        self.footer, self.file_size = foot.data(), foot.file_size
        self.windows = [[(low, low + 30), (0.0, 15.0)] for low in (0, 20, 350, 900, 140)]

    def run(self, windows):
        return [tile for window in windows for tile in rules.query(self.known, self.n, self.tree, KINDS, window)[0]]

    def opened(self, **other):
        given = {"file_size": self.file_size, "footer": self.footer, "tree": self.tree, "offsets": self.lists, **other}
        return tb.Fragment(self.given, **given)

    def written(self, folder):
        """Its files, below a folder, and the fragment of these."""
        paths = {field: pathlib.Path(folder, f"offsets{i}") for i, field in enumerate(self.lists)}
        for field, path in paths.items():
            path.write_bytes(self.lists[field])
        footer, tree = pathlib.Path(folder, "footer"), os.path.join(folder, "tree")
        footer.write_bytes(self.footer)
        pathlib.Path(tree).write_bytes(self.tree)
        return self.opened(footer=footer, tree=tree, offsets=paths)


PIECES = Pieces()


def mapped():
    """The files that this process has mapped, by their last names."""
    return {line.split("/")[-1].strip() for line in pathlib.Path("/proc/self/maps").read_text().splitlines() if "/" in line}


class Opened(unittest.TestCase):
    def test_parts(self):
        fragment = PIECES.opened()
        self.assertEqual(fragment.footer, tb.read_footer(PIECES.given, PIECES.file_size, PIECES.footer))
        self.assertEqual((fragment.tree.tiles, fragment.tree.fanout), (40, 4))
        self.assertEqual(list(fragment.offsets), [0, 1, (1, "var"), (1, "validity")])
        for field, extents in PIECES.extents.items():
            self.assertEqual(list(fragment.offsets[field]), extents)
        for window in PIECES.windows:
            self.assertEqual(fragment.query(window), fragment.tree.query(window))
        self.assertEqual(fragment.query_batch(PIECES.windows, room=3), fragment.tree.query_batch(PIECES.windows, room=3))
        self.assertEqual(fragment.query(PIECES.windows[0], room=1).tiles, fragment.query(PIECES.windows[0]).tiles[:1])
        self.assertEqual(repr(fragment), "<Fragment: 40 tiles, 3917 cells, offsets of [0, 1, (1, 'var'), (1, 'validity')]>")
        with self.assertRaises(TypeError):
            fragment.offsets[0] = None

    def test_names_of_fields(self):
        same = PIECES.opened(offsets={(0, "data"): PIECES.lists[0]})
        self.assertEqual((list(same.offsets), same), ([0], PIECES.opened(offsets={0: PIECES.lists[0]})))
        self.assertEqual(same.plan(PIECES.windows, (0, "data")), same.plan(PIECES.windows, 0))
        self.assertEqual(list(PIECES.opened(offsets=None).offsets), [])
        for field in (2, -1, (2, "var"), (0, "vars"), (0, "")):
            self.assertRaises(KeyError, PIECES.opened, offsets={field: PIECES.lists[0]})
            self.assertRaises(KeyError, same.plan, PIECES.windows, field)
        self.assertRaises(TypeError, PIECES.opened, offsets={"0": PIECES.lists[0]})

    def test_refused(self):
        """Each part is refused as by itself. The size of a file is the footer's."""
        lists = PIECES.lists
        cut = {0: lists[0][:-8]}
        for other, number, place, which in (
            ({"footer": PIECES.footer[1:]}, None, None, 0),
            ({"tree": PIECES.tree[:-1]}, rules.Refusal.BYTES, len(PIECES.tree) - 1, 1),
            ({"offsets": cut}, rules.Refusal.BYTES, len(lists[0]) - 8, 0),
            ({"offsets": {0: lists[(1, "var")]}}, rules.Refusal.TILE_OFFSETS, None, 0),
            ({"file_size": 0}, rules.Refusal.BYTES, len(PIECES.footer), 0),
            ({"tree": b""}, rules.Refusal.BYTES, 0, 1),
        ):
            with self.assertRaises(tb.Refused, msg=str(other)[:60]) as caught:
                PIECES.opened(**other)
            refused = caught.exception
            self.assertEqual((number or refused.number, which), (refused.number, refused.which))
            self.assertEqual(refused.place if place is None else place, refused.place)

    def test_bytes_of_every_sort(self):
        for sort in (bytes, bytearray, memoryview, lambda data: array.array("B", data)):
            fragment = PIECES.opened(footer=sort(PIECES.footer), tree=sort(PIECES.tree), offsets={0: sort(PIECES.lists[0])})
            self.assertEqual(fragment, PIECES.opened(offsets={0: PIECES.lists[0]}))
        for given in (5, None, 1.5, ["tree"]):
            self.assertRaises(TypeError, PIECES.opened, tree=given)


class Plans(unittest.TestCase):
    def setUp(self):
        self.fragment = PIECES.opened()

    def expected(self, windows, field, gap):
        return reference.ranges(PIECES.extents[field], PIECES.run(windows), gap)

    def test_every_field(self):
        for field in PIECES.lists:
            for gap in (0, 1, 5, 30, 2**64 - 1):
                for windows in (PIECES.windows, PIECES.windows[:1], PIECES.windows[3:4], []):
                    plan = self.fragment.plan(windows, field, gap)
                    self.assertEqual(list(plan.ranges), self.expected(windows, field, gap))
                    self.assertEqual((plan.tiles, plan.outside), (len(set(PIECES.run(windows))), 0))
        self.assertGreater(len(self.fragment.plan(PIECES.windows, 0).ranges), 2)

    def test_windows_of_every_sort(self):
        """A list, a generator, one whose ends have to be looked at, `Window`s, and one buffer."""
        right = self.fragment.plan(PIECES.windows, 0, 3)
        packed = b"".join(pieces.box(KINDS, window) for window in PIECES.windows)
        made = [tb.Window(KINDS, window) for window in PIECES.windows]
        generators = [(side for side in window) for window in PIECES.windows]
        for windows in (tuple(PIECES.windows), iter(PIECES.windows), packed, bytearray(packed), memoryview(packed), made, generators):
            self.assertEqual(self.fragment.plan(windows, 0, 3), right)
        self.assertRaises(TypeError, self.fragment.plan, array.array("d", [1.0] * 8), 0)

    def test_many_tiles_found(self):
        """More than the first room, so that the batch is asked twice."""
        everything = [(-(2**31), 2**31 - 1), (-1e300, 1e300)]
        plan = self.fragment.plan([everything] * 300, 0)
        self.assertGreater(300 * PIECES.n, tb._tiles.FIRST_ROOM)
        self.assertEqual((list(plan.ranges), plan.tiles), ([(0, self.fragment.footer.file_sizes[0])], PIECES.n))

    def test_a_refused_window_raises(self):
        reversed_window, other = [(5, 4), (0.0, 1.0)], [(0, 1.5), (0.0, 1.0)]
        for windows, number, place in (
            ([PIECES.windows[0], reversed_window, other], rules.Refusal.REVERSED, 0),
            ([PIECES.windows[0], other, reversed_window], rules.Refusal.WINDOW, 0),
            ([[(0, 1)]], rules.Refusal.WINDOW, 0),
            ([[(0, 1), (1.0, 0.0)]], rules.Refusal.REVERSED, 1),
            (b"\0" * 7, rules.Refusal.RUNS, 0),
        ):
            with self.assertRaises(tb.Refused) as caught:
                self.fragment.plan(windows, 0)
            self.assertEqual((caught.exception.number, caught.exception.place), (number, place))

    def test_gap(self):
        for gap in (-1, 2**64):
            self.assertRaises(ValueError, self.fragment.plan, PIECES.windows, 0, gap)
        self.assertEqual(self.fragment.plan(PIECES.windows), self.fragment.plan(PIECES.windows, field=0, gap=0))

    def test_a_tile_outside_raises(self):
        """It can't be, over bytes that stay as they are: so the library is made to say it."""
        asked = tb._plan._c_read_plan_at

        def outside(*given):
            asked(*given)
            given[-1][tb._plan._PLAN_OUTSIDE] = 2

        with mock.patch.object(tb._plan, "_c_read_plan_at", outside):
            self.assertRaisesRegex(IndexError, "2 of the tiles", self.fragment.plan, PIECES.windows, 0)


class Files(unittest.TestCase):
    def setUp(self):
        folder = tempfile.TemporaryDirectory()
        self.addCleanup(folder.cleanup)
        self.folder = folder.name

    def test_mapped_until_closed(self):
        with PIECES.written(self.folder) as fragment:
            self.assertEqual(fragment, PIECES.opened())
            self.assertLessEqual({"tree", "offsets0", "offsets3"}, mapped())
            self.assertNotIn("footer", mapped())
            self.assertEqual(fragment.plan(PIECES.windows, 0), PIECES.opened().plan(PIECES.windows, 0))
        gc.collect()
        self.assertEqual(mapped() & {"tree", "offsets0", "offsets3"}, set())
        for ask in (fragment.plan, fragment.query, fragment.query_batch):
            self.assertRaisesRegex(ValueError, "closed", ask, PIECES.windows)
        self.assertRaises(ValueError, lambda: fragment.tree)
        self.assertRaises(ValueError, lambda: fragment.offsets)
        self.assertEqual((repr(fragment), fragment == PIECES.opened(), fragment == fragment), ("<Fragment: closed>", False, True))
        fragment.close()

    def test_what_is_in_use_outlives_close(self):
        fragment = PIECES.written(self.folder)
        tree, offsets = fragment.tree, fragment.offsets[0]
        fragment.close()
        gc.collect()
        self.assertEqual(tree.query(PIECES.windows[0]).tiles, PIECES.run(PIECES.windows[:1]))
        self.assertEqual(list(offsets), PIECES.extents[0])

    def test_closed_in_another_thread(self):
        """A plan that is under way keeps its bytes."""
        fragments = [PIECES.written(self.folder) for _ in range(40)]
        right, said = PIECES.opened().plan(PIECES.windows, 0), []

        def ask(fragment):
            try:
                said.append(fragment.plan(PIECES.windows * 20, 0) == right)
            except ValueError:
                said.append(True)

        threads = [threading.Thread(target=ask, args=[fragment]) for fragment in fragments]
        for thread, fragment in zip(threads, fragments):
            thread.start()
            fragment.close()
        for thread in threads:
            thread.join()
        self.assertEqual(said, [True] * 40)

    def test_files_that_are_none(self):
        fragment = PIECES.written(self.folder)
        pathlib.Path(self.folder, "empty").touch()
        for path, error in (("none", OSError), (self.folder, OSError), ("empty", tb.Refused), ("/dev/null", ValueError)):
            self.assertRaises(error, PIECES.opened, tree=os.path.join(self.folder, path))
        self.assertEqual(fragment, PIECES.opened())

    def test_pickled_by_path(self):
        there = os.getcwd()
        self.addCleanup(os.chdir, there)
        os.chdir(os.path.dirname(self.folder))
        fragment = PIECES.written(os.path.basename(self.folder))
        text = pickle.dumps(fragment)
        self.assertLess(len(text), 1_500)
        os.chdir(there)
        again = pickle.loads(text)
        self.assertEqual((again, hash(again)), (fragment, hash(fragment)))
        self.assertEqual(copy.copy(fragment), fragment)
        self.assertEqual(again.plan(PIECES.windows, (1, "var"), 4), fragment.plan(PIECES.windows, (1, "var"), 4))
        fragment.close()
        self.assertEqual(pickle.loads(pickle.dumps(fragment)), again)
        code = "import pickle, sys; print(pickle.load(sys.stdin.buffer))"
        other = subprocess.run([sys.executable, "-W", "error", "-c", code], input=text, capture_output=True, check=True)
        self.assertEqual(other.stdout.decode().strip(), repr(again))
        for part in ({"tree": PIECES.tree}, {"footer": PIECES.footer}, {"offsets": {0: PIECES.lists[0]}}):
            held = PIECES.opened(**{"footer": f"{self.folder}/footer", "tree": f"{self.folder}/tree", "offsets": {}, **part})
            self.assertRaisesRegex(TypeError, "holds bytes", pickle.dumps, held)

    def test_a_changed_file_is_refused_when_unpickled(self):
        text = pickle.dumps(PIECES.written(self.folder))
        path = pathlib.Path(self.folder, "tree")
        path.unlink()
        path.write_bytes(PIECES.tree[:-1])
        self.assertRaises(tb.Refused, pickle.loads, text)


class Equal(unittest.TestCase):
    def test_equal(self):
        fragment, other = PIECES.opened(), Pieces(seed=2)
        self.assertEqual((fragment, hash(fragment)), (PIECES.opened(), hash(PIECES.opened())))
        some = dict(list(PIECES.lists.items())[:2])
        first = PIECES.opened(offsets=dict(reversed(some.items())))
        self.assertEqual(first, PIECES.opened(offsets=some))
        wider = pieces.tree(KINDS, PIECES.boxes, 5)
        for unlike in (other.opened(), first, PIECES.opened(tree=wider), PIECES.opened(file_size=PIECES.file_size + 1)):
            self.assertNotEqual(fragment, unlike)
        long = max(range(PIECES.n - 1), key=lambda i: PIECES.extents[0][i][1])
        moved = [start - (i == long + 1) for i, (start, _) in enumerate(PIECES.extents[0])]
        self.assertNotEqual(first, PIECES.opened(offsets={0: pieces.entries(moved), 1: PIECES.lists[1]}))
        self.assertNotEqual(fragment, PIECES.footer)

    def test_lent_bytes_are_free_again(self):
        tree = bytearray(PIECES.tree)
        fragment = PIECES.opened(tree=tree)
        self.assertRaises(BufferError, tree.append, 0)
        fragment.close()
        gc.collect()
        tree.append(0)

    def test_mmap(self):
        with tempfile.TemporaryFile() as file:
            file.write(PIECES.tree)
            file.flush()
            held = mmap.mmap(file.fileno(), 0)
        self.assertEqual(PIECES.opened(tree=held), PIECES.opened())


if __name__ == "__main__":
    unittest.main()
