"""Arrays of the real numpy at the Python binding: windows, boxes, leaves and tile numbers of every dtype, byte order, layout and
shape. Each is answered as the same Python numbers are one by one, or is a TypeError."""

import pathlib
import pickle
import random
import sys
import tempfile
import unittest
import warnings

import numpy as np

root = pathlib.Path(__file__).resolve().parents[2]
sys.path.insert(0, str(root / "tests/reference"))

import pieces
import rules
import tussockbell as tb

ALL_KINDS = [[kind] * dimensions for kind in rules.DIMENSION_KINDS for dimensions in range(1, 5)]
MIXED = [["int32", "float64"], ["float64", "int32", "int64"], ["uint64", "int64"], ["float64", "int32"]]
MIXED += [["float64", "int64", "int32", "uint64"]]
LETTERS = sorted(set(np.typecodes["All"]))


def plain(kinds, boxes):
    """Boxes or windows as plain bytes."""
    return b"".join(pieces.box(kinds, box) for box in boxes)


class Kinds:
    """A tree of some kinds, in which every window of small numbers finds something."""

    def __init__(self, kinds, seed=1, number=5):
        self.kinds, self.given, self.number = kinds, tb.Description(kinds, 1, 32), number
        self.dimensions = len(kinds)
        chance = random.Random(seed)
        self.leaves = [self.box(chance, 10) for _ in range(12)]
        self.tree = pieces.tree(kinds, self.leaves, 3)
        self.windows = [self.box(chance, 40) for _ in range(number)]
        assert all(hit.found for hit in self.one_by_one(self.windows))

    def box(self, chance, width):
        lows = [chance.randrange(20) for _ in self.kinds]
        return [(low, low + width) for low in lows]

    def one_by_one(self, windows):
        answers = []
        for window in windows:
            try:
                answers.append(tb.query(self.given, 12, self.tree, window))
            except tb.Refused as refused:
                answers.append(refused)
        return answers

    def dtype(self):
        """The little-endian record of these kinds, a field for each end."""
        kinds = [np.dtype(kind).newbyteorder("<") for kind in self.kinds]
        return np.dtype([(f"{end}{i}", kind) for i, kind in enumerate(kinds) for end in ("low", "high")])

    def records(self, dtype=None):
        """The windows as records, by way of their bytes."""
        return np.frombuffer(plain(self.kinds, self.windows), dtype or self.dtype()).copy()

    def fits(self, dtype):
        return all(dtype == np.dtype(kind).newbyteorder("<") for kind in self.kinds)


def typed(numbers, dtype):
    """Numbers as an array, zeros where the dtype holds no numbers."""
    numbers = np.array(numbers, "f8")
    try:
        with warnings.catch_warnings():
            warnings.simplefilter("ignore")
            return numbers.astype(dtype)
    except (TypeError, ValueError):
        return np.zeros(numbers.shape, dtype)


def layouts(array):
    """The same numbers, which lie in memory in every way."""
    yield array
    yield np.asfortranarray(array)
    for axis in range(array.ndim):
        yield np.repeat(array, 2, axis)[(slice(None),) * axis + (slice(None, None, 2),)]
        yield np.flip(np.flip(array, axis).copy(), axis)
    yield np.moveaxis(np.ascontiguousarray(np.moveaxis(array, 0, -1)), -1, 0)
    yield np.flip(np.flip(array).copy())
    wide = np.zeros((*array.shape, 3), array.dtype)
    wide[..., 1] = array
    yield wide[..., 1]
    fixed = array.copy()
    fixed.flags.writeable = False
    yield fixed


def dtypes():
    for letter in LETTERS:
        for order in "<>":
            yield np.dtype(letter).newbyteorder(order)
    yield from (np.dtype(name) for name in ("S8", "U2", "V8", "V16", "S32", "M8[s]", "m8[ns]"))


class Cases(unittest.TestCase):
    """Each case is an answer, the one that Python numbers get, or a TypeError; dtype and shape say which of the two."""

    def outcome(self, ask, *arguments):
        try:
            return ask(*arguments)
        except TypeError:
            return TypeError

    def setUp(self):
        self.cases = {True: 0, False: 0}

    def windows(self, known, array, answered):
        self.cases[answered] += 1
        got = self.outcome(tb.query_batch, known.given, 12, known.tree, array)
        if not answered:
            self.assertIs(got, TypeError, msg=(known.kinds, array.dtype, array.shape))
            return
        numbers = array.reshape(-1, known.dimensions, 2).tolist()
        self.assertEqual(got, known.one_by_one(numbers), msg=(known.kinds, array.dtype, array.shape))

    def leaves(self, known, array, answered):
        self.cases[answered] += 1
        got = self.outcome(tb.write_tree, known.given, 12, 3, array)
        out = bytearray(len(known.tree))
        into = self.outcome(tb.write_tree_into, known.given, 12, 3, array, out)
        expected = (known.tree, len(out)) if answered else (TypeError, TypeError)
        self.assertEqual((got, into), expected, msg=(known.kinds, array.dtype))
        self.assertEqual(bytes(out), known.tree if answered else bytes(len(out)))

    def box(self, known, array, answered):
        self.cases[answered] += 1
        window = known.windows[0]
        got = self.outcome(tb.box_test, known.given, array, window)
        stored = pieces.box(known.kinds, array.reshape(-1, 2).tolist()) if answered else None
        expected = tb.box_test(known.given, stored, window) if answered else TypeError
        self.assertEqual(got, expected, msg=(known.kinds, array.dtype))


class Every(Cases):
    def test_dtypes_orders_layouts_and_shapes(self):
        for kinds in ALL_KINDS + MIXED:
            known = Kinds(kinds)
            ends = 2 * known.dimensions
            for dtype in dtypes():
                fits = known.fits(dtype)
                for shape in ((-1, ends), (-1, known.dimensions, 2), (-1,)):
                    if dtype == np.uint8 and shape == (-1,):
                        continue
                    for array in layouts(typed(known.windows, dtype).reshape(shape)):
                        self.windows(known, array, fits)
                    for array in layouts(typed(known.leaves, dtype).reshape(shape)) if len(kinds) == 2 or fits else ():
                        self.leaves(known, array, fits)
                for shape in ((ends,), (known.dimensions, 2)):
                    if dtype == np.uint8 and shape == (ends,):
                        continue
                    for array in layouts(typed(known.leaves[0], dtype).reshape(shape)):
                        self.box(known, array, fits)
        self.assertTrue(self.cases[True] > 2400 and self.cases[False] > 69000, msg=self.cases)

    def test_uint8_of_one_dimension_is_bytes(self):
        for kinds in ALL_KINDS + MIXED:
            known = Kinds(kinds)
            data = np.frombuffer(plain(kinds, known.windows), np.uint8)
            for array in layouts(data):
                self.assertEqual(tb.query_batch(known.given, 12, known.tree, array), known.one_by_one(known.windows))
            self.assertRaises(TypeError, tb.query_batch, known.given, 12, known.tree, data.reshape(known.number, -1))
            self.assertRaises(TypeError, tb.query_batch, known.given, 12, known.tree, data.view(np.int8))
            with self.assertRaises(tb.Refused) as caught:
                tb.query_batch(known.given, 12, known.tree, data[:-1])
            self.assertEqual(caught.exception.args, (22, 0, 0))
            leaves = np.frombuffer(plain(kinds, known.leaves), np.uint8)
            self.assertEqual(tb.write_tree(known.given, 12, 3, leaves), known.tree)
            box, window = leaves[: len(leaves) // 12], known.windows[0]
            self.assertEqual(tb.box_test(known.given, box, window), tb.box_test(known.given, bytes(box), window))
            for wrong in (leaves.view(np.int8), leaves.reshape(12, -1)):
                self.assertRaises(TypeError, tb.write_tree, known.given, 12, 3, wrong)
                self.assertRaises(TypeError, tb.box_test, known.given, wrong[: len(wrong) // 12], known.windows[0])

    def test_shapes(self):
        for kinds in ALL_KINDS:
            known, right = Kinds(kinds), np.dtype(kinds[0]).newbyteorder("<")
            k, d = known.number, known.dimensions
            numbers = np.array(known.windows, right)
            leaves = np.array(known.leaves, right)
            turned = numbers.transpose(0, 2, 1)  # (k, 2, D)
            wrong = [
                np.moveaxis(numbers, 2, 0), np.moveaxis(numbers, 0, 2), turned.transpose(2, 1, 0),
                numbers.reshape(k, 2 * d).T, numbers.reshape(k, 2 * d)[..., np.newaxis],
                numbers[np.newaxis], numbers[..., np.newaxis], numbers[:, :, :1], numbers.reshape(-1)[:-1],
                np.append(numbers, right.type(1)), right.type(1), np.array(1, right), np.ones((), right),
            ]
            shapes = (k, 2 * d + 1), (k, 2 * d - 1), (k, d + 1, 2), (k, d, 3)
            wrong += [np.ones(shape, right) for shape in shapes]
            wrong += [turned] if d != 2 else []
            for array in wrong:
                self.windows(known, array, False)
                self.windows(known, np.asfortranarray(array), False)
                self.assertRaises(TypeError, tb.write_tree, known.given, 12, 3, array)
            for array in (np.stack([leaves[..., 0], leaves[..., 1]]), leaves.transpose(1, 2, 0)):
                self.leaves(known, array, False)
            box = leaves[0]
            wrong = [leaves, leaves[:1], box[np.newaxis], box[..., np.newaxis]]
            wrong += [np.append(box, box[0, 0]), box.reshape(-1)[1:]]
            wrong += [box.reshape(1, 2 * d)] if d > 1 else []
            wrong += [box.T] if d != 2 else []
            for array in wrong:
                self.box(known, array, False)

    def test_minima_before_maxima_in_two_dimensions(self):
        """What the page says of (k, 2, D) with D = 2: it is taken for (k, D, 2)."""
        known = Kinds(["float64", "float64"])
        turned = np.array(known.windows, "<f8").transpose(0, 2, 1)
        self.windows(known, turned, True)
        low, high = np.array([[0.0, 5.0]]), np.array([[1.0, 9.0]])
        right, wrong = np.stack([low, high], axis=2), np.stack([low, high], axis=1)
        self.assertEqual((right.tolist(), wrong.tolist()), ([[[0, 1], [5, 9]]], [[[0, 5], [1, 9]]]))
        self.windows(known, right, True)
        self.windows(known, wrong, True)
        self.windows(known, np.stack([low, high]), False)
        stacked = ("numpy.stack([low, high], axis=2)", "numpy.stack([low, high], axis=1)")
        for line in (*stacked, "A uint8 array of one dimension is bytes"):
            self.assertIn(line, tb.__doc__)

    def test_empty(self):
        for kinds in ALL_KINDS + MIXED:
            known, d = Kinds(kinds), len(kinds)
            for dtype in dtypes():
                for shape in ((0,), (0, 2 * d), (0, d, 2)):
                    fits = known.fits(dtype) or (dtype == np.uint8 and len(shape) == 1)
                    got = self.outcome(tb.query_batch, known.given, 12, known.tree, np.zeros(shape, dtype))
                    self.assertEqual(got, [] if fits else TypeError)
                for shape in ((0, 2 * d + 1), (2 * d + 1, 0), (0, 0), (0, d, 3), (0, d, 2, 1), (0, 1, d, 2)):
                    self.windows(known, np.zeros(shape, dtype), False)
            self.assertEqual(tb.query_batch(known.given, 12, known.tree, np.zeros(0, known.dtype())), [])
            self.windows(known, np.zeros((0, 1), known.dtype()), False)
            self.assertRaises(TypeError, tb.box_test, known.given, np.zeros(0, known.dtype()), known.windows[0])

    def test_masks_dates_and_objects_by_name(self):
        known = Kinds(["int64", "int64"])
        for dtype in ("M8[s]", "m8[s]", "O", "?", "S8", "V8"):
            with self.assertRaises(TypeError) as caught:
                tb.query_batch(known.given, 12, known.tree, np.zeros((3, 4), dtype))
            self.assertGreater(len(str(caught.exception)), 20)

    def test_masked_arrays(self):
        known = Kinds(["float64", "float64"])
        array = np.ma.array(np.array(known.windows, "<f8"))
        self.assertEqual(tb.query_batch(known.given, 12, known.tree, array), known.one_by_one(known.windows))
        array[1, 0, 0] = np.ma.masked
        self.assertRaises(TypeError, tb.query_batch, known.given, 12, known.tree, array)
        self.assertRaises(TypeError, tb.write_tree, known.given, known.number, 3, array)
        self.assertRaises(TypeError, tb.box_test, known.given, array[1], known.windows[0])

    def test_complex_ends_of_single_windows(self):
        known = Kinds(["float64", "float64"])
        for end in (1 + 2j, np.complex128(1 + 2j), np.complex64(1 + 2j)):
            window = [(0.0, end), (0.0, 50.0)]
            self.assertRaises(TypeError, tb.query, known.given, 12, known.tree, window)
            self.assertRaises(TypeError, tb.query_batch, known.given, 12, known.tree, [known.windows[0], window])
            self.assertRaises(TypeError, tb.Window, ["float64", "float64"], window)


class Records(Cases):
    """Records of all ends of a window, and what looks like them."""

    def same(self, known, array):
        got = tb.query_batch(known.given, 12, known.tree, array)
        self.assertEqual(got, known.one_by_one(known.windows), msg=array.dtype)
        self.assertEqual(tb.box_test(known.given, array[0], known.windows[0]), (True, known.dimensions))
        self.assertEqual(tb.box_test(known.given, array[0, ...], known.windows[0]), (True, known.dimensions))

    def refused(self, known, array):
        for ask in (
            lambda: tb.query_batch(known.given, 12, known.tree, array),
            lambda: tb.write_tree(known.given, len(array), 3, array),
            lambda: tb.box_test(known.given, array[0], known.windows[0]),
        ):
            self.assertIs(self.outcome(ask), TypeError, msg=array.dtype)

    def fields(self, known, order="<"):
        return [np.dtype(kind).newbyteorder(order) for kind in known.kinds]

    def test_records_that_fit(self):
        for kinds in ALL_KINDS + MIXED:
            known = Kinds(kinds)
            kind = self.fields(known)
            forms = [known.dtype(), np.dtype(known.dtype().descr, align=True)]
            forms.append(np.dtype([(f"d{i}", one, 2) for i, one in enumerate(kind)]))
            forms.append(np.dtype([(f"d{i}", one, (1, 2)) for i, one in enumerate(kind)]))
            forms.append(np.dtype([(f"d{i}", [("low", one), ("high", one)]) for i, one in enumerate(kind)]))
            forms.append(np.dtype([(name, one) for i, one in enumerate(kind) for name in (f">{i}", f"}}T{{{i}")]))
            if len(set(kinds)) == 1:
                forms.append(np.dtype([("all", kind[0], (len(kinds), 2))]))
                forms.append(np.dtype([("all", [("low", kind[0]), ("high", kind[0])], (len(kinds),))]))
            for dtype in forms:
                array = known.records(dtype)
                for form in layouts(array):
                    self.same(known, form)
                leaves = np.frombuffer(plain(kinds, known.leaves), dtype)
                self.assertEqual(tb.write_tree(known.given, 12, 3, leaves), known.tree)
                self.assertEqual(tb.write_tree(known.given, 12, 3, np.flip(np.flip(leaves).copy())), known.tree)

    def test_records_that_do_not(self):
        for kinds in ALL_KINDS + MIXED:
            known = Kinds(kinds)
            names, bytes_ = known.dtype().names, known.dtype().itemsize
            kind = [known.dtype()[name] for name in names]
            starts = [known.dtype().fields[name][1] for name in names]
            other = [("i" if one.kind == "f" else "f") + str(one.itemsize) for one in kind]
            wrong = [
                [(name, one.newbyteorder(">")) for name, one in zip(names, kind)],
                [(name, one.newbyteorder(">" if name == names[-1] else "<")) for name, one in zip(names, kind)],
                [(name, one.newbyteorder(">" if name == names[0] else "<")) for name, one in zip(names, kind)],
                [(name, "<" + one) for name, one in zip(names, other)],
                [(name, "<" + other[i] if i == 1 else one) for i, (name, one) in enumerate(zip(names, kind))],
                [(name, f"V{one.itemsize}") for name, one in zip(names, kind)],
                [(name, f"S{one.itemsize}") for name, one in zip(names, kind)],
                [("all", "u1", bytes_)], [("all", f"V{bytes_}")], [("all", "u1", bytes_ - 1), ("last", "u1")],
            ]
            if len(set(kinds)) > 1:
                turned = list(zip(names, kind))
                wrong += [turned[::-1], turned[2:] + turned[:2]]
                wrong += [[(n, k) for n, k in turned[::2]] + [(n, k) for n, k in turned[1::2]]]
            for fields in wrong:
                self.refused(known, np.frombuffer(plain(kinds, known.windows), np.dtype(fields)))
            later = [start + 8 for start in starts]
            padded = [
                {"names": names, "formats": kind, "offsets": starts, "itemsize": bytes_ + 8},
                {"names": names, "formats": kind, "offsets": later, "itemsize": bytes_ + 8},
                {"names": names, "formats": kind, "offsets": [starts[0], *later[1:]], "itemsize": bytes_ + 8},
                {"names": names[:-1], "formats": kind[:-1], "offsets": starts[:-1], "itemsize": bytes_},
                {"names": names[1:], "formats": kind[1:], "offsets": starts[1:], "itemsize": bytes_},
                {"names": names, "formats": kind, "offsets": starts[::-1], "itemsize": bytes_},
                {"names": names, "formats": kind, "offsets": [0, 0, *starts[2:]], "itemsize": bytes_},
            ]
            for layout in padded:
                try:
                    dtype = np.dtype(layout)
                except (TypeError, ValueError):
                    continue
                for array in layouts(np.ones(5, dtype)):
                    self.refused(known, array)
            array = known.records()
            self.refused(known, array[list(names[:-1])])
            self.refused(known, array[list(names[::-1])])
            for shape in ((-1, 1), (1, -1), (1, 1, -1)):
                self.assertRaises(TypeError, tb.query_batch, known.given, 12, known.tree, array.reshape(shape))
            self.assertRaises(TypeError, tb.query_batch, known.given, 12, known.tree, array[0])
            self.assertRaises(TypeError, tb.query_batch, known.given, 12, known.tree, array[0, ...])
            for box in (array, array[:1], array.reshape(-1, 1)):
                self.assertRaises(TypeError, tb.box_test, known.given, box, known.windows[0])

    def test_records_of_a_part_of_a_window(self):
        """A record of one end, or of one dimension's two, is no record of all ends."""
        known = Kinds(["float64", "float64"])
        ends = np.array(known.windows, "<f8")
        self.windows(known, ends.view([("end", "<f8")]), False)
        self.windows(known, ends.view([("low", "<f8"), ("high", "<f8")]), False)


class Seen(unittest.TestCase):
    """What was answered once and must not be: each of these found no tiles, or others, or wrote another tree."""

    def setUp(self):
        rows = [[(10.0 * x, 10.0 * x + 9), (10.0 * y, 10.0 * y + 9)] for y in range(10) for x in range(10)]
        self.rows, self.tree = np.array(rows), {}
        for kind in ("float64", "int32", "int64"):
            body = pieces.tree([kind] * 2, np.array(rows).astype(kind).tolist(), 4)
            self.tree[kind] = tb.Description([kind] * 2, 1, 32), 100, body
        self.windows = np.array([[[10.0 * i, 10.0 * i + 35], [5.0, 39.0]] for i in range(4)])
        self.many = np.tile(self.windows, (8, 1, 1))

    def found(self, kind, windows):
        return [hit.found for hit in tb.query_batch(*self.tree[kind], windows)]

    def refused(self, kind, windows, *parts):
        with self.assertRaises(TypeError) as caught:
            tb.query_batch(*self.tree[kind], windows)
        for part in parts:
            self.assertIn(part, str(caught.exception))

    def test_right_ones(self):
        self.assertEqual(self.found("float64", self.windows), [16] * 4)
        self.assertEqual(self.found("float64", self.many[::2]), [16] * 16)
        for window in self.windows.astype(int):
            self.assertEqual(tb.query(*self.tree["float64"], window).found, 16)

    def test_byte_order_and_type(self):
        self.refused("float64", self.windows.astype(">f8"), "'>d'", "'<d'")
        self.refused("float64", self.windows.reshape(4, 4).view("c16"), "'Zd'", "'<d'")
        self.refused("int64", self.windows.astype(">i8"), "'>q'", "'<q'")

    def test_views_that_are_not_contiguous(self):
        self.refused("float64", np.repeat(self.many.astype("i8"), 2, 0)[::2], "'l'", "'<d'")
        self.refused("float64", np.ascontiguousarray(self.many.astype("i8")), "'l'", "'<d'")
        self.refused("int32", np.repeat(self.many, 2, 0)[::2], "'d'", "'<i'")

    def test_records(self):
        kinds = ["int32", "float64"]
        mixed = tb.Description(kinds, 1, 32), 1, pieces.tree(kinds, [[(0, 9), (0.0, 9.0)]], 2)
        names = ["a", "b", "c", "d"]
        for one in ("<i8", ">f8"):
            records = self.windows.astype(one).reshape(4, 4).view([(name, one) for name in names])[:, 0]
            self.refused("float64", records, "T{", "'T{<d<d<d<d}'")
        turned = np.zeros(3, list(zip(names, ("<f8", "<f8", "<i4", "<i4"))))
        with self.assertRaises(TypeError):
            tb.query_batch(*mixed, turned)
        right = np.zeros(3, list(zip(names, ("<i4", "<i4", "<f8", "<f8"))))
        self.assertEqual([hit.found for hit in tb.query_batch(*mixed, right)], [1] * 3)

    def test_leaves_and_boxes(self):
        d, n, tree = self.tree["float64"]
        self.assertEqual(tb.write_tree(d, n, 4, self.rows), tree)
        apart = np.stack([self.rows[..., 0], self.rows[..., 1]])
        for leaves in (self.rows.astype("i8"), self.rows.astype(">f8"), apart):
            self.assertRaises(TypeError, tb.write_tree, d, n, 4, leaves)
            self.assertRaises(TypeError, tb.write_tree_into, d, n, 4, leaves, bytearray(len(tree)))
        for box in (self.rows[0].astype("i8"), self.rows[0].astype(">f8"), self.rows[:1]):
            self.assertRaises(TypeError, tb.box_test, d, box, self.windows[0])
        self.assertEqual(tb.box_test(d, self.rows[0], self.windows[0]), (True, 2))

    def test_shapes(self):
        windows = np.array([[[0.0, 99.0], [0.0, 99.0]]] * 3)
        self.assertEqual(self.found("float64", windows), [100] * 3)
        self.refused("float64", np.stack([windows[..., 0], windows[..., 1]]), "(2, 3, 2)", "(k, 2, 2)")

    def test_small_integers(self):
        for kind in ("i1", "u1"):
            numbers = self.windows.astype(kind)
            self.refused("float64", numbers)
            self.refused("float64", numbers.reshape(4, 4))
        self.refused("float64", self.windows.astype("i1").reshape(-1), "'b'")

    def test_float32_windows_of_an_old_tree(self):
        """Ends that are of float32 are rounded: as float64 they ask what the widened windows of plain numbers ask."""
        old, tenths = tb.Description(["float32"] * 2, 1, 32), self.windows / 10
        _, n, body = self.tree["float64"]
        widened = [old.widen(window) for window in tenths.tolist()]
        self.assertNotEqual(tenths.tolist(), tenths.astype("<f4").astype("<f8").tolist())
        given = (old.widened(), n, body)
        self.assertEqual(tb.query_batch(*given, tenths.astype("<f4").astype("<f8")), tb.query_batch(*given, widened))
        self.assertEqual(tb.query_batch(old, n, body, tenths.astype("<f4")), [tb.Refused(28, 0)] * 4)

    def test_dates(self):
        self.refused("int64", self.windows.astype("i8").view("M8[s]"), "ndarray")


class Grids(unittest.TestCase):
    def test_domains_extents_and_windows(self):
        d = tb.Description([np.int32, np.dtype("int64")], np.int64(1), np.uint8(250))
        domain, window = np.array([[0, 99], [-50, 49]]), np.array([[5, 14], [-20, 0]])
        for extents in (np.array([10, 25]), np.array([10, 25], "u8"), np.array([10, 25], "i1")):
            grid = tb.DenseGrid(d, domain, extents, np.uint8(0))
            self.assertEqual(grid.query(window, room=np.int64(3)), ([1, 2, 5], 4))
            self.assertEqual((grid.domain, grid.extents, grid.tiles), (((0, 99), (-50, 49)), (10, 25), 40))
        self.assertRaises(TypeError, tb.DenseGrid, d, domain, np.array([10.0, 25.0]))
        self.assertRaises(ValueError, tb.DenseGrid, d, domain, np.array([10, -25]))


class Runs(unittest.TestCase):
    """Runs of tile numbers, and the ranges of their plans."""

    def setUp(self):
        self.offsets = tb.tile_offsets(300, 3000, pieces.entries(range(0, 3000, 10)))
        self.run = [7, 3, 3, 299, 8, 44]
        self.plan = self.offsets.plan(self.run)

    def test_every_type(self):
        """None of these numbers is above 119, so that every type of integers holds them."""
        run, fits = [tile % 120 for tile in self.run], set()
        right = self.offsets.plan(run), list(self.offsets.extents(run))
        for dtype in {np.dtype(letter).newbyteorder(order) for letter in LETTERS for order in "<>"}:
            for array in layouts(typed(run, dtype)):
                try:
                    said = self.offsets.plan(array), list(self.offsets.extents(array))
                except TypeError:
                    continue
                self.assertEqual(said, right, msg=dtype)
                fits.add(dtype)
        self.assertEqual({dtype.newbyteorder("<") for dtype in fits}, {np.dtype(name) for name in ("u4", "i4", "i8", "u8")})

    def test_other_shapes(self):
        for array in (np.array(self.run, "u4").reshape(2, 3), np.array(5, "u4"), np.ma.array([1, 2], "u4", mask=[0, 1])):
            self.assertRaises(TypeError, self.offsets.plan, array)
        self.assertRaises(TypeError, self.offsets.plan, np.zeros(2, [("tile", "<u4")]))
        self.assertEqual(len(self.offsets.plan(np.zeros(0, "u4")).ranges), 0)

    def test_ranges_are_an_array(self):
        array = np.asarray(self.plan.ranges)
        self.assertEqual((array.dtype, array.shape), (np.dtype("<u8"), (4, 2)))
        self.assertEqual(array.tolist(), [list(pair) for pair in self.plan.ranges])
        self.assertTrue(np.shares_memory(array, np.asarray(self.plan.ranges.numbers)))
        self.assertFalse(array.flags.writeable)
        ranges = self.offsets.plan([5]).ranges
        held = np.asarray(ranges)
        del ranges
        self.assertEqual(held.tolist(), [[50, 10]])
        self.assertEqual(np.asarray(self.offsets.plan([]).ranges).shape, (0, 2))
        self.assertEqual(np.asarray(self.offsets.extents(np.array([1, 0]))).tolist(), [[10, 10], [0, 10]])

    def test_cells(self):
        foot = pieces.Footer(rules.Description(["int32"], 1, 32), [(0, 24)])
        footer = tb.read_footer(tb.Description(["int32"], 1, 32), foot.file_size, foot.data())
        for one in (np.int64(2), np.uint8(2), np.array(2)):
            self.assertEqual(footer.cells(one), 5)
        self.assertEqual(np.asarray(footer.cells(np.array([2, 0, 3]))).tolist(), [5, 32, 0])
        self.assertEqual(np.asarray(footer.cells(np.array([2]))).tolist(), [5])


class Results(unittest.TestCase):
    """What is answered, as numpy's arrays over the same memory; and numpy's arrays to write to."""

    def setUp(self):
        self.known = Kinds(["int32", "float64"], number=40)
        made = pieces.Footer(rules.Description(self.known.kinds, 1, 32), pieces.around(self.known.leaves), tiles=12)
        self.tree = tb.open_tree(self.known.given, made.file_size, made.data(), self.known.tree)
        self.window = self.known.windows[0]
        self.tiles = self.tree.query(self.window).tiles.tolist()

    def memory(self, array, lent, dtype):
        """The array has the dtype, and lies where what is lent lies."""
        self.assertEqual(array.dtype, np.dtype(dtype))
        self.assertEqual(array.__array_interface__["data"][0], np.frombuffer(lent, np.uint8).__array_interface__["data"][0])

    def test_tiles(self):
        grid = tb.DenseGrid(tb.Description(["int32"], 1, 1), [(0, 99)], [10])
        for tiles in (self.tree.query(self.window).tiles, self.tree.query_batch([self.window])[0].tiles, grid.query([(5, 55)]).tiles):
            array = np.asarray(tiles)
            self.memory(array, tiles, "<u4")
            self.assertEqual((array.tolist(), array.shape), (tiles, (len(tiles),)))
            self.assertTrue((tiles == array).all() and (array == tiles).all())
            self.assertTrue(np.array_equal(array, tiles.tolist()))
            self.assertRaises(BufferError, tiles.append, 1)
        del tiles
        self.assertEqual(array.tolist(), [0, 1, 2, 3, 4, 5])
        self.assertEqual(np.asarray(self.tree.query([(900, 901), (0, 1)]).tiles).shape, (0,))

    def test_batches(self):
        windows = [*self.known.windows, [(1, 0), (0, 1)], [(900, 901), (0.0, 1.0)]]
        hits, batch = self.tree.query_batch(windows), self.tree.query_batch_arrays(windows)
        answers, tiles, starts = map(np.asarray, batch)
        self.memory(tiles, batch.tiles, "<u4")
        self.memory(starts, batch.starts, "<i8")
        self.memory(answers, batch.answers.numbers, [(name, "<u8") for name in tb.Answer._fields])
        self.assertEqual((answers.shape, starts.shape, answers.flags.writeable), ((42,), (43,), False))
        self.assertEqual(answers["number"].tolist(), [0] * 40 + [9, 0])
        self.assertEqual(answers["found"][:40].tolist(), [hit.found for hit in hits[:40]])
        self.assertEqual((np.diff(starts) == answers["used"].astype(np.int64)).all(), True)
        parts = np.split(tiles, starts[1:-1])
        self.assertEqual([part.tolist() for part in parts], [hit.tiles if isinstance(hit, tb.Hit) else [] for hit in hits])
        empty = self.tree.query_batch_arrays([])
        self.assertEqual([np.asarray(each).shape for each in empty], [(0,), (0,), (1,)])
        del batch
        self.assertEqual(answers["number"].sum(), 9)

    def test_written_to(self):
        grid = tb.DenseGrid(tb.Description(["int32"], 1, 1), [(0, 99)], [10])
        for room in range(14):
            for out in (np.full(room, 77, np.uint32), np.full(room + 4, 77, "<u4")[2:-2], np.full((room, 1), 77, np.uint32)[:, 0]):
                counts = self.tree.query_into(self.window, out)
                self.assertEqual(counts.found, len(self.tiles))
                self.assertEqual(out.tolist(), (self.tiles[:room] + [77] * room)[:room])
            out = np.full(room, 77, np.uint32)
            self.assertEqual(grid.query_into([(5, 55)], out), 6)
            self.assertEqual(out.tolist(), ([0, 1, 2, 3, 4, 5][:room] + [77] * room)[:room])

    def test_what_can_not_be_written_to(self):
        fixed = np.zeros(8, np.uint32)
        fixed.flags.writeable = False
        wrong = [np.zeros(8, dtype) for dtype in dtypes() if dtype != np.dtype("<u4")]
        wrong += [fixed, np.zeros(16, np.uint32)[::2], np.zeros(8, np.uint32)[::-1], np.zeros((4, 2), np.uint32), np.zeros((), np.uint32)]
        wrong += [np.ma.masked_array(np.zeros(8, np.uint32), [True] + [False] * 7), np.zeros(8, [("tile", "<u4")])]
        for out in wrong:
            before = out.tobytes()
            self.assertRaises(TypeError, self.tree.query_into, self.window, out)
            self.assertEqual(out.tobytes(), before)

    def test_dtypes_as_kinds(self):
        for kind in rules.KINDS:
            given = tb.Description([kind], 1, 32)
            for spelled in (np.dtype(kind), np.dtype(kind).str, np.dtype(kind).type, np.dtype(kind).str[1:]):
                self.assertEqual(tb.Description([spelled], 1, 32), given)

    def test_a_tree_over_an_array_is_pickled(self):
        made = pieces.Footer(rules.Description(self.known.kinds, 1, 32), pieces.around(self.known.leaves), tiles=12)
        lent = np.frombuffer(self.known.tree, np.uint8)
        tree = tb.open_tree(self.known.given, made.file_size, made.data(), lent)
        self.assertEqual((tree, pickle.loads(pickle.dumps(tree))), (self.tree, self.tree))
        with tempfile.NamedTemporaryFile() as file:
            file.write(self.known.tree)
            file.flush()
            mapped = np.memmap(file.name, np.uint8, "r")
            tree = tb.open_tree(self.known.given, made.file_size, made.data(), mapped)
            self.assertEqual(tree, self.tree)
            self.assertRaises(TypeError, pickle.dumps, tree)


if __name__ == "__main__":
    unittest.main()
