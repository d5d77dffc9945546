"""Dense fragments through the Python binding and at the command line, against the reference: small grids cell by cell,
large ones along each dimension; the checks in their order; rooms, extents and orders; dense footers, damaged at every
byte; and the picture of a grid, parsed."""

import dataclasses
import itertools
import pathlib
import random
import subprocess
import sys
import tempfile
import unittest
import xml.etree.ElementTree as xml

root = pathlib.Path(__file__).resolve().parents[2]
sys.path.insert(0, str(root / "tests/reference"))

import dense as reference
import pieces
import rules
import tussockbell as tb

MOST = 2**64 - 1
ENDS = {"int32": (-(2**31), 2**31 - 1), "int64": (-(2**63), 2**63 - 1), "uint64": (0, MOST)}
ORDERS = {"row-major": reference.ROW_MAJOR, "column-major": reference.COLUMN_MAJOR}
SVG = "{http://www.w3.org/2000/svg}"


def answered(ask):
    """What is answered, or the refusal's numbers."""
    try:
        return ask()
    except (tb.Refused, rules.Refused) as refused:
        return "refused", refused.number, refused.place, refused.which


def said(kinds, domain, extents, order, window, places=reference.along, room=None, fields=1, capacity=1):
    """What the library says of a grid and a window, which is what the reference says."""
    known, given = rules.Description(kinds, fields, capacity), tb.Description(kinds, fields, capacity)

    def right():
        found = reference.query(known, kinds, domain, extents, ORDERS[order], kinds, window, places)
        return tb.DenseHit(found if room is None else found[: max(room, 0)], len(found))

    told = answered(lambda: tb.DenseGrid(given, domain, extents, order).query(window, room))
    expected = answered(right)
    asked = f"{kinds} {domain} {extents} {order} {window} room {room}"
    assert told == expected, f"{asked}: {told}, and the reference {expected}"
    return told


class Small(unittest.TestCase):
    """Every cell of the domain is gone through."""

    def test_every_window_of_one_dimension(self):
        for kind in ENDS:
            for low in (ENDS[kind][0], 5, ENDS[kind][1] - 11):
                ends = range(max(low - 2, ENDS[kind][0]), min(low + 14, ENDS[kind][1]) + 1)
                for extent, order in itertools.product((1, 3, 4, 12), ORDERS):
                    for window in itertools.combinations_with_replacement(ends, 2):
                        said([kind], [(low, low + 11)], [extent], order, [window], reference.by_cells)

    def test_kinds_dimensions_and_orders(self):
        chance = random.Random(14)
        seen = set()
        for _ in range(6000):
            kinds = chance.choices(list(ENDS), k=chance.randrange(1, 5))
            extents = [chance.randrange(1, 4) for _ in kinds]
            domain, window = [], []
            for kind, extent in zip(kinds, extents):
                (least, most), cells = ENDS[kind], extent * chance.randrange(1, 4)
                low = chance.choice([least, most - cells + 1, 100 - chance.randrange(9)])
                domain.append((low, low + cells - 1))
                ends = sorted(min(max(low + chance.randrange(-2, cells + 2), least), most) for _ in range(2))
                window.append(chance.choice([tuple(ends), tuple(ends), (low, low + cells - 1), (least, most)]))
            order, room = chance.choice(list(ORDERS)), chance.choice([None, None, 0, 1, 2, 5])
            hit = said(kinds, domain, extents, order, window, reference.by_cells, room)
            seen.add((len(kinds), order, hit.found > 0))
        self.assertEqual(seen, set(itertools.product((1, 2, 3, 4), ORDERS, (True, False))))

    def test_both_orders_by_hand(self):
        d = tb.Description(["int32", "int64"], 1, 250)
        domain, window = [(0, 99), (-50, 49)], [(5, 14), (-20, 0)]
        self.assertEqual(tb.DenseGrid(d, domain, [10, 25]).query(window), ([1, 2, 5, 6], 4))
        self.assertEqual(tb.DenseGrid(d, domain, [10, 25], "column-major").query(window), ([10, 11, 20, 21], 4))
        self.assertEqual(tb.DenseGrid(d, domain, [10, 25]).query([(100, 200), (0, 0)]), ([], 0))


class Large(unittest.TestCase):
    def test_whole_kinds(self):
        for kind, (least, most) in ENDS.items():
            cells = most - least + 1
            for tiles in (1, 2, 4, 1024):
                if cells // tiles > MOST:
                    continue
                extent = cells // tiles
                edges = [least, least + extent - 1, min(least + extent, most), (least + most) // 2, most - 1, most]
                for low, high in itertools.combinations_with_replacement(sorted(edges), 2):
                    hit = said([kind], [(least, most)], [extent], "row-major", [(low, high)])
                    self.assertGreater(hit.found, 0)
        full = [ENDS["uint64"]]
        self.assertEqual(said(["uint64"], full, [2**63], "row-major", [(2**63, MOST)]), ([1], 1))
        self.assertEqual(said(["uint64"], full, [MOST], "row-major", full), ("refused", 29, 0, 0))
        self.assertEqual(said(["uint64"], full, [1], "row-major", full), ("refused", 10, 0, 0))
        self.assertEqual(said(["uint64"], full, [0], "row-major", full), ("refused", 29, 0, 0))
        self.assertEqual(said(["uint64"], [(0, MOST - 1)], [MOST], "row-major", full), ([0], 1))
        self.assertEqual(said(["uint64"], [(1, MOST)], [MOST], "row-major", [(0, 0)]), ([], 0))
        window = [(0, 5), (-5, 0), (-5, -1), (0, 0)]
        hit = said(["int64"] * 4, [ENDS["int64"]] * 4, [2**63] * 4, "column-major", window)
        self.assertEqual(hit, ([9, 11], 2))

    def test_above_the_whole(self):
        for extent in (13, 24, 2**63, MOST):
            self.assertEqual(said(["int32"], [(0, 11)], [extent], "row-major", [(0, 0)]), ("refused", 29, 0, 0))
        self.assertEqual(said(["int32"], [(0, 11)], [12], "row-major", [(0, 0)]), ([0], 1))

    def test_the_most_tiles(self):
        window = [(0, 0)]
        self.assertEqual(said(["int32"], [(0, 2**24 - 1)], [1], "row-major", window).found, 1)
        self.assertEqual(said(["int32"], [(0, 2**24)], [1], "row-major", window), ("refused", 10, 0, 0))
        for order in ORDERS:
            d = tb.Description(["int64", "int32"], 1, 1)
            grid = tb.DenseGrid(d, [(0, 4095), (0, 4095)], [1, 1], order)
            self.assertEqual(grid.tiles, 2**24)
            self.assertEqual(grid.query(grid.domain, room=3), ([0, 1, 2], 2**24))
            last = grid.query([(4095, 4095), (4090, 5000)]).tiles
            self.assertEqual(last[-1], 2**24 - 1)
            one_row_more = said(["int64", "int32"], [(0, 4096), (0, 4095)], [1, 1], order, window * 2)
            self.assertEqual(one_row_more, ("refused", 10, 0, 0))
        tiles = tb.DenseGrid(tb.Description(["int32"], 1, 1), [(0, 2**24 - 1)], [1]).query([(0, 2**24 - 1)]).tiles
        self.assertTrue(len(tiles) == 2**24 and tiles[::99_991] == list(range(0, 2**24, 99_991)))

    def test_products_past_all_numbers(self):
        for dimensions in (2, 3, 4):
            kinds, domain, window = ["uint64"] * dimensions, [(0, MOST)] * dimensions, [(0, 0)] * dimensions
            for extent in (1, 2**40, 2**51):
                told = said(kinds, domain, [extent] * dimensions, "row-major", window)
                self.assertEqual(told, ("refused", 10, 0, 0))


class Checks(unittest.TestCase):
    def grid(self, kinds, domain, extents, order="row-major", fields=1, capacity=1):
        return answered(lambda: tb.DenseGrid(tb.Description(kinds, fields, capacity), domain, extents, order).tiles)

    def test_in_their_order(self):
        good, reversed_ = (0, 9), (9, 0)
        nan = (float("nan"), 1.0)
        for expected, kinds, domain, extents, more in [
            ((1, 0), [], [], [], {}),
            ((1, 0), ["int32"] * 5, [good] * 5, [1] * 5, {}),
            ((1, 0), ["int33", "float32"], [reversed_] * 2, [0], {}),
            ((1, 0), ["float32"], [nan], [0], {"fields": 0}),
            ((1, 0), ["float32"], [nan], [0], {"capacity": 10**9 + 1}),
            ((1, 0), ["float32"], [nan], [0], {"order": "diagonal"}),
            ((28, 1), ["float64", "float32"], [nan, nan], [0, 0], {}),
            ((28, 0), ["float32"], [good, good], [0], {}),
            ((19, 0), ["float64", "int32"], [good], [0], {}),
            ((19, 1), ["int32", "int32"], [good, (0.5, 1)], [0, 0], {}),
            ((8, 0), ["float64", "int32"], [nan, reversed_], [0, 0], {}),
            ((9, 1), ["float64", "int32"], [(0.0, 1.0), reversed_], [0, 0], {}),
            ((29, 0), ["float64", "int32"], [(0.0, 1.0), good], [1, 0], {}),
            ((29, 0), ["float64"], [(float("-inf"), float("inf"))], [1], {}),
            ((29, 1), ["int32", "int32", "float64"], [good, good, (0.0, 1.0)], [10, 3, 1], {}),
            ((29, 1), ["int32", "int32"], [good, good], [10], {}),
            ((29, 0), ["int32", "int32"], [good, good], [], {}),
            ((29, 2), ["uint64", "uint64", "int32"], [(0, MOST), (0, MOST), good], [1, 1, 0], {}),
            ((10, 0), ["uint64", "uint64", "int32"], [(0, MOST), (0, MOST), good], [1, 1, 1], {}),
        ]:
            told = self.grid(kinds, domain, extents, **more)
            self.assertEqual(told, ("refused", *expected, 0), msg=(kinds, domain, extents, more))
        self.assertEqual(self.grid(["int32", "int32"], [good, good], [5, 2, 0, MOST]), 10)

    def test_what_a_query_refuses_is_the_windows(self):
        grid = tb.DenseGrid(tb.Description(["int32", "uint64"], 1, 1), [(0, 9), (0, 9)], [5, 5])
        for expected, window in [
            ((19, 0), []), ((19, 0), [(0, 1)]), ((19, 0), [(0, 1)] * 3), ((19, 1), [(0, 1), (-1, 1)]),
            ((9, 0), [(1, 0), (-1, 1)]), ((9, 1), [(0, 1), (1, 0)]),
            ((19, 0), tb.Window(["int64", "uint64"], [(0, 1), (0, 1)])),
        ]:
            self.assertEqual(answered(lambda: grid.query(window)), ("refused", *expected, 0))
        self.assertEqual(grid.query(tb.Window(["int32", "uint64"], [(4, 5), (9, 9)])), ([1, 3], 2))
        self.assertEqual(grid.query(iter([(4.0, 5), (b"\5" + bytes(7), 9)])), ([1, 3], 2))

    def test_domains(self):
        d = tb.Description(["int32", "uint64"], 1, 1)
        own = tb.Window(["int32", "uint64"], [(-5, 4), (0, 9)])
        for domain in (own, [(-5, 4), (0, 9)], ((-5, 4.0), (b"\0" * 8, 9)), iter([(-5, 4), (0, 9)])):
            grid = tb.DenseGrid(d, domain, (5, 2))
            told = grid.domain, grid.extents, grid.order, grid.tiles, grid.description
            self.assertEqual(told, (((-5, 4), (0, 9)), (5, 2), "row-major", 10, d))
        other = tb.Window(["int64", "uint64"], [(-5, 4), (0, 9)])
        self.assertEqual(answered(lambda: tb.DenseGrid(d, other, (5, 2))), ("refused", 19, 0, 0))
        with self.assertRaises(TypeError):
            tb.DenseGrid(d, [("a", 4), (0, 9)], (5, 2))

    def test_extents(self):
        class Index:
            def __index__(self):
                return 5

        d = tb.Description(["int32"], 1, 1)
        self.assertEqual(tb.DenseGrid(d, [(0, 9)], [Index()]).extents, (5,))
        self.assertEqual(tb.DenseGrid(d, [(0, 9)], (extent for extent in (2, 7))).extents, (2,))
        for extent in (-1, 2**64, 10**30, -(2**63)):
            for extents in ([extent], [5, extent]):
                with self.assertRaisesRegex(ValueError, "a tile extent is 0 to 2\\^64 - 1"):
                    tb.DenseGrid(d, [(0, 9)], extents)
        for extents in ([5.0], ["5"], "5", [None], 5, None):
            with self.assertRaises(TypeError):
                tb.DenseGrid(d, [(0, 9)], extents)

    def test_orders(self):
        d, domain, window = tb.Description(["int32"] * 2, 1, 1), [(0, 3), (0, 3)], [(0, 0), (2, 3)]
        for order, name, tiles in [(0, "row-major", [2, 3]), (1, "column-major", [8, 12])]:
            self.assertEqual(tb.DenseGrid(d, domain, [1, 1], name).query(window).tiles, tiles)
            grid = tb.DenseGrid(d, domain, [1, 1], order)
            self.assertEqual((grid.order, grid.query(window).tiles), (name, tiles))
        for order in ("", "Row-major", "global", 2, -1, 2**64, 2**70, MOST):
            self.assertEqual(answered(lambda: tb.DenseGrid(d, domain, [1, 1], order)), ("refused", 1, 0, 0), msg=order)
        for order in (None, 1.0, b"row-major"):
            with self.assertRaises(TypeError):
                tb.DenseGrid(d, domain, [1, 1], order)

    def test_rooms(self):
        kinds, domain = ["int32", "int32"], [(0, 99), (0, 99)]
        windows = {10_000: domain, 4096: [(0, 63)] * 2, 4160: [(0, 63), (0, 64)], 9: [(5, 7)] * 2, 0: [(100, 101)] * 2}
        for found, window in windows.items():
            for room in (None, 0, 1, found - 1, found, found + 1, 4095, 4096, 4097, -1, 2**80):
                hit = said(kinds, domain, [1, 1], "column-major", window, room=room)
                listed = found if room is None else min(max(room, 0), found)
                self.assertEqual((len(hit.tiles), hit.found), (listed, found))
        with self.assertRaises(TypeError):
            tb.DenseGrid(tb.Description(["int32"], 1, 1), [(0, 9)], [5]).query([(0, 1)], room=1.5)


NUMBERS = [field.name for field in dataclasses.fields(tb.DenseFooter)]


class Footers(unittest.TestCase):
    def footer(self, kinds, domain, **changes):
        made = pieces.Footer(rules.Description(kinds, 2, 250), domain, tiles=0, last_cells=changes.pop("last_cells", 0))
        made.dense = 1
        for name, value in changes.items():
            setattr(made, name, value)
        return made

    def read(self, kinds, file_size, data, fields=2, capacity=250):
        """What the library reads, as text, which is what the reference does."""
        def read():
            footer = tb.read_dense_footer(tb.Description(kinds, fields, capacity), file_size, data)
            return repr({name: getattr(footer, name) for name in NUMBERS})

        def right():
            numbers = reference.footer(rules.Description(kinds, fields, capacity), file_size, data)
            numbers.update(schema_name=bytes(numbers.pop("name")), last_tile_cells=numbers.pop("last_cells"))
            lists = {name: tuple(numbers[name]) for name in NUMBERS if isinstance(numbers[name], list)}
            return repr({name: lists.get(name, numbers[name]) for name in NUMBERS})

        told, expected = answered(read), answered(right)
        self.assertEqual(told, expected)
        return told

    def test_every_number(self):
        for kinds in itertools.chain.from_iterable(itertools.product(ENDS, repeat=d) for d in (1, 2, 3)):
            made = self.footer(kinds, [(5, 9)] * len(kinds), last_cells=MOST)
            self.assertIn("'dense': 1", self.read(kinds, made.file_size, made.data()))
        d = tb.Description(["int32", "uint64"], 2, 250)
        made = self.footer(["int32", "uint64"], [(-5, 9), (2**63, MOST)], last_cells=7, name=b"\xff\0", name_size=2)
        made.length, made.file_size = made.total() - 8, made.total() + 1000
        footer = tb.read_dense_footer(d, made.file_size, bytearray(made.data()))
        self.assertEqual((footer.dense, footer.tiles, footer.last_tile_cells, footer.schema_name), (1, 0, 7, b"\xff\0"))
        self.assertEqual(footer.domain, ((-5, 9), (2**63, MOST)))
        self.assertEqual(footer.tile_offsets, tuple(made.offsets[0]))
        for name in ("cells", "total_cells"):
            self.assertFalse(hasattr(footer, name))
        self.assertLess(set(NUMBERS), {field.name for field in dataclasses.fields(tb.Footer)})
        self.assertEqual(tb.DenseGrid(d, footer.domain, [5, 2**62]).tiles, 6)

    def test_each_entry_has_its_own_flag(self):
        kinds, d = ["int32"], tb.Description(["int32"], 2, 250)
        made = self.footer(kinds, [(0, 9)], last_cells=1)
        at, size = 12 + len(made.name), made.file_size
        self.assertEqual(answered(lambda: tb.read_footer(d, size, made.data())), ("refused", 6, at, 0))
        made.tiles = 1
        self.assertEqual(self.read(kinds, size, made.data()), ("refused", 10, at + 10, 0))
        made.dense = 0
        self.assertEqual(self.read(kinds, size, made.data()), ("refused", 6, at, 0))
        self.assertEqual(tb.read_footer(d, size, made.data()).tiles, 1)
        made.dense = 2
        self.assertEqual(self.read(kinds, size, made.data()), ("refused", 5, at, 0))
        self.assertEqual(str(tb.Refused(6, at)), f"refused 6 at {at}: the dense flag is not this entry's")

    def test_kinds_come_first(self):
        for expected, kinds, fields in [
            ((29, 0), ["float64"], 2), ((29, 1), ["int32", "float64", "float64"], 2),
            ((28, 1), ["float64", "float32"], 2), ((1, 0), ["float64"], 0), ((1, 0), [], 2), ((1, 0), ["int32"] * 5, 2),
        ]:
            told = answered(lambda: tb.read_dense_footer(tb.Description(kinds, fields, 1), 0, b""))
            self.assertEqual(told, ("refused", *expected, 0))
        self.assertEqual(self.read(["int32"], 0, b""), ("refused", 2, 0, 0))

    def test_damaged_at_every_byte(self):
        kinds, seen = ["int64", "int32"], set()
        made = self.footer(kinds, [(-1, 9), (0, 0)])
        data = made.data()
        self.read(kinds, made.file_size, data)
        for at in range(len(data)):
            for change in (1, 2, 128, 255):
                told = self.read(kinds, made.file_size, data[:at] + bytes([data[at] ^ change]) + data[at + 1 :])
                seen.add(told[1] if isinstance(told, tuple) else 0)
            self.read(kinds, made.file_size, data[:at])
        for file_size in (0, len(data) - 1, len(data), len(data) + 91, len(data) + 92, MOST):
            self.read(kinds, file_size, data)
        self.read(kinds, made.file_size, data + b"\0")
        self.assertEqual(seen, {0, 2, 3, 4, 5, 6, 7, 9, 10, 12})


def run(*words):
    """What the command says and its exit status."""
    command = [sys.executable, "-W", "error", "-m", "tussockbell", *map(str, words)]
    done = subprocess.run(command, capture_output=True, text=True)
    return done.returncode, done.stdout, done.stderr


GRID = ["--kinds", "int32,int64", "--domain", "0:99,-50:49", "--extents", "10,25"]


class Command(unittest.TestCase):
    def test_tiles_one_a_line(self):
        window = ["--window", "5:14,-20:0"]
        self.assertEqual(run("dense", *GRID, *window), (0, "tiles\t40\tfound\t4\n1\n2\n5\n6\n", ""))
        other = run("dense", *GRID, *window, "--order", "column-major")
        self.assertEqual(other, (0, "tiles\t40\tfound\t4\n10\n11\n20\n21\n", ""))
        self.assertEqual(run("dense", *GRID, "--window", "-9:-1,0:0"), (0, "tiles\t40\tfound\t0\n", ""))
        below = ["--kinds", "int64", "--domain", "-50:49", "--extents", "50", "--window=-1:0"]
        self.assertEqual(run("dense", *below, "--fields", "3"), (0, "tiles\t2\tfound\t2\n0\n1\n", ""))

    def test_refused(self):
        text = "a float kind, an extent of 0, or a domain that does not split into whole tiles"
        asked = ["dense", "--kinds", "int32", "--domain", "0:99", "--window", "1:2"]
        for extents in ("0", "3", "101", str(MOST)):
            self.assertEqual(run(*asked, "--extents", extents), (1, "", f"tussockbell: refused 29 at 0: {text}\n"))
        reversed_ = run("dense", *GRID, "--window", "2:1,0:0")
        self.assertEqual(reversed_, (1, "", "tussockbell: refused 9 at 0: minimum above maximum\n"))
        outside = "tussockbell: refused 1 at 0: description outside the limits (fields is 0, where it is 1 to 64)\n"
        self.assertEqual(run(*asked, "--extents", "1", "--fields", "0"), (1, "", outside))

    def test_wrong_arguments(self):
        window = ["--window", "1:2"]
        for part, *words in [
            ("--extents", "dense", "--kinds", "int32", "--domain", "0:9", *window),
            ("--domain", "dense", "--kinds", "int32", "--extents", "5", *window),
            ("--extents", "dense", "--kinds", "int32", "--domain", "0:9", *window, "--extents", "5;5"),
            ("--order", "dense", *GRID, *window, "--order", "diagonal"),
            ("2^64 - 1", "dense", "--kinds", "int32", "--domain", "0:9", *window, "--extents", "-1"),
            ("2^64 - 1", "dense", "--kinds", "int32", "--domain", "0:9", *window, "--extents", str(2**64)),
            ("unrecognized", "dense", *GRID, *window, "footer"),
        ]:
            status, said, failed = run(*words)
            self.assertEqual((status, said), (2, ""), msg=words)
            self.assertRegex(failed, r"\Atussockbell: .*\n\Z")
            self.assertIn(part, failed)


class Plot(unittest.TestCase):
    def setUp(self):
        space = tempfile.TemporaryDirectory()
        self.addCleanup(space.cleanup)
        self.out = pathlib.Path(space.name, "a.svg")

    def drawn(self, *words):
        self.assertEqual(run("plot", *words, "--out", self.out), (0, "", ""))
        picture = xml.parse(self.out).getroot()
        self.assertEqual(picture.tag, SVG + "svg")
        return picture

    def named(self, picture, kind):
        return [rect for rect in picture.iter(SVG + "rect") if rect.get("class") == kind]

    def test_tiles_and_their_numbers(self):
        for order, found in (("row-major", [1, 2, 5, 6]), ("column-major", [10, 11, 20, 21])):
            picture = self.drawn(*GRID, "--window", "5:14,-20:0", "--order", order)
            touched = self.named(picture, "tile touched")
            self.assertEqual((len(touched), len(self.named(picture, "tile"))), (4, 36))
            words = [text.text for text in picture.iter(SVG + "text")]
            self.assertIn(f"40 tiles, {order}: the window touches 4", words)
            self.assertIn("dimension 1 (int64)", words)
            numbers = [text for text in picture.iter(SVG + "text") if text.get("class") == "number"]
            self.assertEqual(sorted(int(text.text) for text in numbers), list(range(40)))
            for text in numbers:
                x, y, tile = float(text.get("x")), float(text.get("y")), int(text.text)
                sides = [[float(rect.get(name)) for name in ("x", "y", "width", "height")] for rect in touched]
                self.assertEqual(any(a < x < a + w and b < y < b + h for a, b, w, h in sides), tile in found)

    def test_axes_and_ends(self):
        picture = self.drawn(*GRID, "--window", "5:14,-20:0", "--axes", "1,0")
        words = [text.text for text in picture.iter(SVG + "text")]
        self.assertLess(words.index("dimension 1 (int64)"), words.index("dimension 0 (int32)"))
        domain, extents = f"0:{MOST},{-(2**63)}:{2**63 - 1}", f"{2**62},{2**61}"
        wide = ["--kinds", "uint64,int64", "--domain", domain, "--extents", extents]
        self.assertEqual(len(self.named(self.drawn(*wide, "--window", f"0:{MOST},0:0"), "tile touched")), 4)
        self.assertEqual(len(self.named(self.drawn(*GRID, "--window", "200:300,0:0"), "window")), 0)

    def test_refused_and_failed(self):
        kinds = ["--kinds", "int32,int32"]
        for expected, words in [
            ((1, "refused 29 at 0"), [*kinds, "--domain", "0:9,0:9", "--extents", "3,1", "--window", "0:1,0:1"]),
            ((1, "refused 9 at 1"), [*GRID, "--window", "0:1,1:0"]),
            ((2, "--axes"), [*GRID, "--window", "0:1,0:1", "--axes", "0,2"]),
            ((2, "--domain"), [*kinds, "--extents", "5,5", "--window", "0:1,0:1"]),
            ((2, "unrecognized"), [*GRID, "--window", "0:1,0:1", "footer", "tree"]),
        ]:
            status, said, failed = run("plot", *words, "--out", self.out)
            self.assertEqual((status, said), (expected[0], ""))
            self.assertIn(expected[1], failed)
            self.assertFalse(self.out.exists())


if __name__ == "__main__":
    unittest.main()
