"""The pictures of `plot`, parsed: what is drawn of a tree and of a grid, of one dimension and of two; numbers at the axes, which are
exact; very many tiles; and what is said in words."""

import math
import pathlib
import random
import re
import struct
import subprocess
import sys
import tempfile
import unittest
import xml.etree.ElementTree as xml
from fractions import Fraction

root = pathlib.Path(__file__).resolve().parents[2]
sys.path.insert(0, str(root / "tests/reference"))

import dense as grids
import pieces
import rules
import tussockbell as tb
from tussockbell import _axes
from tussockbell.__main__ import main

SVG = "{http://www.w3.org/2000/svg}"
SAMPLE = [root / "tests/fixtures/sample" / name for name in ("footer", "tree")]
# A time in nanoseconds, of which a float keeps no more than every 256th.
TIME = 1_700_000_000_000_000_000
LETTERS = {"int32": "i", "int64": "q", "uint64": "Q", "float64": "d"}


def run(*words):
    """What the command says and its exit status."""
    done = subprocess.run([sys.executable, "-W", "error", "-m", "tussockbell", *map(str, words)], capture_output=True, text=True)
    return done.returncode, done.stdout, done.stderr


def options(kinds, size):
    return ["--kinds", ",".join(kinds), "--fields", "2", "--capacity", "50", "--file-size", str(size)]


class Picture(unittest.TestCase):
    def setUp(self):
        space = tempfile.TemporaryDirectory()
        self.addCleanup(space.cleanup)
        self.folder = pathlib.Path(space.name)
        self.out = self.folder / "a.svg"

    def keep(self, kinds, leaves, fanout=4):
        """Writes a footer and a tree over these boxes. Large trees are written by the library, whose trees are tested elsewhere."""
        self.kinds, known = kinds, rules.Description(kinds, 2, 50)
        made = pieces.Footer(known, pieces.around(leaves), tiles=len(leaves), last_cells=9)
        if len(leaves) < 1000:
            self.tree = pieces.tree(kinds, leaves, fanout)
        else:
            pack = struct.Struct("<" + "".join(2 * LETTERS[kind] for kind in kinds)).pack
            packed = b"".join(pack(*(end for side in box for end in side)) for box in leaves)
            self.tree = tb.write_tree(tb.Description(kinds, 2, 50), len(leaves), fanout, packed)
        self.size, self.known, self.tiles = made.file_size, known, len(leaves)
        (self.folder / "footer").write_bytes(made.data())
        (self.folder / "tree").write_bytes(self.tree)

    def words(self, window, *more):
        files = [self.folder / "footer", self.folder / "tree"]
        return ["plot", *options(self.kinds, self.size), "--window", window, "--out", str(self.out), *map(str, [*more, *files])]

    def draw(self, window, *more):
        """The picture as the command of this process draws it, with what holds of every picture looked at."""
        self.assertEqual(main(self.words(window, *more)), 0)
        return self.parsed()

    def parsed(self):
        picture = xml.parse(self.out).getroot()
        self.assertEqual(picture.tag, SVG + "svg")
        width, height = float(picture.get("width")), float(picture.get("height"))
        self.assertEqual(picture.get("viewBox"), f"0 0 {width:.0f} {height:.0f}")
        for each in picture.iter():
            for name, most in (("x", width), ("x1", width), ("x2", width), ("y", height), ("y1", height), ("y2", height)):
                if each.get(name) is not None:
                    self.assertTrue(0 <= float(each.get(name)) <= most, msg=each.attrib)
        for rect in picture.iter(SVG + "rect"):
            x, y, wide, high = (float(rect.get(name, 0)) for name in ("x", "y", "width", "height"))
            self.assertTrue(0 < wide and 0 < high and x + wide <= width and y + high <= height, msg=rect.attrib)
        return picture

    def classes(self, picture):
        return [rect.get("class") for rect in picture.iter(SVG + "rect")]

    def texts(self, picture, kind=None):
        return [text.text for text in picture.iter(SVG + "text") if kind is None or text.get("class") == kind]

    def notes(self, picture):
        return " ".join(self.texts(picture, "note"))


class Trees(Picture):
    def setUp(self):
        super().setUp()
        self.keep(["int32", "float64", "int64"], [[(10 * i, 10 * i + 7), (i / 4, i / 4 + 2.5), (-i, 2**40)] for i in range(25)])

    def found(self, window):
        return rules.query(self.known, self.tiles, self.tree, self.kinds, window)

    def test_two_dimensions(self):
        for asked in (
            [(-(2**31), 2**31 - 1), (-math.inf, math.inf), (0, 0)], [(33, 61), (1, 1.5), (-99, 99)], [(-9, -1), (0, 1), (0, 0)],
            [(0, 1000), (0, 1000), (-100, 100)], [(35, 35), (2, 2), (0, 0)],
        ):
            found, looked = self.found(asked)
            picture = self.draw(",".join(f"{low}:{high}" for low, high in asked))
            classes, texts = self.classes(picture), self.texts(picture)
            self.assertEqual([classes.count(kind) for kind in ("tile touched", "tile", "level")], [len(found), 25 - len(found), 1 + 2 + 7])
            self.assertIn(f"25 tiles, fanout 4: the window touches {len(found)}, {looked} box{'es' * (looked != 1)} looked at", texts)
            legend = [f"touched ({len(found)})", f"not touched ({25 - len(found)})", "boxes above the tiles (3 levels)", "window"]
            self.assertEqual(self.texts(picture, "legend"), legend)
            self.assertIn(f"Dimension 2 (int64) is not drawn: the tiles lie from -24 to {2**40}, the window from ", self.notes(picture))

    def test_where_boxes_lie(self):
        """Each touched tile is drawn where the ticks of the axes say that its ends are."""
        picture = self.draw("33:61,:,:")
        found, _ = self.found([(33, 61), (-math.inf, math.inf), (-(2**63), 2**63 - 1)])
        self.assertEqual(found, [3, 4, 5, 6])
        across, up = self.ticks(picture)
        for tile, rect in zip(found, [rect for rect in picture.iter(SVG + "rect") if rect.get("class") == "tile touched"]):
            x, y, wide, high = (float(rect.get(name)) for name in ("x", "y", "width", "height"))
            sides = [(x, across, 10 * tile), (x + wide, across, 10 * tile + 7), (y + high, up, tile / 4), (y, up, tile / 4 + 2.5)]
            for at, line, expected in sides:
                (first, least), (last, greatest) = min(line), max(line)
                number = least + (at - first) / (last - first) * (greatest - least)
                self.assertAlmostEqual(number, expected, delta=abs(greatest - least) / 1000)

    def ticks(self, picture):
        """Places and labels of the ticks across and up."""
        lines = [line for line in picture.iter(SVG + "line") if line.get("class") == "tick"]
        texts = [text for text in picture.iter(SVG + "text") if text.get("class") is None]
        across, up = [], []
        for line in lines:
            x1, x2, y1, y2 = (float(line.get(name)) for name in ("x1", "x2", "y1", "y2"))
            for text in texts:
                x, y = float(text.get("x")), float(text.get("y"))
                if x1 == x2 and x == x1 and abs(y - y2) < 20:
                    across.append((x1, float(text.text)))
                if y1 == y2 and abs(y - 4 - y1) < 0.02 and text.get("text-anchor") == "end":
                    up.append((y1, float(text.text)))
        self.assertTrue(len(across) > 1 and len(up) > 1)
        return across, up

    def test_axes(self):
        texts = self.texts(self.draw("0:50,0:5,0:9", "--axes", "2,0"))
        self.assertLess(texts.index("dimension 2 (int64) = label × 10^11"), texts.index("dimension 0 (int32)"))
        self.assertEqual(main(self.words("0:50,0:5,0:9", "--axes", "1")), 0)
        for axes in ("0,3", "1,1", "3", "-1", "a,b", "0,1,2", ""):
            status, said, failed = run(*self.words("0:50,0:5,0:9", f"--axes={axes}"))
            self.assertEqual((status, said), (2, ""))
            self.assertIn("--axes", failed)

    def test_one_dimension(self):
        """A row for each level, and one of tiles; two where tiles overlap, so that none hides another."""
        words = ["plot", "--kinds", "int32", "--fields", 1, "--capacity", 32, "--file-size", 1166, "--window", "12:21", "--out", self.out]
        self.assertEqual(run(*words, *SAMPLE), (0, "", ""))
        picture = self.parsed()
        classes = self.classes(picture)
        self.assertEqual([classes.count(kind) for kind in ("bar touched", "bar", "level", "window")], [2, 1, 3, 1])
        for word in ("level 1", "level 2", "tiles", "dimension 0 (int32)"):
            self.assertIn(word, self.texts(picture))
        heights = {rect.get("y") for rect in picture.iter(SVG + "rect") if rect.get("class") in ("bar", "bar touched")}
        self.assertEqual(len(heights), 1)
        self.keep(["float64"], [[(i, i + 2.5)] for i in range(30)])
        picture = self.draw("3.5:7")
        heights = [rect.get("y") for rect in picture.iter(SVG + "rect") if rect.get("class") in ("bar", "bar touched")]
        self.assertEqual((len(heights), len(set(heights))), (30, 3))
        self.assertEqual(self.classes(picture).count("bar touched"), len(self.found([(3.5, 7)])[0]))
        self.assertEqual(self.classes(picture).count("level"), 1 + 2 + 8)

    def test_windows_that_find_nothing(self):
        note = "The window lies outside of all tiles: in dimension 0 the tiles lie from 0 to 247, the window from 500 to 600."
        picture = self.draw("500:600,:,:")
        self.assertIn(note, self.notes(picture))
        self.assertEqual(self.classes(picture).count("window"), 0)
        self.assertIn("; in dimension 2 the tiles lie", self.notes(self.draw(":-1,:,:-9999")))
        picture = self.draw("8:9,:,:")
        self.assertIn("The window lies among the tiles and touches none.", self.notes(picture))
        self.assertEqual(self.classes(picture).count("window"), 1)
        self.assertNotIn("The window", self.notes(self.draw("7:9,:,:")))

    def test_refused_and_failed(self):
        status, _, failed = run(*self.words("9:0,0:5,0:9"))
        self.assertEqual((status, failed.split(":")[1]), (1, " refused 9 at 0"))
        self.assertFalse(self.out.exists())
        for out, why in (("none/a.svg", "No such file"), ("/dev/full", "tussockbell: /dev/full: No space left on device\n")):
            self.out = self.folder / out
            status, _, failed = run(*self.words("0:9,0:5,0:9"))
            self.assertEqual(status, 2)
            self.assertIn(why, failed)

    def test_ends_of_any_size(self):
        """Near the largest float64 and the smallest, alike, next to each other; and windows past what a float holds."""
        most, next_, least = sys.float_info.max, 1.7976931348623155e308, 5e-324
        for low, high in (
            (-most, most), (most, most), (-most, -most), (next_, most), (-1.0, most), (-most, 0.0), (1e308, 1.5e308),
            (1e300, 2e300), (-1e299, 1e299), (2.0**53, 2.0**53 + 2), (1.0, 1.0000000000000002), (0.0, 0.0),
            (0.0, least), (-least, least), (0.0, 40 * least), (least, 1e-310),
        ):
            self.keep(["float64"] * 2, [[(low, high), (low, high)], [(high, high), (low, low)]])
            for window in (":,:", "-inf:inf,:inf", f"{low!r}:{high!r},{low!r}:{high!r}", f"-{10**400}:{10**400},{low!r}:inf"):
                classes = self.classes(self.draw(window))
                self.assertEqual(classes.count("tile touched") + classes.count("tile"), 2)
                self.assertGreaterEqual(classes.count("tile touched"), 1)
                self.assertEqual(self.classes(self.draw(window, "--axes", "1")).count("level"), 1)
        last = 2**64 - 1
        for kind, low, high in (("int64", -(2**63), 2**63 - 1), ("uint64", 0, last), ("uint64", last, last), ("int32", 5, 5)):
            self.keep([kind] * 2, [[(low, high), (low, high)]])
            for window in (f"{low}:{high},{low}:{high}", ":,:"):
                self.assertEqual(self.classes(self.draw(window)).count("tile touched"), 1)

    def test_a_point_is_seen(self):
        self.keep(["int32", "int32"], [[(0, 0), (0, 0)], [(1000, 1000), (1000, 1000)]])
        for rect in self.draw("0:0,0:0").iter(SVG + "rect"):
            if rect.get("class") in ("tile", "tile touched"):
                self.assertGreaterEqual(min(float(rect.get("width")), float(rect.get("height"))), 3)


class Ticks(unittest.TestCase):
    def numbers(self, axis):
        """What the labels stand for, by what the axis says of them."""
        how = axis.title.partition(" = ")[2] or "label"
        base, _, rest = how.rpartition(" + ")
        exact = lambda text: Fraction(text.partition(" × ")[0]) * (Fraction(10) ** int(text.partition("^")[2] or 0))
        factor = Fraction(10) ** int(rest.partition("^")[2] or 0)
        self.assertRegex(rest, r"\Alabel( × 10\^-?\d+)?\Z")
        return [(exact(base) if base else 0) + Fraction(tick.label) * factor for tick in axis.ticks]

    def test_exact(self):
        """Each label stands for the number at which its tick is, to the last digit; labels differ, and are short."""
        chance = random.Random(3)
        ends = [
            ("int32", 0, 24), ("int32", 5, 5), ("int32", 2**31 - 5, 2**31 - 1), ("int64", TIME, TIME + 90), ("int64", TIME - 1, TIME),
            ("int64", TIME, TIME + 3600 * 10**9), ("int64", -(2**63), 2**63 - 1), ("uint64", 0, 2**64 - 1),
            ("uint64", 2**64 - 1, 2**64 - 1), ("float64", 1e9, 1e9 + 1e-3), ("float64", 1.0, 1.0000000000000002),
            ("float64", -1.7e308, 1.7e308), ("float64", 0.0, 5e-324), ("float64", 1e308, 1.00000001e308), ("float64", -0.7, 0.3),
            ("float64", 1e-310, 3e-310), ("float64", 0.0, 0.0),
        ]
        for _ in range(300):
            start, wide = chance.randrange(-(2**62), 2**62), 10 ** chance.randrange(18)
            ends.append(("int64", start, start + chance.randrange(wide)))
            low = chance.uniform(-1, 1) * 10.0 ** chance.randrange(-30, 30)
            ends.append(("float64", low, low + abs(low) * 10.0 ** -chance.randrange(15)))
        for kind, low, high in ends:
            axis = _axes.Axis("dimension 0", kind, low, high, 90, 650)
            numbers = self.numbers(axis)
            self.assertTrue(1 <= len(numbers) <= 7 and (len(numbers) > 1 or low == high), msg=(kind, low, high))
            self.assertEqual(sorted(set(numbers)), numbers)
            self.assertLessEqual(max(len(tick.label) for tick in axis.ticks), 8, msg=(axis.title, axis.ticks))
            first, last = Fraction(axis.low), Fraction(axis.high)
            for tick, number in zip(axis.ticks, numbers):
                self.assertAlmostEqual(float((number - first) / (last - first)), (tick.at - 90) / 650, places=9)
                if kind != "float64":
                    self.assertEqual(number.denominator, 1)
                    self.assertTrue(-(2**63) <= number < 2**64 and (kind != "uint64" or number >= 0))

    def test_labels(self):
        for kind, low, high, title, labels in (
            ("int32", 0, 24, "x", "0 5 10 15 20 25"), ("float64", -0.7, 0.3, "x", "-0.6 -0.4 -0.2 0.0 0.2"),
            ("int64", TIME, TIME + 90, f"x = {TIME} + label", "0 20 40 60 80"),
            ("int64", TIME, TIME + 3600 * 10**9, f"x = {TIME} + label × 10^12", "0 1 2 3"),
            ("int64", -(2**63), 2**63 - 1, "x = label × 10^18", "-5 0 5"), ("float64", 0.0, 3e-9, "x = label × 10^-9", "0 1 2 3"),
        ):
            axis = _axes.Axis("x", kind, low, high, 90, 650)
            self.assertEqual((axis.title, " ".join(tick.label for tick in axis.ticks)), (title, labels))

    def test_in_the_picture(self):
        space = tempfile.TemporaryDirectory()
        self.addCleanup(space.cleanup)
        out = pathlib.Path(space.name, "a.svg")
        given = ["--kinds", "int64", "--domain", f"{TIME}:{TIME + 999}", "--extents", "50", "--window", f"{TIME}:"]
        self.assertEqual(main(["plot", *given, "--out", str(out)]), 0)
        texts = [text.text for text in xml.parse(out).getroot().iter(SVG + "text")]
        self.assertIn(f"dimension 0 (int64) = {TIME} + label", texts)
        for label in ("0", "200", "400", "600", "800", "1000"):
            self.assertIn(label, texts)


class Many(Picture):
    def boxes(self, count):
        return [[(i % 250, i % 250), (i // 250, i // 250 + 1)] for i in range(count)]

    def shades(self, picture):
        """The cells of each shade, by its colour."""
        cells = {}
        for path in picture.iter(SVG + "path"):
            if path.get("class") == "shade":
                runs = re.findall(r"M(\d+) (\d+)h(\d+)v5h-\3z", path.get("d"))
                self.assertEqual("".join(f"M{x} {y}h{w}v5h-{w}z" for x, y, w in runs), path.get("d"))
                cells[path.get("fill")] = {(int(x) + 5 * i, int(y)) for x, y, w in runs for i in range(int(w) // 5)}
        return cells

    def test_one_by_one_up_to_the_limit(self):
        self.keep(["int32", "int32"], self.boxes(4000), 50)
        picture = self.draw("0:9,0:0")
        self.assertEqual([self.classes(picture).count(kind) for kind in ("tile touched", "tile")], [10, 3990])
        self.assertEqual((self.shades(picture), self.notes(picture)), ({}, ""))
        self.keep(["int32", "int32"], self.boxes(4001), 50)
        picture = self.draw("0:9,0:0")
        self.assertEqual([self.classes(picture).count(kind) for kind in ("tile touched", "tile")], [10, 0])
        self.assertIn("More than 4000 tiles are not drawn one by one", self.notes(picture))
        self.assertTrue(self.shades(picture))

    def cells(self, axis, count, side):
        """In which of so many cells the ends lie; one on the edge of two lies in the lower."""
        low, high = Fraction(axis.low), Fraction(axis.high)
        return [math.floor((Fraction(end) - low) / (high - low) * count * (1 - Fraction(1, 2**40))) for end in side]

    def test_counts(self):
        """Every cell has the shade of as many boxes as lie over it, counted one by one."""
        chance = random.Random(11)
        corners = [(chance.gauss(0, 40), chance.randrange(-300, 300)) for _ in range(4100)]
        boxes = [[(x, x + chance.uniform(0, 30)), (y, y + chance.randrange(40))] for x, y in corners]
        self.keep(["float64", "int64"], boxes, 64)
        picture = self.draw("-10:10,-100:50")
        across, up = (_axes.Axis("", kind, *pieces.around(boxes)[i], 0, 1) for i, kind in enumerate(self.kinds))
        counts = {}
        for sides in boxes:
            (left, right), (low, high) = map(self.cells, (across, up), (130, 90), sides)
            for column in range(left, right + 1):
                for row in range(low, high + 1):
                    counts[column, row] = counts.get((column, row), 0) + 1
        shades = self.shades(picture)
        legend = self.texts(picture, "legend")
        greys = [fill for fill in GREYS if fill in shades]
        first = legend.index("tiles over a place:") + 1
        ranges = [(int(text.split("–")[0]), int(text.split("–")[-1])) for text in legend[first : first + len(greys)]]
        self.assertEqual(max(counts.values()), ranges[-1][1])
        top = min(y for cells in shades.values() for _, y in cells) - min(89 - row for _, row in counts) * 5
        for fill, (least, greatest) in zip(greys, ranges):
            expected = {(90 + 5 * column, top + 5 * (89 - row)) for (column, row), count in counts.items() if least <= count <= greatest}
            self.assertEqual(shades[fill], expected)
        self.assertGreaterEqual(len(ranges), 5)

    def test_very_many(self):
        """The picture of 100,000 tiles is small; touched ones are drawn each while they are few, and counted else."""
        self.keep(["int32", "int32"], self.boxes(100_000), 16)
        for window, found in (("100:105,200:203", 30), (":,:", 100_000)):
            picture = self.draw(window)
            self.assertLess(self.out.stat().st_size, 500_000)
            self.assertIn(f"100000 tiles, fanout 16: the window touches {found}, ", self.texts(picture)[0])
            few = found < 1000
            self.assertEqual(self.classes(picture).count("tile touched"), found if few else 0)
            legend = self.texts(picture, "legend")
            self.assertEqual("touched over a place:" in legend, not few)
            self.assertIn("boxes above the tiles (3 of 5 levels)", legend)
            self.assertEqual(self.classes(picture).count("level"), 1 + 2 + 25)
            self.assertLessEqual(sum(map(len, self.shades(picture).values())), 2 * 130 * 90)

    def test_one_dimension(self):
        self.keep(["int64"], [[(TIME + 10 * i, TIME + 10 * i + 15)] for i in range(5000)], 16)
        picture = self.draw(f"{TIME + 20000}:{TIME + 30000}")
        paths = {path.get("class"): path.get("d") for path in picture.iter(SVG + "path")}
        self.assertEqual(set(paths), {"counted", "counted found", "axis"})
        heights = {kind: [float(y) for y in re.findall(r"L\d+ ([\d.]+)h1", paths[kind])] for kind in ("counted", "counted found")}
        self.assertEqual([len(each) for each in heights.values()], [650, 650])
        floor = max(heights["counted"])
        touched = [at for at, y in enumerate(heights["counted found"]) if y < floor]
        # The window is a fifth of what is drawn but for 4 parts of a hundred on both sides, and its tiles go a little beyond it.
        self.assertTrue(all(heights["counted"][at] < floor for at in touched))
        self.assertAlmostEqual(len(touched), 650 / 1.08 / 5, delta=3)
        self.assertEqual(touched, list(range(touched[0], touched[-1] + 1)))
        self.assertIn("touched (1002)", self.texts(picture, "legend"))
        self.assertIn("tiles over a place", self.texts(picture))

    def test_ends_past_the_middle_of_floats(self):
        most = sys.float_info.max
        self.keep(["float64", "float64"], [[(-most, most), (most, most)]] * 2100 + [[(0.0, most), (-most, 0.0)]] * 2100, 64)
        for more in ((), ("--axes", "0")):
            picture = self.draw(":,:", *more)
            self.assertIn("touched (4200)" if more else "touched over a place:", self.texts(picture, "legend"))


GREYS = ("#e6e8ec", "#d0d4db", "#b8bec8", "#a0a8b4", "#8790a0", "#6c7686")


class Grids(Picture):
    def grid(self, *words):
        self.assertEqual(main(["plot", *map(str, words), "--out", str(self.out)]), 0)
        return self.parsed()

    def test_some_of_the_dimensions(self):
        """A place is touched if a tile that lies there is, and what is not drawn is said."""
        kinds, domain, extents = ["int32", "int64", "uint64"], [(0, 39), (-6, 5), (2, 9)], [10, 3, 2]
        given = ["--kinds", ",".join(kinds), "--domain", "0:39,-6:5,2:9", "--extents", "10,3,2"]
        for order in ("row-major", "column-major"):
            windows = {"5:14,-3:-3,4:20": [(5, 14), (-3, -3), (4, 20)], ":,:,:3": [(0, 39), (-6, 5), (0, 3)], ":,9:,:": None}
            for asked, window in windows.items():
                number = ["row-major", "column-major"].index(order)
                known = rules.Description(kinds, 1, 1)
                found = [] if window is None else grids.query(known, kinds, domain, extents, number, kinds, window)
                for axes in ([0, 1], [2, 0], [1], [2]):
                    picture = self.grid(*given, "--order", order, "--window", asked, "--axes", ",".join(map(str, axes)))
                    places = {tuple(self.place(tile, order)[axis] for axis in axes) for tile in found}
                    kind = "tile" if len(axes) == 2 else "bar"
                    counts = [self.classes(picture).count(each) for each in (f"{kind} touched", kind)]
                    self.assertEqual(counts, [len(places), math.prod(4 for _ in axes) - len(places)], msg=(order, asked, axes))
                    self.assertEqual(self.texts(picture, "number"), [])
                    self.assertIn(f"64 tiles, {order}: the window touches {len(found)}", self.texts(picture))
                    self.assertEqual(self.notes(picture).count("is not drawn"), 3 - len(axes))
                    self.assertEqual("lies outside" in self.notes(picture), window is None)

    def place(self, tile, order):
        places = [tile // 16, tile // 4 % 4, tile % 4]
        return places if order == "row-major" else places[::-1]

    def test_one_dimension(self):
        picture = self.grid("--kinds", "int64", "--domain", "0:99", "--extents", 10, "--window", "25:44")
        self.assertEqual([self.classes(picture).count(kind) for kind in ("bar touched", "bar", "level")], [3, 7, 0])
        self.assertEqual(sorted(map(int, self.texts(picture, "number"))), list(range(10)))
        heights = {rect.get("y") for rect in picture.iter(SVG + "rect") if rect.get("class") in ("bar", "bar touched")}
        self.assertEqual(len(heights), 1)

    def test_very_many(self):
        picture = self.grid("--kinds", "int32,int32", "--domain", "0:9999,0:9999", "--extents", "10,10", "--window", "1500:4400,30:3000")
        self.assertEqual([self.classes(picture).count(kind) for kind in ("tile touched", "tile")], [1, 1])
        self.assertIn("a tile has 10 by 10 cells.", self.notes(picture).lower())
        self.assertIn("touched (86718)", self.texts(picture, "legend"))
        self.assertLess(self.out.stat().st_size, 20_000)
        [whole] = [rect for rect in picture.iter(SVG + "rect") if rect.get("class") == "tile"]
        [block] = [rect for rect in picture.iter(SVG + "rect") if rect.get("class") == "tile touched"]
        self.assertAlmostEqual(float(block.get("width")) / float(whole.get("width")), 2910 / 10000, places=4)
        self.assertAlmostEqual(float(block.get("height")) / float(whole.get("height")), 2980 / 10000, places=4)


if __name__ == "__main__":
    unittest.main()
