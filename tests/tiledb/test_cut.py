"""The cutting of a metadata file, and the comparing of a fragment, tested on files that are put together here."""

import pathlib
import random
import struct
import sys
import unittest

here = pathlib.Path(__file__).parent
sys.path.insert(0, str(here.parent / "reference"))

import compare
import cut
import pieces
import rules


def metadata_file(d, footer, tree, lists, compressed, largest):
    """The tiles one after the other, and the footer with their offsets. `lists` has those of each field one kind of list after the other."""
    data, places = b"", []
    for body in [tree] + lists:
        places.append(len(data))
        data += cut.write_generic_tile(body, compressed, largest)
    footer.rtree = places[0]
    footer.file_size = len(data) + footer.total()
    for a in range(8):
        footer.offsets[a] = places[1 + a * d.fields :][: d.fields] or [0] * d.fields
    footer.fragment = footer.conditions = 0
    return data + footer.data()


class Cutting(unittest.TestCase):
    def test_every_fixture_comes_back(self):
        seen = 0
        for folder in sorted((here.parent / "fixtures").iterdir()):
            if not (folder / "about").exists():
                continue
            kinds, fields, capacity, _, size = (folder / "about").read_text().splitlines()
            d = rules.Description(kinds.split(), int(fields), int(capacity))
            tree, offsets = (folder / "tree").read_bytes(), (folder / "offsets").read_bytes()
            n = struct.unpack_from("<Q", offsets)[0]
            for compressed in (False, True):
                for largest in (65536, 50):
                    middles = [pieces.origin(kind) for kind in d.kinds]
                    foot = pieces.Footer(d, [(middle - 10**6, middle + 10**6) for middle in middles], tiles=n)
                    data = metadata_file(d, foot, tree, [offsets] * d.fields, compressed, largest)
                    got = cut.cut(data, d.box_bytes(), d.fields)
                    self.assertEqual(got, (foot.data(), tree, [offsets] * d.fields))
                    self.assertEqual(rules.open_tree(d, len(data), got[0], got[1])["tiles"], n)
                    self.assertEqual(rules.offsets(n, int(size), got[2][0]), [rules.number(offsets, 8 + 8 * i, 8) for i in range(n)])
                    seen += 1
        self.assertGreaterEqual(seen, 32)

    def test_what_cannot_be_read_is_an_error(self):
        tile = bytearray(cut.write_generic_tile(b"abc" * 100, True))
        tile[29] = 2  # encryption
        with self.assertRaises(cut.NotReadable):
            cut.generic_tile(bytes(tile), 0)
        tile = bytearray(cut.write_generic_tile(b"abc" * 100, True))
        tile[cut.HEADER.size + 8] = 9  # a filter that is not gzip
        with self.assertRaises(cut.NotReadable):
            cut.generic_tile(bytes(tile), 0)
        tile = bytearray(cut.write_generic_tile(b"abc" * 100, False))
        tile[12] += 1  # tile size
        with self.assertRaises(cut.NotReadable):
            cut.generic_tile(bytes(tile), 0)


def fragment(kinds, capacity, cells, chance):
    """A fragment of random cells, sorted, with the lists of both attributes."""
    all_cells = [(tuple(compare.number(k, chance, 1000) for k in kinds), b"x" * chance.randrange(9)) for _ in range(cells)]
    known = compare.Fragment(kinds, capacity, b"", sorted(all_cells), 7 * cells, 3 * cells)
    tiles = compare.tiles_of(known)
    d = rules.Description(kinds, len(kinds) + compare.OTHER_FIELDS, capacity)
    boxes = [compare.box(part) for part in tiles]
    starts = [capacity * i for i in range(len(tiles))]
    lists = [pieces.entries([7 * x for x in starts])] * d.fields + [pieces.entries([3 * x for x in starts])] * d.fields
    lists += [pieces.entries([sum(len(text) for _, text in part) for part in tiles])] * d.fields
    foot = pieces.Footer(d, pieces.around(boxes), tiles=len(tiles), last_cells=len(tiles[-1]))
    return known._replace(data=metadata_file(d, foot, pieces.tree(kinds, boxes, 3), lists, True, 65536))


class Comparing(unittest.TestCase):
    """What is compared with TileDB, of fragments that are put together here: right ones agree, and each wrong one is told."""

    def test_right_ones_agree(self):
        for kinds, capacity, cells in compare.CASES:
            chance = random.Random(len(kinds) + cells)
            self.assertEqual(compare.compare(fragment(kinds, capacity, cells, chance), chance, 30), 30)

    def test_wrong_ones_are_told(self):
        for kinds, capacity, cells in compare.CASES:
            right = fragment(kinds, capacity, cells, random.Random(5))
            far = tuple(compare.number(kind, random.Random(0), 0) + 1000 for kind in kinds)
            wrong = [
                right._replace(cells=[(far, right.cells[0][1])] + right.cells[1:]), right._replace(cells=right.cells[:-capacity]),
                right._replace(cells=[(right.cells[0][0], b"x" * 99)] + right.cells[1:]), right._replace(capacity=capacity + 1),
            ]
            for each in wrong:
                with self.assertRaises(compare.Differs):
                    compare.compare(each, random.Random(6), 300)


if __name__ == "__main__":
    unittest.main()
