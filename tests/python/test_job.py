"""The examples that write fragments and read them, against the reference: every byte that is written, and every value that is read."""

import contextlib
import io
import pathlib
import struct
import sys
import tempfile
import unittest
from unittest import mock

root = pathlib.Path(__file__).resolve().parents[2]
sys.path[:0] = [str(root / "tests/reference"), str(root / "examples")]

import fragments
import job
import pieces
import plan as reference
import rules

KINDS = ["int64", "float64"]
KNOWN = rules.Description(KINDS, 1, fragments.CELLS)


class Written(unittest.TestCase):
    def setUp(self):
        folder = tempfile.TemporaryDirectory()
        self.addCleanup(folder.cleanup)
        self.folder = pathlib.Path(folder.name)
        self.folders = [self.folder / name for name in ("a", "b", "c")]
        for tiles, folder in zip((1, 70, 300), self.folders):
            fragments.write(folder, tiles, seed=tiles)

    def bytes_of(self, folder):
        return [(folder / name).read_bytes() for name in ("footer", "tree", "offsets", "data")]

    def test_footer(self):
        """As the tests' own writer has it."""
        domain = [(-5, 9), (0.25, 1.5)]
        right = pieces.Footer(KNOWN, domain, tiles=3, last_cells=5, name=fragments.SCHEMA)
        right.deletes, right.sizes, right.rtree = 0, [[77], [0], [0]], 12
        right.offsets, right.fragment, right.conditions = [[34]] + [[0]] * 7, 0, 0
        self.assertEqual(fragments.footer(pieces.box(KINDS, domain), 3, 5, [77], rtree=12, tile_offsets=[34]), right.data())

    def test_every_part_is_accepted(self):
        for tiles, folder in zip((1, 70, 300), self.folders):
            footer, tree, offsets, data = self.bytes_of(folder)
            file_size = len(footer + tree + offsets)
            self.assertEqual(rules.open_tree(KNOWN, file_size, footer, tree)["tiles"], tiles)
            answer = rules.footer(KNOWN, file_size, footer)
            self.assertEqual(answer["file_sizes"], [len(data)])
            cells = [rules.cells(tiles, answer["last_cells"], fragments.CELLS, i) for i in range(tiles)]
            self.assertEqual([length // 8 for _, length in rules.extents(tiles, len(data), offsets)], cells)
            with fragments.opened(folder) as fragment:
                self.assertEqual((fragment.footer.tiles, list(fragment.footer.cells(range(tiles)))), (tiles, cells))

    def test_job(self):
        """Each value of each tile that some window touches, once."""
        asked = job.windows(300 * fragments.CELLS)
        parts = []
        for tiles, folder in zip((1, 70, 300), self.folders):
            footer, tree, offsets, data = self.bytes_of(folder)
            run = [tile for window in asked for tile in rules.query(KNOWN, tiles, tree, KINDS, window)[0]]
            extents = rules.extents(tiles, len(data), offsets)
            values = [x for tile in sorted(set(run)) for x in struct.unpack_from(f"<{extents[tile][1] // 8}d", data, extents[tile][0])]
            ranges = reference.ranges_by_bytes(extents, run, 0)
            parts.append(job.Part(len(set(run)), len(ranges), 8 * len(values), len(values), sum(values)))
            self.assertEqual(job.part(folder, asked), parts[-1])
        self.assertGreater(parts[-1].ranges, 10)
        for threads in ("1", "3"):
            said = io.StringIO()
            with mock.patch("sys.argv", ["job.py", str(self.folder), "--threads", threads]), contextlib.redirect_stdout(said):
                with mock.patch("job.windows", return_value=asked):
                    job.main()
            self.assertEqual(said.getvalue(), job.shown(3, job.together(parts)) + "\n")


if __name__ == "__main__":
    unittest.main()
