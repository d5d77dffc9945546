"""The report program against the reference: the sample damaged at each byte, cut at each length, with each kind of bad description line, and the
fixtures."""

import os
import pathlib
import re
import resource
import subprocess
import sys
import tempfile
import unittest

here = pathlib.Path(__file__).parent
sys.path.insert(0, str(here.parent / "reference"))

import pieces
import report as reference
import rules

PROGRAM = here.parent.parent / "crates/report/out/report"
PARTS = ("description", "footer", "tree", "offsets")


def said(folder, parts, **more):
    """What the program writes of four byte strings."""
    for name, data in zip(PARTS, parts):
        (folder / name).write_bytes(data)
    return subprocess.run([PROGRAM] + [str(folder / n) for n in PARTS], stdout=subprocess.PIPE, check=True, **more).stdout


class Report(unittest.TestCase):
    def setUp(self):
        self.space = tempfile.TemporaryDirectory()
        self.folder = pathlib.Path(self.space.name)
        self.addCleanup(self.space.cleanup)
        self.sample = [(here.parent / "fixtures/sample" / n).read_bytes() for n in PARTS]
        self.compared = 0

    def compare(self, parts):
        self.assertEqual(said(self.folder, parts), reference.report(*parts), msg=[p[:40] for p in parts])
        self.compared += 1

    def changed(self, i, data):
        parts = list(self.sample)
        parts[i] = data
        self.compare(parts)

    def test_sample(self):
        self.assertEqual(said(self.folder, self.sample), b"tiles\t3\tfound\t2\tlooked\t6\n1\t100\t150\t32\n2\t250\t50\t5\n")

    def test_fixtures(self):
        for folder in sorted((here.parent / "fixtures").iterdir()):
            if (folder / "description").exists():
                parts = [(folder / n).read_bytes() for n in PARTS]
                self.assertEqual(said(self.folder, parts), (folder / "report").read_bytes(), msg=folder.name)

    def test_damaged_at_each_byte(self):
        for i, data in enumerate(self.sample):
            for at in range(len(data)):
                for change in (1, 128, 255):
                    self.changed(i, data[:at] + bytes([data[at] ^ change]) + data[at + 1 :])
        self.assertGreater(self.compared, 900)

    def test_cut_at_each_length(self):
        for i, data in enumerate(self.sample):
            for length in range(len(data)):
                self.changed(i, data[:length])
            self.changed(i, data + b"\0")
            self.changed(i, data + b"\n")

    def test_description_lines(self):
        lines = self.sample[0].split(b"\n")[:-1]
        bad = [b"+5", b"-0", b"00", b"01", b" 5", b"5 ", b"5\r", b"", b"-", b"x", b"5.0", b"1e3", b"18446744073709551616", b"-1", b"0", b"-5",
               b"2147483647", b"2147483648", b"-2147483648", b"-2147483649", b"9223372036854775808", b"64", b"33", b"4", b"5", b"1000000001", b"9" * 300]
        for at in range(len(lines)):
            for line in bad:
                self.changed(0, b"\n".join(lines[:at] + [line] + lines[at + 1 :]) + b"\n")
            self.changed(0, b"\n".join(lines[:at] + lines[at + 1 :]) + b"\n")
            self.changed(0, b"\n".join(lines[:at] + [b"7"] + lines[at:]) + b"\n")
        self.changed(0, b"\n".join(lines))
        self.changed(0, b"\n".join(lines) + b"\n\n")
        self.changed(0, b"\n" + b"\n".join(lines))

    def test_too_long(self):
        for i, data in enumerate(self.sample):
            for length in (65535, 65536, 65537, 70000):
                self.changed(i, data + bytes(length - len(data)))

    def test_largest(self):
        """As many tiles as 65,536 bytes hold, with long numbers, and a stack of 512 KB."""
        known, n = rules.Description(["int32"], 1, 10**9), 8179
        leaves = [[(i, i + 1)] for i in range(n)]
        footer = pieces.Footer(known, [(0, n)], tiles=n, last_cells=10**9)
        starts = [0] + [2**64 - 10**16 + i * 10**12 for i in range(1, n)]
        lines = [1, 32, 1, 10**9, footer.file_size, 2**64 - 1, -5, 10**6]
        tree = pieces.tree(["int32"], leaves, 1024)
        self.assertEqual(len(tree), 65536)
        parts = ["".join(f"{line}\n" for line in lines).encode(), footer.data(), tree, pieces.entries(starts)]
        small = lambda: resource.setrlimit(resource.RLIMIT_STACK, (512 * 1024, 512 * 1024))
        written = said(self.folder, parts, preexec_fn=small)
        self.assertEqual(written, reference.report(*parts))
        self.assertEqual(written.count(b"\n"), 1 + n)
        self.assertGreater(len(written), 6 * 65536)
        header = (here.parent.parent / "include/tussockbell.h").read_text()
        self.assertLessEqual(len(written), int(re.search(r"TUSSOCKBELL_REPORT_MOST (\d+)", header)[1]))

    def test_output_that_fails(self):
        paths = self.written()
        with open("/dev/full", "wb") as full:
            got = subprocess.run([PROGRAM] + paths, stdout=full, stderr=subprocess.PIPE)
        self.assertEqual(got.stderr, b"standard output: No space left on device\n")
        got = subprocess.run([PROGRAM] + paths, stderr=subprocess.PIPE, preexec_fn=lambda: os.close(1))
        self.assertEqual(got.stderr, b"standard output: Bad file descriptor\n")

    def written(self):
        """The sample's paths."""
        for name, data in zip(PARTS, self.sample):
            (self.folder / name).write_bytes(data)
        return [str(self.folder / name) for name in PARTS]

    def test_wrong_arguments_and_files(self):
        paths = self.written()
        for number in range(4):
            got = subprocess.run([PROGRAM] + paths[:number], stdout=subprocess.PIPE, stderr=subprocess.PIPE)
            self.assertEqual((got.stdout, got.stderr), (b"", b"usage: report DESCRIPTION FOOTER TREE OFFSETS\n"))
        got = subprocess.run([PROGRAM] + paths + ["more", "most"], stdout=subprocess.PIPE, stderr=subprocess.PIPE)
        self.assertEqual((got.stdout, got.stderr), (b"", b"more: one argument too many\n"))
        for i, name in enumerate(PARTS):
            got = subprocess.run([PROGRAM] + paths[:i] + [""] + paths[i + 1 :], stdout=subprocess.PIPE, stderr=subprocess.PIPE)
            self.assertEqual((got.stdout, got.stderr), (b"", f"{name.upper()}: the argument is empty\n".encode()))
        for i in range(4):
            wrong = paths[:i] + [paths[i] + ".not"] + paths[i + 1 :]
            got = subprocess.run([PROGRAM] + wrong, stdout=subprocess.PIPE, stderr=subprocess.PIPE)
            self.assertEqual(got.stdout, b"")
            self.assertEqual(got.stderr.count(b"\n"), 1)
            self.assertIn(wrong[i].encode(), got.stderr)


if __name__ == "__main__":
    unittest.main()
