"""`python3 -m tussockbell` as a user runs it: on the sample, on fixtures of every kind against the reference, on damaged files and
wrong arguments; files of windows, plans, open ends, JSON; what a footer has and which parts are accepted."""

import json
import os
import pathlib
import struct
import subprocess
import sys
import tempfile
import unittest

root = pathlib.Path(__file__).resolve().parents[2]
sys.path.insert(0, str(root / "tests/reference"))

import pieces
import plan
import rules
import tussockbell as tb

FIXTURES = root / "tests/fixtures"
# What is printed is kept back until there is much of it, as it is for a user, so that what can't be written shows at the end.
os.environ.pop("PYTHONUNBUFFERED", None)


def run(*words, **more):
    """What the command says and its exit status."""
    done = subprocess.run([sys.executable, "-W", "error", "-m", "tussockbell", *map(str, words)], capture_output=True, text=True, **more)
    return done.returncode, done.stdout, done.stderr


def options(kinds, fields, capacity, file_size):
    return ["--kinds", ",".join(kinds), "--fields", fields, "--capacity", capacity, "--file-size", file_size]


SAMPLE = [FIXTURES / "sample" / name for name in ("footer", "tree", "offsets")]
ASKED = [*options(["int32"], 1, 32, 1166), "--data-size", 300]


class Command(unittest.TestCase):
    def refused(self, number, place, *words):
        status, said, failed = run(*words)
        self.assertEqual((status, said), (1, ""))
        self.assertTrue(failed.startswith(f"tussockbell: refused {number} at {place}"), msg=failed)
        self.assertEqual(failed.count("\n"), 1)
        self.assertGreater(len(failed.split(": ", 2)[2]), 10)

    def failed(self, part, *words):
        """Exit status 2, nothing on standard output, and a line that names what is at fault."""
        self.one_line(part, *run(*words))

    def one_line(self, part, status, said, failed):
        self.assertEqual((status, said), (2, ""))
        self.assertIn(part, failed)
        self.assertRegex(failed, r"\Atussockbell: .*\n\Z")

    def in_shell(self, line, *words):
        """What a line of the shell says in which "$@" is the command."""
        command = ["bash", "-c", line, "bash", sys.executable, "-W", "error", "-m", "tussockbell", *map(str, words)]
        done = subprocess.run(command, capture_output=True, text=True, timeout=60)
        return done.returncode, done.stdout, done.stderr


class Query(Command):
    def test_sample(self):
        expected = "tiles\t3\tfound\t2\tlooked\t6\n1\t100\t150\t32\n2\t250\t50\t5\n"
        self.assertEqual(run("query", *ASKED, "--window", "12:21", *SAMPLE), (0, expected, ""))
        self.assertEqual(run("query", *ASKED, "--window=-5:-1", *SAMPLE), (0, "tiles\t3\tfound\t0\tlooked\t1\n", ""))
        self.assertEqual(run("query", *ASKED, "--window", "-5:-1", *SAMPLE), (0, "tiles\t3\tfound\t0\tlooked\t1\n", ""))

    def test_fixtures_of_every_kind(self):
        seen = set()
        for folder in sorted(FIXTURES.iterdir()):
            if not (folder / "about").exists():
                continue
            kinds, fields, capacity, size, data_size = (folder / "about").read_text().split("\n")[:5]
            kinds = kinds.split()
            seen.update(kinds)
            known = rules.Description(kinds, int(fields), int(capacity))
            footer, tree, offsets = ((folder / name).read_bytes() for name in ("footer", "tree", "offsets"))
            numbers = rules.footer(known, int(size), footer)
            n, last = numbers["tiles"], numbers["last_cells"]
            starts = [rules.number(offsets, 8 + 8 * i, 8) for i in range(n)] + [int(data_size)]
            for line in (folder / "answers").read_text().splitlines()[:2]:
                ends, found, looked, _ = line.split("\t")
                ends, found = ends.split(), [int(tile) for tile in found.split()]
                window = ",".join(f"{low}:{high}" for low, high in zip(ends[::2], ends[1::2]))
                expected = f"tiles\t{n}\tfound\t{len(found)}\tlooked\t{looked}\n" + "".join(
                    f"{i}\t{starts[i]}\t{starts[i + 1] - starts[i]}\t{rules.cells(n, last, known.capacity, i)}\n" for i in found
                )
                words = [*options(kinds, fields, capacity, size), "--data-size", data_size, "--window", window]
                files = [folder / name for name in ("footer", "tree", "offsets")]
                self.assertEqual(run("query", *words, *files), (0, expected, ""), msg=folder.name)
        self.assertEqual(set(rules.DIMENSION_KINDS), seen)

    def test_refusals(self):
        window = ["--window", "12:21"]
        with tempfile.TemporaryDirectory() as folder:
            cut = pathlib.Path(folder, "cut")
            for i, number in enumerate((2, 2, 2)):
                data = SAMPLE[i].read_bytes()[:-1]
                cut.write_bytes(data)
                files = [*SAMPLE[:i], cut, *SAMPLE[i + 1 :]]
                self.refused(number, len(data), "query", *ASKED, *window, *files)
        self.refused(9, 0, "query", *ASKED, "--window", "21:12", *SAMPLE)
        self.refused(19, 0, "query", *ASKED, "--window", "1.5:2", *SAMPLE)
        self.refused(19, 0, "query", *ASKED, "--window", "1:2,1:2", *SAMPLE)
        self.refused(1, 0, "query", *options(["int33"], 1, 32, 1166), "--data-size", 300, *window, *SAMPLE)
        self.refused(1, 0, "query", *options(["int32"], 0, 32, 1166), "--data-size", 300, *window, *SAMPLE)
        self.refused(1, 0, "query", *options(["int32"], 1, 10**30, 1166), "--data-size", 300, *window, *SAMPLE)
        self.refused(18, 24, "query", *options(["int32"], 1, 32, 1166), "--data-size", 250, *window, *SAMPLE)

    def test_wrong_arguments(self):
        window = ["--window", "12:21"]
        self.failed("usage")
        self.failed("usage", "ask")
        self.failed("--data-size", "query", *options(["int32"], 1, 32, 1166), *window, *SAMPLE)
        self.failed("OFFSETS", "query", *ASKED, *window, *SAMPLE[:2])
        self.failed("unrecognized", "query", *ASKED, *window, *SAMPLE, "more")
        for bad in ("12", "a:b", "1:2:3", "", "1:2,", "1:x"):
            self.failed("--window", "query", *ASKED, "--window", bad, *SAMPLE)
        self.failed("--fields", "query", "--kinds", "int32", "--fields", "one", "--capacity", 1, "--file-size", 1, *window, *SAMPLE)
        self.failed("/nonexistent/tree: No such file", "query", *ASKED, *window, SAMPLE[0], "/nonexistent/tree", SAMPLE[2])
        self.failed("Is a directory", "query", *ASKED, *window, root, *SAMPLE[1:])

    def test_output_that_fails(self):
        with open("/dev/full", "w") as full:
            words = [sys.executable, "-m", "tussockbell", "query", *map(str, [*ASKED, "--window", "12:21", *SAMPLE])]
            done = subprocess.run(words, stdout=full, stderr=subprocess.PIPE, text=True)
        self.assertEqual((done.returncode, done.stderr), (2, "tussockbell: standard output: No space left on device\n"))
        with open("/dev/full", "w") as full:
            words = [sys.executable, "-m", "tussockbell", "--help"]
            done = subprocess.run(words, stdout=full, stderr=subprocess.PIPE, text=True)
        self.assertEqual((done.returncode, done.stderr), (2, "tussockbell: standard output: No space left on device\n"))

    def test_closed_output(self):
        asked = ["query", *ASKED, "--window", "12:21", *SAMPLE]
        self.one_line("standard output: closed", *self.in_shell('"$@" >&-', *asked))
        for words in (["--help"], ["--version"], ["plot", "--help"]):
            self.one_line("standard output: closed", *self.in_shell('"$@" >&-', *words))
        refused = ["query", *ASKED, "--window", "21:12", *SAMPLE]
        status, said, failed = self.in_shell('"$@" >&-', *refused)
        self.assertEqual((status, said, failed), (1, "", "tussockbell: refused 9 at 0: minimum above maximum\n"))
        for closed in ("2>&-", ">&- 2>&-", "2>/dev/full"):
            self.assertEqual(self.in_shell(f'"$@" {closed}', *refused), (1, "", ""))
            self.assertEqual(self.in_shell(f'"$@" {closed}', *asked[:-1], "/nonexistent"), (2, "", ""))
            self.assertEqual(self.in_shell(f'"$@" {closed}', "ask"), (2, "", ""))

    def test_a_reader_that_has_gone(self):
        for words in (["query", *ASKED, "--window", "12:21", *SAMPLE], ["--help"]):
            reading, writing = os.pipe()
            os.close(reading)
            command = [sys.executable, "-W", "error", "-m", "tussockbell", *map(str, words)]
            done = subprocess.run(command, stdout=writing, stderr=subprocess.PIPE, text=True)
            os.close(writing)
            self.assertEqual((done.returncode, done.stderr), (2, ""))
        status, said, failed = self.in_shell('"$@" | head -n 1', "query", *ASKED, "--window", "12:21", *SAMPLE)
        self.assertEqual((status, said, failed), (0, "tiles\t3\tfound\t2\tlooked\t6\n", ""))

    def test_devices(self):
        for device in ("/dev/zero", "/dev/null", "/dev/random"):
            for i in range(3):
                files = [*SAMPLE[:i], device, *SAMPLE[i + 1 :]]
                asked = ["query", *ASKED, "--window", "12:21", *files]
                self.one_line(f"{device}: a character device", *self.in_shell('"$@"', *asked))

    def test_pipes(self):
        asked = ["query", *ASKED, "--window", "12:21"]
        expected = "tiles\t3\tfound\t2\tlooked\t6\n1\t100\t150\t32\n2\t250\t50\t5\n"
        pipes = " ".join(f"<(cat '{path}')" for path in SAMPLE)
        self.assertEqual(self.in_shell(f'"$@" {pipes}', *asked), (0, expected, ""))
        got = self.in_shell(f"cat '{SAMPLE[1]}' | \"$@\"", *asked, SAMPLE[0], "/dev/stdin", SAMPLE[2])
        self.assertEqual(got, (0, expected, ""))
        got = self.in_shell(f'"$@" <(true) {" ".join(map(str, SAMPLE[1:]))}', *asked)
        wrong = "byte count or length field wrong (161 bytes expected at least, 0 given)"
        self.assertEqual(got, (1, "", f"tussockbell: refused 2 at 0 of the footer: {wrong}\n"))

    def test_a_pipe_is_read_up_to_the_largest_body(self):
        """Which has 8 + 8L + B times all boxes, of 2^24 tiles in pairs and four dimensions of 8 bytes an end."""
        most = 8 + 8 * 25 + 64 * (2**25 - 1)
        words = ["query", *ASKED, "--window", "12:21", SAMPLE[0], "/dev/stdin", SAMPLE[2]]
        code = "import sys, tussockbell.__main__ as m, tussockbell._files as f; assert f._most_bytes() == int(sys.argv[1])\n"
        code += "f._most_bytes = lambda: int(sys.argv[2])\nsys.exit(m.main(sys.argv[3:]))"
        for limit, expected in ((80, 0), (79, 2)):
            with open(SAMPLE[1], "rb") as tree:
                cat = subprocess.Popen(["cat"], stdin=tree, stdout=subprocess.PIPE)
                command = [sys.executable, "-W", "error", "-c", code, str(most), str(limit), *map(str, words)]
                done = subprocess.run(command, stdin=cat.stdout, capture_output=True, text=True)
                cat.stdout.close()
                cat.wait()
            self.assertEqual(done.returncode, expected, msg=done.stderr)
            if expected:
                self.one_line("more than 79 bytes", done.returncode, done.stdout, done.stderr)
        with subprocess.Popen(["cat", "/dev/zero"], stdout=subprocess.PIPE) as endless:
            command = [sys.executable, "-W", "error", "-c", code, str(most), str(2**22), *map(str, words)]
            done = subprocess.run(command, stdin=endless.stdout, capture_output=True, text=True, timeout=60)
            endless.stdout.close()
        self.one_line("/dev/stdin: more than 4194304 bytes", done.returncode, done.stdout, done.stderr)

    def test_files_are_mapped(self):
        """One of 8 GiB, nearly all a hole, is refused by its length and takes no memory; an empty one has no bytes."""
        with tempfile.TemporaryDirectory() as folder:
            large, empty = pathlib.Path(folder, "large"), pathlib.Path(folder, "empty")
            empty.write_bytes(b"")
            with open(large, "wb") as file:
                file.write(SAMPLE[1].read_bytes())
                file.truncate(2**33)
            asked = ["query", *ASKED, "--window", "12:21"]
            for file, place in ((large, 2**33), (empty, 0)):
                status, said, failed = self.in_shell('ulimit -d 1048576; "$@"', *asked, SAMPLE[0], file, SAMPLE[2])
                self.assertEqual((status, said), (1, ""))
                self.assertIn(f"refused 2 at {place} of the tree", failed)

    def test_no_library(self):
        variables = {**os.environ, "TUSSOCKBELL_LIBRARY": "/nonexistent"}
        self.one_line("make lib", *run("query", *ASKED, "--window", "12:21", *SAMPLE, env=variables))
        status, _, failed = run("--help", env=variables)
        self.assertEqual((status, failed), (0, ""))

    def test_help(self):
        for words in (["--help"], ["query", "--help"], ["plot", "--help"]):
            status, said, failed = run(*words)
            self.assertEqual((status, failed), (0, ""))
            self.assertIn("usage", said)


class Windows(Command):
    """Files of windows, plans and open ends."""

    def batch(self, lines, *more, command="query", files=SAMPLE, asked=ASKED):
        self.file.write_text("".join(line + "\n" for line in lines))
        return run(command, *asked, "--windows", self.file, *more, *files)

    def setUp(self):
        space = tempfile.TemporaryDirectory()
        self.addCleanup(space.cleanup)
        self.folder = pathlib.Path(space.name)
        self.file = self.folder / "windows"

    def test_as_one_by_one(self):
        """On every fixture each window of a file is answered as it is alone, under its number."""
        for folder in sorted(FIXTURES.iterdir()):
            if (folder / "about").exists():
                kinds, fields, capacity, size, data_size = (folder / "about").read_text().split("\n")[:5]
                words = [*options(kinds.split(), fields, capacity, size), "--data-size", data_size]
                files = [folder / name for name in ("footer", "tree", "offsets")]
                ends = [line.split("\t")[0].split() for line in (folder / "answers").read_text().splitlines()]
                lines = [",".join(f"{low}:{high}" for low, high in zip(each[::2], each[1::2])) for each in ends]
                alone = [run("query", *words, "--window", line, *files) for line in lines[:3]]
                self.assertEqual([(status, failed) for status, _, failed in alone], [(0, "")] * len(alone))
                expected = "".join(f"window\t{at}\t{said}" for at, (_, said, _) in enumerate(alone))
                self.assertEqual(self.batch(lines[:3], asked=words, files=files), (0, expected, ""), msg=folder.name)
                self.assertEqual(self.batch([line.replace(",", "\t") for line in lines[:3]], asked=words, files=files)[1], expected)

    def test_refused_windows(self):
        """Each has its line and its number, all others are answered, and the status is 1."""
        said = (
            "window\t0\ttiles\t3\tfound\t1\tlooked\t5\n0\t0\t100\t32\n"
            "window\t1\trefused\t9\tplace\t0\nwindow\t2\trefused\t19\tplace\t0\nwindow\t3\trefused\t19\tplace\t0\n"
            "window\t4\ttiles\t3\tfound\t0\tlooked\t1\n"
        )
        lines = ["0:4", "4:0", "1.5:2", "1:2,:", "90:"]
        status, got, failed = self.batch(lines)
        self.assertEqual((status, got), (1, said))
        self.assertRegex(failed, r"\A(tussockbell: window [123]: refused (9|19) at 0.*: .+\n){3}\Z")
        status, got, failed = self.batch(lines, "--json")
        answers = [json.loads(line) for line in got.splitlines()]
        self.assertEqual((status, [answer["window"] for answer in answers]), (1, [0, 1, 2, 3, 4]))
        self.assertEqual(answers[1], {"window": 1, "refused": {"number": 9, "place": 0, "which": 0, "text": "minimum above maximum"}})
        nothing = {"tile": [], "offset": [], "extent": [], "cells": []}
        self.assertEqual(answers[4], {"window": 4, "tiles": 3, "found": 0, "looked": 1, **nothing})
        self.assertEqual([json.loads(line) for line in failed.splitlines()], answers[1:4])

    def test_lines_that_are_no_window(self):
        """Told by number before anything is asked, so that nothing is printed."""
        for bad in ("12", "", "1:2:3", "a:b", "12:21;", "\udc80".encode("utf-8", "surrogatepass").decode("latin-1"), "x" * 100000):
            for command in ("query", "plan"):
                status, said, failed = self.batch(["0:4", "4:0", bad, "junk"], command=command)
                self.one_line(f"{self.file}: line 3: ", status, said, failed)
                self.assertLess(len(failed), 500)
        self.file.write_bytes(b"0:4\n\xff:1\n")
        self.one_line("line 2", *run("query", *ASKED, "--windows", self.file, *SAMPLE))
        self.one_line("No such file", *run("query", *ASKED, "--windows", self.folder / "none", *SAMPLE))
        self.one_line("a character device", *run("query", *ASKED, "--windows", "/dev/zero", *SAMPLE))

    def test_ends_of_lines(self):
        for text in ("0:4\n20:", "0:4\n20:\n", "0:4\r\n20:\r\n"):
            self.file.write_bytes(text.encode())
            status, said, failed = run("query", *ASKED, "--windows", self.file, *SAMPLE)
            self.assertEqual((status, failed, said.count("window\t")), (0, "", 2), msg=text)
        self.assertEqual(self.batch([]), (0, "", ""))
        self.assertEqual(self.batch([], command="plan"), (0, "tiles\t3\tread\t0\tranges\t0\tbytes\t0\n", ""))

    def test_standard_input(self):
        expected = (0, "window\t0\ttiles\t3\tfound\t1\tlooked\t4\n2\t250\t50\t5\n", "")
        done = run("query", *ASKED, "--windows", "-", *SAMPLE, input="20:\n")
        self.assertEqual((done[0], done[1].split("\n")[1:], done[2]), (0, expected[1].split("\n")[1:], ""))
        self.one_line("standard input: line 1", *run("query", *ASKED, "--windows", "-", *SAMPLE, input="x\n"))
        self.one_line("standard input: closed", *self.in_shell('"$@" <&-', "query", *ASKED, "--windows", "-", *SAMPLE))

    def test_what_is_refused_first(self):
        """A fragment that is refused is, whatever the windows are; and a file of windows that can't be read is told before that."""
        cut = self.folder / "tree"
        cut.write_bytes(SAMPLE[1].read_bytes()[:-1])
        for command in ("query", "plan"):
            status, said, failed = self.batch(["4:0"], command=command, files=[SAMPLE[0], cut, SAMPLE[2]])
            self.assertEqual((status, said), (1, ""))
            self.assertIn("refused 2 at 79", failed)
            self.assertEqual(self.batch(["?"], command=command, files=[SAMPLE[0], cut, SAMPLE[2]])[0], 2)

    def test_open_ends(self):
        for window, same in (("12:", f"12:{2**31 - 1}"), (":12", f"{-(2**31)}:12"), (":", f"{-(2**31)}:{2**31 - 1}")):
            self.assertEqual(run("query", *ASKED, "--window", window, *SAMPLE), run("query", *ASKED, "--window", same, *SAMPLE))
        self.assertEqual(run("query", *ASKED, "--window", ":", *SAMPLE)[1].split("\n")[0], "tiles\t3\tfound\t3\tlooked\t6")
        folder = FIXTURES / "mixed"
        kinds, fields, capacity, size, data_size = (folder / "about").read_text().split("\n")[:5]
        words = [*options(kinds.split(), fields, capacity, size), "--data-size", data_size]
        files = [folder / name for name in ("footer", "tree", "offsets")]
        whole = f"{-(2**31)}:{2**31 - 1},-inf:inf,{-(2**63)}:{2**63 - 1},0:{2**64 - 1}"
        status, said, failed = run("query", *words, "--window", ":,:,:,:", *files)
        self.assertEqual((status, said.split("\t")[3], failed), (0, "10", ""))
        self.assertEqual(run("query", *words, "--window", whole, *files)[1], said)
        # A side too many, or too few, is still the window's refusal, and a kind that is none the description's.
        self.refused(19, 0, "query", *ASKED, "--window", ":,:", *SAMPLE)
        self.refused(19, 0, "query", *words, "--window", ":", *files)
        self.refused(1, 0, "query", *options(["int33"], 1, 32, 1166), "--data-size", 300, "--window", ":", *SAMPLE)
        grid = ["--kinds", "uint64", "--domain", "0:99", "--extents", "10"]
        self.assertEqual(run("dense", *grid, "--window", "85:"), (0, "tiles\t10\tfound\t2\n8\n9\n", ""))
        self.one_line("open end", *run("dense", "--kinds", "uint64", "--domain", "0:", "--extents", "10", "--window", "85:"))

    def test_given_twice(self):
        for more in (["--window", "1:2"], ["--window=1:2"], ["--kinds", "int32"], ["--data-size", "300"]):
            self.one_line(f"{more[0].split('=')[0]}: given twice", *run("query", *ASKED, "--window", "12:21", *more, *SAMPLE))
        self.one_line("--windows", *run("query", *ASKED, "--window", "12:21", "--windows", self.file, *SAMPLE))
        self.one_line("--window", *run("query", *ASKED, *SAMPLE))
        self.one_line("--gap: given twice", *run("plan", *ASKED, "--window", "12:21", "--gap", 0, "--gap", 0, *SAMPLE))
        twice = ["dense", "--kinds", "int32", "--domain", "0:9", "--extents", "5", "--window", "0:1"]
        self.one_line("--extents: given twice", *run(*twice, "--extents", "5"))

    def test_plans(self):
        """As the reference plans for the tiles that the reference finds, with gaps of every size."""
        folder = FIXTURES / "three_short_rows"
        kinds, fields, capacity, size, data_size = (folder / "about").read_text().split("\n")[:5]
        kinds = kinds.split()
        words = [*options(kinds, fields, capacity, size), "--data-size", data_size]
        files = [folder / name for name in ("footer", "tree", "offsets")]
        lists = (folder / "offsets").read_bytes()
        n = rules.number(lists, 0, 8)
        starts = [rules.number(lists, 8 + 8 * i, 8) for i in range(n)] + [int(data_size)]
        extents = [(start, end - start) for start, end in zip(starts, starts[1:])]
        known, tree = rules.Description(kinds, int(fields), int(capacity)), (folder / "tree").read_bytes()
        windows = [[(-40, 0), (-(2**31), 2**31 - 1)], [(35, 95), (-(2**31), 2**31 - 1)], [(90, 135), (-300, 400)]]
        lines = [",".join(f"{low}:{high}" for low, high in window) for window in windows]
        for gap in (0, 1, 2000, 10**6):
            for chosen in ([0], [1], [0, 1, 2], [2, 2]):
                found = [tile for at in chosen for tile in rules.query(known, n, tree, kinds, windows[at])[0]]
                ranges = plan.ranges(extents, found, gap)
                tiles, total = len(plan.named(extents, found)), sum(length for _, length in ranges)
                said = f"tiles\t{n}\tread\t{tiles}\tranges\t{len(ranges)}\tbytes\t{total}\n" + "".join(f"{a}\t{b}\n" for a, b in ranges)
                status, got, failed = self.batch([lines[at] for at in chosen], "--gap", gap, command="plan", asked=words, files=files)
                self.assertEqual((status, got, failed), (0, said, ""))
                if len(chosen) == 1:
                    alone = run("plan", *words, "--window", lines[chosen[0]], "--gap", gap, *files)
                    self.assertEqual(alone, (0, said, ""))
                got = json.loads(run("plan", *words, "--windows", self.file, "--gap", gap, "--json", *files)[1])
                expected = {"tiles": n, "read": tiles, "ranges": len(ranges), "bytes": total}
                self.assertEqual(got, {**expected, "offset": [a for a, _ in ranges], "length": [b for _, b in ranges]})
        self.one_line("2^64 - 1", *run("plan", *words, "--window", lines[0], "--gap", -1, *files))

    def test_no_plan_where_a_window_is_refused(self):
        status, said, failed = self.batch(["0:4", "4:0", ":", "9:1"], command="plan")
        self.assertEqual((status, said), (1, ""))
        self.assertRegex(failed, r"\Atussockbell: window 1: refused 9 at 0: .*\ntussockbell: window 3: refused 9 at 0: .*\n\Z")
        self.refused(9, 0, "plan", *ASKED, "--window", "4:0", *SAMPLE)

    def test_var_offsets(self):
        lists = self.folder / "offsets"
        lists.write_bytes(pieces.entries([0, 100, 100]))
        files = [*SAMPLE[:2], lists]
        self.refused(18, 24, "query", *ASKED, "--window", ":", *files)
        said = "tiles\t3\tfound\t3\tlooked\t6\n0\t0\t100\t32\n1\t100\t0\t32\n2\t100\t200\t5\n"
        self.assertEqual(run("query", *ASKED, "--window", ":", "--var", *files), (0, said, ""))
        said = "tiles\t3\tread\t3\tranges\t1\tbytes\t300\n0\t300\n"
        self.assertEqual(run("plan", *ASKED, "--window", ":", "--var", *files), (0, said, ""))

    def test_very_many_tiles(self):
        """100,000 tiles of which all are found: every line is right, and a reader that takes the first ends it quietly."""
        n = 100_000
        d = tb.Description(["int32"], 1, 32)
        made = pieces.Footer(rules.Description(["int32"], 1, 32), [(0, n)], tiles=n, last_cells=5)
        files = [self.folder / name for name in ("footer", "tree", "offsets")]
        leaves = struct.pack(f"<{2 * n}i", *(x for i in range(n) for x in (i, i + 1)))
        for path, each in zip(files, (made.data(), tb.write_tree(d, n, 50, leaves), pieces.entries(range(0, 7 * n, 7)))):
            path.write_bytes(each)
        words = ["query", *options(["int32"], 1, 32, made.file_size), "--data-size", 7 * n, "--window", ":", *files]
        status, said, failed = run(*words)
        lines = said.splitlines()
        self.assertEqual((status, failed, len(lines), lines[0].split("\t")[:4]), (0, "", n + 1, ["tiles", str(n), "found", str(n)]))
        for at, line in enumerate(lines[1:]):
            if line != f"{at}\t{7 * at}\t7\t{5 if at == n - 1 else 32}":
                self.fail(line)
        got = json.loads(run(*words, "--json")[1])
        self.assertEqual((got["tile"], got["offset"]), (list(range(n)), list(range(0, 7 * n, 7))))
        self.assertEqual((set(got["extent"]), got["cells"]), ({7}, [32] * (n - 1) + [5]))
        line = '{ "$@"; echo $? >&2; } | head -n 2'
        self.assertEqual(self.in_shell(line, *words), (0, "\n".join(lines[:2]) + "\n", "2\n"))


class Json(Command):
    """The same numbers as in the lines, as one object in a line for each answer."""

    def answers(self, *words, status=0):
        got, said, failed = run(*words)
        self.assertEqual((got, failed), (status, ""))
        return [json.loads(line) for line in said.splitlines()]

    def test_query(self):
        expected = {"tiles": 3, "found": 2, "looked": 6, "tile": [1, 2], "offset": [100, 250], "extent": [150, 50], "cells": [32, 5]}
        self.assertEqual(self.answers("query", *ASKED, "--window", "12:21", "--json", *SAMPLE), [expected])

    def test_refusals(self):
        """On standard error, as an object; any other failure stays in words."""
        for words, number, place, which in (
            ([*ASKED, "--window", "21:12", *SAMPLE], 9, 0, 0), ([*ASKED[:-1], "250", "--window", "12:21", *SAMPLE], 18, 24, 0),
            ([*ASKED, "--window", "12:21", SAMPLE[0], SAMPLE[2], SAMPLE[2]], 14, 4, 1),
        ):
            status, said, failed = run("query", "--json", *words)
            self.assertEqual((status, said, failed.count("\n")), (1, "", 1))
            refused = json.loads(failed)["refused"]
            self.assertEqual([refused[name] for name in ("number", "place", "which")], [number, place, which])
            self.assertEqual(refused["text"], tb.Refused(number, place, which).text)
        self.failed("No such file", "query", "--json", *ASKED, "--window", "12:21", *SAMPLE[:2], "/nonexistent")
        self.failed("usage", "query", "--json")

    def test_others(self):
        grid = ["--kinds", "int32,int64", "--domain", "0:99,-50:49", "--extents", "10,25", "--window", "5:14,-20:0"]
        self.assertEqual(self.answers("dense", *grid, "--json"), [{"tiles": 40, "found": 4, "tile": [1, 2, 5, 6]}])
        with tempfile.TemporaryDirectory() as folder:
            log, listing = pathlib.Path(folder, "log"), pathlib.Path(folder, "listing")
            log.write_bytes(b"12\t21\t2\t6\n12\t21\t2\t4\n?\n")
            words = ["replay", *options(["int32"], 1, 32, 1166), "--json", *SAMPLE[:2], log]
            same = {"line": 0, "answer": "same", "logged": [2, 6], "now": [2, 6]}
            others = [{"line": 1, "answer": "differs", "logged": [2, 4], "now": [2, 6]}, {"line": 2, "answer": "bad"}]
            self.assertEqual(self.answers(*words, status=1), [same, *others])
            self.assertEqual(self.answers(*words, "--quiet", status=1), others)
            listing.write_text("folder\t__1_1_a_21\nfolder\t__2_2_b_21\nwrt\t__2_2_b_21\n")
            expected = {"found": 1, "line": [1], "name": ["__2_2_b_21"]}
            self.assertEqual(self.answers("committed", listing, "--time", 9, "--json"), [expected])
            old = FIXTURES / "float32/old"
            kinds, fields, capacity, size = (old / "about").read_text().split("\n")[:4]
            outs = ["--out-footer", pathlib.Path(folder, "f"), "--out-tree", pathlib.Path(folder, "t")]
            said = self.answers("convert", *options([kinds], fields, capacity, size), *outs, "--json", old / "footer", old / "tree")
            self.assertEqual(said, [{"kinds": ["float64"], "file_size": int(size) + 8}])
            self.assertEqual(pathlib.Path(folder, "t").read_bytes(), (FIXTURES / "float32/tree").read_bytes())


class About(Command):
    """`info` and `check`."""

    def test_info(self):
        """Every number of every fixture's footer, as the reference reads it, and the shape of its tree."""
        for folder in sorted(FIXTURES.iterdir()):
            if not (folder / "about").exists():
                continue
            kinds, fields, capacity, size = (folder / "about").read_text().split("\n")[:4]
            kinds = kinds.split()
            words = options(kinds, fields, capacity, size)
            known = rules.Description(kinds, int(fields), int(capacity))
            numbers = rules.footer(known, int(size), (folder / "footer").read_bytes())
            tree = (folder / "tree").read_bytes()
            status, said, failed = run("info", *words, folder / "footer", folder / "tree")
            self.assertEqual((status, failed), (0, ""))
            lines = [line.split("\t") for line in said.splitlines()]
            told = {name: rest for name, *rest in lines}
            fanout, levels = rules.number(tree, 0, 4), rules.number(tree, 4, 4)
            boxes, left = [], numbers["tiles"]
            while not boxes or boxes[0] > 1:
                boxes.insert(0, left)
                left = -(-left // fanout)
            self.assertEqual([told["fanout"], told["levels"], told["boxes"]], [[str(fanout)], [str(levels)], list(map(str, boxes))])
            self.assertEqual(len(boxes), levels)
            total = (numbers["tiles"] - 1) * int(capacity) + numbers["last_cells"]
            expected = {**numbers, "last_tile_cells": numbers["last_cells"], "schema_name": "__" + folder.name, "total_cells": total}
            whole = [expected.pop("domain"), expected.pop("name"), expected.pop("last_cells")][0]
            for name, value in expected.items():
                self.assertEqual(told[name], [str(each) for each in (value if isinstance(value, list) else [value])], msg=name)
            self.assertEqual(set(told), {*expected, "dimension", "fanout", "levels", "boxes"})
            sides = [[str(at), kind, repr(low), repr(high)] for at, (kind, (low, high)) in enumerate(zip(kinds, whole))]
            self.assertEqual([line[1:] for line in lines if line[0] == "dimension"], sides)
            [got] = [json.loads(line) for line in run("info", *words, "--json", folder / "footer", folder / "tree")[1].splitlines()]
            self.assertEqual((got["kinds"], got["domain"], got["boxes"]), (kinds, [list(side) for side in whole], boxes))
            self.assertEqual({name: [str(each) for each in (value if isinstance(value, list) else [value])]
                              for name, value in got.items() if name not in ("kinds", "domain")},
                             {name: rest for name, rest in told.items() if name != "dimension"})
            alone = run("info", *words, folder / "footer")[1]
            self.assertEqual(said[: len(alone)], alone)
            self.assertNotIn("fanout\t", alone)

    def test_info_of_a_dense_footer(self):
        words = [*options(["int32", "int64"], 1, 250, 1182), FIXTURES / "dense/footer"]
        status, said, failed = run("info", *words, "--dense")
        self.assertEqual((status, failed), (0, ""))
        for line in ("dense\t1", "tiles\t0", "dimension\t0\tint32\t0\t99", "dimension\t1\tint64\t-50\t49"):
            self.assertIn(line + "\n", said)
        self.assertNotIn("total_cells", said)
        self.refused_words(6, "info", *words)
        self.failed("no tree", "info", *words, SAMPLE[1], "--dense")

    def refused_words(self, number, *words):
        status, said, failed = run(*words)
        self.assertEqual((status, said), (1, ""))
        self.assertIn(f"refused {number} at ", failed)

    def test_a_name_of_any_bytes(self):
        with tempfile.TemporaryDirectory() as folder:
            made = pieces.Footer(rules.Description(["int32"], 1, 32), [(0, 24)], name=b"a\tb\n\xff\\")
            pathlib.Path(folder, "footer").write_bytes(made.data())
            words = ["info", *options(["int32"], 1, 32, made.file_size), pathlib.Path(folder, "footer")]
            self.assertIn("schema_name\ta\\x09b\\x0a\\xff\\\\\n", run(*words)[1])
            self.assertEqual(json.loads(run(*words, "--json")[1])["schema_name"], "a\\x09b\\x0a\\xff\\\\")

    def parts(self, *words, status):
        got, said, failed = run("check", *words)
        self.assertEqual((got, failed), (status, ""))
        return [tuple(line.split("\t")[:4]) for line in said.splitlines()]

    def test_check(self):
        with tempfile.TemporaryDirectory() as folder:
            path = pathlib.Path(folder)
            bodies = {
                "sizes": pieces.entries([100, 150, 50]), "var-offsets": pieces.entries([0, 0, 9]), "sums": pieces.entries([1, 2, 3]),
                "null-counts": pieces.entries([0, 32, 5]), "mins": values([1, 2, 3]), "maxes": values([1, 5, 3]),
            }
            lists = ["--offsets", SAMPLE[2], "--data-size", 300, "--var-size", 10, "--kind", "int32"]
            for name, data in bodies.items():
                (path / name).write_bytes(data)
                lists += ["--" + name, path / name]
            words = [*options(["int32"], 1, 32, 1166), *lists, *SAMPLE[:2]]
            names = ["footer", "tree", "offsets", "var-offsets", "sizes", "mins", "maxes", "ranges", "sums", "null-counts"]
            self.assertEqual(self.parts(*words, status=0), [(name, "accepted") for name in names])
            got = [json.loads(line) for line in run("check", *words, "--json")[1].splitlines()]
            self.assertEqual(got, [{"part": name, "answer": "accepted"} for name in names])
            # Each list damaged: it alone is refused, and all others are still checked.
            for name, bad, number, place in (
                ("sizes", bodies["sizes"][:-1], 2, 31), ("sums", b"", 2, 0), ("null-counts", pieces.entries([0, 33, 5]), 27, 16),
                ("var-offsets", pieces.entries([0, 11, 9]), 18, 16), ("mins", values([1, 2]), 17, 0),
            ):
                (path / name).write_bytes(bad)
                with_ranges = {"mins": {"mins", "ranges"}}.get(name, {name})
                got = {part: (answer, *why) for part, answer, *why in self.parts(*words, status=1)}
                self.assertEqual([part for part in got if got[part][0] == "refused"], [part for part in names if part in with_ranges])
                self.assertEqual(got[name], ("refused", str(number), str(place)), msg=name)
                (path / name).write_bytes(bodies[name])
            (path / "mins").write_bytes(values([1, 6, 3]))
            self.assertEqual([line for line in self.parts(*words, status=1) if line[1] != "accepted"], [("ranges", "refused", "9", "12")])

    def test_check_where_the_footer_is_refused(self):
        with tempfile.TemporaryDirectory() as folder:
            cut = pathlib.Path(folder, "footer")
            cut.write_bytes(SAMPLE[0].read_bytes()[:-1])
            words = [*options(["int32"], 1, 32, 1166), "--sizes", SAMPLE[2], cut, SAMPLE[1]]
            place = str(len(SAMPLE[0].read_bytes()) - 1)
            expected = [("footer", "refused", "2", place), ("tree", "unchecked"), ("sizes", "unchecked")]
            self.assertEqual(self.parts(*words, status=1), expected)
            got = [json.loads(line) for line in run("check", *words, "--json")[1].splitlines()]
            why = {"number": 2, "place": int(place), "which": 0, "text": tb.Refused(2, 0).text}
            self.assertEqual(got[:2], [{"part": "footer", "answer": "refused", **why}, {"part": "tree", "answer": "unchecked"}])
            tree = pathlib.Path(folder, "tree")
            tree.write_bytes(SAMPLE[1].read_bytes()[:-1])
            said = run("check", *options(["int32"], 1, 32, 1166), SAMPLE[0], tree)
            self.assertEqual(said, (1, f"footer\taccepted\ntree\trefused\t2\t79\t1\t{tb.Refused(2, 79).text}\n", ""))

    def test_check_by_the_footers_sizes(self):
        """Without --data-size the footer says how long a field's file is."""
        with tempfile.TemporaryDirectory() as folder:
            made = pieces.Footer(rules.Description(["int32"], 2, 32), [(0, 24)])
            made.sizes[0] = [300, 250]
            path = pathlib.Path(folder, "footer")
            path.write_bytes(made.data())
            words = [*options(["int32"], 2, 32, made.file_size), "--offsets", SAMPLE[2], path]
            self.assertEqual(self.parts(*words, status=0), [("footer", "accepted"), ("offsets", "accepted")])
            self.assertEqual(self.parts(*words, "--field", 1, status=1), [("footer", "accepted"), ("offsets", "refused", "18", "24")])
            self.failed("--field takes 0 to 1", "check", *words, "--field", 2)

    def test_what_check_needs(self):
        words = options(["int32"], 1, 32, 1166)
        self.failed("need --kind", "check", *words, "--mins", SAMPLE[2], SAMPLE[0])
        self.failed("checked alone", "check", *words, "--dense", *SAMPLE[:2])
        self.failed("No such file", "check", *words, "--sums", "/nonexistent", SAMPLE[0])
        dense = [*options(["int32", "int64"], 1, 250, 1182), FIXTURES / "dense/footer"]
        self.assertEqual(self.parts(*dense, "--dense", status=0), [("footer", "accepted")])
        self.assertEqual(self.parts(*dense, status=1)[0][:3], ("footer", "refused", "6"))


def values(numbers):
    """The mins or the maxes of a field of int32: a count, the numbers, and no var buffer."""
    return pieces.u64(len(numbers)) + struct.pack(f"<{len(numbers)}i", *numbers) + pieces.u64(0)


class Called(unittest.TestCase):
    """How the usage names the command: as it was started."""

    def test_usage(self):
        self.assertIn("usage: python3 -m tussockbell ", run("--help")[1])
        with tempfile.TemporaryDirectory() as folder:
            script = pathlib.Path(folder, "tussockbell")
            script.write_text("import sys\nfrom tussockbell.__main__ import main\nsys.exit(main())\n")
            for words, status in ((["--help"], 0), (["query"], 2)):
                done = subprocess.run([sys.executable, script, *words], capture_output=True, text=True)
                self.assertEqual(done.returncode, status)
                self.assertIn("usage: tussockbell ", done.stdout + done.stderr)
            words = map(str, ["query", *ASKED, "--window", "12:21", *SAMPLE])
            done = subprocess.run([sys.executable, script, *words], capture_output=True, text=True)
            self.assertEqual((done.returncode, done.stdout.split("\n")[0]), (0, "tiles\t3\tfound\t2\tlooked\t6"))

    def test_every_command_has_help(self):
        for command in ("query", "plan", "info", "check", "plot", "replay", "convert", "dense", "committed"):
            status, said, failed = run(command, "--help")
            self.assertEqual((status, failed), (0, ""))
            self.assertEqual("--json" in said, command != "plot")
            self.assertIn(command, run("--help")[1])
            self.assertLessEqual(max(map(len, said.split("options:")[1].splitlines())), 122, msg=command)


if __name__ == "__main__":
    unittest.main()
