"""`make report`: its status, which the program itself has none of, and what it says while crates are proved."""

import os
import pathlib
import re
import subprocess
import tempfile
import unittest

ROOT = pathlib.Path(__file__).resolve().parents[2]
SAMPLE = ROOT / "tests/fixtures/sample"
REPORT = "tiles\t3\tfound\t2\tlooked\t6\n1\t100\t150\t32\n2\t250\t50\t5\n"


def made(output=subprocess.PIPE, **files):
    """What `make report` does with these files, without what it says on a slow machine while it looks at the crates."""
    words = [f"{name}={path}" for name, path in files.items()]
    # as a user calls it, also where this test is run by make
    alone = {name: value for name, value in os.environ.items() if name not in ("MAKELEVEL", "MAKEFLAGS", "MFLAGS")}
    command = ["make", "-s", "-C", ROOT, "report", *words]
    done = subprocess.run(command, stdout=output, stderr=subprocess.PIPE, text=True, env=alone)
    done.stderr = re.sub(r"^(proving \d+ crates|\d+ of \d+ crates proved).*\n", "", done.stderr, flags=re.M)
    return done


class Make(unittest.TestCase):
    def setUp(self):
        self.space = tempfile.TemporaryDirectory()
        self.addCleanup(self.space.cleanup)
        self.folder = pathlib.Path(self.space.name)

    def test_report(self):
        done = made()
        self.assertEqual((done.returncode, done.stdout), (0, REPORT))
        moved = self.folder / "it's another place"
        moved.mkdir()
        files = {name.upper(): moved / name for name in ("description", "footer", "tree", "offsets")}
        for path in files.values():
            path.write_bytes((SAMPLE / path.name).read_bytes())
        done = made(**files)
        self.assertEqual((done.returncode, done.stdout, done.stderr), (0, REPORT, ""))

    def test_no_report(self):
        """A refusal, a file that is too long, and one that is not there: the program's own words, and no status 0."""
        footer, long = self.folder / "footer", self.folder / "long"
        footer.write_bytes((SAMPLE / "footer").read_bytes()[:-1])
        long.write_bytes(bytes(65537))
        for given, said, complained in [
            ({"FOOTER": footer}, r"refused\t2\t\d+\n", ""),
            ({"OFFSETS": long}, r"too long\n", ""),
            ({"TREE": self.folder / "none"}, "", f"{self.folder}/none: No such file or directory\n"),
        ]:
            done = made(**given)
            self.assertNotEqual(done.returncode, 0, msg=given)
            self.assertRegex(done.stdout, f"^{said}$")
            self.assertTrue(done.stderr.startswith(f"{complained}make: *** "), msg=done.stderr)

    def test_output_that_fails(self):
        with open("/dev/full", "wb") as full:
            self.assertNotEqual(made(output=full).returncode, 0)

    def test_progress(self):
        """The crates that are counted are the program's and all that they use; rt ends what it says of each with a line that it is proved."""
        uses = {line.split(":")[0].split()[0]: line.split(":")[1].split() for line in (ROOT / "crates.txt").read_text().splitlines() if line[:1] not in ("", "#")}
        below = {"report"}
        while (more := below | {used for name in below for used in uses[name]}) != below:
            below = more
        said = subprocess.run(["rt", "check"], cwd=ROOT / "crates/c_version", capture_output=True, text=True)
        done = subprocess.run("(sleep 3; cat) | tools/progress 1 c_version", shell=True, input=said.stdout + said.stderr, cwd=ROOT, capture_output=True, text=True)
        self.assertRegex(done.stderr.splitlines()[-1], r"^1 of 1 crates proved, \d+ s$")
        proved, log = len(below), self.folder / "log"
        log.write_text("".join(f"crate {name}: modules loaded=1 checked=1\nlogic=proved functions=1 sum=0\n" for name in sorted(below)))
        waiting = f"sleep 3; cat '{log}'"
        done = subprocess.run(f"({waiting}) | tools/progress 3 report", shell=True, cwd=ROOT, capture_output=True, text=True)
        first, *_, last = done.stderr.splitlines()
        self.assertEqual((done.returncode, done.stdout), (0, ""))
        self.assertEqual(first, f"proving {proved} crates; from nothing all of it takes about 3 minutes")
        self.assertRegex(last, rf"^{proved} of {proved} crates proved, \d+ s$")
        done = subprocess.run(["tools/progress", "3", "report"], input=log.read_text(), cwd=ROOT, capture_output=True, text=True)
        self.assertEqual((done.returncode, done.stdout, done.stderr), (0, "", ""))


if __name__ == "__main__":
    unittest.main()
