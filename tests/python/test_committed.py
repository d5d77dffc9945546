"""Committed folders through the Python binding and at the command line: each way in which a line can be bad, the limits,
what counts, and the room; against numbers worked out by hand and against the reference. And the recipe in examples/."""

import array
import itertools
import mmap
import os
import pathlib
import random
import subprocess
import sys
import tempfile
import unittest

root = pathlib.Path(__file__).resolve().parents[2]
sys.path.insert(0, str(root / "tests/reference"))

import listing as reference
import rules
import tussockbell as tb

GOOD = b"__1_2_ab_16"
LATEST = 2**64 - 1


def said(listing, time=LATEST, room=None):
    """The library's answer, which is also the reference's."""
    try:
        answer = tb.committed(listing, time, room)
        told = answer.lines, answer.found, answer.names
    except tb.Refused as refused:
        told = refused.number, refused.place, refused.which
    try:
        found = reference.committed(listing, time)
        some = found if room is None else found[: max(room, 0)]
        right = [line for line, _ in some], len(found), [name for _, name in some]
    except rules.Refused as refused:
        right = refused.number, refused.place, refused.which
    assert told == right, f"{listing[:300]!r} at {time}, room {room}: the library says {told}, the reference {right}"
    return told


def named(t1="1", t2="2", uuid="ab", version="16"):
    return f"__{t1}_{t2}_{uuid}_{version}".encode()


def folder(name):
    """A folder of that name which a wrt names."""
    return b"folder\t" + name + b"\nwrt\t" + name + b"\n"


class Lines(unittest.TestCase):
    def bad(self, line):
        """Refused as line 1, between two good ones and at the end, with a newline and without."""
        other = b"wrt\t" + named(uuid="other")
        for after in (b"", b"\n", b"\n" + folder(GOOD)):
            self.assertEqual(said(other + b"\n" + line + after), (24, 1, 0), msg=line)

    def good(self, name):
        self.assertEqual(said(folder(name)), ([0], 1, [name.decode()]))

    def test_times(self):
        most, past = 2**63 - 1, 2**63
        for t1, t2 in ((0, 0), (0, 1), (1, 1), (9, 10), (0, most), (most, most), (10**18, 10**18)):
            self.good(named(str(t1), str(t2)))
        large = [str(number) for number in (past, 2**64 - 1, 2**64, 2**64 + 1, 10**40)]
        for time in ["", "00", "01", "-1", "+1", " 1", "1 ", "1.", "x", "1x", "0x1", *large]:
            self.bad(b"wrt\t" + named(t2=time))
            self.bad(b"wrt\t" + named(t1=time, t2=str(most)))
            self.bad(b"wrt\t" + named(t1=time, t2=time))
        for t1, t2 in ((1, 0), (2, 1), (10, 9), (most, most - 1)):
            self.bad(b"folder\t" + named(str(t1), str(t2)))

    def test_uuid(self):
        for uuid in ("a", "Z", "0", "9", "-", "z", "A", "x" * 63, "x" * 64, "0123456789abcdefABCDEF-" * 2):
            self.good(named(uuid=uuid))
        for uuid in ("", "x" * 65, "x" * 200, "a_b", "_", "a.b", "a b", "a/b", "é", "a\tb"):
            self.bad(b"folder\t" + named(uuid=uuid))
        for byte in range(256):
            name = b"__1_2_" + bytes([byte]) + b"_16"
            letter = chr(byte) in "-0123456789ABCDEFGHIJKLMNOPQRSTUVWXYZabcdefghijklmnopqrstuvwxyz"
            if letter:
                self.good(name)
            elif byte != ord("\n"):
                self.bad(b"folder\t" + name)

    def test_version(self):
        for version in range(16, 22):
            self.good(named(version=str(version)))
        for version in ("15", "22", "0", "1", "2", "", "016", "16 ", "-16", "+16", "160", "1e1", "99", str(2**64 + 16)):
            self.bad(b"folder\t" + named(version=version))

    def test_shape_of_a_name(self):
        short = [b"", b"_", b"__", b"_1_2_ab_16", b"1_2_ab_16", b"__1_2_ab", b"__1_2_16"]
        long = [b"___1_2_ab_16", b"x__1_2_ab_16", b"__1_2_ab_16_", b"__1_2_ab_16_16", b"__1__2_ab_16", b"__1_2_ab__16"]
        for name in [*short, *long, b"__1_2_ab_16.wrt", b" __1_2_ab_16", b"__1_2_ab_16 "]:
            self.bad(b"folder\t" + name)

    def test_kinds_and_tabs(self):
        capitals = [b"Folder", b"FOLDER", b"Wrt", b"WRT", b"Con", b"IGN"]
        for kind in [*capitals, b"", b"folde", b"folders", b"fold", b"vac", b"w", b" wrt", b"wrt "]:
            self.bad(kind + b"\t" + GOOD)
        for before in (b"folder", b"folder ", b"folder\t\t", b"\tfolder\t", b"\t", b""):
            self.bad(before + GOOD)
        for line in (b"folder", b"folder\t", b"\t", b"folder\t" + GOOD + b"\t", b"folder\t" + GOOD + b"\tmore"):
            self.bad(line)

    def test_odd_bytes(self):
        for byte in (0, 9, 11, 12, 13, 32, 127, 128, 160, 255):
            for at in range(len(b"folder\t" + GOOD) + 1):
                line = bytearray(b"folder\t" + GOOD)
                line.insert(at, byte)
                self.bad(bytes(line))
        self.assertEqual(said(b"folder\t" + GOOD + b"\r\nwrt\t" + GOOD + b"\r\n"), (24, 0, 0))

    def test_bytes_of_a_line(self):
        """The longest record has 116 bytes, so that a line of 255 or 256 is bad by its name already."""
        longest = b"folder\t" + named(str(2**63 - 1), str(2**63 - 1), "x" * 64, "21")
        self.assertEqual(len(longest), 7 + 2 + 19 + 1 + 19 + 1 + 64 + 1 + 2)
        self.good(longest[7:])
        for size in (254, 255, 256, 257, 1000, 100_000):
            start, end = b"folder\t__1_2_", b"_16"
            self.bad(start + b"x" * (size - len(start) - len(end)) + end)
            self.bad(b"x" * size)

    def test_ends_of_lines(self):
        self.assertEqual(said(b""), ([], 0, []))
        self.assertEqual(said(b"\n"), (24, 0, 0))
        self.assertEqual(said(b"\n\n"), (24, 0, 0))
        self.assertEqual(said(b"wrt\t" + GOOD), ([], 0, []))
        self.assertEqual(said(b"wrt\t" + GOOD + b"\n"), ([], 0, []))
        self.assertEqual(said(b"wrt\t" + GOOD + b"\n\n"), (24, 1, 0))
        self.assertEqual(said(b"\nwrt\t" + GOOD), (24, 0, 0))


class Repeats(unittest.TestCase):
    def test_the_later_line(self):
        line, other = b"wrt\t" + GOOD + b"\n", b"wrt\t" + named(uuid="c") + b"\n"
        self.assertEqual(said(line + line), (25, 1, 0))
        self.assertEqual(said(line + other + other + line), (25, 2, 0))
        self.assertEqual(said(line + other + line[:-1]), (25, 2, 0))
        self.assertEqual(said(line + b"x\n" + line), (24, 1, 0))
        self.assertEqual(said(line + line + b"x\n"), (25, 1, 0))

    def test_another_kind_time_or_version_is_another_record(self):
        names = [named(), named(t2="3"), named(t1="0"), named(version="17"), named(uuid="ac")]
        every = b"".join(kind + b"\t" + name + b"\n" for kind in (b"folder", b"wrt", b"con", b"ign") for name in names)
        self.assertEqual(said(every), ([0, 1, 2, 3, 4], 5, [name.decode() for name in names]))

    def test_one_hash(self):
        """Names that differ and have one hash are told apart by their bytes."""
        first, second = named(uuid="Aa"), named(uuid="BB")
        hashes = []
        for name in (first, second):
            total = 0
            for byte in name[-32:]:
                total = (31 * total + byte) % 2**32
            hashes.append(total)
        self.assertEqual(*hashes)
        both = b"folder\t" + first + b"\nfolder\t" + second + b"\n"
        self.assertEqual(said(both), ([], 0, []))
        self.assertEqual(said(both + b"wrt\t" + second), ([1], 1, [second.decode()]))
        self.assertEqual(said(both + b"con\t" + first + b"\nign\t" + second), ([0], 1, [first.decode()]))
        self.assertEqual(said(both + b"folder\t" + first), (25, 2, 0))

    def test_all_of_one_hash(self):
        uuids = ["".join(blocks) for blocks in itertools.product(("Aa", "BB"), repeat=10)]
        whole = b"".join(b"wrt\t" + named(uuid=uuid) + b"\n" for uuid in uuids)
        self.assertEqual(said(whole), ([], 0, []))
        self.assertEqual(said(whole.replace(b"BB" * 10, b"Aa" * 10)), (25, 1023, 0))


class Many(unittest.TestCase):
    def lines(self, number):
        return [b"folder\t" + named(uuid=str(i)) for i in range(number)]

    def test_around_the_most(self):
        for ending in (b"", b"\n"):
            self.assertEqual(said(b"\n".join(self.lines(1023)) + ending), ([], 0, []))
            self.assertEqual(said(b"\n".join(self.lines(1024)) + ending), ([], 0, []))
            self.assertEqual(said(b"\n".join(self.lines(1025)) + ending), (24, 1024, 0))
            self.assertEqual(said(b"\n".join(self.lines(3000)) + ending), (24, 1024, 0))
        self.assertEqual(said(b"\n".join(self.lines(1024)) + b"\n\n"), (24, 1024, 0))

    def test_with_a_fault_before(self):
        for at, bad in itertools.product((0, 1, 500, 1023), (b"x", b"")):
            lines = self.lines(1025)
            lines[at] = bad
            self.assertEqual(said(b"\n".join(lines)), (24, at, 0))
        for at in (1, 500, 1023):
            lines = self.lines(1025)
            lines[at] = lines[0]
            self.assertEqual(said(b"\n".join(lines)), (25, at, 0))

    def test_line_1024_is_one_too_many_whatever_it_is(self):
        for last in (self.lines(1)[0], b"x", b"wrt\t" + GOOD):
            self.assertEqual(said(b"\n".join([*self.lines(1024), last])), (24, 1024, 0))

    def test_all_found(self):
        lines = [line for i in range(512) for line in (b"folder\t" + named(uuid=str(i)), b"wrt\t" + named(uuid=str(i)))]
        found, number, names = said(b"\n".join(lines))
        self.assertEqual((found, number), (list(range(0, 1024, 2)), 512))
        self.assertEqual(names, [named(uuid=str(i)).decode() for i in range(512)])


class Counts(unittest.TestCase):
    def test_every_combination(self):
        for size in range(5):
            for kinds in itertools.permutations(("folder", "wrt", "con", "ign"), size):
                listing = "".join(f"{kind}\t__1_2_ab_16\n" for kind in kinds).encode()
                counts = "folder" in kinds and ("wrt" in kinds or ("con" in kinds and "ign" not in kinds))
                expected = ([kinds.index("folder")], 1, ["__1_2_ab_16"]) if counts else ([], 0, [])
                self.assertEqual(said(listing), expected, msg=kinds)

    def test_time(self):
        most = 2**63 - 1
        for t2 in (0, 1, 7, most):
            listing = folder(named(t1="0", t2=str(t2)))
            for time in {0, max(t2 - 1, 0), t2, t2 + 1, most, 2**63, LATEST}:
                self.assertEqual(said(listing, time)[1], int(t2 <= time), msg=(t2, time))

    def test_time_outside_u64(self):
        for time in (-1, 2**64, 2**70, -(2**63)):
            with self.assertRaises(ValueError):
                tb.committed(b"", time)
        for time in (1.0, "1", None):
            with self.assertRaises(TypeError):
                tb.committed(b"", time)

    def test_room(self):
        listing = b"".join(folder(named(uuid=str(i))) for i in range(5))
        for room in range(8):
            self.assertEqual(said(listing, room=room)[:2], ([0, 2, 4, 6, 8][:room], 5))
        self.assertEqual(said(listing, room=-3)[:2], ([], 5))
        self.assertEqual(tb.committed(listing, LATEST, 2**80).lines, [0, 2, 4, 6, 8])
        with self.assertRaises(tb.Refused):
            tb.committed(b"x", 1, 0)

    def test_only_in_folders_that_do_not_count(self):
        records = ["wrt a", "folder a", "folder b", "con b", "ign c", "con c", "wrt nowhere"]
        kept = [kind.encode() + b"\t" + named(uuid=uuid) for kind, uuid in map(str.split, records)]
        others = [b"folder\t" + name for name in (named(uuid="c"), named(uuid="d"), named(uuid="a", version="17"))]
        chance = random.Random(6)
        for _ in range(200):
            lines = list(kept)
            for line in chance.sample(others, chance.randrange(4)):
                lines.insert(chance.randrange(len(lines) + 1), line)
            self.assertEqual(said(b"\n".join(lines))[1:], (2, [named(uuid="a").decode(), named(uuid="b").decode()]))


class Random(unittest.TestCase):
    def test_random_listings(self):
        chance = random.Random(20261117)
        seen = set()
        for _ in range(4000):
            names = [
                named(str(chance.randrange(4)), str(chance.randrange(2, 6)), chance.choice(["a", "Aa", "BB"]), chance.choice(["16", "21"]))
                for _ in range(chance.randrange(1, 4))
            ]
            kinds = chance.choices([b"folder", b"wrt", b"con", b"ign"], k=chance.randrange(12))
            lines = [kind + b"\t" + chance.choice(names) for kind in kinds]
            if chance.random() < 0.8:
                lines = list(dict.fromkeys(lines))
            text = bytearray(b"\n".join(lines) + (b"\n" if chance.random() < 0.5 and lines else b""))
            if text and chance.random() < 0.1:
                text[chance.randrange(len(text))] = chance.randrange(256)
            answer = said(bytes(text), chance.choice([0, 2, 3, 4, 5, LATEST]), chance.choice([None, 0, 1, 2, 5]))
            seen.add(answer[0] if isinstance(answer[0], int) else "found" if answer[1] else "none")
        self.assertEqual(seen, {24, 25, "found", "none"})


class Lending(unittest.TestCase):
    def test_whatever_has_bytes(self):
        listing = folder(GOOD)
        expected = tb.committed(listing, 5)
        self.assertEqual(repr(expected), "Committed(lines=[0], found=1)")
        self.assertEqual(expected.names, ["__1_2_ab_16"])
        with mmap.mmap(-1, len(listing)) as mapped:
            mapped[:] = listing
            for lent in (bytearray(listing), memoryview(listing), mapped):
                self.assertEqual(tb.committed(lent, 5), expected)
                self.assertEqual(tb.committed(lent, 5).names, expected.names)
        spread = bytearray(2 * len(listing))
        spread[::2] = listing
        self.assertEqual(tb.committed(memoryview(spread)[::2], 5).names, expected.names)
        self.assertEqual(tb.committed(array.array("B", listing), 5).names, expected.names)
        for wrong in ("text", None, 5, ["folder"]):
            with self.assertRaises(TypeError):
                tb.committed(wrong, 5)


class Command(unittest.TestCase):
    def run_on(self, listing, *words):
        with tempfile.TemporaryDirectory() as folder:
            path = pathlib.Path(folder) / "listing"
            path.write_bytes(listing)
            asked = [sys.executable, "-W", "error", "-m", "tussockbell", "committed", str(path), *words]
            done = subprocess.run(asked, capture_output=True, text=True)
            return done.returncode, done.stdout, done.stderr

    def test_names_one_a_line(self):
        listing = folder(named(uuid="b")) + folder(named(uuid="a")) + b"folder\t" + named(uuid="half") + b"\n"
        self.assertEqual(self.run_on(listing, "--time", "2"), (0, "__1_2_b_16\n__1_2_a_16\n", ""))
        self.assertEqual(self.run_on(listing, "--time=1"), (0, "", ""))
        self.assertEqual(self.run_on(b"", "--time", str(LATEST)), (0, "", ""))

    def test_refused(self):
        self.assertEqual(self.run_on(b"x\n", "--time", "2"), (1, "", "tussockbell: refused 24 at 0: a bad line of a listing\n"))
        twice = b"wrt\t" + GOOD + b"\nwrt\t" + GOOD
        self.assertEqual(self.run_on(twice, "--time", "2"), (1, "", "tussockbell: refused 25 at 1: a record repeated whole\n"))

    def test_at_fault(self):
        for words in (("--time", "-1"), ("--time", str(2**64)), ("--time", "x"), (), ("--time",), ("--tim", "2")):
            status, said, failed = self.run_on(b"", *words)
            self.assertEqual((status, said), (2, ""))
            self.assertTrue(failed)
        words = [sys.executable, "-m", "tussockbell", "committed", "--time", "1", os.devnull + "-no"]
        missing = subprocess.run(words, capture_output=True, text=True)
        self.assertEqual((missing.returncode, missing.stdout), (2, ""))
        self.assertIn(os.devnull + "-no", missing.stderr)


class Recipe(unittest.TestCase):
    """examples/committed.py on folders that are made here."""

    def setUp(self):
        made = tempfile.TemporaryDirectory()
        self.addCleanup(made.cleanup)
        self.array = pathlib.Path(made.name)
        (self.array / "__commits").mkdir()
        (self.array / "__fragments").mkdir()

    def fragment(self, *names):
        for name in names:
            (self.array / "__fragments" / name).mkdir()

    def commit(self, file, text=""):
        (self.array / "__commits" / file).write_text(text)

    def asked(self, *words):
        asked = [sys.executable, "-W", "error", str(root / "examples/committed.py"), str(self.array), *words]
        done = subprocess.run(asked, capture_output=True, text=True)
        return done.returncode, done.stdout, done.stderr

    def test_a_half_written_fragment_is_left_out(self):
        self.fragment("__1_1_a_21", "__2_2_b_21", "__3_3_c_21")
        self.commit("__1_1_a_21.wrt")
        self.commit("__3_3_c_21.wrt")
        self.assertEqual(self.asked(), (0, "__1_1_a_21\n__3_3_c_21\n", ""))
        self.assertEqual(self.asked("2"), (0, "__1_1_a_21\n", ""))

    def test_consolidated_and_ignored(self):
        self.fragment("__1_1_a_21", "__2_2_b_21", "__3_3_c_21", "__4_4_d_21")
        held = "__1_1_a_21\ns3://bucket/array/__fragments/__2_2_b_21\nfile:///array/__commits/__3_3_c_21.wrt\n"
        self.commit("__1_3_e_21.con", held)
        self.commit("__1_3_f_21.con", held)
        self.commit("__1_3_g_21.ign", "/array/__fragments/__2_2_b_21")
        self.commit("__3_3_c_21.wrt")
        self.commit("__1_3_e_21.vac", "__1_1_a_21\n")
        (self.array / "__fragments" / "file").write_text("")
        self.assertEqual(self.asked(), (0, "__1_1_a_21\n__3_3_c_21\n", ""))

    def test_an_empty_array(self):
        self.assertEqual(self.asked(), (0, "", ""))

    def test_a_line_without_a_name(self):
        self.fragment("__1_1_a_21")
        for line in ("", "/", "/array/__fragments/", ".wrt"):
            self.commit("__1_1_e_21.con", "__1_1_a_21\n" + line + "\n")
            status, said, failed = self.asked()
            self.assertEqual((status, said), (1, ""))
            self.assertIn("__1_1_e_21.con: line 2 gives no name", failed)

    def test_a_name_that_is_none(self):
        self.fragment("__1_1_a_21")
        for name in ("__1_1_a_21.del", "other", "__1_1_a_12"):
            self.commit("__1_1_e_21.con", name + "\n")
            status, said, failed = self.asked()
            self.assertEqual((status, said), (1, ""))
            self.assertIn("refused 24 at 1", failed)


if __name__ == "__main__":
    unittest.main()
