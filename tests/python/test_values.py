"""Mins, maxes, sums and null counts through the Python binding, against the reference: each check at its edge, every kind, every tile."""

import gc
import itertools
import math
import mmap
import pathlib
import random
import struct
import sys
import unittest

root = pathlib.Path(__file__).resolve().parents[2]
sys.path.insert(0, str(root / "tests/reference"))

import rules
import tussockbell as tb
import values as reference

KINDS = list(rules.KINDS)
NAN = {"float32": struct.pack("<I", 0x7FC00000), "float64": struct.pack("<Q", 0xFFF0000000000001)}
LIMIT = rules.LIMITS["tiles"][1]


def u64(*numbers):
    return b"".join(x.to_bytes(8, "little") for x in numbers)


def packed(kind, *numbers):
    return b"".join(x if isinstance(x, bytes) else struct.pack(rules.KINDS[kind].format, x) for x in numbers)


def body(kind, *numbers, size=0, buffer=b""):
    return u64(len(numbers)) + packed(kind, *numbers) + u64(size) + buffer


def var_body(*parts):
    ends = list(itertools.accumulate(map(len, parts)))
    return u64(len(parts), 0, *ends[:-1], ends[-1]) + b"".join(parts)


def answered(ask, *given):
    """All values as they are, or the refusal. A float's zero has a sign."""
    try:
        return [repr(bytes(x) if isinstance(x, (bytes, memoryview)) else x) for x in ask(*given)]
    except (tb.Refused, rules.Refused) as refused:
        return refused.number, refused.place, refused.which


class Same(unittest.TestCase):
    def same(self, ask, *given):
        named = {tb.tile_values: reference.values, tb.tile_ranges: self.pairs, tb.tile_sums: reference.sums}
        said = answered(self.parts if ask is tb.tile_ranges else ask, *given)
        self.assertEqual(said, answered(named[ask], *given), msg=(ask.__name__, given))
        return said

    @staticmethod
    def pairs(*given):
        return [x for pair in reference.ranges(*given) for x in pair]

    @staticmethod
    def parts(*given):
        return [x for pair in tb.tile_ranges(*given) for x in pair]


class Fixed(Same):
    def test_every_kind(self):
        for kind in KINDS:
            for n in (1, 2, 5):
                low, high = body(kind, *range(n)), body(kind, *range(1, n + 1))
                self.same(tb.tile_values, kind, n, low)
                self.same(tb.tile_ranges, kind, n, low, high)
                if n > 1:
                    self.assertEqual(self.same(tb.tile_ranges, kind, n, high, low), (9, 8, 1))
                for cut in range(len(low)):
                    self.same(tb.tile_values, kind, n, low[:cut])
                    self.same(tb.tile_ranges, kind, n, low, high[:cut])
                for more in (b"\0", b"\0" * 8):
                    self.assertEqual(self.same(tb.tile_values, kind, n, low + more), (2, len(low + more), 0))
                for given in (0, n + 1, LIMIT, LIMIT + 1, 2**64 - 1, 2**70, -1):
                    self.same(tb.tile_values, kind, given if 0 <= given < 2**64 else LIMIT + 1, low)
                    self.assertEqual(answered(tb.tile_values, kind, given, low), answered(reference.values, kind, given, low))

    def test_numbers_of_the_kind(self):
        ends = {
            "int32": [-(2**31), -1, 0, 2**31 - 1], "int64": [-(2**63), -1, 0, 2**63 - 1], "uint64": [0, 2**63, 2**64 - 1],
            "float32": [-math.inf, -0.0, 0.0, 0.5, math.inf], "float64": [-math.inf, -0.0, 0.0, 0.1, math.inf],
        }
        for kind, numbers in ends.items():
            got = tb.tile_values(kind, len(numbers), body(kind, *numbers))
            self.assertEqual([(type(x), repr(x)) for x in got], [(type(x), repr(x)) for x in numbers])
            self.assertEqual(got.kind, kind)
            self.same(tb.tile_ranges, kind, len(numbers), body(kind, *numbers), body(kind, *numbers))

    def test_buffer_size(self):
        for size in (1, 8, 2**63, 2**64 - 1, 2**64 - 24, 2**64 - 16):
            for buffer in (b"", b"\0", b"\0" * 8):
                data = body("int32", 1, 2, size=size, buffer=buffer)
                self.assertEqual(self.same(tb.tile_values, "int32", 2, data), (2, len(data), 0))
        wraps = body("int64", 1, size=2**64 - 1)[:-1]
        self.assertEqual(self.same(tb.tile_values, "int64", 1, wraps), (2, 23, 0))

    def test_nan(self):
        for kind, nan in NAN.items():
            w = len(nan)
            self.assertEqual(self.same(tb.tile_values, kind, 3, body(kind, 1, 2, nan)), (8, 8 + 2 * w, 0))
            self.assertEqual(self.same(tb.tile_values, kind, 3, body(kind, 1, nan, nan)), (8, 8 + w, 0))
            # a NaN in the mins behind a min above its max, and one in the maxes behind it
            self.assertEqual(self.same(tb.tile_ranges, kind, 2, body(kind, 5, nan), body(kind, 1, 9)), (8, 8 + w, 0))
            self.assertEqual(self.same(tb.tile_ranges, kind, 2, body(kind, 5, 1), body(kind, 1, nan)), (8, 8 + w, 1))
            # both bodies have one: the mins' comes first
            self.assertEqual(self.same(tb.tile_ranges, kind, 2, body(kind, 1, nan), body(kind, nan, 1)), (8, 8 + w, 0))
            self.assertEqual(self.same(tb.tile_ranges, kind, 2, body(kind, 1, nan), b""), (8, 8 + w, 0))

    def test_order(self):
        for kind in ("float32", "float64"):
            for low, high in itertools.product((-math.inf, -1.0, -0.0, 0.0, 1.0, math.inf), repeat=2):
                said = self.same(tb.tile_ranges, kind, 1, body(kind, low), body(kind, high))
                self.assertEqual(said == (9, 8, 1), low > high)
        for kind, numbers in (("int32", (-(2**31), -1, 0, 2**31 - 1)), ("int64", (-(2**63), -1, 0, 1)), ("uint64", (0, 2**63, 2**64 - 1))):
            for low, high in itertools.product(numbers, repeat=2):
                said = self.same(tb.tile_ranges, kind, 3, body(kind, 0, low, 0), body(kind, 0, high, 0))
                self.assertEqual(said == (9, 8 + rules.KINDS[kind].range_bytes // 2, 1), low > high)
        # the pair is refused, and each body by itself is not
        self.assertEqual(answered(tb.tile_values, "int32", 1, body("int32", 2)), ["2"])
        self.assertEqual(answered(tb.tile_values, "int32", 1, body("int32", 1)), ["1"])

    def test_kinds_by_any_name(self):
        class Dtype:
            name = "float64"

        self.assertEqual(list(tb.tile_values(Dtype(), 1, body("float64", 0.5))), [0.5])
        self.assertEqual(list(tb.tile_values(0, 1, body("int32", 7))), [7])
        for kind in ("int8", "Var", 4, 255, 256, None, object()):
            for n in (0, 1, LIMIT + 1):
                self.assertEqual(answered(tb.tile_values, kind, n, b""), (1, 0, 0))
                self.assertEqual(answered(tb.tile_ranges, kind, n, b"", b""), (1, 0, 0))


class Var(Same):
    def test_values(self):
        for parts in itertools.product((b"", b"a", b"bc"), repeat=3):
            data = var_body(*parts)
            got = tb.tile_values("var", 3, data)
            self.assertEqual(list(map(bytes, got)), list(parts))
            self.assertEqual(b"".join(got), data[16 + 24 :])
            self.same(tb.tile_ranges, "var", 3, data, var_body(*reversed(parts)))
        self.assertEqual(self.same(tb.tile_values, "var", 1, var_body(b"")), ["b''"])
        self.assertEqual(tb.tile_values("var", 1, var_body(b"")).kind, "var")

    def test_parts_of_the_body(self):
        data = bytearray(var_body(b"ab", b"", b"cde"))
        got = tb.tile_values("var", 3, data)
        last = got[2]
        self.assertIsInstance(last, memoryview)
        self.assertTrue(last.readonly)
        data[-1] = ord("x")
        self.assertEqual(bytes(last), b"cdx")
        with self.assertRaises(BufferError):
            data.append(0)
        del got, last
        gc.collect()
        data.append(0)

    def test_starts(self):
        for starts in itertools.product((0, 1, 2, 3, 4, 2**64 - 1), repeat=2):
            data = u64(2, *starts, 3) + b"abc"
            said = self.same(tb.tile_values, "var", 2, data)
            if starts[0]:
                self.assertEqual(said, (18, 8, 0))
            elif starts[1] > 3:
                self.assertEqual(said, (18, 16, 0))
            self.same(tb.tile_ranges, "var", 2, var_body(b"", b""), data)
            self.same(tb.tile_ranges, "var", 2, data, data)

    def test_sizes(self):
        for size in (0, 2, 3, 4, 2**32, 2**63, 2**64 - 33, 2**64 - 32, 2**64 - 31, 2**64 - 29, 2**64 - 1):
            for buffer in (b"", b"a", b"abc"):
                said = self.same(tb.tile_values, "var", 2, u64(2, 0, 0, size) + buffer)
                self.assertEqual(said == (2, 32 + len(buffer), 0), size != len(buffer))
        # the total comes before a start above a size that is itself wrong
        self.assertEqual(self.same(tb.tile_values, "var", 2, u64(2, 0, 9, 2) + b"abc"), (2, 35, 0))
        data = var_body(b"ab", b"c")
        for cut in range(len(data)):
            self.same(tb.tile_values, "var", 2, data[:cut])

    def test_values_are_not_compared(self):
        self.assertEqual(len(tb.tile_ranges("var", 1, var_body(b"z"), var_body(b"a"))), 1)


class Sums(Same):
    def test_raw(self):
        numbers = [0, 1, 2**63, 2**64 - 1, struct.unpack("<Q", struct.pack("<d", -0.5))[0]]
        sums = tb.tile_sums(5, u64(5, *numbers))
        self.assertEqual(list(sums), numbers)
        self.assertEqual(list(sums.signed()), [0, 1, -(2**63), -1, numbers[4] - 2**64])
        self.assertEqual(sums.real()[4], -0.5)
        self.assertEqual(sums.real()[:1], [0.0])
        self.assertTrue(math.isnan(sums.real()[3]))
        self.assertEqual((len(sums.signed()), len(sums.real())), (5, 5))
        with self.assertRaises(IndexError):
            sums.signed()[5]

    def test_checks(self):
        data = u64(2, 5, 6)
        for n in (0, 1, 2, 3, LIMIT, LIMIT + 1, 2**64 - 1):
            for cut in range(len(data) + 1):
                self.same(tb.tile_sums, n, data[:cut])
            self.same(tb.tile_sums, n, data + b"\0")


class Counts(unittest.TestCase):
    def setUp(self):
        sample = root / "tests/fixtures/sample"
        self.footer = (sample / "footer").read_bytes()
        self.description = tb.Description(["int32"], fields=1, capacity=32)
        self.known = rules.Description(["int32"], 1, 32)

    def same(self, footer, data, file_size=1166):
        said = answered(tb.null_counts, self.description, file_size, footer, data)
        self.assertEqual(said, answered(reference.null_counts, self.known, file_size, footer, data))
        return said

    def test_cells(self):
        # three tiles of 32, 32 and 5 cells
        self.assertEqual(self.same(self.footer, u64(3, 32, 0, 5)), ["32", "0", "5"])
        for i, cells in enumerate((32, 32, 5)):
            for count in (cells, cells + 1, 33, 2**64 - 1):
                counts = [0, 0, 0]
                counts[i] = count
                said = self.same(self.footer, u64(3, *counts))
                self.assertEqual(said == (27, 8 + 8 * i, 1), count > cells)
        self.assertEqual(self.same(self.footer, u64(3, 0, 33, 6)), (27, 16, 1))

    def test_one_tile(self):
        kinds, numbers = ["int32"], {"tiles": 1, "last_cells": 7}
        footer = bytearray(self.footer)
        at = footer.index(u64(3, 5))
        footer[at : at + 16] = u64(numbers["tiles"], numbers["last_cells"])
        self.assertEqual(self.same(bytes(footer), u64(1, 7)), ["7"])
        self.assertEqual(self.same(bytes(footer), u64(1, 8)), (27, 8, 1))
        self.assertEqual(kinds, self.known.kinds)

    def test_the_footer_first(self):
        for at in range(len(self.footer)):
            wrong = bytearray(self.footer)
            wrong[at] ^= 0xFF
            for data in (u64(3, 1, 2, 3), u64(3, 33, 0, 0), b"", u64(2, 0, 0)):
                self.same(bytes(wrong), data)
        self.assertEqual(self.same(self.footer[:-1], u64(3, 99, 0, 0)), (2, len(self.footer) - 1, 0))
        self.assertEqual(self.same(self.footer, u64(3, 99, 0, 0), file_size=0), (2, len(self.footer), 0))
        outside = tb.Description(["int32"], fields=1, capacity=0)
        self.assertEqual(answered(tb.null_counts, outside, 1166, self.footer, b""), (1, 0, 0))

    def test_the_body(self):
        self.assertEqual(self.same(self.footer, u64(3, 0, 0)), (2, 24, 1))
        self.assertEqual(self.same(self.footer, u64(2, 0, 0)), (17, 0, 1))
        self.assertEqual(self.same(self.footer, b"\3"), (2, 1, 1))
        self.assertEqual(self.same(self.footer, u64(3, 0, 0, 0) + b"\0"), (2, 33, 1))


class Sequences(unittest.TestCase):
    def made(self):
        numbers = [3, 1, 2]
        yield tb.tile_values("int64", 3, body("int64", *numbers)), numbers
        yield tb.tile_sums(3, u64(3, *numbers)), numbers
        yield tb.tile_sums(3, u64(3, *numbers)).signed(), numbers
        yield tb.tile_ranges("int32", 3, body("int32", *numbers), body("int32", 9, 9, 9)), [(x, 9) for x in numbers]
        yield tb.tile_values("var", 3, var_body(b"x", b"", b"yz")), [b"x", b"", b"yz"]

    def test_as_lists(self):
        for got, expected in self.made():
            self.assertEqual(len(got), 3)
            self.assertEqual(list(got), expected)
            self.assertEqual(list(reversed(got)), expected[::-1])
            for i in range(-3, 3):
                self.assertEqual(got[i], expected[i])
            for cut in (slice(None), slice(1, None), slice(None, None, -1), slice(5, 9), slice(-2, -1)):
                self.assertEqual(got[cut], expected[cut])
            for outside in (3, -4, 2**70):
                with self.assertRaisesRegex(IndexError, "no such tile"):
                    got[outside]
            with self.assertRaises(TypeError):
                got["0"]

    def test_lent_as_they_are(self):
        data = body("int32", 1, 2)
        with mmap.mmap(-1, len(data)) as mapped:
            mapped[:] = data
            got = tb.tile_values("int32", 2, mapped)
            self.assertEqual(list(got), [1, 2])
            with self.assertRaises(BufferError):
                mapped.close()
            del got
            gc.collect()
        for wrong in (7, "text", None, [1]):
            with self.assertRaises(TypeError):
                tb.tile_values("int32", 1, wrong)
            with self.assertRaises(TypeError):
                tb.tile_sums(1, wrong)
        # nothing is held after a refusal
        refused = bytearray(data)
        for ask in (lambda: tb.tile_values("int32", 3, refused), lambda: tb.tile_ranges("int32", 3, refused, refused), lambda: tb.tile_sums(3, refused)):
            with self.assertRaises(tb.Refused):
                ask()
            refused.append(0)

    def test_items_of_more_bytes(self):
        """A buffer of other items than bytes is lent by its bytes."""
        data = memoryview(u64(2, 0, 1, 8) + b"abcdefgh").cast("Q")
        self.assertEqual(list(map(bytes, tb.tile_values("var", 2, data))), [b"a", b"bcdefgh"])


class Random(Same):
    def test_damaged(self):
        chance = random.Random(9)
        for _ in range(3000):
            kind = chance.choice([*KINDS, "var"])
            n = chance.choice([1, 2, 3, 9])
            made = [
                var_body(*(bytes(chance.randrange(3)) for _ in range(n))) if kind == "var"
                else body(kind, *(chance.choice([0, 1, 2, 3]) for _ in range(n)))
                for _ in range(2)
            ]
            for data in made:
                if chance.random() < 0.5:
                    at = chance.randrange(len(data))
                    data = data[:at] + bytes([data[at] ^ (1 << chance.randrange(8))]) + data[at + 1 :]
                self.same(tb.tile_values, kind, n, data)
            self.same(tb.tile_ranges, kind, n, *made)


if __name__ == "__main__":
    unittest.main()
