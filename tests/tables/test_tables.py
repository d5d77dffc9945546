"""Each language has one table of the kinds, one of the limits and one of the refusals. They are the same.

A table is found by what it looks like, so that it may move between files. What has to be equal:

- refusals: the numbers, from 1 on, rising, each once; the names, by their words, where a table has names; the texts,
  letter by letter, where it has texts. No other place has a refusal by its number.
- kinds: the names, the Datatype numbers, each once, and the bytes of a range, as far as a table has them.
- limits: the least and the most of each number that has them.
- the version, which VERSION has.
"""

import ast
import importlib.util
import pathlib
import re
import struct
import unittest

ROOT = pathlib.Path(__file__).resolve().parents[2]
HEADER = "include/tussockbell.h"
PYTHON = "bindings/python/tussockbell/__init__.py"
PYTHON_KINDS = "bindings/python/tussockbell/_kinds.py"
PYTHON_REFUSED = "bindings/python/tussockbell/_refused.py"
PYTHON_LIMITS = "bindings/python/tussockbell/limits.py"
REFERENCE = "tests/reference/rules.py"
DIFFERENTIAL = "tests/differential/src/rules.rs"
PLAIN = "bench/src/plain.rs"

# What the library calls by more words than the header, which C programs rest on.
SHORTER = {"sizes_sum": "sum"}
LIMITS = {
    "D, dimensions": "dimensions",
    "N, entries in each per-field list": "fields",
    "C, capacity in cells": "capacity",
    "version": "version",
    "bytes of the schema name": "name",
    "n, tiles": "tiles",
    "f, fanout": "fanout",
}


def read(path):
    return (ROOT / path).read_text()


def files(*patterns):
    """Path and text of each file."""
    return [(str(path.relative_to(ROOT)), path.read_text()) for pattern in patterns for path in sorted(ROOT.glob(pattern))]


CODE = files("crates/*/src/**/*.rt")
SPECS = files("crates/*/specs/**/*.antt")


def the_one(among, pattern):
    """The text of the only file that has the pattern."""
    having = [(path, text) for path, text in among if re.search(pattern, text, re.M)]
    assert len(having) == 1, f"{pattern} is in {[path for path, _ in having]}"
    return having[0][1]


def part(text, start, end):
    """What stands between two patterns, the first of which occurs once."""
    assert len(re.findall(start, text, re.M)) == 1, f"{start} does not occur once"
    return re.split(end, re.split(start, text, flags=re.M)[1], flags=re.M)[0]


def section(name):
    return part(read("docs/RULES.md"), f"^## {name}$", "^## ")


def words(name):
    """A name in any of the languages, as its words."""
    if not name.isupper():
        name = re.sub(r"(?<!^)(?=[A-Z])", "_", name)
    return SHORTER.get(name.lower(), name.lower())


def number(digits):
    return int(digits.replace(",", "").replace("_", ""))


def assigned(path, name):
    """What a Python file gives a name, as a syntax tree."""
    given = [node.value for node in ast.parse(read(path)).body if isinstance(node, ast.Assign) and ast.unparse(node.targets[0]) == name]
    assert len(given) == 1, f"{name} is not given once in {path}"
    return given[0]


def refusals_of_python():
    """Name, number and text of each refusal, as the class has them."""
    classes = [node for node in ast.parse(read(PYTHON_REFUSED)).body if isinstance(node, ast.ClassDef) and node.name == "Refusal"]
    given = [node for node in classes[0].body if isinstance(node, ast.Assign)]
    return [(ast.unparse(node.targets[0]), *ast.literal_eval(node.value)) for node in given]


def entries(tree):
    """Keys and values of a dictionary as it is written, each key as often as it stands there."""
    return [(ast.literal_eval(key), ast.literal_eval(value)) for key, value in zip(tree.keys, tree.values)]


def reference():
    spec = importlib.util.spec_from_file_location("rules", ROOT / REFERENCE)
    module = importlib.util.module_from_spec(spec)
    spec.loader.exec_module(module)
    return module


def constants(path, module):
    return re.findall(r"pub const (\w+): u64 = (\d+);", part(read(path), rf"mod {module} \{{", r"^\}"))


class Version(unittest.TestCase):
    def test_version(self):
        version = read("VERSION").strip()
        self.assertRegex(version, r"^\d+\.\d+\.\d+$")
        header = read(HEADER)
        self.assertEqual(re.findall(r'TUSSOCKBELL_VERSION "(.*)"', header), [version])
        parts = [re.findall(rf"TUSSOCKBELL_VERSION_{name} (\d+)", header) for name in ("MAJOR", "MINOR", "PATCH")]
        self.assertEqual(parts, [[one] for one in version.split(".")])
        self.assertEqual(ast.literal_eval(assigned(PYTHON, "__version__")), version)
        for path in ("bindings/rust/Cargo.toml", "bindings/rust/Cargo.lock"):
            self.assertEqual(re.findall(r'^version = "(.*)"', read(path), re.M), [version], msg=path)
        self.assertEqual(re.findall(r"^version: (.*)$", read("CITATION.cff"), re.M), [version])
        self.assertEqual(re.findall(r"^## (.*)$", read("CHANGELOG.md"), re.M)[0], version)

    def test_function(self):
        """What tussockbell_version answers is made of the parts of VERSION; `tests/c` holds it against the header's number."""
        parts = list(zip(("major", "minor", "patch"), read("VERSION").strip().split(".")))
        code = the_one(CODE, r"fn tussockbell_version\(\)")
        self.assertEqual(re.findall(r"^    let (\w+) = (\d+);$", code, re.M), parts)
        self.assertEqual(re.findall(r"^(major|minor|patch) = (\d+)$", the_one(SPECS, r"^version_number = "), re.M), parts)
        self.assertTrue(all(int(part) < 1_000 for _, part in parts[1:]))


class Same(unittest.TestCase):
    def once(self, pairs, where):
        """A table from its rows, none of which is said twice."""
        table = dict(pairs)
        self.assertEqual(len(table), len(pairs), msg=f"{where} says something twice: {pairs}")
        return table

    def same(self, tables):
        """All tables, by the place where they stand, are as the first."""
        (first, right), *others = tables.items()
        for where, table in others:
            self.assertEqual(table, right, msg=f"{where} is not as {first}")


class Refusals(Same):
    def setUp(self):
        rows = re.findall(r"^\| (\d+) \| (.+?) \| .+ \|$", section("Refusals"), re.M)
        self.rules = self.once([(int(n), text) for n, text in rows], "docs/RULES.md")
        header = read(HEADER)
        self.named = re.findall(r"#define TUSSOCKBELL_((?:NOT_)?REFUSED(?:_\w+)?) (\d+)\n", header)
        self.cases = self.once(re.findall(r'case TUSSOCKBELL_(\w+):\s+return "(.*)";', header), HEADER)
        self.specs = the_one(SPECS, r"^abbrev pub not_a_number : ")

    def names(self, pairs, where):
        """Names and numbers, as a table from the numbers to the names."""
        return self.once([(int(n), words(name)) for name, n in self.once(pairs, where).items()], where)

    def test_numbers(self):
        self.assertEqual(list(self.rules), sorted(self.rules))
        self.assertEqual(min(self.rules), 1)

    def test_names(self):
        reasons = part(the_one(CODE, r"^pub struct Refusal "), r"^pub enum Reason \{", r"^\}")
        code = re.findall(r"^    (\w+) = (\d+),$", reasons, re.M)
        # four of the definitions have an article before their names, since a field is called so too
        specs = [(name.removeprefix("the_"), n) for name, n in re.findall(r"^(\w+) = (\d+)$", self.specs, re.M)]
        rust = part(read("bindings/rust/src/refused.rs"), r"^refusals! \{", r"^\}")
        reference_class = [node for node in ast.parse(read(REFERENCE)).body if isinstance(node, ast.ClassDef) and node.name == "Refusal"]
        given = [(ast.unparse(node.targets[0]), ast.unparse(node.value)) for node in reference_class[0].body if isinstance(node, ast.Assign)]
        tables = {
            HEADER: [(name.removeprefix("REFUSED_"), n) for name, n in self.named if name != "NOT_REFUSED"],
            "the code": code,
            "the definitions": specs,
            "the Rust crate": [(name, n) for n, name in re.findall(r"^    (\d+) (\w+) ", rust, re.M)],
            REFERENCE: given,
            PYTHON_REFUSED: [(name, n) for name, n, _ in refusals_of_python()],
            DIFFERENTIAL: constants(DIFFERENTIAL, "refusal"),
            PLAIN: constants(PLAIN, "refusal"),
        }
        tables = {where: self.names(pairs, where) for where, pairs in tables.items()}
        self.assertEqual(sorted(tables[HEADER]), sorted(self.rules), msg="the header is not as docs/RULES.md")
        self.same(tables)

    def test_texts(self):
        numbers = {name: int(n) for name, n in self.named}
        header = self.once([(numbers[name], text) for name, text in self.cases.items()], HEADER)
        rust = read("bindings/rust/src/refused.rs")
        rows = re.findall(r'^    (\d+) \w+ "(.*)";$', part(rust, r"^refusals! \{", r"^\}"), re.M)
        none = re.findall(r'^ +(\d+) => "(.*)",$', rust, re.M)
        commented = re.findall(r"^-- (.+)\nabbrev pub (\w+) : ℕ\n\2 = (\d+)$", self.specs, re.M)
        self.same({
            HEADER: header,
            "the Rust crate": self.once([(int(n), text) for n, text in none + rows], "the Rust crate"),
        })
        self.assertEqual(header.pop(0), "not refused")
        self.same({
            HEADER: header,
            "docs/RULES.md": self.rules,
            PYTHON_REFUSED: self.once([(n, text) for _, n, text in refusals_of_python()], PYTHON_REFUSED),
            "the definitions": self.once([(int(n), text) for text, _, n in commented], "the definitions"),
        })

    def test_no_other_place(self):
        """A refusal is called by its name everywhere but in the tables."""
        called = r"\b(?:Refused|refuse|Refusal::new|Refusal::when)\((?:\w+, )?[1-9]\d*,|\brefusal [1-9]\d* "
        others = files("tests/reference/*.py", "tests/differential/src/*.rs", "bench/src/*.rs")
        for path, text in CODE + SPECS + others:
            self.assertEqual(re.findall(called, text), [], msg=path)


class Kinds(Same):
    def setUp(self):
        rows = re.findall(r"^\| (\w+\d+) \| (\d+) \| (\d+) \|$", section("Kinds and ranges"), re.M)
        self.rules = self.once([(name, (int(n), int(size))) for name, n, size in rows], "docs/RULES.md")
        self.numbers = {name: n for name, (n, _) in self.rules.items()}
        self.bytes = {name: size for name, (_, size) in self.rules.items()}
        self.once([(n, name) for name, n in self.numbers.items()], "docs/RULES.md")

    def known(self, table, where):
        """A table of one number a kind: its Datatype number, the bytes of a range, or those of an end. Which of them it is."""
        halves = {name: size // 2 for name, size in self.bytes.items()}
        kind_of = {"number": self.numbers, "bytes": self.bytes, "half": halves}
        which = [what for what, right in kind_of.items() if right == table]
        self.assertEqual(len(which), 1, msg=f"{where}: {table} is neither Datatype numbers nor bytes")
        return which[0]

    def arms(self, text, where):
        """The tables `Kind::X => number` of a Rust or Rattle file, by the function that each stands in: which they are."""
        found = {}
        for block in re.finditer(r"match \w+ \{((?:\s*Kind::\w+ => \d+,)+)\s*\}", text):
            function = re.findall(r"\bfn (\w+)", text[: block.start()])[-1]
            rows = re.findall(r"Kind::(\w+) => (\d+),", block[1])
            table = self.once([(words(name), int(n)) for name, n in rows], where)
            found[function] = self.known(table, f"{function} in {where}")
        return found

    def reads(self, pairs, where):
        """Numbers that are read as kinds: Datatype numbers, and in the report the bits of an integer."""
        for n, name in pairs:
            right = [self.numbers.get(words(name)), 4 * self.bytes.get(words(name), 0)]
            self.assertIn(int(n), right, msg=f"{where} reads {n} as {name}")

    def test_code(self):
        found, read = {}, set()
        for path, text in CODE:
            found.update(self.arms(text, path))
            pairs = re.findall(r"\b(\d+) => (?:\w+\((?:\w+ \{ kind: )?)?Kind::(\w+)", text)
            self.reads(pairs, path)
            read.update((words(name), int(n)) for n, name in pairs)
        # each Datatype number is read as its kind somewhere, and so are the bits of the two kinds that the report takes
        self.assertEqual(read, set(self.numbers.items()) | {("int32", 32), ("int64", 64)})
        self.assertEqual(found.get("range_bytes"), "bytes")
        self.assertEqual(found.get("datatype", found.get("number")), "number")
        kinds = the_one(CODE, r"^pub enum Kind \{")
        variants = re.findall(r"^    (\w+),$", part(kinds, r"^pub enum Kind \{", r"^\}"), re.M)
        self.assertEqual([words(name) for name in variants], list(self.rules))

    def test_definitions(self):
        found = {}
        names = "|".join(name.capitalize() for name in self.rules)
        for path, text in SPECS:
            rows = re.findall(rf"^(\w+) ({names}) = (\d+)$", text, re.M)
            for function in {function for function, _, _ in rows}:
                table = self.once([(words(name), int(n)) for f, name, n in rows if f == function], path)
                found[function] = self.known(table, f"{function} in {path}")
            self.reads(re.findall(rf"\(eqb \w+ (\d+)\) ({names})\b", text), path)
            self.reads([(n, name) for name, n in re.findall(rf"\b({names.upper()}) (\d+)", text)], path)
        self.assertEqual(found.get("range_bytes"), "bytes")
        self.assertEqual(found.get("datatype", found.get("kind_number")), "number")

    def test_header(self):
        names = "|".join(name.upper() for name in self.rules)
        defined = re.findall(rf"#define TUSSOCKBELL_({names}) (\d+)\n", read(HEADER))
        self.assertEqual(self.once([(words(name), int(n)) for name, n in defined], HEADER), self.numbers)

    def test_python(self):
        given = self.once(entries(assigned(PYTHON_KINDS, "KINDS")), PYTHON_KINDS)
        self.assertEqual({name: (n, 2 * struct.calcsize(one)) for name, (n, one) in given.items()}, self.rules)

    def test_reference(self):
        kinds = reference().KINDS
        self.assertEqual({name: (kind.number, kind.range_bytes) for name, kind in kinds.items()}, self.rules)
        self.assertEqual({name: 2 * struct.calcsize(kind.format) for name, kind in kinds.items()}, self.bytes)

    def test_differential(self):
        text = read(DIFFERENTIAL)
        rows = re.findall(r"^pub const (\w+): Kind = Kind \{ number: (\d+), range_bytes: (\d+), read: .*\(end, 0, (\d+)\)", text, re.M)
        table = self.once([(words(name), (int(n), int(size))) for name, n, size, _ in rows], DIFFERENTIAL)
        self.assertEqual(table, self.rules)
        self.assertEqual({words(name): 2 * int(half) for name, _, _, half in rows}, self.bytes)
        listed = re.findall(r"^pub const KINDS: .* = \[(.*)\];$", text, re.M)[0].split(", ")
        self.assertEqual([words(name) for name in listed], list(self.rules))

    def test_rust(self):
        for path in ("bindings/rust/src/ranges.rs", PLAIN):
            text = read(path)
            rows = re.findall(r"^    (\w+) = (\d+),$", part(text, r"^pub enum Kind \{", r"^\}"), re.M)
            self.assertEqual(self.once([(words(name), int(n)) for name, n in rows], path), self.numbers, msg=path)
            self.assertEqual(self.arms(text, path), {"range_bytes": "bytes"})
            listed = re.findall(r"Kind::(\w+)", re.findall(r"const ALL: .* = \[(.*)\];", text)[0])
            self.assertEqual([words(name) for name in listed], list(self.rules))

    def test_names(self):
        """Where a kind is called by its text."""
        for path, text in files("bindings/rust/**/*.rs", "bench/src/*.rs", "tests/differential/src/*.rs"):
            pairs = re.findall(r'"(\w+)" => Kind::(\w+)', text)
            pairs += [(name, kind) for kind, name in re.findall(r'Kind::(\w+) => "(\w+)"', text)]
            for name, kind in pairs:
                self.assertEqual(name, words(kind), msg=path)
        page = {name: ast.literal_eval(assigned("bench/page.py", name)) for name in ("KINDS", "VALUE_KINDS")}
        self.assertEqual(page, {"KINDS": [*(kind for kind in self.rules if kind != "float32"), "mix"], "VALUE_KINDS": list(self.rules)})


class Limits(Same):
    def table(self, rows, where):
        """From rows of a name, the least and the most."""
        return self.once([(words(name), (number(least), number(most))) for name, least, most in rows], where)

    def sides(self, rows, where):
        """From rows of least or most, a name and a number."""
        ends = self.once([((side.lower(), words(name)), number(n)) for side, name, n in rows], where)
        names = {name for _, name in ends}
        return {name: (ends.get(("least", name)), ends.get(("most", name))) for name in names}

    def test_limits(self):
        rows = re.findall(r"^\| (.+?) \| ([\d,]+) \| ([\d,]+) \|$", section("What comes in"), re.M)
        header = read(HEADER)
        ranges = r"pub const (\w+): RangeInclusive<\w+> = ([\d_]+)\.\.=([\d_]+);"
        rust = part(read("bindings/rust/src/ranges.rs"), r"^limits! \{", r"^\}")
        rust_rows = re.findall(r'^    LEAST_(\w+) MOST_(\w+) ".*" ([\d_]+) ([\d_]+);$', rust, re.M)
        self.assertTrue(all(a == b for a, b, _, _ in rust_rows))
        python_rows = re.findall(r"^LEAST_(\w+), MOST_\1 = ([\d_]+), ([\d_]+)$", read(PYTHON_LIMITS), re.M)
        described = part(the_one(CODE, r"const LEAST_DIMENSIONS: "), r"^impl Description \{", r"^\}")
        code = re.findall(r"const (LEAST|MOST)_(\w+): \w+ = ([\d_]+);", described)
        specs = the_one(SPECS, r"^least_dimensions = ")
        given = self.once(entries(assigned(REFERENCE, "LIMITS")), REFERENCE)
        tables = {
            "docs/RULES.md": self.table([(LIMITS[name], *ends) for name, *ends in rows], "docs/RULES.md"),
            "the code": self.sides(code, "the code"),
            "the definitions": self.sides(re.findall(r"^(least|most)_(\w+) = ([\d_]+)$", specs, re.M), "the definitions"),
            HEADER: self.sides(re.findall(r"#define TUSSOCKBELL_(LEAST|MOST)_(\w+) (\d+)\n", header), HEADER),
            "the Rust crate": self.table([(name, *ends) for name, _, *ends in rust_rows], "the Rust crate"),
            REFERENCE: given,
            PYTHON_LIMITS: self.table(python_rows, PYTHON_LIMITS),
            DIFFERENTIAL: self.table(re.findall(ranges, read(DIFFERENTIAL)), DIFFERENTIAL),
            PLAIN: self.table(re.findall(ranges, read(PLAIN)), PLAIN),
        }
        self.assertEqual(set(tables["docs/RULES.md"]), set(LIMITS.values()))
        self.same(tables)

    def test_places(self):
        """A footer's answer has places for the most dimensions and the most fields."""
        defined = {name: int(n) for name, n in re.findall(r"#define TUSSOCKBELL_(\w+) (\d+)\n", read(HEADER))}
        self.assertEqual(defined["FOOTER_LIST_PLACES"], defined["MOST_FIELDS"])
        self.assertEqual(defined["FOOTER_FILE_SIZES"] - defined["FOOTER_DOMAIN"], defined["MOST_DIMENSIONS"] * defined["DOMAIN_PLACES"])


if __name__ == "__main__":
    unittest.main()
