"""docs/PROMISES.md names definitions, functions, laws and must-fail edits. Each of them is there, and none is left off. So are the files that
CONTRIBUTING.md and docs/READING.md name.

How a table of that page is read:

- A section's heading names its crates, `## Boxes (boxes)`. A name in back-ticks is one of theirs, or of the crate that
  stands before it: `tree::row_length`, tree/Shape: `boxes`. What is said before a name holds until the next semicolon.
- In the column of definitions a file of `specs` stands before the names: Shape: `up`, `boxes`.
- In the column of contracts a file of `proofs` stands before laws; `Kind::of` and `keep` are functions, and the names
  after the word clause are those of the function's `ensures`.
- In the last column there are edits, `crate/edit`, tests, `tests/name`, and programs. An edit changes code unless it is
  marked (definition) or (contract).
"""

import pathlib
import re
import unittest

ROOT = pathlib.Path(__file__).resolve().parents[2]
PAGE = ROOT / "docs/PROMISES.md"
CRATES = re.findall(r"^(\w+)(?: staticlib)?:", (ROOT / "crates.txt").read_text(), re.M)
DEFINITION, CONTRACT, RULED_OUT = "Definition", "Contract or theorem", "Ruled out by"
# The pages that name files, and what of them is made and not stored.
READING, GUIDES, MADE = "docs/READING.md", ["docs/READING.md", "CONTRIBUTING.md"], ("crates/NAME/out/", "build/")

TOKEN = re.compile(
    r"`(?P<name>[^`]+)`|\b(?P<file>(?:[a-z_]+/)?(?:[A-Z]\w*/)*[A-Z]\w*):(?!:)|(?P<clause>\bclauses?\b)|(?P<end>;)"
)
# A function whose stored edit changes its contract and not its code.
WALKED = {("opened", "ask")}
# A block of functions that a type or a trait names: `impl Kind`, `impl From<Kind> for Range`, `pub trait Word`.
BLOCK = re.compile(r"(?:impl(?:<[^>]*>)? (?:.* for )?|(?P<trait>pub trait )|trait )(?P<name>\w+)")
FUNCTION = re.compile(r'^ *(?P<public>pub )?(?:extern "C" )?fn (?P<name>\w+)')


def functions(crate):
    """The functions of a crate, `name` or `Type::name`: whether each is public, as a public trait's methods are, and its signature and contract."""
    found, kind, current, shown = {}, None, None, False
    for path in sorted((ROOT / "crates" / crate / "src").glob("*.rt")):
        for line in path.read_text().splitlines():
            if block := BLOCK.match(line):
                kind, shown = block["name"], bool(block["trait"])
            elif line == "}":
                kind, shown = None, False
            start = FUNCTION.match(line)
            if start:
                current = f"{kind}::{start['name']}" if kind else start["name"]
                found[current] = [bool(start["public"]) or shown, ""]
            if current:
                found[current][1] += line + "\n"
            if line.strip() == "{" or line.endswith(" {"):
                current = None
    return found


FUNCTIONS = {crate: functions(crate) for crate in CRATES}


def public(crate):
    """The public functions of a crate."""
    return {name for name, (is_public, _) in FUNCTIONS[crate].items() if is_public}


def stated(crate, folder, file, name):
    """Whether a file of specs or proofs has this name as a definition or a law."""
    path = ROOT / "crates" / crate / folder / f"{file}.antt"
    words = r"(?:abbrev |unfoldable )?pub (?:record |data )?" if folder == "specs" else r"(?:(?:abbrev|pub|record) )*"
    pattern = rf"^ *{words}{re.escape(name)}(?=[\s:({{]|$)"
    return path.exists() and re.search(pattern, path.read_text(), re.M) is not None


def rows():
    """For each row of each table: the crates of its section, its line, and its cells by the column's title."""
    crates, titles = None, None
    for number, line in enumerate(PAGE.read_text().splitlines(), 1):
        if line.startswith("## "):
            named = re.search(r"\(([\w, ]+)\)$", line)
            crates, titles = named[1].split(", ") if named else [], None
        if not line.startswith("|"):
            titles = None
            continue
        cells = [cell.strip() for cell in line.strip("|").split("|")]
        if titles is None:
            titles = cells
        elif not set(line) <= set("|:- "):
            yield crates, number, dict(zip(titles, cells, strict=True))


def citations(cell):
    """The names in a cell: the crate that stands before it, the file, the function whose clause it is, the name."""
    crate = file = function = None
    clause = False
    for token in TOKEN.finditer(cell):
        if token["end"]:
            crate = file = function = None
            clause = False
        elif token["clause"]:
            clause = True
        elif token["file"]:
            first, _, rest = token["file"].partition("/")
            crate, file = (first, rest) if first in CRATES else (None, token["file"])
        else:
            path = token["name"].split("::")
            own = path[0] if len(path) > 1 and path[0] in CRATES else crate
            name = "::".join(path[1:] if path[0] in CRATES and len(path) > 1 else path)
            yield own, file, function if clause else None, name
            if not file and not clause:
                function = (own, name)


def changes(edit):
    """What an edit changes: code, a definition or a contract."""
    text = edit.read_text()
    if re.search(r"^file: specs/", text, re.M):
        return "definition"
    pairs = zip(re.findall(r"^old: (.*)$", text, re.M), re.findall(r"^new: (.*)$", text, re.M), strict=True)
    contract = [(old, new) for old, new in pairs if old.strip().startswith(("ensures", "requires"))]
    # an edit may put another body between a contract, which stays, and the body that stands there
    return "contract" if any(not new.startswith(old) for old, new in contract) else "code"


def applies(edit):
    """Whether each text that an edit replaces occurs once in its file."""
    text = edit.read_text()
    path = edit.parents[1] / re.search(r"^file: (.*)$", text, re.M)[1]
    return path.exists() and all(path.read_text().count(old) == 1 for old in re.findall(r"^old: (.*)$", text, re.M))


def contract_faults(crates, cell, folder):
    """What is wrong with the names of a cell of definitions or contracts; and the functions that it cites."""
    faults, seen = [], set()
    for crate, file, function, name in citations(cell):
        among = [crate] if crate else crates
        if file:
            if not any(stated(c, folder, file, name) for c in among):
                faults.append(f"`{name}` is not in {folder}/{file} of {among}")
        elif function:
            owner, called = function
            having = [FUNCTIONS[c][called][1] for c in ([owner] if owner else crates) if called in FUNCTIONS[c]]
            if not any(f"ensures {name} {{" in text for text in having):
                faults.append(f"`{name}` is no clause of `{called}`")
        elif folder == "specs":
            faults.append(f"`{name}` has no file before it")
        else:
            having = [c for c in among if name in FUNCTIONS[c]]
            seen |= {(c, name) for c in having}
            if not having:
                faults.append(f"`{name}` is no function of {among}")
    return faults, seen


def edit_faults(cell):
    """What is wrong with the last cell of a row; and the edits that it cites."""
    faults, seen = [], set()
    for name, mark in re.findall(r"`([^`]+)`(?: \((\w+)\))?", cell):
        crate, _, edit = name.partition("/")
        path = ROOT / "crates" / crate / "must-fail" / f"{edit}.edit"
        if crate == "tests" or not edit:
            if not (ROOT / (f"{name}/run" if edit else f"crates/{name}/src/main.rt")).exists():
                faults.append(f"`{name}` is neither a test nor a program")
        elif not path.exists():
            faults.append(f"`{name}` is not stored")
        else:
            seen.add(name)
            if (mark or "code") != changes(path):
                faults.append(f"`{name}` changes {changes(path)}")
            if not applies(path):
                faults.append(f"`{name}` replaces what does not occur once")
    return faults, seen


def paths(page):
    """The paths in back-ticks of a page, each as a pattern: `tree/Walk` is a file of specs, and NAME stands for any name."""
    for name in re.findall(r"`([^`\s]+/[^`\s]+)`", (ROOT / page).read_text()):
        file = re.fullmatch(r"([a-z_]+)/([A-Z]\w*)", name)
        if not name.startswith(MADE):
            yield f"crates/{file[1]}/specs/{file[2]}.antt" if file else re.sub(r"\b[A-Z]+\b(?!\.md)", "*", name)


class Promises(unittest.TestCase):
    maxDiff = None

    def none(self, faults):
        self.assertEqual([], sorted(faults))

    def test_names(self):
        """Every definition, law, function and clause that is cited is there, and every public function is cited."""
        faults, cited = [], set()
        for crates, number, cells in rows():
            for title, folder in ((DEFINITION, "specs"), (CONTRACT, "proofs")):
                found, seen = contract_faults(crates, cells.get(title, ""), folder)
                faults += [f"line {number}: {fault}" for fault in found]
                cited |= seen
        faults += [f"no row cites `{name}` of {c}" for c in CRATES for name in public(c) if (c, name) not in cited]
        self.none(faults)

    def test_edits(self):
        """Every edit and test that is cited is there and applies, every edit is cited, and the marks are right."""
        faults, cited = [], set()
        for _, number, cells in rows():
            found, seen = edit_faults(cells[RULED_OUT])
            faults += [f"line {number}: {fault}" for fault in found]
            cited |= seen
        stored = {f"{path.parts[-3]}/{path.stem}" for path in ROOT.glob("crates/*/must-fail/*.edit")}
        self.none(faults + [f"no row cites `{edit}`" for edit in stored - cited])

    def test_refused(self):
        """Every public function stands in a row that has a stored edit of code; of the contract where it is WALKED."""
        covered = {"code": set(), "contract": set(), "definition": set()}
        for crates, _, cells in rows():
            cited = contract_faults(crates, cells.get(CONTRACT, ""), "proofs")[1]
            for edit in edit_faults(cells[RULED_OUT])[1]:
                crate, _, label = edit.partition("/")
                covered[changes(ROOT / "crates" / crate / "must-fail" / f"{label}.edit")] |= cited
        bare = {(c, name) for c in CRATES for name in public(c)} - covered["code"]
        self.assertEqual(WALKED, bare)
        self.none(f"`{name}` of {c} has no edit" for c, name in bare - covered["contract"])

    def test_crates(self):
        """Every crate has its section, and a section is about crates."""
        self.assertEqual(sorted(CRATES), sorted({crate for crates, _, _ in rows() for crate in crates}))

    def test_design(self):
        """The table of docs/DESIGN.md has the crates in the order of crates.txt."""
        self.assertEqual(CRATES, re.findall(r"^\| `(\w+)` \|", (ROOT / "docs/DESIGN.md").read_text(), re.M))

    def test_guides(self):
        """Every file that CONTRIBUTING.md and docs/READING.md name is there; the second leaves off no file of definitions, and its rules are
        sections of docs/RULES.md."""
        named = {page: set(paths(page)) for page in GUIDES}
        self.none(f"{page} names {path}" for page in GUIDES for path in named[page] if not any(ROOT.glob(path)))
        read = {path for pattern in named[READING] for path in ROOT.glob(pattern)}
        stored = {path for path in ROOT.glob("crates/*/specs/*.antt") if path.stem not in ("Lib", "Code")}
        self.none(f"{READING} leaves off {path.relative_to(ROOT)}" for path in stored - read)
        cited = re.findall(r"^\| `.*\| ([^|]+) \|$", (ROOT / READING).read_text(), re.M)
        sections = re.findall(r"^## (.*)$", (ROOT / "docs/RULES.md").read_text(), re.M)
        self.none(f"{READING} cites the section {name}" for name in cited if name not in sections)

    def test_nothing_is_asked(self):
        """No public function has a `requires`."""
        self.none(f"`{name}` of {c}" for c in CRATES for name in public(c) if "requires" in FUNCTIONS[c][name][1])


if __name__ == "__main__":
    unittest.main()
