"""Writes docs/BENCHMARKS.md, docs/benchmarks.svg and docs/benchmarks.tsv from what the harness printed.

    page.py OUTPUT DIRECTORY
"""

import datetime
import math
import pathlib
import subprocess
import sys
import textwrap

PEERS = {"rust": "plain Rust", "boost": "Boost.Geometry", "libspatialindex": "libspatialindex"}
# Other ways of our own that a way of ours stands beside.
OWN = {"whole": "opening the whole", "single": "single calls", "queries": "single queries", "division": "a division a tile"}
BLOCKS = (4_096, 65_536, 1_048_576)
COLOURS = {"ours": "#1d4ed8", "rust": "#d97706", "boost": "#047857", "libspatialindex": "#7c3aed"}
# Of dimensions, and of a field's values.
KINDS = ["int32", "int64", "float64", "uint64", "mix"]
VALUE_KINDS = ["int32", "int64", "float32", "float64", "uint64"]
FANOUTS = ["2", "10", "16", "1024"]
# What is done to a body of mins or maxes, and how that is called.
VALUES = {"check and read": "checked, and all values read", "check together": "checked together"}
# The windows on a dense grid, and how they are called.
DENSE = {"small": "small windows", "large": "large windows", "no room": "large windows, no room"}


def read(text):
    """The tables by name, each a list of rows by column, and the ratios by case. A table's first line is its header."""
    headers, tables, ratios = {}, {}, {}
    for line in text.splitlines():
        name, *cells = line.split("\t")
        if name == "ratio":
            ratios[cells[0]] = float(cells[1])
        elif name not in headers:
            headers[name] = cells
            tables[name] = []
        else:
            tables[name].append(dict(zip(headers[name], cells, strict=True)))
    return tables, ratios


def said(*command):
    """The first line that a command prints, or nothing where there is no such command."""
    try:
        done = subprocess.run(command, capture_output=True, text=True, check=True)
    except (OSError, subprocess.CalledProcessError):
        return ""
    return done.stdout.strip().split("\n")[0]


def machine():
    """What the numbers were measured on, as pairs."""
    cpus = [line.split(":")[1].strip() for line in pathlib.Path("/proc/cpuinfo").read_text().splitlines() if line.startswith("model name")]
    packages = [(name, said("dpkg-query", "-W", "-f=${Version}", name)) for name in ("libboost-dev", "libspatialindex-dev")]
    system = [line.split("=")[1].strip('"') for line in pathlib.Path("/etc/os-release").read_text().splitlines() if line.startswith("PRETTY_NAME=")]
    pairs = [
        ("Date", datetime.date.today().isoformat()),
        ("Processor", f"{cpus[0]}, {len(cpus)} logical" if cpus else ""),
        ("System", system[0] if system else ""),
        ("Rattle", said("rt", "version")),
        ("Rust", said("rustc", "--version")),
        ("C++", said("g++", "--version")),
        *packages,
    ]
    return [(name, what) for name, what in pairs if what]


def groups(ratios, pictured=False):
    """Who is beside us and in which cases, with the ratios of those cases: all that the summary has, or those in the picture."""
    cases = [(case.split("/"), ratio) for case, ratio in ratios.items()]

    def of(peer, *parts):
        return [ratio for case, ratio in cases if case[0] == peer and all(part in case for part in parts)]

    by_fanout = {peer: [(peer, f"query, f = {f}", of(peer, "query", f"f={f}")) for f in FANOUTS] for peer in PEERS}
    by_kind = [("rust", f"query, {kind}", of("rust", "query", kind)) for kind in KINDS]
    made = by_fanout["rust"] + ([] if pictured else by_kind)
    made += [] if pictured else [("rust", "query, up to 16,777,216 tiles", of("rust", "more tiles"))]
    made += [] if pictured else [("rust", f"query, one box, f = {f}", of("rust", "one box", f"f={f}")) for f in (2, 16)]
    made += [("rust", "opening", of("rust", "open")), ("rust", "writing", of("rust", "write")), ("rust", "converting", of("rust", "convert"))]
    made += [] if pictured else [("rust", f"converting, {kind}", of("rust", "convert", kind)) for kind in ("float32", "mix")]
    made += [] if pictured else [("rust", f"opening, {kind}", of("rust", "open", kind)) for kind in KINDS]
    made += [("rust", "lists", [*of("rust", "offsets"), *of("rust", "var offsets"), *of("rust", "sizes")])]
    made += [] if pictured else [("rust", "a tree in blocks", of("rust", "parts"))]
    made += [] if pictured else [("rust", "committed folders of a listing", of("rust", "committed", "ordinary"))]
    if not pictured:
        made += [("rust", f"mins and maxes, {name}", of("rust", "values", what)) for what, name in VALUES.items()]
        made += [("rust", f"mins and maxes, {kind}", of("rust", "values", kind)) for kind in [*VALUE_KINDS, "var"]]
        made += [("rust", "sums and null counts", [*of("rust", "values", "sums"), *of("rust", "values", "null counts")])]
    for peer in ("boost", "libspatialindex"):
        made += [(peer, f"query, {size} windows", of(peer, "query", size)) for size in ("small", "large")]
        made += [] if pictured else by_fanout[peer]
    if not pictured:
        # One mean hides that Boost is ahead over few tiles and behind over many.
        made += [("boost", f"query, f = 16, n = {n:,}", of("boost", "query", "f=16", f"n={n}")) for n in (1_000, 65_536)]
        made += [("boost", f"query, f = 16, D = {d}", of("boost", "query", "f=16", f"D={d}")) for d in (1, 2, 3, 4)]
        made += [("boost", f"query, one box, f = {f}", of("boost", "one box", f"f={f}")) for f in (2, 16)]
        for block in BLOCKS:
            made += [("whole", f"a tree in blocks of {block:,} bytes", of("whole", f"block={block}"))]
            made += [("whole", f"in blocks of {block:,}, f = 2", of("whole", f"block={block}", "f=2"))]
        made += [("single", "a batch of 32 windows, from C", of("single", "batch"))]
        made += [("rust", f"read plans, {length:,} tiles", of("rust", "plan", f"run={length}")) for length in (32, 1_000, 100_000)]
        for boxes in (100, 1_000):
            made += [(peer, f"a log replayed, {boxes:,} boxes a query", of(peer, "replay", f"boxes={boxes}")) for peer in ("rust", "queries")]
        for size, name in DENSE.items():
            made += [(peer, f"a dense grid, {name}", of(peer, "dense", size)) for peer in ("rust", "division")]
    return [group for group in made if group[2]]


def mean(values):
    return math.exp(sum(map(math.log, values)) / len(values))


def short(value):
    """As many places behind the point as are of use."""
    value = float(value)
    places = sum(value < least for least in (1, 10, 100))
    return f"{value:,.{places}f}"


def table(header, rows):
    """Columns that hold numbers are set to the right."""
    numbers = [all(row[i].replace(",", "").replace(".", "").isdigit() or row[i] == "-" for row in rows) for i in range(len(header))]
    lines = [header, ["--:" if right else ":--" for right in numbers], *rows]
    return "\n".join("| " + " | ".join(line) + " |" for line in lines)


def prose(text):
    """Paragraphs, and points that begin with a dash, wrapped."""
    wrapped = []
    for part in textwrap.dedent(text).strip().split("\n\n"):
        flat = " ".join(part.split())
        indent = "  " if flat.startswith("- ") else ""
        wrapped.append(textwrap.fill(flat, 120, subsequent_indent=indent, break_long_words=False, break_on_hyphens=False))
    return "\n\n".join(wrapped).replace("\n\n- ", "\n- ")


def pair_table(names, rows, per):
    """Tables of us and plain Rust: the columns by which a row is known, both times, both for one `per`, and the ratio."""
    header = [*names.values(), "Ours", f"a {per}", "Rust", f"a {per}", "/ Rust"]
    times = ["ours ns", f"ours ns/{per}", "rust ns", f"rust ns/{per}"]
    made = []
    for row in rows:
        known = [f"{float(row[name]):,.0f}" if name in ("bytes", "looked") else row[name] for name in names]
        made.append([*known, *[short(row[name]) for name in times], short(float(row["ours ns"]) / float(row["rust ns"]))])
    return table(header, made)


def convert_table(rows):
    """As the pairs are, with the time of the check alone."""
    known = {"kind": "Kind", "D": "D", "f": "f", "n": "n", "bytes": "Bytes"}
    lines = pair_table(known, rows, "byte").split("\n")
    more = ["Check", "--:", *[short(row["check ns"]) for row in rows]]
    return "\n".join(f"{line} {cell} |" for line, cell in zip(lines, more, strict=True))


def batch_table(rows):
    header = ["Kind", "D", "n", "Window", "Found", "Looked", "Batch", "Single", "/ single"]
    made = []
    for row in rows:
        known = [row["kind"], row["D"], row["n"], row["window"], short(row["found"]), short(row["looked"])]
        made.append([*known, short(row["batch ns"]), short(row["single ns"]), short(float(row["batch ns"]) / float(row["single ns"]))])
    return table(header, made)


def one_box_table(rows):
    header = ["Kind", "D", "f", "n", "Ours", "Rust", "/ Rust", "Boost", "M", "/ Boost"]
    made = []
    for row in rows:
        ours, rust, boost = (float(row[name]) for name in ("ours ns", "rust ns", "boost ns"))
        cells = [row["kind"], row["D"], row["f"], row["n"], short(ours), short(rust), short(ours / rust)]
        made.append([*cells, short(boost), row["boost capacity"], short(ours / boost)])
    return table(header, made)


def parts_table(rows):
    header = ["Kind", "D", "f", "n", "Bytes", "Block", "Parts", "Whole", "/ whole", "Rust", "/ Rust"]
    made = []
    for row in rows:
        known = [row["kind"], row["D"], row["f"], row["n"], f"{float(row['bytes']):,.0f}", f"{int(row['block']):,}"]
        parts, whole, rust = (float(row[name]) for name in ("parts ns", "whole ns", "rust ns"))
        made.append([*known, short(parts), short(whole), short(parts / whole), short(rust), short(parts / rust)])
    return table(header, made)


def replay_table(rows):
    header = ["Kind", "D", "n", "Bytes", "Looked", "Replay", "Rust", "/ Rust", "Single", "/ single"]
    made = []
    for row in rows:
        ours, rust, single = (float(row[name]) for name in ("ours ns", "rust ns", "single ns"))
        known = [row["kind"], row["D"], row["n"], row["bytes"], short(row["looked"])]
        made.append([*known, short(ours), short(rust), short(ours / rust), short(single), short(ours / single)])
    return table(header, made)


def dense_table(rows):
    header = ["Kind", "D", "Order", "Window", "Found", "Ours", "a tile", "Rust", "a tile", "/ Rust", "Division", "/ division"]
    made = []
    for row in rows:
        found, ours, rust, division = (float(row[name]) for name in ("found", "ours ns", "rust ns", "division ns"))
        each = [short(taken / found) if row["window"] != "no room" else "-" for taken in (ours, rust)]
        known = [row["kind"], row["D"], row["order"], row["window"], short(found)]
        made.append([*known, short(ours), each[0], short(rust), each[1], short(ours / rust), short(division), short(ours / division)])
    return table(header, made)


def python_table(rows):
    header = ["Window", "Found", "Looked", "Single", "List", "/ single", "Buffer", "/ single"]
    made = []
    for row in rows:
        single = float(row["single ns"])
        cells = [row["window"], short(row["found"]), short(row["looked"]), short(single)]
        for way in ("list ns", "buffer ns"):
            cells += [short(row[way]), short(float(row[way]) / single)]
        made.append(cells)
    return table(header, made)


def grown(rows, by, per):
    """What one costs us while their number grows."""
    numbers = [float(row[by]) for row in rows]
    each = [float(row[f"ours ns/{per}"]) for row in rows]
    times = max(numbers) / min(numbers)
    return f"while the number grows by a factor of {times:.0f}, a {per} costs the library {short(min(each))} to {short(max(each))} ns"


def tiles_table(rows):
    """Queries that find about the same number of tiles, by fanout and then by the number of tiles."""
    header = ["f", "n", "Found", "Looked", "Ours", "a box", "Rust", "a box", "Boost", "M", "libsp.", "M", "/ Rust"]
    made = []
    for row in sorted(rows, key=lambda row: (int(row["f"]), int(row["n"]))):
        cells = [f"{int(row['f']):,}", f"{int(row['n']):,}"]
        cells += [short(row[column]) for column in ("found", "looked", "ours ns", "ours ns/box", "rust ns", "rust ns/box")]
        for peer in ("boost", "libspatialindex"):
            cells += [row[f"{peer} ns"] if row[f"{peer} ns"] == "-" else short(row[f"{peer} ns"]), row[f"{peer} capacity"]]
        made.append([*cells, short(float(row["ours ns"]) / float(row["rust ns"]))])
    return table(header, made)


def with_tiles(rows):
    """How a query's time grows with the number of tiles, at each fanout."""
    said = []
    for f in sorted({int(row["f"]) for row in rows}):
        few, *_, many = sorted((row for row in rows if int(row["f"]) == f), key=lambda row: int(row["n"]))
        more = [float(many[column]) / float(few[column]) for column in ("n", "looked", "ours ns")]
        said.append(f"at f = {f:,} with {more[0]:,.0f} times the tiles it looks at {short(more[1])} times the boxes and takes {short(more[2])} times as long")
    return "; ".join(said)


def summary(ratios):
    rows = []
    for peer, name, values in groups(ratios):
        rows.append([{**PEERS, **OWN}[peer], name, str(len(values)), short(mean(values)), short(min(values)), short(max(values))])
    return table(["Beside", "Cases", "Number", "Geometric mean", "Lowest", "Highest"], rows)


def page(tables, ratios):
    run = tables["run"][0]
    tried = {peer: run[f"{peer} capacities"].replace(" ", ", ") for peer in ("boost", "libspatialindex")}
    start = prose("""
        `make bench` measures the compiled library, through its C functions, beside plain Rust and two R-tree libraries, and writes this
        page. All numbers on it are from one run on one machine. Times are in nanoseconds. A ratio is our time divided by theirs: below 1
        the library is faster.

        The ratios hold for the processor that is named below. Another one gave, with the library as it was before its walk and its opening
        were reshaped, queries 1.21, 1.22, 1.21 and 1.19 of plain Rust's time at f = 2, 10, 16 and 1,024, opening 0.96, lists 0.97, and 2.5
        times Boost's time at f = 10 and 16.
        """)
    how = prose(f"""
        - **Data.** Random hits in a cube of 1 to 4 dimensions, sorted along a Morton curve and cut into n tiles of 8 hits. Boxes have
          coordinates on a grid of 2^20 steps a dimension, which each kind holds exactly; floats are in quarters, and uint64 counts from the grid's first step. `mix` is
          float64, int32, uint64 and int64, as many of them as there are dimensions.

        - **Windows.** {run["small windows"]} small ones, each 4 / n of the cube, so many that no branch predictor learns them by heart;
          {run["large windows"]} large ones, each a tenth of the cube. A time is the mean over all windows of a size.

        - **Before anything is timed,** the library, plain Rust and each R-tree, at each of its settings, are asked with each window, and
          the tiles that they find are asserted to be the same; between the library and plain Rust the boxes looked at too, and what opening
          and lists answer.

        - **Timing.** {run["rounds"]} rounds. In each, every contender of a case runs over all windows for {run["least us"]} microseconds or
          once, whichever is longer, one contender after the other, backward in every other round. A time is the median of the rounds. One thread.

        - **Release builds** for x86-64 with no further instruction sets, everything else as the compilers have it: `-C opt-level=3` and
          `-O3 -DNDEBUG`. The library is linked as `make lib` makes it. Where a loop happens to lie matters: with the loops of plain Rust aligned to
          64 bytes, queries came out about a tenth worse for the library (docs/DECISIONS.md has the numbers of such a run).

        - **Plain Rust** (`bench/src/plain.rs`) makes the same checks and the same walk on the same bytes, from the same arguments, and
          answers the same. It has no `unsafe`.

        - **Boost.Geometry** (`bench/peers/boost.cpp`): `rtree` with `rstar`, packed by its constructor, coordinates of the kind's own type,
          double for a mix, queried with `intersects`. **libspatialindex** (`bench/peers/spatialindex.cpp`): R*-tree, bulk loaded (STR), in
          memory, double coordinates; one dimension gets a second one of 0, since the library wants two.

        - **Their settings.** Node capacities {tried["boost"]} for Boost and {tried["libspatialindex"]} for libspatialindex are tried in
          {run["trials"]} rounds for each kind, D, n and window size, and the best of these (M in the table) is then measured. Both lay their trees
          out as they like, whatever f the fragment's tree has, so their times stand beside those of each f.

        - **What differs.** The library and plain Rust read a fragment's own bytes, check their shape in every query and list tiles in
          rising order. The R-tree libraries query structures that were built beforehand, take windows that were made beforehand, and list
          tiles in any order; neither building nor sorting is in their times.
        """)
    most = f"{max(65_536, *(int(row['n']) for row in tables['tiles'])):,}"
    growth = prose(f"""
        Int32 and float64, D = 2, f = 16. First windows from 1 / 65,536 of the square to all of it, over 65,536 tiles:
        {grown(tables["looks"], "looked", "box")}. Then opening trees of 1,024 to {most} tiles: {grown(tables["bytes"], "bytes", "byte")}.
        """)
    tiles = prose(f"""
        Int32 and float64, D = 2, {run["small windows"]} windows of 4 / n of the square, so that a query finds about as many tiles however many
        there are; here the curve is cut into n runs of one length, and a tile is around 8 hits in its run. What such a query costs goes by the
        levels of the tree, and by what of it the processor's caches hold: {with_tiles(tables["tiles"])}. Above 1,000,000 tiles Boost is built
        with nodes of 16 boxes alone, and libspatialindex, which has an object for each box, is left out.
        """)
    sections = [
        "# Benchmarks",
        start,
        "![Left: nanoseconds a query against boxes looked at, one tree and growing windows. Right: ratios of our times to theirs.](benchmarks.svg)",
        "## Summary",
        summary(ratios),
        "## On what",
        table(["", ""], [list(pair) for pair in machine()]),
        "## What and how",
        how,
        "## Cost grows with boxes and bytes",
        growth,
        pair_table({"looked": "Looked"}, tables["looks"], "box"),
        pair_table({"bytes": "Bytes"}, tables["bytes"], "byte"),
        "## More tiles",
        tiles,
        tiles_table(tables["tiles"]),
        "## Every case",
        prose("""
            `benchmarks.tsv` has every number that was measured, as the harness printed it: tab-parted, the table's name first, and a line
            with the columns' names before each table's rows. Found and looked are means a query; times are a query's, an opening's (footer
            and tree together, every box checked), a written tree's (its leaves checked too) or a list's. A row `ratio` has a case and our time divided by theirs.
            """),
        "## One box",
        prose("""Windows that miss the root, so that one box is looked at: what is left is a query's fixed part, the checks of the
            description, the window and the tree's shape. Boost's tree has no such checks."""),
        one_box_table(tables["one box"]),
        "## Old trees converted",
        prose("""A footer and a tree of float32 dimensions, or of float64, int32, float32 and int64 (mix), checked as opening did when float32 was
            a kind like the others, and written with float64 in its place. Bytes are those read and those written. The last column is the check
            by itself, `tussockbell_convert_length`."""),
        convert_table(tables["convert"]),
        "## Lists",
        prose("Checking tile offsets, checking var offsets, and checking and adding up tile sizes."),
        pair_table({"list": "List", "n": "n"}, tables["list"], "entry"),
        "## Committed folders",
        prose("""A listing of folders and commits, half of its lines folders; and the worst that there is, folders whose names all have one
            hash and differ only in their last bytes. Plain Rust keeps the records in the standard library's HashSet, whose hash can't be
            met so."""),
        pair_table({"names": "Names", "lines": "Lines", "bytes": "Bytes", "found": "Found"}, tables["committed"], "line"),
        "## Mins, maxes, sums and null counts",
        prose("""Checking a body; checking it and then reading all its values, one call a value, in plain Rust a call of a function that is
            not inlined; and checking mins and maxes together. The summary has the last two. The check of integers or sums alone looks at
            three numbers, and is a matter of some nanoseconds in either."""),
        pair_table({"what": "What", "of": "Of", "n": "n"}, tables["values"], "value"),
        "## A tree in parts",
        prose("""A tree that arrives in blocks of a given size, beside opening the whole and beside plain Rust that takes the same blocks, in
            five times the rounds."""),
        parts_table(tables["parts"]),
        "## A batch of 32 windows",
        prose("One call for 32 windows beside 32 single calls of the library, through C, in five times the rounds; f = 16. Times are a window's."),
        batch_table(tables["batch"]),
        prose("""The same through Python, over 4,096 tiles of two float64 dimensions at f = 16: 32 calls of `query`, one of `query_batch` with a
            list of windows, and one with a buffer of them."""),
        python_table(tables["python"]),
        "## A log replayed",
        prose("""A log of 10,000 records with 113 bytes of room for each line, f = 16, windows that look at about 100 or 1,000 boxes; one
            record in ten differs. Beside it plain Rust that reads, asks and writes the same, and as many single queries from C, with no room.
            Bytes and times are a record's."""),
        replay_table(tables["replay"]),
        "## A dense grid",
        prose("""Grids of about a million tiles, in both orders, with windows of 4 tiles along each dimension, of half of the tiles along each,
            and of as many with no room for them. Beside it plain Rust that writes the tiles row by row, and plain Rust that works each
            tile's number out by divisions. Times are a query's."""),
        dense_table(tables["dense"]),
        "## Read plans",
        prose("""What is read for a run of tiles of 1,000 bytes, across gaps of at most 4,096 bytes: over a list that was accepted, and with the
            check of the list. The run has its tiles in no order, or rising for each of 32 windows, as a batch leaves them. Plain Rust
            copies the run, sorts it with `sort_unstable`, leaves repeats out and merges neighbours."""),
        pair_table({"what": "What", "run": "Run", "order": "Order", "n": "n", "ranges": "Ranges"}, tables["plan"], "tile"),
    ]
    return "\n\n".join(sections) + "\n"


class Axis:
    """A logarithmic axis from one value to another, over a stretch of the picture."""

    def __init__(self, low, high, start, end):
        self.low, self.high, self.start, self.end = math.log10(low), math.log10(high), start, end

    def __call__(self, value):
        return self.start + (math.log10(value) - self.low) / (self.high - self.low) * (self.end - self.start)

    def tens(self):
        return [10.0**i for i in range(math.ceil(self.low - 1e-9), math.floor(self.high + 1e-9) + 1)]


def text(x, y, what, anchor="middle", more=""):
    return f'<text x="{x:.1f}" y="{y:.1f}" text-anchor="{anchor}" {more}>{what}</text>'


def line(x1, y1, x2, y2, colour="#d1d5db", width=1.0):
    return f'<line x1="{x1:.1f}" y1="{y1:.1f}" x2="{x2:.1f}" y2="{y2:.1f}" stroke="{colour}" stroke-width="{width}"/>'


def dot(x, y, colour, radius=2.2, opacity=0.45):
    return f'<circle cx="{x:.1f}" cy="{y:.1f}" r="{radius}" fill="{colour}" fill-opacity="{opacity}"/>'


def decades(values):
    """The powers of ten around all values."""
    return 10.0 ** math.floor(math.log10(min(values))), 10.0 ** math.ceil(math.log10(max(values)))


def count(value):
    return f"{value:,.0f}" if value >= 1 else f"{value:g}"


def costs(tables):
    """The left panel: a query's time against the boxes that it looks at, for one tree and growing windows."""
    grown = tables["looks"]
    x = Axis(*decades([float(row["looked"]) for row in grown]), 78, 396)
    y = Axis(*decades([float(row[f"{who} ns"]) for who in ("ours", "rust") for row in grown]), 420, 80)
    made = [text(237, 62, "Time of a query, one tree, growing windows", more='font-weight="bold"')]
    for value in x.tens():
        made += [line(x(value), 80, x(value), 420), text(x(value), 437, count(value))]
    for value in y.tens():
        made += [line(78, y(value), 396, y(value)), text(72, y(value) + 4, count(value), "end")]
    made += [text(237, 460, "boxes looked at"), text(0, 0, "nanoseconds a query", more='transform="translate(16 250) rotate(-90)"')]
    for who in ("rust", "ours"):
        places = [(x(float(row["looked"])), y(float(row[f"{who} ns"]))) for row in grown]
        points = " ".join(f"{across:.1f},{up:.1f}" for across, up in places)
        made.append(f'<polyline points="{points}" fill="none" stroke="{COLOURS[who]}" stroke-width="1.8"/>')
        made += [dot(across, up, COLOURS[who], 3.2, 0.9) for across, up in places]
    for i, (who, name) in enumerate((("ours", "the library"), ("rust", "plain Rust"))):
        made += [dot(92, 96 + 18 * i, COLOURS[who], 4, 1), text(102, 100 + 18 * i, name, "start")]
    return made


def strips(ratios):
    """The right panel: the ratios, a strip for each group."""
    shown = groups(ratios, pictured=True)
    x = Axis(*decades([value for _, _, values in shown for value in values]), 615, 880)
    made = [text(747, 62, "Our time / theirs", more='font-weight="bold"')]
    for value in x.tens():
        made += [line(x(value), 80, x(value), 420), text(x(value), 437, count(value))]
    made += [line(x(1), 76, x(1), 420, "#111827", 1.5), text(x(1) - 6, 76, "faster", "end"), text(x(1) + 6, 76, "slower", "start")]
    step = 340 / len(shown)
    for i, (peer, name, values) in enumerate(shown):
        at = 80 + step * (i + 0.5)
        made.append(text(607, at + 4, f"{PEERS[peer].removesuffix('.Geometry')}, {name.removeprefix('query, ')}", "end"))
        for j, value in enumerate(values):
            made.append(dot(x(value), at + (j * 7 % 11 - 5) * step / 26, COLOURS[peer]))
        made.append(line(x(mean(values)), at - step * 0.36, x(mean(values)), at + step * 0.36, "#111827", 2))
    made.append(text(747, 460, "ratio; upright bars are geometric means"))
    return made


def picture(tables, ratios):
    size = 'viewBox="0 0 900 476" width="900" height="476"'
    start = f'<svg xmlns="http://www.w3.org/2000/svg" {size} font-family="sans-serif" font-size="12" fill="#111827">'
    ground = '<rect width="900" height="476" fill="#ffffff"/>'
    title = "Tussockbell beside plain Rust and two R-tree libraries"
    named = [f"<title>{title}</title>", text(450, 28, title, more='font-weight="bold" font-size="17"')]
    return "\n".join([start, ground, *named, *costs(tables), *strips(ratios), "</svg>"]) + "\n"


def main():
    output, directory = map(pathlib.Path, sys.argv[1:])
    tables, ratios = read(output.read_text())
    (directory / "benchmarks.svg").write_text(picture(tables, ratios))
    (directory / "BENCHMARKS.md").write_text(page(tables, ratios))
    (directory / "benchmarks.tsv").write_text(output.read_text())


main()
