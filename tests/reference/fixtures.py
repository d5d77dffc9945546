"""Writes the fixture files: fragment metadata pieces with their right answers, worked out by brute force.

    fixtures.py DIR     writes a folder a fixture below DIR

`dense` has the footer of a dense fragment alone. Each other folder has `footer`, `tree`, `offsets` and `sizes`; `about`: the kinds, N, C, the size of the metadata file and that of the data file,
a line each; and `answers`: a line a window, its ends and then the tiles found, the looked-at number, the flat count. Where all kinds are int32 or
int64 it also has a `description` as the report reads it, and what the report says (`report`).

A fragment from before float32 was retired has its footer and tree in a folder `old` below the one with what they are converted to, and there an
`about` and `answers` as they were then.
"""

import pathlib
import random
import sys

import converter
import pieces
import report
import rules
from rules import Description


def leaves(kinds, n, chance):
    """Boxes that follow each other in the first dimension and lie anywhere in the others."""
    made = []
    for i in range(n):
        box = []
        for position, kind in enumerate(kinds):
            low = 10 * i - 40 if position == 0 else chance.randrange(-500, 500)
            low += pieces.origin(kind)
            high = low + chance.randrange(0, 12)
            box.append((low, high) if rules.KINDS[kind].whole else (low / 4, high / 4))
        made.append(box)
    return made


def answered(d, n, tree, windows):
    """A line for each window."""
    lines, f = [], rules.number(tree, 0, 4)
    for w in windows:
        found, looked = rules.query(d, n, tree, d.kinds, w)
        listing, count = rules.flat(d, n, tree, w)
        assert found == listing and looked == count
        assert looked * (f - 1) <= rules.number(tree, 4, 4) * (f - 1) + (n - 1) * f
        ends = " ".join(repr(x) for pair in w for x in pair)
        lines.append(f"{ends}\t{' '.join(map(str, found))}\t{looked}\t{count}\n")
    return "".join(lines)


def keep(place, d, n, footer, file_size, data_size, tree, windows):
    """Footer, tree, description and answers of a fragment."""
    place.mkdir(parents=True, exist_ok=True)
    (place / "footer").write_bytes(footer)
    (place / "tree").write_bytes(tree)
    (place / "answers").write_text(answered(d, n, tree, windows))
    (place / "about").write_text(f"{' '.join(d.kinds)}\n{d.fields}\n{d.capacity}\n{file_size}\n{data_size}\n")


def write(folder, name, version, kinds, n, f, fields, chance):
    d = Description(kinds, fields, 100)
    boxes = leaves(kinds, n, chance)
    tree = pieces.tree(kinds, boxes, f)
    foot = pieces.Footer(d, pieces.around(boxes), tiles=n, last_cells=chance.randrange(1, 101), name=b"__" + name.encode())
    foot.version = version
    extents = [chance.randrange(1, 5000) for _ in range(n)]
    starts = [sum(extents[:i]) for i in range(n)]
    window = [(low, low + 25) if rules.KINDS[kind].whole else (low / 4, low / 4 + 25) for kind, (low, _) in zip(kinds, boxes[n // 2])]
    windows = [window, pieces.around(boxes), boxes[-1], boxes[0]]
    windows.append([(high + 1, high + 1) for _, high in pieces.around(boxes)])
    place, footer, file_size = folder / name, foot.data(), foot.file_size
    if "float32" in kinds:
        keep(place / "old", converter.Old.of(d), n, footer, file_size, sum(extents), tree, windows)
        tree, footer = converter.convert(d, file_size, footer, tree, 2**64), converter.convert_footer(d, file_size, footer, 2**64)
        d, file_size = converter.widened(d), file_size + converter.added(d)
    keep(place, d, n, footer, file_size, sum(extents), tree, windows)
    (place / "offsets").write_bytes(pieces.entries(starts))
    (place / "sizes").write_bytes(pieces.entries(extents))
    assert rules.sizes(n, pieces.entries(extents)) == sum(extents)
    if all(kind in ("int32", "int64") for kind in kinds):
        numbers = [len(kinds)] + [4 * rules.KINDS[k].range_bytes for k in kinds] + [fields, d.capacity, file_size, sum(extents)]
        numbers += [x for pair in window for x in pair]
        text = "".join(f"{x}\n" for x in numbers).encode()
        (place / "description").write_bytes(text)
        (place / "report").write_bytes(report.report(text, footer, tree, pieces.entries(starts)))


def sample(folder):
    """The report example of the rules: tree A, C = 32, last 5, offsets 0, 100, 250, S = 300, window [12, 21]."""
    d = Description(["int32"], 1, 32)
    foot = pieces.Footer(d, [(0, 24)])
    place = folder / "sample"
    place.mkdir(parents=True, exist_ok=True)
    text = f"1\n32\n1\n32\n{foot.file_size}\n300\n12\n21\n".encode()
    tree = pieces.tree(["int32"], [[(0, 4)], [(10, 14)], [(20, 24)]], 2)
    offsets = pieces.entries([0, 100, 250])
    said = report.report(text, foot.data(), tree, offsets)
    assert said == b"tiles\t3\tfound\t2\tlooked\t6\n1\t100\t150\t32\n2\t250\t50\t5\n"
    for name, data in (("description", text), ("footer", foot.data()), ("tree", tree), ("offsets", offsets), ("report", said)):
        (place / name).write_bytes(data)


def dense(folder):
    """The footer of a dense fragment, over a domain of 100 by 100 cells."""
    foot = pieces.Footer(Description(["int32", "int64"], 1, 250), [(0, 99), (-50, 49)], tiles=0, last_cells=0)
    foot.dense = 1
    (folder / "dense").mkdir(parents=True, exist_ok=True)
    (folder / "dense" / "footer").write_bytes(foot.data())


def main():
    folder = pathlib.Path(sys.argv[1])
    chance = random.Random(7)
    sample(folder)
    dense(folder)
    write(folder, "one_tile", 16, ["int32"], 1, 10, 1, chance)
    write(folder, "full_rows", 17, ["int64"], 9, 3, 2, chance)
    write(folder, "short_last_row", 18, ["int32"], 11, 10, 1, chance)
    write(folder, "three_short_rows", 19, ["int64", "int32"], 29, 3, 3, chance)
    write(folder, "float32", 20, ["float32"], 7, 2, 1, chance)
    write(folder, "float64", 21, ["float64", "float64"], 12, 5, 1, chance)
    write(folder, "mixed", 21, ["int32", "float64", "int64", "uint64"], 10, 4, 2, chance)
    write(folder, "wide_fanout", 21, ["int32"], 40, 1024, 1, chance)
    write(folder, "uint64", 21, ["uint64", "int64", "float64"], 8, 3, 1, chance)


if __name__ == "__main__":
    main()
