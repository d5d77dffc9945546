"""Compares the library with TileDB itself, on a machine that has TileDB-Py.

    compare.py REPORT_PROGRAM

Writes sparse arrays with TileDB-Py, with an attribute of fixed size and one of variable size, and cuts each fragment's metadata file into the footer
and the plain tile bodies. Many windows are asked through the Python package, and where all kinds are int32 or int64 of the report program too. What
is right is worked out from the cells: in global order, `capacity` to a tile, so that a tile's box is the least around its cells, and its bytes of
the variable attribute are those of its cells. Where TileDB-Py is not installed it says so, on standard error, and ends with status 3.
"""

import pathlib
import random
import subprocess
import sys
import tempfile
from typing import NamedTuple

import cut
import tussockbell as tb

CASES = [
    (["int32"], 7, 50), (["int64"], 10, 101), (["int32", "int32"], 16, 300), (["int64", "int32"], 100, 1000),
    (["uint64"], 9, 200), (["float64"], 11, 150), (["float64", "uint64"], 20, 500), (["int32", "float64", "uint64"], 30, 700),
]
# Where the small numbers of a kind are counted from.
ORIGIN = {"uint64": 2**63}
BOX_BYTES = {"int32": 8, "int64": 16, "uint64": 16, "float64": 16}
# The attributes come first, then the coordinates' entry, then the dimensions.
FIXED, VAR, OTHER_FIELDS = 0, 1, 3


class Differs(Exception):
    pass


class Fragment(NamedTuple):
    kinds: list
    capacity: int
    data: bytes  # the metadata file
    cells: list  # in global order: the coordinates and the bytes of the variable attribute
    fixed_size: int  # of the data file of the fixed attribute
    var_size: int  # of the var data file


def number(kind, chance, most):
    """A number of a kind, at most so far from the kind's origin."""
    if kind == "float64":
        return chance.uniform(-most, most)
    return ORIGIN.get(kind, 0) + chance.randrange(-most, most + 1)


def tiles_of(fragment):
    return [fragment.cells[k : k + fragment.capacity] for k in range(0, len(fragment.cells), fragment.capacity)]


def box(cells):
    """The least box around cells."""
    return [(min(ends), max(ends)) for ends in zip(*(coordinates for coordinates, _ in cells))]


def same(what, said, right):
    if said != right:
        raise Differs(f"{what}: the library says {said}, from the cells it is {right}")


def compare_report(program, fragment, window, pieces, right):
    """What the report program says of a window, in a folder of its own."""
    with tempfile.TemporaryDirectory() as space:
        space = pathlib.Path(space)
        numbers = [len(fragment.kinds)] + [int(kind[3:]) for kind in fragment.kinds]
        numbers += [len(fragment.kinds) + OTHER_FIELDS, fragment.capacity, len(fragment.data), fragment.fixed_size] + sum(window, [])
        (space / "description").write_text("".join(f"{x}\n" for x in numbers))
        for name, part in zip(("footer", "tree", "offsets"), pieces):
            (space / name).write_bytes(part)
        asked = [program] + [str(space / name) for name in ("description", "footer", "tree", "offsets")]
        said = subprocess.run(asked, check=True, stdout=subprocess.PIPE).stdout.decode().splitlines()
    same(f"the report of {window}", [int(line.split("\t")[0]) for line in said[1:]], right)


def compare_lists(fragment, pieces, var_pieces):
    """The extents of both attributes, and the bytes of each tile in the variable one."""
    tiles, var_offsets, var_sizes = tiles_of(fragment), *var_pieces
    extents = list(tb.tile_offsets(len(tiles), fragment.fixed_size, pieces[2]))
    same("the bytes of all tiles", sum(length for _, length in extents), fragment.fixed_size)
    extents = list(tb.var_tile_offsets(len(tiles), fragment.var_size, var_offsets))
    same("the var bytes of all tiles", sum(length for _, length in extents), fragment.var_size)
    right = [sum(len(text) for _, text in cells) for cells in tiles]
    same("the var sizes", [int.from_bytes(var_sizes[8 + 8 * i : 16 + 8 * i], "little") for i in range(len(tiles))], right)
    same("their sum", tb.tile_sizes(len(tiles), var_sizes), sum(right))


def compare(fragment, chance, windows, program=None):
    """Asks windows of a fragment, and its lists; the number of windows that agree."""
    kinds, fields = fragment.kinds, len(fragment.kinds) + OTHER_FIELDS
    box_bytes = sum(BOX_BYTES[kind] for kind in kinds)
    footer, tree, lists = cut.cut(fragment.data, box_bytes, fields)
    pieces = footer, tree, lists[FIXED]
    boxes = [box(cells) for cells in tiles_of(fragment)]
    opened = tb.open_tree(tb.Description(kinds, fields=fields, capacity=fragment.capacity), len(fragment.data), footer, tree)
    same("the tiles", opened.tiles, len(boxes))
    compare_lists(fragment, pieces, cut.var(fragment.data, box_bytes, fields, VAR))
    for _ in range(windows):
        window = [sorted(number(kind, chance, 1100) for _ in (0, 1)) for kind in kinds]
        right = [k for k, b in enumerate(boxes) if all(e[0] <= w[1] and w[0] <= e[1] for e, w in zip(b, window))]
        same(f"kinds {kinds}, window {window}", opened.query([tuple(side) for side in window]).tiles, right)
        if program and all(kind in ("int32", "int64") for kind in kinds):
            compare_report(program, fragment, window, pieces, right)
    return windows


def write_array(tiledb, numpy, folder, kinds, capacity, cells, chance):
    """A sparse array with two attributes, written in one fragment."""
    def dimension(i, kind):
        middle, whole = ORIGIN.get(kind, 0), kind != "float64"
        ends = (middle - 1000, middle + 1000) if whole else (-1000.0, 1000.0)
        return tiledb.Dim(name=f"d{i}", domain=ends, tile=2001 if whole else 2000.0, dtype=numpy.dtype(kind))

    attributes = [tiledb.Attr(name="a", dtype=numpy.int32), tiledb.Attr(name="s", dtype="S0", var=True)]
    schema = tiledb.ArraySchema(
        domain=tiledb.Domain(*(dimension(i, kind) for i, kind in enumerate(kinds))), attrs=attributes, sparse=True, capacity=capacity,
        allows_duplicates=True,
    )
    tiledb.Array.create(str(folder), schema)
    points = [numpy.array([number(kind, chance, 1000) for _ in range(cells)], dtype=kind) for kind in kinds]
    texts = numpy.array([b"x" * chance.randrange(9) for _ in range(cells)], dtype="S")
    with tiledb.open(str(folder), "w") as array:
        array[tuple(points)] = {"a": numpy.arange(cells, dtype=numpy.int32), "s": texts}


def read_fragment(tiledb, folder, kinds, capacity):
    (fragment,) = (folder / "__fragments").iterdir()
    with tiledb.open(str(folder)) as array:
        got = array.query(order="G")[:]
        described = tb.Description(kinds, len(kinds) + OTHER_FIELDS, capacity)
        same("the description of the schema", tb.Description.from_schema(array.schema), described)
    cells = list(zip(zip(*(got[f"d{i}"].tolist() for i in range(len(kinds)))), got["s"].tolist()))
    sizes = [(fragment / name).stat().st_size for name in ("a0.tdb", "a1_var.tdb")]
    return Fragment(kinds, capacity, (fragment / "__fragment_metadata.tdb").read_bytes(), cells, *sizes)


def main():
    try:
        import numpy
        import tiledb
    except ImportError:
        sys.stderr.write("compare.py: TileDB-Py is not installed here, so nothing was compared with TileDB\n")
        sys.exit(3)
    chance, compared = random.Random(11), 0
    for kinds, capacity, cells in CASES:
        with tempfile.TemporaryDirectory() as space:
            array = pathlib.Path(space) / "array"
            write_array(tiledb, numpy, array, kinds, capacity, cells, chance)
            fragment = read_fragment(tiledb, array, kinds, capacity)
            same("the cells", len(fragment.cells), cells)
            compared += compare(fragment, chance, 200, sys.argv[1])
    print(f"{compared} windows agree with TileDB {tiledb.version()}")


if __name__ == "__main__":
    main()
