"""Writes fragments to try things on: the footer, the tree, the offsets and the data of one field, a file each.

    python3 examples/fragments.py FOLDER [--fragments 4] [--tiles 1000]

Tiles follow each other in time, a cell a microsecond, and lie anywhere in energy. A cell's value is its time.
"""

import argparse
import pathlib
import random
import struct
from array import array
from collections.abc import Iterator, Sequence

import tussockbell as tb

CELLS, FANOUT, VERSION, SCHEMA = 8, 16, 21, b"__schema"
# Time in microseconds, and energy.
DESCRIPTION = tb.Description(["int64", "float64"], fields=1, capacity=CELLS)
BOX = struct.Struct("<qqdd")


def numbers(*all_of_them: int) -> bytes:
    return struct.pack(f"<{len(all_of_them)}Q", *all_of_them)


def offset_list(offsets: Sequence[int]) -> bytes:
    """The body of a list: how many entries there are, and the entries."""
    return numbers(len(offsets), *offsets)


def footer(
    domain: bytes, tiles: int, last_cells: int, file_sizes: Sequence[int], rtree: int, tile_offsets: Sequence[int]
) -> bytes:
    """The bytes of a footer, field after field. `domain` is a box; `file_sizes` are those of the data files, a field each, and
    `tile_offsets` where in the metadata file the lists stand that tell the tiles in them."""
    none = [0] * len(file_sizes)
    flags = bytes(2)
    head = struct.pack("<IQ", VERSION, len(SCHEMA)) + SCHEMA + flags + domain + numbers(tiles, last_cells) + flags
    sizes = numbers(*file_sizes, *none, *none)
    places = numbers(rtree, *tile_offsets, *none * 7, 0, 0)
    return head + sizes + places + numbers(len(head + sizes + places))


def boxes(tiles: int, last_cells: int, chance: random.Random) -> Iterator[tuple[int, int, float, float]]:
    """A box for each tile: the time of its first cell and of its last one, and two energies."""
    for tile in range(tiles):
        start, cells = tile * CELLS, last_cells if tile == tiles - 1 else CELLS
        energy = chance.uniform(0, 100)
        yield start, start + cells - 1, energy, energy + chance.uniform(0, 10)


def write(folder: pathlib.Path, tiles: int, seed: int) -> None:
    """Writes one fragment."""
    chance = random.Random(seed)
    last_cells = chance.randrange(1, CELLS + 1)
    cells = (tiles - 1) * CELLS + last_cells
    all_boxes = list(boxes(tiles, last_cells, chance))
    tree = tb.write_tree(DESCRIPTION, tiles, FANOUT, b"".join(BOX.pack(*box) for box in all_boxes))
    offsets = offset_list([8 * CELLS * tile for tile in range(tiles)])
    around = BOX.pack(0, cells - 1, min(box[2] for box in all_boxes), max(box[3] for box in all_boxes))
    folder.mkdir(parents=True, exist_ok=True)
    (folder / "tree").write_bytes(tree)
    (folder / "offsets").write_bytes(offsets)
    # As if tree, offsets and footer were the metadata file, one after the other.
    (folder / "footer").write_bytes(footer(around, tiles, last_cells, [8 * cells], rtree=0, tile_offsets=[len(tree)]))
    (folder / "data").write_bytes(array("d", range(cells)).tobytes())


def opened(folder: pathlib.Path) -> tb.Fragment:
    """A fragment that was written here: its files are mapped, and checked."""
    footer_path, tree, offsets = (folder / name for name in ("footer", "tree", "offsets"))
    file_size = sum(path.stat().st_size for path in (footer_path, tree, offsets))
    return tb.Fragment(DESCRIPTION, file_size, footer_path, tree, {0: offsets})


def main() -> None:
    parser = argparse.ArgumentParser(description="Writes fragments to try things on.")
    parser.add_argument("folder", type=pathlib.Path)
    parser.add_argument("--fragments", type=int, default=4)
    parser.add_argument("--tiles", type=int, default=1000)
    asked = parser.parse_args()
    for number in range(asked.fragments):
        write(asked.folder / f"{number:04}", asked.tiles, seed=number)


if __name__ == "__main__":
    main()
