"""Of the tiles that a window touches, those whose range of a field can hold a wanted value."""
import pathlib
import struct

import tussockbell as tb

sample = pathlib.Path("tests/fixtures/sample")
footer_bytes, tree_bytes = (sample / "footer").read_bytes(), (sample / "tree").read_bytes()

d = tb.Description(["int32"], fields=1, capacity=32)
footer = tb.read_footer(d, 1166, footer_bytes)
touched = tb.open_tree(d, 1166, footer_bytes, tree_bytes).query([(12, 21)]).tiles
print("touched", touched)


def body(*energies: float) -> bytes:
    """Mins or maxes as a fragment has them: a count, the values, and the size of a var buffer that has no bytes."""
    return struct.pack(f"<Q{len(energies)}fQ", len(energies), *energies, 0)


# A field of float32 energies, in three tiles of 32, 32 and 5 cells; of the last tile no cell has a value.
energies = tb.tile_ranges("float32", footer.tiles, body(0.5, 2.5, 0.0), body(1.5, 9.0, 8.0))
nulls = tb.null_counts(d, 1166, footer_bytes, struct.pack("<4Q", 3, 0, 31, 5))


def can_hold(tile: int, value: float) -> bool:
    low, high = energies[tile]
    return nulls[tile] < footer.cells(tile) and low <= value <= high


wanted = 3.0
print(f"can hold {wanted}:", [tile for tile in touched if can_hold(tile, wanted)])
