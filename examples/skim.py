"""Hits become leaf boxes, the boxes a tree, and the tree is opened and asked."""
import pathlib
import struct

import tussockbell as tb

# The hits of a skim, four to a tile.
hits = [3, 0, 4, 1, 12, 10, 14, 11, 20, 24, 22]
tiles = [hits[at : at + 4] for at in range(0, len(hits), 4)]
leaves = b"".join(struct.pack("<ii", min(tile), max(tile)) for tile in tiles)

d = tb.Description(["int32"], fields=1, capacity=32)
tree = tb.write_tree(d, len(tiles), 2, leaves)
print(len(tree), "bytes")

# A footer of this description and this number of tiles, whose domain holds every hit.
footer = pathlib.Path("tests/fixtures/sample/footer").read_bytes()
opened = tb.open_tree(d, 1166, footer, tree)
print(opened.query([(12, 21)]))
