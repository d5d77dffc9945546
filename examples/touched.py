"""The tiles of the sample fragment that a window touches, and where their bytes are."""
import pathlib
import tussockbell as tb

sample = pathlib.Path("tests/fixtures/sample")
footer, tree, offsets = (sample.joinpath(name).read_bytes() for name in ("footer", "tree", "offsets"))
d = tb.Description(["int32"], fields=1, capacity=32)
opened = tb.open_tree(d, 1166, footer, tree)
extents = tb.tile_offsets(opened.tiles, 300, offsets)
hit = opened.query([(12, 21)])
print(hit)
for tile in hit.tiles:
    print(tile, extents[tile])
try:
    opened.query([(21, 12)])
except tb.Refused as refused:
    print(refused)
