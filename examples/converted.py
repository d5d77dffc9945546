"""An old footer and an old tree, of one float32 dimension, become new ones, which are opened and asked."""

import pathlib

import tussockbell as tb

files = pathlib.Path(__file__).resolve().parents[1] / "tests/fixtures/float32/old"
footer, tree = ((files / name).read_bytes() for name in ("footer", "tree"))
old, old_size = tb.Description(["float32"], fields=1, capacity=100), 1169
try:
    tb.open_tree(old, old_size, footer, tree)
except tb.Refused as refused:
    print(refused)

new_tree = tb.convert_tree(old, old_size, footer, tree)
new_footer, new_size = tb.convert_footer(old, old_size, footer)
opened = tb.open_tree(old.widened(), new_size, new_footer, new_tree)

# What the old tree answered: a line a window, with its ends, the tiles and the number of boxes looked at.
for line in (files / "answers").read_text().splitlines():
    ends, tiles, looked, _ = line.split("\t")
    low, high = map(float, ends.split())
    hit = opened.query(old.widen([(low, high)]))
    same = hit.tiles == [int(tile) for tile in tiles.split()] and hit.looked == int(looked)
    print(f"{low} to {high}: {hit.tiles}, looked {hit.looked}:", "as before" if same else "not as before")
