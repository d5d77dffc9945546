"""Checks a tree while its bytes arrive, here from a file in blocks, and then asks it."""

import pathlib

import tussockbell as tb

SAMPLE = pathlib.Path("tests/fixtures/sample")
BLOCK = 32

d = tb.Description(["int32"], fields=1, capacity=32)
footer = (SAMPLE / "footer").read_bytes()
stated = (SAMPLE / "tree").stat().st_size

parts = tb.TreeParts(d, 1166, footer, stated)
with open(SAMPLE / "tree", "rb") as file:
    while block := file.read(BLOCK):
        parts.write(block)
print(parts.finish())

# The blocks are gone: whoever has the bytes, here the file, asks windows of them.
tree = tb.open_tree(d, 1166, footer, (SAMPLE / "tree").read_bytes())
print(tree.query([(12, 21)]).tiles)
