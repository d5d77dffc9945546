"""A night's queries are logged, the tree changes, and the log is replayed: which answers are still the same?"""

import pathlib

import tussockbell as tb

SAMPLE = pathlib.Path("tests/fixtures/sample")

d = tb.Description(["int32"], fields=1, capacity=32)
tree = tb.open_tree(d, 1166, (SAMPLE / "footer").read_bytes(), (SAMPLE / "tree").read_bytes())

windows = [[(12, 21)], [(5, 9)], [(30, 40)]]
log = b"".join(tb.log_line(window, tree.query(window)) for window in windows)

# The same three tiles, packed anew with a fanout of 3: the tiles found stay, the boxes looked at need not.
leaves = b"".join(end.to_bytes(4, "little") for end in (0, 4, 10, 14, 20, 24))
packed = tb.write_tree(d, 3, 3, leaves)
print(tb.replay(d, 3, packed, log).decode(), end="")
