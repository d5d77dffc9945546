"""The tiles of windows as arrays: in a buffer that is lent, of a whole batch, and what a refusal says."""
import pathlib
from array import array

import tussockbell as tb

sample = pathlib.Path("tests/fixtures/sample")
footer, body = (sample.joinpath(name).read_bytes() for name in ("footer", "tree"))
d = tb.Description(["i4"], fields=1, capacity=32)
tree = tb.open_tree(d, 1166, footer, body)

out = array("I", [0] * 3)  # or a numpy array of uint32
print(tree.query_into([(12, 21)], out), list(out))

answers, tiles, starts = tree.query_batch_arrays([[(12, 21)], [(21, 12)], [(0, 24)]])
print(tiles, list(starts))
for number, answer in enumerate(answers):
    if answer.number == tb.Refusal.REVERSED:
        print(f"window {number}: {tb.Refusal(answer.number).text}")

try:
    tb.open_tree(d, 1166, footer, body[:-1])
except tb.Refused as refused:
    print(refused)
