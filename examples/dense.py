"""Which tiles of a dense array does a window touch? The grid is a fragment's domain, cut by the schema's extents."""
import pathlib

import tussockbell as tb

d = tb.Description(["int32", "int64"], fields=1, capacity=250)
footer = tb.read_dense_footer(d, 1182, pathlib.Path("tests/fixtures/dense/footer").read_bytes())
print(footer.domain)

grid = tb.DenseGrid(d, footer.domain, extents=[10, 25], order="row-major")
print(grid.tiles, "tiles")
print(grid.query([(5, 14), (-20, 0)]))
print(grid.query([(5, 14), (-20, 0)], room=3))
try:
    tb.DenseGrid(d, footer.domain, extents=[10, 30])
except tb.Refused as refused:
    print(refused)
