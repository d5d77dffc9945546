"""Tussockbell for Python: which data tiles of a sparse TileDB fragment does a window touch?

    import tussockbell as tb

    d = tb.Description(["int32", "float64"], fields=3, capacity=1000)
    footer = tb.read_footer(d, file_size, footer_bytes)
    tree = tb.open_tree(d, file_size, footer_bytes, tree_bytes)
    hit = tree.query([(0, 10), (-1.5, 2.5)])
    hits = tree.query_batch([[(0, 10), (-1.5, 2.5)], [(20, 30), (0.0, 1.0)]])
    offsets = tb.tile_offsets(footer.tiles, data_file_size, list_bytes)
    for tile in hit.tiles:
        offset, extent = offsets[tile]
    numpy.asarray(hit.tiles)  # uint32, with no copy
    answers, tiles, starts = tree.query_batch_arrays(windows)
    for start, length in offsets.plan(hit.tiles, gap=4096).ranges:
        data = os.pread(file, length, start)
    body = tb.write_tree(d, tiles, fanout, leaf_boxes)
    names = tb.committed(listing, time).names
    text = tree.replay(log_bytes)
    new_tree = tb.convert_tree(old, file_size, old_footer_bytes, old_tree_bytes)
    grid = tb.DenseGrid(d, domain, extents)  # of a dense array, which has no tree
    tiles = grid.query(window).tiles

Every function asks the proved library, and raises `Refused`, with a number and a place, where the library refuses. `Refusal`
has the numbers by name, and `limits` the least and the most of each number that has limits. docs/RULES.md has the rules.
Numbers outside the limits are refused like any other bad input, however large or small they are.

Bytes may be bytes, a bytearray, a memoryview or an mmap, read-only or not. They are lent to the library as they are, with no
copy; only a memoryview whose bytes do not lie one after the other is copied first. Anything that has no bytes to lend is a
TypeError. A mapped file must keep its length for as long as it is lent: where it is cut short, the next look at what it had
ends the process (SIGBUS).

Windows, boxes and leaves may be lent so too, or as arrays, numpy's or others. The ends of each are the minimum and the
maximum of dimension 0, then those of dimension 1, and so on. What an array says of itself has to fit, else it is a
TypeError:

    items                                            shape for k windows or leaves               for one box
    bytes, format B or c                             a run, (bytes,)                             the same
    ends of the kind that all D dimensions have      a run, (2 * D * k,); (k, 2 * D); (k, D, 2)  (2 * D,); (D, 2)
    records of all 2 * D ends, in order, no padding  (k,)                                        ()

Ends are little-endian, as stored ones are. int32 ends on int64 dimensions, or ends of the other byte order, do not
fit; neither do int8 numbers, nor uint8 ones of more than one dimension. A uint8 array of one dimension is bytes, and is
answered as those bytes are. What the numbers mean is not to be seen: for D = 2 an array (k, 2, D), minima and then
maxima of each window, has the shape of (k, D, 2) and can't be told from it, and neither can (k, 2 * D) with all minima
first.

    low, high = numpy.array([[0.0, 5.0]]), numpy.array([[1.0, 9.0]])  # one window, from 0 to 1 and from 5 to 9
    numpy.stack([low, high], axis=2)                                  # right: (k, D, 2), [[[0, 1], [5, 9]]]
    numpy.stack([low, high], axis=1)                                  # wrong: (k, 2, D), [[[0, 5], [1, 9]]]
    numpy.stack([low, high])                                          # (2, k, D): a TypeError, unless k = D = 2

The library is the file that the environment variable TUSSOCKBELL_LIBRARY names, else the one that was installed with this
package, else build/libtussockbell.so of the checkout that it is in; where it can't be loaded, every call is an OSError.
All functions may be called from several threads at once, and so may the methods of one `Tree`, `Footer`, `Offsets` or
`Fragment`; one `TreeParts` is for one thread at a time.

`python3 -m tussockbell --help` says what the same does at the command line.
"""

from __future__ import annotations

# Annotations of classes are looked up here, by the name that the classes get below.
from collections.abc import Sequence as Sequence

from tussockbell import _functions, _kinds, limits
from tussockbell._batch import Answer, Answers, Batch, query_batch, query_batch_arrays
from tussockbell._batch import Windows as Windows
from tussockbell._committed import Committed, committed
from tussockbell._converted import ConvertedFooter, convert_footer, convert_tree, convert_tree_into
from tussockbell._dense import DenseFooter, DenseGrid, DenseHit, read_dense_footer
from tussockbell._description import Description
from tussockbell._footer import Footer, read_footer
from tussockbell._fragment import Fragment
from tussockbell._kinds import End as End
from tussockbell._kinds import Kind as Kind
from tussockbell._kinds import Range as Range
from tussockbell._lending import Bytes as Bytes
from tussockbell._lists import Offsets, tile_offsets, tile_sizes, var_tile_offsets
from tussockbell._parts import Opened, TreeParts
from tussockbell._plan import Plan, Ranges
from tussockbell._query import Counts, Hit, box_test, query, query_into
from tussockbell._refused import Refusal, Refused
from tussockbell._replay import log_line, replay, replay_into
from tussockbell._tiles import TileNumbers
from tussockbell._tree import Tree, open_tree
from tussockbell._values import NullCounts, TileRanges, TileSums, TileValues, VarValues, null_counts, tile_ranges, tile_sums, tile_values
from tussockbell._window import Window
from tussockbell._write import tree_length, write_tree, write_tree_into

__all__ = [
    "Answer", "Answers", "Batch", "Committed", "ConvertedFooter", "Counts", "DenseFooter", "DenseGrid", "DenseHit", "Description",
    "Footer", "Fragment", "Hit", "NullCounts", "Offsets", "Opened", "Plan", "Ranges", "Refusal", "Refused", "TileNumbers", "TileRanges",
    "TileSums", "TileValues", "Tree", "TreeParts", "VarValues", "Window", "box_test", "committed", "convert_footer", "convert_tree",
    "convert_tree_into", "limits", "log_line", "null_counts", "open_tree", "query", "query_batch", "query_batch_arrays", "query_into",
    "read_dense_footer", "read_footer", "replay", "replay_into", "tile_offsets", "tile_ranges", "tile_sizes", "tile_sums",
    "tile_values", "tree_length", "var_tile_offsets", "write_tree", "write_tree_into",
]

__version__ = "1.1.0"

_library = _functions.library
_NAMES, _FORMATS = _kinds.NAMES, _kinds.FORMATS

# Where a class or a function stands is no matter of the user's: tracebacks, pickles and help call it by the package.
for _name in __all__:
    _public = globals()[_name]
    if _public is not limits:
        _public.__module__ = __name__
del _name, _public
