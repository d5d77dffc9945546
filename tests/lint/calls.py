"""Calls as the documents show them, for a type checker: every sort of lent buffer, numpy's arrays among them. Nothing here is run."""

import array
import ctypes
import mmap

import numpy

import tussockbell as tb

d = tb.Description(["float64", "float64"], fields=1, capacity=32)


def asked(file: mmap.mmap) -> list[tb.Hit]:
    tree = tb.open_tree(d, 1166, bytearray(file), memoryview(file))
    low, high = numpy.array([[0.0, 5.0]]), numpy.array([[1.0, 9.0]])
    given: list[tb.Windows] = [numpy.stack([low, high], axis=2), array.array("d", [0.0, 1.0, 5.0, 9.0]), b"", file]
    answers = [hit for each in given for hit in tb.query_batch(d, tree.tiles, file, each) if isinstance(hit, tb.Hit)]
    tb.query_batch(d, 3, array.array("B"), (ctypes.c_double * 4)())
    leaves = numpy.zeros((3, 2, 2))
    tb.write_tree_into(d, 3, 2, leaves, bytearray(tb.tree_length(d, 3, 2)))
    tb.box_test(d, leaves[0], [(0.0, 1.0), (5.0, 9.0)])
    return answers + [tree.query([(0, 1), (5.0, 9.0)]), tb.query(d, 3, numpy.zeros(80, dtype=numpy.uint8), [(0, 1), (5.0, 9.0)])]


def results(tree: tb.Tree, windows: tb.Windows) -> int:
    out = numpy.zeros(8, dtype=numpy.uint32)
    counts = tree.query_into([(0, 1), (5.0, 9.0)], out)
    tb.DenseGrid(d, [(0, 9)], [1]).query_into([(0, 1)], array.array("I", [0]))
    answers, tiles, starts = tree.query_batch_arrays(windows, refused="raise")
    found = numpy.asarray(answers)["found"].sum() + numpy.asarray(tiles)[: starts[1]].sum()
    hit = tree.query([(0, 1), (5.0, 9.0)])
    first: list[int] = hit.tiles[:3].tolist() + [tile for tile in hit.tiles if tile < tb.limits.MOST_TILES]
    same = hit.tiles == first and tb.Refused(9, 0).number == tb.Refusal.REVERSED and tb.Refusal(9).text == "minimum above maximum"
    return int(found) + counts.found + sum(answer.used for answer in answers) + same
