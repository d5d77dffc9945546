"""Run with this version: the trees that the version before float32 was retired wrote are converted and asked, and damaged ones are refused, as it said.

    now.py FILE
"""

import collections
import pickle
import sys

import tussockbell as tb
from said import said

LEAST_QUERIES = 100_000


def compare(record, tally):
    kinds, fields, size, footer, tree, windows, hits, bad = record
    old = tb.Description(kinds, fields, 100)
    assert said(tb.open_tree, old, size, footer, tree) == (28, kinds.index("float32"), 0), kinds
    made = tb.convert_footer(old, size, footer)
    opened = tb.open_tree(old.widened(), made.file_size, made.footer, tb.convert_tree(old, size, footer, tree))
    answers, unrounded = opened.query_batch([old.widen(window) for window in windows]), opened.query_batch(windows)
    for window, hit, answer, other in zip(windows, hits, answers, unrounded, strict=True):
        if hit is None:
            tally["old queries that were refused"] += 1
            continue
        assert tuple(answer) == hit, f"{kinds} {window}: {hit} before, {answer} now"
        tally["queries with the same tiles and looked-at number"] += 1
        tally["of them with another answer where nobody rounds"] += answer != other
    for bad_footer, bad_tree, whole, alone in bad:
        assert said(tb.convert_tree, old, size, bad_footer, bad_tree) == whole, f"{kinds}: {whole} before"
        assert said(tb.convert_footer, old, size, bad_footer) == alone, f"{kinds}: {alone} before"
        tally["damaged pairs refused, or accepted, alike"] += 1
        tally["refused", whole and whole[::2]] += 1
    tally["trees"] += 1
    tally["mix", tuple(kinds)] += 1


def main():
    with open(sys.argv[1], "rb") as file:
        records = pickle.load(file)
    tally = collections.Counter()
    for record in records:
        compare(record, tally)
    mixes = sum(isinstance(key, tuple) and key[0] == "mix" for key in tally)
    print(f"old: {mixes} mixes of kinds with float32")
    for what, number in tally.items():
        if isinstance(what, str):
            print(f"old: {number:,} {what}")
    refusals = {key[1]: number for key, number in tally.items() if key[0] == "refused"}
    print("old: number and which of the refusals:", ", ".join(f"{key or 'none'}: {refusals[key]:,}" for key in sorted(refusals, key=str)))
    assert tally["queries with the same tiles and looked-at number"] >= LEAST_QUERIES


main()
