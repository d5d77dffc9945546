"""Measures a batch of 32 windows beside 32 single queries, through the Python binding, and prints the table `python`, tab-parted.

    batch.py     prints its header and a row for each size of window; times are nanoseconds a window
"""

import pathlib
import random
import struct
import sys
import time

root = pathlib.Path(__file__).resolve().parents[1]
sys.path[:0] = [str(root / "bindings/python"), str(root / "tests/reference")]

import pieces
import rules
import tussockbell as tb

KINDS = ["float64", "float64"]
SIDE, FANOUT, WINDOWS, ROUNDS = 64, 16, 32, 101
# A round takes so many nanoseconds at least.
LEAST = 600_000


def opened():
    """A tree of SIDE times SIDE boxes beside each other."""
    leaves = [[(10.0 * x, 10.0 * x + 9.0), (10.0 * y, 10.0 * y + 9.0)] for y in range(SIDE) for x in range(SIDE)]
    known = rules.Description(KINDS, 1, 1000)
    footer = pieces.Footer(known, pieces.around(leaves), tiles=len(leaves))
    tree = pieces.tree(KINDS, leaves, FANOUT)
    return tb.open_tree(tb.Description(KINDS, 1, 1000), footer.file_size, footer.data(), tree)


def timed(ask, times):
    """Nanoseconds of a call."""
    start = time.perf_counter_ns()
    for _ in range(times):
        ask()
    return (time.perf_counter_ns() - start) / times


def medians(asked):
    """Nanoseconds of a call of each: medians of rounds as long as each other, every other one of which goes backward."""
    runs = [(ask, max(1, round(LEAST / min(timed(ask, 1) for _ in range(9)))), []) for ask in asked]
    for turn in range(ROUNDS):
        for ask, times, taken in runs[:: -1 if turn % 2 else 1]:
            taken.append(timed(ask, times))
    return [sorted(taken)[ROUNDS // 2] for _, _, taken in runs]


def main():
    tree, chance = opened(), random.Random(1)
    print("python\twindow\tfound\tlooked\tsingle ns\tlist ns\tbuffer ns")
    for name, size in (("a tile", 0.5), ("some tiles", 15.0), ("many tiles", 60.0)):
        low = [(chance.uniform(0, 570), chance.uniform(0, 570)) for _ in range(WINDOWS)]
        windows = [[(x, x + size), (y, y + size)] for x, y in low]
        buffer = b"".join(struct.pack("<4d", *first, *second) for first, second in windows)
        single = [tree.query(window) for window in windows]
        assert tree.query_batch(windows) == single == tree.query_batch(buffer)
        asked = (lambda: [tree.query(window) for window in windows], lambda: tree.query_batch(windows), lambda: tree.query_batch(buffer))
        taken = "\t".join(f"{each / WINDOWS:.1f}" for each in medians(asked))
        means = [sum(getattr(hit, what) for hit in single) / WINDOWS for what in ("found", "looked")]
        print(f"python\t{name}\t{means[0]:.1f}\t{means[1]:.1f}\t{taken}")


if __name__ == "__main__":
    main()
