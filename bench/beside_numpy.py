"""The job of examples/job.py beside numpy: opening fragments, finding the tiles of 32 windows, planning and reading.

    PYTHONPATH=bindings/python:examples python3 bench/beside_numpy.py FOLDER [ROUNDS]

FOLDER is one that examples/fragments.py wrote. numpy takes the same steps over the same files, with no check of any: all leaf
boxes against each window. What both read is compared before anything is timed. A time is the least of the rounds, one thread.
"""

import pathlib
import sys
import time

import fragments
import job
import numpy as np

LEAF = np.dtype([("start", "<i8"), ("end", "<i8"), ("low", "<f8"), ("high", "<f8")])


def ours(folder, asked):
    with fragments.opened(folder) as fragment:
        return job.read(folder / "data", job.planned(fragment, asked).ranges)


def with_numpy(folder, asked):
    offsets = np.fromfile(folder / "offsets", "<u8")[1:].astype("i8")
    leaves = np.memmap(folder / "tree", "u1", "r")[-LEAF.itemsize * len(offsets) :].view(LEAF)
    found = np.zeros(len(offsets), bool)
    for (first, last), (low, high) in asked:
        times = (leaves["start"] <= last) & (first <= leaves["end"])
        found |= times & (leaves["low"] <= high) & (low <= leaves["high"])
    tiles = np.flatnonzero(found)
    starts, ends = offsets[tiles], np.append(offsets[1:], (folder / "data").stat().st_size)[tiles]
    apart = np.flatnonzero(starts[1:] > ends[:-1])
    firsts, lasts = np.append(0, apart + 1), np.append(apart, len(tiles) - 1)
    ranges = zip(starts[firsts].tolist(), (ends[lasts] - starts[firsts]).tolist()) if len(tiles) else ()
    return job.read(folder / "data", ranges)


def seconds(way, folders, asked):
    start = time.perf_counter()
    for folder in folders:
        way(folder, asked)
    return time.perf_counter() - start


def main():
    folders = sorted(pathlib.Path(sys.argv[1]).iterdir())
    rounds = int(sys.argv[2]) if len(sys.argv) > 2 else 9
    with fragments.opened(folders[0]) as first:
        asked, tiles = job.windows(first.footer.domain[0][1]), first.footer.tiles
    for folder in folders:
        assert ours(folder, asked) == with_numpy(folder, asked), folder
    taken = [[seconds(way, folders, asked) for way in (ours, with_numpy)] for _ in range(rounds)]
    library, plain = (min(times) for times in zip(*taken))
    print(f"{len(folders)} fragments of {tiles} tiles: {library:.3f} s, numpy {plain:.3f} s, ratio {library / plain:.2f}")


if __name__ == "__main__":
    main()
