"""The whole job: which tiles do 32 windows touch, read these tiles, fit; over many fragments, with threads.

    python3 examples/job.py FOLDER [--threads 2]

FOLDER is one that examples/fragments.py wrote. The library runs without Python's lock, so that threads are of use.
"""

import argparse
import concurrent.futures
import functools
import os
import pathlib
import random
from array import array
from collections.abc import Iterable, Sequence
from typing import NamedTuple

import fragments

import tussockbell as tb

Asked = list[list[tuple[float, float]]]


class Part(NamedTuple):
    """What a fragment has for the windows: how many different tiles, in how many ranges of how many bytes; how many values, and
    their sum, of which the parts make a mean."""

    tiles: int
    ranges: int
    bytes: int
    values: int
    total: float


def windows(last: int, number: int = 32) -> Asked:
    """Windows of time and energy, each a hundredth of all times."""
    chance = random.Random(number)
    starts = [chance.randrange(last) for _ in range(number)]
    return [[(start, start + last // 100), (energy, energy + 30.0)] for start in starts for energy in [chance.uniform(0, 70)]]


def read(path: pathlib.Path, ranges: Iterable[tuple[int, int]]) -> bytes:
    """The bytes of all ranges, one after the other."""
    with open(path, "rb") as file:
        return b"".join(os.pread(file.fileno(), length, start) for start, length in ranges)


def planned(fragment: tb.Fragment, asked: Asked) -> tb.Plan:
    """What is to be read for all windows. No gap is read across, so that these are the bytes of the tiles and no others."""
    return fragment.plan(asked, field=0, gap=0)


def measured(plan: tb.Plan, data: pathlib.Path) -> Part:
    """The fit, for which a mean stands here: its part of one fragment."""
    values = array("d", read(data, plan.ranges))
    return Part(plan.tiles, len(plan.ranges), plan.bytes, len(values), sum(values))


def part(folder: pathlib.Path, asked: Asked) -> Part:
    with fragments.opened(folder) as fragment:
        return measured(planned(fragment, asked), folder / "data")


def together(parts: Sequence[Part]) -> Part:
    return Part(*map(sum, zip(*parts)))


def shown(number: int, whole: Part) -> str:
    mean = whole.total / whole.values if whole.values else float("nan")
    return (
        f"{number} fragments: {whole.tiles} tiles in {whole.ranges} ranges, {whole.bytes} bytes\n"
        f"mean of {whole.values} values: {mean:.3f}"
    )


def main() -> None:
    parser = argparse.ArgumentParser(description="Which tiles do 32 windows touch, read them, fit.")
    parser.add_argument("folder", type=pathlib.Path)
    parser.add_argument("--threads", type=int, default=2)
    given = parser.parse_args()
    folders = sorted(given.folder.iterdir())
    with fragments.opened(folders[0]) as first:
        asked = windows(int(first.footer.domain[0][1]))
    with concurrent.futures.ThreadPoolExecutor(given.threads) as pool:
        parts = list(pool.map(functools.partial(part, asked=asked), folders))
    print(shown(len(folders), together(parts)))


if __name__ == "__main__":
    main()
