"""The job of examples/job.py on Dask, for those who outgrow one machine: each worker opens, plans and reads some of the fragments.

    python3 examples/job_dask.py FOLDER [--workers 2] [--scheduler ADDRESS]

Fragments go to the workers as their paths, and are opened and checked there; the workers see the same files.
Debian's python3-distributed has what it needs. With no address it starts a cluster of its own on this machine.
"""

# mypy: allow-untyped-calls, ignore-missing-imports, allow-any-unimported

import argparse
import contextlib
import pathlib
from collections.abc import Sequence

import fragments
import job
from dask.distributed import Client, LocalCluster

import tussockbell as tb


def cluster(workers: int) -> LocalCluster:
    """Processes on this machine."""
    return LocalCluster(n_workers=workers, threads_per_worker=1, dashboard_address=None)


def part(fragment: tb.Fragment, data: pathlib.Path, asked: job.Asked) -> job.Part:
    """As job.part, of a fragment that came as its paths."""
    with fragment:
        return job.measured(job.planned(fragment, asked), data)


def parts(client: Client, folders: Sequence[pathlib.Path], asked: job.Asked) -> list[job.Part]:
    opened = [fragments.opened(folder) for folder in folders]
    data = [folder / "data" for folder in folders]
    gathered: list[job.Part] = client.gather(client.map(part, opened, data, asked=asked, pure=False))
    return gathered


def main() -> None:
    parser = argparse.ArgumentParser(description="The job on Dask.")
    parser.add_argument("folder", type=pathlib.Path)
    parser.add_argument("--workers", type=int, default=2)
    parser.add_argument("--scheduler")
    given = parser.parse_args()
    folders = sorted(given.folder.resolve().iterdir())
    with fragments.opened(folders[0]) as first:
        asked = job.windows(int(first.footer.domain[0][1]))
    with contextlib.ExitStack() as held:
        where = given.scheduler or held.enter_context(cluster(given.workers))
        client = held.enter_context(Client(where))
        print(job.shown(len(folders), job.together(parts(client, folders, asked))))


if __name__ == "__main__":
    main()
