"""The job on two Dask workers and in a plain loop, fragment by fragment.

    compare.py FOLDER     writes fragments below FOLDER, and reads them in both ways
"""

import os
import pathlib
import sys

import fragments
import job
import job_dask
from dask.distributed import Client

WORKERS, NUMBER, TILES = 2, 12, 500


def processes(client):
    """Those of the workers."""
    return set(client.run(os.getpid).values())


def main():
    folders = [pathlib.Path(sys.argv[1]) / f"{number:04}" for number in range(NUMBER)]
    for seed, folder in enumerate(folders):
        fragments.write(folder, TILES + seed, seed)
    asked = job.windows(TILES * fragments.CELLS)
    alone = [job.part(folder, asked) for folder in folders]
    assert len(set(alone)) == NUMBER and all(part.ranges > 1 for part in alone), "the fragments are too much alike"
    with job_dask.cluster(WORKERS) as cluster, Client(cluster) as client:
        assert len(processes(client) - {os.getpid()}) == WORKERS
        parts = job_dask.parts(client, folders, asked)
    assert [job.Part(*part) for part in parts] == alone, "Dask and the plain loop differ"
    tiles, values = job.together(alone).tiles, job.together(alone).values
    print(f"dask: {NUMBER} fragments, {tiles} tiles and {values} values are read alike by {WORKERS} workers and by a loop")


if __name__ == "__main__":
    main()
