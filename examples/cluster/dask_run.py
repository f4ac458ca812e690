#!/usr/bin/env python3
"""dask_run.py RULES FILE FOLDER OUT --parts N [--scheduler ADDRESS]: a run in parts by Dask.

Each part is a task that runs part.sh beside this file, on workers that see RULES, FILE and FOLDER at the same place. A
task that fails is tried again, twice. Without --scheduler two workers of this machine are started. Called again it
works out what is missing. In the end OUT has what one run writes.
"""
import argparse
import pathlib
import subprocess
import sys

HERE = pathlib.Path(__file__).resolve().parent


def work_out(words, part):
    """A part, on a worker. CalledProcessError where it is not whole."""
    call = [HERE / "part.sh", words.rules, words.file, words.folder, str(part), str(words.parts)]
    subprocess.run(call, stdin=subprocess.DEVNULL, check=True)
    return part


def client_of(scheduler):
    """A client of the scheduler at an address, or of one of this machine."""
    from dask.distributed import Client, LocalCluster

    return Client(scheduler or LocalCluster(n_workers=2, threads_per_worker=1, dashboard_address=None))


def main():
    parser = argparse.ArgumentParser(description=__doc__, formatter_class=argparse.RawDescriptionHelpFormatter)
    for name in ("rules", "file", "folder", "out"):
        parser.add_argument(name)
    parser.add_argument("--parts", type=int, required=True)
    parser.add_argument("--scheduler")
    words = parser.parse_args()
    for name in ("rules", "file", "folder", "out"):
        setattr(words, name, str(pathlib.Path(getattr(words, name)).resolve()))
    pathlib.Path(words.folder).mkdir(exist_ok=True)
    with client_of(words.scheduler) as client:
        tasks = client.map(work_out, [words] * words.parts, range(1, words.parts + 1), pure=False, retries=2)
        client.gather(tasks, errors="skip")
    return subprocess.run([HERE / "join.sh", words.folder, str(words.parts), words.out], check=False).returncode


if __name__ == "__main__":
    sys.exit(main())
