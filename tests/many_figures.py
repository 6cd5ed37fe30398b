"""What `many` costs beside its jobs: drawn projects are verified one by one, by `many`, and by `many` on a cluster.

    python3 tests/many_figures.py [COUNT] [FEWEST] [MOST]

draws COUNT projects (1,000) of FEWEST to MOST packages (50 to 300), locks them with the program under test, and prints
a line for each way: how long it took, and the processor time of all its processes. Beside the first is a fourth of the
sum of the single calls, which four cores could do it in at best; the ratios of the others are to this fourth, and to
the processor time of the single calls, which tells more where something else runs. The cluster is a scheduler and two
workers of two threads, where an interpreter has `distributed` (on Debian the package python3-distributed).
"""

from __future__ import annotations

import contextlib
import os
import resource
import socket
import subprocess
import sys
import tempfile
import time
from collections.abc import Callable, Iterator
from pathlib import Path

import families
from making import PROGRAM, PYTHON
from test_many import cluster_python

CORES = 4
ENVIRONMENT = {**os.environ, "PYTHONPATH": str(PYTHON), "PYTHONDONTWRITEBYTECODE": "1", "UNILOCK": str(PROGRAM)}


def drawn(room: Path, count: int, fewest: int, most: int) -> list[Path]:
    """Projects of different sizes, each with its lock."""
    found = []
    for number in range(count):
        folder = room / f"{number:04}"
        families.write(folder, families.index(fewest + number * 7 % (most - fewest + 1), 6, 3))
        (folder / "p.toml").rename(folder / "pyproject.toml")
        words = [str(PROGRAM), "lock", "pyproject.toml", "ix", str(CORES)]
        done = subprocess.run(words, cwd=folder, capture_output=True, check=True)
        (folder / "unilock.lock").write_bytes(done.stdout)
        found.append(folder)
    return found


def spent(work: Callable[[], object]) -> tuple[float, float]:
    """How long something takes, and the processor time of the processes that it starts and waits for."""
    before, begun = resource.getrusage(resource.RUSAGE_CHILDREN), time.monotonic()
    work()
    took, after = time.monotonic() - begun, resource.getrusage(resource.RUSAGE_CHILDREN)
    return took, after.ru_utime + after.ru_stime - before.ru_utime - before.ru_stime


def one_by_one(folders: list[Path]) -> None:
    for folder in folders:
        words = [str(PROGRAM), "verify", "pyproject.toml", "ix", "unilock.lock"]
        subprocess.run(words, cwd=folder, capture_output=True, check=True)


def together(room: Path, python: str, *more: str) -> None:
    words = [python, "-m", "unilock_tools", "many", "verify", str(room), *more]
    subprocess.run(words, env=ENVIRONMENT, capture_output=True, check=True)


@contextlib.contextmanager
def cluster(python: str) -> Iterator[str]:
    """The address of a scheduler with two workers of two threads; they are ended, and waited for."""
    with socket.socket() as held:
        held.bind(("127.0.0.1", 0))
        address = f"tcp://127.0.0.1:{held.getsockname()[1]}"
    calls = [["dask_scheduler", "--host", "127.0.0.1", "--port", address.rpartition(":")[2]]]
    calls += [["dask_worker", address, "--nthreads", "2", "--no-nanny"]] * 2
    with contextlib.ExitStack() as ended, tempfile.TemporaryDirectory() as room:
        for module, *words in calls:
            line = [python, "-m", f"distributed.cli.{module}", *words, "--no-dashboard"]
            silent = subprocess.DEVNULL
            one = subprocess.Popen(line, cwd=room, env=ENVIRONMENT, stdout=silent, stderr=silent)
            ended.callback(one.wait)
            ended.callback(one.terminate)
        wanted = f"import distributed; distributed.Client({address!r}, timeout=60).wait_for_workers(2, timeout=60)"
        subprocess.run([python, "-c", wanted], env=ENVIRONMENT, check=True)
        yield address


def main(count: int = 1000, fewest: int = 50, most: int = 300) -> None:
    if not PROGRAM.is_file():
        sys.exit("many_figures: the program isn't built (./unilock builds it)")
    with tempfile.TemporaryDirectory() as held:
        room = Path(held)
        folders = drawn(room, count, fewest, most)
        took, used = spent(lambda: one_by_one(folders))
        print(f"{count} projects one by one: {took:.1f} s, a fourth of it {took / CORES:.1f} s; processor {used:.1f} s")

        def told(what: str, wall: float, processor: float) -> None:
            ratios = f"{wall / (took / CORES):.2f} times the fourth; processor {processor / used:.2f} times"
            print(f"{what}: {wall:.1f} s, processor {processor:.1f} s; {ratios}", flush=True)

        told(f"many, {CORES} at a time", *spent(lambda: together(room, sys.executable, "--workers", str(CORES))))
        python = cluster_python()
        if python is None:
            print("no interpreter has `distributed`, so there is no cluster")
            return
        walls = []

        def on_cluster() -> None:
            with cluster(python) as address:
                walls.append(spent(lambda: together(room, python, "--scheduler", address))[0])

        _, processor = spent(on_cluster)
        told("many on a cluster (its processor time with starting the three)", walls[0], processor)


if __name__ == "__main__":
    main(*map(int, sys.argv[1:]))
