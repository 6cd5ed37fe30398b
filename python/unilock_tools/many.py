"""Runs one job on many projects: verify, check, lock, outdated or judge.

    many JOB PATH ..

A PATH is a folder, below which each folder with a pyproject.toml and an unilock.lock (for `judge`: a lock of another
tool) is a project, or a file with a folder a line. Each project is judged by its own folder `ix`, or by the one that
--index names. Jobs run side by side on this machine's cores, or on a Dask cluster (--scheduler ADDRESS); --send hands
the files to workers that don't see them, an index that several share once to each worker.

A job that fails or takes longer than --timeout is a row of the report, never the end of the run. With --state FILE a
run that is broken off goes on where it was: a row is kept with the hashes of all that its job read, and a job of which
nothing changed isn't run again.

Needs the standard library alone, `distributed` for a cluster, and `rich` for colours, columns and a bar of progress.
Status: 0 all projects are as wanted; 1 some aren't; 2 the words aren't right; 3 there is no project.
"""

from __future__ import annotations

import argparse
import json
import os
from collections import Counter
from collections.abc import Iterable, Mapping
from dataclasses import asdict, dataclass, field, replace
from pathlib import Path

from . import console, terminal
from .console import Refused
from .many_indexes import packed
from .many_jobs import FAILED, RIGHT, TIMED_OUT, WRONG, Row, Task
from .many_projects import INDEX, PROJECT, Sums, lock_name, projects
from .many_runs import on_cluster, on_this_machine
from .terminal import Meter, Part, Screen

JOBS = ("verify", "check", "lock", "outdated", "judge")
# What a job may come to, and how a terminal shows it.
KINDS = {RIGHT: "good", WRONG: "bad", FAILED: "changed", TIMED_OUT: "changed"}


@dataclass
class State:
    """The rows of earlier runs by folder and job, and where further ones are written."""

    path: Path | None
    rows: dict[tuple[str, str], Row] = field(default_factory=dict)

    @classmethod
    def of(cls, path: Path | None) -> State:
        made = cls(path)
        if path is not None and path.exists():
            for line in path.read_text(encoding="utf-8").splitlines():
                try:
                    row = Row(**json.loads(line))
                except (ValueError, TypeError):
                    # The last line of a run that was killed may be cut off.
                    continue
                made.rows[row.folder, row.job] = row
        return made

    def kept(self, task: Task, read: str) -> Row | None:
        row = self.rows.get((task.folder, task.job))
        return row if row is not None and row.read == read and row.result in (RIGHT, WRONG) else None

    def keep(self, row: Row) -> None:
        if self.path is not None:
            with self.path.open("a", encoding="utf-8") as file:
                file.write(json.dumps(asdict(row), sort_keys=True) + "\n")


def is_read_summed(asked: argparse.Namespace) -> bool:
    """Whether the sums of what jobs read are wanted, which take as long as small jobs do."""
    return bool(asked.state or asked.json)


def tasks_of(
    asked: argparse.Namespace, found: list[Path], sums: Sums
) -> tuple[list[tuple[Task, str]], dict[str, bytes]]:
    """The jobs, each with the sum of what it reads where a row shows or keeps it, and the archives of indexes that are
    sent."""
    tasks, archives = [], {}
    is_summed = is_read_summed(asked)
    for folder in found:
        index = str(Path(asked.index).resolve() if asked.index else folder / INDEX)
        read = sums.read_by(folder, index, asked.job) if is_summed else ""
        if asked.send:
            named = sums.index(index)
            if named not in archives:
                archives[named] = packed(Path(index))
            paths = [it for it in (folder / PROJECT, folder / lock_name(folder, asked.job)) if it.is_file()]
            files = tuple((it.name, it.read_bytes()) for it in paths)
            tasks.append((Task(asked.job, str(folder), named, asked.timeout, files), read))
        else:
            tasks.append((Task(asked.job, str(folder), index, asked.timeout), read))
    return tasks, archives


def line_of(row: Row) -> str:
    return f"{row.result:9}  {row.folder}" + (f": {row.text}" if row.text and row.result != RIGHT else "")


def cells_of(row: Row) -> list[Part]:
    said = row.text if row.result != RIGHT else ""
    return [Part(row.result, KINDS[row.result]), Part(row.folder), Part(said), Part(f"{row.seconds:.2f}", "quiet")]


def counts(results: Iterable[str] | Mapping[str, int]) -> str:
    """`3 right, 0 wrong, 1 failed, 0 timed out`."""
    tally = Counter(results)
    return ", ".join(f"{tally[word]} {word}" for word in KINDS)


def parser() -> console.Parser:
    made = console.Parser("many", __doc__)
    made.add_argument("job", metavar="JOB", choices=JOBS, help=", ".join(JOBS))
    made.add_argument("paths", metavar="PATH", nargs="+", help="a folder of projects, or a list of their folders")
    made.add_argument("--index", metavar="FOLDER", help="the index folder of all projects (their own `ix`, without it)")
    made.add_argument("--workers", metavar="N", type=int, default=os.cpu_count() or 1, help="how many jobs at a time")
    made.add_argument("--scheduler", metavar="ADDRESS", help="the scheduler of a Dask cluster, as tcp://host:8786")
    made.add_argument("--send", action="store_true", help="send the files to workers that lack them (not for `lock`)")
    made.add_argument("--timeout", metavar="SECONDS", type=float, default=600.0, help="how long one job may take")
    made.add_argument("--state", metavar="FILE", type=Path, help="where finished rows are kept, and read from")
    made.add_argument("--json", action="store_true", help="print the rows as JSON")
    made.add_argument("--page", metavar="FILE", help="write the rows as a page")
    terminal.add_color(made)
    return made


def page_of(rows: list[Row], job: str) -> str:
    from . import show

    listed = [{"result": it.result, "project": it.folder, "said": it.text, "seconds": it.seconds} for it in rows]
    root = f"{job}: {counts(it.result for it in rows)}"
    return show.page({"root": root, "projects": listed, "packages": [], "machines": [], "forks": []})


def show_rows(rows: list[Row], asked: argparse.Namespace) -> None:
    screen = Screen(asked.color)
    if asked.json:
        print(json.dumps([asdict(it) for it in rows], indent=1))
        return
    if screen.has_columns:
        screen.table([asked.job, "project", "said", "seconds"], map(cells_of, rows))
    else:
        print("\n".join(map(line_of, rows)))
    console.say(counts(it.result for it in rows))


def run(asked: argparse.Namespace) -> int:
    if asked.send and asked.job == "lock":
        raise Refused("`lock` writes each project's lock, so its files can't be sent", 2)
    if asked.send and not asked.scheduler:
        raise Refused("--send is for workers of a cluster, which --scheduler names", 2)
    sums, state = Sums(), State.of(asked.state)
    tasks, archives = tasks_of(asked, projects(asked.paths, asked.job), sums)
    reads = {task.folder: read for task, read in tasks}
    rows = [row for task, read in tasks if (row := state.kept(task, read)) is not None]
    kept = {it.folder for it in rows}
    tally: Counter[str] = Counter()

    def told(row: Row) -> None:
        # A job that writes a lock leaves another one than it read.
        is_changed = row.job == "lock" and is_read_summed(asked)
        read = sums.read_by(Path(row.folder), indexes[row.folder], "lock") if is_changed else reads[row.folder]
        rows.append(replace(row, read=read))
        state.keep(rows[-1])
        tally[row.result] += 1
        meter.show(tally.total(), len(left), counts(tally))

    left = [task for task, _ in tasks if task.folder not in kept]
    indexes = {task.folder: task.index for task in left}
    with Meter(f"many {asked.job}", "project", asked.color) as meter:
        if asked.scheduler:
            on_cluster(left, asked.scheduler, archives, told)
        else:
            on_this_machine(left, max(1, asked.workers), told)
    rows.sort(key=lambda it: it.folder)
    show_rows(rows, asked)
    if asked.page:
        console.write_beside(asked.page, page_of(rows, asked.job).encode())
    return 0 if all(it.result == RIGHT for it in rows) else 1


def main(words: list[str] | None = None) -> int:
    asked = parser().read(words)
    return console.ended("many", lambda: run(asked))
