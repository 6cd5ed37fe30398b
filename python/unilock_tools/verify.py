"""Judges a lock that somebody hands in: whether it is right for the project, and whether its files are the index's.

The first is the program's verdict: `verified` where on each machine that the project supports the lock gives one
version of each package, fit and eligible, and exactly what is required there. `rejected: a 1.0` is followed by the
requirement, a machine and what the lock gives there. File names and hashes aren't part of that verdict; they are
compared with the documents of the index folder: `a 1.0: hash of a-1.0-py3-none-any.whl isn't the index's`.

Needs a reader of TOML: Python 3.11, or the library `tomli`. Status: 0 the lock is right and its
files are the index's; 2 the words aren't right; 3 to 7 as the program's; 9 the lock is rejected, or a file isn't the
index's; 70 the program can't be built.
"""

from __future__ import annotations

import argparse
import contextlib
from typing import Iterator, List, Optional

from . import assembled, console, locks, overlaid, own_index, places, printing, program, project, verdicts
from .console import Refused
from .terminal import Screen, add_color

REJECTED = 9


def parser() -> console.Parser:
    made = console.Parser("verify", __doc__)
    made.add_argument(
        "project", metavar="PROJECT", nargs="?", default="pyproject.toml", help="the project file (pyproject.toml)"
    )
    made.add_argument(
        "index", metavar="INDEX", nargs="?", help="the index folder (`ix` beside the project, or what `lock` keeps)"
    )
    made.add_argument("lock", metavar="LOCK", nargs="?", help="the lock (`unilock.lock` beside the project)")
    add_color(made)
    return made


def lines(asked: argparse.Namespace, answered: program.Answer) -> Iterator[str]:
    """The program's verdict in words, then what is wrong with files."""
    lock = locks.load(asked.lock)
    judge = verdicts.Judge(project.load(asked.project), asked.index, lock)
    verdict = answered.text.rstrip("\n")
    if answered.status == REJECTED:
        yield f"{verdict}: {judge.reason(verdict.partition(': ')[2])}"
    faults = list(judge.file_faults())
    yield from faults
    if answered.status == 0:
        files = sum(len(it.files) for it in lock.packages)
        good = f", and all its files are the index's ({files})" if files else ""
        yield verdict + (", but for its files" if faults else good)


def run(asked: argparse.Namespace) -> int:
    with contextlib.ExitStack() as held:
        given = held.enter_context(assembled.given(asked.project))
        lock = asked.lock or given.lock
        index = held.enter_context(overlaid.of_given(given, asked.index or own_index.usual_of(given), lock))
        status = judged(argparse.Namespace(project=given.project, index=index, lock=lock, color=asked.color))
    return status


def judged(asked: argparse.Namespace) -> int:
    with locks.program_form(asked.lock) as path:
        answered = program.answer(["verify", asked.project, asked.index, path])
    if answered.status not in (0, REJECTED):
        text = program.fault_text(answered)
        told = places.told(text.replace(f" {path}: ", f" {asked.lock}: ")) or [text]
        raise Refused("\n  ".join(told), answered.status)
    found = list(lines(asked, answered))
    is_right = answered.status == 0 and len(found) == 1
    screen = Screen(asked.color)
    for line in found:
        screen.told(printing.wrapped(line), "good" if is_right else "bad", "," if is_right else ":")
    return 0 if is_right else REJECTED


def main(words: Optional[List[str]] = None) -> int:
    asked = parser().read(words)
    return console.ended("verify", lambda: run(asked))
