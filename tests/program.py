"""The program under test: where it is and what it says.

The variable UNILOCK names another program than the one that is built here. Where there is none, tests of it are
skipped.
"""

from __future__ import annotations

import concurrent.futures
import os
import subprocess
from pathlib import Path
from typing import Iterable, NamedTuple

import making

PROGRAM = making.PROGRAM.resolve()
# A call takes milliseconds; the slowest program under test (one that checks as it runs) on a busy machine a minute.
PATIENCE = 600
CALLS_AT_ONCE = os.cpu_count() or 1


class Said(NamedTuple):
    """How a call ended and what it printed. A status below 0 is a signal."""

    status: int
    text: str
    errors: str


class Call(NamedTuple):
    """Words, and the folder in which they are said."""

    folder: Path
    words: tuple

    def __str__(self) -> str:
        return f"{self.folder.name}: unilock {' '.join(self.words)}"


def call(folder: Path, words: str) -> Call:
    return Call(folder, tuple(words.split()))


def said(it: Call) -> Said:
    done = subprocess.run([str(PROGRAM), *it.words], cwd=it.folder, capture_output=True, timeout=PATIENCE)
    return Said(done.returncode, done.stdout.decode("utf-8", "replace"), done.stderr.decode("utf-8", "replace"))


def all_said(calls: Iterable[Call]) -> dict:
    """What each call says; they run side by side."""
    calls = list(dict.fromkeys(calls))
    with concurrent.futures.ThreadPoolExecutor(CALLS_AT_ONCE) as pool:
        return dict(zip(calls, pool.map(said, calls)))
