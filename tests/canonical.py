"""Canonical texts of markers, made by trying all environments, in the place of the program's word `marker`.

A program that has the word answers itself.
"""

from __future__ import annotations

import contextlib
import functools
import subprocess
import tempfile
from pathlib import Path
from typing import Iterator, List, Optional
from unittest import mock

import plain
from cells import Cells
from making import PROGRAM
from unilock_tools import program


@functools.lru_cache(maxsize=None)
def has_word() -> bool:
    """Whether the program under test has the word `marker`."""
    with tempfile.TemporaryDirectory() as held:
        path = Path(held) / "markers.txt"
        path.write_text("os_name == 'nt'\n")
        return subprocess.run([str(PROGRAM), "marker", str(path)], capture_output=True, check=False).returncode == 0


@functools.lru_cache(maxsize=None)
def canonical(text: str) -> str:
    """The canonical text of a marker; a text without a reading is refused by `plain.NoReading`."""
    if text in ("*", "never"):
        return text
    read = plain.marker(text)
    cells = Cells([read], [])
    tree = cells.tree(cells.truth(read, ""))
    return "never" if tree is False else cells.text(tree)


def answered(path: str) -> program.Answer:
    """What the program answers to `marker FILE`."""
    lines = []
    for number, text in enumerate(Path(path).read_text(encoding="ascii").splitlines(), 1):
        try:
            lines.append(canonical(text) + "\n")
        except plain.NoReading:
            fault = f"malformed: {path}: line {number}\n"
            return program.Answer(3, fault, fault.encode())
    return program.Answer(0, "".join(lines), "".join(lines).encode())


@contextlib.contextmanager
def word() -> Iterator[None]:
    """Within it `program.answer` knows the word `marker`."""
    if has_word():
        yield
        return
    real = program.answer

    def answer(words: List[str], folder: Optional[str] = None) -> program.Answer:
        return answered(words[1]) if words[0] == "marker" else real(words, folder)

    with mock.patch.object(program, "answer", answer):
        yield
