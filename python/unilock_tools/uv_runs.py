"""uv in the place of pip, as it brings a virtual environment to what a list of requirements says (`uv pip sync`).

It removes what the list doesn't have, and checks the hashes that stand in it.
"""

from __future__ import annotations

import contextlib
import shutil
import subprocess
import tempfile
from collections.abc import Mapping
from pathlib import Path
from typing import NamedTuple

from . import placed
from .console import Refused
from .direct_files import Means
from .index_settings import Variables
from .own_project import Own
from .pip_runs import Pip
from .placed import Sourced

LOG = "uv.log"


class Uv(Pip):
    """The program `uv` for the environment of a folder, whose interpreter is `python`."""

    name = "uv"
    variables = Variables(
        "UV_DEFAULT_INDEX", "UV_INDEX", "UV_FIND_LINKS", ",", {"UV_INDEX_STRATEGY": "unsafe-best-match"}, False
    )

    def __init__(self, folder: str, python: str) -> None:
        program = shutil.which("uv")
        if program is None:
            raise Refused("--installer uv: the program uv isn't on the path", 3)
        self.python, self.folder = python, Path(folder)
        self.log = self.folder / LOG
        self.line, self.begun = [program, "pip"], False

    def done(
        self, words: list[str], settings: Mapping[str, str] | None = None
    ) -> subprocess.CompletedProcess[bytes]:
        return super().done([words[0], "--python", self.python, *words[1:]], settings)


class Wanted(NamedTuple):
    """What an environment is to have: packages of an index, by their lines, packages of sources, and the project."""

    lines: str
    sourced: list[Sourced]
    own: Own | None


def sync(uv: Uv, wanted: Wanted, means: Means, words: list[str], indexes: Mapping[str, str]) -> None:
    """Has uv bring the environment to what is wanted."""
    own = wanted.own
    with tempfile.TemporaryDirectory(prefix="unilock-") as held, contextlib.ExitStack() as opened:
        lines = [wanted.lines]
        for it in wanted.sourced:
            spec = f"-e {it.own.folder.as_uri()}" if it.editable else opened.enter_context(placed.taken(it, means))
            lines.append(f"{spec}\n")
        if own is not None:
            lines.append(f"-e {own.folder.as_uri()}\n" if own.editable else f"{own.name} @ {own.folder.as_uri()}\n")
        path = Path(held) / "requirements.txt"
        path.write_text("".join(lines), encoding="utf-8")
        uv.run(["sync", *words, str(path)], indexes)
