"""The project itself, as `sync` installs it behind what its lock lists: editable, so that a change of its sources needs
no further command.

As uv does, a project is a package where its file has a `[build-system]`, or says `tool.uv.package = true`; another one
is a list of requirements, and isn't installed. It is built by its own build system, in an environment of pip's making.
"""

from __future__ import annotations

import hashlib
import json
from pathlib import Path
from typing import Any, NamedTuple

from . import project, source_trees
from .console import Refused
from .locks import Lock

# In the environment: the state of the project that was installed there.
STAMP = ".unilock-project"
# What an editable installation hangs on beside the project's sources.
HANGS_ON = ("pyproject.toml", "setup.cfg", "setup.py")


class Own(NamedTuple):
    """A project that can be installed."""

    folder: Path
    name: str
    version: str
    editable: bool

    def line(self, verb: str) -> str:
        return f"{verb} {self.name} {self.version} (this project{', editable' if self.editable else ''})"

    def words(self) -> list[str]:
        """pip's words for it."""
        return ["install", "--no-deps", *(["--editable"] if self.editable else ["--force-reinstall"]), str(self.folder)]

    def stamp(self) -> str:
        summed = hashlib.sha256()
        for name in HANGS_ON:
            path = self.folder / name
            summed.update(f"{name} {path.stat().st_size}\n".encode() + path.read_bytes() if path.is_file() else b"")
        return json.dumps({"folder": str(self.folder), "editable": self.editable, "sha256": summed.hexdigest()}) + "\n"

    def is_installed(self, environment: Path, there: dict[str, str]) -> bool:
        """Whether an environment has it as it is now, which can be told of an editable one alone."""
        path = environment / STAMP
        try:
            return self.editable and self.name in there and path.read_text(encoding="utf-8") == self.stamp()
        except OSError:
            return False


def found(path: Path, tables: dict[str, Any], lock: Lock, editable: bool) -> Own | None:
    """The project of a file with these tables beside a lock, where it is a package."""
    if "project" not in tables or not source_trees.is_package(tables):
        return None
    read = project.Project(str(path), source_trees.without_urls(tables))
    if read.name != lock.root:
        other = f"{path} is the project {read.name}, and the lock is that of {lock.root}"
        raise Refused(f"{other}; --no-project leaves it out")
    return Own(path.resolve().parent, read.name, lock.root_package().version, editable)
