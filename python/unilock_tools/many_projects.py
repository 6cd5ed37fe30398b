"""Which projects `many` is about, and the sums of what its jobs read."""

from __future__ import annotations

import hashlib
import os
from collections.abc import Iterable, Iterator
from pathlib import Path

from .console import Refused

PROJECT, LOCK, INDEX = "pyproject.toml", "unilock.lock", "ix"
# The locks of other tools; of a project that has several the first is judged.
OTHERS = ("uv.lock", "poetry.lock", "pdm.lock", "pylock.toml", "requirements.txt")
HIDDEN = {".git", ".venv", "node_modules", "__pycache__"}


def lock_name(folder: Path, job: str) -> str:
    """The name of the lock that a job is about, or nothing where the folder has none."""
    names = OTHERS if job == "judge" else (LOCK,)
    return next((it for it in names if (folder / it).is_file()), "")


def below(top: Path, job: str) -> Iterator[Path]:
    for at, folders, files in os.walk(top):
        is_project = PROJECT in files and bool(lock_name(Path(at), job))
        # The documents of a project's own index folder are many, and no projects.
        passed_over = HIDDEN | {INDEX} if is_project else HIDDEN
        folders[:] = sorted(it for it in folders if it not in passed_over)
        if is_project:
            yield Path(at)


def projects(paths: Iterable[str], job: str) -> list[Path]:
    """The projects of folders and of lists, each once."""
    found: dict[Path, None] = {}
    for text in paths:
        path = Path(text)
        if path.is_dir():
            found.update(dict.fromkeys(it.resolve() for it in below(path, job)))
        elif path.is_file():
            for line in path.read_text(encoding="utf-8").splitlines():
                if line.strip() and not line.startswith("#"):
                    found[(path.parent / line.strip()).resolve()] = None
        else:
            raise Refused(f"{text}: there is no such folder or list", 3)
    if not found:
        wanted = "a lock of another tool" if job == "judge" else "an unilock.lock"
        raise Refused(f"no folder with a pyproject.toml and {wanted}", 3)
    return list(found)


def digest_of_folder(folder: Path) -> str:
    """The sum of the documents of an index folder."""
    lines = [f"{hashlib.sha256(it.read_bytes()).hexdigest()} {it.name}\n" for it in sorted(folder.glob("*.json"))]
    return hashlib.sha256("".join(lines).encode()).hexdigest()


class Sums:
    """The sums of what jobs read; that of an index that projects share is made once."""

    def __init__(self) -> None:
        self.indexes: dict[str, str] = {}

    def index(self, folder: str) -> str:
        if folder not in self.indexes:
            self.indexes[folder] = digest_of_folder(Path(folder))
        return self.indexes[folder]

    def read_by(self, folder: Path, index: str, job: str) -> str:
        found = hashlib.sha256(self.index(index).encode())
        for name in (PROJECT, lock_name(folder, job) or LOCK):
            found.update(name.encode())
            path = folder / name
            found.update(hashlib.sha256(path.read_bytes() if path.is_file() else b"").digest())
        return found.hexdigest()
