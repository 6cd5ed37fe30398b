"""An index folder with the releases that come from sources, as they are now, in place of what it has of their names;
where a name has sources that are indexes too, beside what it has from those.

A folder on disk or a member of the workspace may have changed since the index folder was made; what it says today
counts. Where the folder has all of it as it is, it serves itself.
"""

from __future__ import annotations

import argparse
import contextlib
import json
import os
import tempfile
from collections.abc import Iterator
from pathlib import Path

from . import direct_files, documents, locks
from .assembled import Given
from .cache import Cache, usual_folder
from .console import Refused
from .direct import Direct, commits_of, led_to
from .documents import Document, Projects
from .labels import DIRECT


@contextlib.contextmanager
def overlaid(index: str, direct: Direct | None) -> Iterator[str]:
    """A folder that has the documents of another, and those of sources."""
    projects = Projects() if direct is None else direct.projects()
    made = {name: beside(index, it) if name in projects.beside else it for name, it in projects.documents().items()}
    if all(is_same(index, name, it) for name, it in made.items()):
        yield index
        return
    with tempfile.TemporaryDirectory(prefix="unilock-index-") as held:
        for path in Path(index).resolve().glob("*.json"):
            if path.stem not in made:
                os.symlink(path, Path(held) / path.name)
        for name, it in made.items():
            (Path(held) / f"{name}.json").write_text(json.dumps(it), encoding="utf-8")
        yield held


def beside(index: str, made: Document) -> Document:
    """A document of what no index has, with what another folder has of its name from indexes."""
    there = documents.load(index, made["name"])
    versions = {documents.key_of(it["version"]) for it in made["versions"]}
    others = [] if there is None else [it for it in there["versions"] if it.get("source") != DIRECT]
    kept = [it for it in others if documents.key_of(str(it["version"])) not in versions]
    readable = [(key, it) for it in [*kept, *made["versions"]] if (key := documents.key_of(it["version"])) is not None]
    unread = [it for it in kept if documents.key_of(it["version"]) is None]
    return {**made, "versions": [*unread, *(it for _, it in sorted(readable, key=lambda pair: pair[0]))]}


def is_same(index: str, name: str, document: Document) -> bool:
    return documents.load(index, name) == document


@contextlib.contextmanager
def of_given(given: Given, index: str, lock: str) -> Iterator[str]:
    """The folder for a command that asks no package index: what it lacks of sources is looked for at the lock's
    commits. Nothing is built but folders of this machine."""
    if given.workspace is None or not os.path.isdir(index):
        yield index
        return
    asked = argparse.Namespace(build=[], build_all=False, no_build=False)
    means = direct_files.means_of(asked, Cache(usual_folder()), None)
    known = locks.load(lock) if os.path.isfile(lock) else None
    means.known, means.kept = Path(index), commits_of(known)
    also = led_to(given.workspace, Path(index))
    with overlaid(index, Direct(given.workspace, means, also).gather()) as folder:
        try:
            yield folder
        except Refused as fault:
            raise Refused(str(fault).replace(folder, index), fault.status) from None
