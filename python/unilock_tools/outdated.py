"""Lists the packages of a lock of which the index folder has a newer version, with what holds each back.

Newer is the newest release that can be used, isn't yanked and is no pre-release (but where all are, or the locked one
is). Where the project file stands beside the lock, or --project names it, its own requirements count among what holds a
package back; so does its bound on Python, where an interpreter that the lock supports doesn't keep it.

Needs the standard library; with a project file a reader of TOML; `rich` for colours and columns. Status: 0 nothing is
newer; 1 something is; 2 the words aren't right; 3 the lock or the index can't be read.
"""

from __future__ import annotations

import argparse
import os
from typing import Iterator, List, NamedTuple, Optional, Tuple

from . import (
    assembled, chosen, console, documents, folders, labels, locks, markers, own_index, project, scripts, terminal,
    worlds,
)  # fmt: skip
from .called import command
from .console import Refused
from .locks import Lock, Package
from .machine import PLATFORMS
from .readings import Requirement, requirement_of
from .terminal import Part, Screen
from .verdicts import bound_holds
from .versions import NoReading, Version, meets, specifiers_of, version, version_of


def parser() -> console.Parser:
    made = console.Parser("outdated", __doc__)
    made.add_argument("lock", metavar="LOCK", nargs="?", default=chosen.USUAL, help=f"the lock ({chosen.USUAL})")
    made.add_argument(
        "index", metavar="INDEX", nargs="?", help="the index folder (`ix` beside the lock, or what `lock` keeps there)"
    )
    made.add_argument(
        "--project", metavar="PROJECT", help="the project file (pyproject.toml beside the lock, where it is there)"
    )
    console.add_json(made)
    terminal.add_color(made)
    return made


def newest(name: str, locked: Version, index: str) -> Optional[Tuple[str, Version]]:
    """The newest version of a package that counts, of those that come from the same source."""
    known, sources = [], {}
    for spelled, entry in documents.releases_of(documents.load(index, name)):
        found = version(spelled)
        yanked = entry.get("yanked")
        if found is not None:
            sources[found.key] = labels.source_of(entry)
        if found is not None and yanked is not True and not isinstance(yanked, str):
            known.append((spelled, found))
    if locked.key in sources:
        known = [it for it in known if sources[it[1].key] == sources[locked.key]]
    final = [it for it in known if not it[1].is_pre]
    counted = known if locked.is_pre or not final else final
    return max(counted, key=lambda it: it[1].key) if counted else None


class Holders:
    """What holds a package back: what the packages that the lock gives with it require, and its own bound on Python."""

    def __init__(self, lock: Lock, index: str, read: Optional[project.Project]) -> None:
        self.lock, self.index, self.project = lock, index, read

    def users(self, package: Package) -> Iterator[Package]:
        for other in self.lock.packages:
            if any((edge.name, edge.version) == (package.name, package.version) for _, edge in other.all_edges()):
                yield other

    def requirements(self, user: Package) -> List[Requirement]:
        if user.name == self.lock.root:
            found = self.project
            return [] if found is None else [
                it.requirement for it in [*found.requirements, *found.constraints, *found.overrides]
            ]
        wanted = version_of(user.version).key
        for spelled, entry in documents.releases_of(documents.load(self.index, user.name)):
            if version_of(spelled).key == wanted:
                return [requirement_of(it) for it in entry.get("requires_dist") or []]
        return []

    def of(self, package: Package, wanted: Version) -> List[str]:
        found = []
        for user in self.users(package):
            who = "the project" if user.name == self.lock.root else f"{user.name} {user.version}"
            for one in self.requirements(user):
                if one.name == package.name and not meets(one.clauses, wanted):
                    found.append(f"{who} asks for `{one.text}`")
        return [*sorted(set(found)), *self.bound(package, wanted)]

    def bound(self, package: Package, wanted: Version) -> Iterator[str]:
        """That an interpreter which the lock supports doesn't keep the newer release's bound."""
        bound = next((
            str(entry.get("requires_python") or "")
            for spelled, entry in documents.releases_of(documents.load(self.index, package.name))
            if version_of(spelled).key == wanted.key
        ), "")  # fmt: skip
        points = markers.python_points(worlds.marker_of(self.lock.supported), bound)
        if not all(bound_holds(specifiers_of(bound), it) for it in points if self.supports(it)):
            yield f"it needs Python `{bound}`"

    def supports(self, python: str) -> bool:
        """Whether the lock is made for an interpreter, on some machine."""
        return any(worlds.holds(self.lock.supported, worlds.machine_of(it, python)) for it in PLATFORMS)


class Newer(NamedTuple):
    """A package of the lock that has a newer version, and what holds it back."""

    name: str
    version: str
    newest: str
    held_by: List[str]

    def line(self) -> str:
        held = f"  ({'; '.join(self.held_by)})" if self.held_by else ""
        return f"{self.name} {self.version} -> {self.newest}{held}"

    def row(self) -> List[Part]:
        held = Part("; ".join(self.held_by), "changed") if self.held_by else Part("nothing", "good")
        return [Part(self.name, "name"), Part(self.version, "quiet"), Part(self.newest, "version"), held]


def newer(lock: Lock, index: str, read: Optional[project.Project]) -> Iterator[Newer]:
    holders = Holders(lock, index, read)
    for package in lock.packages:
        if package.name == lock.root:
            continue
        locked = version_of(package.version)
        found = newest(package.name, locked, index)
        if found is not None and found[1].key > locked.key:
            yield Newer(package.name, package.version, found[1].text(), holders.of(package, found[1]))


def loaded(path: str) -> project.Project:
    with assembled.given(path) as given:
        return project.load(given.project)


def run(asked: argparse.Namespace) -> int:
    beside, script = os.path.dirname(asked.lock), scripts.of_lock(asked.lock)
    index = asked.index or own_index.usual_for(asked.lock)
    if not os.path.isdir(index):
        raise Refused(f"{index}: there is no such folder; `{command('index')} pyproject.toml {index}` makes it", 3)
    if folders.is_of_tried(index):
        whole = f"`{command('index')} {script or 'pyproject.toml'} ix` makes a folder of all"
        console.say(f"outdated: {index} has the releases that were tried alone; {whole}")
    usual = os.path.join(beside, "pyproject.toml")
    path = asked.project or (usual if script is None and os.path.isfile(usual) else None)
    try:
        lock = locks.load(asked.lock)
        found = list(newer(lock, index, None if path is None else loaded(path)))
    except (NoReading, Refused) as fault:
        raise Refused(str(fault) if isinstance(fault, Refused) else f"{asked.lock}: {fault}", 3) from None
    screen = Screen(asked.color)
    if asked.json:
        console.print_object({"packages": [it._asdict() for it in found]})
    elif found and screen.has_columns:
        screen.table(["package", "locked", "newest", "held back by"], (it.row() for it in found))
    else:
        for one in found:
            print(one.line())
    return 1 if found else 0


def main(words: Optional[List[str]] = None) -> int:
    asked = parser().read(words)
    return console.ended("outdated", lambda: run(asked))
