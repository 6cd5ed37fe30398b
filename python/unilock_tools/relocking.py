"""Locking a project that has a lock: one that is right stays, and else as little as may be changes.

The program's `relock` answers with the old lock itself where that is right, its files renewed, and else with the lock
that keeps its versions or, where that can't be, with a new one. A program that doesn't have that word yet is asked by
the three words that it is composed of.

Where the old lock isn't right any more several locks may be: the old one brought to the project (`mending`), one that
has its versions as constraints (`pinned`), the one that prefers them, one that prefers all but what is wrong, and a new
one. The least change is taken, by how many pairs of a machine and a package get another version, and then by how many
come or go. Each is an answer of the program.
"""

from __future__ import annotations

import os
import tempfile
from pathlib import Path
from typing import Iterator, List, NamedTuple, Optional, Set

from . import documents, locks, mending, pinned, program, project, verdicts, worlds
from .console import Refused
from .locks import Lock
from .program import Answer

USAGE = "usage: "
# How many of the packages that aren't right are left out of the old lock one after the other.
MOST_LEFT_OUT = 3
# How often versions that clash are let go of.
MOST_ROUNDS = 4
REFUSED_READINGS = (3, 5, 7)
REFUSED, REJECTED = 1, 9


def cores() -> int:
    """The cores that this process may use, as a number of workers."""
    try:
        count = len(os.sched_getaffinity(0))
    except AttributeError:
        count = os.cpu_count() or 1
    return max(1, min(64, count))


class Files(NamedTuple):
    """What a call of the program is about."""

    project: str
    folder: str
    workers: int

    def words(self, command: str, *more: str) -> List[str]:
        return [command, self.project, self.folder, str(self.workers), *more]

    def locked(self, *old: str) -> Answer:
        return program.answer(self.words("lock", *old))

    def verdict(self, lock: str) -> Answer:
        return program.answer(["verify", self.project, self.folder, lock])


def relocked(files: Files, old: str) -> Answer:
    """What `relock` answers with an old lock."""
    answered = program.answer(files.words("relock", old))
    if answered.status != 2 or not answered.text.startswith(USAGE):
        return answered
    kept = renewed(files, old) if files.verdict(old).status == 0 else None
    if kept is not None:
        return Answer(0, kept, kept.encode("utf-8"))
    answered = files.locked(old)
    return answered if answered.status in (0, *REFUSED_READINGS) else files.locked()


def renewed(files: Files, old: str) -> Optional[str]:
    """A verified lock with the files of the documents, or None where its root has an extra that nobody asks for."""
    text = Path(old).read_text(encoding="utf-8")
    lock = locks.read(text, old)
    if set(lock.root_package().extras) - asked_extras(lock) - set(project.load(files.project).extras()):
        return None
    head, *blocks = locks.blocks_of(text)
    entries = {}
    for package in lock.packages:
        found = documents.releases_of(documents.load(files.folder, package.name)) if package.name != lock.root else []
        same = [entry for spelled, entry in found if verdicts.same_version(spelled, package.version)]
        entries[package.name, package.version] = verdicts.files_of(same[0] if same else None)
    blocks = [locks.with_files(it, entries[locks.block_key(it)]) for it in blocks]
    return "\n\n".join([head.replace("version = 1", "version = 2", 1), *blocks])


def asked_extras(lock: Lock) -> Set[Optional[str]]:
    """The extras of the root that some edge of the lock asks for."""
    return {edge.extra for it in lock.packages for _, edge in it.all_edges() if edge.name == lock.root}


class Change(NamedTuple):
    """A lock in the place of the old one, and what was wrong with that (empty: nothing, or it isn't known)."""

    answer: Answer
    faults: List[verdicts.Fault]


def kept(files: Files, old: str, lock: Optional[Lock]) -> Change:
    """The answer that keeps an old lock where it is right, and else changes it least; `lock` is None where it has no
    reading."""
    answered = relocked(files, old)
    is_same = answered.status not in (0, REFUSED) or answered.body == Path(old).read_bytes()
    if is_same or lock is None or files.verdict(old).status != REJECTED:
        return Change(answered, [])
    return changed(files, old, lock, answered)


def changed(files: Files, old: str, lock: Lock, answered: Answer) -> Change:
    """The answer with the least change from an old lock that is rejected.

    Where no lock can be made anew, one that keeps all old versions may still be right.
    """
    try:
        wanted = project.load(files.project)
        judge = verdicts.Judge(wanted, files.folder, lock)
        faults = list(judge.faults())
        if answered.status == REFUSED:
            found = list(keeping(files, old, lock, judge, 1))
        else:
            found = [answered, *keeping(files, old, lock, judge, MOST_ROUNDS), *others(files, old, lock, faults)]
        bound = wanted.requires_python
        counted = [(worlds.difference(lock, locks.read(it.text, old), bound), k) for k, it in enumerate(found)]
    except Refused:
        # Without a reader of TOML, or where a document has no reading here, the program's own answer stands.
        return Change(answered, [])
    return Change(found[min(counted)[1]] if counted else answered, faults)


def keeping(files: Files, old: str, lock: Lock, judge: verdicts.Judge, rounds: int) -> Iterator[Answer]:
    """Locks of the old versions that the program accepts: the old one brought to the project, and one that has them as
    constraints of it."""
    with tempfile.TemporaryDirectory(prefix="unilock-") as held:
        path = Path(held) / Path(old).name
        brought = mending.mended(Path(old).read_text(encoding="utf-8"), old, judge.project)
        for text in (brought, with_pins(files, old, lock, judge, rounds)):
            if text is not None:
                path.write_bytes(text.encode("utf-8"))
                if files.verdict(str(path)).status == 0:
                    yield relocked(files, str(path))


def with_pins(files: Files, old: str, lock: Lock, judge: verdicts.Judge, rounds: int) -> Optional[str]:
    """The lock of the project with the versions that may still be taken as its constraints."""
    with tempfile.TemporaryDirectory(prefix="unilock-") as held:
        pinned_files = files._replace(project=str(Path(held) / "pyproject.toml"))

        def locked(text: str) -> Answer:
            Path(pinned_files.project).write_text(text, encoding="utf-8")
            return pinned_files.locked(old)

        try:
            given = mending.presence(lock, old)
            for package in lock.packages:
                if package.name != lock.root and judge.eligible(package) is not None:
                    given.get(package.name, {}).pop(package.version, None)
            return pinned.locked(judge.project, given, rounds, locked)
        except Refused:
            return None


def others(files: Files, old: str, lock: Lock, faults: List[verdicts.Fault]) -> Iterator[Answer]:
    """The locks that prefer all old versions but those that aren't right, and the one without the old lock."""
    with tempfile.TemporaryDirectory(prefix="unilock-") as held:
        path = Path(held) / Path(old).name
        for count in range(1, 1 + min(len(faults), MOST_LEFT_OUT)):
            path.write_bytes(locks.preferences(lock, [it.name for it in faults[:count]]).encode("utf-8"))
            answered = files.locked(str(path))
            if answered.status == 0:
                yield answered
    anew = files.locked()
    if anew.status == 0:
        yield anew
