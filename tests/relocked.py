"""What must hold of locking a drawn project again, for the fuzzer: a lock that is right stays, none does harm.

- A second `tools/lock` changes nothing.
- After a requirement is added that the lock's versions meet, no version changes: one on a name that the lock gives on
  every machine, or on every machine of a platform for that platform alone, from the oldest of its versions on or any.
- After one is left out, no version of what stays does: one that names no pre-release and pins no version, since such a
  one is what makes a pre-release or a yanked version eligible.
- A project that can be locked without an old lock is locked with any.

`tools/fuzz --relock` asks this alone of the projects that are drawn.
"""

from __future__ import annotations

import os
import random
import tempfile
from contextlib import contextmanager
from pathlib import Path
from typing import Any, Callable, Dict, Iterator, List, NamedTuple, Optional, Tuple
from unittest import mock

import drawn
import program as under_test
from unilock_tools import documents, locks, program, project, project_text, relocking, vendored, worlds
from unilock_tools.console import Refused
from unilock_tools.readings import requirement_of
from unilock_tools.versions import version, version_of

# Of these answers none names a file.
REMEMBERED = (0, relocking.REFUSED, relocking.REJECTED)


class Finding(Exception):
    """An answer for which something doesn't hold that must."""


def must(holds: bool, rule: str) -> None:
    if not holds:
        raise Finding(rule)


class Again:
    """A project that was locked, in a folder of its own, which is locked again after a change."""

    def __init__(self, folder: Path) -> None:
        os.environ["UNILOCK"] = str(under_test.PROGRAM)
        self.folder = folder
        self.tables: Dict[str, Any] = vendored.toml_of(str(folder / "pyproject.toml"))
        self.text = (folder / "made.lock").read_text(encoding="utf-8")
        self.lock = locks.read(self.text, "made.lock")
        self.bound = project.load(str(folder / "pyproject.toml")).requires_python

    def made(self, tables: Optional[Dict[str, Any]], old: str) -> Optional[locks.Lock]:
        """The lock of the project, or of one with other tables, with an old lock; None where nothing serves."""
        path = self.folder / "pyproject.toml"
        if tables is not None:
            path = self.folder / "changed.toml"
            path.write_text(project_text.toml_text(tables), encoding="utf-8")
        kept = self.folder / "kept.lock"
        kept.write_text(old, encoding="utf-8", newline="\n")
        files = relocking.Files(str(path), str(self.folder / "ix"), 1)
        answered = relocking.kept(files, str(kept), locks.read(old, "kept.lock")).answer
        return locks.read(answered.text, "the lock") if answered.status == 0 else None

    def walks(self) -> List[Tuple[worlds.Machine, worlds.Walked]]:
        """What the lock gives on each machine that it is for."""
        found = worlds.machines(worlds.marker_texts(self.lock), self.bound)
        return [(it, worlds.Walked(self.lock, it)) for it in found if worlds.holds(self.lock.supported, it)]

    def versions_stay(self, new: locks.Lock, rule: str) -> None:
        """No package that is given before and after has another version on a machine."""
        texts = worlds.marker_texts(self.lock) | worlds.marker_texts(new)
        for machine in worlds.machines(texts, self.bound):
            if worlds.holds(self.lock.supported, machine):
                before, after = (worlds.Walked(it, machine).versions() for it in (self.lock, new))
                changed = [it for it in before if it in after and before[it] != after[it]]
                must(not changed, f"{rule}: {changed} on {worlds.described(machine)}")

    def twice(self) -> None:
        files = relocking.Files(str(self.folder / "pyproject.toml"), str(self.folder / "ix"), 1)
        again = relocking.kept(files, str(self.folder / "made.lock"), self.lock).answer
        must(again.text == self.text, f"a lock that is right isn't kept: {again.text[:300]!r}")

    def added(self, rng: random.Random) -> None:
        listed = self.tables["project"].get("dependencies", [])
        walks = self.walks()
        platform = rng.choice(["", *sorted({machine["sys_platform"] for machine, _ in walks})])
        given = [walked.versions() for machine, walked in walks if platform in ("", machine["sys_platform"])]
        names = sorted(set.intersection(*map(set, given))) if given else []
        if not names or not isinstance(listed, list):
            return
        name = rng.choice(names)
        oldest = min({it for found in given for it in found[name]}, key=lambda it: version_of(it).key)
        text = rng.choice([name, f"{name}>={oldest}"]) + (f"; sys_platform == '{platform}'" if platform else "")
        new = self.made(project_text.changed(self.tables, "project.dependencies", [*listed, text]), self.text)
        if new is not None:
            self.versions_stay(new, f"after {text!r} is added versions change")

    def removed(self, rng: random.Random) -> None:
        listed = self.tables["project"].get("dependencies", [])
        if not listed or not isinstance(listed, list):
            return
        at = rng.randrange(len(listed))
        if any(it.op == "==" or it.version.is_pre for it in requirement_of(listed[at]).clauses):
            return
        left = listed[:at] + listed[at + 1 :]
        new = self.made(project_text.changed(self.tables, "project.dependencies", left), self.text)
        if new is not None:
            self.versions_stay(new, f"after {listed[at]!r} is left out versions change")

    def any_old_lock(self, rng: random.Random) -> None:
        chosen: Dict[str, str] = {}
        for name in sorted(set(self.lock.by_name()) - {self.lock.root}):
            known = [spelled for spelled, _ in documents.releases_of(documents.load(str(self.folder / "ix"), name))]
            if known:
                chosen[name] = rng.choice(known)
        old = locks.preferences(self.lock, [], {name: normal_text(it) for name, it in chosen.items()})
        must(self.made(None, old) is not None, f"it is locked, but not with the old lock {chosen}")


def normal_text(spelled: str) -> str:
    read = version(spelled)
    return spelled if read is None else read.text()


def ask(folder: Path, rng: random.Random) -> None:
    """Asks all of a project in a folder that has its lock as `made.lock`; what the tools don't read is passed over."""
    try:
        again = Again(folder)
    except Refused:
        return
    steps: List[Callable[[], None]] = [
        again.twice, lambda: again.added(rng), lambda: again.removed(rng), lambda: again.any_old_lock(rng)
    ]  # fmt: skip
    for step in steps:
        step()


def contents(path: Path) -> object:
    """What a word of a call stands for: the bytes of a file, those of the files of a folder, or nothing but itself."""
    if path.is_dir():
        return tuple(sorted((it.name, it.read_bytes()) for it in path.iterdir()))
    return path.read_bytes() if path.is_file() else path.name


@contextmanager
def asked_once() -> Iterator[None]:
    """In this process the program isn't asked again what it has answered: the same command of files that hold the
    same."""
    known: Dict[Tuple[object, ...], program.Answer] = {}
    answer = program.answer

    def remembered(words: List[str], folder: Optional[str] = None) -> program.Answer:
        question = (words[0], *(contents(Path(folder or "", it)) for it in words[1:]))
        found = known.get(question) or answer(words, folder)
        if found.status in REMEMBERED:
            known[question] = found
        return found

    with mock.patch.object(program, "answer", remembered):
        yield


class Asked(NamedTuple):
    """How a drawn project came out: whether it was locked, so that the rest was asked, and what doesn't hold, with its
    files then."""

    is_locked: bool
    finding: str
    files: Dict[str, bytes]


def asked(seed: int, number: int) -> Asked:
    """A drawn project of which nothing is asked but what must hold of locking it again."""
    rng = random.Random(f"{seed}/{number}")
    with tempfile.TemporaryDirectory(prefix="unilock-relocked-") as held:
        folder = Path(held)
        drawn.write(folder, drawn.inputs(rng))
        made = under_test.said(under_test.call(folder, "lock pyproject.toml ix 1"))
        if made.status != 0:
            return Asked(False, "", {})
        (folder / "made.lock").write_text(made.text, encoding="utf-8", newline="\n")
        try:
            with asked_once():
                ask(folder, rng)
        except Finding as fault:
            return Asked(True, str(fault), drawn.folder_files(folder))
        except Exception as fault:  # a fault of the tools is a finding too
            return Asked(True, f"{type(fault).__name__}: {fault}", drawn.folder_files(folder))
        return Asked(True, "", {})
