"""What a lock gives on a machine or on all machines, with some extras, as the program says, with the files' hashes."""

from __future__ import annotations

import argparse
import contextlib
import json
import os
import re
import tempfile
from pathlib import Path
from typing import Dict, Iterator, List, NamedTuple, Optional, Set, Tuple

from . import assembled, console, locks, machine, program
from .console import Refused
from .locks import Lock
from .versions import normal_name

USUAL = "unilock.lock"
# The status of `env` and `export` where a lock isn't for the machine, or has no such extra.
OUTSIDE = 8
LINE = re.compile(r"([a-z0-9-]+)(?:\[([a-z0-9,-]+)\])?==([^ ]+)(?: ; (.+))?\Z")


class Pick(NamedTuple):
    """A package that is wanted: name, version, the extras that are asked of it, and where (empty: everywhere)."""

    name: str
    version: str
    extras: Tuple[str, ...]
    marker: str

    @property
    def key(self) -> Tuple[str, str]:
        return self.name, self.version

    def requirement(self) -> str:
        extras = f"[{','.join(self.extras)}]" if self.extras else ""
        return f"{self.name}{extras}=={self.version}" + (f" ; {self.marker}" if self.marker else "")


def add_words(made: console.Parser) -> None:
    """The words that several commands have: the lock, the root's extras and its groups. `settled` reads them."""
    made.add_argument(
        "words", metavar="[LOCK] [EXTRA]", nargs="*", help=f"the lock ({USUAL}), and extras of the project"
    )
    add_package(made)
    made.add_argument(
        "--group",
        metavar="NAME",
        action="append",
        default=[],
        help="a dependency group of the project (the word group-NAME); may be repeated",
    )


def add_package(made: console.Parser) -> None:
    made.add_argument(
        "--package",
        metavar="NAME",
        help="begin at this package of the lock, a member of the workspace; the words and groups are its own then (in "
        "a member's folder without a lock it is that member, of the lock beside the root)",
    )


def settled(asked: argparse.Namespace) -> argparse.Namespace:
    """The words with `lock` and `extras`: the first is the lock where it looks like one or is a file's name."""
    first = asked.words[:1]
    is_lock = first and (first[0].endswith(".lock") or os.path.isfile(first[0]) or os.path.dirname(first[0]))
    asked.lock, asked.extras = (first[0], asked.words[1:]) if is_lock else (None, asked.words)
    return found(asked)


def found(asked: argparse.Namespace) -> argparse.Namespace:
    """The words with a lock: where none is named the usual one, or that of the project or the workspace that the folder
    lies in."""
    if asked.lock is None:
        asked.lock = USUAL
        above = os.path.join(assembled.home("pyproject.toml"), USUAL)
        if not os.path.isfile(USUAL) and os.path.isfile(above):
            asked.lock, workspace = above, assembled.around(Path.cwd())
            member = None if workspace is None else workspace.member_of(Path.cwd())
            asked.package = asked.package or (None if member is None else member.name)
    return asked


@contextlib.contextmanager
def opened(asked: argparse.Namespace) -> Iterator[Tuple[str, Lock]]:
    """The lock that the words name, with its path; with a package one that begins there."""
    lock = load(asked.lock)
    if asked.package is None:
        yield asked.lock, lock
        return
    name = normal_name(asked.package)
    if len(lock.by_name().get(name, [])) != 1:
        what = "has several versions of" if name in lock.by_name() else "has no package"
        raise Refused(f"{asked.lock} {what} {console.escaped(name)}, so nothing begins there")
    with locks.program_form(asked.lock) as path, tempfile.TemporaryDirectory(prefix="unilock-") as held:
        copy = Path(held) / Path(asked.lock).name
        text = Path(path).read_text(encoding="utf-8")
        copy.write_text(text.replace(f'\nroot = "{lock.root}"\n', f'\nroot = "{name}"\n', 1), encoding="utf-8")
        try:
            yield str(copy), load(str(copy))
        except Refused as fault:
            raise Refused(str(fault).replace(str(copy), asked.lock), fault.status) from None


def extras_of(asked: argparse.Namespace) -> List[str]:
    return [*asked.extras, *(f"group-{normal_name(it)}" for it in asked.group)]


def fault_of(answered: program.Answer, lock: Lock, path: str) -> Refused:
    """What the program refused of a lock, in words."""
    text = program.fault_text(answered)
    if answered.status == OUTSIDE and text == "outside":
        text = f"{path} isn't for this machine: it supports {lock.supported or 'all'}"
    elif answered.status == OUTSIDE:
        word = text.partition(": ")[2]
        known = ", ".join(lock.root_package().extras) or "none"
        text = f"{path} has no extra {word} (it has: {known})"
    return Refused(text, answered.status)


def picks_in(text: str) -> List[Pick]:
    found = []
    for line in text.splitlines():
        read = LINE.match(line)
        if read is None:
            raise Refused(f"unilock printed a line that isn't a requirement: {line[:80]}", 70)
        found.append(Pick(read[1], read[3], tuple(read[2].split(",")) if read[2] else (), read[4] or ""))
    return found


def on_machine(path: str, lock: Lock, extras: List[str], variables: Dict[str, str]) -> List[Pick]:
    """What the lock gives on a machine, each package with its reached extras."""
    with tempfile.TemporaryDirectory(prefix="unilock-") as held:
        file = os.path.join(held, "machine.json")
        with open(file, "w", encoding="utf-8") as it:
            json.dump(variables, it)
        with locks.program_form(path) as read:
            answered = program.answer(["env", read, file, *extras])
    if answered.status != 0:
        raise fault_of(answered, lock, path)
    return picks_in(answered.text)


def everywhere(path: str, lock: Lock, extras: List[str]) -> List[Pick]:
    """What the lock gives on all machines, with the worlds that each package and each of its extras is wanted in."""
    with locks.program_form(path) as read:
        answered = program.answer(["export", read, *extras])
    if answered.status != 0:
        raise fault_of(answered, lock, path)
    return picks_in(answered.text)


def machine_file(path: Optional[str]) -> Dict[str, str]:
    """The variables of a machine file, or of the running interpreter where none is named."""
    if path is None:
        return machine.machine()
    try:
        found = json.loads(console.text_of(path))
    except ValueError as fault:
        raise Refused(f"{path}: not JSON: {fault}", 3) from None
    if not isinstance(found, dict) or not all(isinstance(it, str) for it in found.values()):
        raise Refused(f"{path}: it is no machine file; `tools/machine` prints one", 3)
    return found


def with_hashes(lock: Lock, picks: List[Pick], hashes: bool) -> str:
    """Requirement lines for pip, each with the hashes of the files that the lock has of it.

    Lines of one package and one place that differ in extras alone would be two requirements to pip, so they are one
    line.
    """
    lines = []
    for pick in picks:
        files = lock.package(pick.name, pick.version).files if hashes else []
        if hashes and not files:
            what = f"{pick.name} {pick.version}"
            raise Refused(f"the lock has no hashes of {what}, since its index has none; --no-hashes writes without")
        lines.append(with_sums(pick.requirement(), {it for _, it in files}))
    return "".join(lines)


def with_sums(text: str, summed: Set[str]) -> str:
    """A requirement line with hashes."""
    return " \\\n".join([text, *(f"    --hash=sha256:{it}" for it in sorted(summed))]) + "\n"


def bases(picks: List[Pick]) -> List[Pick]:
    """The packages alone, without lines for their extras: where an extra is wanted its package is too."""
    return [it._replace(extras=()) for it in picks if not it.extras]


def load(path: str) -> Lock:
    return locks.load(path)
