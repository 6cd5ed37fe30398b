"""Changing the requirement lists of a project file with its comments and its form kept, and locking what comes of it.

The file is changed by the library `tomlkit`. The changed text is locked from a copy in a temporary folder; only when
the lock is there does the project file get it, just before the lock is written, so that on any refusal both stay.
"""

from __future__ import annotations

import argparse
import os
import tempfile
from pathlib import Path
from typing import Any, Callable, List, NamedTuple

from . import advice, assembled, console, lock, own_index, project, scripts, vendored, verdicts
from .called import command
from .console import Refused
from .readings import requirement_of
from .relocking import cores
from .terminal import add_color
from .versions import NoReading, normal_name

Change = Callable[[Any], List[str]]


class Edited(NamedTuple):
    """A changed project file's text, and what was changed, one line each."""

    text: str
    lines: List[str]


def add_words(made: console.Parser) -> None:
    """The words that both commands have."""
    made.add_argument("--project", metavar="PROJECT", default="pyproject.toml", help="the project file (%(default)s)")
    made.add_argument("--index", metavar="INDEX", help="the index folder (`ix` beside the project)")
    made.add_argument("--lock", metavar="LOCK", help="the lock (`unilock.lock` beside the project)")
    place = made.add_mutually_exclusive_group()
    place.add_argument("--group", metavar="NAME", help="in this dependency group")
    place.add_argument("--optional", metavar="EXTRA", help="in the list of this extra")
    add_color(made)
    made.add_argument("--frozen", action="store_true", help="change the project file alone, and don't lock")
    made.add_argument("--workers", metavar="N", type=int, default=cores(), help="threads, 1 to 64 (%(default)s)")
    own_index.add_words(made, further=False)
    made.set_defaults(beside=None)


def place_of(asked: argparse.Namespace) -> List[str]:
    """The keys of the list that is to be changed."""
    if asked.group:
        return ["dependency-groups", normal_name(asked.group)]
    if asked.optional:
        return ["project", "optional-dependencies", normal_name(asked.optional)]
    return ["project", "dependencies"]


def shown(place: List[str]) -> str:
    return ".".join(place)


def requirement_list(document: Any, place: List[str], create: bool) -> Any:
    """The list at a place of a document, made where it isn't there; a name counts in all its spellings."""
    tomlkit = vendored.library("tomlkit")
    at = document
    for key in place[:-1]:
        if key not in at and create:
            at[key] = tomlkit.table()
        at = at.get(key, {})
    key = next((it for it in at if normal_name(it) == place[-1]), place[-1])
    if key not in at and create:
        at[key] = tomlkit.array()
    found = at.get(key)
    if found is not None and not isinstance(found, list):
        raise Refused(f"{shown(place)} isn't a list", 3)
    return found


def name_in(entry: object) -> str:
    """The name that an entry of a list requires; empty for an included group, or a text without a reading."""
    try:
        return requirement_of(str(entry)).name if isinstance(entry, str) else ""
    except NoReading:
        return normal_name(advice.name_of(str(entry)))


def edited(path: str, change: Change) -> Edited:
    """The project file after a change."""
    if scripts.is_script(path):
        raise Refused(f"{path}: change the block of a script by hand; `{command('lock')} {path}` then locks it", 2)
    try:
        tomlkit = vendored.library("tomlkit")
    except Refused as fault:
        raise Refused(f"{fault}; without it, change {path} by hand and then run `{command('lock')}`", 3) from None
    body = Path(path).read_bytes() if os.path.isfile(path) else None
    if body is None:
        raise Refused(f"{path}: there is no such file", 3)
    with assembled.given(path) as given:
        project.load(given.project)
    document = tomlkit.parse(body.decode("utf-8"))
    lines = change(document)
    return Edited(str(tomlkit.dumps(document)), lines)


def changed(asked: argparse.Namespace, change: Change) -> int:
    """Changes the project file and locks it; the status is that of `lock`."""
    made = edited(asked.project, change)

    def write() -> None:
        print("\n".join(made.lines))
        console.write_beside(asked.project, made.text.encode("utf-8"))

    if asked.frozen:
        write()
        return 0
    with tempfile.TemporaryDirectory(prefix="unilock-") as held:
        copy = Path(held) / Path(asked.project).name
        copy.write_bytes(made.text.encode("utf-8"))
        try:
            words = words_of_lock(asked, copy)
            words.color = asked.color
            return lock.run(words, write)
        except Refused as fault:
            raise Refused(str(fault).replace(str(copy), asked.project), fault.status) from None


def words_of_lock(asked: argparse.Namespace, copy: Path) -> argparse.Namespace:
    """The words of `lock` that lock a changed copy of the project file, by the index that the project has."""
    home = assembled.home(asked.project)
    words = [str(copy), "--lock", asked.lock or os.path.join(home, "unilock.lock"), "--workers", str(asked.workers)]
    found = lock.parser().read(words)
    found.index, found.beside = asked.index, home or "."
    for word in own_index.WORDS:
        setattr(found, word, getattr(asked, word))
    if not own_index.is_wanted(found):
        found.index = asked.index or os.path.join(home, "ix")
        refuse_absent(copy, asked, found.index)
    found.beside = os.path.dirname(asked.project) or "."
    return found


def refuse_absent(copy: Path, asked: argparse.Namespace, index: str) -> None:
    """Refuses names that the index has no document of, with what brings them there."""
    path = asked.project
    if not os.path.isdir(index):
        raise Refused(f"{index}: there is no such folder; `{command('index')} {path} {index}` makes it", 3)
    with assembled.given(str(copy), os.path.dirname(path) or ".") as given:
        absent = [] if given.workspace is not None else verdicts.absent_names(project.load(given.project), index)
    if absent:
        steps = f"--frozen writes {path} alone; then `{command('index')} {path} {index}` and `{command('lock')}`"
        raise Refused(f"{index} has no document of {', '.join(absent)}; {steps}", 1)
