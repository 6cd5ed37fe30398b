"""The index folder that `lock` keeps by itself, `.unilock/ix` beside the project, where nobody named one.

It has the documents of what was tried alone, fetched from a package index by `lazy`. It serves again while the project
asks for the same, of the same index, and has its lock; else the index is asked again, of which what hasn't changed
isn't sent again. New versions of a locked project are looked for where all or some are to be chosen anew, and with
--refresh.
"""

from __future__ import annotations

import argparse
import contextlib
import json
import os
import re
import tempfile
from collections.abc import Iterator
from pathlib import Path
from typing import Any, NamedTuple

from . import assembled, building, console, folders, index_settings, lazy, locks, project, walk
from .addresses import shown
from .assembled import Given
from .cache import Cache, usual_folder
from .called import command
from .console import Refused
from .direct import Direct
from .indexes import Indexes
from .locks import Lock
from .scripts import is_script, of_lock
from .stated import Stated

FOLDER = folders.OWN
ASKED = "asked.json"
NOTE = "# What `lock` keeps of a package index; the lock is what counts.\n*\n"
# The words of a command that say how a package index is asked.
WORDS = ("refresh", "index_url", "before", "build", "build_all", "no_build")
FURTHER_WORDS = ("indexes", "find_links")


class Fetched(NamedTuple):
    """The own folder; and where nothing serves the project, the refusal and the fetching that found it; and the names
    that were reached, where anybody was asked."""

    folder: Path
    refusal: lazy.Locked | None = None
    fetching: lazy.Lazy | None = None
    reached: frozenset[str] = frozenset()

    @contextlib.contextmanager
    def working(self) -> Iterator[str]:
        """A folder with the documents by which the project was refused, while it is told of. What was tried meanwhile
        is kept too."""
        assert self.refusal is not None and self.fetching is not None
        with tempfile.TemporaryDirectory(prefix="unilock-") as held:
            for name, document in self.refusal.working.items():
                (Path(held) / f"{name}.json").write_text(json.dumps(document), encoding="utf-8")
            yield held
        folders.replace_folder(self.folder, self.fetching.known())


class Kept(NamedTuple):
    """The lock that stands at its place, and what is to be chosen anew: some names, or with `anew` all."""

    path: str
    lock: Lock | None
    pins: dict[str, str | None]
    anew: bool


def add_words(made: console.Parser, further: bool = True) -> None:
    """The words that say how a package index is asked; `further` those of more than one, too."""
    server = made.add_argument_group("from a package index, where no index folder is named")
    server.add_argument("--refresh", action="store_true", help="ask the package index again for what is tried")
    index_settings.add_words(server, further, further)
    server.add_argument("--before", metavar="DATE", help="only files uploaded before this instant (PEP 700)")
    building.add_words(server)


def beside(asked: argparse.Namespace) -> Path:
    """The folder of the project, also where what is locked is a changed copy of its file."""
    return Path(asked.beside or os.path.dirname(asked.project))


def own_folder(asked: argparse.Namespace) -> Path:
    """Where what was told is kept."""
    return Path(usual_own(asked.named)) if is_script(asked.named) else beside(asked) / FOLDER


def usual_own(script: str) -> str:
    return str(folders.of_script(Path(script)) / FOLDER.name)


def is_wanted(asked: argparse.Namespace) -> bool:
    """Whether no folder is named, and none stands beside the project, or it is to be asked for again. The one beside a
    script is another's."""
    said = asked.refresh or asked.index_url is not None or building.is_asked(asked)
    said = said or any(getattr(asked, it, None) for it in FURTHER_WORDS)
    is_apart = is_script(asked.named) or not (beside(asked) / "ix").is_dir()
    return asked.index is None and (said or is_apart)


def usual_of(given: Given) -> str:
    """The index folder of a project, or of a script."""
    return usual_own(given.named) if is_script(given.named) else usual(os.path.dirname(given.named))


def usual_for(lock: str) -> str:
    """The index folder that a lock was made by, by where it stands."""
    script = of_lock(lock)
    return usual(os.path.dirname(lock)) if script is None else usual_own(str(script))


def usual(folder: str) -> str:
    """The index folder beside a project: `ix`, or where that isn't there the own one, if it is."""
    named, own = Path(folder) / "ix", Path(folder) / FOLDER
    return str(own if own.is_dir() and not named.is_dir() else named)


def question(
    asked: argparse.Namespace, read: project.Project, settings: index_settings.Settings, direct: Direct | None
) -> str:
    """What is asked of which indexes, as a text by which two questions are told apart. No user and no password of an
    address stands in it."""
    indexes = [[it.name, shown(it.url), it.is_explicit, it.is_flat] for it in settings.asked()]
    required = [(it.place, it.requirement.text) for it in [*read.requirements, *read.constraints, *read.overrides]]
    found = {"indexes": indexes, "before": asked.before, "python": read.requires_python, "required": required}
    more = {"settings": without_secrets(read.settings), "build": [sorted(asked.build), asked.build_all]}
    more["sources"] = [settings.sources, [] if direct is None else direct.question()]
    return json.dumps({**found, **more}, indent=1, default=str, sort_keys=True) + "\n"


def without_secrets(value: Any) -> Any:
    """A value of TOML whose addresses have no user and no password."""
    if isinstance(value, dict):
        return {key: without_secrets(it) for key, it in value.items()}
    if isinstance(value, list):
        return [without_secrets(it) for it in value]
    return shown(value) if isinstance(value, str) else value


def is_current(folder: Path, wanted: str, kept: Kept) -> bool:
    """Whether the folder was made by the same question, and has the lock that came of it."""
    if kept.anew or kept.pins or kept.lock is None or not (folder / folders.MARK).is_file():
        return False
    try:
        return (folder.parent / ASKED).read_text(encoding="utf-8") == wanted
    except OSError:
        return False


@contextlib.contextmanager
def preferred(kept: Kept) -> Iterator[Path | None]:
    """The lock whose versions are tried first, without those that are chosen anew."""
    if kept.anew or kept.lock is None:
        yield None
    elif kept.pins:
        with tempfile.TemporaryDirectory(prefix="unilock-") as held:
            path = Path(held) / "kept.lock"
            instead = {name: spelled for name, spelled in kept.pins.items() if spelled is not None}
            path.write_bytes(locks.preferences(kept.lock, [*kept.pins], instead).encode("utf-8"))
            yield path
    else:
        with locks.program_form(kept.path) as form:
            yield Path(form)


def known(asked: argparse.Namespace, kept: Kept) -> Path | None:
    """The own folder, where what it has of sources counts, and these aren't followed anew."""
    folder = own_folder(asked)
    anew = asked.refresh or kept.anew or kept.pins or kept.lock is None
    return None if anew or not (folder / folders.MARK).is_file() else folder


def folder_for(asked: argparse.Namespace, kept: Kept, direct: Direct | None = None) -> Fetched:
    """The own folder, fetched where that is wanted, with the releases of sources."""
    folder, read = own_folder(asked), project.load(asked.project)
    tables = assembled.index_tables(asked.named, asked.workspace)
    settings = index_settings.of_words(asked, tables, beside(asked))
    wanted = question(asked, read, settings, direct)
    if not asked.refresh and is_current(folder, wanted, kept):
        return Fetched(folder)
    cache = Cache(usual_folder())
    builder = building.of_words(asked, cache, settings.usual.url)
    client = Indexes(settings, cache, builder, stated=Stated(tables), supported=read.supported())
    if not asked.quiet:
        console.say(f"lock: asking {console.escaped(client.told())}")
    choice = walk.Choice(None, None if asked.before is None else walk.instant(asked.before))
    try:
        with preferred(kept) as old:
            given = None if direct is None else direct.projects()
            fetching = lazy.Lazy(client, read, choice, asked.workers, old, keep=not kept.pins, given=given)
            found = fetching.run()
    except Refused as fault:
        raise with_way_out(fault, asked, client.blamed(str(fault)), folder) from None
    if found.answer.status not in (0, 1):
        raise Refused(console.escaped(found.answer.text.partition("\n")[0]), found.answer.status)
    folders.replace_folder(folder, found.documents)
    (folder.parent / ASKED).write_text(wanted, encoding="utf-8")
    if not (folder.parent / ".gitignore").exists():
        (folder.parent / ".gitignore").write_text(NOTE, encoding="utf-8")
    if not asked.quiet:
        console.say(f"lock: {client.fetched().told()}, {folder}")
        for text in [*found.warnings, *([cache.fault] if cache.fault else [])]:
            console.say(f"lock: warning: {console.escaped(text)}")
    reached = frozenset(fetching.names)
    return Fetched(folder, found, fetching, reached) if found.answer.status == 1 else Fetched(folder, reached=reached)


def with_way_out(fault: Refused, asked: argparse.Namespace, index: index_settings.Index, folder: Path) -> Refused:
    """A server's fault, with what to do about it."""
    if fault.status != 5:
        return fault
    lines = [str(fault)]
    if re.search(r": 40[13] ", str(fault)):
        named = f", or in {index.variable}_USERNAME and {index.variable}_PASSWORD" if index.name else ""
        lines.append(f"a user and a password may stand in its address, in .netrc or in the system's keyring{named}")
    else:
        place = index.place or ("--index-url" if asked.index_url else "--index-url or UNILOCK_INDEX_URL")
        lines.append(f"its address is that of {place}; what it told is kept, so another call goes on from there")
    if (folder / folders.MARK).is_file():
        kept = f"`{command('lock')} {asked.named} {folder}`"
        lines.append(f"{kept} locks by what was kept, without a server")
    return Refused("\n  ".join(lines), fault.status)
