"""Reading a `pylock.toml` (PEP 751, lock version 1.0), which has rows: each package with the marker of where it is
installed, by the extras and dependency groups that are asked for."""

from __future__ import annotations

from typing import Any, Dict, List, Optional, Tuple

from . import markers
from .archives import FILE_NAME
from .foreign import Key
from .marker_texts import ALWAYS, every, of_bound, quoted, some
from .project import Project
from .rows import Rows, Selection, selected
from .tables import Table, Unread, marker_line, shortly
from .versions import NoReading

VERSION = "1.0"
# What is installed where none is asked for, who made the file, and what its maker keeps in it.
TOP = ["default-groups", "created-by", "tool"]
# A bound on the interpreter, which the index folder's document says; edges, which a reader isn't to go by; where a
# package comes from and who vouches for it.
PACKAGE = ["requires-python", "dependencies", "index", "attestation-identities", "tool"]
DIRECT = ["vcs", "directory", "archive"]
FILE = ["url", "path", "size", "upload-time"]
ASKED = {"extras": "", "dependency_groups": "group-"}


def with_extras(text: str, place: str) -> str:
    """A marker with `'x' in extras` and `'g' in dependency_groups` written as comparisons of `extra`."""
    try:
        found = markers.tokens(text)
    except markers.NoMarker as fault:
        raise Unread(f"{place}: {fault}: {shortly(text)}") from None
    pieces: List[str] = []
    at = 0
    while at < len(found):
        kind, word = found[at]
        negated = found[at + 1 : at + 3] == [("word", "not"), ("word", "in")]
        variable = found[at + 2 + negated][1] if at + 2 + negated < len(found) else ""
        if kind == "literal" and variable in ASKED and (negated or found[at + 1] == ("word", "in")):
            pieces.append(f"extra {'!=' if negated else '=='} '{ASKED[variable]}{word}'")
            at += 3 + negated
            continue
        if word == "extra" and kind == "word":
            raise Unread(f"{place}: `extra` has no meaning in this file: {shortly(text)}")
        pieces.append(quoted(word) if kind == "literal" else word)
        at += 1
    return marker_line(" ".join(pieces), place)


class Row:
    """A package of the file: where it is installed, and its files."""

    def __init__(self, table: Table, project: Project) -> None:
        name, version = table.name("name"), table.version("version")
        table.place = name if version is None else f"{name} {version}"
        direct = [f"{it} {shortly(table.take(it))}" for it in DIRECT if table.has(it)]
        self.is_project = name == project.name and bool(direct)
        if version is None and not self.is_project:
            raise Unread(f"{name} has no version" + (f", since it is taken from {direct[0]}" if direct else ""))
        if direct and not self.is_project:
            table.unread.append(f"the lock takes {table.place} from {direct[0]}")
        self.key: Key = (name, version or project.version)
        text = table.text("marker")
        place = table.at("marker")
        self.marker: Optional[markers.Marker] = None if text is None else markers.read(with_extras(text, place))
        self.files: Dict[str, str] = {}
        for file in [it for it in [table.table("sdist")] if it is not None] + table.tables("wheels"):
            self.add_file(file)
        table.end(PACKAGE)

    def add_file(self, file: Table) -> None:
        place = file.text("name") or file.text("path") or (file.text("url") or "").partition("#")[0]
        hashes = file.table("hashes")
        summed = hashes.text("sha256") if hashes is not None else None
        file.end(FILE)
        name = place.rpartition("/")[2]
        if summed is not None and len(summed) == 64 and FILE_NAME.match(name):
            self.files[name] = summed.lower()


def supported(top: Table, project: Project) -> str:
    """The environments that the file is for: those that it says, and where it says none those of the project."""
    bound, listed = top.text("requires-python"), top.texts("environments")
    environments = [marker_line(it, "environments") for it in listed] or project.environments() or [ALWAYS]
    if bound is None and listed:
        return some(environments)
    try:
        return every([of_bound(project.requires_python if bound is None else bound), some(environments)])
    except NoReading as fault:
        raise Unread(f"requires-python: {fault}") from None


def selections_of(top: Table, project: Project, extras: List[str]) -> List[Tuple[str, ...]]:
    """The extras that are asked for together: none, and each that the file is for; where it names none, the given."""
    named = [*top.names("extras"), *(f"group-{it}" for it in top.names("dependency-groups"))]
    top.unread += [f"it is for {it}, which the project hasn't" for it in named if it not in project.extras()]
    return [(), *((it,) for it in named)] if named else [tuple(extras)]


def read(tables: Dict[str, Any], project: Project, extras: List[str]) -> Rows:
    """The rows of a file; where it names no extras it was made for the project with these."""
    unread: List[str] = []
    top = Table(tables, "", unread)
    version = top.wanted("lock-version")
    if version != VERSION:
        raise Unread(f"it is of lock version {shortly(version)}, which isn't read")
    rows = [it for it in (Row(table, project) for table in top.tables("packages")) if not it.is_project]
    within = supported(top, project)
    selections = []
    for asked in selections_of(top, project, extras):
        found: Dict[Key, List[str]] = {}
        for it in rows:
            # Without names of its own a file's markers speak of none.
            place = f"{it.key[0]} {it.key[1]}"
            text = some(selected(it.marker, extra, place) for extra in ["", *asked])
            found.setdefault(it.key, []).append(text)
        selections.append(Selection(asked, {key: some(texts) for key, texts in found.items()}))
    top.end(TOP)
    files = {it.key: it.files for it in rows}
    return Rows(within, selections, files, unread)
