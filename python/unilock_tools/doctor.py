"""Looks a project file over, and its index folder: what will be refused, what is passed over, and what is likely a
slip.

Of the project: texts that can't be read, with their line; keys that are refused or passed over though they matter to
uv; keys that look misspelt; a missing requires-python. Of the index: names without a document, and names like them;
documents that can't be read; releases that can't be used, with the entry that is the cause.

A line begins with `error` (the program will refuse it), `warning` (likely a slip, or a release that will not count)
or `note`.

Needs a reader of TOML: Python 3.11, or the library `tomli`. Status: 0 no error and no warning; 1 some; 2 the words
aren't right; 3 the project file can't be read at all.
"""

from __future__ import annotations

import argparse
import contextlib
import difflib
import os
from pathlib import Path
from typing import Any, Dict, Iterator, List, NamedTuple, Optional, Set, Tuple

from . import (
    advice, assembled, console, documents, index_settings, keys, markers, overlaid, own_index, places, poetry,
    printing, profile, scripts,
)  # fmt: skip
from .assembled import Given
from .called import command
from .console import Refused
from .project import Project, load
from .readings import Requirement, requirement_fault, requirement_of
from .requirement_texts import parts_of
from .terminal import Screen, add_color
from .vendored import toml_of
from .versions import NAME, Clause, NoReading, normal_name, specifiers_fault, specifiers_of, version


# How a terminal shows the kinds of findings.
KINDS = {"error": "bad", "warning": "changed", "note": "quiet"}


class Finding(NamedTuple):
    kind: str
    text: str


def parser() -> console.Parser:
    made = console.Parser("doctor", __doc__)
    made.add_argument(
        "project", metavar="PROJECT", nargs="?", default="pyproject.toml", help="the project file (pyproject.toml)"
    )
    made.add_argument(
        "index", metavar="INDEX", nargs="?", help="the index folder (`ix` beside the project, where it is there)"
    )
    console.add_json(made)
    add_color(made)
    return made


def table(value: Any) -> Dict[str, Any]:
    return value if isinstance(value, dict) else {}


def listed(value: Any) -> List[Any]:
    return value if isinstance(value, list) else []


class Doctor:
    """What is found in a project file and its index folder."""

    def __init__(self, path: str, index: Optional[str], given: Optional[Given] = None) -> None:
        self.path, self.index, self.given = path, index, given
        if not os.path.isfile(path):
            raise Refused(f"{path}: there is no such file", 3)
        self.text = console.text_of(path)
        self.tables = scripts.tables_of(Path(path)) if scripts.is_script(path) else toml_of(path)
        self.project = table(self.tables.get("project"))
        self.settings = table(table(self.tables.get("tool")).get("uv"))
        self.is_wide = profile.is_wide(self.tables)

    def error(self, place: str, fault: str) -> Finding:
        number = places.line_of(self.text, places.value_at(self.tables, place))
        return Finding("error", f"{place}{f' (line {number})' if number else ''}: {fault}")

    def findings(self) -> Iterator[Finding]:
        errors = list(self.errors())
        yield from errors
        yield from self.misspelt()
        yield from self.settings_found()
        if not errors:
            yield from self.index_findings()

    def errors(self) -> Iterator[Finding]:
        if not isinstance(self.tables.get("project"), dict):
            if self.given is not None and self.given.workspace is not None:
                return
            yield Finding("error", "project: there is no table [project]")
            lines = poetry.project_lines(self.tables)
            if lines:
                yield Finding("note", "this is a Poetry project; the same as it is read:\n    " + "\n    ".join(lines))
            return
        name = self.project.get("name")
        if not isinstance(name, str) or not NAME.match(name):
            yield self.error("project.name", places.wrong_shape("project.name", name))
        spelled = self.project.get("version")
        if spelled is not None and (not isinstance(spelled, str) or version(spelled) is None):
            yield self.error("project.version", places.wrong_shape("project.version", spelled))
        bound = self.project.get("requires-python")
        if bound is not None and (not isinstance(bound, str) or specifiers_fault(bound)):
            yield self.error("project.requires-python", places.wrong_shape("project.requires-python", bound))
        yield from self.shapes()
        dynamic = self.project.get("dynamic")
        for key in [
            it for it in ("dependencies", "optional-dependencies", "requires-python") if it in listed(dynamic)
        ]:
            yield self.error("project.dynamic", f"it names {key}; {places.UNSUPPORTED['project.dynamic']}")
        for place, entry in self.entries():
            if isinstance(entry, str) and requirement_fault(parts_of(entry).text() if self.is_wide else entry):
                yield self.error(place, places.wrong_requirement(entry))
            elif not isinstance(entry, (str, dict)):
                yield self.error(place, "it isn't a text")
        for key in keys.REFUSED_BY_WIDE if self.is_wide else keys.REFUSED:
            if self.settings.get(key) not in (None, [], {}):
                yield Finding("error", f"tool.uv.{key}: {places.UNSUPPORTED['tool.uv.' + key]}")
        yield from self.choices()

    def shapes(self) -> Iterator[Finding]:
        """Places that have another shape than their readers want: no list, or no table of lists."""
        lists = [(f"project.{it}", self.project.get(it)) for it in ("dynamic", "dependencies")]
        for place, found in [
            ("project.optional-dependencies", self.project.get("optional-dependencies")),
            ("dependency-groups", self.tables.get("dependency-groups")),
        ]:
            if found is not None and not isinstance(found, dict):
                yield self.error(place, places.wrong_shape(place, found))
            lists += [(f"{place}.{it}", entries) for it, entries in table(found).items()]
        lists += [
            (f"tool.uv.{it}", self.settings.get(it)) for it in ("constraint-dependencies", "override-dependencies")
        ]
        for place, found in lists:
            if found is not None and not isinstance(found, list):
                yield self.error(place, places.wrong_shape(place, found))
        if any(not isinstance(it, str) for it in listed(self.project.get("dynamic"))):
            yield self.error("project.dynamic", places.wrong_shape("project.dynamic", None))

    def choices(self) -> Iterator[Finding]:
        for key, known in [
            ("resolution", ["highest", "lowest", "lowest-direct"]),
            ("prerelease", keys.PRERELEASES if self.is_wide else keys.PRERELEASES[-1:]),
            ("fork-strategy", ["fewest", "requires-python", "deep"]),
        ]:
            if key in self.settings and self.settings[key] not in known:
                yield self.error(
                    f"tool.uv.{key}", f"it is {places.shown(self.settings[key])}; supported: {', '.join(known)}"
                )
        regions = self.settings.get("environments", [])
        for number, entry in enumerate([regions] if isinstance(regions, str) else listed(regions)):
            try:
                markers.read(str(entry))
            except markers.NoMarker as fault:
                yield Finding("error", f"tool.uv.environments[{number}]: {fault}")

    def entries(self) -> Iterator[Tuple[str, Any]]:
        """Each requirement of the file with its place."""
        lists: List[Tuple[str, Any]] = [("project.dependencies", self.project.get("dependencies"))]
        extras = table(self.project.get("optional-dependencies"))
        lists += [(f"project.optional-dependencies.{it}", found) for it, found in extras.items()]
        lists += [
            (f"dependency-groups.{it}", found) for it, found in table(self.tables.get("dependency-groups")).items()
        ]
        read = ["constraint-dependencies", "override-dependencies"]
        read += ["dev-dependencies"] if self.is_wide else []
        lists += [(f"tool.uv.{it}", self.settings.get(it)) for it in read]
        for place, found in lists:
            for number, entry in enumerate(listed(found)):
                yield f"{place}[{number}]", entry

    def misspelt(self) -> Iterator[Finding]:
        for place, found, known in [
            ("", self.tables, keys.TABLES),
            ("project.", self.project, keys.PROJECT),
            ("tool.uv.", self.settings, keys.UV),
        ]:
            for key in found:
                near = difflib.get_close_matches(key, known, 1, 0.75) if key not in known else []
                if near:
                    yield Finding("warning", f"{place}{key}: it is passed over; is {place}{near[0]} meant?")

    def settings_found(self) -> Iterator[Finding]:
        if "requires-python" not in self.project and self.project:
            yield Finding(
                "warning",
                "project.requires-python: it isn't there, so every interpreter from 0.0 on is supported, and a release "
                'that needs any Python can\'t be used; requires-python = ">=3.9", say, makes it usable',
            )
        for key, found in self.settings.items():
            if keys.PASSED_OVER.get(key) and found not in ([], {}):
                yield Finding("note", f"tool.uv.{key}: the program passes it over; {keys.PASSED_OVER[key]}")
        for key, what in keys.PASSED_OVER_BY_WIDE.items():
            if self.is_wide and self.settings.get(key) not in (None, [], {}):
                yield Finding("note", f"tool.uv.{key}: the lock is by the index folder alone; {what}")
        try:
            index_settings.settings(index_settings.Words(), self.tables, Path(self.path).parent)
        except Refused as fault:
            yield Finding("warning", f"{fault}; `{command('lock')}` asks no index by it")
        poetry = table(table(self.tables.get("tool")).get("poetry"))
        if poetry.get("dependencies"):
            yield Finding("warning", "tool.poetry.dependencies: it is passed over; project.dependencies is read")
        if self.settings.get("resolution") in ("lowest", "lowest-direct"):
            first = "with an old lock the versions that it has come first, the newest of them before the older"
            yield Finding("note", f"tool.uv.resolution: {first}")

    def index_findings(self) -> Iterator[Finding]:
        project = Project(self.path, self.tables) if self.given is None else load(self.given.project)
        yield from (Finding("error", it) for it in advice.own_name(project))
        yield from (Finding("warning", it) for it in advice.project_slips(project))
        if self.index is None:
            yield Finding("note", f"no index folder was looked at; `{command('index')}` makes one")
            return
        yield from (Finding("warning", it) for it in advice.index_slips(project, self.index))
        yield from (Finding("warning", it) for it in advice.unsourced(project, self.index))
        names = sorted(it[:-5] for it in os.listdir(self.index) if it.endswith(".json"))
        walk = _Reach(self.index, project)
        for name in sorted(walk.absent):
            near = difflib.get_close_matches(name, names, 2, 0.75)
            hint = f"; is {' or '.join(near)} meant?" if near else ""
            yield Finding(
                "warning", f"{self.index} has no document of {name}, which {walk.absent[name]} requires{hint}"
            )
        for fault in walk.faults:
            yield Finding("error", fault)
        for name in sorted(walk.found):
            yield from release_findings(name, walk.found[name])


class _Reach:
    """The documents of an index folder that a project's requirements can reach."""

    def __init__(self, index: str, project: Project) -> None:
        self.index, self.project = index, project
        self.found: Dict[str, documents.Document] = {}
        self.absent: Dict[str, str] = {}
        self.faults: List[str] = []
        self.asked: Dict[str, Set[str]] = {}
        self.left: List[Tuple[str, Requirement]] = [("the project", it.requirement) for it in project.requirements]
        while self.left:
            self.follow(*self.left.pop())

    def follow(self, by: str, requirement: Requirement) -> None:
        name = requirement.name
        fresh = {"", *requirement.extras} - self.asked.setdefault(name, set())
        if not fresh or name == self.project.name:
            return
        self.asked[name] |= fresh
        if name not in self.found and name not in self.absent:
            self.load(by, name)
        for spelled, entry in documents.releases_of(self.found.get(name)):
            for text in entry.get("requires_dist") or []:
                read = requirement_of(text)
                if markers.possible(read.marker, self.project.requires_python, sorted(self.asked[name])):
                    self.left.append((f"{name} {spelled}", read))

    def load(self, by: str, name: str) -> None:
        try:
            document = documents.load(self.index, name)
        except Refused as fault:
            self.faults.append(str(fault))
            document = {"name": name, "versions": []}
        if document is None:
            self.absent[name] = by
            return
        if normal_name(str(document.get("name"))) != name:
            self.faults.append(f"{self.index}/{name}.json: the document's `name` is {document.get('name')!r}")
        self.found[name] = document


def release_findings(name: str, document: documents.Document) -> Iterator[Finding]:
    upper = []
    for entry in document["versions"]:
        spelled, bound = str(entry.get("version", "")), entry.get("requires_python")
        fault = documents.unusable(spelled, bound, entry.get("requires_dist") or [])
        if fault is not None:
            yield Finding("warning", f"{name} {spelled} can't be used: {fault}")
        elif bound and any(it.op in ("<", "<=", "==", "~=") for it in specifiers(bound)):
            upper.append(spelled)
    if upper:
        shown = ", ".join(upper) if len(upper) <= 3 else f"{upper[0]}, .. {upper[-1]} ({len(upper)} releases)"
        nothing = "the upper part of Requires-Python counts as nothing here; pip will refuse an interpreter above it"
        yield Finding("note", f"{name} {shown}: {nothing}")


def specifiers(text: str) -> List[Clause]:
    try:
        return specifiers_of(text)
    except NoReading:
        return []


def run(asked: argparse.Namespace) -> int:
    home = assembled.home(asked.project)
    usual = own_index.usual_own(asked.project) if scripts.is_script(asked.project) else own_index.usual(home)
    index = asked.index or (usual if os.path.isdir(usual) else None)
    if index is not None and not os.path.isdir(index):
        raise Refused(f"{index}: there is no such folder; `{command('index')} {asked.project} {index}` makes it", 3)
    found = list(findings(asked.project, index))
    if asked.json:
        console.print_object({"findings": [it._asdict() for it in found]})
        return status_of(found)
    screen = Screen(asked.color)
    for finding in found:
        line = printing.wrapped(f"{finding.kind}: {console.escaped(finding.text)}")
        screen.told(line, KINDS[finding.kind], ":")
    if not found:
        print(f"{asked.project}: nothing was found")
    return status_of(found)


def findings(path: str, index: Optional[str]) -> Iterator[Finding]:
    """What is found in a project file, the sources that it names and its workspace among it."""
    with contextlib.ExitStack() as held:
        try:
            given = held.enter_context(assembled.given(path))
        except Refused as fault:
            yield Finding("error", str(fault))
            yield from Doctor(path, index).misspelt()
            return
        lock = os.path.join(os.path.dirname(given.named), "unilock.lock")
        folder = None if index is None else held.enter_context(overlaid.of_given(given, index, lock))
        for finding in Doctor(given.named, folder, given).findings():
            yield finding._replace(text=finding.text.replace(str(folder), str(index)))


def status_of(found: List[Finding]) -> int:
    return 1 if any(it.kind != "note" for it in found) else 0


def main(words: Optional[List[str]] = None) -> int:
    asked = parser().read(words)
    return console.ended("doctor", lambda: run(asked))
