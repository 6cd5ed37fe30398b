"""Reading a `poetry.lock` (lock versions 1.1, 2.0 and 2.1).

Up to 2.0 a package names what it depends on by requirements: the edge leads to the locked version of that name. Where
several are locked and several would do, Poetry chooses when it installs, and the lock can't be judged. From 2.1 on each
package has the groups and the marker by which it is installed, so the lock is one of rows.
"""

from __future__ import annotations

import re
from dataclasses import dataclass, field
from typing import Any, Dict, Iterator, List, Optional, Tuple, Union

from . import markers
from .archives import FILE_NAME
from .edges import Need, needs_of, untold_group, walked
from .foreign import Foreign, Key, Target
from .marker_texts import ALWAYS, NEVER, at_node, every, of_bound, some, truth_text, with_extra
from .poetry import specifiers
from .project import Project
from .required import Required
from .rows import Rows, Selection, selected
from .tables import Table, Unread, name_at, shortly
from .versions import NoReading, meets, specifiers_of, version_of

EDGES, ROWS = ("1.1", "2.0"), ("2.1",)
# What a package is, and how it is built.
PACKAGE = ["description", "category", "develop"]
# A bound on the interpreter, which the index folder's document says.
BOUND = ["python-versions"]
# By what the lock's file was made.
METADATA = ["content-hash"]
# Where a package that is asked for comes from; the locked package says that itself.
ORIGIN = ["source", "allow-prereleases", "develop", "subdirectory", "git", "branch", "tag", "rev", "path", "url"]
# Extras of the project itself, which the project file says.
TOP = ["extras"]
EXTRA = re.compile(r"\s*([A-Za-z0-9._-]+)\s*(?:\[([^\]]*)\])?([^;]*)(?:;(.*))?\Z", re.S)


@dataclass
class Locked:
    """A package of the lock: what it depends on, and where it is installed."""

    key: Key
    source: str = ""
    optional: bool = False
    depends: List["Asked"] = field(default_factory=list)
    extras: Dict[str, List[str]] = field(default_factory=dict)
    files: Dict[str, str] = field(default_factory=dict)
    groups: List[str] = field(default_factory=list)
    markers: Union[str, Dict[str, str]] = ""


@dataclass
class Asked:
    """A dependency as the lock has it."""

    need: Need
    marker: Optional[markers.Marker]
    optional: bool


def marker_of(text: str, place: str) -> Optional[markers.Marker]:
    """A marker; none where the text is empty, as it is where nothing is asked for."""
    try:
        return markers.read(text) if text.strip() else None
    except markers.NoMarker as fault:
        raise Unread(f"{place}: {fault}: {shortly(text)}") from None


def bound_text(constraint: str, place: str) -> str:
    """A constraint on the interpreter as a marker."""
    found = specifiers(constraint)
    if found is None:
        raise Unread(f"{place} isn't read: {shortly(constraint)}")
    return of_bound(found)


def dependency(name: str, value: Any, place: str, unread: List[str]) -> Asked:
    table = Table({"version": value} if isinstance(value, str) else value, place, unread)
    constraint = table.text("version")
    found = None if constraint is None else specifiers(constraint)
    conditions = [bound_text(it, table.at("python")) for it in [table.text("python")] if it is not None]
    marker = marker_of(table.text("markers") or "", table.at("markers"))
    optional = table.truth("optional")
    extras = tuple(table.names("extras"))
    table.end(ORIGIN)
    clauses = None if found is None else specifiers_of(found)
    return Asked(Need(name, extras, clauses, every(conditions)), marker, optional)


def dependencies(table: Table) -> Iterator[Asked]:
    for key, value in table.value.items():
        name = name_at(key, f"{table.place}: a dependency")
        for one in value if isinstance(value, list) else [value]:
            yield dependency(name, one, table.at(key), table.unread)


def package(table: Table, lock_version: str) -> Locked:
    name, version = table.name("name"), table.version("version")
    if version is None:
        raise Unread(f"{name} has no version")
    found = Locked((name, version))
    table.place = f"{name} {version}"
    source = table.table("source")
    if source is not None:
        kind = source.wanted("type")
        found.source = "" if kind == "legacy" else f"{kind} {source.text('url')}"
        source.end(["url", "reference", "resolved_reference", "subdirectory"])
    found.optional = table.truth("optional")
    depends, extras = table.table("dependencies"), table.table("extras")
    if depends is not None:
        found.depends = list(dependencies(depends))
    if extras is not None:
        for key in extras.value:
            found.extras[name_at(key, f"{table.place}: an extra")] = extras.texts(key)
    for file in table.tables("files"):
        add_file(found, file)
    if lock_version in ROWS:
        found.groups = table.names("groups")
        found.markers = table.take("markers") or ""
    table.end([*PACKAGE, *BOUND])
    return found


def add_file(found: Locked, file: Table) -> None:
    name, summed = file.wanted("file"), file.wanted("hash")
    file.end()
    if re.fullmatch("sha256:[0-9a-f]{64}", summed) and FILE_NAME.match(name):
        found.files[name] = summed.partition(":")[2]


def needs_at(locked: Locked, extra: str) -> Iterator[Need]:
    """What a package, or an extra of it, asks for by the lock."""
    listed = [entry(it, locked) for it in locked.extras.get(extra, [])]
    names = {name for name, _, _ in listed}
    for asked in locked.depends:
        by_extra = any(it.variable == "extra" for it in markers.atoms(asked.marker))
        if asked.optional and not by_extra:
            # The extras' lists alone say who asks for it.
            text = truth_text(asked.marker or True) if extra and asked.need.name in names else NEVER
        else:
            text = at_node(asked.marker, extra)
        if text != NEVER:
            yield asked.need._replace(marker=every([asked.need.marker, text]))
    for name, others, marker in listed:
        if name == locked.key[0] and others:
            yield Need(name, others, [], ALWAYS if marker is None else truth_text(with_extra(marker, extra)))


def entry(text: str, locked: Locked) -> Tuple[str, Tuple[str, ...], Optional[markers.Marker]]:
    """What an extra's list names: a package, extras of it, and a marker."""
    place = f"{locked.key[0]} {locked.key[1]}: its extras"
    found = EXTRA.match(text)
    if found is None:
        raise Unread(f"{place} aren't read: {shortly(text)}")
    others = [it.strip() for it in (found[2] or "").split(",") if it.strip()]
    return name_at(found[1], place), tuple(name_at(it, place) for it in others), marker_of(found[4] or "", place)


def with_edges(packages: List[Locked], required: Required, supported: str, unread: List[str]) -> Foreign:
    """A lock whose packages name requirements."""
    by_name: Dict[str, List[Locked]] = {}
    by_key = {it.key: it for it in packages}
    for it in packages:
        by_name.setdefault(it.key[0], []).append(it)

    def needs(at: Target) -> List[Need]:
        root = at.name == required.project.name
        return needs_of(required, at) if root else list(needs_at(by_key[at.name, at.version], at.extra))

    def choices(need: Need) -> List[Tuple[Key, str]]:
        fitting = by_name.get(need.name, [])
        if len(fitting) > 1 and need.clauses is not None:
            fitting = [it for it in fitting if meets(need.clauses, version_of(it.key[1]))]
        if len(fitting) > 1:
            listed = " and ".join(it.key[1] for it in fitting)
            unread.append(f"{need.name} is locked as {listed}, and more than one of them would do where it is required")
        return [(it.key, ALWAYS) for it in fitting]

    found = walked(required.project, needs, choices)
    found.supported, found.unread = supported, unread
    for key, block in found.blocks.items():
        if key in by_key:
            block.source, block.files = by_key[key].source, by_key[key].files
    return found


def row_marker(locked: Locked, group: str) -> str:
    """The marker by which a package is installed with a group."""
    found = locked.markers
    if isinstance(found, dict):
        found = found.get(group, "")
    if not isinstance(found, str):
        raise Unread(f"{locked.key[0]} {locked.key[1]}: its markers aren't read: {shortly(found)}")
    return found


def installed(locked: Locked, group: str, extra: str) -> str:
    """Where a package is installed with a group of requirements and an extra of the project, or without (empty)."""
    if group not in locked.groups:
        return NEVER
    what = f"{locked.key[0]} {locked.key[1]}"
    marker = marker_of(row_marker(locked, group), what)
    asked = any(it.variable == "extra" for it in markers.atoms(marker))
    if locked.optional and not asked and group == "main":
        raise Unread(f"{what} is optional, and no marker says with which extra it is installed")
    return selected(marker, extra, what)


def with_rows(packages: List[Locked], project: Project, supported: str, unread: List[str]) -> Rows:
    """A lock whose packages say where they are installed: without extras, and with each extra and each group."""
    files = {it.key: it.files for it in packages}
    unread += [f"the lock takes {it.key[0]} {it.key[1]} from {it.source}" for it in packages if it.source]
    named = sorted({group for it in packages for group in it.groups} - {"main"})
    unread += [untold_group(it) for it in named if f"group-{it}" not in project.extras()]
    base = {it.key: installed(it, "main", "") for it in packages}
    selections = [Selection((), base)]
    for extra in project.extras():
        group = extra[len("group-") :] if extra.startswith("group-") else "main"
        more = {it.key: installed(it, group, "" if group != "main" else extra) for it in packages}
        selections.append(Selection((extra,), {key: some([base[key], text]) for key, text in more.items()}))
    return Rows(supported, selections, files, unread)


def groups_of(project: Project) -> Iterator[str]:
    """What Poetry's own tables of the project file ask for that the project's standard tables don't: it isn't read."""
    tool = project.tables.get("tool")
    poetry = tool.get("poetry") if isinstance(tool, dict) else None
    if isinstance(poetry, dict):
        groups = poetry.get("group")
        names = [*(groups if isinstance(groups, dict) else []), *(["dev"] if poetry.get("dev-dependencies") else [])]
        yield from (untold_group(it) for it in names if f"group-{it}" not in project.extras())


def read(tables: Dict[str, Any], required: Required) -> Union[Foreign, Rows]:
    unread = list(groups_of(required.project))
    top = Table(tables, "", unread)
    metadata = top.table("metadata")
    if metadata is None:
        raise Unread("it has no [metadata]")
    lock_version = metadata.wanted("lock-version")
    if lock_version not in (*EDGES, *ROWS):
        raise Unread(f"it is of lock version {shortly(lock_version)}, which isn't read")
    try:
        bound = bound_text(metadata.wanted("python-versions"), "metadata.python-versions")
    except NoReading as fault:
        raise Unread(f"metadata.python-versions: {fault}") from None
    packages = [package(it, lock_version) for it in top.tables("package")]
    keys = [it.key for it in packages]
    if len(set(keys)) != len(keys):
        raise Unread("it has a package of one name and version twice")
    metadata.end([*METADATA, *(["files"] if lock_version == "1.1" else [])])
    top.end(TOP)
    supported = every([bound, some(required.project.environments() or [ALWAYS])])
    if lock_version in ROWS:
        return with_rows(packages, required.project, supported, unread)
    return with_edges(packages, required, supported, unread)
