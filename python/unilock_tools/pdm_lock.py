"""Reading a `pdm.lock` (lock versions 4.0 to 4.5).

A package names what it depends on by requirements: the edge leads to the locked version of that name. An extra of a
package is a package of its own there, with its list. With the strategy `inherit_metadata` each has the groups and the
marker by which it is installed, so the lock is one of rows.
"""

from __future__ import annotations

import re
from dataclasses import dataclass, field
from typing import Any, Dict, Iterator, List, Optional, Set, Tuple, Union

from .archives import FILE_NAME
from .edges import Need, needs_of, untold_group, walked
from .foreign import Foreign, Key, Target
from .marker_texts import ALWAYS, NEVER, every, of_bound, some, text_of
from .project import Project
from .readings import Requirement, requirement_of
from .required import Required
from .rows import Rows, Selection
from .tables import Table, Unread, marker_line, shortly
from .versions import NoReading, meets, version_of

VERSIONS = ["4.0", "4.1", "4.2", "4.3", "4.4", "4.4.1", "4.4.2", "4.5.0"]
# From these on the lock says for which platforms it was made.
SAYS_PLATFORMS = VERSIONS[4:]
# What a package is, and a bound on the interpreter, which the index folder's document says.
PACKAGE = ["summary", "requires_python"]
METADATA = ["content_hash"]
# How versions and files were chosen.
STRATEGIES = ["cross_platform", "static_urls", "direct_minimal_versions", "inherit_metadata"]
ORIGINS = ["git", "path", "url"]
ORIGIN = ["ref", "revision", "editable", "subdirectory"]


@dataclass
class Locked:
    """A package of the lock, or an extra of one: what it depends on, and where it is installed."""

    key: Key
    extra: str
    source: str = ""
    depends: List[Requirement] = field(default_factory=list)
    files: Dict[str, str] = field(default_factory=dict)
    groups: List[str] = field(default_factory=list)
    marker: str = ALWAYS


def package(table: Table) -> Iterator[Locked]:
    """A package, or each of the extras that one table is of."""
    name, version = table.name("name"), table.version("version")
    if version is None:
        raise Unread(f"{name} has no version")
    table.place = f"{name} {version}"
    origins = [f"{it} {table.text(it)}" for it in ORIGINS if table.text(it) is not None]
    texts, extras = table.texts("dependencies"), table.names("extras")
    try:
        depends = [requirement_of(it) for it in texts]
    except NoReading as fault:
        raise Unread(f"{table.place}: {fault}") from None
    files: Dict[str, str] = {}
    add_files(files, table.tables("files"))
    groups = table.names("groups")
    text = table.text("marker")
    marker = ALWAYS if text is None else marker_line(text, table.at("marker"))
    table.end([*PACKAGE, *ORIGIN])
    for extra in extras or [""]:
        yield Locked((name, version), extra, ", ".join(origins), depends, files, groups, marker)


def add_files(files: Dict[str, str], tables: List[Table]) -> None:
    for table in tables:
        url, name, summed = table.text("url"), table.text("file"), table.wanted("hash")
        table.end()
        name = name or (url or "").partition("#")[0].rpartition("/")[2]
        if re.fullmatch("sha256:[0-9a-f]{64}", summed) and FILE_NAME.match(name):
            files[name] = summed.partition(":")[2]


class Lock:
    """The packages of a lock by name and extra, and what it says of itself."""

    def __init__(self, tables: Dict[str, Any], unread: List[str]) -> None:
        self.unread = unread
        top = Table(tables, "", unread)
        metadata = top.table("metadata")
        if metadata is None:
            raise Unread("it has no [metadata]")
        self.version = metadata.wanted("lock_version")
        if self.version not in VERSIONS:
            raise Unread(f"it is of lock version {shortly(self.version)}, which isn't read")
        self.packages = [it for table in top.tables("package") for it in package(table)]
        self.groups, self.strategy = metadata.names("groups"), metadata.texts("strategy")
        unread += [f"its strategy {shortly(it)} isn't read" for it in self.strategy if it not in STRATEGIES]
        self.bounds = [self.target(it) for it in metadata.tables("targets")]
        if self.version in SAYS_PLATFORMS and not self.bounds and "cross_platform" not in self.strategy:
            unread.append("it is made for the platform alone on which it was locked")
        listed = metadata.table("files")
        if listed is not None:
            self.add_listed(listed)
        metadata.end(METADATA)
        top.end()
        self.by_node: Dict[Target, Locked] = {}
        for it in self.packages:
            node = Target(*it.key, it.extra)
            if node in self.by_node:
                raise Unread(f"it has {it.key[0]} {it.key[1]} twice")
            self.by_node[node] = it

    @staticmethod
    def target(table: Table) -> str:
        """The interpreters of a target, which is for all platforms."""
        bound = table.text("requires_python") or ""
        table.end()
        try:
            return of_bound("" if bound == "*" else bound)
        except NoReading as fault:
            raise Unread(f"{table.place}: {fault}") from None

    def add_listed(self, table: Table) -> None:
        """The files of lock versions that list them apart, by `NAME VERSION`."""
        by_key = {f"{it.key[0]} {it.key[1]}": it.files for it in self.packages}
        for key in table.value:
            name, _, version = key.partition(" ")
            add_files(by_key.get(f"{name} {version}", {}), table.tables(key))

    def names(self) -> Dict[str, List[Key]]:
        found: Dict[str, List[Key]] = {}
        for it in self.packages:
            if it.key not in found.setdefault(it.key[0], []):
                found[it.key[0]].append(it.key)
        return found


def with_edges(lock: Lock, required: Required, supported: str) -> Foreign:
    """A lock whose packages name requirements."""
    by_name = lock.names()

    def needs(at: Target) -> List[Need]:
        if at.name == required.project.name:
            return needs_of(required, at)
        found = lock.by_node.get(at)
        # That an extra goes with its package needs no edge of its own.
        mine = [it for it in (found.depends if found is not None else []) if it.name != at.name or it.extras]
        return [Need(it.name, it.extras, it.clauses, text_of(it.marker)) for it in mine]

    def choices(need: Need) -> List[Tuple[Key, str]]:
        fitting = by_name.get(need.name, [])
        if len(fitting) > 1 and need.clauses is not None:
            fitting = [it for it in fitting if meets(need.clauses, version_of(it[1]))]
        if len(fitting) > 1:
            listed = " and ".join(version for _, version in fitting)
            lock.unread.append(f"{need.name} is locked as {listed}, and more than one of them would do")
        return [(it, ALWAYS) for it in fitting]

    found = walked(required.project, needs, choices)
    found.supported, found.unread = supported, lock.unread
    for it in lock.packages:
        block = found.blocks.get(it.key)
        if block is not None:
            block.source = block.source or it.source
            block.files.update(it.files)
    return found


def group_extra(group: str, project: Project) -> Optional[str]:
    """The extra of the project that a group of the lock is: empty for what is always installed, None for neither."""
    if group == "default":
        return ""
    return next((it for it in (group, f"group-{group}") if it in project.extras()), None)


def with_rows(lock: Lock, project: Project, supported: str) -> Rows:
    """A lock whose packages say where they are installed: without extras, and with each of the groups."""
    lock.unread += [f"the lock takes {it.key[0]} {it.key[1]} from {it.source}" for it in lock.packages if it.source]
    where: Dict[str, Dict[Key, List[str]]] = {extra: {} for extra in ["", *project.extras()]}
    untold: Set[str] = set()
    for it in lock.packages:
        for group in it.groups:
            extra = group_extra(group, project)
            if extra is None:
                untold.add(group)
            else:
                where[extra].setdefault(it.key, []).append(it.marker)
    lock.unread += [untold_group(it) for it in sorted(untold)]
    files: Dict[Key, Dict[str, str]] = {}
    for it in lock.packages:
        files.setdefault(it.key, {}).update(it.files)
    base = {key: some(texts) for key, texts in where[""].items()}
    selections = [Selection((), base)]
    for extra in project.extras():
        more = {key: some([base.get(key, NEVER), *texts]) for key, texts in where[extra].items()}
        selections.append(Selection((extra,), {**base, **more}))
    return Rows(supported, selections, files, lock.unread)


def read(tables: Dict[str, Any], required: Required) -> Union[Foreign, Rows]:
    unread: List[str] = []
    lock, project = Lock(tables, unread), required.project
    tool = project.tables.get("tool")
    pdm = tool.get("pdm") if isinstance(tool, dict) else None
    groups = pdm.get("dev-dependencies") if isinstance(pdm, dict) else None
    named = [*(groups if isinstance(groups, dict) else []), *lock.groups]
    unread += [untold_group(it) for it in dict.fromkeys(named) if group_extra(it, project) is None]
    environments = some(project.environments() or [ALWAYS])
    supported = every([some(lock.bounds), environments]) if lock.bounds else project.supported()
    if "inherit_metadata" in lock.strategy:
        return with_rows(lock, project, supported)
    return with_edges(lock, required, supported)
