"""Reading a `uv.lock` (version 1, revisions to 3).

What the lock says of a package is its edges, each to a version of another package, with a marker. Each key is read, or
stands below among those that say nothing of what is installed where; a lock with another key isn't judged.
"""

from __future__ import annotations

import re
from functools import lru_cache
from typing import Any, Dict, List, Optional, Tuple
from urllib.parse import unquote, urlsplit

from . import markers
from .archives import FILE_NAME
from .foreign import Block, Foreign, Target
from .marker_texts import every, of_bound, some
from .tables import Table, Unread, name_at, shortly
from .versions import NoReading

VERSION, REVISIONS = 1, range(4)
# The members of a workspace and the requirements that were locked, which the project file says; and what the versions
# were chosen by.
MANIFEST = [
    "members", "requirements", "dependency-groups", "constraints", "overrides", "excludes", "build-constraints",
    "dependency-metadata",
]  # fmt: skip
OPTIONS = [
    "resolution-mode", "prerelease-mode", "fork-strategy", "exclude-newer", "exclude-newer-span",
    "exclude-newer-package",
]  # fmt: skip
# Platforms for which there had to be a wheel.
LOCK = ["required-markers"]
# The requirements that the edges were made from, and the forks in which a package was chosen, which its edges say.
PACKAGE = ["resolution-markers"]
METADATA = ["requires-dist"]
FILE = ["size", "upload-time", "upload_time", "zstd"]
SOURCES = ["registry", "git", "url", "path", "directory", "editable", "virtual"]
GROUPS = ["dev-dependencies", "dependency-groups"]


class Listed:
    """A package of the lock with where it comes from."""

    def __init__(self, table: Table, root: str, project_version: str) -> None:
        self.table, self.name = table, table.name("name")
        found = table.version("version")
        self.source = source_of(table)
        if found is None and self.name != root:
            raise Unread(f"{self.name} has no version, since it is built from {place_of(self.source)}")
        self.version = project_version if found is None else found
        self.block = Block(self.name, self.version, place_of(self.source))
        table.place = str(self.block)


def source_of(table: Table) -> Dict[str, Any]:
    """Where a package comes from, as a table of one kind."""
    found = table.table("source")
    if found is None:
        raise Unread(f"{table.place} has no source")
    kinds = [it for it in SOURCES if found.text(it) is not None]
    found.end(["subdirectory"])
    if len(kinds) != 1:
        raise Unread(f"{found.place} isn't read: {shortly(found.value)}")
    return found.value


def place_of(source: Dict[str, Any]) -> str:
    """Where a package comes from, in words; nothing where it comes from a package index."""
    return "" if "registry" in source else ", ".join(f"{key} {value}" for key, value in source.items())


def read(tables: Dict[str, Any], root: str, project_version: str) -> Foreign:
    """The lock in common form; `root` is the project's name, and its version counts where the lock has none."""
    unread: List[str] = []
    top = Table(tables, "", unread)
    version, revision = top.take("version"), top.take("revision")
    if version != VERSION or (revision or 0) not in REVISIONS or isinstance(revision, bool):
        raise Unread(f"it is of version {shortly(version)}, revision {shortly(revision)}, which isn't read")
    packages = [Listed(it, root, project_version) for it in top.tables("package")]
    roots = [it for it in packages if it.name == root]
    if len(roots) != 1:
        raise Unread(f"it has {len(roots) or 'no'} packages of the project's name {root}")
    found = Foreign((root, roots[0].version), supported(top), top.texts("resolution-markers"), unread=unread)
    for table, known in [(top.table("manifest"), MANIFEST), (top.table("options"), OPTIONS)]:
        if table is not None:
            table.end(known)
    if top.items("conflicts"):
        unread.append("its `conflicts` can't be said: extras that exclude each other have no place in the lock's form")
    for it in packages:
        found.add(it.block)
    by_name = Named(packages)
    for it in packages:
        fill(it, by_name, found)
    top.end(LOCK)
    return found


def supported(top: Table) -> str:
    """The environments that the lock is made for: by its bound on the interpreter, and its list where it has one."""
    try:
        bound = of_bound(top.wanted("requires-python"))
    except NoReading as fault:
        raise Unread(f"requires-python: {fault}") from None
    listed = [marker_at(it, "supported-markers") for it in top.texts("supported-markers")]
    return every([bound, some(listed)]) if listed else bound


@lru_cache(maxsize=1 << 16)
def extras_in(text: str) -> List[str]:
    """The extras that a marker asks for."""
    return [it.literal for it in markers.atoms(markers.read(text)) if it.variable == "extra"]


def marker_at(text: str, place: str) -> str:
    """A marker that speaks of environments alone, and not of the extras that are chosen."""
    try:
        asked = extras_in(text)
    except markers.NoMarker as fault:
        raise Unread(f"{place}: {fault}: {shortly(text)}") from None
    if asked:
        raise Unread(f"{place}: a marker that asks for the extra {shortly(asked[0])} can't be said")
    return text.strip()


class Named:
    """The packages of a lock, by the names by which edges lead to them."""

    def __init__(self, packages: List[Listed]) -> None:
        self.found: Dict[Tuple[str, Optional[str]], List[Listed]] = {}
        for it in packages:
            for version in (None, it.version):
                self.found.setdefault((it.name, version), []).append(it)

    def of(self, edge: Table) -> Tuple[str, List[Listed]]:
        """What an edge leads to in words, and the packages that this may be."""
        name, version = edge.name("name"), edge.version("version")
        source = source_of(edge) if edge.has("source") else None
        fitting = [it for it in self.found.get((name, version), []) if source in (None, it.source)]
        return name if version is None else f"{name} {version}", fitting


def fill(listed: Listed, by_name: Named, found: Foreign) -> None:
    """Reads the edges and the files of a package."""
    table, block = listed.table, listed.block
    for edge in table.tables("dependencies"):
        follow(block, "", edge, by_name, found)
    optional = table.table("optional-dependencies")
    for extra in optional.left.copy() if optional is not None else []:
        extend(block, name_at(extra, f"{block}: an extra"), optional, extra, by_name, found)
    for key in GROUPS:
        groups = table.table(key)
        # A group of another project is nothing that this one installs.
        for group in groups.left.copy() if groups is not None and (block.name, block.version) == found.root else []:
            extend(block, f"group-{name_at(group, f'{block}: a group')}", groups, group, by_name, found)
    metadata = table.table("metadata")
    if metadata is not None:
        for extra in metadata.names("provides-extras"):
            block.lists.setdefault(extra, {})
        metadata.end([*METADATA, "requires-dev", "dependency-groups"])
    for file in [it for it in [table.table("sdist")] if it is not None] + table.tables("wheels"):
        add_file(block, file)
    table.end(PACKAGE)


def extend(block: Block, extra: str, table: Optional[Table], key: str, by_name: Named, found: Foreign) -> None:
    assert table is not None, "its keys are read"
    if extra in block.lists:
        raise Unread(f"{block} has the extra {extra} twice")
    block.lists[extra] = {}
    for edge in table.tables(key):
        follow(block, extra, edge, by_name, found)


def follow(block: Block, extra: str, edge: Table, by_name: Named, found: Foreign) -> None:
    """Adds an edge: to its package, and to each extra of it that it asks for."""
    what, fitting = by_name.of(edge)
    text = edge.text("marker")
    marker = "*" if text is None else marker_at(text, f"{block}: the edge to {what}")
    asked = edge.names("extra")
    edge.end()
    if len(fitting) > 1:
        raise Unread(f"{block} has an edge to {what}, which several packages are")
    if not fitting:
        found.wrong.append(f"{block} has an edge to {what}, which the lock has no package of")
        return
    for one in ["", *asked]:
        block.add(extra, Target(fitting[0].name, fitting[0].version, one), marker)


def add_file(block: Block, file: Table) -> None:
    """Adds a file with its hash, where it has one that a lock can have."""
    place = file.text("filename") or file.text("path") or unquote(urlsplit(file.text("url") or "").path)
    file.take("url"), file.take("path")
    name = re.split(r"[/\\]", place)[-1]
    kind, _, summed = (file.text("hash") or "").partition(":")
    file.end(FILE)
    if kind == "sha256" and re.fullmatch("[0-9a-fA-F]{64}", summed) and FILE_NAME.match(name):
        if block.files.setdefault(name, summed.lower()) != summed.lower():
            raise Unread(f"{block} has two hashes of {name}")
