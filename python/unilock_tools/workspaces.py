"""Workspaces: projects that are locked together (`tool.uv.workspace` with `members` and `exclude`).

The root is the folder whose project file has that table; a project below it that its patterns name is a member. Each
member is a project with a name of its own. Patterns and members stay within the root: none leads out of it, by `..`, by
an absolute path or by a link.
"""

from __future__ import annotations

import re
from collections.abc import Iterator
from pathlib import Path
from typing import NamedTuple

from . import console, labels, markers, sources
from .console import Refused
from .labels import Labels
from .profile import Tables, table, uv_table
from .vendored import has_toml_reader, toml_of
from .versions import NAME, Version, meets, normal_name, specifiers_fault, specifiers_of, version_of

FILE = "pyproject.toml"
MOST_MEMBERS = 5_000
# Folders that a pattern such as `packages/*` finds and that aren't meant.
PASSED_OVER = re.compile(r"\.|__pycache__\Z|node_modules\Z")


class Member(NamedTuple):
    """A project of a workspace: its name in normal form, its folder and its tables."""

    name: str
    folder: Path
    tables: Tables


class Workspace(NamedTuple):
    """A root's project file with its tables, and the members by their names; without members where none are
    declared."""

    path: Path
    tables: Tables
    members: dict[str, Member]
    is_declared: bool

    @property
    def folder(self) -> Path:
        return self.path.parent

    @property
    def name(self) -> str:
        """The name of the project that is locked: the root's, or without one its folder's with `-workspace` behind it,
        so that it is no package's that somebody requires."""
        named = name_in(self.tables)
        if named is not None:
            return normal_name(named)
        plain = re.sub(r"[^A-Za-z0-9._-]", "-", self.folder.resolve().name)
        made = normal_name(f"{plain}-workspace").strip("-")
        return f"{made}-root" if made in self.members else made

    @property
    def is_virtual(self) -> bool:
        """Whether its root is no project, and stands for its members alone."""
        return "project" not in self.tables

    def member_of(self, folder: Path) -> Member | None:
        """The member that a folder lies in."""
        here = folder.resolve()
        found = [it for it in self.members.values() if here.is_relative_to(it.folder.resolve())]
        return max(found, key=lambda it: len(it.folder.resolve().parts)) if found else None


def name_in(tables: Tables) -> str | None:
    found = table(tables.get("project")).get("name")
    return found if isinstance(found, str) and NAME.match(found) else None


def settings_in(tables: Tables) -> Tables | None:
    found = uv_table(tables).get("workspace")
    return found if isinstance(found, dict) else None


def patterns(path: Path, settings: Tables, key: str) -> list[str]:
    """The patterns at a key, none of which leads out."""
    found = settings.get(key, [])
    place = f"{path}: tool.uv.workspace.{key}"
    if not isinstance(found, list) or not all(isinstance(it, str) and it for it in found):
        raise Refused(f"{place}: it isn't a list of patterns", 3)
    for pattern in found:
        parts = re.split(r"[/\\]", pattern)
        if pattern.startswith(("/", "\\")) or ".." in parts or ":" in parts[0] or "\0" in pattern:
            raise Refused(f"{place}: {console.escaped(pattern)} leads out of the workspace", 3)
    return list(found)


def folders(root: Path, settings: Tables, key: str) -> Iterator[Path]:
    for pattern in patterns(root / FILE, settings, key):
        cleaned = pattern.strip("/") or "."
        yield from [root] if cleaned == "." else sorted(it for it in root.glob(cleaned) if it.is_dir())


def member_folders(root: Path, settings: Tables) -> list[Path]:
    """The folders that a root's patterns name, but for those that it excludes and for itself."""
    left = set(folders(root, settings, "exclude"))
    found: dict[Path, None] = {}
    for folder in folders(root, settings, "members"):
        if folder == root or left & {folder, *folder.parents}:
            continue
        if not folder.resolve().is_relative_to(root.resolve()):
            raise Refused(f"{root / FILE}: tool.uv.workspace: {folder} is a link that leads out of the workspace", 3)
        if (folder / FILE).is_file():
            found[folder] = None
        elif not PASSED_OVER.match(folder.name):
            way = "`exclude` leaves it out"
            raise Refused(f"{root / FILE}: tool.uv.workspace.members: {folder} has no {FILE}; {way}", 3)
        if len(found) > MOST_MEMBERS:
            raise Refused(f"{root / FILE}: tool.uv.workspace has more than {MOST_MEMBERS} members", 4)
    return list(found)


def root_of(folder: Path, within: Path | None = None) -> Path:
    """The root of the workspace that a folder is a member of, or lies in one; else the folder itself, or where it has
    no project file the nearest one above that has. With `within` nothing above that is looked at."""
    here = folder.resolve()
    own = next((it for it in upwards(here, within) if (it / FILE).is_file()), here)
    if (own / FILE).is_file() and settings_in(toml_of(str(own / FILE))) is not None:
        return own
    for parent in upwards(own.parent, within):
        settings = settings_in(toml_of(str(parent / FILE))) if (parent / FILE).is_file() else None
        if settings is not None:
            return parent if own in [it.resolve() for it in member_folders(parent, settings)] else own
    return own


def upwards(folder: Path, within: Path | None) -> Iterator[Path]:
    for it in (folder, *folder.parents):
        if within is not None and not it.is_relative_to(within.resolve()):
            return
        yield it


def load(path: Path, changed: dict[Path, Tables] | None = None) -> Workspace:
    """The workspace of a root's project file, or the one project that it is. `changed` has tables that count in place
    of what some files say."""
    known = {} if changed is None else {key.resolve(): it for key, it in changed.items()}

    def tables_at(file: Path) -> Tables:
        found = known.get(file.resolve())
        return toml_of(str(file)) if found is None else found

    folder, tables = path.parent, tables_at(path)
    settings = settings_in(tables)
    members: dict[str, Member] = {}
    own = normal_name(name_in(tables) or "")
    for place in [] if settings is None else member_folders(folder, settings):
        one = member_at(place, tables_at(place / FILE))
        if one is None:
            continue
        other = folder if one.name == own else members[one.name].folder if one.name in members else None
        if other is not None:
            raise Refused(f"{place / FILE}: {one.name} is the name of another member, {other / FILE}", 3)
        members[one.name] = one
    return Workspace(path, tables, members, settings is not None)


def member_at(folder: Path, tables: Tables) -> Member | None:
    """The member of a folder; None where its project file says that it isn't managed."""
    if uv_table(tables).get("managed") is False:
        return None
    if "workspace" in uv_table(tables):
        raise Refused(f"{folder / FILE}: a member has a workspace of its own; `exclude` leaves it out", 3)
    name = name_in(tables)
    if name is None:
        raise Refused(f"{folder / FILE}: a member has no [project] with a name; `exclude` leaves it out", 3)
    return Member(normal_name(name), folder, tables)


def found_for(path: Path, changed: Tables | None = None) -> Workspace | None:
    """The workspace of a project file, or the one project that it is; None where there is no reader of TOML, or no
    such file. `changed` has the tables that count for this file."""
    if not has_toml_reader():
        return None
    own = {} if changed is None else {path: changed}
    is_root = path.name != FILE or (changed is not None and settings_in(changed) is not None)
    root = path if is_root else shortest(root_of(path.parent)) / FILE
    return load(root, own) if changed is not None or root.is_file() else None


def shortest(folder: Path) -> Path:
    """A folder's path as a person writes it from here, where it lies above or below."""
    here = Path.cwd()
    if folder.is_relative_to(here):
        return folder.relative_to(here)
    if here.is_relative_to(folder):
        return Path(*[".."] * (len(here.parts) - len(folder.parts)))
    return folder


def labels_in(workspace: Workspace) -> dict[str, Labels]:
    """The sources of each name in a whole workspace, whose projects agree on them. A requirement's own URL counts
    before them."""
    found: dict[str, tuple[Labels, Path]] = {}
    by_url: set[str] = set()
    members = [(it.tables, it.folder / FILE) for it in workspace.members.values()]
    for tables, path in [(workspace.tables, workspace.path), *members]:
        by_url |= set(sources.named_by(tables, str(path)))
        for name, one in labels.read(tables, str(path)).items():
            first, by = found.setdefault(name, (one, path))
            if first != one:
                is_one = len(first) == len(one) == 1 and not (first[0].marker or one[0].marker)
                what = "its index isn't the one that" if is_one else "its sources aren't those that"
                raise Refused(f"{path}: {labels.PLACE}.{name}: {what} {by} names", 3)
    return {name: one for name, (one, _) in found.items() if name not in by_url}


def requires_python(workspace: Workspace) -> str:
    """The bound that all projects of a workspace keep, refused where no interpreter does."""
    bounds: dict[str, Path] = {}
    places = [(workspace.folder, workspace.tables), *((it.folder, it.tables) for it in workspace.members.values())]
    for folder, tables in places:
        stated = table(tables.get("project")).get("requires-python", "")
        if not isinstance(stated, str) or specifiers_fault(stated) is not None:
            fault = specifiers_fault(stated) if isinstance(stated, str) else "it isn't a text"
            raise Refused(f"{folder / FILE}: project.requires-python: {fault}", 3)
        for clause in filter(None, (it.strip() for it in stated.split(","))):
            bounds.setdefault(clause, folder / FILE)
    joined = ",".join(bounds)
    if not any(meets(specifiers_of(joined), it) for it in candidates(joined)):
        told = "; ".join(f"{clause} ({path})" for clause, path in bounds.items())
        raise Refused(f"no interpreter keeps the requires-python of all members: {told}", 3)
    return joined


def candidates(bound: str) -> Iterator[Version]:
    """Interpreters of which each piece that a bound's versions cut has one."""
    return (version_of(it) for it in markers.python_points(None, bound))
