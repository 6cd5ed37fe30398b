"""The project file that the program is handed where the tools settle what it doesn't read: URLs, and workspaces.

A requirement by a URL becomes one on its name: the index folder has of such a name the one release that the URL gives,
so no other can be chosen. Of `tool.uv.sources` stays what the program reads: the index of each, or that it has none,
and its marker. A workspace becomes one project: the root's, or one that is named after the root's folder and requires
each member; the extra `workspace` requires all members with all their extras and groups, so that one lock holds for all
of them. The root's settings count for the whole workspace.

The file is one of the wide profile. One that says `strict` is handed on as it stands.
"""

from __future__ import annotations

import contextlib
import os
import re
import tempfile
from collections.abc import Iterator
from pathlib import Path
from typing import NamedTuple

from . import labels, scripts, sources, workspaces
from .console import Refused, escaped
from .profile import Tables, has_sources, said, table, uv_table
from .profile import tables_of as tables_of_text
from .project import Project
from .source_trees import without_urls
from .toml_texts import tables_text
from .vendored import has_toml_reader, toml_of
from .workspaces import Member, Workspace, requires_python

# The extra of the root that stands for all that the members ask for.
EXTRA = "workspace"
# What of a project file the program reads; the rest isn't handed on.
PROJECT = ("name", "version", "requires-python", "dynamic", "dependencies", "optional-dependencies")


def is_wanted(workspace: Workspace) -> bool:
    """Whether the program is handed another file than the one that is there."""
    return said(workspace.tables) != "strict" and (workspace.is_declared or has_sources(workspace.tables))


def extras_of(member: Member) -> list[str]:
    """A member's extras, those that its groups are among them."""
    return Project(str(member.folder / "pyproject.toml"), without_urls(member.tables)).extras()


def tables_of(workspace: Workspace) -> Tables:
    """The tables of the file that is put together. Sources that have no reading are refused."""
    root = without_urls(workspace.tables)
    sources.wanted(workspace.tables, str(workspace.path), is_own=True)
    for member in workspace.members.values():
        sources.wanted(member.tables, str(member.folder / workspaces.FILE), is_own=True)
    if "workspace" in uv_table(root) and not workspace.is_declared:
        raise Refused(f"{workspace.path}: tool.uv.workspace: it isn't a table", 3)
    made: Tables = {"project": project_table(workspace, root)}
    if "dependency-groups" in root:
        made["dependency-groups"] = root["dependency-groups"]
    settings = {key: it for key, it in uv_table(root).items() if key not in ("sources", "workspace")}
    named = labels.as_tables(workspaces.labels_in(workspace))
    settings.update({"sources": named} if named else {})
    unilock = {"profile": "wide", **table(table(root.get("tool")).get("unilock"))}
    return {**made, "tool": {"uv": settings, "unilock": unilock}}


def project_table(workspace: Workspace, root: Tables) -> Tables:
    """The root's `[project]`, or one that is made, with what its members add."""
    own = {key: it for key, it in table(root.get("project")).items() if key in PROJECT}
    if workspace.is_virtual:
        own = {"name": workspace.name, "version": "0", "dependencies": sorted(workspace.members)}
    if not workspace.is_declared:
        return own
    bound = requires_python(workspace)
    if bound:
        own["requires-python"] = bound
    extras = own.get("optional-dependencies", {})
    if isinstance(extras, dict):
        if EXTRA in extras:
            raise Refused(f"{workspace.path}: project.optional-dependencies.{EXTRA}: this extra is the workspace's", 3)
        own["optional-dependencies"] = {**extras, EXTRA: [with_all(it) for _, it in sorted(workspace.members.items())]}
    return own


def with_all(member: Member) -> str:
    extras = extras_of(member)
    return f"{member.name}[{','.join(extras)}]" if extras else member.name


def index_tables(named: str, workspace: Workspace | None) -> Tables:
    """The tables that say which indexes are asked: those of the root's file, with the sources of the whole workspace as
    the program reads them."""
    if workspace is None:
        return toml_of(named)
    tables = workspace.tables
    uv = {**uv_table(tables), "sources": labels.as_tables(workspaces.labels_in(workspace))}
    return {**tables, "tool": {**table(tables.get("tool")), "uv": uv}}


def text_of(workspace: Workspace) -> str:
    """The file that is put together, as a text."""
    head = f"# Put together from {escaped(str(workspace.path))} for unilock."
    return f"{head}\n\n{tables_text(tables_of(workspace))}"


class Given(NamedTuple):
    """What a command works on: the project file that is handed on, the one that messages name, and its workspace where
    that is put together."""

    project: str
    named: str
    workspace: Workspace | None

    @property
    def lock(self) -> str:
        """Where its lock stands: `unilock.lock` beside a project file, `script.py.lock` beside a script."""
        beside = os.path.join(os.path.dirname(self.named), "unilock.lock")
        return scripts.lock_of(self.named) if scripts.is_script(self.named) else beside


@contextlib.contextmanager
def given(project: str, beside: str | None = None) -> Iterator[Given]:
    """The project file that stands for one that is named. With `beside` it is a changed copy of one that stands in that
    folder."""
    path = Path(project if beside is None else Path(beside) / Path(project).name)
    try:
        changed = None if beside is None else toml_of(project)
        workspace = scripts.workspace_of(path) if scripts.is_script(path) else None
        if workspace is None and (beside is not None or readable(path)):
            workspace = workspaces.found_for(path, changed)
    except OSError as fault:
        raise Refused(f"{fault.filename}: {fault.strerror or fault}", 3) from None
    if workspace is None or not (scripts.is_script(path) or is_wanted(workspace)):
        found = path if workspace is None or beside is not None else workspace.path
        yield Given(project if beside is not None else str(found), str(found), None)
        return
    with tempfile.TemporaryDirectory(prefix="unilock-project-") as held:
        copy = Path(held) / "pyproject.toml"
        copy.write_text(text_of(workspace), encoding="utf-8")
        try:
            yield Given(str(copy), str(workspace.path), workspace)
        except Refused as fault:
            # Its lines aren't those of the file that is named.
            told = re.sub(rf"({re.escape(str(copy))}: [^\n]*?) \(line \d+\)", r"\1", str(fault))
            raise Refused(told.replace(str(copy), str(workspace.path)), fault.status) from None


def home(project: str) -> str:
    """The folder in which the lock of a project stands: that of its workspace's root, where it is a member of one."""
    path = Path(project)
    try:
        workspace = None if scripts.is_script(path) or not readable(path) else workspaces.found_for(path)
    except Refused:
        # What is wrong with the workspace is told by who reads it.
        workspace = None
    return os.path.dirname(project) if workspace is None else os.path.dirname(workspace.path)


def around(folder: Path) -> Workspace | None:
    """The workspace that a folder lies in, where it lies in one."""
    if not has_toml_reader():
        return None
    path = workspaces.shortest(workspaces.root_of(folder)) / workspaces.FILE
    found = workspaces.load(path) if path.is_file() else None
    return found if found is not None and found.is_declared else None


def readable(path: Path) -> bool:
    """Whether a project file can be read here, or there is none of it and one above may count. What can't be is told by
    the program."""
    if not path.is_file():
        return not path.exists() and path == Path(workspaces.FILE)
    return tables_of_text(path.read_text(encoding="utf-8", errors="replace")) is not None
