"""What a source tree says of its project: by its project file where that is certain (PEP 621), else by its build.

A folder that the project file names by a path, or a member of its workspace, is the user's own: it is built without
being asked for. What comes from a repository or from an address is built where --build names it, since that runs its
code. --no-build builds nothing.
"""

from __future__ import annotations

from collections.abc import Mapping
from pathlib import Path
from typing import Any, NamedTuple

from . import building, console, project
from .archives import Metadata
from .building import Builder
from .cache import Cache
from .console import Refused
from .index_settings import uv_table
from .profile import Tables, table
from .project import Placed
from .requirement_texts import parts_of
from .vendored import toml_of
from .versions import NAME, normal_name, version

FILE = "pyproject.toml"
CERTAIN = ("version", "dependencies", "optional-dependencies", "requires-python")


class Trusted(NamedTuple):
    """Versions that a lock has, which count where only a build would tell more: whoever installs has no need of it."""

    versions: Mapping[str, str]


class Builds(NamedTuple):
    """What may be built: projects that were named, by `builder`, and the user's own folders where `own` isn't None."""

    builder: Builder | Trusted | None
    own: Builder | Trusted | None


def builds(builder: Builder | None, no_build: bool, cache: Cache, index_url: str | None) -> Builds:
    return Builds(builder, None if no_build else Builder(None, cache, index_url))


class Tree(NamedTuple):
    """A source tree: its folder, how it is named in messages, and the folder that nothing of it may lead out of; with a
    key where that says all that the tree has, as a commit does."""

    folder: Path
    shown: str
    within: Path | None = None
    key: str = ""


def tables_in(tree: Tree) -> Tables:
    """The tables of a tree's project file; none where it has none."""
    path = tree.folder / FILE
    if tree.within is not None and not path.resolve().is_relative_to(tree.within.resolve()):
        raise Refused(f"{tree.shown}: its {FILE} is a link that leads out of it")
    return toml_of(str(path)) if path.is_file() else {}


def is_certain(tables: Tables) -> bool:
    """Whether a project file says all that a release's metadata do."""
    found = tables.get("project")
    if not isinstance(found, dict) or not isinstance(found.get("name"), str) or "version" not in found:
        return False
    dynamic = found.get("dynamic", [])
    return isinstance(dynamic, list) and not any(it in CERTAIN for it in dynamic)


def is_package(tables: Tables) -> bool:
    """Whether a project is installed itself, as uv has it: it has a `[build-system]`, or says `tool.uv.package`."""
    named = uv_table(tables).get("package")
    return named if isinstance(named, bool) else isinstance(tables.get("build-system"), dict)


def without_urls(tables: Tables) -> Tables:
    """The tables with each requirement by a URL as one on its name."""

    def plain(found: Any) -> Any:
        if isinstance(found, list):
            return [parts_of(it).text() if isinstance(it, str) and parts_of(it).url else it for it in found]
        return {key: plain(it) for key, it in found.items()} if isinstance(found, dict) else found

    made = dict(tables)
    if isinstance(tables.get("project"), dict):
        keys = ("dependencies", "optional-dependencies")
        made["project"] = {key: plain(it) if key in keys else it for key, it in tables["project"].items()}
    if "dependency-groups" in tables:
        made["dependency-groups"] = plain(tables["dependency-groups"])
    tool = table(tables.get("tool"))
    if isinstance(tool.get("uv"), dict):
        lists = ("constraint-dependencies", "override-dependencies", "dev-dependencies")
        made["tool"] = {**tool, "uv": {key: plain(it) if key in lists else it for key, it in tool["uv"].items()}}
    return made


def stated(tables: Tables, shown: str, groups: bool) -> Metadata:
    """The metadata that a project file says; with its groups, each as an extra, where it is a workspace's member."""
    read = project.Project(f"{shown}/{FILE}", without_urls(tables))
    spelled = tables["project"]["version"]
    if not NAME.match(tables["project"]["name"]):
        raise Refused(f"{shown}/{FILE}: project.name: {tables['project']['name']!r} is no name", 3)
    if not isinstance(spelled, str) or version(spelled) is None:
        raise Refused(f"{shown}/{FILE}: project.version: {console.escaped(str(spelled))} is no version", 3)
    required = texts_of([it for it in read.requirements if groups or not is_of_group(it)])
    return Metadata(read.name, spelled, read.requires_python or None, required)


def is_of_group(placed: Placed) -> bool:
    return placed.place.startswith("dependency-groups.")


def texts_of(placed: list[Placed]) -> tuple[str, ...]:
    """Requirements as a release's metadata have them, those of extras and groups with the extra in their marker."""
    return tuple(parts_of(it.requirement.text).of_extra(it.extra) for it in placed)


def metadata_of(
    tree: Tree, tables: Tables, name: str, allowed: Builder | Trusted | None, groups: bool = False
) -> Metadata:
    """The metadata of a tree that is expected to be of this name. URLs stay in what a build says, and go in what a
    project file does."""
    if is_certain(tables):
        found = stated(tables, tree.shown, groups)
    elif isinstance(allowed, Trusted):
        found = Metadata(normal_name(name), allowed.versions[name], None, ())
    elif allowed is None or not allowed.wants(name):
        way = f"`--build {name}` builds it, which runs its code" if allowed is not None or tree.within else ""
        why = f"what it requires isn't certain by its {FILE}" if tables else f"it has no {FILE}"
        raise Refused(f"{tree.shown}: {why}, and nothing is built; {way or 'without --no-build it is built'}")
    else:
        building.want_library(tree.shown)
        found = allowed.tree_metadata(tree.shown, tree.folder, tree.key)
        if groups:
            read = project.Project(f"{tree.shown}/{FILE}", without_urls(tables))
            more = texts_of([it for it in read.requirements if is_of_group(it)])
            found = found._replace(requires_dist=(*found.requires_dist, *more))
    if found.name != normal_name(name):
        raise Refused(f"{tree.shown}: it is the project {found.name}, not {name}")
    return found


def inner(folder: Path, subdirectory: str, shown: str) -> Path:
    """A folder inside another, which no link leads out of."""
    found = folder / subdirectory
    if not found.resolve().is_relative_to(folder.resolve()):
        raise Refused(f"{shown}: its folder {console.escaped(subdirectory)} is a link that leads out of it")
    if not found.is_dir():
        raise Refused(f"{shown}: it has no folder {console.escaped(subdirectory)}", 3)
    return found
