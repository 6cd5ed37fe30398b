"""A project file with some of its extras and groups, for a lock that was made for these alone."""

from __future__ import annotations

from typing import Any, Dict, Iterable, List, Set

from . import keys
from .project import Project
from .versions import normal_name


def kept_extras(project: Project, extras: Iterable[str]) -> Set[str]:
    """The extras (of a group `group-NAME`) with those that they ask for."""
    kept: Set[str] = set()
    left = list(extras)
    while left:
        extra = left.pop()
        if extra not in kept:
            kept.add(extra)
            asked = [it.requirement for it in project.requirements if it.extra == extra]
            left += [other for it in asked if it.name == project.name for other in it.extras]
    return kept


def tables_of(project: Project, extras: Iterable[str]) -> Dict[str, Any]:
    """What the program reads of the project file, with these extras and groups alone. A group that another includes is
    written out in it."""
    kept = kept_extras(project, extras)
    wanted = {key.partition(".")[2] for key in keys.READ if key.startswith("project.")}
    table = {key: value for key, value in project.tables["project"].items() if key in wanted}
    optional = table.pop("optional-dependencies", {})
    lists = {normal_name(name): texts for name, texts in optional.items() if normal_name(name) in kept}
    groups: Dict[str, List[str]] = {it.partition("-")[2]: [] for it in kept if it not in lists}
    for placed in project.requirements:
        group = (placed.extra or "").partition("-")[2]
        if placed.place.startswith("dependency-groups.") and group in groups:
            groups[group].append(placed.requirement.text)
    uv = {key: value for key, value in project.settings.items() if f"tool.uv.{key}" in keys.READ}
    return {"project": {**table, "optional-dependencies": lists}, "dependency-groups": groups, "tool": {"uv": uv}}
