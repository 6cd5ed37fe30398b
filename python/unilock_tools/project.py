"""The project file (pyproject.toml), as far as the tools need it: its requirements with their places, and its settings.

The program is the judge of the file; what it would refuse is refused here in the same places, in more words.
"""

from __future__ import annotations

from functools import cached_property
from typing import Any, Dict, Iterator, List, NamedTuple, Optional, Set

from . import labels, profile
from .console import Refused, escaped
from .marker_texts import ALWAYS, every, of_bound, some
from .readings import Requirement, requirement_of
from .vendored import toml_of
from .versions import NoReading, normal_name, specifiers_fault


class Placed(NamedTuple):
    """A requirement of the project, with the place where it stands and the extra or group that it belongs to."""

    place: str
    requirement: Requirement
    extra: Optional[str]


class Project:
    """What a project file says of the packages that it wants."""

    def __init__(self, path: str, tables: Dict[str, Any]) -> None:
        self.path = path
        self.tables = tables
        project = tables.get("project")
        if not isinstance(project, dict) or not isinstance(project.get("name"), str):
            raise Refused(f"{path}: it has no [project] with a name", 3)
        self.name = normal_name(project["name"])
        self.version = str(project.get("version", "0"))
        self.requires_python = str(project.get("requires-python", ""))
        fault = specifiers_fault(self.requires_python)
        if fault is not None:
            raise Refused(f"{path}: project.requires-python: {fault}", 3)
        tool = tables.get("tool")
        uv = tool.get("uv") if isinstance(tool, dict) else None
        self.settings: Dict[str, Any] = uv if isinstance(uv, dict) else {}
        self.requirements = list(self._requirements(project))
        self.constraints = self._listed(
            "tool.uv.constraint-dependencies", self.settings.get("constraint-dependencies", []), None
        )
        self.overrides = self._listed(
            "tool.uv.override-dependencies", self.settings.get("override-dependencies", []), None
        )

    def _requirements(self, project: Dict[str, Any]) -> Iterator[Placed]:
        yield from self._listed("project.dependencies", project.get("dependencies", []), None)
        extras = project.get("optional-dependencies", {})
        if not isinstance(extras, dict):
            raise Refused(f"{self.path}: project.optional-dependencies: it isn't a table", 3)
        for name in sorted(extras):
            place = f"project.optional-dependencies.{escaped(normal_name(name))}"
            yield from self._listed(place, extras[name], normal_name(name))
        groups = self.groups()
        for group in sorted(groups):
            yield from self._group(group, group, groups, [], set())

    def groups(self) -> Dict[str, List[Any]]:
        """The dependency groups (PEP 735) by their normal names, `dev` with uv's development dependencies."""
        found = self.tables.get("dependency-groups", {})
        groups = {normal_name(it): found[it] for it in found} if isinstance(found, dict) else {}
        more = self.settings.get("dev-dependencies")
        if profile.is_wide(self.tables) and isinstance(more, list) and more:
            before = groups.get("dev", [])
            groups["dev"] = [*before, *more] if isinstance(before, list) else before
        return groups

    def _group(
        self, group: str, of: str, groups: Dict[str, List[Any]], open_: List[str], done: Set[str]
    ) -> Iterator[Placed]:
        """The requirements of a group with those of the groups that it includes, each group once."""
        if group in done:
            return
        done.add(group)
        if not isinstance(groups[group], list):
            raise Refused(f"{self.path}: dependency-groups.{escaped(group)}: it isn't a list", 3)
        for number, entry in enumerate(groups[group]):
            place = f"dependency-groups.{escaped(group)}[{number}]"
            if isinstance(entry, str):
                yield Placed(place, self._read(place, entry), f"group-{of}")
                continue
            included = normal_name(str(entry.get("include-group"))) if isinstance(entry, dict) else ""
            if included not in groups or included in [*open_, group]:
                raise Refused(
                    f"{self.path}: {place}: it includes {included or entry!r}, which is no group or includes itself", 3
                )
            yield from self._group(included, of, groups, [*open_, group], done)

    def _listed(self, place: str, entries: Any, extra: Optional[str]) -> List[Placed]:
        if not isinstance(entries, list):
            raise Refused(f"{self.path}: {place}: it isn't a list", 3)
        return [Placed(f"{place}[{k}]", self._read(f"{place}[{k}]", it), extra) for k, it in enumerate(entries)]

    def _read(self, place: str, text: Any) -> Requirement:
        if not isinstance(text, str):
            raise Refused(f"{self.path}: {place}: it isn't a text", 3)
        try:
            return requirement_of(text)
        except NoReading as fault:
            raise Refused(f"{self.path}: {place}: {fault}", 3) from None

    def extras(self) -> List[str]:
        """The extras, those that groups become among them."""
        declared = self.tables["project"].get("optional-dependencies", {})
        return sorted({normal_name(it) for it in declared} | {f"group-{it}" for it in self.groups()})

    @property
    def prereleases(self) -> str:
        """The mode by which pre-releases count; one that isn't known is refused by the program."""
        return str(self.settings.get("prerelease", "if-necessary-or-explicit"))

    def asks_prereleases(self, name: str) -> bool:
        """Whether the pre-releases of a name count whatever else there is."""
        named = any(it.op != "!=" and it.version.is_pre for one in self.direct(name) for it in one.clauses)
        return self.prereleases == "allow" or ("explicit" in self.prereleases and named)

    @property
    def needs_prereleases(self) -> bool:
        """Whether those of a name count that has nothing else."""
        return self.prereleases == "allow" or self.prereleases.startswith("if-necessary")

    @cached_property
    def sources(self) -> Dict[str, labels.Labels]:
        """The sources of each name for which `tool.uv.sources` has some; none where the program doesn't read them."""
        return labels.read(self.tables, self.path) if profile.is_wide(self.tables) else {}

    def environments(self) -> List[str]:
        """The markers of `tool.uv.environments`; none where all are supported."""
        listed = self.settings.get("environments", [])
        return [str(it) for it in ([listed] if isinstance(listed, str) else listed)]

    def supported(self) -> str:
        """The marker of the environments that the project supports."""
        return every([of_bound(self.requires_python), some(self.environments() or [ALWAYS])])

    def bounds(self, name: str) -> List[Requirement]:
        """Requirements on a name that hold in every world: no release that fails one is ever chosen."""
        constraints = [it.requirement for it in self.constraints if it.requirement.name == name]
        return [it for it in [*self.direct(name), *constraints] if it.marker is None]

    def direct(self, name: str) -> List[Requirement]:
        """The project's own requirements on a name, its overrides in their place."""
        overrides = [it.requirement for it in self.overrides if it.requirement.name == name]
        return overrides or [it.requirement for it in self.requirements if it.requirement.name == name]


def load(path: str) -> Project:
    return Project(path, toml_of(path))
