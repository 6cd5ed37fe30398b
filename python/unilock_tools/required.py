"""What a package requires, by the project file and the documents of an index folder: where each requirement is true."""

from __future__ import annotations

from typing import Dict, Iterable, Iterator, List, NamedTuple, Tuple

from .documents import Held
from .marker_texts import ALWAYS, NEVER, at_node, every, some, text_of, truth_text, with_extra
from .project import Placed, Project
from .readings import Requirement, requirement_of


class Needed(NamedTuple):
    """A requirement, and the marker of where it is true at a package or at an extra of it."""

    requirement: Requirement
    marker: str


class Required:
    """The requirements of the project and of the releases of an index folder."""

    def __init__(self, project: Project, held: Held) -> None:
        self.project, self.held = project, held
        self.read: Dict[Tuple[str, str], List[Requirement]] = {}

    def of(self, name: str, version: str, extra: str) -> List[Needed]:
        """The requirements that are true somewhere at a package (extra empty), or at an extra of it."""
        if name == self.project.name:
            found = [Needed(it.requirement, own_marker(it, extra)) for it in self.project.requirements]
        else:
            found = [Needed(it, at_node(it.marker, extra)) for it in self.texts(name, version)]
        return [self.overridden(it) for it in found if it.marker != NEVER]

    def overridden(self, needed: Needed) -> Needed:
        """A requirement where one of the project's overrides of its name holds, where there are any."""
        mine = [it.requirement for it in self.project.overrides if it.requirement.name == needed.requirement.name]
        return needed._replace(marker=every([needed.marker, some(map(of_requirement, mine))])) if mine else needed

    def marker_texts(self, packages: Iterable[Tuple[str, str]]) -> Iterator[str]:
        """The markers of the requirements of the project, and of releases."""
        project = self.project
        for placed in [*project.requirements, *project.overrides, *project.constraints]:
            yield of_requirement(placed.requirement)
        yield from project.environments()
        for name, version in packages:
            if name != project.name:
                yield from map(of_requirement, self.texts(name, version))

    def texts(self, name: str, version: str) -> List[Requirement]:
        if (name, version) not in self.read:
            entry = self.held.release(name, version) or {}
            self.read[name, version] = [requirement_of(it) for it in entry.get("requires_dist") or []]
        return self.read[name, version]


def own_marker(placed: Placed, extra: str) -> str:
    """Where a requirement of the project is true at the project, or at an extra of it."""
    marker = placed.requirement.marker
    if placed.extra is None:
        return at_node(marker, extra)
    if placed.extra != extra:
        return NEVER
    return ALWAYS if marker is None else truth_text(with_extra(marker, extra))


def of_requirement(requirement: Requirement) -> str:
    return text_of(requirement.marker)


def joined(needed: List[Needed]) -> Dict[Tuple[str, str], List[str]]:
    """The markers of requirements by what they ask for: a name and an extra of it (empty: the package itself)."""
    found: Dict[Tuple[str, str], List[str]] = {}
    for it in needed:
        for extra in ["", *it.requirement.extras]:
            found.setdefault((it.requirement.name, extra), []).append(it.marker)
    return found
