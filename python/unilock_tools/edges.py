"""Edges made of requirements: from the project to the packages that it leads to, each at the version that a lock has.

Some locks name requirements in place of versions, or have no edges at all. Then a requirement leads to what the lock
has of its name; whether that meets it is judged later, by the program.
"""

from __future__ import annotations

from typing import Callable, List, NamedTuple, Optional, Tuple

from .foreign import Block, Foreign, Key, Target
from .marker_texts import ALWAYS, every
from .project import Project
from .required import Required
from .tables import Unread, shortly
from .versions import Clause


MOST_EDGES = 500_000


class Need(NamedTuple):
    """What a package asks for where a marker holds; without clauses it isn't known which versions would do."""

    name: str
    extras: Tuple[str, ...]
    clauses: Optional[List[Clause]]
    marker: str


def needs_of(required: Required, at: Target) -> List[Need]:
    """What the project, or a release by its document, asks for."""
    found = [(it.requirement, it.marker) for it in required.of(at.name, at.version, at.extra)]
    return [Need(read.name, read.extras, read.clauses, marker) for read, marker in found]


def walked(
    project: Project,
    needs: Callable[[Target], List[Need]],
    choices: Callable[[Need], List[Tuple[Key, str]]],
) -> Foreign:
    """What the project leads to with all its extras. `choices` are the packages that a need may be met by, each where
    it is the one; a package's need of itself is one of its own extras."""
    root = (project.name, project.version)
    found = Foreign(root)
    found.add(Block(*root))
    left = [Target(*root, extra) for extra in ["", *project.extras()]]
    seen = set(left)
    count = 0
    while left:
        at = left.pop()
        block = found.blocks[at.name, at.version]
        block.lists.setdefault(at.extra, {})
        for need in needs(at):
            own = need.name == at.name or need.name == project.name
            met_by = [(root if need.name == project.name else (at.name, at.version), ALWAYS)] if own else choices(need)
            count += len(met_by) * (1 + len(need.extras))
            if count > MOST_EDGES:
                raise Unread(f"it leads to more than {MOST_EDGES:,} edges")
            for key, marker in met_by:
                if key not in found.blocks:
                    found.add(Block(*key))
                for extra in ["", *need.extras]:
                    target = Target(*key, extra)
                    block.add(at.extra, target, every([need.marker, marker]))
                    left += [] if target in seen else [target]
                    seen.add(target)
    return found


def untold_group(name: str) -> str:
    """That a group stands in the tables of one tool alone, which aren't read."""
    return f"the group {shortly(name)} is none of the project's [dependency-groups], so it isn't known what it asks for"
