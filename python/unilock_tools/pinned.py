"""A lock that keeps the versions of an old one: each is a constraint of a project file that is put together.

Constraints ask for nothing, so a lock of that file is one of the project itself, which the program then judges. A name
that the old lock gives one version of is held to it everywhere, and where that can't be, each version where the old
lock gives it. The last try is by the strategy `deep`, which refuses only where some environment has no selection: so
where each environment has one with all old versions, there is a lock of them. Else the versions that clash are let go
of, and the others are kept.
"""

from __future__ import annotations

from collections.abc import Callable, Mapping

from . import refusal
from .program import Answer
from .project import Project
from .project_text import changed, toml_text

CONSTRAINTS, STRATEGY = "tool.uv.constraint-dependencies", "tool.uv.fork-strategy"
# Whether a name of one version is held to it everywhere, and whether forks are split by the strategy `deep`.
TRIES = ((True, False), (False, False), (False, True))
# The status of a project that no choice of versions serves.
REFUSED = 1

# The markers of the versions of each name, where the old lock gives them.
Given = Mapping[str, Mapping[str, str]]


def constraints(given: Given, everywhere: bool) -> list[str]:
    """The versions as requirements."""
    found = []
    for name, versions in sorted(given.items()):
        for spelled, marker in versions.items():
            is_bare = not marker or (everywhere and len(versions) == 1)
            found.append(f"{name}=={spelled}" if is_bare else f"{name}=={spelled}; {marker}")
    return found


def text_of(wanted: Project, given: Given, everywhere: bool, deep: bool) -> str:
    """The project file with the versions among its constraints."""
    listed = [it.requirement.text for it in wanted.constraints]
    tables = changed(wanted.tables, CONSTRAINTS, [*listed, *constraints(given, everywhere)])
    return toml_text(changed(tables, STRATEGY, "deep") if deep else tables)


def clashing(answered: Answer) -> set[str]:
    """The names that the requirements at the core of a refusal ask for."""
    return {it.target.name for it in refusal.read(answered.text, "the refusal").core}


def locked(wanted: Project, given: Given, rounds: int, lock: Callable[[str], Answer]) -> str | None:
    """The lock that keeps as many of the versions as can be; None where there is none.

    `lock` locks a project file of a text. After each of so many rounds the versions that clash are let go of.
    """
    kept = {name: it for name, it in given.items() if name != wanted.name}
    for _ in range(rounds):
        answered = Answer(REFUSED, "", b"")
        for everywhere, deep in TRIES:
            answered = lock(text_of(wanted, kept, everywhere, deep))
            if answered.status != REFUSED:
                return answered.text if answered.status == 0 else None
        before = len(kept)
        kept = {name: it for name, it in kept.items() if name not in clashing(answered)}
        if len(kept) == before:
            return None
    return None
