"""Locks that have rows and no edges: which versions are installed where, and not who requires them.

Edges are made from the project file and the documents: a requirement leads to the rows of its name, each where it and
the row hold. What the program verifies of that lock is that each requirement is met; then each row has to be installed
exactly where it is required, which the program's `export` says.
"""

from __future__ import annotations

from dataclasses import dataclass, field
from typing import Dict, Iterator, List, NamedTuple, Optional, Tuple

from . import chosen, markers, program, worlds
from .edges import Need, needs_of, walked
from .foreign import Foreign, Key, canonical
from .marker_texts import ALWAYS, NEVER, every, some, truth_text, with_extra
from .project import Project
from .required import Required
from .tables import Unread


class Selection(NamedTuple):
    """Extras of the project that are asked for together, and where each row is installed with them."""

    extras: Tuple[str, ...]
    markers: Dict[Key, str]


@dataclass
class Rows:
    """A lock without edges: the rows of each selection that it says something of."""

    supported: str
    selections: List[Selection]
    files: Dict[Key, Dict[str, str]] = field(default_factory=dict)
    unread: List[str] = field(default_factory=list)

    def marker_texts(self) -> Iterator[str]:
        """The markers of all rows."""
        for selection in self.selections:
            yield from selection.markers.values()

    def by_name(self) -> Dict[str, List[Tuple[Key, str]]]:
        """The rows of each name, with where they are installed in some selection."""
        markers: Dict[Key, List[str]] = {}
        for selection in self.selections:
            for key, text in selection.markers.items():
                markers.setdefault(key, []).append(text)
        found: Dict[str, List[Tuple[Key, str]]] = {}
        for key, texts in markers.items():
            found.setdefault(key[0], []).append((key, some(texts)))
        return found


def foreign_of(rows: Rows, required: Required) -> Foreign:
    """The rows that the project leads to, with the edges by which it does."""
    by_name = rows.by_name()

    def choices(need: Need) -> List[Tuple[Key, str]]:
        return by_name.get(need.name, [])

    found = walked(required.project, lambda at: needs_of(required, at), choices)
    found.supported, found.unread = rows.supported, rows.unread
    for key, block in found.blocks.items():
        block.files = rows.files.get(key, {})
    return found


def selected(marker: Optional[markers.Marker], extra: str, what: str) -> str:
    """Where a row is installed with an extra of the project, or without (empty), by a marker that asks for extras."""
    asked = [it for it in markers.atoms(marker) if it.variable == "extra"]
    if any(it.op != "==" for it in asked) or not is_additive(marker):
        raise Unread(f"{what}: a marker that asks for several extras at once can't be said")
    return ALWAYS if marker is None else truth_text(with_extra(marker, extra))


def is_additive(marker: Optional[markers.Marker]) -> bool:
    """Whether a marker holds with several extras exactly where it holds with one of them."""
    if marker is None or isinstance(marker, markers.Atom):
        return True
    asking = [it for it in marker.parts if any(atom.variable == "extra" for atom in markers.atoms(it))]
    return all(is_additive(it) for it in marker.parts) and (marker.word == "or" or len(asking) < 2)


def reached(path: str, selection: Selection) -> Dict[Key, str]:
    """Where each package is required with the extras of a selection, by a lock that is verified."""
    answered = program.answer(["export", path, *selection.extras])
    if answered.status != 0:
        raise Unread(f"where its packages are required can't be said: {program.fault_text(answered)}")
    picks = chosen.bases(chosen.picks_in(answered.text))
    return {(it.name, it.version): it.marker or ALWAYS for it in picks}


def faults(rows: Rows, path: str, project: Project) -> Iterator[str]:
    """The rows that aren't installed exactly where they are required; `path` is the lock that was made of them."""
    for selection in rows.selections:
        where = reached(path, selection)
        keys = list(dict.fromkeys([*selection.markers, *where]))
        pairs = [(selection.markers.get(key, NEVER), where.get(key, NEVER)) for key in keys]
        within = [[every([rows.supported, text]) for text in pair] for pair in pairs]
        texts = canonical([text for pair in within for text in pair]) if pairs else {}
        for key, (row, need), (one, other) in zip(keys, pairs, within):
            if texts[one] != texts[other]:
                yield told(f"{key[0]} {key[1]}", (row, need, rows.supported), selection, project)


def told(what: str, texts: Tuple[str, str, str], selection: Selection, project: Project) -> str:
    """That a row is installed where it isn't required, or the other way round, on some machine."""
    asked = f" with {', '.join(selection.extras)}" if selection.extras else ""
    for machine in worlds.machines([it for it in texts if it not in (ALWAYS, NEVER)], project.requires_python):
        row, need, supported = (holds(it, machine) for it in texts)
        if supported and row != need:
            where = f"on {worlds.described(machine)}{asked}"
            return f"{what} is installed {where}, where nothing requires it" if row else (
                f"{what} isn't installed {where}, where it is required"
            )
    return f"{what} is installed{asked} where `{texts[0]}`, and required where `{texts[1]}`"


def holds(text: str, machine: worlds.Machine) -> bool:
    return text == ALWAYS or (text != NEVER and worlds.holds(text, machine))
