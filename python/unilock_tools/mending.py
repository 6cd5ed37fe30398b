"""An old lock brought to a changed project: its root asks for what the project asks for now, at the old versions.

Nothing but the root's edges changes, and what is then needed nowhere is left out. So where the old lock has versions
that serve the changed project, no version changes. It is a proposal, which the program judges. The markers are the
program's own: it is asked to lock a project that has a package for each of them.
"""

from __future__ import annotations

import json
import tempfile
from pathlib import Path
from typing import Dict, List, NamedTuple, Optional, Sequence, Set, Tuple

from . import chosen, locks, markers, program
from .console import Refused
from .locks import Edge, Lock, Package
from .markers import Atom, Marker, NoMarker
from .project import Project
from .readings import Requirement
from .toml_texts import toml_value
from .versions import version_of

OPPOSITE = {"==": "!=", "<": ">=", ">": "<=", "in": "not in"}
OPPOSITE.update({value: key for key, value in OPPOSITE.items()})
ALWAYS, NEVER = "", "never"


class NotMended(Exception):
    """The project asks for what the lock doesn't have, or in a way that isn't brought to it."""


class Wanted(NamedTuple):
    """An edge of the root, with the texts of markers that hold together where it does."""

    extra: Optional[str]
    edge: Edge


def mended(text: str, path: str, wanted: Project) -> Optional[str]:
    """The old lock's text brought to a project; None where it can't be."""
    lock = locks.read(text, path)
    try:
        edges = root_edges(lock, presence(lock, path), wanted)
        known = canonical([it.edge.marker for it in edges], wanted)
    except (NotMended, NoMarker, Refused):
        return None
    root = lock.root_package()
    users = [it for it in lock.packages if it is not root]
    asked = {edge.extra for it in users for _, edge in it.all_edges() if edge.name == root.name and edge.extra}
    asked |= {edge.extra for _, edge in edges if edge.name == root.name and edge.extra}
    root.edges, root.extras = [], {it: [] for it in {*wanted.extras(), *asked}}
    for extra, edge in edges:
        marker = known[edge.marker]
        if marker != NEVER:
            (root.edges if extra is None else root.extras[extra]).append(edge._replace(marker=marker))
    for listed in [root.edges, *root.extras.values()]:
        listed.sort(key=locks.edge_order)
    return with_root(text, lock, root)


def with_root(text: str, lock: Lock, root: Package) -> str:
    """A lock's text with another block of its root, without the packages that nothing leads to."""
    head, *blocks = locks.blocks_of(text.rstrip("\n"))
    key, reached = (root.name, root.version), reachable(lock)
    kept = [it for it in blocks if locks.block_key(it) in reached]
    return "\n\n".join([head, *(locks.package_block(root) if locks.block_key(it) == key else it for it in kept)]) + "\n"


def reachable(lock: Lock) -> Set[Tuple[str, str]]:
    """The packages that the root's edges lead to, on whatever machine."""
    root = lock.root_package()
    found, left = {(root.name, root.version)}, [root]
    while left:
        for _, edge in left.pop().all_edges():
            if (edge.name, edge.version) not in found:
                found.add((edge.name, edge.version))
                left.append(lock.package(edge.name, edge.version))
    return found


def presence(lock: Lock, path: str) -> Dict[str, Dict[str, str]]:
    """Where the lock gives each version of each package, as markers."""
    found: Dict[str, Dict[str, str]] = {}
    for pick in chosen.bases(chosen.everywhere(path, lock, sorted(lock.root_package().extras))):
        found.setdefault(pick.name, {})[pick.version] = pick.marker
    root = lock.root_package()
    return {**found, root.name: {root.version: ALWAYS}}


def root_edges(lock: Lock, given: Dict[str, Dict[str, str]], wanted: Project) -> List[Wanted]:
    """The edges that the project's requirements ask for, at the lock's versions."""
    lists: Dict[Tuple[Optional[str], str, Optional[str]], List[Requirement]] = {}
    for extra, one in requirements(wanted):
        for target in [None, *one.extras] if one.name != wanted.name else one.extras:
            lists.setdefault((extra, one.name, target), []).append(one)
    found = []
    for (extra, name, target), asking in lists.items():
        if name not in given:
            raise NotMended(name)
        where = either([marker_in(it) for it in asking])
        for spelled, marker in shared(given[name]).items():
            if target is not None and name != lock.root and target not in lock.package(name, spelled).extras:
                raise NotMended(f"{name}[{target}]")
            found.append(Wanted(extra, Edge(name, spelled, target, both(where, marker))))
    return found


def requirements(wanted: Project) -> List[Tuple[Optional[str], Requirement]]:
    """The project's requirements, the overrides in the place of those on their names."""
    overrides: Dict[str, List[Requirement]] = {}
    for placed in wanted.overrides:
        overrides.setdefault(placed.requirement.name, []).append(placed.requirement)
    found = []
    for placed in wanted.requirements:
        one = placed.requirement
        if any(it.variable == "extra" for it in markers.atoms(one.marker)):
            raise NotMended(one.text)
        found += [(placed.extra, it) for it in overrides.get(one.name, [one])]
    return found


def shared(given: Dict[str, str]) -> Dict[str, str]:
    """Versions with the machines that each is for, which together are all: the newest is also for those of none."""
    *others, newest = sorted(given, key=lambda it: version_of(it).key)
    return {**{it: given[it] for it in others}, newest: none_of([given[it] for it in others])}


def marker_in(one: Requirement) -> str:
    return one.text.partition(";")[2].strip()


def both(one: str, other: str) -> str:
    return f"({one}) and ({other})" if one and other else one or other


def either(texts: Sequence[str]) -> str:
    return ALWAYS if ALWAYS in texts else " or ".join(f"({it})" for it in dict.fromkeys(texts))


def none_of(texts: Sequence[str]) -> str:
    """A marker that holds where none of these does."""
    return " and ".join(f"({negated(markers.read(it))})" for it in texts if it != ALWAYS)


def negated(marker: Marker) -> str:
    """The text of a marker that holds where another one doesn't."""
    if not isinstance(marker, Atom):
        word = " and " if marker.word == "or" else " or "
        return word.join(f"({negated(it)})" for it in marker.parts)
    if marker.op not in OPPOSITE:
        raise NotMended(marker.op)
    literal = f'"{marker.literal}"' if "'" in marker.literal else f"'{marker.literal}'"
    op = OPPOSITE[marker.op]
    return f"{literal} {op} {marker.variable}" if marker.contains else f"{marker.variable} {op} {literal}"


def canonical(texts: Sequence[str], wanted: Project) -> Dict[str, str]:
    """Markers as the program writes them for this project's machines: empty where always true, or `never`."""
    asked = [it for it in dict.fromkeys(texts) if it != ALWAYS]
    named = {f"m{number}": text for number, text in enumerate(asked)}
    settings = {"environments": wanted.settings["environments"]} if "environments" in wanted.settings else {}
    with tempfile.TemporaryDirectory(prefix="unilock-") as held:
        index = Path(held) / "ix"
        index.mkdir()
        for name in named:
            document = {"name": name, "versions": [{"version": "1"}]}
            (index / f"{name}.json").write_text(json.dumps(document), encoding="utf-8")
        lines = ["[project]", 'name = "markers"', 'version = "0"']
        lines += [f"requires-python = {toml_value(wanted.requires_python)}"] if wanted.requires_python else []
        lines += [f"dependencies = {toml_value([f'{name}; {text}' for name, text in named.items()])}", "[tool.uv]"]
        lines += [f"{key} = {toml_value(it)}" for key, it in settings.items()]
        (Path(held) / "pyproject.toml").write_text("\n".join(lines) + "\n", encoding="utf-8")
        answered = program.answer(["lock", str(Path(held) / "pyproject.toml"), str(index), "1"])
    if answered.status != 0:
        raise NotMended(program.fault_text(answered))
    edges = {it.name: it.marker for it in locks.read(answered.text, "the markers").root_package().edges}
    return {ALWAYS: ALWAYS, **{text: edges.get(name, NEVER) for name, text in named.items()}}
