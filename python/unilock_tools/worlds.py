"""Machines that stand for those that a lock is used on, and what a lock gives on each.

All machines that the program speaks of are too many to be listed. These are the usual platforms, and one more for each
other value that a marker names, each with an interpreter from every stretch that the markers tell apart. Sentences and
comparisons of locks are made by them; what is right and what isn't is the program's to judge.
"""

from __future__ import annotations

from functools import lru_cache
from itertools import combinations
from typing import Dict, Iterable, List, Mapping, NamedTuple, Optional, Set, Tuple

from . import markers, versions
from .locks import Edge, Lock
from .machine import IMPLEMENTATIONS, PLATFORMS
from .markers import Atom, Join, Marker, NoMarker

Machine = Dict[str, str]
SYSTEM = ("os_name", "sys_platform", "platform_system")
# Of those that differ from usual ones so many are looked at, with each interpreter.
MOST_MACHINES = 2_000


class Node(NamedTuple):
    """A version of a package, or an extra of it."""

    name: str
    version: str
    extra: Optional[str]


@lru_cache(maxsize=None)
def marker_of(text: str) -> Optional[Marker]:
    """The marker of a lock's text; an empty one and one without a reading hold everywhere."""
    try:
        return markers.read(text) if text and text != "*" else None
    except NoMarker:
        return None


def holds(text: str, machine: Machine) -> bool:
    return markers.truth(marker_of(text), machine) is not False


def machine_of(platform: str, python: str) -> Machine:
    os_name, sys_platform, system, processor = PLATFORMS[platform]
    implementation, its_name = IMPLEMENTATIONS["cpython"]
    return {
        "os_name": os_name, "sys_platform": sys_platform, "platform_system": system, "platform_machine": processor,
        "platform_release": "", "platform_version": "", "implementation_name": implementation,
        "platform_python_implementation": its_name, "implementation_version": python,
        "python_full_version": python, "python_version": ".".join(python.split(".")[:2]),
    }  # fmt: skip


def pythons(atoms: Iterable[Atom], bound: str) -> List[str]:
    """An interpreter from each stretch that the comparisons and the bound tell apart."""
    asked: List[Marker] = [it for it in set(atoms) if it.variable in markers.PYTHONS]
    found: Dict[Tuple[object, ...], str] = {}
    clauses = versions.specifiers_of(bound)
    # Interpreters that people have come first, since a sentence names the first of its stretch.
    for point in ["3.12.0", "3.9.0", *markers.python_points(Join("and", asked), bound)]:
        known = {"python_full_version": point, "python_version": ".".join(point.split(".")[:2])}
        if versions.meets(clauses, versions.version_of(point)):
            found.setdefault(tuple(markers.truth(it, known) for it in asked), point)
    return list(found.values())


def machines(texts: Iterable[str], bound: str, wide: bool = False) -> List[Machine]:
    """The machines by which markers with these texts, under this bound on the interpreter, are told apart; `wide` also
    those on which two values differ from what is usual, on each platform."""
    atoms = {atom for text in set(texts) for atom in markers.atoms(marker_of(text))}
    usual = [machine_of(platform, "3.12.0") for platform in PLATFORMS]
    known = {(key, value) for machine in usual for key, value in machine.items()}
    asked = sorted({(it.variable, it.literal) for it in atoms if it.variable in markers.TEXTS and not it.contains})
    others = [{**usual[0], variable: literal} for variable, literal in asked if (variable, literal) not in known]
    if wide:
        # The usual systems are there already, each with its own values.
        free = [it for it in asked if it not in known or it[0] not in SYSTEM]
        pairs = [dict(it) for it in [*combinations(free, 1), *combinations(free, 2)]]
        others += [{**machine, **pair} for machine in usual for pair in pairs][:MOST_MACHINES]
    found = []
    for point in pythons(atoms, bound):
        short = ".".join(point.split(".")[:2])
        interpreter = {"python_full_version": point, "python_version": short, "implementation_version": point}
        found += [{**machine, **interpreter} for machine in [*usual, *others]]
    return found


def described(machine: Machine) -> str:
    """A machine in a sentence: `Linux, Python 3.12`."""
    keys = {found[1]: key for key, found in PLATFORMS.items()}
    platform = machine["sys_platform"]
    if platform not in keys:
        return f"{platform or 'no platform'}, Python {machine['python_full_version']}"
    usual = machine_of(keys[platform], machine["python_full_version"])
    others = [f"{key} {machine[key]}" for key in markers.TEXTS if machine[key] != usual[key]]
    platform = usual["platform_system"]
    return ", ".join([platform, *others, f"Python {machine['python_full_version']}"])


def marker_texts(lock: Lock) -> Set[str]:
    """All markers of a lock's edges, and its supported region."""
    return {lock.supported, *(edge.marker for package in lock.packages for _, edge in package.all_edges())}


class Walked:
    """What a lock gives on a machine with all extras of its root: the nodes that it reaches, with their edges there."""

    def __init__(self, lock: Lock, machine: Machine) -> None:
        self.edges: Dict[Node, List[Edge]] = {}
        root = lock.root_package()
        lists = {Node(it.name, it.version, None): it.edges for it in lock.packages}
        for package in lock.packages:
            lists.update({Node(package.name, package.version, extra): it for extra, it in package.extras.items()})
        left = [Node(root.name, root.version, None), *(Node(root.name, root.version, it) for it in root.extras)]
        while left:
            node = left.pop()
            if node not in self.edges:
                self.edges[node] = [it for it in lists.get(node, []) if holds(it.marker, machine)]
                left += [Node(it.name, it.version, it.extra) for it in self.edges[node]]
        self.nodes: Dict[Tuple[str, str], List[Node]] = {}
        self.given: Dict[str, Set[str]] = {}
        for node in self.edges:
            self.nodes.setdefault((node.name, node.version), []).append(node)
            if node.name != lock.root:
                self.given.setdefault(node.name, set()).add(node.version)

    def versions(self) -> Dict[str, Set[str]]:
        """The versions of each package but the root."""
        return self.given


class Difference(NamedTuple):
    """How many pairs of a machine and a package get another version, and how many differ, with those that come or go.

    That a version changes counts before that a package comes or goes.
    """

    versions: int
    pairs: int


def difference(one: Lock, other: Lock, bound: str) -> Difference:
    """What differs between what two locks give on the machines of the second."""
    texts = marker_texts(one) | marker_texts(other)
    versions, pairs = 0, 0
    for machine in machines(texts, bound):
        if holds(other.supported, machine):
            before, after = Walked(one, machine).versions(), Walked(other, machine).versions()
            differing = [it for it in {*before, *after} if before.get(it) != after.get(it)]
            pairs += len(differing)
            if holds(one.supported, machine):
                versions += sum(it in before and it in after for it in differing)
    return Difference(versions, pairs)


def is_supported(machine: Machine, environments: Iterable[str]) -> bool:
    """Whether a machine is among the project's environments, where it lists any."""
    listed = list(environments)
    return not listed or any(holds(it, machine) for it in listed)


def known_values(machine: Mapping[str, str], extra: str) -> Dict[str, str]:
    """A machine's values with that of the extra for which a requirement is asked."""
    return {**machine, "extra": extra}
