"""Locks of other tools in one form, and that form as a lock of unilock.

What reads a format makes a `Foreign` of it: blocks of packages, each with lists of edges, whose markers are texts as
they stand. `lock_of` makes a lock of it, with the markers in the program's canonical form. What isn't said by the
format, or can't be said in a lock of unilock, is gathered in `unread`; then nothing is judged.
"""

from __future__ import annotations

import tempfile
from dataclasses import dataclass, field
from pathlib import Path
from typing import Dict, Iterable, Iterator, List, NamedTuple, Tuple

from . import documents, locks, program
from .locks import Edge, Lock, Package
from .marker_texts import ALWAYS, NEVER, some
from .project import Project
from .tables import Unread
from .versions import version_of

Key = Tuple[str, str]


class Target(NamedTuple):
    """What an edge leads to: a version of a package, or an extra of it (empty: none)."""

    name: str
    version: str
    extra: str


# Where each target of a list of edges is wanted: the markers of all edges to it, of which one has to hold.
Edges = Dict[Target, List[str]]


@dataclass
class Block:
    """A version of a package: its edges by extra (empty: those of the package itself) and its files with hashes.

    `source` is in words where the package comes from no package index.
    """

    name: str
    version: str
    source: str = ""
    lists: Dict[str, Edges] = field(default_factory=lambda: {"": {}})
    files: Dict[str, str] = field(default_factory=dict)

    def add(self, extra: str, target: Target, marker: str) -> None:
        self.lists.setdefault(extra, {}).setdefault(target, []).append(marker)

    def targets(self) -> Iterable[Target]:
        return (target for edges in self.lists.values() for target in edges)

    def __str__(self) -> str:
        return f"{self.name} {self.version}"


@dataclass
class Foreign:
    """A lock of another tool. `wrong` is what it shows to be wrong by itself, whatever the project says."""

    root: Key
    supported: str = ALWAYS
    forks: List[str] = field(default_factory=list)
    blocks: Dict[Key, Block] = field(default_factory=dict)
    unread: List[str] = field(default_factory=list)
    wrong: List[str] = field(default_factory=list)

    def add(self, block: Block) -> Block:
        key = (block.name, block.version)
        if key in self.blocks:
            raise Unread(f"it has several packages {block}, which a lock of unilock can't tell apart")
        self.blocks[key] = block
        return block

    def root_block(self) -> Block:
        return self.blocks[self.root]

    def marker_texts(self) -> Iterator[str]:
        """The markers of all edges."""
        for block in self.blocks.values():
            for edges in block.lists.values():
                yield from (text for texts in edges.values() for text in texts)


def prune(foreign: Foreign) -> None:
    """Drops the blocks that no edge leads to from the root: nothing of them is ever installed for this project."""
    reached, left = {foreign.root}, [foreign.root]
    while left:
        for target in foreign.blocks[left.pop()].targets():
            key = (target.name, target.version)
            if key not in reached:
                reached.add(key)
                left.append(key)
    foreign.blocks = {key: it for key, it in foreign.blocks.items() if key in reached}


def name_extras(foreign: Foreign, project: Project) -> None:
    """Gives the root all extras of the project, and each package those that some edge asks for."""
    for extra in project.extras():
        foreign.root_block().lists.setdefault(extra, {})
    for target in [it for block in foreign.blocks.values() for it in block.targets()]:
        foreign.blocks[target.name, target.version].lists.setdefault(target.extra, {})


def tell_absent(foreign: Foreign, held: documents.Held) -> None:
    """Tells the packages of which the index folder can't say what they require."""
    for key, block in foreign.blocks.items():
        if key == foreign.root:
            continue
        if held.document(block.name) is None:
            where = f", which it takes from {block.source}" if block.source else ""
            foreign.unread.append(f"the index folder has no document of {block.name}{where}")
        elif block.source and held.release(*key) is None:
            foreign.unread.append(f"the index folder has no release {block}, which the lock takes from {block.source}")


def canonical(texts: Iterable[str]) -> Dict[str, str]:
    """The canonical text of each marker, by the program: `*` where it is always true, `never` where it never is."""
    wanted = list(dict.fromkeys(texts))
    with tempfile.TemporaryDirectory(prefix="unilock-") as held:
        path = Path(held) / "markers.txt"
        path.write_text("".join(f"{it}\n" for it in wanted), encoding="ascii")
        answered = program.answer(["marker", str(path)])
    lines = answered.text.splitlines()
    if answered.status == 0 and len(lines) == len(wanted):
        return dict(zip(wanted, lines))
    raise Unread(no_canonical(answered, wanted))


def no_canonical(answered: program.Answer, wanted: List[str]) -> str:
    """Why the program says no canonical texts."""
    if answered.status == 2:
        return "the program has no word `marker`; a newer one has"
    place = answered.text.strip().rpartition(": line ")[2]
    if answered.status == 3 and place.isdigit() and 0 < int(place) <= len(wanted):
        return f"the program doesn't read the marker `{wanted[int(place) - 1][:200]}`"
    return f"the program says no canonical markers: {program.fault_text(answered)}"


def lock_of(foreign: Foreign) -> Lock:
    """A lock of unilock that says what the other tool's lock says."""
    lists = [some(it) for block in foreign.blocks.values() for edges in block.lists.values() for it in edges.values()]
    texts = canonical([*lists, foreign.supported, *foreign.forks])
    if texts[foreign.supported] == NEVER:
        raise Unread("it is made for no environment")
    lock = Lock()
    lock.root = foreign.root[0]
    lock.supported = shown(texts[foreign.supported])
    forks = [texts[it] for it in dict.fromkeys(foreign.forks) if texts[it] != NEVER]
    lock.forks = forks if len(forks) > 1 else []
    in_order = sorted(foreign.blocks.values(), key=lambda it: (it.name, version_of(it.version).key))
    for one, other in zip(in_order, in_order[1:]):
        if one.name == other.name and version_of(one.version).key == version_of(other.version).key:
            raise Unread(f"it has {one} beside {other}, which are one version")
    lock.packages = [package_of(it, texts) for it in in_order]
    return lock


def shown(canonical_text: str) -> str:
    """A canonical marker as a lock has it, where what is always true isn't written."""
    return "" if canonical_text == ALWAYS else canonical_text


def package_of(block: Block, texts: Dict[str, str]) -> Package:
    package = Package(block.name)
    package.version = block.version
    package.files = sorted(block.files.items(), key=lambda it: it[0].encode())
    package.edges = edges_of(block.lists[""], texts)
    package.extras = {extra: edges_of(block.lists[extra], texts) for extra in sorted(block.lists) if extra}
    return package


def edges_of(edges: Edges, texts: Dict[str, str]) -> List[Edge]:
    """The edges of a list in the order of a lock, but for those that never hold."""
    found = []
    for target, markers in edges.items():
        text = texts[some(markers)]
        if text != NEVER:
            found.append(Edge(target.name, target.version, target.extra or None, shown(text)))
    return sorted(found, key=locks.edge_order)
