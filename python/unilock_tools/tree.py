"""Prints the tree of a lock: what each package needs, at which version, and where.

With MACHINE, a machine file as `tools/machine` prints it, only what holds on that machine is shown, and no markers. A
package that was shown before isn't opened again: `(*)`. --invert NAME turns the tree round: who needs NAME, and
where.

--dot prints the graph in the text form of Graphviz; --picture FILE has Graphviz's program `dot` draw it (.svg, .png,
.pdf).

Needs the standard library alone, and `rich` for colours. Status: 0 printed; 1 the lock can't be read, has no such
package or isn't for the machine, or `dot` isn't there; 2 the words aren't right.
"""

from __future__ import annotations

import argparse
import os
import shutil
import subprocess
import sys
from typing import Any, Dict, Iterator, List, NamedTuple, Optional, Set, Tuple

from . import chosen, console, locks, markers, terminal
from .console import Refused
from .locks import Lock
from .terminal import Part
from .versions import normal_name

Node = Tuple[str, str, Optional[str]]


class Arrow(NamedTuple):
    """An edge of the tree: the node that it leads to and the worlds that it holds in (empty: all)."""

    to: Node
    marker: str


def parser() -> console.Parser:
    made = console.Parser("tree", __doc__)
    made.add_argument("lock", metavar="LOCK", nargs="?", help=f"the lock ({chosen.USUAL})")
    made.add_argument("machine", metavar="MACHINE", nargs="?", help="a machine file")
    made.add_argument(
        "--extra",
        metavar="EXTRA",
        action="append",
        default=[],
        help="only this extra of the project (all, without it); may be repeated",
    )
    chosen.add_package(made)
    made.add_argument("--no-extras", action="store_true", help="none of the project's extras")
    made.add_argument("--invert", "-i", metavar="NAME", help="who needs this package")
    made.add_argument("--depth", metavar="N", type=int, help="at most so many levels below the first")
    made.add_argument("--dot", action="store_true", help="print the graph in Graphviz's text form")
    made.add_argument("--picture", metavar="FILE", help="have Graphviz draw the graph")
    console.add_json(made)
    terminal.add_color(made)
    return made


def text_of(node: Node) -> str:
    name, version, extra = node
    return f"{name}[{extra}] {version}" if extra else f"{name} {version}"


class Graph:
    """The arrows of a lock, all or those that hold on a machine."""

    def __init__(self, lock: Lock, variables: Optional[Dict[str, str]], extras: List[str]) -> None:
        self.variables = variables
        self.below: Dict[Node, List[Arrow]] = {}
        for package in lock.packages:
            self.below[(package.name, package.version, None)] = self.arrows(package.edges)
            for extra, edges in package.extras.items():
                self.below[(package.name, package.version, extra)] = self.arrows(edges)
        root = lock.root_package()
        self.roots: List[Node] = [(root.name, root.version, None), *((root.name, root.version, it) for it in extras)]
        self.reached = self.reach()

    def arrows(self, edges: List[locks.Edge]) -> List[Arrow]:
        """The arrows of a list of edges. An edge to an extra stands for the one to its package beside it."""
        held = [it for it in edges if self.holds(it.marker)]
        extras = {(it.name, it.version, it.marker) for it in held if it.extra}
        shown = [it for it in held if it.extra or (it.name, it.version, it.marker) not in extras]
        return [Arrow((it.name, it.version, it.extra), "" if self.variables else it.marker) for it in shown]

    def holds(self, marker: str) -> bool:
        return self.variables is None or not marker or bool(markers.truth(markers.read(marker), self.variables))

    def opened(self, node: Node) -> List[Arrow]:
        """What a node needs: an extra needs what its package does, and more."""
        own = self.below.get(node, [])
        base = self.below[(node[0], node[1], None)] if node[2] and node not in self.roots else []
        return [it for it in base if it not in own] + own

    def reach(self) -> Set[Node]:
        found, left = set(self.roots), list(self.roots)
        while left:
            for arrow in self.opened(left.pop()):
                if arrow.to not in found:
                    found.add(arrow.to)
                    left.append(arrow.to)
        return found

    def above(self) -> Dict[Node, List[Arrow]]:
        """Each node's users, in the order of the lock."""
        found: Dict[Node, List[Arrow]] = {}
        for node in sorted(self.reached, key=lambda it: (it[0], it[1], it[2] or "")):
            for arrow in self.opened(node):
                found.setdefault(arrow.to, []).append(Arrow(node, arrow.marker))
        return found


def lines_below(tops: List[Node], arrows: Dict[Node, List[Arrow]], depth: Optional[int]) -> Iterator[List[Part]]:
    """The lines of a tree, drawn as directories are."""
    shown: Set[Node] = set()
    left: List[Tuple[Node, str, str, str, int]] = [(it, "", "", "", 0) for it in reversed(tops)]
    while left:
        node, head, rest, marker, level = left.pop()
        below = arrows.get(node, [])
        cut = bool(below) and node in shown
        yield [Part(head, "quiet"), *parts_of(node, marker), Part(" (*)" if cut else "", "quiet")]
        if cut or (depth is not None and level >= depth):
            continue
        shown.add(node)
        for number, arrow in reversed(list(enumerate(below, 1))):
            last = number == len(below)
            branch, beside = ("└── ", "    ") if last else ("├── ", "│   ")
            left.append((arrow.to, rest + branch, rest + beside, arrow.marker, level + 1))


def parts_of(node: Node, marker: str) -> List[Part]:
    name, _, version = text_of(node).rpartition(" ")
    return [Part(name, "name"), Part(f" {version}", "version"), Part(f" ; {marker}" if marker else "", "where")]


def as_object(tops: List[Node], arrows: Dict[Node, List[Arrow]]) -> Dict[str, Any]:
    """The tops of a tree, and each node that is met below them, once, with what stands below it."""
    met, left = set(tops), list(tops)
    for node in left:
        for arrow in arrows.get(node, []):
            if arrow.to not in met:
                met.add(arrow.to)
                left.append(arrow.to)
    nodes = [
        {**named(it), "below": [{**named(arrow.to), "marker": arrow.marker} for arrow in arrows.get(it, [])]}
        for it in left
    ]
    return {"tops": [named(it) for it in tops], "nodes": nodes}


def named(node: Node) -> Dict[str, Any]:
    return dict(zip(("name", "version", "extra"), node))


def dot_text(graph: Graph) -> str:
    """The graph in Graphviz's text form: boxes of packages, arrows with their markers."""

    def quoted(text: str) -> str:
        return '"' + text.replace("\\", "\\\\").replace('"', '\\"') + '"'

    nodes = sorted(graph.reached, key=lambda it: (it[0], it[1], it[2] or ""))
    lines = ["digraph lock {", "    rankdir = LR;", "    node [shape = box];"]
    lines += [f"    {quoted(text_of(it))}{' [style = bold]' if it in graph.roots else ''};" for it in nodes]
    for node in nodes:
        for arrow in graph.opened(node):
            label = f" [label = {quoted(arrow.marker)}]" if arrow.marker else ""
            lines.append(f"    {quoted(text_of(node))} -> {quoted(text_of(arrow.to))}{label};")
    return "\n".join([*lines, "}"]) + "\n"


def draw(text: str, out: str) -> None:
    program = shutil.which("dot")
    if program is None:
        raise Refused("Graphviz's program `dot` isn't on the path; --dot prints what it reads")
    form = os.path.splitext(out)[1][1:].lower()
    if form not in ("svg", "png", "pdf"):
        raise Refused(f"--picture {out}: a picture is .svg, .png or .pdf", 2)
    done = subprocess.run(
        [program, f"-T{form}"], input=text.encode(), stdout=subprocess.PIPE, stderr=subprocess.PIPE, check=False
    )
    if done.returncode != 0:
        raise Refused(f"dot: {done.stderr.decode('utf-8', 'replace').strip()}")
    console.write_beside(out, done.stdout)


def tops_of(graph: Graph, name: str) -> List[Node]:
    found = sorted((it for it in graph.reached if it[0] == normal_name(name)), key=lambda it: (it[1], it[2] or ""))
    if not found:
        raise Refused(f"nothing needs {normal_name(name)} here")
    return found


def shown_by(encoding: str, part: Part) -> Part:
    """A part of a line, with plain letters where an encoding has no others."""
    try:
        part.text.encode(encoding)
        return part
    except UnicodeEncodeError:
        plain = {ord("└"): "`", ord("├"): "|", ord("─"): "-", ord("│"): "|"}
        return Part(part.text.translate(plain), part.kind)


def run(asked: argparse.Namespace) -> int:
    with chosen.opened(asked) as (_, lock):
        return shown(asked, lock)


def shown(asked: argparse.Namespace, lock: Lock) -> int:
    """Prints the tree of a lock, or draws it."""
    variables = chosen.machine_file(asked.machine) if asked.machine else None
    if variables is not None and lock.supported and not markers.truth(markers.read(lock.supported), variables):
        raise Refused(f"{asked.lock} isn't for this machine: it supports {lock.supported}")
    known = list(lock.root_package().extras)
    extras = [normal_name(it) for it in asked.extra] or ([] if asked.no_extras else known)
    for extra in extras:
        if extra not in known:
            raise Refused(f"{asked.lock} has no extra {extra} (it has: {', '.join(known) or 'none'})")
    graph = Graph(lock, variables, extras)
    if asked.dot or asked.picture:
        draw(dot_text(graph), asked.picture) if asked.picture else print(dot_text(graph), end="")
        return 0
    if asked.invert:
        tops, arrows = tops_of(graph, asked.invert), graph.above()
    else:
        tops, arrows = graph.roots, {it: graph.opened(it) for it in graph.reached}
    if asked.json:
        console.print_object(as_object(tops, arrows))
        return 0
    screen, encoding = terminal.Screen(asked.color), sys.stdout.encoding or "ascii"
    for line in lines_below(tops, arrows, asked.depth):
        screen.line(*(shown_by(encoding, it) for it in line))
    return 0


def main(words: Optional[List[str]] = None) -> int:
    asked = parser().read(words)
    return console.ended("tree", lambda: run(chosen.found(asked)))
