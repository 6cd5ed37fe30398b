"""Reading a refusal's text: the fork, its region and a world in it, and the steps or the core behind them."""

from __future__ import annotations

import re
from typing import Dict, List, NamedTuple, Optional, Tuple, Union

from .console import Refused

NODE = r"[a-z0-9-]+(?:\[[a-z0-9-]+\])?"
SET = r"\{[^ }]*\}"
NEED = re.compile(rf"(\d+) need ({NODE}) ({SET}) ({NODE}) ({SET})\Z")
PYTHON = re.compile(rf"(\d+) (python|base) ({NODE}) ({SET})\Z")
CUT = re.compile(rf"(\d+) cut (\d+) (\d+) on ({NODE}):(.*)\Z")
TERM = re.compile(rf"(not )?({NODE}) ({SET})\Z")
CORE = re.compile(rf"({NODE}) ([^ ]+) needs ({NODE}) ({SET})\Z")


class Node(NamedTuple):
    """A package, or an extra of it."""

    name: str
    extra: Optional[str]

    def __str__(self) -> str:
        return f"{self.name}[{self.extra}]" if self.extra else self.name


class Need(NamedTuple):
    """Each of the versions of a node needs one of the permitted versions of another."""

    node: Node
    versions: List[str]
    target: Node
    permitted: List[str]


class Python(NamedTuple):
    """Versions whose bound on the interpreter the fork doesn't keep."""

    node: Node
    versions: List[str]


class Base(NamedTuple):
    """An extra of these versions goes with its package at the same version."""

    node: Node
    versions: List[str]


class Term(NamedTuple):
    """That a node is chosen at one of the versions, or that it isn't."""

    holds: bool
    node: Node
    versions: List[str]


class Cut(NamedTuple):
    """What follows from two earlier steps: these terms don't go together."""

    left: int
    right: int
    terms: List[Term]


Step = Union[Need, Python, Base, Cut]


class Refusal(NamedTuple):
    fork: str
    region: str
    world: Dict[str, str]
    steps: List[Step]
    core: List[Need]


def node_of(text: str) -> Node:
    name, bracket, extra = text.partition("[")
    return Node(name, extra[:-1] if bracket else None)


def set_of(text: str) -> List[str]:
    return [it for it in text[1:-1].split(",") if it]


def term_of(text: str) -> Term:
    found = TERM.match(text)
    if found is None:
        raise Refused(f"no term of a step: {text[:80]}")
    return Term(not found[1], node_of(found[2]), set_of(found[3]))


def step_of(line: str) -> Optional[Step]:
    found = NEED.match(line)
    if found:
        return Need(node_of(found[2]), set_of(found[3]), node_of(found[4]), set_of(found[5]))
    found = PYTHON.match(line)
    if found:
        node, versions = node_of(found[3]), set_of(found[4])
        return Python(node, versions) if found[2] == "python" else Base(node, versions)
    found = CUT.match(line)
    if found:
        # A version has no comma, but a set has; a term ends where its set does.
        terms = re.findall(rf"(?:not )?{NODE} {SET}", found[5])
        return Cut(int(found[2]), int(found[3]), [term_of(it) for it in terms])
    return None


def world_of(text: str) -> Dict[str, str]:
    """The values that the world's line gives; the comparisons behind them aren't values."""
    return {key: value for key, _, value in re.findall(r"(\w+) == (['\"])(.*?)\2", text)}


def read(text: str, path: str) -> Refusal:
    """The refusal that a text has, as `why` or `lock` prints it."""
    lines = text.splitlines()
    heads = ["no selection serves this fork", "fork: ", "region: ", "world: "]
    if len(lines) < 4 or not all(line.startswith(head) for line, head in zip(lines, heads)):
        raise Refused(f"{path}: it is no refusal of unilock")
    steps: List[Step] = []
    core: List[Need] = []
    for number, line in enumerate(lines[4:], 5):
        found = step_of(line)
        needed = CORE.match(line)
        if found is not None:
            steps.append(found)
        elif needed is not None:
            core.append(Need(node_of(needed[1]), [needed[2]], node_of(needed[3]), set_of(needed[4])))
        elif not line.startswith("core: "):
            raise Refused(f"{path}: line {number}: no line of a refusal: {line[:80]}")
    return Refusal(lines[1][6:], lines[2][8:], world_of(lines[3][7:]), steps, core)


def used(steps: List[Step]) -> List[Tuple[int, Step]]:
    """The steps that the last one rests on, itself among them, with their numbers."""
    wanted = {len(steps)}
    for number in range(len(steps), 0, -1):
        step = steps[number - 1]
        if number in wanted and isinstance(step, Cut):
            wanted |= {step.left, step.right}
    return [(number, steps[number - 1]) for number in sorted(wanted) if 0 < number <= len(steps)]
