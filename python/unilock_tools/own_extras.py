"""Extras that ask for extras of their own package, such as `all = ["demo[docs,test]"]`.

Some lockers write what comes of it: the list of `all` has the edges of `docs` and `test`. A lock of unilock has the
edges to these extras instead, since that is what is required. `unfold` puts them there, and asks that both ways give
the same everywhere: where they don't, the other tool's lock isn't right.
"""

from __future__ import annotations

from dataclasses import dataclass, field
from typing import Dict, Iterator, List, NamedTuple, Set, Tuple

from .foreign import Block, Edges, Foreign, Target, canonical
from .marker_texts import ALWAYS, NEVER, every, some
from .required import Needed, Required, joined
from .tables import Unread

MOST_WAYS = 256


class Compared(NamedTuple):
    """What a list of the other tool's lock gives of a target, and what the extras that it is made of give."""

    block: Block
    extra: str
    target: Target
    listed: str
    made: str


@dataclass
class Unfolding:
    """A block whose extras are unfolded: the requirements and the edges of each, and the ways from one to another."""

    block: Block
    required: Required
    needed: Dict[str, List[Needed]] = field(default_factory=dict)
    steps: Dict[str, Dict[str, str]] = field(default_factory=dict)
    own: Dict[str, Edges] = field(default_factory=dict)

    def reach(self) -> None:
        """Finds the extras that those of the block lead to, with the markers of the steps."""
        left = list(self.block.lists)
        while left:
            extra = left.pop()
            if extra not in self.needed:
                self.needed[extra] = self.required.of(self.block.name, self.block.version, extra)
                mine = joined([it for it in self.needed[extra] if it.requirement.name == self.block.name])
                self.steps[extra] = {other: some(texts) for (_, other), texts in mine.items() if other}
                left += self.steps[extra]

    def ways(self, begin: str) -> Dict[str, List[str]]:
        """The markers of all ways from an extra to each that it leads to, itself among them."""
        found: Dict[str, List[str]] = {}
        count = 0
        left: List[Tuple[str, Tuple[str, ...], str]] = [(begin, (begin,), ALWAYS)]
        while left:
            at, path, marker = left.pop()
            count += 1
            if count > MOST_WAYS:
                raise Unread(f"the extras of {self.block} lead to one another in more than {MOST_WAYS} ways")
            found.setdefault(at, []).append(marker)
            for other, text in self.steps[at].items():
                if other not in path:
                    left.append((other, (*path, other), every([marker, text])))
        return found

    def sources(self, extra: str, ways: Dict[str, Dict[str, List[str]]]) -> Edges:
        """The edges that may be an extra's: its list, or where it has none the lists of those that lead to it."""
        if extra in self.block.lists:
            return self.block.lists[extra]
        made: Edges = {}
        for listed in self.block.lists:
            if extra in ways[listed]:
                for target, texts in self.block.lists[listed].items():
                    made.setdefault(target, []).extend(texts)
        return made

    def split(self, ways: Dict[str, Dict[str, List[str]]]) -> None:
        """Finds what each extra itself asks for: of the edges those that a requirement of it is met by."""
        for extra, needed in self.needed.items():
            asked = joined(needed)
            self.own[extra] = {}
            for target, texts in self.sources(extra, ways).items():
                by = asked.get((target.name, target.extra))
                if by is not None:
                    self.own[extra][target] = [every([some(texts), some(by)])]

    def compared(self, ways: Dict[str, Dict[str, List[str]]]) -> Iterator[Compared]:
        """What has to be equal: each list as it stands, and what the extras give that it leads to."""
        for extra, edges in self.block.lists.items():
            made: Edges = {}
            for other, markers in ways[extra].items():
                for target, texts in self.own[other].items():
                    made.setdefault(target, []).append(every([some(markers), some(texts)]))
            for target in dict.fromkeys([*edges, *made]):
                # The package itself goes with each of its extras.
                base = self.block.lists[""].get(target, []) if extra else []
                listed, other = (some([*base, *it.get(target, [NEVER])]) for it in (edges, made))
                if listed != other:
                    yield Compared(self.block, extra, target, listed, other)

    def unfolded(self) -> Dict[str, Edges]:
        """The lists with the edges to the package's own extras."""
        found: Dict[str, Edges] = {}
        for extra, edges in self.own.items():
            found[extra] = {target: texts for target, texts in edges.items() if target.name != self.block.name}
            mine = [it for it in self.needed[extra] if it.requirement.name == self.block.name]
            for (name, other), texts in joined(mine).items():
                found[extra][Target(name, self.block.version, other)] = texts
        return found


def is_folded(block: Block, required: Required) -> bool:
    """Whether a package has requirements on itself, or others that are true with and without an extra, and none of its
    edges leads to itself."""
    if any(it.name == block.name for it in block.targets()):
        return False
    base: Set[str] = {it.requirement.text for it in required.of(block.name, block.version, "")}
    for extra in block.lists:
        for it in required.of(block.name, block.version, extra):
            if it.requirement.name == block.name or (extra and it.requirement.text in base):
                return True
    return False


def unfold(foreign: Foreign, required: Required) -> List[Compared]:
    """Puts edges to their own extras into the blocks that require them, and says what has to be equal for it."""
    found: List[Compared] = []
    for block in foreign.blocks.values():
        if is_folded(block, required):
            one = Unfolding(block, required)
            one.reach()
            ways = {extra: one.ways(extra) for extra in block.lists}
            one.split(ways)
            found += list(one.compared(ways))
            block.lists = one.unfolded()
    return found


def different(compared: List[Compared], supported: str) -> List[Compared]:
    """Those of what has to be equal that isn't, somewhere in the supported environments."""
    pairs = [(every([supported, it.listed]), every([supported, it.made])) for it in compared]
    texts = canonical([text for pair in pairs for text in pair]) if pairs else {}
    return [it for it, (one, other) in zip(compared, pairs) if texts[one] != texts[other]]
