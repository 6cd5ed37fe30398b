"""All environments of a small project, cut into cells on which no marker changes; regions, decision trees, their texts.

A region is a set of cells. A tree asks the interpreter first, then each text variable in a fixed order, then each
comparison that can't be split into points; equal neighbours are one branch, and a question whose answers agree isn't
asked. So a region has one tree, and a tree one text.
"""

from __future__ import annotations

import itertools
from typing import Any, Callable, Iterable, Union

from plain import OPAQUE_KINDS, OPAQUE_VARIABLES, TEXT_VARIABLES, World, atoms, holds, meets, of_triple

Tree = Union[bool, tuple]
NO_POINT = -1


def starts_of(clauses: Iterable[Any]) -> list:
    """The interpreters at which a clause may change its truth: numbers of its version, or one more, then zeros."""
    found = {(0, 0, 0)}
    for it in clauses:
        a, b, c = (it.version.release + (0, 0, 0))[:3]
        found |= {(x, y, z) for x in (a, a + 1) for y in (0, b, b + 1) for z in (0, c, c + 1)}
    return sorted(found)


def opaque_order(atom: tuple) -> tuple:
    return OPAQUE_VARIABLES.index(atom[1]), OPAQUE_KINDS.index(atom[2]), atom[3]


def text_elsewhere(points: Iterable[str]) -> str:
    """The shortest of the empty text, `x`, `xx` and so on that is none of the points."""
    return next(it for it in map("x".__mul__, itertools.count()) if it not in points)


class Cells:
    """The cells of all environments, by the comparisons of given markers and the clauses of given Python bounds."""

    def __init__(self, markers: Iterable[tuple], bounds: Iterable[tuple]) -> None:
        found = {atom for it in markers for atom in atoms(it)}
        bounds = set(bounds)
        of_python = sorted((it for it in found if it[0] == "python"), key=repr)
        clauses = [clause for it in bounds for clause in it] + [clause for it in of_python for clause in it[2]]
        starts, truths = [], []
        for start in starts_of(clauses):
            world = World(start, {}, frozenset())
            truth = [holds(it, world, "") for it in of_python] + [meets(it, of_triple(start)) for it in bounds]
            if not truths or truths[-1] != truth:
                starts.append(start)
                truths.append(truth)
        self.dims: list = [("python", starts)]
        for name in TEXT_VARIABLES:
            points = sorted({it[2] for it in found if it[0] == "text" and it[1] == name})
            if points:
                self.dims.append(("text", name, points))
        self.dims += sorted((it for it in found if it[0] == "opaque"), key=opaque_order)
        self.worlds = [self._world(it) for it in itertools.product(*map(range, map(self._size, self.dims)))]
        self.all = frozenset(range(len(self.worlds)))
        self._numbers = {it: k for k, it in enumerate(itertools.product(*map(range, map(self._size, self.dims))))}
        self._truths: dict = {}

    @staticmethod
    def _size(dim: tuple) -> int:
        return len(dim[1]) if dim[0] == "python" else len(dim[2]) + 1 if dim[0] == "text" else 2

    def _world(self, places: tuple) -> World:
        texts, opaque = dict.fromkeys(TEXT_VARIABLES, ""), set()
        for dim, place in zip(self.dims[1:], places[1:]):
            if dim[0] == "text":
                texts[dim[1]] = dim[2][place] if place < len(dim[2]) else text_elsewhere(dim[2])
            elif place == 0:
                opaque.add(dim)
        return World(self.dims[0][1][places[0]], texts, frozenset(opaque))

    def cell_of(self, world: World) -> int:
        """The cell in which a world lies."""
        places = [max(k for k, it in enumerate(self.dims[0][1]) if it <= world.python)]
        for dim in self.dims[1:]:
            if dim[0] == "text":
                text = world.texts[dim[1]]
                places.append(dim[2].index(text) if text in dim[2] else len(dim[2]))
            else:
                places.append(0 if dim in world.opaque else 1)
        return self._numbers[tuple(places)]

    def truth(self, marker: tuple, extra: str) -> frozenset:
        """The cells where a marker holds with an extra."""
        key = marker, extra
        if key not in self._truths:
            self._truths[key] = frozenset(k for k, it in enumerate(self.worlds) if holds(marker, it, extra))
        return self._truths[key]

    def where(self, clauses: tuple) -> frozenset:
        """The cells whose interpreter meets the clauses."""
        return frozenset(k for k, it in enumerate(self.worlds) if meets(clauses, of_triple(it.python)))

    # Trees: a truth, or the number of a dimension, its keys and its parts. A text has one part more than points.

    def tree(self, region: frozenset) -> Tree:
        return self._tree(lambda places: self._numbers[places] in region, ())

    def _tree(self, is_in: Callable[[tuple], bool], places: tuple) -> Tree:
        level = len(places)
        if level == len(self.dims):
            return is_in(places)
        dim = self.dims[level]
        keys = dim[1] if dim[0] == "python" else dim[2] if dim[0] == "text" else ()
        return self._made(level, keys, [self._tree(is_in, (*places, k)) for k in range(self._size(dim))])

    def _made(self, level: int, keys: Iterable[Any], parts: list) -> Tree:
        """The node without what tells nothing."""
        kind = self.dims[level][0]
        keys = list(keys)
        if kind == "python":
            kept = [k for k in range(len(parts)) if k == 0 or parts[k] != parts[k - 1]]
            keys, parts = [keys[k] for k in kept], [parts[k] for k in kept]
        elif kind == "text":
            kept = [k for k in range(len(keys)) if parts[k] != parts[-1]]
            keys, parts = [keys[k] for k in kept], [*(parts[k] for k in kept), parts[-1]]
        elif parts[0] == parts[1]:
            return parts[0]
        return parts[0] if len(parts) == 1 else (level, tuple(keys), tuple(parts))

    def _pieces(self, level: int, *trees: Tree) -> list:
        """The keys of the pieces into which trees of one level cut it."""
        if self.dims[level][0] == "opaque":
            return []
        return sorted({key for it in trees for key in it[1]})  # type: ignore[index]

    def _part(self, level: int, tree: Tree, key: Any) -> Tree:
        """A tree's part at a key: an interpreter, a text or NO_POINT, or the place of a truth."""
        if isinstance(tree, bool) or tree[0] != level:
            return tree
        _, keys, parts = tree
        kind = self.dims[level][0]
        if kind == "python":
            return parts[max(k for k, it in enumerate(keys) if it <= key)]
        if kind == "text":
            return parts[keys.index(key)] if key in keys else parts[-1]
        return parts[key]

    def _cut(self, level: int, keys: list) -> list:
        """The keys of all pieces in their order."""
        kind = self.dims[level][0]
        return keys if kind == "python" else [*keys, NO_POINT] if kind == "text" else [0, 1]

    def union(self, one: Tree, other: Tree) -> Tree:
        if isinstance(one, bool) or isinstance(other, bool):
            return other if one is False else one if other is False else True
        level = min(one[0], other[0])
        keys = self._pieces(level, *(it for it in (one, other) if it[0] == level))
        pieces = [(self._part(level, one, key), self._part(level, other, key)) for key in self._cut(level, keys)]
        return self._made(level, keys, [self.union(*it) for it in pieces])

    def simplified(self, tree: Tree, region: Tree) -> Tree:
        """The tree made simpler where the region doesn't hold; it keeps its truth where the region does."""
        if isinstance(tree, bool) or region is True:
            return tree
        assert not isinstance(region, bool), "a region isn't false"
        if region[0] < tree[0]:
            joined: Tree = False
            for it in region[2]:
                joined = self.union(joined, it)
            return self.simplified(tree, joined)
        level = tree[0]
        keys = self._pieces(level, *(it for it in (tree, region) if it[0] == level))
        pieces = [(self._part(level, tree, key), self._part(level, region, key)) for key in self._cut(level, keys)]
        parts: list = [None if below is False else self.simplified(part, below) for part, below in pieces]
        for k in range(1, len(parts)):
            parts[k] = parts[k - 1] if parts[k] is None else parts[k]
        for k in reversed(range(len(parts) - 1)):
            parts[k] = parts[k + 1] if parts[k] is None else parts[k]
        return self._made(level, keys, parts)

    def paths(self, tree: Tree) -> list:
        """The paths to true, each a list of steps: a dimension, the keys of its node and the number of the part."""
        if isinstance(tree, bool):
            return [[]] if tree else []
        level, keys, parts = tree
        return [[(self.dims[level], keys, k), *it] for k, part in enumerate(parts) for it in self.paths(part)]

    def text(self, tree: Tree) -> str:
        if tree is True:
            return "*"
        return " or ".join(" and ".join(text for step in it for text in step_texts(*step)) for it in self.paths(tree))

    def sample(self, tree: Tree) -> str:
        """The world of the first path, as comparisons."""
        python, texts, opaque = (0, 0, 0), dict.fromkeys(TEXT_VARIABLES, ""), []
        for dim, keys, k in self.paths(tree)[0]:
            if dim[0] == "python":
                python = keys[k]
            elif dim[0] == "text":
                texts[dim[1]] = keys[k] if k < len(keys) else text_elsewhere(keys)
            elif k == 0:
                opaque.append(opaque_text(dim, True))
        shown = [f"python_full_version == '{dotted(python)}'"]
        return " and ".join([*shown, *(f"{name} == {quoted(it)}" for name, it in texts.items()), *opaque])


def dotted(triple: tuple) -> str:
    return ".".join(map(str, triple))


def quoted(text: str) -> str:
    return f'"{text}"' if "'" in text else f"'{text}'"


def opaque_text(atom: tuple, is_true: bool) -> str:
    _, name, kind, literal = atom
    if kind == "contains":
        return f"{quoted(literal)} {'in' if is_true else 'not in'} {name}"
    ops = {"within": ("in", "not in"), "below": ("<", ">="), "at most": ("<=", ">"), "same": ("==", "!=")}
    return f"{name} {ops[kind][0 if is_true else 1]} {quoted(literal)}"


def step_texts(dim: tuple, keys: tuple, k: int) -> list:
    """The comparisons of one step of a path."""
    if dim[0] == "python":
        low = [f"python_full_version >= '{dotted(keys[k])}'"] if k else []
        return low + ([f"python_full_version < '{dotted(keys[k + 1])}'"] if k + 1 < len(keys) else [])
    if dim[0] == "text":
        shown = f"{dim[1]} == {quoted(keys[k])}" if k < len(keys) else ""
        return [shown] if shown else [f"{dim[1]} != {quoted(it)}" for it in keys]
    return [opaque_text(dim, k == 0)]
