"""The answer for a small project, by trying all selections in all pieces of its environments.

No code of the program is used, and none of its ways: no propagation, nothing learned, no diagrams. A region is a set
of cells; whether a selection serves it is tried; which is best is found by trying each version in order. So it is slow,
and plainly what the rules say. `answers.py` prints what it finds.
"""

from __future__ import annotations

from typing import Any, Iterable, Iterator, NamedTuple, Optional

from cells import Cells
from plain import World, holds, lower_part, meets
from plain_files import Project, Release, Requirement, adjusted, project, releases

MOST_FORKS = 2048


class Need(NamedTuple):
    """A firm requirement's target with the versions it permits, and where its requirement holds at the node."""

    target: tuple
    permitted: frozenset
    truth: frozenset


class Leaf(NamedTuple):
    """A fork that one selection serves: its decisions are nodes with the rank of their version, in order."""

    path: str
    region: frozenset
    picks: dict


class Refused(NamedTuple):
    path: str
    region: frozenset


class Brute:
    """A project with its index documents and the versions that an old lock has."""

    def __init__(self, text: str, documents: dict, kept: Iterable[tuple] = ()) -> None:
        self.project: Project = project(text)
        mine = Release(self.project.version, (), adjusted(self.project, self.project.requirements), False, ())
        self.catalog = {
            name: [it._replace(requirements=adjusted(self.project, it.requirements)) for it in releases(document)]
            for name, document in documents.items()
        }
        self.catalog[self.project.name] = [mine]
        self.directs = mine.requirements
        self.kept: dict = {}
        for name, version in kept:
            self.kept.setdefault(name, []).append(version.key)
        self.roots = [(self.project.name, ""), *((self.project.name, it) for it in self.project.extras)]
        self._eligible: dict = {}
        self._fit: dict = {}
        self._needs: dict = {}
        every = [it for found in self.catalog.values() for it in found]
        markers = [it.marker for release in every for it in release.requirements]
        bounds = [self.project.python, *(lower_part(it.python) for it in every)]
        self.cells = Cells([*markers, *self.project.environments], bounds)
        self.supported = self.cells.where(self.project.python)
        if self.project.environments:
            self.supported &= frozenset().union(*(self.cells.truth(it, "") for it in self.project.environments))

    def eligible(self, name: str) -> list:
        """The releases of a name that may be chosen, oldest first."""
        if name not in self._eligible:
            usable = sorted(self.catalog.get(name, []), key=lambda it: it.version.key)
            clauses = [it for wanted in self.directs if wanted.name == name for it in wanted.clauses]
            is_named = any(it.op != "!=" and it.version.is_pre for it in clauses)
            mode = self.project.prereleases
            with_pre = (
                mode == "allow"
                or ("explicit" in mode and is_named)
                or (mode.startswith("if-necessary") and all(it.version.is_pre for it in usable))
            )
            pinned = {it.version.key for it in clauses if it.op == "==" and not it.star}
            is_project = name == self.project.name
            self._eligible[name] = [
                it for it in usable
                if is_project or ((with_pre or not it.version.is_pre) and (not it.yanked or it.version.key in pinned))
            ]
        return self._eligible[name]

    def order(self, name: str) -> list:
        """The ranks of a name's versions as they are tried: kept ones, then by the mode."""
        found = self.eligible(name)
        kept = [k for k in reversed(range(len(found))) if found[k].version.key in self.kept.get(name, [])]
        is_direct = any(it.name == name for it in self.directs)
        is_oldest = self.project.mode == "lowest" or (self.project.mode == "lowest-direct" and is_direct)
        others = range(len(found)) if is_oldest else reversed(range(len(found)))
        return kept + [k for k in others if k not in kept]

    def fit(self, node: tuple, rank: int) -> frozenset:
        """Where a release's Python bound, as far as it counts, is met."""
        key = node[0], rank
        if key not in self._fit:
            self._fit[key] = self.cells.where(lower_part(self.eligible(node[0])[rank].python))
        return self._fit[key]

    def may_serve(self, region: frozenset, node: tuple, rank: int) -> bool:
        fit = self.fit(node, rank)
        return region <= fit if self.project.strategy == "fewest" else bool(region & fit)

    def truth(self, requirement: Requirement, extra: str) -> frozenset:
        """Where a requirement is true at a node: at an extra's node only what isn't true at its base."""
        plain = self.cells.truth(requirement.marker, "")
        return self.cells.truth(requirement.marker, extra) - plain if extra else plain

    def applied(self, region: frozenset, node: tuple, rank: int) -> list:
        """The requirements that are true somewhere in the region, each with where it is true."""
        found = [(it, self.truth(it, node[1])) for it in self.eligible(node[0])[rank].requirements]
        return [(it, truth) for it, truth in found if truth & region]

    def groups(self, region: frozenset, node: tuple, rank: int) -> list:
        """The truths of requirements on one name that aren't all of one truth in the region, by first requirement."""
        by_name: dict = {}
        for it, truth in self.applied(region, node, rank):
            by_name.setdefault(it.name, []).append(truth)
        return [(name, it) for name, it in by_name.items() if len({truth & region for truth in it}) > 1]

    def needs(self, region: frozenset, node: tuple, rank: int) -> list:
        """The targets of the requirements that stand in no split group, in order."""
        key = region, node, rank
        if key not in self._needs:
            self._needs[key] = self._needs_of(region, node, rank)
        return self._needs[key]

    def _needs_of(self, region: frozenset, node: tuple, rank: int) -> list:
        split = {name for name, _ in self.groups(region, node, rank)}
        made = []
        for it, truth in self.applied(region, node, rank):
            if it.name not in split:
                found = enumerate(self.eligible(it.name))
                permitted = frozenset(
                    k for k, other in found
                    if meets(it.clauses, other.version) and it.source in (None, other.source)
                )  # fmt: skip
                made += [Need(target, permitted, truth) for target in it.targets]
        return made

    def selections(self, region: frozenset, fixed: dict, dropped: frozenset = frozenset()) -> Iterator[dict]:
        """Every selection that serves the region and has the fixed choices, without what nothing in it needs."""
        wanted = [(it, range(len(self.eligible(it[0])))) for it in self.roots]
        return self._extended((region, fixed, dropped), {}, wanted)

    def is_served(self, region: frozenset, fixed: dict, dropped: frozenset = frozenset()) -> bool:
        return any(True for _ in self.selections(region, fixed, dropped))

    def _extended(self, given: tuple, chosen: dict, wanted: list) -> Iterator[dict]:
        region, fixed, dropped = given
        while wanted and wanted[0][0] in chosen:
            if chosen[wanted[0][0]] not in wanted[0][1]:
                return
            wanted = wanted[1:]
        if not wanted:
            yield chosen
            return
        node, permitted = wanted[0]
        for rank in permitted:
            if fixed.get(node, rank) == rank and self.may_serve(region, node, rank):
                own = [((node[0], ""), [rank])] if node[1] else []
                for place, it in enumerate(self.needs(region, node, rank)):
                    if (node, rank, place) not in dropped:
                        own.append((it.target, sorted(it.permitted)))
                yield from self._extended(given, {**chosen, node: rank}, own + wanted[1:])

    def best(self, region: frozenset) -> Optional[dict]:
        """The decisions of the best selection in order, or None where nothing serves the region."""
        decided: dict = {}
        for node in self.roots:
            decided[node] = 0
        if not self.is_served(region, decided):
            return None
        while True:
            wanted = (it.target for node, rank in decided.items() for it in self.needs(region, node, rank))
            node = next((it for it in wanted if it not in decided), None)
            if node is None:
                return decided
            decided[node] = next(it for it in self.order(node[0]) if self.is_served(region, {**decided, node: it}))

    def split(self, region: frozenset) -> Any:
        """Refused (None), done (the decisions), or the truth that splits the region."""
        best = self.best(region)
        if best is None:
            return self.deep_split(region) if self.project.strategy == "deep" else None
        for node, rank in best.items():
            if not region <= self.fit(node, rank):
                return self.fit(node, rank)
        for node, rank in best.items():
            for _, truths in self.groups(region, node, rank):
                return next(it for it in truths if region - it)
        return best

    def deep_split(self, region: frozenset) -> Any:
        """Under the strategy that splits clashes: the first of the core's requirements that fails somewhere, if any."""
        truths = (need.truth for _, _, need in self.core(region))
        return next((it for it in truths if region - it), None)

    def forks(self) -> Any:
        """All leaves in the order of their paths, the first refused fork, or the number of forks that is too many."""
        leaves: list = []
        rows = [("", self.supported)]
        while rows:
            if len(leaves) + len(rows) > MOST_FORKS:
                return len(leaves) + len(rows)
            found = [(path, region, self.split(region)) for path, region in rows]
            rows = []
            for path, region, it in found:
                if it is None:
                    return Refused(path, region)
                if isinstance(it, dict):
                    leaves.append(Leaf(path, region, it))
                else:
                    rows += [(path + "0", region & it), (path + "1", region - it)]
        return sorted(leaves)

    def core(self, region: frozenset) -> list:
        """Of the needs of a region that nothing serves, in order, those that can't be left out one after another."""
        reached, todo = set(), list(self.roots)
        while todo:
            node = todo.pop()
            if node not in reached:
                reached.add(node)
                todo += [it.target for k in range(len(self.eligible(node[0]))) for it in self.needs(region, node, k)]
        rows = [
            (node, rank, place, it)
            for node in sorted(reached)
            for rank in range(len(self.eligible(node[0])))
            for place, it in enumerate(self.needs(region, node, rank))
        ]
        dropped: set = set()
        for node, rank, place, _ in rows:
            dropped.add((node, rank, place))
            if self.is_served(region, {}, frozenset(dropped)):
                dropped.remove((node, rank, place))
        return [(node, rank, it) for node, rank, place, it in rows if (node, rank, place) not in dropped]

    def closure(self, picks: dict, extras: Iterable[str], is_true: Any) -> set:
        """The nodes that the requirements true at a place reach from the project and its extras."""
        reached: set = set()
        todo = [(self.project.name, ""), *((self.project.name, it) for it in extras)]
        while todo:
            node = todo.pop()
            if node not in reached:
                reached.add(node)
                for it in self.eligible(node[0])[picks[node]].requirements:
                    if is_true(it, node[1]):
                        todo += it.targets
        return reached

    def closure_in(self, leaf: Leaf, cell: int, extras: Iterable[str]) -> set:
        return self.closure(leaf.picks, extras, lambda it, extra: cell in self.truth(it, extra))

    def closure_at(self, leaf: Leaf, world: World, extras: Iterable[str]) -> set:
        """The same at a world, by each requirement's marker itself."""

        def is_true(it: Requirement, extra: str) -> bool:
            return holds(it.marker, world, extra) and not (extra and holds(it.marker, world, ""))

        return self.closure(leaf.picks, extras, is_true)

