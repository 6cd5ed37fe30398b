"""Why a lock is rejected, in words: a requirement, a machine on which it holds, and what the lock gives there.

The program judges a lock; these sentences say what is behind its verdict. They look at the machines of `worlds`, so
that of a lock that is wrong on other machines alone they say so.
"""

from __future__ import annotations

from typing import Any, Dict, Iterator, List, NamedTuple, Optional, Sequence, Set, Tuple

from . import documents, labels, markers, worlds
from .locks import Lock, Package
from .project import Project
from .readings import Requirement, requirement_of
from .versions import Clause, NoReading, Version, meets, specifiers_of, version
from .worlds import Machine, Node, Walked

# What is said of a lock that is wrong, though none of the machines shows it.
ELSEWHERE = "what is wrong shows on machines that aren't among those looked at"
LOWER = (">=", ">", "~=", "==")


class Wanted(NamedTuple):
    """A requirement, the extra for which it is asked, and where it stands."""

    requirement: Requirement
    extra: str
    place: str


class Fault(NamedTuple):
    """A package of the lock that isn't right, and why."""

    name: str
    version: str
    text: str


def same_version(one: str, other: str) -> bool:
    read, wanted = version(one), version(other)
    return read is not None and wanted is not None and read.key == wanted.key


def bound_holds(bound: Sequence[Clause], python: str) -> bool:
    """Whether an interpreter keeps a release's bound, of which only the lower part counts."""
    found = version(python)
    assert found is not None, "a machine's interpreter is three numbers"
    return all(lower_holds(it.op, it.version, found) for it in bound if it.op in LOWER)


def lower_holds(op: str, limit: Version, found: Version) -> bool:
    return found.public_key > limit.public_key or (op != ">" and found.public_key == limit.public_key)


class Judge:
    """Looks for what is wrong with a lock of a project by an index folder."""

    def __init__(self, project: Project, index: str, lock: Lock, wide: bool = False) -> None:
        self.project, self.held, self.lock = project, documents.Held(index), lock
        self.asked: Dict[Tuple[str, str], List[Wanted]] = {}
        self.environments = project.environments()
        own = [str(it.requirement.text.partition(";")[2]).strip() for it in project.requirements]
        texts = {*worlds.marker_texts(lock), *self.environments, *own}
        texts |= {it.marker for found in project.sources.values() for it in found}
        for package in lock.packages:
            texts |= {text.partition(";")[2].strip() for text in self.texts(package)}
            texts |= {f"python_full_version >= '{it.version.text()}'" for it in self.bound(package)}
        self.walks = [
            (machine, Walked(lock, machine))
            for machine in worlds.machines(texts, project.requires_python, wide)
            if worlds.is_supported(machine, self.environments)
        ]

    def document(self, name: str) -> Optional[Dict[str, Any]]:
        return self.held.document(name)

    def release(self, package: Package) -> Optional[Dict[str, Any]]:
        return self.held.release(package.name, package.version)

    def texts(self, package: Package) -> List[str]:
        entry = self.release(package) if package.name != self.lock.root else None
        return [str(it) for it in (entry or {}).get("requires_dist") or []]

    def bound(self, package: Package) -> List[Clause]:
        """The release's bound on Python."""
        entry = self.release(package) if package.name != self.lock.root else None
        try:
            return specifiers_of(str((entry or {}).get("requires_python") or ""))
        except NoReading:
            return []

    def wanted(self, package: Package) -> List[Wanted]:
        """The requirements of a package, as the project's overrides make them."""
        key = (package.name, package.version)
        if key not in self.asked:
            self.asked[key] = self.read(package)
        return self.asked[key]

    def read(self, package: Package) -> List[Wanted]:
        if package.name == self.lock.root:
            found = [Wanted(it.requirement, it.extra or "", it.place) for it in self.project.requirements]
        else:
            found = []
            for text in self.texts(package):
                read = requirement_of(text)
                found += [Wanted(read, extra, f"`{text}`") for extra in ["", *package.extras]]
        return [it for one in found for it in self.overridden(one)]

    def overridden(self, wanted: Wanted) -> List[Wanted]:
        """A requirement as the project's overrides of its name make it: with their specifiers, and both markers."""
        found = []
        for placed in self.project.overrides:
            read, one = wanted.requirement, placed.requirement
            if one.name == read.name:
                marker = markers.all_of([read.marker, one.marker])
                place = f"{wanted.place}, which `{one.text}` overrides ({placed.place})"
                requirement = read._replace(clauses=one.clauses, marker=marker)
                found.append(wanted._replace(requirement=requirement, place=place))
        return found or [wanted]

    def eligible(self, package: Package) -> Optional[str]:
        """Why no requirement may take this version, where none may."""
        entry = self.release(package)
        what = f"{package.name} {package.version}"
        if self.document(package.name) is None:
            return f"the index has no document of {package.name}"
        if entry is None:
            return f"the index has no release {what} that can be used"
        direct = self.project.direct(package.name)
        yanked = entry.get("yanked")
        pins = [clause.version.text() for it in direct for clause in it.clauses if clause.op == "=="]
        if (yanked is True or isinstance(yanked, str)) and not any(same_version(it, package.version) for it in pins):
            reason = f" ({yanked})" if isinstance(yanked, str) and yanked else ""
            return f"{what} is yanked{reason}, and the project doesn't ask for `=={package.version}`"
        read = version(package.version)
        known = [version(spelled) for spelled, _ in documents.releases_of(self.document(package.name))]
        others = any(it is not None and not it.is_pre for it in known)
        passed_over = others or not self.project.needs_prereleases
        if read is not None and read.is_pre and passed_over and not self.project.asks_prereleases(package.name):
            why = "no requirement of the project names one"
            mode = self.project.prereleases
            return f"{what} is a pre-release, and {why if 'explicit' in mode else f'the mode is {mode}'}"
        return None

    def at(self, package: Package, machine: Machine, walked: Walked) -> Optional[str]:
        """What is wrong with a package on a machine that reaches it."""
        nodes = walked.nodes.get((package.name, package.version))
        if not nodes:
            return None
        where = f"on {worlds.described(machine)}"
        several = walked.versions().get(package.name, {package.version})
        if len(several) > 1:
            return f"{where} the lock gives {package.name} {' and '.join(sorted(several))}"
        what = "the project" if package.name == self.lock.root else f"{package.name} {package.version}"
        bound = self.bound(package)
        if not bound_holds(bound, machine["python_full_version"]):
            shown = ",".join(f"{it.op}{it.version.text()}" for it in bound)
            return f"{what} needs Python `{shown}`, and {where} the lock gives it"
        asked = [
            it
            for it in self.wanted(package)
            if Node(package.name, package.version, it.extra or None) in nodes and self.is_asked(package, it, machine)
        ]
        for one in asked:
            fault = self.unmet(one, nodes, walked)
            if fault is not None:
                by = one.place if package.name != self.lock.root else f"`{one.requirement.text}` ({one.place})"
                return f"{what} requires {by}, and {where} the lock gives {fault}"
        return self.unasked(package, asked, nodes, walked, where)

    def unasked(
        self, package: Package, asked: List[Wanted], nodes: List[Node], walked: Walked, where: str
    ) -> Optional[str]:
        """An edge that holds there and that none of the requirements asks for."""
        what = "the project" if package.name == self.lock.root else f"{package.name} {package.version}"
        for node in nodes:
            mine = [it.requirement for it in asked if it.extra == (node.extra or "")]
            targets = {(it.name, extra) for it in mine for extra in ["", *it.extras]}
            for edge in walked.edges[node]:
                if (edge.name, edge.extra or "") not in targets:
                    asks = f"{what}[{node.extra}]" if node.extra else what
                    needless = f"{edge.name}[{edge.extra}]" if edge.extra else edge.name
                    given = f"the lock gives it {edge.name} {edge.version}"
                    return f"{asks} doesn't require {needless} {where}, and {given}"
        return None

    def is_asked(self, package: Package, wanted: Wanted, machine: Machine) -> bool:
        """Whether a requirement may be true there: of an extra what it adds, and not what holds without it."""
        marker = wanted.requirement.marker
        if wanted.extra and package.name != self.lock.root:
            if markers.truth(marker, worlds.known_values(machine, "")) is True:
                return False
        return markers.truth(marker, worlds.known_values(machine, wanted.extra)) is not False

    def unmet(self, wanted: Wanted, nodes: List[Node], walked: Walked) -> Optional[str]:
        """What the lock gives in the place of what a requirement asks for, where it isn't that."""
        name = wanted.requirement.name
        asking = Node(nodes[0].name, nodes[0].version, wanted.extra or None)
        given = {edge.version for edge in walked.edges[asking] if edge.name == name}
        if name == self.lock.root:
            return None
        if not given:
            return f"it no {name}"
        for spelled in sorted(given):
            read = version(spelled)
            if len(given) > 1 or read is None or not meets(wanted.requirement.clauses, read):
                return f"{name} {' and '.join(sorted(given))}"
        lacking = [
            extra
            for extra in wanted.requirement.extras
            if not any((edge.name, edge.extra) == (name, extra) for edge in walked.edges[asking])
        ]
        return f"{name} without its extra {lacking[0]}" if lacking else None

    def bounded(self, package: Package) -> Optional[str]:
        """A constraint or an override of the project that a version doesn't meet on a machine that gets it."""
        read = version(package.version)
        for placed in [*self.project.constraints, *self.project.overrides]:
            one = placed.requirement
            if one.name != package.name or read is None or meets(one.clauses, read):
                continue
            for machine, walked in self.walks:
                if package.version in walked.versions().get(package.name, ()) and markers.truth(one.marker, machine):
                    given = f"the lock gives {package.name} {package.version}"
                    return f"the project allows `{one.text}` alone ({placed.place}), and {given}"
        return None

    def unsourced(self, package: Package) -> Optional[str]:
        """That a version doesn't come from where the project's sources say, on a machine that gets it."""
        listed = self.project.sources.get(package.name)
        source = labels.source_of(self.release(package) or {})
        for machine, walked in [] if listed is None else self.walks:
            counting = labels.counting(listed or (), machine)
            if package.version in walked.versions().get(package.name, ()) and counting != [source]:
                wanted = " and ".join(map(labels.told, counting))
                given = f"the lock gives {package.name} {package.version} from {labels.told(source)}"
                takes = f"the project takes {package.name} from {wanted} ({labels.PLACE}.{package.name})"
                return f"on {worlds.described(machine)} {takes}, and {given}"
        return None

    def fault(self, package: Package) -> Optional[str]:
        """What is wrong with a package of the lock, as far as the machines show."""
        try:
            if package.name != self.lock.root:
                found = self.eligible(package) or self.bounded(package) or self.unsourced(package)
                if found is not None:
                    return found
            return next((it for it in (self.at(package, *one) for one in self.walks) if it is not None), None)
        except NoReading as fault:
            return str(fault)

    def faults(self) -> Iterator[Fault]:
        for package in self.lock.packages:
            found = self.fault(package)
            if found is not None:
                yield Fault(package.name, package.version, found)

    def root(self) -> str:
        """Why the lock's root isn't the project."""
        root = self.lock.root_package()
        if self.lock.root != self.project.name:
            return f"the lock is of the project {self.lock.root}, and this one is {self.project.name}"
        if not same_version(root.version, self.project.version):
            return f"the lock is of version {root.version}, and the project has {self.project.version}"
        lacking = sorted(set(self.project.extras()) - set(root.extras))
        return f"the lock has no extra {', '.join(lacking)} of the project" if lacking else "its root isn't the project"

    def supported(self) -> str:
        """That the lock is made for other machines than the project supports."""
        listed = f" and {' or '.join(self.environments)}" if self.environments else ""
        return (
            f"the project supports Python `{self.project.requires_python or '>=0'}`{listed}, "
            f"and the lock is made for {self.lock.supported or 'all machines'}"
        )

    def reason(self, rejected: str) -> str:
        """What is behind `rejected: WHAT`."""
        if rejected in ("root", "supported"):
            return self.root() if rejected == "root" else self.supported()
        found = {f"{it.name} {it.version}": it.text for it in self.faults()}
        # A package that nobody asks for is the fault of the one that has an edge to it.
        near = [text for text in found.values() if f" {rejected}" in text]
        others = [*near, *found.values(), ELSEWHERE]
        return found.get(rejected, others[0])

    def file_faults(self) -> Iterator[str]:
        """Files of the lock that the index doesn't have, or has with another hash."""
        for package in self.lock.packages:
            if package.name == self.lock.root:
                continue
            known = dict(files_of(self.release(package)))
            for name, summed in package.files:
                if name not in known:
                    yield f"{package.name} {package.version}: the index has no file {name}"
                elif known[name] != summed:
                    yield f"{package.name} {package.version}: hash of {name} isn't the index's"


def files_of(entry: Optional[Dict[str, Any]]) -> List[Tuple[str, str]]:
    """The files of a release with their hashes, in the order of a lock."""
    listed = (entry or {}).get("files") or []
    found = [(str(it.get("file")), str(it.get("sha256")).lower()) for it in listed if isinstance(it, dict)]
    return sorted(found, key=lambda it: it[0].encode())


def absent_names(project: Project, index: str) -> List[str]:
    """The names that the project itself requires and that the index folder has no document of."""
    wanted: Set[str] = {it.requirement.name for it in project.requirements} - {project.name}
    return sorted(it for it in wanted if documents.load(index, it) is None)
