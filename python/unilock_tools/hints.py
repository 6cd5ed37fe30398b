"""Ways out of a refusal, each of which was tried: changes of the project file with which the program locks it.

A change is made on a copy of the project file in a temporary folder, which takes milliseconds; only what leads to a
lock is told, as the line to put into the file. Of each kind the least change is: the lowest bound on Python, a bound of
one requirement raised before it is dropped, one platform left out before only one is kept.
"""

from __future__ import annotations

import os
import tempfile
import time
from pathlib import Path
from typing import Any, Callable, Dict, Iterator, List, NamedTuple, Optional, Sequence, Tuple

from . import documents, locks, markers, program
from .called import command
from .console import Refused
from .profile import Tables
from .project import Placed, Project
from .project_text import changed, toml_text
from .readings import Requirement
from .refusal import Need, Refusal
from .relocking import Files
from .toml_texts import toml_value
from .versions import Clause, NoReading, Version, specifiers_of, version

SECONDS = 20.0
LAST_PYTHON = 15
PLATFORMS = ["linux", "darwin", "win32"]
STRATEGIES = ["requires-python", "deep"]
MODES = ["if-necessary", "allow"]


class Way(NamedTuple):
    """A change that leads to a lock: what it is, the place in the file, and the line that stands there then."""

    what: str
    place: str
    line: str

    def lines(self) -> Iterator[str]:
        yield f"- {self.what}" + (f"; in {self.place}:" if self.place else ":")
        yield f"    {self.line}"


# What is answered of a changed copy of a project file, where it comes to an answer.
Answering = Callable[[str], Optional[program.Answer]]


class Trials:
    """Changed copies of a project file, which the program is asked to lock by the index folder, or by what `answering`
    fetches."""

    def __init__(self, files: Files, held: str, answering: Optional[Answering] = None) -> None:
        self.files = files._replace(project=os.path.join(held, "pyproject.toml"))
        self.answering = answering or (lambda _: self.files.locked())
        self.until = time.monotonic() + SECONDS
        self.count, self.passed_over = 0, 0

    def lock(self, tables: Tables) -> Optional[locks.Lock]:
        """The lock of a project with these tables, where there is one."""
        if time.monotonic() > self.until:
            self.passed_over += 1
            return None
        self.count += 1
        Path(self.files.project).write_text(toml_text(tables), encoding="utf-8")
        answered = self.answering(self.files.project)
        if answered is None or answered.status != 0:
            return None
        return locks.read(answered.text, "the lock of a trial")


class Finder:
    """Looks for the ways out of a refusal."""

    def __init__(self, project: Project, index: str, refusal: Refusal, trials: Trials) -> None:
        self.project, self.index, self.refusal, self.trials = project, index, refusal, trials
        self.tables = project.tables
        needs = refusal.core or [it for it in refusal.steps if isinstance(it, Need)]
        self.names = sorted({name for it in needs for name in (it.node.name, it.target.name)} - {project.name})

    def serves(self, place: str, value: object) -> Optional[locks.Lock]:
        return self.trials.lock(changed(self.tables, place, value))

    def ways(self, kept: bool) -> Iterator[Way]:
        """The first way of each kind; `kept` where an old lock's versions were kept."""
        if kept and self.trials.lock(self.tables) is not None:
            yield Way("leave the old lock out", "", f"{command('lock')} --upgrade")
        found = 0
        kinds = (self.python, self.names_alike, self.bounds, self.prereleases, self.strategies, self.environments)
        for kind in kinds:
            for way in kind():
                found += 1
                yield way
        if not found:
            yield from self.overrides()

    def python(self) -> Iterator[Way]:
        """The least bound on the interpreter."""
        before = self.project.requires_python
        try:
            clauses = specifiers_of(before)
        except NoReading:
            return
        lower = [it.version for it in clauses if it.op in (">=", ">", "~=")]
        least = max(lower, key=lambda it: it.key, default=None)
        pieces = [it.strip() for it in before.split(",")]
        kept = [it for it in pieces if it.startswith(("<", "!="))]
        if any(it.op == "==" for it in clauses):
            return
        for spelled in self.interpreters(least):
            bound = ",".join([f">={spelled}", *kept])
            if self.serves("project.requires-python", bound) is not None:
                what = f"raise requires-python from `{before}`" if before else "say which interpreters are supported"
                yield Way(what, "[project]", f'requires-python = "{bound}"')
                return

    def interpreters(self, least: Optional[Version]) -> List[str]:
        """Bounds above the project's: each minor version of Python 3, and those that the releases name."""
        found = {text: version(text) for text in (f"3.{it}" for it in range(6 if least is None else 0, LAST_PYTHON))}
        for name in self.names:
            for _, entry in documents.releases_of(documents.load(self.index, name)):
                for clause in specifiers_of(str(entry.get("requires_python") or "")):
                    if clause.op in (">=", "~="):
                        found[clause.version.text()] = clause.version
        counted = [(it.key, text) for text, it in found.items() if it is not None and it.release[0] == 3]
        fresh: Dict[Tuple[Any, ...], str] = {}
        for key, text in sorted(counted, key=lambda it: (it[0], len(it[1]))):
            if least is None or key > least.key:
                fresh.setdefault(key, text)
        return list(fresh.values())

    def names_alike(self) -> Iterator[Way]:
        """A name of the index within one letter of one that it has no document of."""
        known = sorted(it.stem for it in Path(self.index).glob("*.json"))
        for placed in self.own():
            name = placed.requirement.name
            if name == self.project.name or name in known:
                continue
            for near in (it for it in known if within_one_letter(name, it)):
                way = self.replaced(placed, rebuilt(placed.requirement, near, placed.requirement.specifiers))
                if way is not None:
                    yield way
                    break

    def own(self) -> List[Placed]:
        """The project's own requirements, its constraints and its overrides."""
        return [*self.project.requirements, *self.project.constraints, *self.project.overrides]

    def replaced(self, placed: Placed, text: str) -> Optional[Way]:
        """A requirement in the place of another one, where it leads to a lock."""
        if self.serves(placed.place, text) is None:
            return None
        return Way(f"`{text}` in place of `{placed.requirement.text}`", placed.place, f'"{text}",')

    def bounds(self) -> Iterator[Way]:
        """One bound of one requirement, raised or lowered to what then serves, or else dropped."""
        for placed in self.own():
            if placed.requirement.name in self.names:
                way = self.bound(placed)
                if way is not None:
                    yield way

    def bound(self, placed: Placed) -> Optional[Way]:
        one = placed.requirement
        pieces = [it.strip() for it in one.specifiers.split(",") if it.strip()]
        for number, clause in enumerate(one.clauses):
            others = [*pieces[:number], *pieces[number + 1 :]]
            bare = rebuilt(one, one.name, ",".join(others))
            lock = self.serves(placed.place, bare)
            if lock is None:
                continue
            for spelled in other_bounds(clause, [it.version for it in lock.by_name().get(one.name, [])]):
                bounded = ",".join([*pieces[:number], spelled, *pieces[number + 1 :]])
                way = self.replaced(placed, rebuilt(one, one.name, bounded))
                if way is not None:
                    return way
            return Way(f"`{bare}` in place of `{one.text}`", placed.place, f'"{bare}",')
        return None

    def prereleases(self) -> Iterator[Way]:
        """A pre-release named by a requirement of the project, or another mode."""
        for name in self.names:
            found = [version(spelled) for spelled, _ in documents.releases_of(documents.load(self.index, name))]
            pre = max((it for it in found if it is not None and it.is_pre), key=lambda it: it.key, default=None)
            if pre is None:
                continue
            way = self.named_prerelease(name, pre)
            if way is not None:
                yield way
        for mode in MODES:
            if self.serves("tool.uv.prerelease", mode) is not None:
                yield Way(f"take pre-releases by the mode {mode}", "[tool.uv]", f'prerelease = "{mode}"')
                return

    def named_prerelease(self, name: str, pre: Version) -> Optional[Way]:
        """A requirement that names a pre-release in the place of the project's, or beside all others."""
        placed = [it for it in self.project.requirements if it.requirement.name == name]
        for it in placed:
            way = self.replaced(it, rebuilt(it.requirement, name, f">={pre.text()}"))
            if way is not None:
                return way
        listed = self.tables["project"].get("dependencies", [])
        text = f"{name}>={pre.text()}"
        if not placed and self.serves("project.dependencies", [*listed, text]) is not None:
            return Way(f"ask for the pre-release {name} {pre.text()}", "project.dependencies", f'"{text}",')
        return None

    def strategies(self) -> Iterator[Way]:
        """A strategy that splits where the project's doesn't."""
        for strategy in STRATEGIES:
            if self.serves("tool.uv.fork-strategy", strategy) is not None:
                yield Way("let the lock have more forks", "[tool.uv]", f'fork-strategy = "{strategy}"')
                return

    def environments(self) -> Iterator[Way]:
        """Fewer machines that are to be supported."""
        before = self.project.settings.get("environments", [])
        listed = [before] if isinstance(before, str) else before
        for texts in self.regions():
            both = [f"({one}) and {text}" for one in listed for text in texts] if listed else texts
            if self.serves("tool.uv.environments", both) is not None:
                what = f"support only machines with {' or '.join(texts)}"
                yield Way(what, "[tool.uv]", f"environments = {toml_value(both)}")
                return

    def regions(self) -> Iterator[List[str]]:
        """Markers of fewer machines, those first that leave the least out."""
        yield from ([it] for it in negated_parts(self.refusal.region))
        usual = [f"sys_platform == '{it}'" for it in PLATFORMS]
        yield usual
        yield from ([f"sys_platform != '{it}'"] for it in PLATFORMS)
        yield from ([it] for it in usual)

    def overrides(self) -> Iterator[Way]:
        """An override of a name that packages disagree about."""
        listed = self.project.settings.get("override-dependencies", [])
        for name in self.names:
            if any(it.requirement.name == name for it in self.own()) or not self.is_disputed(name):
                continue
            lock = self.serves("tool.uv.override-dependencies", [*listed, name])
            if lock is not None:
                given = max((it.version for it in lock.by_name().get(name, [])), key=sort_key, default="")
                text = f"{name}=={given}" if given else name
                if self.serves("tool.uv.override-dependencies", [*listed, text]) is None:
                    text = name
                what = f"take {text} whatever packages ask of {name}"
                yield Way(what, "[tool.uv]", f"override-dependencies = {toml_value([*listed, text])}")

    def is_disputed(self, name: str) -> bool:
        """Whether packages other than the project need it."""
        return any(it.target.name == name and it.node.name != self.project.name for it in self.refusal.core)


def sort_key(text: str) -> Tuple[Any, ...]:
    read = version(text)
    return read.key if read is not None else ()


def rebuilt(one: Requirement, name: str, specifiers: str) -> str:
    """A requirement with another name or other bounds; its extras and its marker stay."""
    extras = f"[{','.join(one.extras)}]" if one.extras else ""
    _, semicolon, marker = one.text.partition(";")
    return f"{name}{extras}{specifiers}" + (f"; {marker.strip()}" if semicolon else "")


def other_bounds(clause: Clause, given: Sequence[str]) -> Iterator[str]:
    """Bounds in the place of a clause that allow the versions which a lock gives without it."""
    found = sorted((it for it in map(version, given) if it is not None), key=lambda it: it.key)
    if not found:
        return
    newest, oldest = found[-1], found[0]
    if clause.op in ("<", "<="):
        epoch = f"{newest.epoch}!" if newest.epoch else ""
        yield f"<{epoch}{newest.release[0] + 1}"
    elif clause.op in (">", ">="):
        yield f">={oldest.text()}"
    elif clause.op == "~=" and newest.key > clause.version.key:
        yield f">={clause.version.text()}"
    elif clause.op == "==" and len(found) == 1:
        yield f"=={newest.text()}"


def negated_parts(region: str) -> Iterator[str]:
    """Markers each of which leaves out a whole region, by one comparison of texts that holds in all of it."""
    try:
        read = markers.read(region)
    except markers.NoMarker:
        return
    parts = read.parts if isinstance(read, markers.Join) and read.word == "and" else [read]
    for part in parts:
        if isinstance(part, markers.Atom) and part.variable in markers.TEXTS and part.op in ("==", "!="):
            yield f"{part.variable} {'!=' if part.op == '==' else '=='} '{part.literal}'"


def within_one_letter(one: str, other: str) -> bool:
    """Whether two names differ by one letter left out, put in, changed, or swapped with the next."""
    if one == other or abs(len(one) - len(other)) > 1:
        return False
    at = next((k for k, (left, right) in enumerate(zip(one, other)) if left != right), min(len(one), len(other)))
    left, right = one[at:], other[at:]
    swapped = left[:2] == right[:2][::-1] and left[2:] == right[2:]
    return left[1:] == right or left == right[1:] or left[1:] == right[1:] or swapped


def found(
    files: Files, project: Project, refusal: Refusal, kept: bool, answering: Optional[Answering] = None
) -> Iterator[str]:
    """The ways out, as lines."""
    with tempfile.TemporaryDirectory(prefix="unilock-") as held:
        trials = Trials(files, held, answering)
        try:
            ways = list(Finder(project, files.folder, refusal, trials).ways(kept))
        except (Refused, NoReading):
            return
    if ways:
        yield "Each of these changes alone leads to a lock (each was tried):"
        for way in ways:
            yield from way.lines()
    else:
        yield f"None of {trials.count} changes of the project file that were tried leads to a lock."
    if trials.passed_over:
        yield f"{trials.passed_over} more were not tried, since the {SECONDS:.0f} seconds for it were over."
