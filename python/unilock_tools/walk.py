"""The walk through a package index: from a project's requirements to the releases of all that they can reach.

For each name that is reached, the releases that the project's own bounds allow are taken, and their requirements are
followed: those that can apply on an interpreter that the project supports, with the extras that somebody asks for.
Pages and metadata are asked for side by side; what is gathered doesn't depend on the order in which they come.
"""

from __future__ import annotations

import re
import time
from concurrent.futures import FIRST_COMPLETED, Future, ThreadPoolExecutor, wait
from dataclasses import dataclass, field, replace
from datetime import datetime, timedelta
from typing import Callable, Dict, Iterable, List, NamedTuple, Optional, Set, Tuple

from . import archives, console, markers
from .archives import Metadata
from .documents import File, Projects, release_fault
from .pages import Listed, ListedRelease, Passed, ProjectPage
from .project import Project
from .readings import Requirement, requirement_of
from .simple import PackageIndex
from .terminal import Meter
from .versions import Key, NoReading, Version, meets, version

# The names that the program meets at most.
MOST_PACKAGES = 20_000
# What is told of a release without a file that a lock can have.
NO_HASH = "the server tells no SHA-256 of its files, so the lock has none"
# A time in UTC, whole seconds and the digits behind them.
Instant = Tuple[datetime, str]


class Choice(NamedTuple):
    """Which releases are taken: at most `newest` of each package, and files that were uploaded before a time."""

    newest: Optional[int] = None
    before: Optional[Instant] = None


@dataclass
class Reached:
    """A package that was reached: who asked for it first, and with which extras it is asked for."""

    by: str
    extras: Set[str] = field(default_factory=set)
    required: List[Tuple[str, Tuple[Requirement, ...]]] = field(default_factory=list)
    finals: List[ListedRelease] = field(default_factory=list)
    later: List[ListedRelease] = field(default_factory=list)
    tried: int = 1
    open: int = 0
    usable: int = 0


def instant_of(text: str) -> Optional[Instant]:
    """The instant of a date, which is its first moment in UTC, or of a time with its distance from UTC."""
    found = re.fullmatch(
        r"(\d{4}-\d\d-\d\d)(?:[Tt ](\d\d:\d\d:\d\d)(?:\.(\d{1,30}))?(?:[Zz]|([+-])(\d\d):?(\d\d)))?", text, re.ASCII
    )
    if found is None:
        return None
    try:
        moment = datetime.strptime(f"{found[1]} {found[2] or '00:00:00'}", "%Y-%m-%d %H:%M:%S")
        distance = timedelta(hours=int(found[5] or 0), minutes=int(found[6] or 0))
        return moment - distance * (-1 if found[4] == "-" else 1), (found[3] or "").rstrip("0")
    except (ValueError, OverflowError):
        return None


def instant(text: str) -> Instant:
    """The instant that --before names."""
    found = instant_of(text)
    if found is None:
        raise console.Refused(f"--before {text}: it isn't of the form 2024-05-01 or 2024-05-01T12:00:00Z", 2)
    return found


def uploaded_before(name: str, releases: List[ListedRelease], before: Instant) -> List[ListedRelease]:
    """The releases with those of their files that were uploaded before an instant."""
    found = []
    for release in releases:
        kept = [it for it in release.files if upload(name, it) < before]
        if kept:
            found.append(replace(release, files=kept))
    return found


def upload(name: str, file: Listed) -> Instant:
    found = None if file.uploaded is None else instant_of(file.uploaded)
    if found is None:
        raise console.Refused(f"{name}: the server tells no upload time of {file.name}, so --before can't be kept", 5)
    return found


class Allowed(NamedTuple):
    """Releases in the order in which they are looked at: those to take, then final ones until one can be used, then
    pre-releases, which count where no final release can be used."""

    taken: List[ListedRelease]
    finals: List[ListedRelease]
    later: List[ListedRelease]


def allowed(found: List[ListedRelease], project: Project, name: str, choice: Choice) -> Allowed:
    """The releases of a name that a project can use.

    The program passes a pre-release over where the project's mode doesn't ask for it, unless all usable releases are
    such and the mode takes them then. So they are left aside, and one final release that can be used is kept even where
    the bounds refuse all.
    """
    direct, asked = project.direct(name), project.asks_prereleases(name)
    within = [it for it in found if all(meets(one.clauses, it.version) for one in project.bounds(name))]
    final = [it for it in within if asked or not it.version.is_pre]
    if choice.newest is not None:
        kept = [it for it in final if not it.yanked][: choice.newest]
        final = kept + [it for it in final if it.yanked and any(pins(one, it.version) for one in direct)]
    is_left = project.needs_prereleases and not asked
    later = [it for it in within if it.version.is_pre][: choice.newest] if is_left else []
    taken = {it.version.key for it in final}
    others = [it for it in found if not it.version.is_pre and it.version.key not in taken]
    return Allowed(final, others, later)


def allowed_of_each(found: List[ListedRelease], project: Project, name: str, choice: Choice) -> Allowed:
    """The releases of a name, those of each source by themselves: none takes the place of another's."""
    sources = dict.fromkeys(it.source for it in found)
    made = [allowed([it for it in found if it.source == one], project, name, choice) for one in sources]
    taken, finals, later = ([it for one in listed for it in one] for listed in zip(*made)) if made else ([], [], [])
    return Allowed(taken, finals, later)


def beside_given(page: ProjectPage, given: Set[Key]) -> Tuple[List[ListedRelease], List[Passed]]:
    """The releases of a page beside those that come from no index, and the files of versions that these have too."""
    twice = [it for it in page.releases if it.version.key in given]
    left = [Passed(file.name, f"{it.version.text()} is there from no index too, which counts first")
            for it in twice for file in it.files]  # fmt: skip
    return [it for it in page.releases if it.version.key not in given], left


def pins(requirement: Requirement, found: Version) -> bool:
    return any(it.op == "==" and not it.prefix and it.version.key == found.key for it in requirement.clauses)


Job = Callable[[], object]


class Walk:
    """The walk of one project through one server."""

    def __init__(
        self,
        client: PackageIndex,
        project: Project,
        choice: Choice,
        known: Projects,
        jobs: int,
        meter: Optional[Meter] = None,
    ) -> None:
        self.client, self.project, self.choice, self.gathered = client, project, choice, known
        self.meter = meter
        self.local = set(known.releases) - known.beside
        self.given = {name: set(known.releases.get(name, ())) for name in known.beside}
        self.reached: Dict[str, Reached] = {}
        self.passed: Dict[Tuple[str, str], List[str]] = {}
        self.files: Dict[Tuple[str, str], List[str]] = {}
        self.absent: List[str] = []
        self.known = 0
        self.fresh: Dict[str, None] = {}
        self.pool = ThreadPoolExecutor(max_workers=jobs)
        self.open: Dict["Future[object]", Callable[[object], None]] = {}
        self.begun = time.monotonic()
        self.started = 0

    def run(self, roots: Iterable[Requirement]) -> None:
        """Walks until nothing is left to be asked for."""
        try:
            for root in roots:
                self.follow(self.project.name, root)
            self.settle()
            while self.open:
                done, _ = wait(self.open, timeout=0.2, return_when=FIRST_COMPLETED)
                for job in done:
                    self.open.pop(job)(job.result())
                self.settle()
                self.progress()
        finally:
            if self.open:
                self.client.stop()
            for job in self.open:
                job.cancel()
            self.pool.shutdown(wait=not self.open)
        if self.absent and not self.known and not self.gathered.releases:
            raise console.Refused(f"{sorted(self.absent)[0]}, nor any other that is asked for", 5)

    def start(self, job: Job, then: Callable[[object], None]) -> None:
        self.started += 1
        self.open[self.pool.submit(job)] = then

    def follow(self, by: str, requirement: Requirement) -> None:
        """Takes a requirement that can apply: its name is reached, with its extras, whose requirements come next."""
        name = requirement.name
        if name == self.project.name:
            return
        one = self.reached.get(name)
        if one is None:
            one = self.reach(by, name)
        fresh = {"", *requirement.extras} - one.extras
        one.extras |= fresh
        if fresh:
            self.fresh[name] = None

    def reach(self, by: str, name: str) -> Reached:
        """A name that wasn't met before: its releases are given, or its page is asked for."""
        if len(self.reached) == MOST_PACKAGES:
            raise console.Refused(f"more than {MOST_PACKAGES:,} packages are reached; `--newest N` reaches fewer", 4)
        one = self.reached[name] = Reached(by)
        for release in self.gathered.releases.get(name, {}).values():
            one.required.append((f"{name} {release.metadata.version}", requirements_in(release.metadata)))
            found = version(release.metadata.version)
            one.usable += found is not None and not found.is_pre
        if name not in self.local:
            self.start(lambda: self.client.page(name), lambda found: self.paged(name, found))
        return one

    def settle(self) -> None:
        """Follows the requirements of what is asked for with more extras, until nothing is."""
        while self.fresh:
            name = next(iter(self.fresh))
            del self.fresh[name]
            one = self.reached[name]
            for text, required in one.required:
                self.spread(text, required, sorted(one.extras))

    def spread(self, by: str, required: Iterable[Requirement], extras: List[str]) -> None:
        for read in required:
            if markers.possible(read.marker, self.project.requires_python, extras):
                self.follow(by, read)

    def paged(self, name: str, found: object) -> None:
        one = self.reached[name]
        if found is None:
            self.absent.append(f"{self.client.lacks(name)}, which {one.by} requires")
            return
        assert isinstance(found, ProjectPage)
        self.known += 1
        self.absent += [f"{it}, which {one.by} requires" for it in found.lacking]
        listed, left = beside_given(found, self.given.get(name, set()))
        for file in [*found.passed, *left]:
            self.files.setdefault((name, file.fault), []).append(file.file)
        if self.choice.before is not None:
            listed = uploaded_before(name, listed, self.choice.before)
        if not listed and not self.given.get(name):
            self.absent.append(f"{no_release(name, found)}; {one.by} requires it")
        taken, one.finals, one.later = allowed_of_each(listed, self.project, name, self.choice)
        self.take(name, taken)

    def take(self, name: str, taken: List[ListedRelease]) -> None:
        one = self.reached[name]
        one.open += len(taken)
        for release in taken:
            self.start(self.reader(release), self.keeper(name, release))
        if not taken:
            self.ended(name)

    def reader(self, release: ListedRelease) -> Job:
        def read() -> object:
            try:
                return self.client.metadata(release)
            except archives.Refused as fault:
                # A file that says too little passes its release over; a server that fails ends the walk.
                return fault

        return read

    def keeper(self, name: str, release: ListedRelease) -> Callable[[object], None]:
        def keep(found: object) -> None:
            one = self.reached[name]
            if isinstance(found, Metadata) and found.name == name:
                self.keep(name, release, found)
            else:
                fault = found.fault if isinstance(found, archives.Refused) else "its metadata are another project's"
                self.passed.setdefault((name, fault), []).append(release.version.text())
            one.open -= 1
            if one.open == 0:
                self.ended(name)

        return keep

    def keep(self, name: str, listed: ListedRelease, metadata: Metadata) -> None:
        one = self.reached[name]
        release = self.gathered.add(listed.files[0].name, metadata)
        release.yanked, release.reason, release.source = listed.yanked, listed.reason, listed.source
        release.files = files_of(listed)
        for file in left_out(listed):
            self.files.setdefault((name, file.fault), []).append(file.file)
        if not release.files:
            self.passed.setdefault((name, NO_HASH), []).append(metadata.version)
        if release_fault(metadata) is None:
            one.usable += 1
            text = f"{name} {metadata.version}"
            one.required.append((text, requirements_in(metadata)))
            self.spread(text, one.required[-1][1], sorted(one.extras))

    def ended(self, name: str) -> None:
        """Where no release of a package can be used, others are looked at: final ones, ever more of them at a time,
        then pre-releases, which count where no final release can be used."""
        one = self.reached[name]
        if one.usable:
            return
        if one.finals:
            taken, one.finals = one.finals[: one.tried], one.finals[one.tried :]
            one.tried *= 2
            self.take(name, taken)
        elif one.later:
            later, one.later = one.later, []
            self.take(name, later)

    def progress(self) -> None:
        """Shows how far the walk is; what is left is what is known of so far."""
        if self.meter is None:
            return
        releases = sum(len(it) for it in self.gathered.releases.values())
        megabytes = self.client.fetched().bytes / 1e6
        rate = megabytes / max(0.001, time.monotonic() - self.begun)
        more = f"{console.counted(len(self.reached), 'package')}, {console.counted(releases, 'release')}"
        self.meter.show(self.started - len(self.open), self.started, f"{more}, {megabytes:.1f} MB, {rate:.1f} MB/s")

    def warnings(self) -> List[str]:
        """What was passed over, one line for each package and cause."""
        lines = sorted(self.absent)
        lines += [passed_over(name, fault, files) for (name, fault), files in sorted(self.files.items())]
        for (name, fault), versions in sorted(self.passed.items()):
            told = sorted(versions, key=lambda it: version(it).key)  # type: ignore[union-attr]
            lines.append(f"{name} {listed_shortly(told, 'releases')}: {fault}")
        return lines


def files_of(release: ListedRelease) -> Dict[str, File]:
    """The files of a release that are locked with it."""
    kept = [it for it in release.counted if it.sha256 is not None]
    return {it.name: File(it.name, it.sha256 or "", it.url or None, it.size) for it in kept}


def left_out(release: ListedRelease) -> List[Passed]:
    """The files of a release that aren't locked with it, where others are or may be."""
    counted, found = {it.name for it in release.counted}, []
    for file in release.files:
        if file.name not in counted and file.yanked != release.yanked:
            found.append(Passed(file.name, "it is yanked, and other files of its release aren't"))
        elif file.name not in counted:
            found.append(Passed(file.name, "the server tells no SHA-256 of it, so the lock doesn't have it"))
    return found


def no_release(name: str, page: ProjectPage) -> str:
    """What is told of a page of which nothing is taken."""
    why = "" if page.releases else f", of {console.counted(len(page.passed), 'file')} that it lists"
    return f"the server has no release of {name}{why} that can be taken"


def passed_over(name: str, fault: str, files: List[str]) -> str:
    return f"{name}: {listed_shortly(sorted(files), 'files')}: {fault}; passed over"


def listed_shortly(texts: List[str], what: str) -> str:
    return f"{texts[0]}, {texts[1]}, .. {texts[-1]} ({len(texts)} {what})" if len(texts) > 4 else ", ".join(texts)


def requirements_in(metadata: Metadata) -> Tuple[Requirement, ...]:
    """The requirements of a release; none of one that has a requirement without a reading, which isn't used."""
    try:
        return tuple(requirement_of(it) for it in metadata.requires_dist)
    except NoReading:
        return ()
