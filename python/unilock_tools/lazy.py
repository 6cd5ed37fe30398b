"""Locking by a package index of which only what is tried is fetched.

Of each name that is reached the page alone is read: its releases with their bounds on the interpreter, yanked marks and
files. A release whose metadata isn't known stands in a working folder without requirements, so it can only make more
possible: whatever serves by all documents serves by the working folder too. The program locks on it; of each release
that the lock has and that isn't known the metadata is fetched, and of each new name that of the newest release with it;
again, until the lock has known releases alone. Then the lock is made once more from the folder of known releases alone,
which is the one that is kept. Where the two locks differ, a region that was split had decided something unknown: the
unknown releases of the names that differ are fetched, and it goes on.

A refusal by the working folder is one by all documents, but for one thing: which pre-releases count hangs on which
final releases can be used, and that is known of known releases alone. So before a refusal is believed, the final
releases of each name that has pre-releases, and that the core of the refusal names, are fetched. Nothing else is: its
core has needs of known releases, and the versions that the pages tell of. A changed copy of the project is tried in the
same way, so a way out of a refusal may lead to any release.
"""

from __future__ import annotations

import json
import tempfile
from collections import Counter
from collections.abc import Iterable
from concurrent.futures import ThreadPoolExecutor
from dataclasses import dataclass, field
from pathlib import Path

from . import archives, console, documents, locks, markers, program, project, usual_names, walk
from .archives import Metadata
from .documents import Document, Projects
from .pages import ListedRelease, Passed, ProjectPage
from .project import Project
from .readings import Requirement, requirement_of
from .refusal import CORE
from .simple import PackageIndex
from .versions import Key, version

# Rounds of locking and fetching. Each fetches a release that wasn't known, of which there are finitely many.
MOST_ROUNDS = 10_000
# Of a name of which so many releases were tried, one after another, more are fetched at a time, and at most so many.
FEW, MOST_AHEAD = 4, 64
# Rounds of a changed copy of a project; one that takes more counts as one that isn't served.
MOST_TRIED = 50


@dataclass
class Name:
    """A name that was reached: its releases as its page lists them, newest first, and those whose metadata is known,
    or which can't be taken; and the files of its page that aren't taken."""

    extras: set[str] = field(default_factory=set)
    listed: list[ListedRelease] = field(default_factory=list)
    known: dict[Key, Metadata] = field(default_factory=dict)
    passed: dict[Key, str] = field(default_factory=dict)
    left: list[Passed] = field(default_factory=list)

    def unknown(self) -> list[ListedRelease]:
        return [it for it in self.listed if it.version.key not in self.known and it.version.key not in self.passed]

    def of(self, spelled: str) -> ListedRelease | None:
        found = version(spelled)
        return None if found is None else next((it for it in self.listed if it.version.key == found.key), None)


@dataclass(frozen=True)
class Locked:
    """What the program answered by the folder that is kept, and the documents of that folder. A refusal is that of the
    working folder, whose documents stand beside."""

    answer: program.Answer
    documents: dict[str, Document]
    warnings: list[str]
    working: dict[str, Document] = field(default_factory=dict)


class Lazy:
    """One project and one server. `old` is a lock whose versions are tried first; with `keep` it stays where it is
    right, and where it leads to nothing it is left out. Of the names in `given` the server isn't asked, but for those
    that may have other releases beside these."""

    def __init__(
        self,
        client: PackageIndex,
        project: Project,
        choice: walk.Choice,
        workers: int = 1,
        old: Path | None = None,
        jobs: int = 16,
        keep: bool = True,
        given: Projects | None = None,
    ) -> None:
        self.client, self.project, self.choice = client, project, choice
        self.given = Projects() if given is None else given
        self.workers, self.old, self.jobs = workers, old, jobs
        self.word = "relock" if keep and old is not None else "lock"
        self.names: dict[str, Name] = {}
        self.absent: list[str] = []
        self.pages = 0
        self.turns: Counter[str] = Counter()
        self.rounds = MOST_ROUNDS

    # ---- what is known

    def run(self) -> Locked:
        self.reach((self.project.name, it.requirement) for it in self.project.requirements)
        self.fetch(self.kept_by_old())
        with tempfile.TemporaryDirectory(prefix="unilock-lazy-") as held:
            for _ in range(self.rounds):
                working = self.answered(Path(held), self.working())
                wanted = self.wanted_by(working)
                if wanted:
                    self.fetch(self.with_next(wanted))
                    continue
                if working.status == 1:
                    self.reach_alike()
                    return Locked(working, self.known(), self.warnings(), self.working())
                known = self.known()
                kept = self.answered(Path(held), known)
                wanted = [] if kept.body == working.body else self.differing(working, kept)
                if not wanted:
                    return Locked(kept, known, self.warnings())
                self.fetch(wanted)
        raise console.Refused("the lock didn't come to rest", 70)

    def tried(self, path: str) -> program.Answer | None:
        """What the program answers of a changed copy of the project; None where the server fails, or where it takes too
        long."""
        other = Lazy(self.client, project.load(path), self.choice, self.workers, jobs=self.jobs)
        other.names, other.given, other.rounds = self.names, self.given, MOST_TRIED
        try:
            return other.run().answer
        except console.Refused:
            return None

    def kept_by_old(self) -> list[tuple[str, ListedRelease]]:
        """The releases that an old lock has, as far as their names are reached already."""
        if self.old is None:
            return []
        lock = locks.load(str(self.old))
        pairs = [(it.name, it.version) for it in lock.packages if it.name != lock.root]
        self.reach_names({name for name, _ in pairs})
        return [(name, it) for name, spelled in pairs if (it := self.names[name].of(spelled)) is not None]

    def with_next(self, wanted: list[tuple[str, ListedRelease]]) -> list[tuple[str, ListedRelease]]:
        """What is wanted, and of a name of which one release after another was, more and more of what comes next."""
        found = {(name, it.version.key): it for name, it in wanted}
        for name, release in wanted:
            self.turns[name] += 1
            more = min(1 << max(0, self.turns[name] - FEW), MOST_AHEAD) - 1
            order = self.permitted(name)[:: -1 if self.is_lowest else 1] if more else []
            keys = [it.version.key for it in order]
            at = keys.index(release.version.key) + 1 if release.version.key in keys else len(keys)
            found.update({(name, it.version.key): it for it in order[at : at + more]})
        return [(name, it) for (name, _), it in found.items()]

    def wanted_by(self, answered: program.Answer) -> list[tuple[str, ListedRelease]]:
        """What an answer by the working folder rests on and isn't known."""
        if answered.status == 0:
            lock = locks.read(answered.text, "lock")
            pairs = [(it.name, self.names[it.name].of(it.version)) for it in lock.packages if it.name in self.names]
            return [(name, it) for name, it in pairs if it is not None and it in self.names[name].unknown()]
        if answered.status != 1:
            return []
        wanted = []
        for name in self.core_names(answered.text):
            one = self.names.get(name)
            if one is not None and any(it.version.is_pre for it in one.listed):
                wanted += [(name, it) for it in one.unknown() if not it.version.is_pre]
        return wanted

    @staticmethod
    def core_names(text: str) -> list[str]:
        """The names that the core of a refusal speaks of."""
        found: dict[str, None] = {}
        for line in text.splitlines():
            need = CORE.match(line)
            if need is not None:
                found.update(dict.fromkeys(node.partition("[")[0] for node in (need[1], need[3])))
        return list(found)

    def differing(self, working: program.Answer, kept: program.Answer) -> list[tuple[str, ListedRelease]]:
        """Where the lock by the working folder isn't that by known releases alone: the unknown releases of the names
        that differ; those alone, where there are such, that would be tried before some version that a lock has."""
        if working.status != 0 or kept.status != 0:
            return [(name, it) for name, one in self.names.items() for it in one.unknown()[:1]]
        versions = [{(it.name, it.version) for it in locks.read(one.text, "lock").packages} for one in (working, kept)]
        names = sorted({name for name, _ in versions[0] ^ versions[1]} & set(self.names)) or sorted(self.names)
        had: dict[str, list[Key]] = {}
        for name, spelled in versions[0] | versions[1]:
            had.setdefault(name, []).extend(it.key for it in [version(spelled)] if it is not None)
        wanted = [(name, it) for name in names for it in self.names[name].unknown()]
        return [(name, it) for name, it in wanted if self.is_before(it.version.key, had.get(name, []))] or wanted

    @property
    def is_lowest(self) -> bool:
        return self.project.settings.get("resolution") == "lowest"

    def is_before(self, key: Key, others: list[Key]) -> bool:
        """Whether a version is tried before some other."""
        return any(key < it if self.is_lowest else key > it for it in others)

    # ---- pages and metadata

    def reach(self, required: Iterable[tuple[str, Requirement]]) -> None:
        """Reads the pages of names that requirements lead to, and the metadata of the newest release of each new name;
        again for what these require."""
        todo = list(required)
        while todo:
            fresh = {it.name for _, it in todo if it.name != self.project.name} - set(self.names)
            again = set()
            for _, one in todo:
                if one.name != self.project.name and one.name not in fresh:
                    more = set(one.extras) - self.names[one.name].extras
                    self.names[one.name].extras |= more
                    if more:
                        again.add(one.name)
            self.reach_names(fresh)
            for _, one in todo:
                if one.name in fresh:
                    self.names[one.name].extras |= set(one.extras)
            newest = [(name, it[0]) for name in sorted(fresh) if (it := self.permitted(name)[:1])]
            self.read_all(newest)
            todo = [it for name in sorted(fresh | again) for it in self.required_by(name)]

    def reach_alike(self) -> None:
        """Reads names that are like those which the server doesn't have and the project requires, so that they can be
        tried in their place."""
        own = {it.requirement.name for it in self.project.requirements} - {self.project.name}
        absent = [name for name in sorted(own - set(self.given.releases)) if not self.names[name].listed]
        told, known = list(self.absent), set(self.names)
        self.reach((name, requirement_of(it)) for name in absent for it in usual_names.alike(name, known - {name}))
        # That the server doesn't have such a name either is nothing to tell.
        self.absent = told

    def reach_names(self, names: set[str]) -> None:
        fresh = names - set(self.names)
        asked = sorted(it for it in fresh if it not in self.given.releases or it in self.given.beside)
        for name in sorted(fresh - set(asked)):
            self.names[name] = self.beside_given(name, None)
        if len(self.names) + len(asked) > walk.MOST_PACKAGES:
            raise console.Refused(f"more than {walk.MOST_PACKAGES:,} packages are reached", 4)
        with ThreadPoolExecutor(self.jobs) as pool:
            for name, page in zip(asked, pool.map(self.client.page, asked)):
                self.pages += page is not None
                if page is None:
                    self.absent.append(self.client.lacks(name))
                self.names[name] = self.beside_given(name, page)

    def beside_given(self, name: str, page: ProjectPage | None) -> Name:
        """What is known of a name at first: the releases that are given of it, and those that its page lists beside
        them."""
        known = {key: it.metadata for key, it in self.given.releases.get(name, {}).items()}
        if page is None:
            return Name(known=known)
        self.absent += page.lacking
        found, left = walk.beside_given(page, set(known))
        if self.choice.before is not None:
            found = walk.uploaded_before(name, found, self.choice.before)
        if not found and not known:
            self.absent.append(walk.no_release(name, page))
        listed = sorted(found, key=lambda it: it.version.key, reverse=True)
        return Name(listed=listed, known=known, left=[*page.passed, *left])

    def permitted(self, name: str) -> list[ListedRelease]:
        """The unknown releases that the project's own bounds permit, final ones first, the newest first."""
        unknown = self.names[name].unknown()
        taken, finals, later = walk.allowed(unknown, self.project, name, self.choice)
        return [*taken, *later] or finals

    def fetch(self, wanted: list[tuple[str, ListedRelease]]) -> None:
        self.read_all(wanted)
        self.reach(it for name in sorted({name for name, _ in wanted}) for it in self.required_by(name))

    def read_all(self, wanted: list[tuple[str, ListedRelease]]) -> None:
        with ThreadPoolExecutor(self.jobs) as pool:
            for (name, release), found in zip(wanted, pool.map(self.metadata, [it for _, it in wanted])):
                key = release.version.key
                if isinstance(found, Metadata) and found.name == name:
                    self.names[name].known[key] = found
                else:
                    another = "its metadata are another project's"
                    self.names[name].passed[key] = found if isinstance(found, str) else another

    def metadata(self, release: ListedRelease) -> Metadata | str:
        try:
            return self.client.metadata(release)
        except archives.Refused as fault:
            # A file that says too little passes its release over; a server that fails ends the run.
            return fault.fault

    def required_by(self, name: str) -> list[tuple[str, Requirement]]:
        """What the known releases of a name require with the extras that are asked for."""
        one = self.names[name]
        found = []
        for metadata in one.known.values():
            if documents.release_fault(metadata) is None:
                for read in walk.requirements_in(metadata):
                    if markers.possible(read.marker, self.project.requires_python, sorted({"", *one.extras})):
                        found.append((name, read))
        return found

    # ---- folders

    def projects(self) -> Projects:
        """The known releases, with their files."""
        gathered = Projects()
        for name, one in self.names.items():
            if name in self.given.releases:
                gathered.releases[name] = dict(self.given.releases[name])
            for release in one.listed:
                metadata = one.known.get(release.version.key)
                if metadata is not None:
                    made = gathered.add(release.files[0].name, metadata)
                    made.yanked, made.reason, made.source = release.yanked, release.reason, release.source
                    made.files = walk.files_of(release)
        return gathered

    def known(self) -> dict[str, Document]:
        return self.projects().documents()

    def working(self) -> dict[str, Document]:
        """The documents of known releases, and of unknown ones without requirements."""
        found = self.known()
        for name, one in self.names.items():
            entries = found.setdefault(name, {"name": name, "versions": []})["versions"]
            entries += [unknown_entry(it) for it in one.unknown()]
        return {name: document for name, document in found.items() if document["versions"]}

    def answered(self, room: Path, made: dict[str, Document]) -> program.Answer:
        index = room / "ix"
        index.mkdir(exist_ok=True)
        for name in {it.stem for it in index.glob("*.json")} - set(made):
            (index / f"{name}.json").unlink()
        for name, document in made.items():
            path, text = index / f"{name}.json", json.dumps(document)
            if not path.exists() or path.read_text(encoding="utf-8") != text:
                path.write_text(text, encoding="utf-8")
        old = [] if self.old is None else [str(self.old)]
        return program.answer([self.word, self.project.path, str(index), str(self.workers), *old])

    def warnings(self) -> list[str]:
        """What isn't there or was passed over, of the names that were reached and the releases that are known."""
        lines = sorted(self.absent)
        if lines and not self.pages:
            lines.append(f"the server has no project that is asked for; is {self.client.url} that of a package index?")
        for name in sorted(self.names):
            one = self.names[name]
            known = [it for it in one.listed if it.version.key in one.known]
            told: dict[str, list[str]] = {}
            for file in [*one.left, *(it for release in known for it in walk.left_out(release))]:
                told.setdefault(file.fault, []).append(file.file)
            lines += [walk.passed_over(name, fault, files) for fault, files in sorted(told.items())]
            for release in one.listed:
                fault = one.passed.get(release.version.key)
                if fault is None and release.version.key in one.known and not walk.files_of(release):
                    fault = walk.NO_HASH
                if fault is not None:
                    lines.append(f"{name} {release.version.text()}: {fault}")
        built = [] if self.client.builder is None else self.client.builder.warnings()
        return [*lines, *built, *self.projects().warnings()]


def unknown_entry(release: ListedRelease) -> Document:
    """A release as its page tells of it: nothing is known of its requirements."""
    entry: Document = {"version": release.version.text()}
    if release.requires_python is not None:
        entry["requires_python"] = release.requires_python
    if release.yanked:
        entry["yanked"] = release.reason or True
    if release.source:
        entry["source"] = release.source
    files = walk.files_of(release)
    if files:
        entry["files"] = [documents.file_entry(it) for _, it in sorted(files.items())]
    return entry
