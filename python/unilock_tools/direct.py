"""The releases that come from where a source says, and from no index: a project's, its workspace's, and theirs.

Each source is followed to its one release: a folder's or a member's project file, or its build; a file's metadata; the
commit that a repository is at. What that requires by sources or URLs of its own is followed too; a path inside a
repository stays inside it, and is at the same commit. Two sources of one name are refused, whoever names them. A source
of a name that none of the projects requires itself is followed where others lead to the name.

In the index folder such a release says `source = direct`; a file of it is pinned by its hash, a repository by its
commit and a hash of all that the commit has: `NAME-COMMIT.git`. What an index folder has of the same source is taken
from there, and what is kept of a commit or of a file's hash from the cache, so that nobody is asked for it again.
"""

from __future__ import annotations

import os
import re
from collections.abc import Collection, Iterator, Mapping
from functools import cached_property
from pathlib import Path
from typing import NamedTuple

from . import direct_files, documents, labels, source_trees, sources, workspaces
from .archives import Metadata
from .building import Builder
from .console import Refused
from .direct_files import Means
from .documents import File, Projects
from .index_settings import uv_table
from .labels import DIRECT, Labels
from .locks import Lock
from .profile import Tables
from .requirement_texts import parts_of
from .source_trees import Tree
from .sources import ByGit, ByPath, ByUrl, Member, Source
from .workspaces import Workspace

GIT_FILE = re.compile(r"(?P<name>[a-z0-9-]+)-(?P<commit>[0-9a-f]{40})\.git\Z")
MOST_PLACES = 20_000


class Base(NamedTuple):
    """A project on this machine that names sources: its folder, how it is named in messages, and its workspace."""

    folder: Path
    shown: str
    workspace: Workspace | None


class Place(NamedTuple):
    """A name's one release, and where it comes from: a folder or a file on this machine, an address, or a commit.
    `inner` are the sources that it names itself, `by` is who names it."""

    name: str
    source: Source
    metadata: Metadata
    files: tuple[File, ...] = ()
    path: Path | None = None
    commit: str = ""
    inner: tuple[tuple[str, Source], ...] = ()
    by: str = ""
    is_package: bool = True

    @property
    def is_folder(self) -> bool:
        return self.path is not None and not self.files

    @property
    def identity(self) -> tuple[object, ...]:
        """What is equal for two sources that say the same place."""
        if self.path is not None:
            return (str(self.path.resolve()),)
        assert isinstance(self.source, (ByGit, ByUrl)), "what has no path has an address"
        return (sources.public(self.source.url), self.commit, self.source.subdirectory)

    def told(self) -> str:
        return f"{self.source.shown()} (by {self.by})"


def commits_of(lock: Lock | None) -> dict[str, str]:
    """The commits that a lock's files pin, by the names of their packages."""
    packages = [] if lock is None else lock.packages
    found = [(it.name, commit_in(it.name, [file for file, _ in it.files])) for it in packages]
    return {name: it for name, it in found if it is not None}


def commit_in(name: str, files: list[str]) -> str | None:
    """The commit that a package's files pin, where they do."""
    found = [read["commit"] for read in map(GIT_FILE.match, files) if read is not None and read["name"] == name]
    return found[0] if len(found) == 1 else None


class Direct:
    """The places of all names that come from a source; `also` are names to which others lead."""

    def __init__(self, workspace: Workspace, means: Means, also: Collection[str] = ()) -> None:
        self.workspace, self.means, self.also = workspace, means, also
        self.places: dict[str, Place] = {}
        self.warned: list[str] = []
        self.todo: list[tuple[str, Source, Base]] = []

    @cached_property
    def listed(self) -> dict[str, Labels]:
        """The sources of each name in the whole workspace."""
        return workspaces.labels_in(self.workspace)

    def gather(self) -> Direct:
        """Follows the sources of the project and of all members, and then those of what they lead to."""
        declared = self.workspace if self.workspace.is_declared else None
        own = Base(self.workspace.folder, str(self.workspace.path), declared)
        self.todo += [(name, Member(), own) for name in sorted(self.workspace.members)]
        self.todo += self.named_in(self.workspace.tables, own, True)
        for tables, base in self.bases(own):
            listed = sources.read(tables, base.shown, True)
            self.todo += [(name, it, base) for name, it in listed.items() if name in self.also]
        for at in range(MOST_PLACES):
            if at == len(self.todo):
                return self
            self.take(*self.todo[at])
        raise Refused(f"{self.workspace.path}: more than {MOST_PLACES:,} sources are followed", 4)

    def bases(self, own: Base) -> Iterator[tuple[Tables, Base]]:
        """The project and the members of its workspace."""
        yield self.workspace.tables, own
        for it in self.workspace.members.values():
            yield it.tables, own._replace(folder=it.folder, shown=str(it.folder))

    def left(self) -> set[str]:
        """The names that no index has by their sources, and that nobody has led to so far."""
        named = {name for name, found in self.listed.items() if any(it.name == DIRECT for it in found)}
        return named - set(self.places) - {self.workspace.name}

    def named_in(self, tables: Tables, base: Base, groups: bool) -> Iterator[tuple[str, Source, Base]]:
        """The names that a project requires by sources. Where it says none its workspace's root does; a member's name
        is the member's."""
        file = base.shown if base.shown.endswith(".toml") else f"{base.shown}/{workspaces.FILE}"
        workspace = base.workspace
        is_own = tables is self.workspace.tables or workspace is self.workspace
        above = {} if workspace is None else sources.read(workspace.tables, str(workspace.path), is_own)
        members = {} if workspace is None else workspace.members
        for name, source, is_above in sources.followed(tables, file, groups, above, members, is_own):
            if name != self.workspace.name:
                folder = workspace.folder if is_above and workspace is not None else base.folder
                yield name, source, base._replace(folder=folder)

    def take(self, name: str, source: Source, base: Base) -> None:
        """Follows one source to its release, and notes what that requires by sources."""
        if self.means.pins is not None and not self.is_locked(name, source, self.means.pins.get(name)):
            return
        known, path = self.places.get(name), self.path_of(name, source, base)
        if known is not None and (known.path is None) == (path is None):
            same = known.source == source if path is None else (str(path.resolve()),) == known.identity
            if same:
                return
        place = self.place_of(name, source, base, path)
        if known is not None:
            if known.identity != place.identity:
                raise Refused(f"{name} comes from two places: {known.told()}, and {place.told()}", 3)
            return
        found = place.metadata
        plain = [parts_of(it).text() for it in found.requires_dist]
        fault = documents.unusable(found.version, found.requires_python, plain)
        if fault is not None:
            raise Refused(f"{place.told()}: {name} {found.version}: {fault}", 3)
        self.places[name] = place
        here = base._replace(shown=f"{name} {found.version}")
        self.todo += [(it, one, here) for it, one in place.inner if it != self.workspace.name]

    def is_locked(self, name: str, source: Source, files: Mapping[str, str] | None) -> bool:
        """Whether a lock's package may come from a source; of a name that an index may have too, by its files."""
        listed = self.listed.get(name)
        if files is None or listed is None or labels.is_direct(listed):
            return files is not None
        if isinstance(source, ByGit):
            return name in self.means.kept
        if isinstance(source, ByUrl):
            return direct_files.file_at(source, name) in files
        return name in self.means.trees or (isinstance(source, ByPath) and Path(source.path).name in files)

    def path_of(self, name: str, source: Source, base: Base) -> Path | None:
        """The folder or the file of a source on this machine."""
        if isinstance(source, (ByUrl, ByGit)):
            return None
        if isinstance(source, ByPath):
            path = base.folder / source.path
            if not path.exists():
                raise Refused(f"{base.shown}: {source.shown()}: there is no such file or folder", 3)
            plain = Path(os.path.normpath(path))
            return plain if plain.exists() and plain.samefile(path) else path
        member = None if base.workspace is None else base.workspace.members.get(name)
        if member is None:
            raise Refused(f"{base.shown}: {name} isn't a member of the workspace", 3)
        return member.folder

    def place_of(self, name: str, source: Source, base: Base, path: Path | None) -> Place:
        if path is not None:
            return self.in_folder(name, source, base, path) if path.is_dir() else self.of_file(name, source, base, path)
        assert isinstance(source, (ByUrl, ByGit)), "a source on this machine has a path"
        found = self.means.found(name, source, base.shown)
        self.warned += [it for it in found.warned if it not in self.warned]
        return Place(name, source, found.metadata, found.files, None, found.commit, found.inner, base.shown)

    def of_file(self, name: str, source: Source, base: Base, path: Path) -> Place:
        if not path.is_file():
            raise Refused(f"{base.shown}: {source.shown()}: it is neither a folder nor a file", 3)
        found = self.means.of_file(name, path, base.shown)
        return Place(name, source, found.metadata, found.files, path, "", found.inner, base.shown)

    def in_folder(self, name: str, source: Source, base: Base, path: Path) -> Place:
        """A source tree on this machine. What it requires by sources is followed from its own folder and workspace."""
        is_member = isinstance(source, Member)
        workspace = base.workspace if is_member else around(path)
        tree = Tree(path, str(path))
        tables = workspace.members[name].tables if is_member and workspace else source_trees.tables_in(tree)
        found = source_trees.metadata_of(tree, tables, name, self.means.builds.own, is_member)
        self.todo += self.named_in(tables, Base(path, str(path), workspace), is_member)
        inner = direct_files.named_by(name, found, True)
        is_package = source_trees.is_package(tables) if is_member else uv_table(tables).get("package") is not False
        return Place(name, source, found, (), path, "", inner, base.shown, is_package)

    def warnings(self) -> list[str]:
        """What was passed over, and what was built on this machine."""
        built = [it for it in self.means.builds if isinstance(it, Builder)]
        return [*self.warned, *(text for it in built for text in it.warnings())]

    # ---- documents

    def projects(self) -> Projects:
        """The releases, as an index folder has them."""
        made = Projects()
        made.beside = self.beside()
        for name, place in self.places.items():
            plain = tuple(parts_of(it).text() for it in place.metadata.requires_dist)
            release = made.add(place.told(), place.metadata._replace(requires_dist=plain))
            release.files = {it.name: it for it in place.files}
            release.source, release.asked = DIRECT, sources.asked(place.source)
            if not place.is_folder:
                release.by_url = [f"{it} @ {sources.url_of(one)}" for it, one in place.inner]
        return made

    def beside(self) -> set[str]:
        """The names of which an index may have releases too."""
        return {it for it in self.places if it in self.listed and not labels.is_direct(self.listed[it])}

    def question(self) -> list[object]:
        """What tells these releases from others, but for what addresses and repositories have meanwhile."""
        found: list[object] = []
        for name, place in sorted(self.places.items()):
            here = [] if place.path is None else [*place.metadata, *((it.name, it.sha256) for it in place.files)]
            found.append([name, place.source.shown(), *here])
        return found


def led_to(workspace: Workspace, folder: Path) -> set[str]:
    """The names of which an index folder has a release that no index has, since somebody led to them."""
    if not folder.is_dir():
        return set()
    listed = workspaces.labels_in(workspace)
    named = [name for name, found in listed.items() if any(it.name == DIRECT for it in found)]
    documented = [(name, documents.load(str(folder), name)) for name in named]
    return {name for name, it in documented if it and any(one.get("source") == DIRECT for one in it["versions"])}


def around(folder: Path, within: Path | None = None) -> Workspace | None:
    """The workspace that a source tree is of, where it is of one; with `within` one that lies in that folder."""
    root = workspaces.root_of(folder, within)
    if not (root / workspaces.FILE).is_file():
        return None
    found = workspaces.load(root / workspaces.FILE)
    return found if found.is_declared else None
