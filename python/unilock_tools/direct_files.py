"""What a file or a repository that a source names says of its release: by its bytes, by an index folder that was made
of it before, or by the cache, which keeps it under the file's hash or the commit.
"""

from __future__ import annotations

import contextlib
import json
import tempfile
from collections.abc import Collection, Iterator, Mapping
from dataclasses import dataclass, field
from pathlib import Path
from typing import IO, Any, NamedTuple
from urllib.parse import unquote, urlsplit

from . import addresses, archives, building, documents, source_trees, sources, workspaces
from .archives import Metadata
from .cache import Cache
from .console import Refused
from .documents import Document, File
from .fetching import Fetcher
from .labels import DIRECT
from .repositories import Repositories
from .requirement_texts import parts_of
from .source_trees import Builds, Tree
from .sources import ByGit, ByPath, ByUrl, Member, Source
from .versions import version

MOST_FILE = 1024 * 1024 * 1024
ARCHIVES = (".whl", ".tar.gz")


class Found(NamedTuple):
    """A release's metadata, its files, the commit that it is at, the sources that it names itself, and what is warned
    of."""

    metadata: Metadata
    files: tuple[File, ...]
    commit: str = ""
    inner: tuple[tuple[str, Source], ...] = ()
    warned: tuple[str, ...] = ()


class Fetched(NamedTuple):
    """A file that was fetched: it goes when it is closed."""

    stream: IO[bytes]
    sha256: str
    size: int


@dataclass
class Means:
    """By what sources are followed: repositories, what may be built, a cache, and how a server is asked; with an index
    folder whose documents count where they are of the same source. `kept` are commits that stay while their branches
    have them. With `pins`, the files of a lock's packages with their hashes, only these packages are followed, and
    repositories are at the commits of `kept`, whatever a source says; of `trees` some package has no file."""

    repositories: Repositories
    builds: Builds
    cache: Cache
    known: Path | None = None
    kept: Mapping[str, str] = field(default_factory=dict)
    pins: Mapping[str, Mapping[str, str]] | None = None
    trees: Collection[str] = ()
    tries: int = 4
    timeout: float = 30
    deadline: float = 900

    def found(self, name: str, source: ByUrl | ByGit, by: str) -> Found:
        known = None if self.known is None else in_folder(self.known, name, source)
        if known is not None and self.kept.get(name) in (None, known.commit):
            return known
        return self.at_commit(name, source) if isinstance(source, ByGit) else self.at_address(name, source, by)

    # ---- files

    def of_file(self, name: str, path: Path, by: str) -> Found:
        """A wheel or a source distribution on this machine."""
        judged_name(path.name, f"{by}: path {path}")
        with path.open("rb") as stream:
            metadata = self.archive_metadata(name, str(path), path.name, stream)
        file = File(path.name, archives.sha256_of(path), None, path.stat().st_size)
        return Found(metadata, (file,), inner=named_by(name, metadata))

    def at_address(self, name: str, source: ByUrl, by: str) -> Found:
        url = addresses.address_of(source.url)
        file = file_at(source, by)
        stated = source.sha256 or (self.pins or {}).get(name, {}).get(file, "")
        key = f"{url} {source.subdirectory} {stated}"
        kept = self.kept_of(name, key) if stated else None
        if kept is not None:
            return kept
        with self.fetched(source) as got:
            metadata = self.archive_metadata(name, source.shown(), file, got.stream, source.subdirectory)
            found = Found(metadata, (File(file, got.sha256, url, got.size),), inner=named_by(name, metadata))
        self.keep(f"{url} {source.subdirectory} {got.sha256}", found)
        return found

    @contextlib.contextmanager
    def fetched(self, source: ByUrl) -> Iterator[Fetched]:
        """A file from its address, whole, and checked by the hash that the source says."""
        fetcher = Fetcher(source.url, self.tries, self.timeout, 0.5, self.deadline)
        url = addresses.address_of(source.url)
        got = fetcher.ask(url, {}, MOST_FILE, tempfile.TemporaryFile)
        if got.status != 200 or got.file is None:
            raise addresses.fault_of(url, f"{got.status} {got.reason}")
        with got.file as stream:
            if source.sha256 and source.sha256 != got.sha256:
                other = f"and not {source.sha256} as its source says"
                raise addresses.fault_of(url, f"its SHA-256 is {got.sha256}, {other}")
            if not source.sha256 and not got.measured:
                raise addresses.fault_of(url, "the server doesn't tell its length, so it may be cut off")
            stream.seek(0)
            yield Fetched(stream, got.sha256, got.length)

    def archive_metadata(
        self, name: str, shown: str, file: str, stream: IO[bytes], subdirectory: str = ""
    ) -> Metadata:
        """The metadata of a wheel, or of an archive of sources: its own where they are certain, else its project
        file's, else a build's."""
        found = None
        if file.endswith(".whl"):
            found = archives.wheel_metadata(shown, file, archives.wheel_body(shown, stream))
        elif not subdirectory:
            with contextlib.suppress(archives.Refused):
                found = archives.sdist_metadata(shown, file, archives.sdist_body(shown, stream))
        if found is None:
            with tempfile.TemporaryDirectory(prefix="unilock-tree-") as held:
                stream.seek(0)
                top = building.unpacked(shown, stream, Path(held))
                tree = Tree(source_trees.inner(top, subdirectory, shown), shown, top)
                tables = source_trees.tables_in(tree)
                return source_trees.metadata_of(tree, tables, name, self.builds.builder)
        if found.name != name:
            raise Refused(f"{shown}: it is the project {found.name}, not {name}")
        return found

    # ---- repositories

    def at_commit(self, name: str, source: ByGit) -> Found:
        kept = self.kept.get(name)
        if kept is None and self.pins is not None:
            raise Refused(f"{source.shown()}: the lock has no commit of {name}; `tools/lock` makes it anew", 1)
        commit = kept if kept is not None and self.pins is not None else self.repositories.commit(source, kept)
        key = f"git {sources.public(source.url)} {commit} {source.subdirectory}"
        known = self.kept_of(name, key)
        if known is not None:
            return known
        with self.repositories.checked_out(source, commit) as top:
            found = self.in_tree(name, source, commit, top)
        self.keep(key, found)
        return found

    def in_tree(self, name: str, source: ByGit, commit: str, top: Path) -> Found:
        shown = f"{source.shown()} at {commit[:12]}"
        tree = Tree(source_trees.inner(top, source.subdirectory, shown), shown, top)
        tables = source_trees.tables_in(tree)
        metadata = source_trees.metadata_of(tree, tables, name, self.builds.builder)
        inside = Inside(source, commit, top)
        inner = (*inside.sources(tables, tree), *named_by(name, metadata))
        file = File(f"{name}-{commit}.git", self.repositories.sha256(source, commit), sources.url_of(source, commit))
        modules = self.repositories.has_submodules(source, commit)
        warned = (f"{name}: its repository has submodules, which aren't fetched",) if modules else ()
        return Found(metadata, (file,), commit, inner, warned)

    # ---- the cache

    def kept_of(self, name: str, key: str) -> Found | None:
        kept = self.cache.get("direct", f"{name} {key}")
        try:
            return None if kept is None else of_entry(name, json.loads(kept.body))
        except (ValueError, KeyError, TypeError, AttributeError, Refused):
            # Another version of the tools kept it.
            return None

    def keep(self, key: str, found: Found) -> None:
        if self.pins is not None:
            # What a lock is trusted for is less than what a build would say.
            return
        entry = documents.release_entry(release_of(found, key))
        body = json.dumps({**entry, "requires_dist": list(found.metadata.requires_dist), "warned": list(found.warned)})
        self.cache.put("direct", f"{found.metadata.name} {key}", body.encode())


def means_of(asked: Any, cache: Cache, index_url: str | None) -> Means:
    """What the words of a command allow."""
    builder = building.of_words(asked, cache, index_url)
    repositories = Repositories(None if cache.folder is None else cache.folder / "git")
    return Means(repositories, source_trees.builds(builder, asked.no_build, cache, index_url), cache)


class Inside(NamedTuple):
    """A commit's files: what a path or a member of a workspace is in them."""

    source: ByGit
    commit: str
    top: Path

    def sources(self, tables: Any, tree: Tree) -> Iterator[tuple[str, Source]]:
        """The sources of a project in a repository. Those that are paths are of the same commit."""
        top = self.top.resolve()
        root = workspaces.root_of(tree.folder, top)
        workspace = workspaces.load(root / workspaces.FILE) if (root / workspaces.FILE).is_file() else None
        above, members = {}, {}
        if workspace is not None and workspace.is_declared:
            above, members = sources.read(workspace.tables, tree.shown), workspace.members
        file = f"{tree.shown}/{workspaces.FILE}"
        for name, source, is_above in sources.followed(tables, file, False, above, members):
            if isinstance(source, ByGit) and sources.is_local(source) and not sources.is_local(self.source):
                raise Refused(f"{tree.shown}: {name} is a repository of another machine: {source.shown()}", 3)
            if isinstance(source, Member) and name not in members:
                raise Refused(f"{tree.shown}: {name} isn't a member of the workspace", 3)
            if isinstance(source, Member):
                yield name, self.at(members[name].folder, tree.shown)
            elif isinstance(source, ByPath):
                yield name, self.at((root if is_above else tree.folder) / source.path, tree.shown)
            else:
                yield name, source

    def at(self, folder: Path, shown: str) -> ByGit:
        top, place = self.top.resolve(), folder.resolve()
        if not place.is_relative_to(top):
            raise Refused(f"{shown}: a path leads out of the repository: {folder.name}", 3)
        if not place.is_dir():
            raise Refused(f"{shown}: a path inside it is no folder: {place.relative_to(top)}", 3)
        inside = place.relative_to(top).as_posix()
        return ByGit(self.source.url, "rev", self.commit, "" if inside == "." else inside)


def named_by(name: str, metadata: Metadata, is_own: bool = False) -> tuple[tuple[str, Source], ...]:
    """The sources that a release's requirements have by their own URLs. Only what is the user's own may lead to places
    on this machine."""
    parts = [parts_of(it) for it in metadata.requires_dist]
    found = [(it.name, sources.by_url(f"{name} {metadata.version}: {it.name}", it.url)) for it in parts if it.url]
    for other, source in found:
        if sources.is_local(source) and not is_own:
            raise Refused(f"{name} {metadata.version}: {other} @ {source.shown()}: a place on another machine", 3)
    return tuple(found)


def file_at(source: ByUrl, by: str) -> str:
    file = unquote(urlsplit(addresses.address_of(source.url)).path.rpartition("/")[2])
    judged_name(file, f"{by}: {source.shown()}")
    return file


def judged_name(file: str, shown: str) -> None:
    if not file.endswith(ARCHIVES) or not archives.FILE_NAME.match(file):
        raise Refused(f"{shown}: it is neither a wheel (.whl) nor a source distribution (.tar.gz)", 3)


def release_of(found: Found, first: object) -> documents.Release:
    made = documents.Release(found.metadata, first, {it.name: it for it in found.files})
    made.by_url = [f"{name} @ {sources.url_of(source)}" for name, source in found.inner]
    return made


def in_folder(folder: Path, name: str, source: ByUrl | ByGit) -> Found | None:
    """What an index folder has of a source: one release, of one file that is told to come from there."""
    document = documents.load(str(folder), name)
    entries = [] if document is None else [it for it in document["versions"] if it.get("source") == DIRECT]
    files = entries[0].get("files") or [] if len(entries) == 1 else []
    if len(files) != 1 or not isinstance(files[0].get("url"), str):
        return None
    if entries[0].get("asked", "") != sources.asked(source):
        return None
    if isinstance(source, ByUrl):
        same = files[0]["url"] == addresses.address_of(source.url) and source.sha256 in ("", files[0]["sha256"])
    else:
        told = sources.by_url(name, files[0]["url"]) if files[0]["url"].startswith("git+") else None
        same = isinstance(told, ByGit) and place_of(told) == place_of(source)
    return of_entry(name, entries[0]) if same else None


def place_of(source: ByGit) -> tuple[str, str]:
    return sources.public(source.url), source.subdirectory


def of_entry(name: str, entry: Document) -> Found:
    """What an entry of a document says of a release that comes from a source."""
    lists = [entry.get(it) or [] for it in ("requires_dist", "by_url", "warned")]
    shaped = all(isinstance(it, list) and all(isinstance(text, str) for text in it) for it in lists)
    if version(entry["version"]) is None or not shaped:
        raise Refused(f"{name}: its entry in the index folder has another shape", 3)
    metadata = Metadata(name, entry["version"], entry.get("requires_python"), tuple(entry.get("requires_dist") or []))
    files = tuple(File(it["file"], it["sha256"], it.get("url"), it.get("size")) for it in entry.get("files") or [])
    parts = [parts_of(it) for it in entry.get("by_url") or []]
    inner = tuple((it.name, sources.by_url(name, it.url)) for it in parts)
    commit = ""
    if files and (files[0].url or "").startswith("git+"):
        told = sources.by_url(name, files[0].url or "")
        commit = told.reference if isinstance(told, ByGit) else ""
    return Found(metadata, files, commit, inner, tuple(entry.get("warned") or []))
