"""Where the packages of a lock come from that have a source in the project file, at what the lock pins of them: its
commit, or the hash of its file. What isn't so any more is refused, since the lock is another project's then.
"""

from __future__ import annotations

import contextlib
import json
import shutil
import tempfile
from collections.abc import Iterable, Iterator, Mapping
from pathlib import Path
from typing import Dict, NamedTuple, Tuple

from . import archives, assembled, direct_files, scripts, source_trees, sources, workspaces
from .cache import Cache, usual_folder
from .called import command
from .chosen import Pick
from .console import Refused
from .direct import Direct, Place, commit_in
from .direct_files import Means
from .locks import Lock, Package
from .own_project import Own
from .repositories import Repositories
from .source_trees import Builds, Trusted
from .sources import ByGit, ByPath, ByUrl
from .verdicts import same_version
from .workspaces import Workspace

# In the environment: what came from sources, each with what it was then.
STAMPS = ".unilock-sources"
# Where the packages of a lock come from that come from a source, by their names and versions.
Places = Dict[Tuple[str, str], Place]


def means_of(lock: Lock, picks: Iterable[Pick]) -> Means:
    """By what the sources of a lock's packages are followed: nothing is built, and nothing is at another commit."""
    cache = Cache(usual_folder())
    packages = by_name(lock, picks)
    trusted = Trusted({name: of_tree(it).version for name, it in packages.items()})
    repositories = Repositories(None if cache.folder is None else cache.folder / "git")
    pins = {name: dict(file for one in it for file in one.files) for name, it in packages.items()}
    commits = [(name, commit_of(of_tree(it))) for name, it in packages.items()]
    kept = {name: it for name, it in commits if it is not None}
    trees = {name for name, it in packages.items() if not of_tree(it).files}
    return Means(repositories, Builds(trusted, trusted), cache, kept=kept, pins=pins, trees=trees)


def by_name(lock: Lock, picks: Iterable[Pick]) -> dict[str, list[Package]]:
    """The packages of a lock that are picked, by their names."""
    found: dict[str, list[Package]] = {}
    for name, version in dict.fromkeys(it.key for it in picks):
        found.setdefault(name, []).append(lock.package(name, version))
    return found


def of_tree(packages: list[Package]) -> Package:
    """The one of a name's packages that is a source tree, where one is: at a commit, or without files."""
    commits = [it for it in packages if commit_of(it) is not None]
    return next(iter([*commits, *(it for it in packages if not it.files), *packages]))


def commit_of(package: Package) -> str | None:
    return commit_in(package.name, [file for file, _ in package.files])


def workspace_beside(lock: str) -> Workspace | None:
    """The project that a lock stands beside, or the script, where its file can be read."""
    script = scripts.of_lock(lock)
    if script is not None:
        return scripts.workspace_of(script) if script.is_file() else None
    path = Path(lock).parent / workspaces.FILE
    return workspaces.found_for(path) if path.is_file() else None


def places(workspace: Workspace | None, lock: Lock, picks: Iterable[Pick], path: str, means: Means) -> Places:
    """The places of the picked packages that a lock has from sources."""
    found: dict[str, Place] = {}
    beside: set[str] = set()
    if workspace is not None and assembled.is_wanted(workspace):
        direct = Direct(workspace, means, means.pins or ()).gather()
        found, beside = direct.places, direct.beside()
    made: Places = {}
    for name, packages in by_name(lock, picks).items():
        if name not in found and any(commit_of(it) is not None for it in packages):
            raise Refused(f"{path}: {name} is locked at a commit, and the project file has no source of it")
        mine = [] if name not in found else [it for it in packages if name not in beside or is_of(found[name], it)]
        for one in mine:
            agreed(found[name], one.version, dict(one.files), path)
            made[one.name, one.version] = found[name]
    return made


def is_of(place: Place, package: Package) -> bool:
    """Whether a package is the one that no index has, of a name that an index may have too."""
    if commit_of(package) is not None or (place.is_folder and not package.files):
        return True
    return same_version(place.metadata.version, package.version) and any(
        it.name in dict(package.files) for it in place.files
    )


def of_lock(path: str, lock: Lock, picks: list[Pick]) -> Places:
    """The places of packages of the lock that stands at a path, by the project file beside it."""
    return places(workspace_beside(path), lock, picks, path, means_of(lock, picks))


def address_of(place: Place) -> str:
    """The URL by which a requirement line names a place."""
    if place.path is not None:
        return place.path.resolve().as_uri()
    return sources.url_of(place.source, place.commit)


def agreed(place: Place, spelled: str, files: Mapping[str, str], path: str) -> None:
    """Refuses a lock whose package isn't the one that its source gives."""
    wrong = None
    if not same_version(place.metadata.version, spelled):
        wrong = f"that is {place.metadata.version}"
    elif place.is_folder and files:
        wrong = "the lock has files of it, and that is a folder"
    elif isinstance(place.source, ByGit) and commit_in(place.name, list(files)) != place.commit:
        wrong = "the lock has no commit of it"
    elif not place.is_folder and any(files.get(it.name) != it.sha256 for it in place.files):
        wrong = f"{', '.join(it.name for it in place.files)} is another file, or has another hash"
    if wrong is not None:
        told = f"{path}: {place.name} {spelled} isn't what {place.told()} gives: {wrong}"
        raise Refused(f"{told}; `{command('lock')}` makes it anew")


class Sourced(NamedTuple):
    """A package from a source, as it is installed."""

    pick: Pick
    place: Place
    editable: bool

    def shown(self) -> str:
        return f"{self.place.source.shown()}{', editable' if self.editable else ''}"

    @property
    def own(self) -> Own:
        """Its folder, as a project that is installed."""
        assert self.place.path is not None, "what is editable is a folder of this machine"
        return Own(self.place.path.resolve(), self.pick.name, self.pick.version, self.editable)

    def stamp(self) -> str:
        """What tells what is installed from what it would be now; nothing of a copy of a folder, which may have changed
        in every file."""
        if self.place.is_folder:
            return self.own.stamp() if self.editable else ""
        return json.dumps([[it.name, it.sha256] for it in self.place.files])


class Stamps:
    """What an environment has from sources, as it was when it was installed."""

    def __init__(self, folder: Path) -> None:
        self.path = folder / STAMPS
        self.found: dict[str, str] = {}
        with contextlib.suppress(OSError, ValueError):
            read = json.loads(self.path.read_text(encoding="utf-8"))
            if isinstance(read, dict):
                self.found = {str(name): str(it) for name, it in read.items()}

    def has(self, it: Sourced, there: dict[str, str]) -> bool:
        """Whether the environment has a package as it would be installed now."""
        name, stamp = it.pick.name, it.stamp()
        return bool(stamp) and self.found.get(name) == stamp and same_version(it.pick.version, there.get(name, ""))

    def keep(self, installed: Iterable[Sourced], gone: Iterable[str]) -> None:
        kept = {name: it for name, it in self.found.items() if name not in set(gone)}
        made = {**kept, **{it.pick.name: it.stamp() for it in installed}}
        if made != self.found:
            self.path.write_text(json.dumps(made, indent=1) + "\n", encoding="utf-8")
            self.found = made


def sourced(picks: list[Pick], found: Places, editable: bool) -> list[Sourced]:
    """The packages from sources that are installed themselves: not those that are lists of requirements alone."""
    return [
        Sourced(it, found[it.key], editable and is_editable(found[it.key]))
        for it in picks
        if it.key in found and found[it.key].is_package
    ]


def is_editable(place: Place) -> bool:
    return place.is_folder and isinstance(place.source, (ByPath, sources.Member)) and place.source.editable


@contextlib.contextmanager
def taken(it: Sourced, means: Means) -> Iterator[str]:
    """The requirement by which an installer takes a package from this machine: a folder, or a file or a commit's files
    that are those of the lock."""
    place, source = it.place, it.place.source
    with tempfile.TemporaryDirectory(prefix="unilock-source-") as held, contextlib.ExitStack() as opened:
        path, subdirectory = place.path, ""
        if isinstance(source, ByGit):
            means.repositories.want(source, place.commit)
            checked(it, place.files[0].name, means.repositories.sha256(source, place.commit), means)
            top = opened.enter_context(means.repositories.checked_out(source, place.commit))
            path = source_trees.inner(top, source.subdirectory, place.told())
        elif isinstance(source, ByUrl):
            path, subdirectory = Path(held) / direct_files.file_at(source, place.by), source.subdirectory
            with means.fetched(source) as got, path.open("wb") as stream:
                shutil.copyfileobj(got.stream, stream)
        elif place.files and path is not None:
            path = Path(shutil.copy(path, held))
        assert path is not None, "what comes from a source is a folder or a file now"
        if path.is_file():
            checked(it, path.name, archives.sha256_of(path), means)
        yield f"{place.name} @ {path.resolve().as_uri()}" + (f"#subdirectory={subdirectory}" if subdirectory else "")


def checked(it: Sourced, file: str, summed: str, means: Means) -> None:
    """Refuses what hasn't the hash that the lock has of it."""
    wanted = (means.pins or {}).get(it.pick.name, {}).get(file)
    if wanted != summed:
        raise Refused(f"{it.place.told()}: the SHA-256 of {file} is {summed}, and not {wanted} as the lock has it")
