"""Package documents: one for each project, as the program reads them, gathered from files and written as a folder.

All files of one version make one release. Where the metadata of two files of one version differ they are refused,
since a lock for all platforms needs one answer.
"""

from __future__ import annotations

import json
import os
from dataclasses import dataclass, field
from pathlib import Path
from typing import Any, Dict, Iterable, Iterator, List, NamedTuple, Optional, Set, Tuple

from . import archives, console, places
from .archives import Metadata, Refused, sha256_of
from .building import Builder
from .readings import requirement_fault
from .versions import NAME, Key, normal_name, specifiers_fault, version

# What the program reads of all documents together.
MOST_RELEASES = 200_000
MOST_TEXT = 256 * 1024 * 1024
Document = Dict[str, Any]


class File(NamedTuple):
    """One file of a release, with what is known of where it is."""

    name: str
    sha256: str
    url: Optional[str] = None
    size: Optional[int] = None


@dataclass
class Release:
    """One version of a project, with the files that were found of it; `source` is the name of the index that it comes
    from, where that isn't the usual one or a source names it, or `direct`."""

    metadata: Metadata
    first: object
    files: Dict[str, File] = field(default_factory=dict)
    yanked: bool = False
    reason: str = ""
    source: str = ""
    # Of one that comes from a source: what that asks of its address, and its requirements by a URL, which stand in
    # `requires_dist` by their names.
    asked: str = ""
    by_url: List[str] = field(default_factory=list)


class Projects:
    """Projects in normal form, each with its releases by the key of their version. Those in `beside` may have others,
    of package indexes."""

    def __init__(self) -> None:
        self.releases: Dict[str, Dict[Key, Release]] = {}
        self.beside: Set[str] = set()
        self.count = 0
        self.size = 0

    def copy(self) -> "Projects":
        """Others with the same releases, to which more may be added."""
        made = Projects()
        made.releases = {name: dict(it) for name, it in self.releases.items()}
        made.beside, made.count, made.size = set(self.beside), self.count, self.size
        return made

    def add(self, path: object, metadata: Metadata) -> Release:
        """The release of these metadata, new or as it was."""
        found = version(metadata.version)
        assert found is not None, "metadata are read with a version"
        fresh = Release(metadata, path)
        release = self.releases.setdefault(metadata.name, {}).setdefault(found.key, fresh)
        if release is fresh:
            self.weigh(metadata)
        one, other = release.metadata, metadata
        if (one.requires_python, sorted(one.requires_dist)) != (other.requires_python, sorted(other.requires_dist)):
            raise Refused(path, f"its requirements or its bound on Python differ from those of {release.first}")
        return release

    def weigh(self, metadata: Metadata) -> None:
        """Counts a release, of which there may be as many as the program reads."""
        self.count += 1
        self.size += sum(map(len, metadata.requires_dist))
        for what, has, most in [("releases", self.count, MOST_RELEASES), ("characters", self.size, MOST_TEXT)]:
            if has > most:
                raise console.Refused(f"there are more than {most:,} {what}; `--newest N` takes fewer releases", 4)

    def add_file(self, path: Path, builder: Optional[Builder] = None, stated: Optional[Metadata] = None) -> None:
        """Adds a wheel or a source distribution, with the metadata that are stated of it, or that it says."""
        if not archives.FILE_NAME.match(path.name):
            raise Refused(path, "its name has a byte that no lock can hold")
        metadata = metadata_of(path, builder) if stated is None else stated
        try:
            summed = sha256_of(path)
        except OSError as fault:
            raise Refused(path, str(fault.strerror or fault)) from None
        release = self.add(path, metadata)
        if release.files.setdefault(path.name, File(path.name, summed)).sha256 != summed:
            raise Refused(path, "another file of this name has other bytes")

    def mark_yanked(self, mark: str) -> None:
        name, equals, spelled = mark.partition("==")
        found = version(spelled)
        if not equals or not NAME.match(name.strip()) or found is None:
            raise Refused("--yanked", f"{mark!r} isn't NAME==VERSION")
        releases = self.releases.get(normal_name(name.strip()), {})
        if found.key not in releases:
            raise Refused("--yanked", f"no file of {mark} was given")
        releases[found.key].yanked = True

    def documents(self) -> Dict[str, Document]:
        return {name: document_of(name, self.releases[name]) for name in sorted(self.releases)}

    def warnings(self) -> Iterator[str]:
        """What keeps the program from using a release, for each that it will pass over."""
        for name in sorted(self.releases):
            for _, release in sorted(self.releases[name].items()):
                fault = release_fault(release.metadata)
                if fault is not None:
                    yield f"{name} {release.metadata.version} can't be used: {fault}"


def metadata_of(path: Path, builder: Optional[Builder]) -> Metadata:
    """The metadata of a file, of a build where it has none that are certain and a build is wanted."""
    try:
        return archives.file_metadata(path)
    except archives.Uncertain:
        if builder is None or not builder.wants(archives.sdist_parts(path.name)[0]):
            raise
    with path.open("rb") as stream:
        return builder.metadata(path, path.name, stream)


def release_fault(metadata: Metadata) -> Optional[str]:
    """The first text of a release that the program doesn't read; such a release is passed over."""
    return unusable(metadata.version, metadata.requires_python, metadata.requires_dist)


def unusable(spelled: str, requires_python: Optional[str], requires_dist: Iterable[str]) -> Optional[str]:
    if version(spelled) is None:
        return f"its version `{spelled}` has no reading"
    fault = None if requires_python is None else specifiers_fault(requires_python)
    if fault is not None:
        return f"Requires-Python: {requires_python}: {fault}"
    for text in requires_dist:
        fault = requirement_fault(text)
        if fault is not None:
            return f"Requires-Dist: {fault}"
    return None


def document_of(name: str, releases: Dict[Key, Release]) -> Document:
    return {"name": name, "versions": [release_entry(it) for _, it in sorted(releases.items())]}


def release_entry(release: Release) -> Document:
    entry: Dict[str, Any] = {"version": release.metadata.version}
    if release.metadata.requires_python is not None:
        entry["requires_python"] = release.metadata.requires_python
    if release.metadata.requires_dist:
        entry["requires_dist"] = list(release.metadata.requires_dist)
    if release.yanked:
        entry["yanked"] = release.reason or True
    if release.source:
        entry["source"] = release.source
    if release.asked:
        entry["asked"] = release.asked
    if release.by_url:
        entry["by_url"] = release.by_url
    if release.files:
        entry["files"] = [file_entry(it) for _, it in sorted(release.files.items())]
    return entry


def file_entry(file: File) -> Document:
    entry: Dict[str, Any] = {"file": file.name, "sha256": file.sha256}
    if file.url is not None:
        entry["url"] = file.url
    if file.size is not None:
        entry["size"] = file.size
    return entry


def files_in(paths: Iterable[Path]) -> Iterator[Path]:
    """The wheels and source distributions that are named or stand in the named folders."""
    for path in paths:
        if path.is_dir():
            found = sorted(it for it in path.iterdir() if it.name.endswith((".whl", ".tar.gz")))
            if not found:
                raise Refused(path, "the folder has neither wheels nor source distributions")
            yield from found
        elif not path.is_file():
            raise Refused(path, "there is no such file")
        elif path.name.endswith((".whl", ".tar.gz")):
            yield path
        else:
            raise Refused(path, "it is neither a wheel nor a source distribution")


def load(folder: str, name: str) -> Optional[Document]:
    """The document of a package in an index folder, or None where there is none; each place has its shape."""
    path = os.path.join(folder, f"{name}.json")
    if not os.path.exists(path):
        return None
    try:
        found = json.loads(console.text_of(path))
    except (ValueError, RecursionError) as fault:
        raise console.Refused(f"{path}: not JSON: {fault}", 3) from None
    if not isinstance(found, dict) or not isinstance(found.get("versions"), list):
        raise console.Refused(f"{path}: it is no document of a package", 3)
    for number, entry in enumerate(found["versions"]):
        wrong = wrong_place(entry)
        if wrong is not None:
            place = f"versions[{number}]" + (f".{wrong}" if wrong else "")
            value = entry.get(wrong.partition("[")[0]) if isinstance(entry, dict) else entry
            raise console.Refused(f"{path}: {place}: {places.wrong_shape(place, value)}", 3)
    return found


def wrong_place(entry: Any) -> Optional[str]:
    """The first place of an entry whose shape the program refuses, or None. The entry's own is the empty text."""
    if not isinstance(entry, dict):
        return ""
    if not isinstance(entry.get("version"), str):
        return "version"
    if not isinstance(entry.get("requires_python"), (str, type(None))):
        return "requires_python"
    required = entry.get("requires_dist") or []
    if not isinstance(entry.get("requires_dist"), (list, type(None))):
        return "requires_dist"
    if not all(isinstance(it, str) for it in required):
        return "requires_dist"
    if not isinstance(entry.get("yanked"), (bool, str, type(None))):
        return "yanked"
    files = entry.get("files")
    if not isinstance(files, (list, type(None))):
        return "files"
    wrong = [number for number, it in enumerate(files or []) if not is_file(it)]
    return f"files[{wrong[0]}]" if wrong else None


def is_file(entry: Any) -> bool:
    return isinstance(entry, dict) and isinstance(entry.get("file"), str) and isinstance(entry.get("sha256"), str)


def releases_of(document: Optional[Document]) -> List[Tuple[str, Document]]:
    """The entries of a document that the program can use, each with its version as it stands."""
    found, seen = [], set()
    for entry in [] if document is None else document["versions"]:
        spelled = str(entry.get("version", ""))
        read = version(spelled)
        if read is None or read.key in seen:
            continue
        if unusable(spelled, entry.get("requires_python"), entry.get("requires_dist") or []) is None:
            seen.add(read.key)
            found.append((spelled, entry))
    return found


class Held:
    """The documents of an index folder, each read when it is first asked for."""

    def __init__(self, folder: str) -> None:
        self.folder = folder
        self.documents: Dict[str, Optional[Document]] = {}
        self.entries: Dict[Tuple[str, str], Optional[Document]] = {}

    def document(self, name: str) -> Optional[Document]:
        if name not in self.documents:
            self.documents[name] = load(self.folder, name)
        return self.documents[name]

    def release(self, name: str, spelled: str) -> Optional[Document]:
        """The entry of a release that can be used, by any spelling of its version."""
        if (name, spelled) not in self.entries:
            wanted = version(spelled)
            found = releases_of(self.document(name)) if wanted is not None else []
            same = (entry for other, entry in found if key_of(other) == key_of(spelled))
            self.entries[name, spelled] = next(same, None)
        return self.entries[name, spelled]


def key_of(spelled: str) -> Optional[Key]:
    found = version(spelled)
    return None if found is None else found.key
