"""Writes a pylock.toml (PEP 751) from a lock, which pip and uv can install from.

It has the packages that the lock gives with the chosen extras and groups on all machines, each with its marker, and
its files with their hashes. A file needs a place: the URL that the index folder (--index) tells, where `tools/index` or
`tools/lock` took it from a server; or a folder of files (--files), to which the path is written relative to the
pylock.toml. A package with a source in the project file is told by that: a repository with its commit, a folder, or an
archive with its hash. `index` is the address of the package index, where the project file or --index-url names it.

Status: 0 written; 1 the lock can't be read, or a file has no place; 2 the words aren't right; 3 to 9 as the
program's; 70 the program can't be built.
"""

from __future__ import annotations

import argparse
import os
from pathlib import Path
from typing import Collection, Dict, List, NamedTuple, Optional, Tuple

from . import (
    __version__, addresses, assembled, chosen, console, direct, documents, index_settings, own_index, placed, sources,
)  # fmt: skip
from .chosen import Pick
from .console import Refused
from .locks import Lock
from .placed import is_editable
from .sources import ByGit, ByUrl
from .toml_texts import Value, toml_value
from .workspaces import Workspace


class PlacedFile(NamedTuple):
    """A file with the place where it is found."""

    name: str
    sha256: str
    url: Optional[str]
    path: Optional[str]
    size: Optional[int]


def parser() -> console.Parser:
    made = console.Parser("pylock", __doc__)
    chosen.add_words(made)
    made.add_argument(
        "--index",
        metavar="INDEX",
        help="the index folder, for the URLs of files (`ix` beside the lock, or what `lock` keeps there)",
    )
    made.add_argument(
        "--files",
        metavar="DIR",
        action="append",
        default=[],
        help="a folder that holds files of the lock; may be repeated",
    )
    made.add_argument("--index-url", metavar="URL", help="the package index that the files are of")
    made.add_argument("--no-editable", action="store_true", help="write folders as such to be copied")
    made.add_argument(
        "-o", "--out", metavar="FILE", default="pylock.toml", help="the file to write (%(default)s; - prints it)"
    )
    return made


class Addresses(NamedTuple):
    """The addresses of the package indexes that are asked, by their names; the usual one's, where a file says so; and
    whether it is the only one. Where others are asked before it, nothing tells which of them a release without a source
    is of, if its name is among `sourced`: those of which a release has a source where a source names its index."""

    named: Dict[str, str] = {}
    usual: Optional[str] = None
    is_one: bool = True
    sourced: Collection[str] = ()


class Places:
    """Where files are found: in folders, or at the URLs of an index folder."""

    def __init__(
        self,
        index: Optional[str],
        folders: List[str],
        out: str,
        addresses: Addresses = Addresses(),
        editable: bool = True,
    ) -> None:
        self.index, self.folders, self.addresses, self.editable = index, folders, addresses, editable
        self.beside = os.path.dirname(os.path.abspath(out)) if out != "-" else os.getcwd()
        # What a package's document tells of each file with its hash, and the source of its release.
        self.documents: Dict[str, Dict[Tuple[str, str], Tuple[documents.Document, object]]] = {}

    def told(self, package: str, file: str, sha256: str) -> Optional[Tuple[documents.Document, object]]:
        """What the index folder tells of a file with the lock's hash, with the source of its release."""
        if self.index is None:
            return None
        if package not in self.documents:
            found = documents.load(self.index, package) or {"versions": []}
            pairs = [(it, release.get("source")) for release in found["versions"] for it in release.get("files") or []]
            keys = [(it["file"], str(it["sha256"]).lower()) for it, _ in pairs]
            self.documents[package] = dict(zip(keys, pairs))
        return self.documents[package].get((file, sha256))

    def address(self, package: str, files: List[Tuple[str, str]]) -> Optional[str]:
        """The address of the package index that a release is of, where that is known."""
        known = [found for it in files if (found := self.told(package, *it)) is not None]
        if not known:
            return self.addresses.usual if self.addresses.is_one else None
        source = known[0][1]
        if isinstance(source, str):
            return self.addresses.named.get(source)
        return None if package in self.addresses.sourced else self.addresses.usual

    def relative(self, path: Path) -> str:
        """A path as the file names it: from its own folder."""
        return os.path.relpath(path, self.beside).replace(os.sep, "/")

    def place(self, package: str, file: str, sha256: str) -> PlacedFile:
        for folder in self.folders:
            path = os.path.join(folder, file)
            if os.path.isfile(path):
                return PlacedFile(file, sha256, None, self.relative(Path(path)), os.path.getsize(path))
        told = self.told(package, file, sha256)
        if told is None or "url" not in told[0]:
            hint = "--index names an index folder made from a server, --files a folder that has it"
            raise Refused(f"no place is known of {file}; {hint}")
        return PlacedFile(file, sha256, address_in(told[0], file), None, size_in(told[0], file))


def address_in(entry: documents.Document, file: str) -> str:
    """The address that a document tells of a file; a user and a password in it aren't taken along."""
    found = entry["url"]
    try:
        return addresses.address_of(found if isinstance(found, str) else "")
    except ValueError:
        raise Refused(f"the index folder's `url` of {file} is no address of a server: {str(found)[:200]!r}") from None


def size_in(entry: documents.Document, file: str) -> Optional[int]:
    found = entry.get("size")
    if found is not None and (not isinstance(found, int) or isinstance(found, bool) or found < 0):
        raise Refused(f"the index folder's `size` of {file} is no number of bytes: {str(found)[:200]!r}")
    return found


def file_value(file: PlacedFile) -> Dict[str, Value]:
    found: Dict[str, Value] = {"name": file.name}
    if file.url is not None:
        found["url"] = file.url
    else:
        found["path"] = file.path or ""
    if file.size is not None:
        found["size"] = file.size
    found["hashes"] = {"sha256": file.sha256}
    return found


def package_text(lock: Lock, pick: Pick, places: Places, found: placed.Places) -> str:
    if pick.key in found:
        return sourced_text(pick, found[pick.key], places)
    files = lock.package(pick.name, pick.version).files
    address = places.address(pick.name, files)
    lines = [*head_lines(pick, True), *([f"index = {toml_value(address)}"] if address else [])]
    listed = [places.place(pick.name, file, summed) for file, summed in files]
    if not listed:
        raise Refused(f"the lock has no files of {pick.name} {pick.version}, since its index has none")
    wheels = [it for it in listed if it.name.endswith(".whl")]
    sources = [it for it in listed if not it.name.endswith(".whl")]
    if sources:
        lines.append(f"sdist = {toml_value(file_value(sources[0]))}")
    if wheels:
        lines += ["wheels = [", *(f"    {toml_value(file_value(it))}," for it in wheels), "]"]
    return "\n".join(lines) + "\n"


def head_lines(pick: Pick, is_stable: bool) -> List[str]:
    """What each package begins with. The version of a source tree isn't told: its files may have another one."""
    lines = ["", "[[packages]]", f"name = {toml_value(pick.name)}"]
    lines += [f"version = {toml_value(pick.version)}"] if is_stable else []
    return [*lines, *([f"marker = {toml_value(pick.marker)}"] if pick.marker else [])]


def sourced_text(pick: Pick, place: direct.Place, places: Places) -> str:
    """A package from a source, as a repository, a folder or an archive."""
    source, path = place.source, place.path
    if not place.is_package:
        return ""
    if isinstance(source, ByGit):
        kind, facts = "vcs", git_facts(source, place.commit)
    elif path is not None and place.is_folder:
        kind, facts = "directory", {"path": places.relative(path)}
        facts.update({"editable": True} if places.editable and is_editable(place) else {})
    else:
        file = place.files[0]
        where = {"path": places.relative(path)} if path is not None else {"url": file.url or ""}
        kind, facts = "archive", {**where, **({} if file.size is None else {"size": file.size})}
        facts["hashes"] = {"sha256": file.sha256}
        if isinstance(source, ByUrl) and source.subdirectory:
            facts["subdirectory"] = source.subdirectory
    table = ["", f"[packages.{kind}]", *(f"{key} = {toml_value(it)}" for key, it in facts.items())]
    return "\n".join([*head_lines(pick, kind == "archive"), *table]) + "\n"


def git_facts(source: ByGit, commit: str) -> Dict[str, Value]:
    found: Dict[str, Value] = {"type": "git", "url": sources.public(source.url)}
    if source.reference:
        found["requested-revision"] = source.reference
    found["commit-id"] = commit
    return {**found, "subdirectory": source.subdirectory} if source.subdirectory else found


def pylock_text(lock: Lock, picks: List[Pick], places: Places, found: placed.Places) -> str:
    lines = ['lock-version = "1.0"']
    if lock.supported:
        lines.append(f"environments = {toml_value([lock.supported])}")
    lines.append(f"created-by = {toml_value('unilock ' + __version__)}")
    return "\n".join(lines) + "\n" + "".join(package_text(lock, it, places, found) for it in picks)


def addresses_of(asked: argparse.Namespace, workspace: Optional[Workspace]) -> Addresses:
    """The addresses of the package indexes, without a user and a password; of PyPI only where it is named. Where one
    that has no name is asked before the usual one, nothing tells which of the two a package is of."""
    tables = {} if workspace is None else assembled.index_tables(str(workspace.path), workspace)
    found = index_settings.of_words(asked, tables, Path(asked.lock).parent)
    known = [(it, address_or_none(it)) for it in found.asked()]
    named = {it.name: address for it, address in known if it.name and address is not None}
    is_told = asked.index_url is not None or found.usual.place
    before = [it for it, _ in known if it != found.usual and not it.is_explicit]
    usual = address_or_none(found.usual) if is_told and all(it.name for it in before) else None
    return Addresses(named, usual, len(known) == 1, found.sources if before else ())


def address_or_none(index: index_settings.Index) -> Optional[str]:
    try:
        return None if index.is_flat else addresses.address_of(index.url)
    except ValueError:
        return None


def run(asked: argparse.Namespace) -> int:
    usual = own_index.usual_for(asked.lock)
    index = asked.index or (usual if os.path.isdir(usual) else None)
    with chosen.opened(asked) as (path, lock):
        picks = chosen.bases(chosen.everywhere(path, lock, chosen.extras_of(asked)))
        workspace = placed.workspace_beside(asked.lock)
        found = placed.places(workspace, lock, picks, asked.lock, placed.means_of(lock, picks))
        places = Places(index, asked.files, asked.out, addresses_of(asked, workspace), not asked.no_editable)
        console.put(pylock_text(lock, picks, places, found), asked.out)
    return 0


def main(words: Optional[List[str]] = None) -> int:
    asked = chosen.settled(parser().read(words))
    return console.ended("pylock", lambda: run(asked))
