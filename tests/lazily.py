"""Drawn projects that are locked by what is tried alone, from a package index that is held in memory: what comes of it
is the lock by all documents, or right by all of them; and what isn't served by one is served by neither.

    tools/fuzz --lazy --seed 7 --count 2000

How many requests a project of so many packages of so many releases each takes, on a server on the loopback address:

    python3 tests/lazily.py 300 100 4
"""

from __future__ import annotations

import hashlib
import json
import os
import random
import sys
import tempfile
import time
from http.server import BaseHTTPRequestHandler
from pathlib import Path
from typing import Any, NamedTuple

import families
import program as under_test
from making import metadata_text
from serving import Server
from small_projects import small
from unilock_tools import lazy, locks, project, walk
from unilock_tools.archives import Metadata
from unilock_tools.cache import Cache
from unilock_tools.console import Refused
from unilock_tools.pages import JSON_FORM, Listed, ListedRelease, ProjectPage
from unilock_tools.simple import Client
from unilock_tools.versions import version

Documents = dict[str, dict[str, Any]]


def release_of(name: str, entry: dict[str, Any]) -> ListedRelease | None:
    found = version(entry["version"])
    if found is None:
        return None
    digest = "0" * 64
    file = f"{name}-{entry['version']}-py3-none-any.whl"
    yanked = bool(entry.get("yanked"))
    bound = entry.get("requires_python")
    return ListedRelease(found, [Listed(file, f"/{file}", digest, bound, yanked, None, None, None)])


class Held:
    """A package index that is held in memory, and counts what it is asked for."""

    builder, url = None, "http://held/simple/"

    def __init__(self, documents: Documents) -> None:
        self.documents = documents
        self.pages: list[str] = []
        self.told: list[str] = []

    def page(self, name: str) -> ProjectPage | None:
        self.pages.append(name)
        if name not in self.documents:
            return None
        releases = [release_of(name, it) for it in self.documents[name]["versions"]]
        return ProjectPage([it for it in releases if it is not None], [])

    def lacks(self, name: str) -> str:
        return f"the server has no project {name}"

    def metadata(self, release: ListedRelease) -> Metadata:
        name, _, spelled = release.files[0].name[: -len("-py3-none-any.whl")].rpartition("-")
        self.told.append(f"{name} {spelled}")
        entry = next(it for it in self.documents[name]["versions"] if it["version"] == spelled)
        return Metadata(name, spelled, entry.get("requires_python"), tuple(entry.get("requires_dist", ())))


def with_files(documents: Documents) -> Documents:
    """The documents with the file that the index has of each release, as the whole index would be written."""
    made: Documents = {}
    for name, document in documents.items():
        entries = []
        for entry in document["versions"]:
            file = {"file": f"{name}-{entry['version']}-py3-none-any.whl", "sha256": "0" * 64}
            entries.append({**entry, "files": [file]})
        made[name] = {"name": name, "versions": entries}
    return made


def locked(path: Path, documents: Documents, old: Path | None = None) -> tuple[lazy.Locked, Held]:
    """A project file locked by what is tried of these documents."""
    held = Held(documents)
    made = lazy.Lazy(held, project.load(str(path)), walk.Choice(), old=old, jobs=2)  # type: ignore[arg-type]
    return made.run(), held


def write_index(folder: Path, documents: Documents) -> None:
    folder.mkdir(exist_ok=True)
    for path in folder.iterdir():
        path.unlink()
    for name, document in documents.items():
        (folder / f"{name}.json").write_text(json.dumps(document), encoding="utf-8")


class Compared(NamedTuple):
    """How a drawn project came out: `equal`, `right` (another lock, verified by all documents), `refused` (by both) or
    `unread` (its files have no answer); the requests for metadata beside the releases that there are; and what is
    wrong."""

    kind: str
    asked: int
    releases: int
    finding: str


def compared(seed: int, number: int) -> Compared:
    """A drawn project, locked by all documents and by what is tried of them."""
    os.environ["UNILOCK"] = str(under_test.PROGRAM)
    drawn = small(random.Random(f"{seed}/{number}"))
    documents = with_files(drawn.documents)
    releases = sum(len(it["versions"]) for it in documents.values())
    with tempfile.TemporaryDirectory(prefix="unilock-lazy-") as held:
        folder = Path(held)
        (folder / "pyproject.toml").write_text(drawn.project, encoding="utf-8")
        write_index(folder / "ix", documents)
        whole = under_test.said(under_test.call(folder, "lock pyproject.toml ix 1"))
        if whole.status not in (0, 1):
            return Compared("unread", 0, releases, "")
        try:
            found, server = locked(folder / "pyproject.toml", documents)
        except Refused as fault:
            return Compared("refused", 0, releases, f"it ends with: {fault}")
        asked = len(server.told)
        if asked != len(set(server.told)):
            return Compared("equal", asked, releases, "a release's metadata are asked for twice")
        if found.answer.status != whole.status:
            wrong = f"status {found.answer.status}, and {whole.status} by all documents: {found.answer.text[:300]!r}"
            return Compared("refused", asked, releases, wrong)
        if whole.status == 1:
            return Compared("refused", asked, releases, "")
        if found.answer.text == whole.text:
            return Compared("equal", asked, releases, "")
        (folder / "lazy.lock").write_text(found.answer.text, encoding="utf-8")
        verdict = under_test.said(under_test.call(folder, "verify pyproject.toml ix lazy.lock"))
        wrong = "" if verdict.status == 0 else f"by all documents it is {verdict.text!r}"
        return Compared("right", asked, releases, wrong)


class Counting(Server):
    """A server on the loopback address of documents that are held in memory, which counts what it is asked for."""

    def __init__(self, documents: Documents) -> None:
        super().__init__(Path("/nowhere"))
        self.documents = documents

    def found(self, request: BaseHTTPRequestHandler) -> tuple[int, dict[str, str], bytes]:
        *_, folder, last = request.path.split("/")
        if last == "" and folder in self.documents:
            return 200, {"Content-Type": JSON_FORM}, self.page_of(folder)
        if last.endswith("-py3-none-any.whl.metadata"):
            name, spelled = last[: -len("-py3-none-any.whl.metadata")].rsplit("-", 1)
            return 200, {}, self.told(name, spelled)
        return 404, {}, b"there is no such file"

    def told(self, name: str, spelled: str) -> bytes:
        entry = next(it for it in self.documents[name]["versions"] if it["version"] == spelled)
        return metadata_text(name, spelled, entry.get("requires_dist", ()), entry.get("requires_python")).encode()

    def page_of(self, name: str) -> bytes:
        files = []
        for entry in self.documents[name]["versions"]:
            file = f"{name}-{entry['version']}-py3-none-any.whl"
            told = {"sha256": hashlib.sha256(self.told(name, entry["version"])).hexdigest()}
            summed = {"sha256": "0" * 64}
            files.append({"filename": file, "url": f"/files/{file}", "hashes": summed, "core-metadata": told})
        return json.dumps({"meta": {"api-version": "1.1"}, "name": name, "files": files}).encode()


class Figure(NamedTuple):
    """How many requests a lock took: of pages and of metadata; how many packages it has, and the seconds."""

    packages: int
    pages: int
    metadata: int
    seconds: float


def figure(packages: int, releases: int, needs: int) -> Figure:
    """A project of so many packages, locked from a server with an empty cache."""
    os.environ["UNILOCK"] = str(under_test.PROGRAM)
    text, bodies = families.index(packages, releases, needs)
    documents = {name: json.loads(body) for name, body in bodies.items()}
    with tempfile.TemporaryDirectory(prefix="unilock-lazy-") as held, Counting(documents) as server:
        path = Path(held) / "pyproject.toml"
        path.write_text(text, encoding="utf-8")
        begun = time.monotonic()
        client = Client(server.url, Cache(None))
        found = lazy.Lazy(client, project.load(str(path)), walk.Choice()).run()
        assert found.answer.status == 0, found.answer.text[:300]
        count = len(locks.read(found.answer.text, "lock").packages) - 1
        asked = [len(server.paths(kind)) for kind in ("page", "metadata")]
        return Figure(count, asked[0], asked[1], time.monotonic() - begun)


if __name__ == "__main__":
    print(figure(*map(int, sys.argv[1:])))
