"""Served files that were changed, and what tools/index makes of them, compared with a plain reading of what is served.

A mutant is a small index whose pages, metadata or archives were changed in bytes, tokens, lines or values. What must
hold: nothing is raised but a refusal; each release of a document is as some served file says; and each file that a
page lists is in a document or is told.
"""

from __future__ import annotations

import copy
import gzip
import hashlib
import html
import io
import json
import random
import re
import tarfile
import zipfile
from concurrent.futures import Future
from typing import IO, Any, Callable, Dict, List, NamedTuple, Optional, Tuple, cast
from urllib.parse import unquote, urljoin

import changing
from making import metadata_text
from unilock_tools import console, walk
from unilock_tools.cache import Cache
from unilock_tools.documents import Document, Projects
from unilock_tools.fetching import Answer
from unilock_tools.pages import HTML_FORM, JSON_FORM
from unilock_tools.project import Project
from unilock_tools.simple import Client
from unilock_tools.versions import version

BASE = "http://host/simple/"
FILES = "http://host/files/"
ODD: List[Any] = [
    None, True, False, 0, 1, -1, 2**70, 1.5, "", " ", "x", "\x1b[2J", "é", "0" * 64, [], {}, ["a"],
    {"sha256": "0" * 64}, "a-1-py3-none-any.whl", "../a-2.tar.gz", "http://[", "file:///etc/passwd", ">=3.8", "2.0",
]  # fmt: skip
PROJECT = {"name": "p", "requires-python": ">=3.8", "dependencies": ["a", "b>=1"]}
Page = Dict[str, Any]


class World(NamedTuple):
    """What is served: the bytes of each address, the media type of pages, and whether ranges are given."""

    bodies: Dict[str, bytes]
    form: str
    ranges: bool


def wheel_of(name: str, number: str, requires: List[str]) -> bytes:
    held = io.BytesIO()
    with zipfile.ZipFile(held, "w", zipfile.ZIP_DEFLATED) as archive:
        # ZipInfo has a fixed time, so that a run can be made again.
        archive.writestr(zipfile.ZipInfo(f"{name}.py"), "")
        body = metadata_text(name, number, requires, ">=3.7")
        archive.writestr(zipfile.ZipInfo(f"{name}-{number}.dist-info/METADATA"), body, zipfile.ZIP_DEFLATED)
    return held.getvalue()


def sdist_of(name: str, number: str, requires: List[str]) -> bytes:
    held = io.BytesIO()
    with gzip.GzipFile(fileobj=held, mode="wb", mtime=0) as packed, tarfile.open(
        fileobj=cast(IO[bytes], packed), mode="w"
    ) as archive:
        body = metadata_text(name, number, requires).encode()
        member = tarfile.TarInfo(f"{name}-{number}/PKG-INFO")
        member.size = len(body)
        archive.addfile(member, io.BytesIO(body))
    return held.getvalue()


def true_files() -> Dict[str, bytes]:
    return {
        "a-1-py3-none-any.whl": wheel_of("a", "1", ["b<2", "c; os_name == 'nt'"]),
        "a-1.tar.gz": sdist_of("a", "1", ["b<2"]),
        "a-2-cp311-cp311-win_amd64.whl": wheel_of("a", "2", ["b"]),
        "a-2-py3-none-any.whl": wheel_of("a", "2", ["b", "c"]),
        "b-1.tar.gz": sdist_of("b", "1", []),
        "b-1.5rc1-py3-none-any.whl": wheel_of("b", "1.5rc1", ["c>=1"]),
        "c-1-py3-none-any.whl": wheel_of("c", "1", []),
    }


TRUE = true_files()


def metadata_in(file: str, body: bytes) -> Optional[bytes]:
    """The metadata in an archive, read plainly, or None where it can't be read."""
    try:
        if file.endswith(".whl"):
            with zipfile.ZipFile(io.BytesIO(body)) as archive:
                return archive.read(next(it for it in archive.namelist() if it.endswith(".dist-info/METADATA")))
        with tarfile.open(fileobj=io.BytesIO(body), mode="r:gz") as sources:
            held = sources.extractfile(next(it for it in sources if it.name.endswith("/PKG-INFO")))
            return held.read() if held else None
    except Exception:
        return None


def world_of(rng: random.Random) -> Tuple[World, str]:
    """A world that is changed somewhere, and what was changed."""
    files, changed = dict(TRUE), rng.choice(["page", "page", "values", "metadata", "archive", "cut"])
    name = rng.choice(sorted(files))
    told = rng.choice([None, "hash", "true"]) if changed != "metadata" else "true"
    if changed == "archive":
        told = None
        files[name] = changing.changed_bytes(rng, changing.changed_bytes(rng, files[name]))
    bodies = {FILES + it: body for it, body in files.items()}
    if told is not None:
        for file in files:
            bodies[f"{FILES}{file}.metadata"] = metadata_in(file, files[file]) or b""
    if changed == "metadata":
        place = f"{FILES}{name}.metadata"
        bodies[place] = changing.changed(rng, bodies[place], [*bodies.values()][-4:])
    form = rng.choice([JSON_FORM, HTML_FORM]) if changed != "values" else JSON_FORM
    for project in "abc":
        page = page_of(project, files, told, rng.random() < 0.2)
        if changed == "values" and project == name[0]:
            page = odd_values(rng, page)
        bodies[f"{BASE}{project}/"] = json.dumps(page).encode() if form == JSON_FORM else html_of(page)
    place = f"{BASE}{name[0]}/"
    if changed == "page":
        bodies[place] = changing.changed(rng, bodies[place], [bodies[place]])
    elif changed == "cut":
        at = rng.randrange(len(bodies[place]))
        bodies[place] = rng.choice([bodies[place][:at], bodies[place][at:]])
    return World(bodies, form, rng.random() < 0.5), changed


def page_of(project: str, files: Dict[str, bytes], told: Optional[str], yanked: bool) -> Page:
    listed = []
    for file in sorted(it for it in files if it.startswith(f"{project}-")):
        entry: Page = {"filename": file, "url": f"../../files/{file}", "size": len(files[file])}
        entry["hashes"] = {"sha256": hashlib.sha256(files[file]).hexdigest()}
        if told is not None:
            summed = hashlib.sha256(metadata_in(file, files[file]) or b"").hexdigest()
            entry["core-metadata"] = {"sha256": summed} if told == "hash" else True
        if yanked and file.endswith("any.whl"):
            entry["yanked"] = "it was wrong"
        listed.append(entry)
    return {"meta": {"api-version": "1.1"}, "name": project, "files": listed}


def html_of(page: Page) -> bytes:
    lines = ["<!DOCTYPE html><html><head><title>Links for x</title></head><body>"]
    for entry in page["files"]:
        marks = ' data-yanked="it was wrong"' if "yanked" in entry else ""
        told = entry.get("core-metadata")
        if told:
            marks += f' data-core-metadata="{"true" if told is True else "sha256=" + told["sha256"]}"'
        address = f"{entry['url']}#sha256={entry['hashes']['sha256']}"
        lines.append(f'<a href="{address}"{marks}>{entry["filename"]}</a><br/>')
    return "\n".join([*lines, "</body></html>"]).encode()


def odd_values(rng: random.Random, page: Page) -> Page:
    """A page in JSON of which some values are others, of any type."""
    page = json.loads(json.dumps(page))
    for _ in range(rng.choice([1, 1, 2, 3])):
        at: Any = page
        while True:
            keys = list(at) if isinstance(at, dict) else list(range(len(at)))
            if not keys:
                break
            key = rng.choice(keys)
            if isinstance(at[key], (dict, list)) and at[key] and rng.random() < 0.85:
                at = at[key]
                continue
            if rng.random() < 0.15 and isinstance(at, list):
                at.append(copy.deepcopy(at[key]))
            else:
                # A copy, so that a mutant is what its number says whatever was made before it.
                at[key] = copy.deepcopy(rng.choice(ODD))
            break
    return page


class Served:
    """A fetcher that has the answers in memory."""

    def __init__(self, world: World) -> None:
        self.world, self.url = world, BASE
        self.stopped, self.bytes, self.asked = False, 0, 0

    def ask(
        self, url: str, headers: Dict[str, str], most: int, into: Optional[Callable[[], IO[bytes]]] = None
    ) -> Answer:
        body = self.world.bodies.get(url)
        status, part = (404, None) if body is None else (200, None)
        whole = body or b""
        wanted = re.fullmatch(r"bytes=(\d*)-(\d*)", headers.get("Range", ""))
        if body and wanted and self.world.ranges:
            first = max(0, len(body) - int(wanted[2])) if not wanted[1] else int(wanted[1])
            last = len(body) - 1 if not wanted[1] else min(int(wanted[2]), len(body) - 1)
            status, part, whole = 206, (first, last, len(body)), body[first : last + 1]
        file: Optional[IO[bytes]] = io.BytesIO(whole) if into is not None and status != 404 else None
        form = self.world.form if url.startswith(BASE) else ""
        summed = hashlib.sha256(whole).hexdigest()
        return Answer(status, "", url, form, "", whole, file, len(whole), summed, True, part)


class Direct:
    """An executor that does each job at once."""

    def submit(self, job: Callable[[], object]) -> "Future[object]":
        done: "Future[object]" = Future()
        try:
            done.set_result(job())
        except BaseException as fault:
            done.set_exception(fault)
        return done

    def shutdown(self, wait: bool) -> None:
        """Nothing is left to be waited for."""


class Made(NamedTuple):
    """The documents that were made of a world and what was said; or what it was refused for."""

    documents: Dict[str, Document]
    said: str
    refused: str


def made_of(world: World) -> Made:
    project = Project("pyproject.toml", {"project": PROJECT})
    client, gathered = Client(BASE, Cache(None)), Projects()
    client.fetcher = Served(world)  # type: ignore[assignment]
    walking = walk.Walk(client, project, walk.Choice(), gathered, 1)
    walking.pool = Direct()  # type: ignore[assignment]
    try:
        walking.run(it.requirement for it in project.requirements)
    except console.Refused as fault:
        return Made({}, "", str(fault))
    said = "\n".join(console.escaped(it) for it in [*walking.warnings(), *gathered.warnings()])
    return Made(gathered.documents(), said, "")


# What is served, read plainly.


class Plain(NamedTuple):
    """A file as a page lists it, read plainly; its hash in any spelling. One that isn't sure is listed for readers
    alone that take a quote elsewhere than behind `=` for the begin of a value."""

    name: str
    url: str
    hash: str
    yanked: bool
    sure: bool = True


def joined(base: str, text: str) -> str:
    """An address without its fragment; the empty text where it is none."""
    try:
        return urljoin(base, text).partition("#")[0]
    except ValueError:
        return ""


def listed(world: World, project: str) -> List[Plain]:
    """The files of a page; none where it has no plain reading."""
    body, url = world.bodies.get(f"{BASE}{project}/", b""), f"{BASE}{project}/"
    try:
        if world.form == JSON_FORM:
            return [
                Plain(
                    it["filename"],
                    joined(url, str(it.get("url"))),
                    str(it.get("hashes")),
                    bool(it.get("yanked")),
                )
                for it in json.loads(body)["files"]
            ]
    except (ValueError, KeyError, TypeError, AttributeError, RecursionError):
        return []
    found = []
    text = body.decode("utf-8", "replace")
    # A `>` within a quoted value doesn't end a tag, and a quote elsewhere begins no such value; where a quote has no
    # end, the first `>` ends the tag. A slash parts words of a tag as a blank does, and one more `=` is passed over.
    tags = re.findall(r"""<a[\s/](?:=\s*"[^"]*"|=\s*'[^']*'|[^>])*>""", text)
    sure = len(tags)
    for form in (r"""<a[\s/](?:"[^"]*"|'[^']*'|[^>"'])*>""", r"<a[\s/][^>]*>"):
        tags += [it for it in re.findall(form, text) if it not in tags]
    for at, tag in enumerate(tags):
        href = re.search(r'(?i)[\s/]href\s*=+\s*"([^"]*)"', tag)
        if href is not None:
            address, _, fragment = re.sub(r"[\t\r\n]", "", html.unescape(href[1])).partition("#")
            # An address is joined first: that drops a `;` at its end.
            name = unquote((joined(url, address) or address).partition("?")[0].rpartition("/")[2])
            yanked = re.search(r"(?i)[\s/]data-yanked[\s/=>]", tag) is not None
            found.append(Plain(name, joined(url, address), fragment, yanked, at < sure))
    return found


def fields(body: bytes) -> Tuple[List[str], List[str], List[str]]:
    """The versions, bounds and requirements that metadata have, blanks aside."""
    text = body.decode("utf-8", "replace").replace("\r\n", "\n").replace("\r", "\n")
    head = re.sub(r"\n[ \t]+", " ", re.split(r"\n\n", text, maxsplit=1)[0])
    found = [re.findall(rf"(?im)^{key}[ \t]*:(.*)$", head) for key in ("Version", "Requires-Python", "Requires-Dist")]
    return tuple(["".join(it.split()) for it in values] for values in found)  # type: ignore[return-value]


def says(world: World, file: Plain, release: Document) -> bool:
    """Whether a served file's metadata are what a release of a document has."""
    bodies = [world.bodies.get(f"{file.url}.metadata"), metadata_in(file.name, world.bodies.get(file.url, b""))]
    wanted = (release["version"], release.get("requires_python"), release.get("requires_dist", []))
    for body in bodies:
        if body is not None:
            spelled, bounds, required = fields(body)
            bound = "".join((wanted[1] or "").split())
            have = ["".join(it.split()) for it in wanted[2]]
            is_bound = bounds == [bound] or (not bound and bounds in ([], [""]))
            if "".join(wanted[0].split()) in spelled and is_bound and have == required:
                return True
    return False


def fault_in(world: World, changed: str, made: Made) -> str:
    """What doesn't hold of what was made of a world, or the empty text."""
    if made.refused:
        return "" if len(made.refused.splitlines()) == 1 else f"a refusal of several lines: {made.refused!r}"
    for name, document in made.documents.items():
        files = listed(world, name)
        for release in document["versions"]:
            fault = wrong_release(world, files, release, made.said)
            if fault:
                return f"{name} {release['version']}: {fault}"
    for project in "abc":
        fault = lost_file(world, project, changed, made)
        if fault:
            return fault
    return ""


def wrong_release(world: World, files: List[Plain], release: Document, said: str) -> str:
    named = {it["file"]: it for it in release.get("files", [])}
    for file, entry in named.items():
        own = [it for it in files if it.name.strip() == file and entry["sha256"] in it.hash.lower()]
        if not any(unquote(it.url.strip()) == unquote(entry["url"]) for it in own):
            return f"no page lists {entry}"
    # A release speaks by a file that is locked with it, where there is one.
    its = [it for it in files if it.name.strip() in named]
    # One of which it is told that its hash is none isn't taken, so it doesn't keep the others from being yanked.
    taken = [it for it in files if f"{console.escaped(it.name)}: the SHA-256 of it isn't" not in said]
    its = its or [it for it in taken if version_of(it.name) == release["version"]]
    if not any(says(world, it, release) for it in its):
        return f"no served file says {release}"
    is_yanked = all(it.yanked for it in its)
    return f"yanked is {release.get('yanked')}" if is_yanked != bool(release.get("yanked")) else ""


def version_of(file: str) -> str:
    stem = file[: -len(".tar.gz")] if file.endswith(".tar.gz") else file
    return stem.split("-")[1] if "-" in stem else ""


def lost_file(world: World, project: str, changed: str, made: Made) -> str:
    """A file that a page lists, and that is neither in a document nor told."""
    if project not in made.documents and (project == "c" or changed in ("metadata", "archive")):
        # Nobody reaches it: what would is told, or has other requirements in what is served.
        return ""
    true = [Plain(it, "", "", False) for it in TRUE if it.startswith(f"{project}-")] if changed == "cut" else []
    entries = made.documents.get(project, {"versions": []})["versions"]
    kept = {file["file"] for it in entries for file in it.get("files", [])}
    told = made.said.split("\n")
    spoken = {it["version"] for it in entries}
    for file in [*listed(world, project), *true]:
        name = file.name.strip()
        read = version(version_of(name))
        late = read is not None and read.is_pre and bool(spoken)
        at = console.escaped(name)
        is_told = any(at in it or re.match(rf"{project} .*\b{re.escape(version_of(at))}\b", it) for it in told)
        is_shortened = any(it.startswith(f"{project}: ") and ".. " in it for it in told)
        is_none = not file.sure or (world.form != JSON_FORM and not name.startswith(f"{project}-"))
        if not (name in kept or is_told or late or is_shortened or is_none):
            return f"{project}: {name!r} is neither in a document nor told: {made.said!r}"
    return ""


def finding(seed: int, number: int) -> str:
    """What doesn't hold of a mutant, or the empty text."""
    world, changed = world_of(random.Random(f"index/{seed}/{number}"))
    try:
        return fault_in(world, changed, made_of(world))
    except Exception as fault:
        return f"{changed}: {type(fault).__name__}: {fault}"


