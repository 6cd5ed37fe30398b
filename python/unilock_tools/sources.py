"""Where packages come from that no index is asked for: `tool.uv.sources`, and requirements by a URL (PEP 508).

A source is a folder, a wheel or a source distribution on disk (`path`), an address of a wheel or a source distribution
(`url`), a commit of a repository (`git` with `rev`, `tag` or `branch`), or a member of the workspace. A name has one
such source at most, beside sources that are package indexes and are the matter of who asks those. The project itself
and the members of its workspace may have sources under a marker (`labels`); nobody else does.
"""

from __future__ import annotations

import re
from collections.abc import Collection, Iterator, Mapping
from typing import Any, NamedTuple, Union
from urllib.parse import parse_qs, quote, unquote, urlsplit, urlunsplit

from . import addresses, console, labels
from .console import Refused
from .labels import CONDITIONS
from .profile import Tables, table, texts_in, uv_table
from .requirement_texts import parts_of
from .versions import version

KINDS = ("path", "url", "git", "workspace", "index")
REFERENCES = ("rev", "tag", "branch")
# Which lists of requirements a file has in `tool.uv`.
LISTS = ("constraint-dependencies", "override-dependencies", "dev-dependencies")
GIT_SCHEMES = ("https", "http", "ssh", "git", "file")
HOST = re.compile(r"[A-Za-z0-9](?:[A-Za-z0-9._-]*[A-Za-z0-9])?\Z|[0-9A-Fa-f:]+\Z", re.ASCII)
# What git takes for the name of a branch or a tag, or for a commit; and nothing that it would take for an option.
REFERENCE = re.compile(r"(?![-/.])(?!.*(?:\.\.|@\{|//|/\.|\.lock\Z|[/.]\Z))[^\x00-\x20\x7f~^:?*\[\\]+\Z")
SHA256 = re.compile(r"sha256[=:]([0-9A-Fa-f]{64})(?:&|\Z)")


class ByPath(NamedTuple):
    """A folder, a wheel or a source distribution, by its path from the folder of the file that names it."""

    path: str
    editable: bool = False

    def shown(self) -> str:
        return f"path {self.path}"


class ByUrl(NamedTuple):
    """A wheel or a source distribution at an address, with its SHA-256 where the source says it."""

    url: str
    subdirectory: str = ""
    sha256: str = ""

    def shown(self) -> str:
        return addresses.shown(self.url)


class ByGit(NamedTuple):
    """A commit of a repository: the one that a branch, a tag or another revision is at; without one, its usual
    branch's."""

    url: str
    kind: str = ""
    reference: str = ""
    subdirectory: str = ""

    def shown(self) -> str:
        behind = f" {self.kind} {self.reference}" if self.kind else ""
        inside = f" subdirectory {self.subdirectory}" if self.subdirectory else ""
        return f"git {addresses.shown(self.url)}{behind}{inside}"


class Member(NamedTuple):
    """A member of the workspace; editable unless the source says otherwise."""

    editable: bool = True

    def shown(self) -> str:
        return "the workspace"


Source = Union[ByPath, ByUrl, ByGit, Member]


def told(url: str) -> str:
    """An address as it is printed, without a user and a password, also where it has no `//`."""
    return re.sub(r"\A[^/?#]*@", "", addresses.shown(url))


def public(url: str) -> str:
    """An address as it is written down: without a password, and with a user by ssh alone, where it is no secret."""
    parts = urlsplit(url)
    if parts.scheme == "ssh" and parts.username:
        return urlunsplit(parts._replace(netloc=f"{parts.username}@{parts.netloc.rpartition('@')[2]}"))
    return addresses.shown(url)


def required_texts(tables: Tables, groups: bool = True) -> Iterator[str]:
    """The texts of a project file that are requirements, those of its groups and settings among them if they count."""
    project = table(tables.get("project"))
    yield from texts_in(project.get("dependencies"))
    yield from texts_in(project.get("optional-dependencies"))
    if groups:
        for listed in table(tables.get("dependency-groups")).values():
            yield from (it for it in listed if isinstance(it, str)) if isinstance(listed, list) else ()
        for key in LISTS:
            yield from texts_in(uv_table(tables).get(key))


def read(tables: Tables, path: str, is_own: bool = False) -> dict[str, Source]:
    """The sources of a project file by the names that they are of; under conditions of the user's own project alone."""
    found: dict[str, Source] = {}
    for name, (place, entries) in labels.tables_in(tables, path).items():
        source = one_source(f"{path}: {place}", entries, is_own)
        if source is not None:
            found[name] = source
    return found


def one_source(place: str, entries: list[Tables], is_own: bool) -> Source | None:
    """The one source of a name that is no index; None where there is none."""
    labels.labels_of(place, entries)
    conditions = sorted({key for it in entries for key in CONDITIONS if key in it})
    if not is_own and (len(entries) > 1 or conditions):
        what = f"{len(entries)} sources" if len(entries) > 1 else f"a source with {' and '.join(conditions)}"
        raise Refused(f"{place}: {what}: only the project and its workspace's members may say where each counts", 3)
    kinds = [(kind_of(place, it), it) for it in entries]
    direct = [of_entry(place, kind, it) for kind, it in kinds if kind != "index"]
    if len(direct) > 1:
        told = " and ".join(it.shown() for it in direct)
        raise Refused(f"{place}: {told}: nothing tells their releases apart; one of them at most may be no index", 3)
    return direct[0] if direct else None


def kind_of(place: str, entry: Tables) -> str:
    kinds = [it for it in KINDS if it in entry]
    if len(kinds) != 1:
        raise Refused(f"{place}: it has {' and '.join(kinds) or 'none'} of {', '.join(KINDS)}, and one is wanted", 3)
    return kinds[0]


def of_entry(place: str, kind: str, entry: dict[str, Any]) -> Source:
    editable = entry.get("editable", kind == "workspace")
    if not isinstance(editable, bool):
        raise Refused(f"{place}: editable: it is neither true nor false", 3)
    if kind == "workspace":
        if entry["workspace"] is not True:
            raise Refused(f"{place}: workspace: it isn't true", 3)
        return Member(editable)
    value, subdirectory = text_at(place, entry, kind), text_at(place, entry, "subdirectory") or ""
    if not value or "\0" in value:
        raise Refused(f"{place}: {kind}: it is no {'path' if kind == 'path' else 'address'}", 3)
    inner(place, subdirectory)
    if kind == "path":
        return ByPath(value, editable)
    if kind == "url":
        return ByUrl(address(place, value), subdirectory, stated_sum(value))
    named = [it for it in REFERENCES if it in entry]
    if len(named) > 1:
        raise Refused(f"{place}: it has {' and '.join(named)}, and one of them is wanted", 3)
    reference = text_at(place, entry, named[0]) or "" if named else ""
    return ByGit(repository(place, value), *judged_reference(place, "".join(named), reference), subdirectory)


def text_at(place: str, entry: dict[str, Any], key: str) -> str | None:
    found = entry.get(key)
    if found is not None and not isinstance(found, str):
        raise Refused(f"{place}: {key}: it is no text", 3)
    return found


def judged_reference(place: str, kind: str, reference: str) -> tuple[str, str]:
    if kind and not REFERENCE.match(reference):
        raise Refused(f"{place}: {kind}: {console.escaped(reference) or 'the empty text'} is no name that git has", 3)
    return kind, reference


def inner(place: str, subdirectory: str) -> None:
    """Refuses a folder of a repository or an archive that leads out of it."""
    parts = re.split(r"[/\\]", subdirectory)
    if subdirectory.startswith(("/", "\\")) or ".." in parts or "\0" in subdirectory:
        raise Refused(f"{place}: subdirectory: {console.escaped(subdirectory)} leads out", 3)


def address(place: str, url: str) -> str:
    try:
        addresses.address_of(url)
    except ValueError:
        likely = f"; is `=={url}` meant?" if version(url) is not None else ""
        raise Refused(f"{place}: {told(url)} is no address of http or https{likely}", 3) from None
    return url.partition("#")[0]


def stated_sum(url: str) -> str:
    found = SHA256.search(url.partition("#")[2])
    return found[1].lower() if found else ""


def repository(place: str, url: str) -> str:
    """The address of a repository, which git takes for nothing else: no option, no program that it would run."""
    try:
        parts = urlsplit(url)
        host = parts.hostname or ""
        _ = parts.port
    except ValueError:
        parts, host = None, ""
    if parts is None or parts.scheme not in GIT_SCHEMES or re.search(r"[\x00-\x20\x7f]", url):
        raise Refused(f"{place}: {told(url)} is no address of {', '.join(GIT_SCHEMES[:-1])} or file", 3)
    if (host or parts.scheme != "file") and not HOST.match(host):
        raise Refused(f"{place}: {told(url)} has no host", 3)
    if (parts.username or "").startswith("-") or parts.query:
        raise Refused(f"{place}: {told(url)} is no address of a repository", 3)
    return urlunsplit((parts.scheme, parts.netloc, parts.path, "", ""))


def by_url(place: str, url: str) -> Source:
    """The source that a requirement's URL is: `git+https://host/repository@rev#subdirectory=folder`, the address of an
    archive, or `file:` with its path."""
    bare, _, fragment = url.partition("#")
    inside = {key: values[-1] for key, values in parse_qs(fragment).items()}
    subdirectory = inside.get("subdirectory", "")
    inner(place, subdirectory)
    if bare.startswith("git+"):
        parts = urlsplit(bare[len("git+") :])
        path, at, reference = parts.path.rpartition("@")
        kind = "rev" if at else ""
        found = repository(place, urlunsplit(parts._replace(path=path if at else parts.path)))
        return ByGit(found, *judged_reference(place, kind, unquote(reference) if at else ""), subdirectory)
    if bare.startswith("file:"):
        parts = urlsplit(bare)
        if parts.netloc not in ("", "localhost") or not parts.path.startswith("/"):
            raise Refused(f"{place}: {told(url)} is no path of this machine", 3)
        return ByPath(unquote(parts.path))
    return ByUrl(address(place, bare), subdirectory, stated_sum(url))


def is_local(source: Source) -> bool:
    """Whether a source is a place on this machine."""
    return isinstance(source, ByPath) or (isinstance(source, ByGit) and urlsplit(source.url).scheme == "file")


def asked(source: Source) -> str:
    """What a source asks of its address: the whole name of a branch or a tag, or another revision; of an archive the
    folder inside."""
    if isinstance(source, ByGit):
        return {"branch": "refs/heads/", "tag": "refs/tags/"}.get(source.kind, "") + source.reference
    return source.subdirectory if isinstance(source, ByUrl) else ""


def url_of(source: Source, commit: str = "") -> str:
    """The URL by which a requirement names a source at an address, without a user and a password; of a repository at a
    commit where one is named."""
    assert isinstance(source, (ByUrl, ByGit)), "a path has no address"
    inside = [f"subdirectory={quote(source.subdirectory)}"] if source.subdirectory else []
    if isinstance(source, ByGit):
        reference = commit or asked(source)
        at = f"@{quote(reference)}" if reference else ""
        return f"git+{public(source.url)}{at}{'#' if inside else ''}{'&'.join(inside)}"
    inside = [f"sha256={source.sha256}", *inside] if source.sha256 else inside
    return f"{addresses.address_of(source.url)}{'#' if inside else ''}{'&'.join(inside)}"


def named_by(tables: Tables, path: str, groups: bool = True) -> dict[str, Source]:
    """The sources that a file's requirements have by their own URLs."""
    found: dict[str, Source] = {}
    for text in required_texts(tables, groups):
        parts = parts_of(text)
        if parts.url:
            source = by_url(f"{path}: {parts.name} @ {addresses.shown(parts.url)}", parts.url)
            if found.setdefault(parts.name, source) != source:
                raise Refused(f"{path}: {parts.name} is required by two URLs: {found[parts.name].shown()} and "
                              f"{source.shown()}", 3)  # fmt: skip
    return found


def wanted(tables: Tables, path: str, groups: bool = True, is_own: bool = False) -> dict[str, Source]:
    """The sources of the names that a file requires; a requirement's own URL counts before `tool.uv.sources`."""
    names = {parts_of(it).name for it in required_texts(tables, groups)}
    listed = {name: it for name, it in read(tables, path, is_own).items() if name in names}
    return {**listed, **named_by(tables, path, groups)}


def followed(
    tables: Tables,
    path: str,
    groups: bool,
    above: Mapping[str, Source],
    members: Collection[str],
    is_own: bool = False,
) -> Iterator[tuple[str, Source, bool]]:
    """The sources of the names that a project requires: its own; else, told by True, what the root of its workspace
    says; else that a member has the name."""
    own = wanted(tables, path, groups, is_own)
    for name in dict.fromkeys(parts_of(it).name for it in required_texts(tables, groups)):
        if name in own or name in above:
            yield name, own[name] if name in own else above[name], name not in own
        elif name in members:
            yield name, Member(), False
