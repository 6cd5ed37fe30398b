"""A package index's Simple API: the page of a project, and the metadata of its releases.

    client = Client(url, Cache(folder))
    page = client.page("alpha")                     # a ProjectPage, or None where the server doesn't know the project
    metadata = client.metadata(page.releases[0])    # archives.Refused where the release says too little

A release's metadata are the metadata file beside the file that speaks for it, where the page tells of one (PEP 658
and 714); else a wheel's METADATA by HTTP ranges, or from the whole file where the server gives no ranges. What has a
hash is checked by it. What was checked by a hash is kept under that hash; all else that has a reading is kept under its
address and is asked for anew each time, but sent again only where it changed.
"""

from __future__ import annotations

import contextlib
import hashlib
import io
import re
import tempfile
from typing import IO, Collection, List, NamedTuple, Optional, Protocol, Tuple, Union, cast
from urllib.parse import urljoin

from . import archives, console, pages
from .addresses import fault_of, shown
from .archives import MOST_METADATA, Metadata
from .building import Builder
from .cache import Cache, Entry
from .console import Refused
from .fetching import Answer, Fetcher, File, Headers
from .keyrings import Secret
from .pages import Listed, ListedRelease, ProjectPage

TAIL = 64 * 1024
PIECE = 16 * 1024
MOST_PAGE = 64 * 1024 * 1024
MOST_PIECES = 64 * 1024 * 1024
MOST_FILE = 1024 * 1024 * 1024


class Tail(NamedTuple):
    """The end of a file on a server, and the size of the whole."""

    size: int
    body: bytes


class RangeFile(io.RawIOBase):
    """A file on a server, read in pieces where they are wanted, as a zip archive is: its end first."""

    def __init__(self, client: "Client", url: str, tail: Tail) -> None:
        super().__init__()
        self.client, self.url, self.size = client, url, tail.size
        self.at = 0
        self.pieces: List[Tuple[int, bytes]] = [(tail.size - len(tail.body), tail.body)]

    def readable(self) -> bool:
        return True

    def seekable(self) -> bool:
        return True

    def tell(self) -> int:
        return self.at

    def seek(self, offset: int, whence: int = 0) -> int:
        found = offset + (0, self.at, self.size)[whence]
        if found < 0:
            raise ValueError("it leads before its beginning")
        self.at = found
        return self.at

    def read(self, count: int = -1) -> bytes:
        left = max(0, self.size - self.at)
        count = left if count < 0 else min(count, left)
        for start, piece in self.pieces:
            if start <= self.at and self.at + count <= start + len(piece):
                found = piece[self.at - start : self.at - start + count]
                self.at += count
                return found
        last = min(self.size, self.at + max(count, PIECE)) - 1
        if last - self.at >= MOST_PIECES - sum(len(it) for _, it in self.pieces):
            raise archives.TooMuch(f"its METADATA aren't found in {MOST_PIECES} bytes")
        self.pieces.append((self.at, self.client.range_of(self.url, self.at, last, self.size)))
        return self.read(count)


class Fetched(NamedTuple):
    """How much was asked of servers."""

    requests: int
    bytes: int

    def told(self) -> str:
        return f"{console.counted(self.requests, 'request')}, {self.bytes / 1e6:.1f} MB"


class PackageIndex(Protocol):
    """What releases are asked of: a server, a folder, or several of these as one."""

    builder: Optional[Builder]

    @property
    def url(self) -> str: ...

    def page(self, name: str) -> Optional[ProjectPage]: ...

    def metadata(self, release: ListedRelease) -> Metadata: ...

    def lacks(self, name: str) -> str: ...

    def fetched(self) -> Fetched: ...

    def stop(self) -> None: ...


class Client:
    """Asks a server by a fetcher, and keeps in a cache what it was told. `unknown` are statuses besides 404 by which
    the server says that it doesn't know a project."""

    def __init__(
        self,
        url: str,
        cache: Cache,
        tries: int = 4,
        timeout: float = 30,
        wait: float = 0.5,
        deadline: float = 300,
        builder: Optional[Builder] = None,
        secret: Optional[Secret] = None,
        unknown: Collection[int] = (),
    ) -> None:
        self.fetcher = Fetcher(url, tries, timeout, wait, deadline, secret)
        self.builder = builder
        self.unknown = {404, *unknown}
        self.url = self.fetcher.url
        self.cache = cache

    def page(self, name: str) -> Optional[ProjectPage]:
        """What the server has of a project, by its normal name; None where it doesn't know the project.

        The page is kept with the server's mark of it, and sent again only where it changed.
        """
        url = urljoin(self.url, name + "/")
        found = self.page_answer(url, self.cache.get("pages", url))
        if isinstance(found, Entry):
            with contextlib.suppress(Refused):
                return pages.read_page(name, found.fact("url"), found.fact("form"), found.body)
            # What is kept has no reading, as where another version of the tools kept it.
            found = self.page_answer(url, None)
        assert isinstance(found, Answer), "nothing that is kept was offered"
        if found.status in self.unknown:
            return None
        if found.status != 200:
            raise fault_of(url, f"{found.status} {found.reason}")
        page = pages.read_page(name, found.url, found.form, found.body)
        self.keep("pages", url, found)
        return page

    def lacks(self, name: str) -> str:
        """That it doesn't know a project, in words."""
        return f"the server has no project {name}"

    def fetched(self) -> Fetched:
        return Fetched(self.fetcher.asked, self.fetcher.bytes)

    def stop(self) -> None:
        """Ends requests that are under way."""
        self.fetcher.stopped = True

    def page_answer(self, url: str, kept: Optional[Entry]) -> Union[Entry, Answer]:
        try:
            return self.kept_or_answered(kept, url, {"Accept": pages.ACCEPTED}, MOST_PAGE)
        except archives.Refused as fault:
            raise fault_of(url, fault.fault) from None

    def keep(self, kind: str, key: str, found: Answer, body: Optional[bytes] = None) -> None:
        """Keeps a whole answer under its address, where the server marks it."""
        if found.tag:
            self.cache.put(
                kind, key, found.body if body is None else body, etag=found.tag, form=found.form, url=found.url
            )

    def kept_or_answered(
        self, kept: Optional[Entry], url: str, headers: Headers, most: int, into: Optional[File] = None
    ) -> Union[Entry, Answer]:
        """What is kept, where the server says that it hasn't changed, else the answer.

        A mark is that of the address that gave it: where a redirect led to another one than it leads to now, all is
        asked for anew.
        """
        mark = unless_changed(kept)
        found = self.fetcher.ask(url, {**headers, **mark}, most, into)
        if found.status != 304 or kept is None or not mark:
            return found
        return kept if found.url == kept.fact("url") else self.fetcher.ask(url, headers, most, into)

    def metadata(self, release: ListedRelease) -> Metadata:
        """The metadata of a release, as the file that speaks for it has them.

        archives.Refused where the file can't be taken, so that the release is passed over; console.Refused with
        status 5 where the server fails. A source distribution of which only a build tells is built where that is
        wanted.
        """
        return self.file_metadata(release.speaker)

    def file_metadata(self, file: Listed) -> Metadata:
        try:
            return metadata_in(file, self.metadata_body(file))
        except archives.Uncertain:
            if self.builder is None or not self.builder.wants(archives.sdist_parts(file.name)[0]):
                raise
        with self.whole(file, self.fetcher.ask(file.url, {}, MOST_FILE, tempfile.TemporaryFile)) as held:
            return self.builder.metadata(shown(file.url), file.name, held)

    def metadata_body(self, file: Listed) -> bytes:
        """The bytes of a file's metadata: those of the metadata file where there is one, else those inside it."""
        if file.metadata is not None:
            body = self.told_body(file, file.metadata)
            if body is not None:
                return body
        kept = None if file.sha256 is None else self.cache.get("files", file.sha256)
        if kept is not None:
            return kept.body
        if file.name.endswith(".whl"):
            return self.wheel_body(file)
        with self.whole(file, self.fetcher.ask(file.url, {}, MOST_FILE, tempfile.TemporaryFile)) as held:
            return self.kept_of_file(file, archives.sdist_body(shown(file.url), held))

    def kept_of_file(self, file: Listed, body: bytes) -> bytes:
        """Keeps what stands in a file of which the whole was checked by its hash."""
        if file.sha256 is not None:
            self.cache.put("files", file.sha256, body)
        return body

    def told_body(self, file: Listed, wanted: str) -> Optional[bytes]:
        """A metadata file, checked by the hash that the page tells, or None where there is none. Without a hash it is
        kept where it has a reading, and counts as none where its last line has no end: the server has a part of it."""
        url, kept = file.url + ".metadata", None
        if wanted:
            by_hash = self.cache.by_hash("metadata", wanted)
            if by_hash is not None:
                return by_hash
        else:
            kept = self.cache.get("told", f"{self.url} {url}")
        found = self.kept_or_answered(kept, url, {}, MOST_METADATA)
        if isinstance(found, Entry):
            return found.body
        if found.status == 404:
            return None
        if found.status != 200:
            raise fault_of(url, f"{found.status} {found.reason}")
        if wanted:
            checked(url, hashlib.sha256(found.body).hexdigest(), wanted)
            self.cache.put_by_hash("metadata", found.body)
        elif not found.measured:
            raise fault_of(url, "the server tells neither its hash nor its length, so it may be cut off")
        elif not is_ended(found.body):
            return None
        else:
            metadata_in(file, found.body)
            self.keep("told", f"{self.url} {url}", found)
        return found.body

    def wheel_body(self, file: Listed) -> bytes:
        """A wheel's METADATA, by ranges where the server gives them."""
        key = f"{self.url} {file.url} {file.sha256}"
        kept = self.cache.get("ranges", key)
        headers = {"Range": f"bytes=-{TAIL}"}
        found = self.kept_or_answered(kept, file.url, headers, MOST_FILE, tempfile.TemporaryFile)
        if isinstance(found, Entry):
            return found.body
        tail = tail_of(found)
        if tail is not None:
            body = archives.wheel_body(shown(file.url), cast(IO[bytes], RangeFile(self, file.url, tail)))
            metadata_in(file, body)
            self.keep("ranges", key, found, body)
            return body
        if found.status != 200:
            found = self.fetcher.ask(file.url, {}, MOST_FILE, tempfile.TemporaryFile)
        with self.whole(file, found) as held:
            return self.kept_of_file(file, archives.wheel_body(shown(file.url), held))

    def range_of(self, url: str, first: int, last: int, size: int) -> bytes:
        found = self.fetcher.ask(url, {"Range": f"bytes={first}-{last}"}, last - first + 1)
        if found.status != 206:
            raise fault_of(url, f"{found.status} in place of a range")
        if found.range != (first, last, size) or len(found.body) != last - first + 1:
            raise fault_of(url, "the server gave another range than it was asked for")
        return found.body

    def whole(self, file: Listed, found: Answer) -> IO[bytes]:
        """A whole file on disk, which goes when it is closed, checked by its hash."""
        if found.status != 200 or found.file is None:
            raise fault_of(file.url, f"{found.status} {found.reason}")
        if file.sha256 is not None:
            checked(file.url, found.sha256, file.sha256)
        elif not found.measured:
            raise fault_of(file.url, "the server tells neither its hash nor its length, so it may be cut off")
        found.file.seek(0)
        return found.file


def metadata_in(file: Listed, body: bytes) -> Metadata:
    """The reading of a file's metadata; archives.Refused where there is none."""
    read = archives.wheel_metadata if file.name.endswith(".whl") else archives.sdist_metadata
    return read(shown(file.url), file.name, body)


def is_ended(body: bytes) -> bool:
    """Whether metadata's fields end: by a blank line, or by that of their last line."""
    return body.endswith((b"\n", b"\r")) or re.search(rb"\n\r?\n|\r\r", body) is not None


def unless_changed(kept: Optional[Entry]) -> "dict[str, str]":
    tag = "" if kept is None else kept.fact("etag")
    return {"If-None-Match": tag} if re.fullmatch(r'(?:W/)?"[\x21\x23-\x7e]*"', tag) else {}


def tail_of(found: Answer) -> Optional[Tail]:
    """The end of a file, where the answer is that."""
    if found.status != 206 or found.range is None or found.file is None:
        return None
    first, last, size = found.range
    if last + 1 != size or found.length != size - first or found.length > TAIL:
        return None
    found.file.seek(0)
    with found.file as held:
        return Tail(size, held.read(TAIL))


def checked(url: str, summed: str, wanted: str) -> None:
    if summed != wanted:
        raise fault_of(url, "its hash isn't the one that the index tells")
