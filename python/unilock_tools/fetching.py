"""Requests to a server: tried again where they fail for a while, and bounded in size and time.

A user and a password of the server's address, or of variables, stay in memory: they are sent to that server alone, and
stand in no address that is printed, kept or written. Other servers' come from .netrc, as `requests` reads it; what the
index wants and nobody names, from the system's keyring. A request has one deadline for all its tries and redirects,
from the search for the server's address to the last byte. What is read is counted before it is held: as it was sent, by
the length that the server tells, and as it is decompressed.
"""

from __future__ import annotations

import hashlib
import http.client
import queue
import re
import tempfile
import threading
import time
import zlib
from contextlib import closing
from typing import IO, Any, Callable, Dict, Iterator, NamedTuple, Optional, Tuple, Type, Union
from urllib.parse import unquote, urlsplit

from . import __version__, archives, keyrings
from .addresses import address_of, fault_of, is_weaker, no_address, shown
from .console import Refused
from .keyrings import Secret
from .vendored import library

AGAIN = (429, 500, 502, 503, 504)
REDIRECTED = (301, 302, 303, 307, 308)
MOST_HOPS = 10
# What is read of the body of an answer that says no more than its status.
MOST_OF_FAULT = 64 * 1024
CHUNK = 16 * 1024
NUMBER = re.compile(r"[0-9]{1,15}\Z")
Headers = Dict[str, str]
File = Callable[[], IO[bytes]]


class Answer(NamedTuple):
    """What a server answered, whole: its body, or the file that the body was written to.

    `measured` says whether the body's end was told: by its length, by chunks or by its compression. `range` has the
    first and the last byte of a part, and the size of the whole.
    """

    status: int
    reason: str
    url: str
    form: str
    tag: str
    body: bytes
    file: Optional[IO[bytes]]
    length: int
    sha256: str
    measured: bool
    range: Optional[Tuple[int, int, int]]


Told = Union[Answer, BaseException]


class Failed(Exception):
    """An answer that didn't come, or not whole; it is asked for again."""


class Sink:
    """Where a body goes: memory or a file, at most so many bytes of it, with their sum."""

    def __init__(self, url: str, most: int, file: Optional[IO[bytes]]) -> None:
        self.url, self.most, self.file = url, most, file
        self.held = bytearray()
        self.summed = hashlib.sha256()
        self.length = 0

    def add(self, chunk: bytes) -> None:
        self.length += len(chunk)
        if self.length > self.most:
            raise archives.Refused(shown(self.url), f"it is longer than {self.most} bytes")
        self.summed.update(chunk)
        if self.file is None:
            self.held += chunk
            return
        try:
            self.file.write(chunk)
        except OSError as fault:
            raise fault_of(self.url, f"{tempfile.gettempdir()}: {fault.strerror or fault}") from None


class Fetcher:
    """Asks servers, with one connection for each thread."""

    def __init__(
        self, url: str, tries: int, timeout: float, wait: float, deadline: float, secret: Optional[Secret] = None
    ) -> None:
        try:
            self.url = address_of(url).rstrip("/") + "/"
        except ValueError:
            raise no_address(url) from None
        self.origin, self.secret = origin_of(self.url), secret or secret_of(url)
        self.keyring = keyrings.Keyring(self.url)
        self.tries, self.timeout, self.wait, self.deadline = tries, timeout, wait, deadline
        self.requests: Any = library("requests")
        faults = self.requests.exceptions
        self.invalid: Tuple[Type[Exception], ...] = (faults.InvalidURL, faults.InvalidSchema, faults.MissingSchema)
        self.failures: Tuple[Type[Exception], ...] = (
            faults.RequestException, self.requests.urllib3.exceptions.HTTPError, http.client.HTTPException, OSError,
        )  # fmt: skip
        self.own = threading.local()
        self.lock = threading.Lock()
        self.asked = 0
        self.bytes = 0
        self.stopped = False

    def session(self) -> Any:
        if not hasattr(self.own, "session"):
            self.own.session = self.requests.Session()
            self.own.session.headers["User-Agent"] = f"unilock-tools/{__version__}"
        return self.own.session

    def ask(self, url: str, headers: Headers, most: int, into: Optional[File] = None) -> Answer:
        """The whole answer to a request. A body of more than `most` bytes is refused by archives.Refused."""
        until = time.monotonic() + self.deadline
        fault = ""
        for turn in range(self.tries):
            if self.stopped:
                raise KeyboardInterrupt
            if turn:
                time.sleep(min(10.0, self.wait * 2 ** (turn - 1), max(0.0, until - time.monotonic())))
            left = until - time.monotonic()
            if left <= 0:
                break
            try:
                found = self.attempt(url, headers, most, into, left)
            except Failed as failed:
                fault = str(failed)
                continue
            self.count(found.length)
            if found.status not in AGAIN:
                return found
            fault = f"{found.status} {found.reason}"
        raise fault_of(url, f"{fault} ({self.tries} tries)")

    def count(self, size: int) -> None:
        with self.lock:
            self.asked += 1
            self.bytes += size

    def attempt(self, url: str, headers: Headers, most: int, into: Optional[File], left: float) -> Answer:
        """One try, in a thread of its own: nothing else ends a server that goes on for ever byte by byte."""
        told: "queue.SimpleQueue[Told]" = queue.SimpleQueue()
        stop = threading.Event()
        session = self.session()

        def run() -> None:
            try:
                told.put(self.followed(session, url, headers, most, into, stop))
            except BaseException as fault:
                told.put(fault)

        threading.Thread(target=run, daemon=True).start()
        found = self.waited(told, left)
        if isinstance(found, Answer):
            return found
        if found is not None:
            raise self.named(url, found)
        stop.set()
        del self.own.session
        raise Failed(f"no whole answer in {self.deadline:g} seconds")

    def waited(self, told: "queue.SimpleQueue[Told]", left: float) -> Optional[Told]:
        """What a try told within its time, or None; nothing is waited for where the run has ended."""
        until = time.monotonic() + left
        while not self.stopped and time.monotonic() < until:
            try:
                return told.get(timeout=min(0.25, max(0.0, until - time.monotonic())))
            except queue.Empty:
                continue
        return None

    def named(self, url: str, fault: BaseException) -> BaseException:
        """A fault of the library as one of ours: a server that fails, or an address that is none."""
        if isinstance(fault, (Refused, Failed)):
            return fault
        if isinstance(fault, self.invalid):
            return fault_of(url, "it is no address of a server")
        if isinstance(fault, self.failures):
            return Failed(cause_of(fault))
        return fault_of(url, "it is no address of a server") if isinstance(fault, ValueError) else fault

    def followed(
        self, session: Any, url: str, headers: Headers, most: int, into: Optional[File], stop: threading.Event
    ) -> Answer:
        """The answer at the end of an address's redirects, each asked with what belongs to its server alone."""
        coded = "identity" if into is not None or "Range" in headers else "gzip"
        for _ in range(MOST_HOPS):
            given = self.answered(session, url, {**headers, "Accept-Encoding": coded})
            with closing(given):
                if given.status_code not in REDIRECTED or "Location" not in given.headers:
                    return self.received(given, url, most, into, stop, coded == "gzip")
                url = redirected(url, given.headers["Location"])
        raise fault_of(url, f"it is redirected more than {MOST_HOPS} times")

    def answered(self, session: Any, url: str, headers: Headers) -> Any:
        """The answer to one request. Where the index wants a password that isn't known, the keyring is asked for it."""
        own = origin_of(url) == self.origin
        words = {"headers": headers, "timeout": self.timeout, "stream": True, "allow_redirects": False}
        given = session.get(url, auth=self.secret if own else None, **words)
        if given.status_code != 401 or not own:
            return given
        found = self.keyring.secret(self.secret)
        if found is None or found == self.secret:
            return given
        given.close()
        self.secret = found
        return session.get(url, auth=found, **words)

    def received(
        self, given: Any, url: str, most: int, into: Optional[File], stop: threading.Event, decoded: bool
    ) -> Answer:
        status = int(given.status_code)
        whole = status in (200, 206)
        file = into() if whole and into is not None else None
        sink = Sink(url, most if whole else MOST_OF_FAULT, file)
        try:
            measured = False if status == 304 else self.read(given, sink, stop, decoded, whole)
        except BaseException:
            if file is not None:
                file.close()
            raise
        return Answer(
            status,
            str(given.reason),
            url,
            given.headers.get("Content-Type", "").partition(";")[0].strip().lower(),
            given.headers.get("ETag", ""),
            bytes(sink.held),
            file,
            sink.length,
            sink.summed.hexdigest(),
            measured,
            range_in(given.headers.get("Content-Range", "")),
        )

    def read(self, given: Any, sink: Sink, stop: threading.Event, decoded: bool, whole: bool) -> bool:
        """Reads a body to its end, which may have to be told; where only the status counts, its first part."""
        told = given.headers.get("Content-Length", "")
        length = int(told) if NUMBER.match(told) else None
        if whole and length is not None and length > sink.most:
            raise archives.Refused(shown(sink.url), f"it is longer than {sink.most} bytes")
        coding = given.headers.get("Content-Encoding", "identity").strip().lower()
        reader = inflater(sink.url, coding) if decoded else None
        sent = 0
        while True:
            chunk = given.raw.read(CHUNK, decode_content=False)
            sent += len(chunk)
            if stop.is_set():
                raise Failed("it was given up")
            if not chunk or (not whole and sent > MOST_OF_FAULT - CHUNK):
                break
            for piece in [chunk] if reader is None else inflated(reader, chunk):
                sink.add(piece)
        if whole and length is not None and sent != length:
            raise Failed(f"the answer is cut off: it has {sent} of {length} bytes")
        if whole and reader is not None and not reader.eof:
            raise Failed("the answer is cut off: its compression doesn't end")
        return length is not None or reader is not None or "chunked" in given.headers.get("Transfer-Encoding", "")


def inflater(url: str, coding: str) -> Any:
    """What reads a compressed body, or None of one that isn't."""
    if coding in ("", "identity"):
        return None
    if coding not in ("gzip", "x-gzip"):
        raise fault_of(url, f"the answer is compressed by {coding[:40]!r}, which wasn't asked for")
    return zlib.decompressobj(zlib.MAX_WBITS | 16)


def inflated(reader: Any, chunk: bytes) -> Iterator[bytes]:
    """The pieces of a compressed chunk, none of them large."""
    while True:
        try:
            piece = reader.decompress(chunk, 4 * CHUNK)
        except zlib.error as fault:
            raise Failed(f"the answer isn't compressed as it says: {fault}") from None
        if reader.eof and (reader.unconsumed_tail or reader.unused_data):
            raise Failed("the answer has more behind its compressed body")
        yield piece
        chunk = reader.unconsumed_tail
        if not chunk and len(piece) < 4 * CHUNK:
            return


def redirected(url: str, location: str) -> str:
    try:
        found = address_of(location, url)
    except ValueError:
        raise fault_of(url, "it is redirected to what is no address of a server") from None
    if is_weaker(found, url):
        raise fault_of(url, f"it is redirected from https to {shown(found)}")
    return found


def origin_of(url: str) -> Tuple[str, str, Optional[int]]:
    parts = urlsplit(url)
    return parts.scheme, parts.hostname or "", parts.port or {"http": 80, "https": 443}.get(parts.scheme)


def secret_of(url: str) -> Optional[Secret]:
    """The user and the password of an address."""
    parts = urlsplit(url)
    return None if parts.username is None else (unquote(parts.username), unquote(parts.password or ""))


def range_in(text: str) -> Optional[Tuple[int, int, int]]:
    found = re.fullmatch(r"bytes ([0-9]{1,15})-([0-9]{1,15})/([0-9]{1,15})", text, re.ASCII)
    return (int(found[1]), int(found[2]), int(found[3])) if found else None


def cause_of(failed: BaseException) -> str:
    """The innermost cause of a failure, in one line."""
    text = str(getattr(failed, "args", [failed])[0] if failed.args else failed)
    found = re.search(
        r"(timed out|Connection refused|Name or service not known|CERTIFICATE_VERIFY_FAILED|Remote end closed[^')]*)",
        text,
    )
    return found[1] if found else f"{type(failed).__name__}: {text[:160]}"
