"""The metadata of a wheel or a source distribution, and the checks that make them fit to be read.

A wheel's METADATA are what will be installed. A source distribution counts where its PKG-INFO has metadata 2.2 or
later and neither its requirements nor its bound on the interpreter are dynamic (PEP 643).
"""

from __future__ import annotations

import email.message
import email.parser
import email.policy
import hashlib
import io
import re
import struct
import tarfile
import zipfile
import zlib
from pathlib import Path
from typing import IO, NamedTuple, Optional, Tuple, cast

from . import console
from .versions import NAME, normal_name, version

MOST_METADATA = 16 * 1024 * 1024
MOST_ARCHIVE = 512 * 1024 * 1024
MOST_MEMBERS = 200_000
MOST_REQUIREMENTS = 10_000
# What a wheel's list of members and a tar archive's header of one member may have.
MOST_DIRECTORY = 8 * 1024 * 1024
MOST_HEADER = 16 * 1024
CHUNK = 64 * 1024
FILE_NAME = re.compile(r"[\x21\x23-\x5b\x5d-\x7e]+\Z")
# A field that would be lost behind a line that ends the fields and isn't empty.
LOST = re.compile(r"^(Requires-Dist|Requires-Python|Dynamic)[ \t]*:", re.IGNORECASE | re.MULTILINE)
# What the readers of archives raise on bytes that are none: they test little of what they read.
BROKEN = (
    zipfile.BadZipFile, tarfile.TarError, zlib.error, struct.error, EOFError, NotImplementedError, RuntimeError,
    OSError, ValueError, LookupError, OverflowError, TypeError, AttributeError,
)  # fmt: skip


class Refused(console.Refused):
    """A file that can't be taken, with the file and what is wrong with it, in one line."""

    def __init__(self, path: object, fault: str) -> None:
        self.fault = console.escaped(fault)
        super().__init__(f"{console.escaped(str(path))}: {self.fault}")


class Uncertain(Refused):
    """A source distribution of which only a build tells what it requires."""

    def __init__(self, path: object, fault: str, name: str) -> None:
        super().__init__(path, f"{fault}; `--build {normal_name(name)}` builds it, which runs its code")


class TooMuch(Exception):
    """A reader of an archive asks for more than such an archive has."""


class Metadata(NamedTuple):
    """What the metadata of one file say."""

    name: str
    version: str
    requires_python: Optional[str]
    requires_dist: Tuple[str, ...]


def decoded(path: object, body: bytes, what: str) -> str:
    if len(body) > MOST_METADATA:
        raise Refused(path, f"{what} is longer than {MOST_METADATA} bytes")
    try:
        return body.decode("utf-8")
    except UnicodeDecodeError as fault:
        raise Refused(path, f"{what} is no UTF-8: {fault}") from None


def one_of(path: object, message: email.message.Message, key: str) -> Optional[str]:
    """The value of a key that stands at most once."""
    values = message.get_all(key) or []
    if len(values) > 1:
        raise Refused(path, f"{key} stands {len(values)} times in the metadata")
    return re.sub(r"\s+", " ", str(values[0])).strip() if values else None


def metadata_in(path: object, text: str) -> Tuple[Metadata, email.message.Message]:
    message = email.parser.Parser(policy=email.policy.compat32).parsestr(text)
    name, spelled = one_of(path, message, "Name"), one_of(path, message, "Version")
    if name is None or not NAME.match(name):
        raise Refused(path, f"the metadata's Name is no name: {name!r}")
    if spelled is None or version(spelled) is None:
        raise Refused(path, f"the metadata's Version is no version: {spelled!r}")
    if message.defects and LOST.search(str(message.get_payload())):
        raise Refused(path, "the metadata's fields are cut by a line that is none, with requirements behind it")
    required = tuple(re.sub(r"\s+", " ", str(it)).strip() for it in message.get_all("Requires-Dist") or [])
    if len(required) > MOST_REQUIREMENTS:
        raise Refused(path, f"the metadata have more than {MOST_REQUIREMENTS} requirements")
    return Metadata(normal_name(name), spelled, one_of(path, message, "Requires-Python") or None, required), message


def same_release(path: object, metadata: Metadata, name: str, spelled: str) -> None:
    """Refuses metadata of another project or version than the file's name says."""
    if not NAME.match(name) or normal_name(name) != metadata.name:
        raise Refused(path, f"the metadata's name is {metadata.name}, the file's {normal_name(name)}")
    named, stated = version(spelled), version(metadata.version)
    if named is None or stated is None or named.key != stated.key:
        raise Refused(path, f"the metadata's version is {metadata.version}, the file's {spelled}")


def wheel_parts(file: str) -> Tuple[str, str]:
    """The name and the version in a wheel's file name, NAME-VERSION(-BUILD)-PYTHON-ABI-PLATFORM.whl (PEP 427)."""
    parts = file[: -len(".whl")].split("-")
    if len(parts) not in (5, 6) or (len(parts) == 6 and not parts[2][:1].isdigit()):
        raise Refused(file, "its name isn't that of a wheel")
    # A file name spells the hyphens of a version as underscores.
    return parts[0], parts[1].replace("_", "-") if version(parts[1]) is None else parts[1]


def sdist_parts(file: str) -> Tuple[str, str]:
    """The name and the version in a source distribution's file name, NAME-VERSION.tar.gz."""
    name, dash, spelled = file[: -len(".tar.gz")].rpartition("-")
    if not dash:
        raise Refused(file, "its name isn't that of a source distribution")
    return name, spelled


def parts_of(file: str) -> Tuple[str, str]:
    return wheel_parts(file) if file.endswith(".whl") else sdist_parts(file)


def safe_member(path: object, name: str) -> None:
    if name.startswith(("/", "\\")) or ".." in re.split(r"[/\\]", name):
        raise Refused(path, f"a member leads out of the archive: {name!r}")


class Window(io.RawIOBase):
    """A file of which no single read may ask for more than `most` bytes, as an archive's own numbers may say."""

    def __init__(self, stream: IO[bytes], most: int) -> None:
        super().__init__()
        self.stream, self.most = stream, most

    def readable(self) -> bool:
        return True

    def seekable(self) -> bool:
        return True

    def tell(self) -> int:
        return self.stream.tell()

    def seek(self, offset: int, whence: int = 0) -> int:
        return self.stream.seek(offset, whence)

    def read(self, count: int = -1) -> bytes:
        if count > self.most:
            raise TooMuch(f"a part of it has more than {self.most} bytes")
        found = self.stream.read(self.most + 1 if count < 0 else count)
        if len(found) > self.most:
            raise TooMuch(f"a part of it has more than {self.most} bytes")
        return found


class Inflated(io.RawIOBase):
    """The bytes that a gzip stream holds, read forwards; a seek back is refused."""

    def __init__(self, stream: IO[bytes]) -> None:
        super().__init__()
        self.stream = stream
        self.reader = zlib.decompressobj(zlib.MAX_WBITS | 16)
        self.held, self.used = b"", 0
        self.at = 0

    def readable(self) -> bool:
        return True

    def seekable(self) -> bool:
        return True

    def tell(self) -> int:
        return self.at

    def seek(self, offset: int, whence: int = 0) -> int:
        if whence != 0 or offset < self.at:
            raise tarfile.ReadError("a member stands before the one that was read last")
        while self.at < offset and self.read(min(CHUNK, offset - self.at)):
            pass
        return self.at

    def read(self, count: int = -1) -> bytes:
        if self.at > MOST_ARCHIVE:
            raise TooMuch(f"no PKG-INFO in its first {MOST_ARCHIVE} bytes")
        while len(self.held) - self.used < count and self.more():
            pass
        found = self.held[self.used : self.used + max(count, 0)]
        self.used += len(found)
        self.at += len(found)
        return found

    def more(self) -> bool:
        """Whether more was read; a stream may have several parts, each a stream of its own."""
        fresh = self.reader.unconsumed_tail or self.reader.unused_data or self.stream.read(CHUNK)
        if self.reader.eof:
            if not fresh.strip(b"\0"):
                return False
            self.reader = zlib.decompressobj(zlib.MAX_WBITS | 16)
        found = self.reader.decompress(fresh, CHUNK)
        if not fresh and not found and not self.reader.eof:
            raise EOFError("it is cut off")
        self.held, self.used = self.held[self.used :] + found, 0
        return True


def wheel_body(path: object, stream: "IO[bytes] | Path") -> bytes:
    """The bytes of a wheel's METADATA, read from its archive."""
    try:
        if isinstance(stream, Path):
            with stream.open("rb") as opened:
                return metadata_member(path, opened)
        return metadata_member(path, stream)
    except TooMuch as fault:
        raise Refused(path, str(fault)) from None
    except BROKEN as fault:
        raise Refused(path, f"it is no archive that can be read: {fault or type(fault).__name__}") from None


def metadata_member(path: object, stream: IO[bytes]) -> bytes:
    window = Window(stream, MOST_DIRECTORY)
    with zipfile.ZipFile(cast(IO[bytes], window)) as archive:
        members = archive.infolist()
        for member in members:
            safe_member(path, member.filename)
        found = [it for it in members if re.fullmatch(r"[^/]+\.dist-info/METADATA", it.filename)]
        if len(found) != 1:
            raise Refused(path, f"it has {len(found) or 'no'} METADATA" + (" files" if found else ""))
        if found[0].compress_type not in (zipfile.ZIP_STORED, zipfile.ZIP_DEFLATED):
            raise Refused(path, "its METADATA are compressed in a way that wheels aren't")
        if found[0].file_size > MOST_METADATA:
            raise Refused(path, f"METADATA is longer than {MOST_METADATA} bytes")
        window.most = 2 * MOST_METADATA
        with archive.open(found[0]) as opened:
            body = opened.read(MOST_METADATA + 1)
    if len(body) != found[0].file_size:
        raise Refused(path, "its METADATA are cut off")
    return body


def sdist_body(path: object, stream: IO[bytes]) -> bytes:
    """The bytes of a source distribution's PKG-INFO."""
    try:
        return package_member(path, stream)
    except TooMuch as fault:
        raise Refused(path, str(fault)) from None
    except BROKEN as fault:
        raise Refused(path, f"it is no archive that can be read: {fault or type(fault).__name__}") from None


def package_member(path: object, stream: IO[bytes]) -> bytes:
    inflated = Inflated(stream)
    window = Window(cast(IO[bytes], inflated), MOST_HEADER)
    with tarfile.open(fileobj=cast(IO[bytes], window), mode="r:") as archive:
        for _ in range(MOST_MEMBERS):
            member = archive.next()
            if member is None:
                raise Refused(path, "it has no PKG-INFO")
            # Members that were passed over aren't remembered.
            archive.members = []  # type: ignore[attr-defined]
            safe_member(path, member.name)
            if re.fullmatch(r"(?:\./)?[^/]+/PKG-INFO", member.name) and member.isfile():
                if member.size > MOST_METADATA or member.issparse():
                    raise Refused(path, f"PKG-INFO is longer than {MOST_METADATA} bytes, or has holes")
                inflated.seek(member.offset_data)
                body = inflated.read(member.size)
                if len(body) != member.size:
                    raise Refused(path, "its PKG-INFO is cut off")
                return body
    raise Refused(path, f"no PKG-INFO among its first {MOST_MEMBERS} members")


def wheel_metadata(path: object, file: str, body: bytes) -> Metadata:
    """The metadata of a wheel of this file name whose METADATA have these bytes."""
    metadata, _ = metadata_in(path, decoded(path, body, "METADATA"))
    same_release(path, metadata, *wheel_parts(file))
    return metadata


def sdist_metadata(path: object, file: str, body: bytes) -> Metadata:
    """The metadata of a source distribution, where they are the same in whatever is built of it."""
    metadata, message = metadata_in(path, decoded(path, body, "PKG-INFO"))
    same_release(path, metadata, *sdist_parts(file))
    edition = re.fullmatch(r"([0-9]{1,4})\.([0-9]{1,4})", one_of(path, message, "Metadata-Version") or "")
    if edition is None or (int(edition[1]), int(edition[2])) < (2, 2):
        older = "its metadata are older than 2.2, so a build may change its requirements"
        raise Uncertain(path, older, metadata.name)
    dynamic = {str(it).strip().lower() for it in message.get_all("Dynamic") or []}
    for key in ("requires-dist", "requires-python"):
        if key in dynamic:
            raise Uncertain(path, f"its {key} is dynamic, so only a build tells it", metadata.name)
    return metadata


def built_metadata(path: object, file: str, body: bytes) -> Metadata:
    """The metadata that a build of a source distribution tells."""
    metadata, _ = metadata_in(path, decoded(path, body, "what its build tells"))
    same_release(path, metadata, *sdist_parts(file))
    return metadata


def file_metadata(path: Path) -> Metadata:
    """The metadata of a file in a folder."""
    try:
        if path.name.endswith(".whl"):
            wheel_parts(path.name)
            return wheel_metadata(path, path.name, wheel_body(path, path))
        sdist_parts(path.name)
        with path.open("rb") as stream:
            return sdist_metadata(path, path.name, sdist_body(path, stream))
    except Uncertain:
        raise
    except Refused as fault:
        # The parts of a file name are refused by the name alone; the path says where it stands.
        raise Refused(path, fault.fault) from None
    except OSError as fault:
        raise Refused(path, str(fault.strerror or fault)) from None


def sha256_of(path: Path) -> str:
    summed = hashlib.sha256()
    with path.open("rb") as it:
        for chunk in iter(lambda: it.read(1 << 20), b""):
            summed.update(chunk)
    return summed.hexdigest()
