"""The index folders that `many` sends to workers: each is kept by a worker once, by its sum."""

from __future__ import annotations

import io
import os
import stat
import tarfile
import tempfile
from pathlib import Path


def packed(folder: Path) -> bytes:
    """An index folder as an archive that says nothing of the machine."""
    held = io.BytesIO()
    with tarfile.open(fileobj=held, mode="w:gz") as archive:
        for path in sorted(folder.glob("*.json")):
            member = tarfile.TarInfo(path.name)
            body = path.read_bytes()
            member.size = len(body)
            archive.addfile(member, io.BytesIO(body))
    return held.getvalue()


def kept_at(index: str) -> Path:
    """Where a worker keeps an index, by its sum."""
    return Path(tempfile.gettempdir()) / f"unilock-index-{index}"


def is_kept(index: str) -> bool:
    """Whether an index is kept here. A folder that somebody else made isn't believed."""
    try:
        found = kept_at(index).lstat()
    except FileNotFoundError:
        return False
    return stat.S_ISDIR(found.st_mode) and found.st_uid == os.getuid()


def keep_index(index: str, archive: bytes) -> None:
    """Keeps an index here, whole or not at all."""
    if is_kept(index):
        return
    with tempfile.TemporaryDirectory(prefix="unilock-many-") as room:
        fresh = Path(room) / "index"
        fresh.mkdir()
        with tarfile.open(fileobj=io.BytesIO(archive), mode="r:gz") as opened:
            for member in opened:
                if not member.isfile() or "/" in member.name or not member.name.endswith(".json"):
                    raise ValueError(f"the archive of an index has a member {member.name!r}")
                stream = opened.extractfile(member)
                (fresh / member.name).write_bytes(stream.read() if stream else b"")
        try:
            fresh.rename(kept_at(index))
        except OSError:
            # Another job of this worker was faster.
            if not is_kept(index):
                raise
