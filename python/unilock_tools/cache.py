"""A cache on disk whose entries are checked by their hash when they are read.

An entry is a line of JSON with what belongs to it and the SHA-256 of its body, then the body. One that doesn't match
its hash counts as absent. What is kept under a hash is kept only where it has that hash, so that no server can fill
the place of another's answer. The folder is its user's alone.
"""

from __future__ import annotations

import hashlib
import json
import os
from pathlib import Path
from typing import Any, Dict, NamedTuple, Optional

from .console import write_beside

MOST_KEPT = 128 * 1024 * 1024


class Entry(NamedTuple):
    facts: Dict[str, Any]
    body: bytes

    def fact(self, name: str) -> str:
        """A text that belongs to the entry; the empty one where there is none."""
        found = self.facts.get(name)
        return found if isinstance(found, str) else ""


class Cache:
    """Entries by their key, in a folder; without a folder nothing is kept. `fault` says why keeping failed."""

    def __init__(self, folder: Optional[Path]) -> None:
        self.folder = folder
        self.fault = ""

    def path(self, kind: str, key: str) -> Optional[Path]:
        summed = hashlib.sha256(key.encode("utf-8", "backslashreplace")).hexdigest()
        return None if self.folder is None else self.folder / kind / summed[:2] / summed[2:]

    def get(self, kind: str, key: str) -> Optional[Entry]:
        path = self.path(kind, key)
        if path is None:
            return None
        try:
            with path.open("rb") as stream:
                head, _, body = stream.read(MOST_KEPT).partition(b"\n")
            facts = json.loads(head)
            if facts["sha256"] != hashlib.sha256(body).hexdigest() or facts["key"] != key:
                return None
        except (OSError, ValueError, KeyError, TypeError, RecursionError):
            return None
        return Entry(facts, body)

    def put(self, kind: str, key: str, body: bytes, **facts: str) -> None:
        """Keeps a body. A disk that takes nothing more ends the keeping, not the run."""
        path = self.path(kind, key)
        if path is None or self.folder is None or self.fault:
            return
        head = json.dumps({**facts, "key": key, "sha256": hashlib.sha256(body).hexdigest()})
        try:
            os.makedirs(self.folder, mode=0o700, exist_ok=True)
            path.parent.mkdir(parents=True, exist_ok=True)
            write_beside(str(path), head.encode() + b"\n" + body)
        except OSError as fault:
            self.fault = f"the cache {self.folder}: {fault.strerror or fault}, so what was fetched isn't kept"

    def by_hash(self, kind: str, summed: str) -> Optional[bytes]:
        """What is kept under its own SHA-256."""
        found = self.get(kind, f"sha256:{summed}")
        return found.body if found is not None and hashlib.sha256(found.body).hexdigest() == summed else None

    def put_by_hash(self, kind: str, body: bytes) -> None:
        self.put(kind, f"sha256:{hashlib.sha256(body).hexdigest()}", body)


def usual_folder() -> Path:
    """`unilock` in the user's folder of caches."""
    named = os.environ.get("XDG_CACHE_HOME")
    return Path(named) / "unilock" if named else Path.home() / ".cache" / "unilock"
