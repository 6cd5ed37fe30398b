"""What source distributions require whose metadata aren't certain: they are built, where that is asked for by name.

Building runs the project's own code, in an environment that the library `build` makes for it (PEP 517): where the build
system offers it, its metadata alone are made. What a build says is kept under the SHA-256 of the file that was built,
so it is built once. It is what it says on this machine: another one may be told something else, and that is warned of.
"""

from __future__ import annotations

import argparse
import contextlib
import hashlib
import importlib.util
import json
import os
import subprocess
import sys
import tarfile
import tempfile
from collections.abc import Iterable, Iterator
from pathlib import Path
from typing import IO, Any

from . import archives, console
from .archives import MOST_ARCHIVE, MOST_MEMBERS, Metadata, Refused
from .cache import Cache
from .pip_runs import essence
from .versions import normal_name

# How long one build may take.
SECONDS = 1800
CODE = """
import json, sys, traceback
from build.util import project_wheel_metadata

try:
    found = project_wheel_metadata(sys.argv[1])
except Exception as fault:
    traceback.print_exc()
    # What the build's own processes said, which the library keeps to itself.
    while fault is not None:
        print((getattr(fault, "output", None) or b"").decode("utf-8", "replace"))
        fault = fault.__cause__ or fault.__context__
    sys.exit(1)
told = {key: found.get_all(key) or [] for key in ("Name", "Version", "Requires-Python", "Requires-Dist")}
with open(sys.argv[2], "w", encoding="utf-8") as stream:
    stream.write(json.dumps(told))
"""


def add_words(made: Any) -> None:
    made.add_argument(
        "--build",
        metavar="NAME",
        action="append",
        default=[],
        help="build source distributions of this project whose metadata aren't certain, which runs their code; may be "
        "repeated",
    )
    made.add_argument("--build-all", action="store_true", help="build all such")
    made.add_argument(
        "--no-build",
        action="store_true",
        help="build nothing; else folders that the project file names by a path, and members of its workspace, are "
        "built where their own file doesn't say what they require",
    )


def is_asked(asked: argparse.Namespace) -> bool:
    return bool(asked.build or asked.build_all)


class Builder:
    """Builds source distributions of these projects, or of all where `names` is None."""

    def __init__(self, names: set[str] | None, cache: Cache, index_url: str | None = None) -> None:
        self.names, self.cache, self.index_url = names, cache, index_url
        # What was built, or is kept of an earlier build, for the warnings.
        self.built: set[str] = set()

    def wants(self, name: str) -> bool:
        return self.names is None or normal_name(name) in self.names

    def metadata(self, path: object, file: str, stream: IO[bytes]) -> Metadata:
        """The metadata of a source distribution, as a build says them. The stream is read from its beginning."""
        stream.seek(0)
        summed = digest(stream)
        kept = self.cache.get("built", summed)
        body = built(path, stream, self.index_url) if kept is None else kept.body
        found = archives.built_metadata(path, file, body)
        if kept is None:
            self.cache.put("built", summed, body)
        self.built.add(f"{found.name} {found.version}")
        return found

    def tree_metadata(self, path: object, folder: Path, key: str = "") -> Metadata:
        """The metadata of a source tree, as its build system says them; kept where a key says all that the tree has."""
        kept = self.cache.get("built", key) if key else None
        with tempfile.TemporaryDirectory(prefix="unilock-build-") as held:
            body = told_of_tree(path, folder, Path(held), self.index_url) if kept is None else kept.body
        found, _ = archives.metadata_in(path, archives.decoded(path, body, "what its build tells"))
        if key and kept is None:
            self.cache.put("built", key, body)
        self.built.add(f"{found.name} {found.version}")
        return found

    def warnings(self) -> Iterator[str]:
        for release in sorted(self.built):
            yield f"{release}: its requirements are those of a build on this machine; other machines may be told others"


def of_words(asked: argparse.Namespace, cache: Cache, index_url: str | None) -> Builder | None:
    """The builder that the words ask for; refused where the library isn't there."""
    word = "--build-all" if asked.build_all else "--build"
    if is_asked(asked) and asked.no_build:
        raise console.Refused(f"{word} and --no-build don't go together", 2)
    if not is_asked(asked):
        return None
    want_library(word)
    return Builder(None if asked.build_all else {normal_name(it) for it in asked.build}, cache, index_url)


def want_library(what: object) -> None:
    if importlib.util.find_spec("build") is None:
        raise console.Refused(f"{what}: the library build isn't installed; `pip install build` installs it", 3)


def digest(stream: IO[bytes]) -> str:
    summed = hashlib.sha256()
    for chunk in iter(lambda: stream.read(1 << 20), b""):
        summed.update(chunk)
    return summed.hexdigest()


def built(path: object, stream: IO[bytes], index_url: str | None) -> bytes:
    """What a build says of a source distribution: its fields as they stand in a wheel's METADATA."""
    with tempfile.TemporaryDirectory(prefix="unilock-build-") as held:
        stream.seek(0)
        source = unpacked(path, stream, Path(held) / "source")
        return told_of_tree(path, source, Path(held), index_url)


def told_of_tree(path: object, source: Path, held: Path, index_url: str | None) -> bytes:
    """What a build says of a source tree. It runs in a temporary folder, so nothing of the folder that the command is
    given in is run."""
    out = held / "told.json"
    environment = {**os.environ, "PIP_DISABLE_PIP_VERSION_CHECK": "1", "PIP_NO_INPUT": "1"}
    if index_url:
        environment["PIP_INDEX_URL"] = index_url
    line = [sys.executable, "-c", CODE, str(source.resolve()), str(out)]
    try:
        done = subprocess.run(
            line, stdout=subprocess.PIPE, stderr=subprocess.STDOUT, cwd=held, env=environment, timeout=SECONDS,
            check=False,
        )  # fmt: skip
    except subprocess.TimeoutExpired:
        raise Refused(path, f"its build took more than {SECONDS} seconds") from None
    if done.returncode != 0 or not out.is_file():
        raise Refused(path, f"it can't be built: {cause_in(done.stdout.decode('utf-8', 'replace'))}")
    return fields(path, out)


def cause_in(said: str) -> str:
    """Why a build failed, in a line: what its own code raised, and not that its process ended by that."""
    lines = [it for it in essence(said) if not any(of in it for of in ("CalledProcessError", "BuildBackendException"))]
    return "; ".join(lines[-3:]) or "its build says nothing"


def fields(path: object, out: Path) -> bytes:
    try:
        found = json.loads(out.read_text(encoding="utf-8"))
        pairs = [(key, " ".join(str(it).split())) for key, values in found.items() for it in values]
    except (ValueError, AttributeError, TypeError):
        raise Refused(path, "its build tells no metadata") from None
    return "".join(f"{key}: {text}\n" for key, text in [("Metadata-Version", "2.2"), *pairs]).encode("utf-8")


def unpacked(path: object, stream: IO[bytes], folder: Path) -> Path:
    """The one folder of a source distribution, unpacked: its files and folders, and nothing that leads out of it."""
    try:
        with tarfile.open(fileobj=stream, mode="r:gz") as archive:
            for member in counted(path, archive):
                archives.safe_member(path, member.name)
                if member.isdir():
                    (folder / member.name).mkdir(parents=True, exist_ok=True)
                elif member.isfile():
                    write(archive, member, folder / member.name)
    except archives.BROKEN as fault:
        raise Refused(path, f"it is no archive that can be read: {fault or type(fault).__name__}") from None
    tops = [it for it in folder.iterdir() if it.is_dir()] if folder.is_dir() else []
    if len(tops) != 1:
        raise Refused(path, f"it has {len(tops)} folders at its top, and not one")
    return tops[0]


def counted(path: object, archive: tarfile.TarFile) -> Iterable[tarfile.TarInfo]:
    """The members of an archive, as many and as large as one may be; a link is passed over."""
    size = 0
    for number, member in enumerate(archive):
        size += max(0, member.size)
        if number >= MOST_MEMBERS or size > MOST_ARCHIVE:
            raise Refused(path, f"it unpacks to more than {MOST_MEMBERS} members or {MOST_ARCHIVE} bytes")
        yield member


def write(archive: tarfile.TarFile, member: tarfile.TarInfo, path: Path) -> None:
    opened = archive.extractfile(member)
    path.parent.mkdir(parents=True, exist_ok=True)
    with contextlib.ExitStack() as held:
        source = held.enter_context(opened) if opened is not None else None
        target = held.enter_context(path.open("wb"))
        while source is not None and (chunk := source.read(1 << 20)):
            target.write(chunk)
    path.chmod(0o755 if member.mode & 0o100 else 0o644)
