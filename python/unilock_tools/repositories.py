"""Repositories, by the program `git`: what a branch, a tag or a revision is at, and a commit's files.

Each repository is kept bare in a folder of the cache, under the hash of its address, and is asked only where it lacks
what is wanted. Its address stands in none of git's files: it is handed over with each request, without its user's
password, which git asks for by a helper that reads it from the environment and answers for that server alone.

Of a commit a SHA-256 is made over all its files, so that a lock pins them by more than git's own SHA-1. Programs that
a repository brings aren't run: git's hooks are switched off, and it speaks no protocol but those of `sources`.
Submodules aren't fetched.
"""

from __future__ import annotations

import contextlib
import hashlib
import os
import re
import shutil
import subprocess
import tempfile
from collections.abc import Iterator
from pathlib import Path
from typing import IO, NamedTuple, cast
from urllib.parse import unquote, urlsplit, urlunsplit

from . import console
from .archives import MOST_ARCHIVE, MOST_MEMBERS
from .console import Refused
from .sources import GIT_SCHEMES, ByGit, told

# How long git may take for one request.
SECONDS = 900
COMMIT = re.compile(r"[0-9a-f]{40}\Z")
SHORT = re.compile(r"[0-9a-f]{7,40}\Z", re.IGNORECASE)
REFS = ("+refs/heads/*:refs/heads/*", "+refs/tags/*:refs/tags/*")
USUAL = "+HEAD:refs/unilock/usual"
# Variables that would have git work on another repository than the one that it is told of, or by other settings.
OTHERS = re.compile(
    r"GIT_(DIR|WORK_TREE|INDEX_FILE|OBJECT_DIRECTORY|ALTERNATE_OBJECT_DIRECTORIES|COMMON_DIR|NAMESPACE|PREFIX"
    r"|CONFIG.*)\Z"
)
TELLS = r'printf "username=%s\npassword=%s\n" "$UNILOCK_GIT_USER" "$UNILOCK_GIT_SECRET"'
HELPER = f'!f() {{ test "$1" = get && {TELLS}; }}; f'
SETTINGS = ("core.hooksPath=/dev/null", "core.autocrlf=false", "advice.detachedHead=false", "gc.auto=0")


class Blob(NamedTuple):
    """A file of a commit: git's mode, its kind and name of the content, and its path."""

    mode: bytes
    kind: bytes
    content: bytes
    path: bytes


class Address(NamedTuple):
    """A repository's address as git is handed it, without a password; and the user and the password of it."""

    url: str
    secret: tuple[str, str] | None

    @property
    def server(self) -> str:
        parts = urlsplit(self.url)
        return f"{parts.scheme}://{parts.netloc}"


def address_of(url: str) -> Address:
    """By ssh the user is part of the address and a key is asked for; by http both are for the server alone."""
    parts = urlsplit(url)
    place = parts.netloc.rpartition("@")[2]
    user, password = unquote(parts.username or ""), unquote(parts.password or "")
    if parts.scheme in ("http", "https"):
        secret = (user, password) if user or password else None
        return Address(urlunsplit(parts._replace(netloc=place)), secret)
    return Address(urlunsplit(parts._replace(netloc=f"{parts.username}@{place}" if user else place)), None)


def environment(address: Address) -> dict[str, str]:
    kept = {key: value for key, value in os.environ.items() if not OTHERS.match(key)}
    made = {"GIT_TERMINAL_PROMPT": "0", "GIT_ALLOW_PROTOCOL": ":".join(GIT_SCHEMES), "GIT_LFS_SKIP_SMUDGE": "1"}
    if not {"GIT_SSH", "GIT_SSH_COMMAND"} & set(kept):
        # Nobody is there to answer a question; keys come from the user's agent and settings.
        made["GIT_SSH_COMMAND"] = "ssh -o BatchMode=yes"
    secret = {} if address.secret is None else dict(zip(("UNILOCK_GIT_USER", "UNILOCK_GIT_SECRET"), address.secret))
    return {**kept, **made, **secret, "LC_ALL": "C"}


def git(words: list[str], address: Address) -> list[str]:
    settings = list(SETTINGS)
    if address.secret is not None:
        # The empty one leaves out what the user's own settings have.
        settings += [f"credential.{address.server}.helper=", f"credential.{address.server}.helper={HELPER}"]
    return ["git", *(it for one in settings for it in ("-c", one)), *words]


def ran(words: list[str], address: Address, where: str) -> bytes:
    """What git prints; a fault is told in its own last words, without a secret."""
    try:
        done = subprocess.run(
            git(words, address), stdin=subprocess.DEVNULL, stdout=subprocess.PIPE, stderr=subprocess.PIPE,
            env=environment(address), timeout=SECONDS, check=False,
        )  # fmt: skip
    except FileNotFoundError:
        raise Refused(f"{where}: the program git isn't on the path", 3) from None
    except subprocess.TimeoutExpired:
        raise Refused(f"{where}: git took more than {SECONDS} seconds", 5) from None
    if done.returncode != 0:
        raise Refused(f"{where}: {fault_in(done.stderr, address)}", 5)
    return done.stdout


def fault_in(said: bytes, address: Address) -> str:
    lines = [it.strip() for it in said.decode("utf-8", "replace").splitlines() if it.strip()]
    faults = [it for it in lines if it.startswith(("fatal:", "error:", "ssh:"))] or lines[-1:] or ["git says nothing"]
    text = told(faults[0])
    for part in address.secret or ():
        text = text.replace(part, "****") if part else text
    return console.escaped(text[:300])


class Repositories:
    """The repositories that are asked, kept in a folder of the cache, or for as long as the command runs."""

    def __init__(self, folder: Path | None) -> None:
        self.held = tempfile.TemporaryDirectory(prefix="unilock-git-") if folder is None else None
        self.folder = Path(self.held.name) if self.held is not None else folder
        self.asked: set[tuple[str, bool]] = set()

    def bare(self, source: ByGit) -> Path:
        """The folder of a repository, made where it isn't there."""
        assert self.folder is not None
        address = address_of(source.url)
        path = self.folder / hashlib.sha256(address.url.encode()).hexdigest()
        if not (path / "HEAD").is_file():
            self.folder.mkdir(mode=0o700, parents=True, exist_ok=True)
            ran(["init", "--quiet", "--bare", "--template=", "--", str(path)], address, told(source.url))
        return path

    def within(self, source: ByGit, *words: str) -> bytes:
        return ran(["-C", str(self.bare(source)), *words], address_of(source.url), told(source.url))

    def fetch(self, source: ByGit, *refs: str) -> None:
        address = address_of(source.url)
        words = ["fetch", "--quiet", "--force", "--prune", "--no-write-fetch-head", "--no-recurse-submodules"]
        usual = [] if source.kind else [USUAL]
        self.within(source, *words, "--no-tags", "--", address.url, *(refs or [*usual, *REFS]))
        self.asked.add((address.url, source.kind == ""))

    def has(self, source: ByGit, commit: str) -> bool:
        try:
            self.within(source, "cat-file", "-e", f"{commit}^{{commit}}")
        except Refused as fault:
            if fault.status == 3:
                raise
            return False
        return True

    def named(self, source: ByGit, name: str) -> str | None:
        """The commit that a name of git stands for, where there is one."""
        try:
            found = self.within(source, "rev-parse", "--verify", "--quiet", "--end-of-options", f"{name}^{{commit}}")
        except Refused:
            return None
        text = found.decode("ascii", "replace").strip()
        return text if COMMIT.match(text) else None

    def commit(self, source: ByGit, kept: str | None = None) -> str:
        """The commit that a source is at: the one that is kept, where it is still one of its branch's; else the newest.

        A revision that is a whole commit isn't asked for where it is there.
        """
        if source.kind == "rev" and COMMIT.match(source.reference) and self.has(source, source.reference):
            return source.reference
        if (address_of(source.url).url, source.kind == "") not in self.asked:
            self.fetch(source)
        for name in self.names_of(source):
            found = self.named(source, name)
            if found is not None:
                moves = name.startswith(("refs/heads/", "refs/unilock/"))
                return kept if kept is not None and moves and self.is_before(source, kept, found) else found
        what = f"{source.kind} {console.escaped(source.reference)}" if source.kind else "commit at its usual branch"
        raise Refused(f"{told(source.url)}: the repository has no {what}", 3)

    def names_of(self, source: ByGit) -> Iterator[str]:
        """What a source may be called in git. A revision is a commit, or else a tag, a branch, or a whole name that the
        server gives."""
        reference = source.reference
        if source.kind == "":
            yield "refs/unilock/usual"
        if source.kind == "rev" and SHORT.match(reference):
            yield reference
        if source.kind in ("rev", "tag"):
            yield f"refs/tags/{reference}"
        if source.kind in ("rev", "branch"):
            yield f"refs/heads/{reference}"
        whole = reference.startswith("refs/") or COMMIT.match(reference)
        if source.kind == "rev" and whole and self.fetched_alone(source, reference):
            yield "refs/unilock/alone"

    def fetched_alone(self, source: ByGit, what: str) -> bool:
        """Whether the server gives a commit, or a name, that none of its branches and tags leads to."""
        try:
            self.fetch(source, f"+{what}:refs/unilock/alone")
        except Refused as fault:
            if fault.status == 3:
                raise
            return False
        return True

    def is_before(self, source: ByGit, commit: str, later: str) -> bool:
        """Whether a commit is another one, or among those that came before it."""
        try:
            self.within(source, "merge-base", "--is-ancestor", commit, later)
        except Refused:
            return False
        return True

    def want(self, source: ByGit, commit: str) -> None:
        """Sees to it that a commit is there."""
        if self.has(source, commit):
            return
        self.fetch(source)
        if not self.has(source, commit) and not (self.fetched_alone(source, commit) and self.has(source, commit)):
            raise Refused(f"{told(source.url)}: the repository has no commit {commit}", 3)

    def files(self, source: ByGit, commit: str) -> list[Blob]:
        body = self.within(source, "ls-tree", "-r", "-z", "--full-tree", commit)
        found = []
        for entry in body.split(b"\0")[:-1]:
            facts, _, path = entry.partition(b"\t")
            mode, kind, content = facts.split(b" ")
            found.append(Blob(mode, kind, content, path))
        if len(found) > MOST_MEMBERS:
            raise Refused(f"{told(source.url)}: commit {commit} has more than {MOST_MEMBERS} files", 4)
        return found

    def has_submodules(self, source: ByGit, commit: str) -> bool:
        return any(it.kind == b"commit" for it in self.files(source, commit))

    def sha256(self, source: ByGit, commit: str) -> str:
        """The SHA-256 of a commit's files: of each its mode, its path and the SHA-256 of its bytes, in git's order."""
        summed, size = hashlib.sha256(), 0
        with self.contents(source) as (ask, told_back):
            for file in self.files(source, commit):
                inner = file.content
                if file.kind == b"blob":
                    ask.write(file.content + b"\n")
                    ask.flush()
                    length, inner = content_in(told_back)
                    size += length
                if size > MOST_ARCHIVE:
                    raise Refused(f"{told(source.url)}: commit {commit} has more than {MOST_ARCHIVE} bytes", 4)
                summed.update(b" ".join([file.mode, inner, str(len(file.path)).encode(), file.path]) + b"\n")
        return summed.hexdigest()

    @contextlib.contextmanager
    def contents(self, source: ByGit) -> Iterator[tuple[IO[bytes], IO[bytes]]]:
        """Where names of contents are written to, and where git tells these then."""
        address = address_of(source.url)
        line = git(["-C", str(self.bare(source)), "cat-file", "--batch"], address)
        with subprocess.Popen(
            line, stdin=subprocess.PIPE, stdout=subprocess.PIPE, stderr=subprocess.DEVNULL, env=environment(address)
        ) as running:
            try:
                yield cast("IO[bytes]", running.stdin), cast("IO[bytes]", running.stdout)
            finally:
                running.kill()

    @contextlib.contextmanager
    def checked_out(self, source: ByGit, commit: str) -> Iterator[Path]:
        """A commit's files in a folder that goes afterwards. It is a repository, since builds ask it for its tags."""
        self.want(source, commit)
        held = tempfile.mkdtemp(prefix="unilock-tree-")
        try:
            tree = Path(held) / "tree"
            address, where = address_of(source.url), told(source.url)
            clone = ["clone", "--quiet", "--no-checkout", "--template=", "--", str(self.bare(source)), str(tree)]
            ran(clone, address, where)
            ran(["-C", str(tree), "checkout", "--quiet", "--detach", commit], address, where)
            yield tree
        finally:
            shutil.rmtree(held, ignore_errors=True)


def content_in(stream: IO[bytes]) -> tuple[int, bytes]:
    """The length of the content that git tells next, and its SHA-256 in hexadecimal digits."""
    head = stream.readline().split()
    if len(head) != 3 or not head[2].isdigit():
        raise Refused("git tells no content of a file of its commit", 5)
    left, summed = int(head[2]), hashlib.sha256()
    while left:
        chunk = stream.read(min(left, 1 << 20))
        if not chunk:
            raise Refused("git ended before the content of a file did", 5)
        summed.update(chunk)
        left -= len(chunk)
    stream.read(1)
    return int(head[2]), summed.hexdigest().encode()
