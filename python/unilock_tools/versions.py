"""Versions, specifiers and names, as the program reads them.

The program's grammar is its own profile of PEP 440 and PEP 508: it reads `>=3.5.*` and `a()`, and no `===`, no number
of 2^64 or more and no URL. So what it will not read can't be asked of a library that reads more or less; these few
readers say it exactly, and say what is wrong. Standard library alone.
"""

from __future__ import annotations

import re
from typing import Any, List, NamedTuple, Optional, Tuple

# The order of a version: equal versions have equal keys, and an older one has a smaller key.
Key = Tuple[Any, ...]
LARGEST = (1 << 64) - 1
NAME = re.compile(r"[A-Za-z0-9](?:[A-Za-z0-9._-]*[A-Za-z0-9])?\Z", re.ASCII)
# PEP 440, appendix B
VERSION = re.compile(
    r"v?(?:(?P<epoch>[0-9]+)!)?(?P<release>[0-9]+(?:\.[0-9]+)*)"
    r"(?P<pre>[-_.]?(?P<pre_kind>alpha|a|beta|b|preview|pre|c|rc)[-_.]?(?P<pre_number>[0-9]+)?)?"
    r"(?P<post>-(?P<post_short>[0-9]+)|[-_.]?(?:post|rev|r)[-_.]?(?P<post_number>[0-9]+)?)?"
    r"(?P<dev>[-_.]?dev[-_.]?(?P<dev_number>[0-9]+)?)?"
    r"(?:\+(?P<local>[a-z0-9]+(?:[-_.][a-z0-9]+)*))?\Z",
    re.IGNORECASE | re.ASCII,
)
PRE_KINDS = {"alpha": "a", "beta": "b", "c": "rc", "pre": "rc", "preview": "rc"}
CLAUSE = re.compile(r"(==|!=|>=|<=|~=|>|<)[ \t]*([A-Za-z0-9._*+!-]*)\Z", re.ASCII)
WHITE = " \t\n\v\f\r"
BLANKS = " \t"


class NoReading(Exception):
    """A text that the program doesn't read, with what is wrong with it."""


def normal_name(name: str) -> str:
    """The normal form of PEP 503."""
    return re.sub(r"[-_.]+", "-", name).lower()


def number_of(text: str) -> int:
    """The value of digits, or of those that are left where it is far beyond what a version may have."""
    return int(text.lstrip("0")[:24] or "0")


def name_of(text: str) -> str:
    """A name in normal form."""
    if not NAME.match(text):
        raise NoReading(f"`{text}` is no name")
    return normal_name(text)


class Version:
    """A version of PEP 440; `key` is its order, and equal versions have equal keys."""

    def __init__(self, found: "re.Match[str]") -> None:
        self.epoch = number_of(found["epoch"] or "0")
        self.release = [number_of(it) for it in found["release"].split(".")]
        kind = (found["pre_kind"] or "").lower()
        self.pre = (PRE_KINDS.get(kind, kind), number_of(found["pre_number"] or "0")) if found["pre"] else None
        self.post = number_of(found["post_short"] or found["post_number"] or "0") if found["post"] else None
        self.dev = number_of(found["dev_number"] or "0") if found["dev"] else None
        parts = re.split(r"[-_.]", found["local"].lower()) if found["local"] else []
        self.local = tuple((1, number_of(it), "") if it.isdigit() else (0, 0, it) for it in parts)

    @property
    def is_pre(self) -> bool:
        return self.pre is not None or self.dev is not None

    def trimmed(self) -> Tuple[int, ...]:
        release = list(self.release)
        while len(release) > 1 and release[-1] == 0:
            release.pop()
        return tuple(release)

    @property
    def public_key(self) -> Key:
        pre: Key = (1,)
        if self.pre is not None:
            pre = (0, *self.pre)
        elif self.dev is not None and self.post is None:
            pre = (-1,)
        dev = (1, 0) if self.dev is None else (0, self.dev)
        return (self.epoch, self.trimmed(), pre, -1 if self.post is None else self.post, dev)

    @property
    def key(self) -> Key:
        return (*self.public_key, self.local)

    def of_release(self, other: "Version") -> bool:
        return (self.epoch, self.trimmed()) == (other.epoch, other.trimmed())

    def text(self) -> str:
        """The normal text, as the lock has it."""
        parts = [f"{self.epoch}!" if self.epoch else "", ".".join(map(str, self.release))]
        parts.append(f"{self.pre[0]}{self.pre[1]}" if self.pre else "")
        parts.append("" if self.post is None else f".post{self.post}")
        parts.append("" if self.dev is None else f".dev{self.dev}")
        local = ".".join(str(number) if kind else word for kind, number, word in self.local)
        return "".join(parts) + (f"+{local}" if local else "")


def version_of(text: str) -> Version:
    found = VERSION.match(text.strip(WHITE))
    if found is None:
        raise NoReading(f"`{text.strip()}` is no version of PEP 440")
    if any(number_of(it) > LARGEST for it in re.findall("[0-9]+", found.group())):
        raise NoReading(f"`{text.strip()}` has a number that is too large")
    return Version(found)


def version(text: str) -> Optional[Version]:
    try:
        return version_of(text)
    except NoReading:
        return None


class Clause(NamedTuple):
    """One clause of a specifier list: the operator, its version, and whether `.*` follows it."""

    op: str
    version: Version
    prefix: bool

    def meets(self, found: Version) -> bool:
        limit = self.version
        if self.op in ("==", "!="):
            return self.equal(found) == (self.op == "==")
        if self.op == ">=":
            return found.public_key >= limit.public_key
        if self.op == "<=":
            return found.public_key <= limit.public_key
        if self.op == ">":
            later = found.post is not None and limit.post is None and found.of_release(limit)
            return found.key > limit.key and not later and not (found.local and found.of_release(limit))
        if self.op == "<":
            return found.key < limit.key and not (found.is_pre and not limit.is_pre and found.of_release(limit))
        return found.public_key >= limit.public_key and has_prefix(found, limit.epoch, limit.release[:-1])

    def equal(self, found: Version) -> bool:
        if self.prefix:
            return has_prefix(found, self.version.epoch, self.version.release)
        return (found.key if self.version.local else (*found.public_key, ())) == self.version.key


def has_prefix(found: Version, epoch: int, release: List[int]) -> bool:
    padded = found.release + [0] * (len(release) - len(found.release))
    return found.epoch == epoch and padded[: len(release)] == release


def clause_of(text: str) -> Clause:
    text = text.strip(BLANKS)
    if text.startswith("==="):
        raise NoReading(f"`{text}`: `===` isn't supported")
    found = CLAUSE.match(text)
    if found is None:
        raise NoReading(f"`{text}` isn't an operator with a version")
    op, spelled = found[1], found[2]
    prefix = spelled.endswith(".*")
    read = version_of(spelled[:-2] if prefix else spelled)
    plain = read.pre is None and read.post is None and read.dev is None and not read.local
    if prefix and (op not in ("==", "!=", ">=", "<") or not plain):
        raise NoReading(
            f"`{text}`: `.*` doesn't go with `{op}`" if plain else f"`{text}`: `.*` follows more than a release"
        )
    if read.local and op not in ("==", "!="):
        raise NoReading(f"`{text}`: a local version goes with `==` and `!=` alone")
    if op == "~=" and len(read.release) < 2:
        raise NoReading(f"`{text}`: `~=` wants two numbers")
    return Clause(op, read, prefix and op in ("==", "!="))


def specifiers_of(text: str) -> List[Clause]:
    """A specifier list; the empty one is met by every version."""
    pieces = text.strip(WHITE).split(",")
    if len(pieces) > 1 and not pieces[-1].strip(BLANKS):
        pieces.pop()
    if len(pieces) == 1 and not pieces[0].strip(BLANKS):
        if "," in text:
            raise NoReading(f"`{text}` has a comma without a clause")
        return []
    return [clause_of(it) for it in pieces]


def meets(clauses: List[Clause], found: Version) -> bool:
    return all(it.meets(found) for it in clauses)


def specifiers_fault(text: str) -> Optional[str]:
    """What keeps a specifier list from being read, or None."""
    try:
        specifiers_of(text)
    except NoReading as fault:
        return str(fault)
    return None
