"""Versions, specifiers and markers, read plainly: PEP 440 and PEP 508.

The scripts under tests/ judge the program by these. None of it is taken from the program: regular expressions and
tuples stand where the program has readers and orders of its own.
"""

from __future__ import annotations

import functools
import re
from typing import Any, Iterable, NamedTuple, Optional

TEXT_VARIABLES = [
    "os_name", "sys_platform", "platform_machine", "platform_python_implementation", "platform_release",
    "platform_system", "platform_version", "implementation_name",
]
# The order of what can't be split into points: by variable, then by kind, then by the literal.
OPAQUE_VARIABLES = [
    *TEXT_VARIABLES[:7], "python_version", "python_full_version", "implementation_name", "implementation_version",
]
OPAQUE_KINDS = ["contains", "within", "below", "at most", "same"]
OLD_SPELLINGS = {
    "os.name": "os_name", "sys.platform": "sys_platform", "platform.version": "platform_version",
    "platform.machine": "platform_machine", "platform.python_implementation": "platform_python_implementation",
    "python_implementation": "platform_python_implementation",
}
OPAQUE_OPERATORS = {
    "<": ("below", False), ">=": ("below", True), "<=": ("at most", False), ">": ("at most", True),
    "in": ("within", False), "not in": ("within", True), "==": ("same", False), "!=": ("same", True),
}
MIRRORED = {"<": ">", "<=": ">=", ">": "<", ">=": "<=", "==": "==", "!=": "!="}
SPACE = " \t"
ALL_SPACE = " \t\n\v\f\r"


class NoReading(Exception):
    """A text has no reading by its grammar."""


def normal_name(text: str) -> str:
    if not re.fullmatch(r"[A-Za-z0-9]([A-Za-z0-9._-]*[A-Za-z0-9])?", text):
        raise NoReading(text)
    return re.sub(r"[-_.]+", "-", text).lower()


# Versions.

VERSION = re.compile(
    r"v?(?:(\d+)!)?(\d+(?:\.\d+)*)"
    r"(?:[-_.]?(alpha|a|beta|b|preview|pre|rc|c)[-_.]?(\d*))?"
    r"(?:-(\d+)|[-_.]?(post|rev|r)[-_.]?(\d*))?"
    r"(?:[-_.]?(dev)[-_.]?(\d*))?"
    r"(?:\+([a-z0-9]+(?:[-_.][a-z0-9]+)*))?",
    re.A,
)
LETTERS = {"alpha": "a", "beta": "b", "c": "rc", "pre": "rc", "preview": "rc"}


class Version(NamedTuple):
    """The parts of a version: a pre part is a letter and a number, a local part a tuple of numbers and words."""

    epoch: int
    release: tuple
    pre: Optional[tuple]
    post: Optional[int]
    dev: Optional[int]
    local: tuple

    @property
    def is_pre(self) -> bool:
        return self.pre is not None or self.dev is not None

    @property
    def key(self) -> tuple:
        """What versions are compared by."""
        release = self.release
        while release and release[-1] == 0:
            release = release[:-1]
        if self.pre is not None:
            pre: tuple = ("a", "b", "rc").index(self.pre[0]), self.pre[1]
        else:
            pre = (-1, 0) if self.dev is not None and self.post is None else (3, 0)
        post = -1 if self.post is None else self.post
        dev = (1, 0) if self.dev is None else (0, self.dev)
        local = tuple((0, it) if isinstance(it, str) else (1, it) for it in self.local)
        return self.epoch, release, pre, post, dev, (1, *local) if local else (0,)

    @property
    def text(self) -> str:
        text = f"{self.epoch}!" * (self.epoch > 0) + ".".join(map(str, self.release))
        text += "".join(map(str, self.pre or ()))
        text += "" if self.post is None else f".post{self.post}"
        text += "" if self.dev is None else f".dev{self.dev}"
        return text + ("+" + ".".join(map(str, self.local)) if self.local else "")

    @property
    def public(self) -> "Version":
        return self._replace(local=())


@functools.lru_cache(maxsize=None)
def version(text: str) -> Version:
    found = VERSION.fullmatch(text.strip(ALL_SPACE).lower())
    if found is None or not text.isascii():
        raise NoReading(text)
    epoch, release, pre, pre_number, bare_post, post, post_number, dev, dev_number, local = found.groups()
    made = Version(
        int(epoch or 0),
        tuple(int(it) for it in release.split(".")),
        None if pre is None else (LETTERS.get(pre, pre), int(pre_number or 0)),
        int(bare_post) if bare_post else None if post is None else int(post_number or 0),
        None if dev is None else int(dev_number or 0),
        tuple(int(it) if it.isdigit() else it for it in re.split(r"[-_.]", local)) if local else (),
    )
    numbers = [made.epoch, *made.release, made.pre[1] if made.pre else 0, made.post or 0, made.dev or 0]
    if max(numbers + [it for it in made.local if isinstance(it, int)]) >= 2**64:
        raise NoReading(text)
    return made


# Specifiers: a clause is an operator, a version and whether `.*` follows it.

CLAUSE = re.compile(r"[ \t]*(==|!=|>=|<=|~=|>|<)[ \t]*([A-Za-z0-9\-_.*+!]+)[ \t]*")


class Clause(NamedTuple):
    op: str
    version: Version
    star: bool

    def is_met(self, it: Version) -> bool:
        if self.op in ("==", "!="):
            return self._is_equal(it) == (self.op == "==")
        mine, public, own = self.version.key, it.public.key, it.key
        if self.op == ">=":
            return public >= mine
        if self.op == "<=":
            return public <= mine
        if self.op == "~=":
            front = self.version._replace(release=self.version.release[:-1], pre=None, post=None, dev=None)
            return public >= mine and Clause("==", front, True).is_met(it)
        same_release = (it.epoch, strip_zeros(it.release)) == (self.version.epoch, strip_zeros(self.version.release))
        if self.op == ">":
            is_held_back = same_release and (bool(it.local) or (it.post is not None and self.version.post is None))
            return own > mine and not is_held_back
        return own < mine and not (same_release and it.is_pre and not self.version.is_pre)

    def _is_equal(self, it: Version) -> bool:
        if self.star:
            size = len(self.version.release)
            front = (it.release + (0,) * size)[:size]
            return it.epoch == self.version.epoch and front == self.version.release
        return (it.key if self.version.local else it.public.key) == self.version.key


def strip_zeros(release: tuple) -> tuple:
    while release and release[-1] == 0:
        release = release[:-1]
    return release


def clause(op: str, text: str) -> Clause:
    star = text.endswith(".*")
    read = version(text[:-2] if star else text)
    plain = read.pre is None and read.post is None and read.dev is None and not read.local
    if star and (not plain or op not in ("==", "!=", ">=", "<")):
        raise NoReading(text)
    if read.local and (op not in ("==", "!=") or star):
        raise NoReading(text)
    if op == "~=" and len(read.release) < 2:
        raise NoReading(text)
    return Clause(op, read, star and op in ("==", "!="))


@functools.lru_cache(maxsize=None)
def specifiers(text: str) -> tuple:
    text = text.strip(ALL_SPACE)
    if not text:
        return ()
    pieces = text.split(",")
    if len(pieces) > 1 and not pieces[-1].strip(SPACE):
        pieces.pop()
    found = [CLAUSE.fullmatch(it) for it in pieces]
    if not all(found):
        raise NoReading(text)
    return tuple(clause(it[1], it[2]) for it in found if it)


def meets(clauses: Iterable[Clause], it: Version) -> bool:
    return all(clause.is_met(it) for clause in clauses)


def lower_part(clauses: Iterable[Clause]) -> tuple:
    """What of a release's Python bound counts: bounds from below alone."""
    lower = []
    for it in clauses:
        if it.op in (">=", ">"):
            lower.append(it)
        elif it.op in ("==", "~="):
            lower.append(Clause(">=", it.version.public, False))
    return tuple(lower)


def of_triple(triple: tuple) -> Version:
    return Version(0, triple, None, None, None, ())


# Markers: nested tuples ("and", ..), ("or", ..), ("not", one), ("extra", literal), ("python", name, clauses of which
# one must be met), ("text", variable, literal) and ("opaque", variable, kind, literal).

TOKEN = re.compile(
    r"""[ \t]*(?:([()])|(==|!=|<=|>=|~=|<|>)|'([\x20-&(-\[\]-~]*)'|"([ !#-\[\]-~]*)"|([A-Za-z0-9_.]+))"""
)
TRUE: tuple = ("and",)


def tokens_of(text: str) -> list:
    text, at, tokens = text.strip(ALL_SPACE), 0, []
    while at < len(text):
        found = TOKEN.match(text, at)
        if found is None:
            raise NoReading(text)
        bracket, op, single, double, word = found.groups()
        literal = single if single is not None else double
        if literal is not None:
            tokens.append(("literal", literal))
        else:
            tokens.append(("word", word) if word else ("sign", bracket or op))
        at = found.end()
        if at < len(text) and text[at:].strip(SPACE) == "":
            break
    return tokens


@functools.lru_cache(maxsize=None)
def marker(text: str) -> tuple:
    tokens = tokens_of(text)
    tree, rest = _joined(tokens, "or")
    if rest:
        raise NoReading(text)
    return tree


def _joined(tokens: list, word: str) -> tuple:
    below = (lambda it: _joined(it, "and")) if word == "or" else _atom
    part, rest = below(tokens)
    parts = [part]
    while rest[:1] == [("word", word)]:
        part, rest = below(rest[1:])
        parts.append(part)
    return (parts[0] if len(parts) == 1 else (word, *parts)), rest


def _atom(tokens: list) -> tuple:
    if tokens[:1] == [("sign", "(")]:
        tree, rest = _joined(tokens[1:], "or")
        if rest[:1] != [("sign", ")")]:
            raise NoReading("parenthesis")
        return tree, rest[1:]
    if len(tokens) < 3:
        raise NoReading("comparison")
    left, op, rest = tokens[0], tokens[1], tokens[2:]
    if op == ("word", "not") and rest[0] == ("word", "in"):
        op, rest = ("word", "not in"), rest[1:]
    if not rest or op[0] == "literal" or op[1] not in ("in", "not in", "~=", *MIRRORED):
        raise NoReading("comparison")
    right, rest = rest[0], rest[1:]
    return comparison(left, op[1], right), rest


def comparison(left: tuple, op: str, right: tuple) -> tuple:
    if {left[0], right[0]} != {"word", "literal"}:
        raise NoReading("sides")
    is_mirrored = left[0] == "literal"
    name, literal = (right[1], left[1]) if is_mirrored else (left[1], right[1])
    name = OLD_SPELLINGS.get(name, name)
    if name not in ("extra", "python_version", "python_full_version", "implementation_version", *TEXT_VARIABLES):
        raise NoReading(name)
    if is_mirrored and op in ("in", "not in"):
        if name == "extra":
            raise NoReading("extra")
        return _turned(op == "not in", ("opaque", name, "contains", literal))
    if is_mirrored:
        if op not in MIRRORED:
            raise NoReading(op)
        op = MIRRORED[op]
    if name == "extra":
        return _extra(op, literal)
    if name.startswith("python_"):
        return _python(name, op, literal)
    if op in ("==", "!=") and name != "implementation_version":
        return _turned(op == "!=", ("text", name, literal))
    if op not in OPAQUE_OPERATORS:
        raise NoReading(op)
    kind, is_turned = OPAQUE_OPERATORS[op]
    return _turned(is_turned, ("opaque", name, kind, literal))


def _turned(is_turned: bool, tree: tuple) -> tuple:
    return ("not", tree) if is_turned else tree


def _extra(op: str, literal: str) -> tuple:
    if op not in ("==", "!="):
        raise NoReading(op)
    try:
        literal = normal_name(literal) if literal else ""
    except NoReading:
        pass
    return _turned(op == "!=", ("extra", literal))


def _python(name: str, op: str, literal: str) -> tuple:
    if op in ("in", "not in"):
        pieces = [it for it in re.split(r"[ ,]", literal) if it]
        return _turned(op == "not in", ("python", name, tuple(Clause("==", version(it), False) for it in pieces)))
    return "python", name, (clause(op, literal),)


# Worlds.


class World(NamedTuple):
    """An interpreter, the texts of its variables, and what else holds there: a set of opaque comparisons."""

    python: tuple
    texts: dict
    opaque: frozenset


def machine_world(machine: dict, comparisons: Iterable[tuple]) -> World:
    """The world of a machine, with those of the opaque comparisons that hold on it."""
    python = tuple(int(it) for it in machine["python_full_version"].split("."))
    texts = {it: machine[it] for it in (*TEXT_VARIABLES, "implementation_version")}
    texts["python_full_version"] = ".".join(map(str, python))
    texts["python_version"] = ".".join(map(str, python[:2]))
    return World(python, texts, frozenset(it for it in comparisons if is_opaque_true(it, texts)))


def is_opaque_true(comparison: tuple, texts: dict) -> bool:
    _, name, kind, literal = comparison
    text: Any = texts[name]
    if kind == "contains":
        return literal in text
    if kind == "within":
        return text in literal
    if name == "implementation_version":
        try:
            text, literal = version(text).key, version(literal).key
        except NoReading:
            pass
    return text < literal if kind == "below" else text <= literal if kind == "at most" else text == literal


def holds(tree: tuple, world: World, extra: str) -> bool:
    kind = tree[0]
    if kind == "and":
        return all(holds(it, world, extra) for it in tree[1:])
    if kind == "or":
        return any(holds(it, world, extra) for it in tree[1:])
    if kind == "not":
        return not holds(tree[1], world, extra)
    if kind == "extra":
        return tree[1] == extra
    if kind == "text":
        return world.texts[tree[1]] == tree[2]
    if kind == "opaque":
        return tree in world.opaque
    python = world.python if tree[1] == "python_full_version" else world.python[:2]
    return any(it.is_met(of_triple(python)) for it in tree[2])


def atoms(tree: tuple) -> list:
    """The comparisons of a marker."""
    if tree[0] in ("and", "or", "not"):
        return [atom for it in tree[1:] for atom in atoms(it)]
    return [tree]
