"""Environment markers (PEP 508), as the program reads and judges them.

`read` gives a marker, `truth` its value where some variables are known and others aren't: None where that leaves it
open. The program's profile: text variables are compared as texts, and `python_version in '3.8, 3.9'` asks for
membership in a list of versions. Standard library alone.
"""

from __future__ import annotations

import difflib
import itertools
import math
import operator
import re
from functools import lru_cache
from typing import Any, Callable, Dict, Iterator, List, Mapping, NamedTuple, Optional, Tuple, Union

from . import versions

TEXTS = [
    "os_name", "sys_platform", "platform_machine", "platform_python_implementation", "platform_release",
    "platform_system", "platform_version", "implementation_name",
]  # fmt: skip
PYTHONS = ["python_version", "python_full_version"]
OLD_SPELLINGS = {
    "os.name": "os_name",
    "sys.platform": "sys_platform",
    "platform.version": "platform_version",
    "platform.machine": "platform_machine",
    "platform.python_implementation": "platform_python_implementation",
    "python_implementation": "platform_python_implementation",
}
VARIABLES = [*TEXTS, *PYTHONS, "implementation_version", "extra"]
TOKEN = re.compile(
    r"[ \t]*(?:(?P<mark>[()])|(?P<op>===|==|!=|<=|>=|~=|<|>)|(?P<word>[A-Za-z0-9_.]+)"
    r"|'(?P<single>[ -&(-\[\]-~]*)'|\"(?P<double>[ !#-\[\]-~]*)\")"
)
MIRRORED = {"<": ">", "<=": ">=", ">": "<", ">=": "<=", "==": "==", "!=": "!="}
DEEPEST = 64
# A marker of so many comparisons at so many interpreters counts as one that can hold, without being asked.
MOST_ASKED = 1 << 20
# So many environments are looked at for one that meets none of some conditions.
MOST_LOOKED_AT = 1 << 14
# So many comparisons of an interpreter keep their truth: few of them are asked, again and again.
MOST_KEPT = 1 << 14


class NoMarker(Exception):
    """A marker that the program doesn't read, with what is wrong with it."""


class Atom(NamedTuple):
    """A comparison of a variable with a literal; `contains` where the literal stands left of `in`."""

    variable: str
    op: str
    literal: str
    contains: bool


class Join(NamedTuple):
    """Several markers of which all (`and`) or some (`or`) hold."""

    word: str
    parts: List["Marker"]


Marker = Union[Atom, Join]
Token = Tuple[str, str]


def tokens(text: str) -> List[Token]:
    found, at = [], 0
    text = text.strip(" \t\n\v\f\r")
    while at < len(text):
        piece = TOKEN.match(text, at)
        if piece is None:
            raise NoMarker(f"the marker isn't read from `{shortened(text[at:].strip())}` on")
        kind = piece.lastgroup or ""
        found.append(("literal" if kind in ("single", "double") else kind, piece[kind]))
        at = piece.end()
    return found


def shortened(text: str) -> str:
    """The first of a long text, as a message has it."""
    return text if len(text) <= 80 else text[:78] + ".."


class _Reader:
    def __init__(self, text: str) -> None:
        self.tokens = tokens(text)
        self.at = 0

    def next(self) -> Optional[Token]:
        return self.tokens[self.at] if self.at < len(self.tokens) else None

    def take(self) -> Token:
        found = self.next()
        if found is None:
            raise NoMarker("the marker ends too early")
        self.at += 1
        return found

    def joined(self, word: str, part: Callable[[int], Marker], depth: int) -> Marker:
        parts = [part(depth)]
        while self.next() == ("word", word):
            self.at += 1
            parts.append(part(depth))
        return parts[0] if len(parts) == 1 else Join(word, parts)

    def either(self, depth: int) -> Marker:
        return self.joined("or", self.both, depth)

    def both(self, depth: int) -> Marker:
        return self.joined("and", self.atom, depth)

    def atom(self, depth: int) -> Marker:
        if self.next() == ("mark", "("):
            if depth == DEEPEST:
                raise NoMarker("the marker's parentheses nest too deep")
            self.at += 1
            inside = self.either(depth + 1)
            if self.take() != ("mark", ")"):
                raise NoMarker("a `(` has no `)`")
            return inside
        left, op, right = self.take(), self.operator(), self.take()
        return comparison(left, op, right)

    def operator(self) -> str:
        kind, text = self.take()
        if (kind, text) == ("word", "not"):
            kind, text = self.take()
            if (kind, text) != ("word", "in"):
                raise NoMarker("`not` without `in`")
            return "not in"
        if kind != "op" and (kind, text) != ("word", "in"):
            raise NoMarker(f"`{text}` is no operator")
        return text


def variable_of(token: Token) -> str:
    name = OLD_SPELLINGS.get(token[1], token[1])
    if token[0] != "word" or name not in VARIABLES:
        near = difflib.get_close_matches(token[1], VARIABLES, 1) if token[0] == "word" else []
        raise NoMarker(f"`{token[1]}` is no variable of a marker" + (f"; is `{near[0]}` meant?" if near else ""))
    return name


def comparison(left: Token, op: str, right: Token) -> Atom:
    if (left[0] == "literal") == (right[0] == "literal"):
        raise NoMarker("a comparison wants one variable and one text")
    if left[0] != "literal":
        return judged(Atom(variable_of(left), op, right[1], False))
    variable = variable_of(right)
    if op in ("in", "not in"):
        return judged(Atom(variable, op, left[1], True))
    if op not in MIRRORED:
        raise NoMarker(f"`{op}` wants its variable on the left")
    return judged(Atom(variable, MIRRORED[op], left[1], False))


def judged(atom: Atom) -> Atom:
    """The comparison where it has a meaning."""
    variable, op = atom.variable, atom.op
    if op == "===" or (op == "~=" and variable not in PYTHONS) or (variable == "extra" and op not in ("==", "!=")):
        raise NoMarker(f"`{op}` doesn't go with {variable}")
    if variable in PYTHONS and not atom.contains:
        try:
            for piece in pieces(atom.literal) if op in ("in", "not in") else [""]:
                versions.version_of(piece) if piece else versions.clause_of(op + atom.literal)
        except versions.NoReading as fault:
            raise NoMarker(f"{variable} {op} '{atom.literal}': {fault}") from None
    return atom


def pieces(literal: str) -> List[str]:
    return [it for it in re.split(r"[ ,]", literal) if it]


def read(text: str) -> Marker:
    reader = _Reader(text)
    found = reader.either(0)
    left = reader.next()
    if left is not None:
        raise NoMarker(f"the marker isn't read from `{shortened(left[1])}` on")
    return found


def all_of(found: List[Optional[Marker]]) -> Optional[Marker]:
    """The marker that holds where all of these do; one that is absent holds everywhere."""
    parts = [it for it in found if it is not None]
    return Join("and", parts) if len(parts) > 1 else parts[0] if parts else None


def atoms(marker: Optional[Marker]) -> Iterator[Atom]:
    if isinstance(marker, Atom):
        yield marker
    elif marker is not None:
        for part in marker.parts:
            yield from atoms(part)


def truth(marker: Optional[Marker], known: Mapping[str, str]) -> Optional[bool]:
    """The marker's truth where `known` has the values of some variables; None where it depends on the others."""
    if marker is None:
        return True
    if isinstance(marker, Atom):
        value = known.get(marker.variable)
        return None if value is None else holds(marker, value)
    found = [truth(it, known) for it in marker.parts]
    deciding = marker.word == "or"
    if deciding in found:
        return deciding
    return None if None in found else not deciding


def holds(atom: Atom, value: str) -> bool:
    op, literal = atom.op, atom.literal
    if atom.contains:
        return (literal in value) == (op == "in")
    if atom.variable == "extra":
        same = value == (versions.normal_name(literal) if versions.NAME.match(literal) else literal) and bool(
            value or not literal
        )
        return same == (op == "==")
    if atom.variable in PYTHONS:
        return python_holds(op, literal, value)
    if op in ("in", "not in"):
        return (value in literal) == (op == "in")
    left: Any = value.encode()
    right: Any = literal.encode()
    if atom.variable == "implementation_version":
        one, other = versions.version(value), versions.version(literal)
        if one is not None and other is not None:
            left, right = one.key, other.key
    return ordered(op, left, right)


@lru_cache(maxsize=MOST_KEPT)
def python_holds(op: str, literal: str, value: str) -> bool:
    found = versions.version_of(value)
    if op in ("in", "not in"):
        return any(versions.clause_of("==" + it).meets(found) for it in pieces(literal)) == (op == "in")
    return versions.clause_of(op + literal).meets(found)


def ordered(op: str, left: Any, right: Any) -> bool:
    compared: Dict[str, Callable[[Any, Any], bool]] = {
        "==": operator.eq, "!=": operator.ne, "<": operator.lt, "<=": operator.le, ">": operator.gt, ">=": operator.ge,
    }  # fmt: skip
    return compared[op](left, right)


def python_points(marker: Optional[Marker], bound: str) -> List[str]:
    """Interpreters of which each piece that the marker's and the bound's literals cut has one."""
    found = {(0, 0, 0)}
    literals = [it.literal for it in atoms(marker) if it.variable in PYTHONS]
    for text in {*literals, bound}:
        for spelled in re.findall(r"[0-9]+(?:\.[0-9]+)*", text):
            numbers = ([versions.number_of(it) for it in spelled.split(".")] + [0, 0])[:3]
            major, minor, micro = numbers
            found |= {(major, minor, micro), (major, minor, micro + 1), (major, minor + 1, 0), (major + 1, 0, 0)}
            if micro:
                found.add((major, minor, micro - 1))
            elif minor:
                found.add((major, minor - 1, 99))
            elif major:
                found.add((major - 1, 99, 99))
    return [".".join(map(str, it)) for it in sorted(found) if max(it) <= versions.LARGEST]


def possible(marker: Optional[Marker], bound: str, extras: List[str]) -> bool:
    """Whether a requirement with this marker can apply on an interpreter that meets `bound`, with an extra or none."""
    if marker is None:
        return True
    clauses = versions.specifiers_of(bound)
    points = python_points(marker, bound)
    if len(points) * sum(1 for _ in atoms(marker)) * (1 + len(extras)) > MOST_ASKED:
        return True
    for point in points:
        if not versions.meets(clauses, versions.version_of(point)):
            continue
        short = ".".join(point.split(".")[:2])
        for extra in ["", *extras]:
            if truth(marker, {"python_version": short, "python_full_version": point, "extra": extra}) is not False:
                return True
    return False


def is_left(conditions: List[Marker], within: Optional[Marker]) -> bool:
    """Whether some environment within a region meets none of the conditions. True, too, where texts are compared
    otherwise than by `==` and `!=`, or too many environments would have to be looked at."""
    whole = Join("and", [*conditions, *([] if within is None else [within])])
    values: Dict[str, List[str]] = {}
    points: List[Dict[str, str]] = [{}]
    for atom in atoms(whole):
        if atom.variable in PYTHONS and not atom.contains:
            continue
        if atom.variable not in TEXTS or atom.contains or atom.op not in ("==", "!="):
            return True
        # No literal has this byte, so it stands for all other texts.
        values.setdefault(atom.variable, ["\0"]).append(atom.literal)
    if any(it.variable in PYTHONS for it in atoms(whole)):
        full = python_points(whole, "")
        points = [{"python_full_version": it, "python_version": ".".join(it.split(".")[:2])} for it in full]
    lists = [sorted(set(it)) for it in values.values()]
    if len(points) * math.prod(map(len, lists)) > MOST_LOOKED_AT:
        return True
    machines = [dict(zip(values, it)) for it in itertools.product(*lists)]
    known = ({**point, **machine} for point in points for machine in machines)
    return any(truth(within, it) and not any(truth(one, it) for one in conditions) for it in known)
