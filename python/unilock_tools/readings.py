"""Requirements (PEP 508), as the program reads them, and what keeps it from reading a text. Standard library alone."""

from __future__ import annotations

import re
from typing import List, NamedTuple, Optional, Tuple

from . import markers
from .markers import NoMarker
from .versions import BLANKS, WHITE, Clause, NoReading, name_of, specifiers_of


class Requirement(NamedTuple):
    """A requirement: name and extras in normal form, its clauses with their text, and its marker where it has one."""

    name: str
    extras: Tuple[str, ...]
    clauses: List[Clause]
    specifiers: str
    marker: Optional[markers.Marker]
    text: str


def requirement_of(text: str) -> Requirement:
    head = re.match(r"[A-Za-z0-9._-]*", text.strip(WHITE), re.ASCII)
    body = text.strip(WHITE)
    name = name_of(head.group()) if head else ""
    rest = body[head.end() if head else 0 :].lstrip(BLANKS)
    extras: Tuple[str, ...] = ()
    if rest.startswith("["):
        inside, bracket, rest = rest[1:].partition("]")
        if not bracket:
            raise NoReading(f"`{body}`: the `[` has no `]`")
        extras = tuple(name_of(it.strip(BLANKS)) for it in inside.split(",")) if inside.strip(BLANKS) else ()
        rest = rest.lstrip(BLANKS)
    if rest.startswith("@"):
        raise NoReading(f"`{body}`: a URL isn't supported")
    rest, semicolon, marker = rest.partition(";")
    rest = rest.strip(BLANKS)
    if rest.startswith("("):
        if not rest.endswith(")"):
            raise NoReading(f"`{body}`: the `(` has no `)`")
        rest = rest[1:-1]
    try:
        clauses = specifiers_of(rest)
        read = markers.read(marker) if semicolon else None
    except (NoReading, NoMarker) as fault:
        raise NoReading(f"`{body}`: {fault}") from None
    return Requirement(name, extras, clauses, rest.strip(), read, body)


def requirement_fault(text: str) -> Optional[str]:
    """What keeps a requirement from being read, or None."""
    try:
        requirement_of(text)
    except NoReading as fault:
        return str(fault)
    return None
