"""Texts of markers made from others: joined, negated, or with the extra that is asked for put in.

Such a text is handed to the program, whose word `marker` says its canonical form. `*` is the text that is always
true, `never` the one that never is.
"""

from __future__ import annotations

from typing import Iterable, List, Optional, Union

from . import versions
from .markers import Atom, Join, Marker, judged

ALWAYS, NEVER = "*", "never"
OPPOSITES = {
    "==": "!=", "!=": "==", "<": ">=", ">=": "<", "<=": ">", ">": "<=", "in": "not in", "not in": "in",
}  # fmt: skip


def every(texts: Iterable[str]) -> str:
    """The marker that is true where all of these are."""
    kept = list(dict.fromkeys(it for it in texts if it != ALWAYS))
    if NEVER in kept:
        return NEVER
    return kept[0] if len(kept) == 1 else " and ".join(f"({it})" for it in kept) or ALWAYS


def some(texts: Iterable[str]) -> str:
    """The marker that is true where one of these is."""
    kept = list(dict.fromkeys(it for it in texts if it != NEVER))
    if ALWAYS in kept:
        return ALWAYS
    return kept[0] if len(kept) == 1 else " or ".join(f"({it})" for it in kept) or NEVER


def of_bound(bound: str) -> str:
    """The marker of the interpreters that meet a bound, such as `>=3.9,<3.12`."""
    return every(f"python_full_version {it.op} '{spelled(it)}'" for it in versions.specifiers_of(bound))


def spelled(clause: versions.Clause) -> str:
    return clause.version.text() + (".*" if clause.prefix else "")


def quoted(literal: str) -> str:
    return f'"{literal}"' if "'" in literal else f"'{literal}'"


def text_of(marker: Optional[Marker]) -> str:
    """A marker as a text; none is always true."""
    if marker is None:
        return ALWAYS
    if isinstance(marker, Join):
        parts = [text_of(it) for it in marker.parts]
        return every(parts) if marker.word == "and" else some(parts)
    if marker.contains:
        return f"{quoted(marker.literal)} {marker.op} {marker.variable}"
    return f"{marker.variable} {marker.op} {quoted(marker.literal)}"


def negated(marker: Marker) -> Marker:
    """The marker that is true where another isn't."""
    if isinstance(marker, Join):
        return Join("or" if marker.word == "and" else "and", [negated(it) for it in marker.parts])
    if marker.op != "~=":
        return marker._replace(op=OPPOSITES[marker.op])
    limit = versions.version_of(marker.literal)
    front = ".".join(map(str, limit.release[:-1]))
    epoch = f"{limit.epoch}!" if limit.epoch else ""
    return Join("or", [marker._replace(op="<"), marker._replace(op="!=", literal=f"{epoch}{front}.*")])


def with_extra(marker: Marker, extra: str) -> Union[Marker, bool]:
    """A marker with the comparisons of `extra` replaced by their truth; a truth where nothing else is left."""
    if isinstance(marker, Atom):
        return extra_truth(marker, extra) if marker.variable == "extra" else marker
    parts: List[Marker] = []
    deciding = marker.word == "or"
    for part in marker.parts:
        found = with_extra(part, extra)
        if found is deciding:
            return deciding
        if not isinstance(found, bool):
            parts.append(found)
    if not parts:
        return not deciding
    return parts[0] if len(parts) == 1 else Join(marker.word, parts)


def extra_truth(atom: Atom, extra: str) -> bool:
    """Whether a comparison of `extra` holds where this extra is asked for; the empty text is none."""
    literal = versions.normal_name(atom.literal) if versions.NAME.match(atom.literal) else atom.literal
    return (literal == extra) == (judged(atom).op == "==")


def truth_text(found: Union[Marker, bool]) -> str:
    return (ALWAYS if found else NEVER) if isinstance(found, bool) else text_of(found)


def at_node(marker: Optional[Marker], extra: str) -> str:
    """Where a requirement with this marker is true at a package, or at an extra of it: there it is what the extra adds,
    and not what holds without it."""
    if marker is None:
        return NEVER if extra else ALWAYS
    plain, asked = with_extra(marker, ""), with_extra(marker, extra)
    if not extra or plain is False:
        return truth_text(asked)
    if plain is True or plain == asked:
        return NEVER
    assert not isinstance(plain, bool)
    return every([truth_text(asked), text_of(negated(plain))])
