"""Where the releases of a package may come from, by `tool.uv.sources`, as the program reads it.

The label of a source is the name of its package index, or `direct` for a path, an address, a repository or a member of
a workspace; its condition is its marker. Where the condition of a source holds, a release has to have its label in its
document's entry (`source`); where no condition of a name's sources holds, one without a label.
"""

from __future__ import annotations

from collections.abc import Iterable, Mapping
from typing import Any, NamedTuple

from . import markers
from .console import Refused, escaped
from .marker_texts import ALWAYS
from .markers import NoMarker
from .printing import listed
from .profile import Tables, uv_table
from .versions import NAME, normal_name

# What `source` of a document's entry says of a release that no index has, so no index may be called so.
DIRECT = "direct"
CONDITIONS = ("marker", "extra", "group")
PLACE = "tool.uv.sources"
OF_EXTRAS = "it would count for extras alone that exclude each other, and those aren't supported; a `marker` is"


class Label(NamedTuple):
    """A source of a name: its index, or `direct`; and its marker, which is empty where it holds everywhere."""

    name: str
    marker: str = ""

    def table(self) -> dict[str, str]:
        """The source as a table of a project file, with what the program reads of it alone."""
        found = {} if self.name == DIRECT else {"index": self.name}
        return {**found, "marker": self.marker} if self.marker else found

    def shown(self) -> str:
        where = "no index" if self.name == DIRECT else f"the index {self.name}"
        return f"{where} where {self.marker}" if self.marker else where


Labels = tuple[Label, ...]


def is_name(text: object) -> bool:
    """Whether an index may be called so."""
    return isinstance(text, str) and NAME.match(text) is not None and normal_name(text) != DIRECT


def read(tables: Mapping[str, Any], path: str) -> dict[str, Labels]:
    """The sources of each name, in their order."""
    before = f"{path}: " if path else ""
    return {name: labels_of(f"{before}{place}", it) for name, (place, it) in tables_in(tables, path).items()}


def tables_in(tables: Mapping[str, Any], path: str) -> dict[str, tuple[str, list[Tables]]]:
    """The tables of each name's sources, with their place."""
    before = f"{path}: " if path else ""
    listed = uv_table(tables).get("sources", {})
    if not isinstance(listed, dict):
        raise Refused(f"{before}{PLACE}: it isn't a table", 3)
    found: dict[str, tuple[str, list[Tables]]] = {}
    for spelled, value in listed.items():
        name = normal_name(spelled)
        place = f"{PLACE}.{escaped(spelled)}"
        if not NAME.match(spelled) or name in found:
            raise Refused(f"{before}{place}: {'it is named twice' if name in found else 'it is no name'}", 3)
        entries = value if isinstance(value, list) else [value]
        if not entries or not all(isinstance(it, dict) for it in entries):
            raise Refused(f"{before}{place}: it is neither a table nor a list of tables", 3)
        found[name] = place, entries
    return found


def labels_of(place: str, entries: list[Tables]) -> Labels:
    return tuple(label_of(place, it) for it in entries)


def label_of(place: str, entry: Tables) -> Label:
    """The label and the condition of one source."""
    index, marker = entry.get("index"), entry.get("marker", "")
    if "index" in entry and not is_name(index):
        raise Refused(f"{place}: its `index` is no name", 3)
    asked = [it for it in ("extra", "group") if it in entry]
    if asked:
        what = f"a source with {' and '.join(asked)}"
        raise Refused(f"{place}: {what}: {OF_EXTRAS}", 3)
    if "marker" in entry:
        judged_marker(place, marker)
    return Label(normal_name(str(index)) if "index" in entry else DIRECT, marker)


def judged_marker(place: str, marker: object) -> None:
    """Refuses a condition that the program doesn't read."""
    if not isinstance(marker, str):
        raise Refused(f"{place}: its `marker` is no text", 3)
    try:
        found = markers.read(marker)
    except NoMarker as fault:
        raise Refused(f"{place}: its `marker`: {fault}", 3) from None
    if any(it.variable == "extra" for it in markers.atoms(found)):
        raise Refused(f"{place}: its `marker` asks for an extra, which a source can't", 3)


def is_conditional(labels: Labels) -> bool:
    """Whether each of a name's sources has a condition, so that others may count where none holds."""
    return all(it.marker for it in labels)


def is_direct(labels: Labels) -> bool:
    """Whether no index is asked for a name."""
    return not is_conditional(labels) and all(it.name == DIRECT for it in labels)


def has_rest(labels: Labels, supported: str) -> bool:
    """Whether a supported environment may be in none of a name's conditions; true where that isn't seen at once."""
    if not is_conditional(labels):
        return False
    conditions = [markers.read(it.marker) for it in labels]
    try:
        return markers.is_left(conditions, None if supported == ALWAYS else markers.read(supported))
    except NoMarker:
        # What is wrong with the project's own markers is told by who reads them.
        return True


def counting(labels: Labels, machine: Mapping[str, str]) -> list[str]:
    """What a release's entry has to say of its source on a machine, each of it: the sources whose condition holds
    there; where none does, nothing."""
    found = [it.name for it in labels if markers.truth(markers.read(it.marker) if it.marker else None, machine)]
    return list(dict.fromkeys(found)) or [""]


def source_of(entry: Mapping[str, Any]) -> str:
    """The source that a document's entry says, in normal form; the empty text where it says none."""
    found = entry.get("source")
    return normal_name(found) if isinstance(found, str) and NAME.match(found) else ""


def as_tables(found: Mapping[str, Labels]) -> dict[str, Any]:
    """`tool.uv.sources`, with what the program reads of it alone."""
    return {name: one_or_list([it.table() for it in labels]) for name, labels in sorted(found.items())}


def one_or_list(listed: list[dict[str, str]]) -> Any:
    return listed[0] if len(listed) == 1 else listed


def told(label: str) -> str:
    """Where releases with a label come from, in words; those without one are of the usual indexes."""
    if label == DIRECT:
        return "a path, a URL, a repository or a member of the workspace"
    return f"the index {label}" if label else "no source"


def of_indexes(labels: Iterable[Label]) -> list[str]:
    """The indexes that sources name, each once."""
    return list(dict.fromkeys(it.name for it in labels if it.name != DIRECT))


def releases_told(releases: Iterable[tuple[str, Mapping[str, Any]]]) -> str:
    """Where the releases of a document come from, in words."""
    found: dict[str, list[str]] = {}
    for spelled, entry in releases:
        found.setdefault(source_of(entry), []).append(spelled)
    return ", ".join(f"{listed(it)} from {told(source)}" for source, it in found.items()) or "none"
