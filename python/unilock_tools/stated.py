"""Metadata of releases that the project file states: `tool.uv.dependency-metadata`.

    [[tool.uv.dependency-metadata]]
    name = "chumpy"
    version = "0.70"
    requires-dist = ["numpy>=1.8.1", "scipy>=0.13.0"]

What stands there counts in the place of what the release's files say, so none of them is read and none is built. An
entry without a version is for all releases of its name that have none of their own.
"""

from __future__ import annotations

from collections.abc import Mapping
from typing import Any

from . import archives
from .archives import Metadata
from .console import Refused
from .index_settings import uv_table
from .readings import requirement_fault
from .versions import NAME, Key, normal_name, specifiers_fault, version

KEY = "tool.uv.dependency-metadata"
# What an entry may say. Which extras there are is told by the markers of its requirements.
KEYS = ("name", "version", "requires-dist", "requires-python", "provides-extra", "provides-extras")


class Stated:
    """What a project file states of releases, by their names and versions; with an empty version of all of a name."""

    def __init__(self, tables: Mapping[str, Any]) -> None:
        self.found: dict[tuple[str, Key | None], Metadata] = {}
        listed = uv_table(tables).get("dependency-metadata", [])
        if not isinstance(listed, list):
            raise Refused(f"{KEY}: it isn't a list of tables", 3)
        for number, entry in enumerate(listed):
            place = f"{KEY}[{number}]"
            metadata = metadata_in(place, entry)
            read = version(metadata.version)
            if self.found.setdefault((metadata.name, None if read is None else read.key), metadata) is not metadata:
                what = f"{metadata.name} {metadata.version or 'without a version'}"
                raise Refused(f"{place}: {what} stands there twice", 3)

    def of(self, name: str, spelled: str) -> Metadata | None:
        """What is stated of a release."""
        read = version(spelled)
        found = self.found.get((name, None if read is None else read.key)) or self.found.get((name, None))
        return None if found is None or read is None else found._replace(version=spelled)

    def of_file(self, file: str) -> Metadata | None:
        """What is stated of the release that a wheel or a source distribution is of."""
        if not self.found:
            return None
        name, spelled = archives.parts_of(file)
        return self.of(normal_name(name), spelled)


def metadata_in(place: str, entry: object) -> Metadata:
    """An entry, whose version is empty where it is for all of a name's releases."""
    if not isinstance(entry, dict) or not isinstance(entry.get("name"), str) or not NAME.match(entry["name"]):
        raise Refused(f"{place}: it isn't a table with a `name`", 3)
    unknown = sorted(set(entry) - set(KEYS))
    if unknown:
        raise Refused(f"{place}: {unknown[0]!r} is none of {', '.join(KEYS[:-1])}", 3)
    spelled, bound, required = entry.get("version", ""), entry.get("requires-python"), entry.get("requires-dist", [])
    if not isinstance(spelled, str) or (spelled and version(spelled) is None):
        raise Refused(f"{place}: its `version` is none of PEP 440", 3)
    if bound is not None and (not isinstance(bound, str) or specifiers_fault(bound)):
        raise Refused(f"{place}: its `requires-python` is no bound on the interpreter", 3)
    if not isinstance(required, list) or not all(isinstance(it, str) for it in required):
        raise Refused(f"{place}: its `requires-dist` isn't a list of texts", 3)
    fault = next((it for it in map(requirement_fault, required) if it), None)
    if fault is not None:
        raise Refused(f"{place}: requires-dist: {fault}", 3)
    return Metadata(normal_name(entry["name"]), spelled, bound or None, tuple(required))
