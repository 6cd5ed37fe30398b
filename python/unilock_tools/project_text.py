"""The text of a changed project file, as far as the program reads it: its tables with another value at a place."""

from __future__ import annotations

import copy
from collections.abc import Collection
from typing import Any

from . import places
from .profile import Tables, table
from .toml_texts import tables_text
from .versions import normal_name


def toml_text(tables: Tables) -> str:
    """The tables that the program reads, as TOML."""
    kept = tables_at(tables, ("project", "dependency-groups"))
    tool = tables_at(table(tables.get("tool")), ("uv", "unilock"))
    return tables_text({**kept, "tool": tool} if tool else kept)


def tables_at(tables: Tables, keys: Collection[str]) -> Tables:
    """The tables at some keys, but for what isn't one."""
    return {key: it for key, it in tables.items() if key in keys and isinstance(it, dict)}


def changed(tables: Tables, place: str, value: object) -> Tables:
    """The tables with another value at a place, whose tables are made where they aren't there."""
    made = copy.deepcopy(tables)
    at: Any = made
    steps = list(places.steps_of(place))
    for number, (key, element) in enumerate(steps):
        same = [it for it in at if normal_name(it) == key]
        key = key if key in at or not same else same[0]
        if number == len(steps) - 1 and element is None:
            at[key] = value
        elif number == len(steps) - 1:
            at[key][element] = value
        else:
            at = at.setdefault(key, {})
    return made
