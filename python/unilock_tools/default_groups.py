"""The dependency groups that are installed where nobody names one: those of `tool.uv.default-groups`, or `dev` where
there is one."""

from __future__ import annotations

from collections.abc import Mapping
from typing import Any

from .called import command
from .console import Refused
from .index_settings import uv_table
from .locks import Lock
from .versions import normal_name

KEY = "tool.uv.default-groups"
USUAL = "dev"
FRONT = "group-"


def in_file(tables: Mapping[str, Any]) -> set[str]:
    """The groups of a project file."""
    found = tables.get("dependency-groups")
    more = {USUAL} if uv_table(tables).get("dev-dependencies") else set()
    return {normal_name(it) for it in found} | more if isinstance(found, dict) else more


def named(tables: Mapping[str, Any], known: list[str]) -> list[str]:
    """The groups that the project file names; all that are known where it says `all`."""
    listed = uv_table(tables).get("default-groups", [it for it in known if it == USUAL])
    if listed == "all":
        return known
    if not isinstance(listed, list) or not all(isinstance(it, str) for it in listed):
        raise Refused(f'{KEY}: it is neither a list of names nor "all"', 3)
    return [normal_name(it) for it in listed]


def words(tables: Mapping[str, Any], lock: Lock) -> list[str]:
    """The words `group-NAME` of the groups that a lock's project installs by itself. Without a project file (no tables)
    those that the lock has count as its groups."""
    locked = [it[len(FRONT) :] for it in lock.root_package().extras if it.startswith(FRONT)]
    listed = named(tables, [it for it in locked if not tables or it in in_file(tables)])
    absent = [it for it in listed if it not in locked]
    if absent:
        ways = f"`{command('lock')}` locks a group of the project file, and --no-default-groups leaves it out"
        raise Refused(f"{KEY}: the lock has no group {absent[0]} (it has: {', '.join(locked) or 'none'}); {ways}", 8)
    return [f"{FRONT}{it}" for it in dict.fromkeys(listed)]
