"""Scripts that have their requirements in them (PEP 723), in a block of comments:

    # /// script
    # requires-python = ">=3.11"
    # dependencies = ["requests<3", "rich"]
    # ///

Such a block is TOML with `dependencies`, `requires-python` and `tool`. The script stands for a project of a name that
no package has, and its lock stands beside it as `script.py.lock`.
"""

from __future__ import annotations

import re
from pathlib import Path
from typing import Any, NamedTuple

from . import console
from .console import Refused
from .vendored import toml_reader
from .versions import normal_name
from .workspaces import Workspace

ENDINGS = (".py", ".pyw")
LOCK = ".lock"
START, END = "# /// script", "# ///"
OPENING = re.compile(r"# /// [a-zA-Z0-9-]+\Z")
KEYS = ("dependencies", "requires-python", "tool")
# The program reads no longer file of a project either.
MOST_BYTES = 1 << 24


class Block(NamedTuple):
    """The text of a script's block, and the number of its first line in the script."""

    text: str
    line: int


def is_script(path: Path | str) -> bool:
    return Path(path).suffix.lower() in ENDINGS


def lock_of(path: str) -> str:
    return path + LOCK


def of_lock(lock: str) -> Path | None:
    """The script that a lock is of, by its name; None where it is that of a project."""
    named = lock[: -len(LOCK)] if lock.endswith(LOCK) else ""
    return Path(named) if is_script(named) else None


def comments_from(lines: list[str], at: int) -> int:
    """The number of the first line from here on that isn't a line of a block."""
    while at < len(lines) and (lines[at] == "#" or lines[at].startswith("# ")):
        at += 1
    return at


def blocks_in(text: str) -> list[Block]:
    """The blocks `script` of a text. A block begins at its first line and goes to the last line of its end before the
    comments end; one without an end is no block."""
    lines = text.removeprefix("\ufeff").replace("\r\n", "\n").split("\n")
    found, at = [], 0
    while at < len(lines):
        if not OPENING.match(lines[at]):
            at += 1
            continue
        after = comments_from(lines, at + 1)
        ends = [number for number in range(at + 2, after) if lines[number] == END]
        if ends:
            inner = [it[2:] for it in lines[at + 1 : ends[-1]]]
            found += [Block("\n".join(inner) + "\n", at + 2)] if lines[at] == START else []
        # Without an end behind this beginning no later one before the comments end has one either.
        at = ends[-1] + 1 if ends else max(after, at + 1)
    return found


def block_of(path: Path) -> Block:
    """The one block of a script."""
    if not path.is_file():
        raise Refused(f"{path}: there is no such file", 3)
    found = blocks_in(console.text_of(str(path), MOST_BYTES))
    if not found:
        lines = f"    {START}\n    # dependencies = []\n    {END}"
        raise Refused(f"{path}: it has no requirements in it (PEP 723); it begins them so:\n{lines}", 3)
    if len(found) > 1:
        raise Refused(f"{path}: line {found[1].line - 1}: a second block `{START}` stands there", 3)
    return found[0]


def name_of(path: Path) -> str:
    """The name of the project that a script stands for."""
    plain = re.sub(r"[^a-z0-9]+", "-", normal_name(path.stem)).strip("-")
    return f"script-{plain}" if plain else "script-without-a-name"


def tables_of(path: Path) -> dict[str, Any]:
    """The tables of the project file that a script stands for."""
    block, reader = block_of(path), toml_reader()
    try:
        found: dict[str, Any] = reader.loads(block.text)
    except RecursionError:
        raise Refused(f"{path}: not TOML: it nests too deep", 3) from None
    except ValueError as fault:
        told = re.sub(r"line (\d+)", lambda it: f"line {int(it[1]) + block.line - 1}", str(fault))
        raise Refused(f"{path}: not TOML: {told}", 3) from None
    other = sorted(set(found) - set(KEYS))
    if other:
        raise Refused(f"{path}: {other[0]}: a script has {', '.join(KEYS[:-1])} and {KEYS[-1]} alone", 3)
    own = {key: it for key, it in found.items() if key != "tool"}
    return {"project": {"name": name_of(path), "version": "0", **own}, "tool": found.get("tool", {})}


def workspace_of(path: Path) -> Workspace:
    """A script as a project without members."""
    return Workspace(path, tables_of(path), {}, False)
