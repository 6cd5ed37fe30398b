"""How a project file is handed to the program: by the wide profile, unless it says `strict` itself.

The program reads a file by the profile that the file says, and by the strict one where it says none. So the tools put
together a copy that says `wide`. What the program tells of the copy is told of the file.

A file with a requirement by a URL is handed on as it stands where nobody puts the release behind the URL into the index
folder (`assembled`): under the wide profile such a requirement asks for whatever release that has.
"""

from __future__ import annotations

import contextlib
import os
import re
import tempfile
from typing import Any, Callable, Dict, Iterator, List, Mapping, Optional, Tuple

from .console import Refused
from .vendored import toml_reader

# The commands whose first word is a project file.
COMMANDS = ("lock", "relock", "why", "check", "verify")
TABLE = re.compile(r"(?m)^[ \t]*\[[ \t]*tool[ \t]*\.[ \t]*unilock[ \t]*\][ \t]*(?:#.*)?$")
WIDE = 'profile = "wide"'
# A longer file is refused by the program.
MOST_BYTES = 1 << 24
BY_URL = re.compile(r"\s*[A-Za-z0-9._-]+\s*(?:\[[^\]]*\])?\s*@")

Tables = Dict[str, Any]


def table(found: object) -> Tables:
    return found if isinstance(found, dict) else {}


def uv_table(tables: Mapping[str, Any]) -> Tables:
    """`[tool.uv]`."""
    return table(table(tables.get("tool")).get("uv"))


def texts_in(found: object) -> Iterator[str]:
    """The texts of a list, or of the lists of a table."""
    if isinstance(found, str):
        yield found
    elif isinstance(found, list):
        for it in found:
            yield from texts_in(it)
    elif isinstance(found, dict):
        for it in found.values():
            yield from texts_in(it)


def has_url(tables: Tables) -> bool:
    """Whether some requirement is one by a URL."""
    project, uv = table(tables.get("project")), uv_table(tables)
    lists = [project.get("dependencies"), project.get("optional-dependencies"), tables.get("dependency-groups")]
    lists += [uv.get(it) for it in ("constraint-dependencies", "override-dependencies", "dev-dependencies")]
    return any(BY_URL.match(it) for found in lists for it in texts_in(found))


def has_sources(tables: Tables) -> bool:
    """Whether something is said to come from elsewhere than an index."""
    return has_url(tables) or bool(uv_table(tables).get("sources"))


def is_put_together(path: str) -> bool:
    """Whether the tools hand the program another file than this one, with its sources or its workspace settled."""
    text = text_of(path) or ""
    tables = tables_of(text) if any(it in text for it in ("sources", "workspace", "@")) else None
    return tables is not None and said(tables) != "strict" and (has_sources(tables) or "workspace" in uv_table(tables))


def said(tables: Tables) -> object:
    """The profile that a file says, where it says one."""
    return table(table(tables.get("tool")).get("unilock")).get("profile")


def is_wide(tables: Tables) -> bool:
    """Whether the program is handed a file with these tables by the wide profile."""
    return said(tables) in ("wide", None)


def tables_of(text: str) -> Optional[Tables]:
    try:
        found: Tables = toml_reader().loads(text)
    except (ValueError, RecursionError, Refused):
        return None
    return found


def widened(text: str) -> Optional[str]:
    """The text of a project file that says `wide`, or nothing where the file is handed on as it stands."""
    tables = tables_of(text)
    if tables is None or said(tables) is not None or has_url(tables):
        return None
    header = TABLE.search(text)
    if header is None:
        made = f"{text}{'' if text.endswith(chr(10)) or not text else chr(10)}[tool.unilock]\n{WIDE}\n"
    else:
        made = f"{text[: header.end()]}\n{WIDE}{text[header.end() :]}"
    found = tables_of(made)
    if found is None or said(found) != "wide" or len(made.encode()) > MOST_BYTES:
        return None
    del found["tool"]["unilock"]["profile"]
    return made if without_empty(found) == without_empty(tables) else None


def without_empty(tables: Tables) -> Tables:
    """The tables without a table `tool.unilock` that says nothing, and without a `tool` that has nothing else."""
    tool = {key: it for key, it in table(tables.get("tool")).items() if key != "unilock" or it != {}}
    others = {key: it for key, it in tables.items() if key != "tool"}
    return {**others, "tool": tool} if tool else others


def text_of(path: str) -> Optional[str]:
    try:
        with open(path, "rb") as file:
            body = file.read(MOST_BYTES + 1)
        return body.decode("utf-8") if len(body) <= MOST_BYTES else None
    except (OSError, UnicodeDecodeError):
        return None


Told = Callable[[bytes], bytes]


@contextlib.contextmanager
def handed(
    words: List[str], folder: Optional[str] = None, room: Optional[str] = None
) -> Iterator[Tuple[List[str], Told]]:
    """The words to call the program with, and what makes of its answer that to the words which were given.

    A copy is kept in `room`, where a folder is named that is nobody else's: making one takes as long as the rest.
    """
    path = os.path.join(folder or "", words[1]) if len(words) > 1 and words[0] in COMMANDS else None
    text = None if path is None else text_of(path)
    made = None if text is None else widened(text)
    if made is None:
        yield words, lambda body: body
        return
    with contextlib.ExitStack() as held:
        fresh = room or held.enter_context(tempfile.TemporaryDirectory(prefix="unilock-project-"))
        copy = os.path.join(fresh, "pyproject.toml")
        with open(copy, "w", encoding="utf-8", newline="") as file:
            file.write(made)
        yield [words[0], copy, *words[2:]], lambda body: body.replace(copy.encode(), words[1].encode())
