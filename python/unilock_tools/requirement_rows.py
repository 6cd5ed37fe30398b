"""Reading a compiled requirements file: `pip-compile`, `uv pip compile --universal`, `uv export`, `poetry export`.

Each line pins one version, with the marker of where it is installed. What a file says of where packages come from, and
of their hashes, says nothing of what is installed where; another option keeps the file from being judged.
"""

from __future__ import annotations

import re
from typing import Dict, List, Optional, Tuple

from .foreign import Key
from .marker_texts import some, text_of
from .readings import requirement_of
from .rows import Rows, Selection
from .tables import Unread, shortly
from .versions import NoReading

# Options of a line of their own: where packages come from, and how they are built.
PASSED_OVER = [
    "-i", "--index-url", "--pypi-url", "--extra-index-url", "--no-index", "-f", "--find-links", "--trusted-host",
    "--require-hashes", "--pre", "--prefer-binary", "--no-binary", "--only-binary", "--use-feature",
]  # fmt: skip
# The project itself, as `uv export` and `pip-compile` may list it.
ITSELF = [".", "./", "-e .", "-e ./", "--editable .", "-e file:.", "file:."]
HASH = re.compile(r"\s--hash[= ](\w+:[0-9a-fA-F]+)")


def logical_lines(text: str) -> List[Tuple[int, str]]:
    """The lines without comments, those that a backslash joins as one, with the number of the first."""
    found: List[Tuple[int, str]] = []
    held, begin = "", 0
    for number, line in enumerate(text.split("\n"), 1):
        begin = begin if held else number
        line = line.rstrip("\r")
        if line.endswith("\\") and not line.lstrip().startswith("#"):
            held += f"{line[:-1]} "
            continue
        # Beside a hash a comment stands behind a blank; `#` within a URL is none.
        whole = re.sub(r"(^|\s)#.*$", "", held + line).strip()
        held = ""
        if whole:
            found.append((begin, whole))
    if held.strip():
        raise Unread(f"line {begin}: it ends in a backslash")
    return found


def row_of(number: int, line: str) -> Optional[Tuple[Key, str]]:
    """The version that a line pins with its marker, or None where it says nothing of what is installed."""
    if " ".join(line.split()) in ITSELF or re.split(r"[=\s]", line)[0] in PASSED_OVER:
        return None
    try:
        read = requirement_of(HASH.sub("", line))
    except NoReading as fault:
        raise Unread(f"line {number}: {fault}") from None
    pins = [it for it in read.clauses if it.op == "==" and not it.prefix]
    if len(pins) != 1 or len(read.clauses) != 1:
        raise Unread(f"line {number} doesn't pin one version: {shortly(line)}")
    marker = text_of(read.marker)
    if re.search(r"\bextra\b", re.sub(r"'[^']*'|\"[^\"]*\"", "", marker)):
        raise Unread(f"line {number}: a marker that asks for an extra: {shortly(line)}")
    return (read.name, pins[0].version.text()), marker


def read(text: str, extras: List[str], supported: str) -> Rows:
    """The rows of a file that was made for the project with these extras."""
    found: Dict[Key, List[str]] = {}
    for number, line in logical_lines(text.lstrip("\ufeff")):
        row = row_of(number, line)
        if row is not None:
            found.setdefault(row[0], []).append(row[1])
    markers = {key: some(texts) for key, texts in found.items()}
    return Rows(supported, [Selection(tuple(extras), markers)])
