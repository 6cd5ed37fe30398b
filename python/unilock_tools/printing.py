"""Lines as a terminal shows them: wrapped at its width, the rest of a line set in below its beginning; and lists of
versions in them."""

from __future__ import annotations

import re
import shutil
import sys
import textwrap
from typing import List, Optional, TextIO

from .called import named


LEAD = re.compile(r"- |\d+\. |")


def wrapped(line: str, stream: Optional[TextIO] = None) -> str:
    """A sentence wrapped by the width of the terminal that a stream is, standard output if none is named; as it stands
    where that is no terminal.

    A line that is set in is one to be copied, and stays whole.
    """
    line = named(line)
    if not (stream or sys.stdout).isatty() or line.startswith("    ") or "\n" in line:
        return line
    lead = LEAD.match(line)
    inset = " " * (len(lead[0]) if lead and lead[0] else 2)
    width = max(40, shutil.get_terminal_size().columns)
    return textwrap.fill(line, width, subsequent_indent=inset, break_long_words=False, break_on_hyphens=False)


def listed(versions: List[str]) -> str:
    """Versions in a sentence; a long list by its ends."""
    if len(versions) > 6:
        return f"{versions[0]}, {versions[1]}, .. {versions[-1]} ({len(versions)} versions)"
    return " or ".join(", ".join(versions).rsplit(", ", 1))
