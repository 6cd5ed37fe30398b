"""How the user called these commands, so that a message names another one in the same way."""

from __future__ import annotations

import re
import sys
from pathlib import Path


def command(name: str) -> str:
    """`tools/explain` from a clone, by the same folder as this call; `unilock-tools explain` where it is installed."""
    given = Path(sys.argv[0] if sys.argv else "")
    if given.name == "__main__.py":
        return f"python -m unilock_tools {name}"
    if given.parent.name == "tools":
        return str(given.parent / name)
    return f"unilock-tools {name}" if given.name == "unilock-tools" else f"tools/{name}"


def named(text: str) -> str:
    """A text in which commands stand as `tools/NAME`, each as the user calls it."""
    return re.sub(r"`tools/([a-z]+)", lambda found: f"`{command(found[1])}", text)
