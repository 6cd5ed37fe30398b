"""Libraries that some commands need: `requests` for servers, and a reader of TOML where Python has none.

Both are declared in pyproject.toml. Where one isn't installed it is named, with the command that installs it; no copy
inside another package is taken.
"""

from __future__ import annotations

import importlib
import importlib.util
from types import ModuleType
from typing import Any, Dict

from .console import Refused, text_of


def library(name: str) -> ModuleType:
    """A module of an installed library."""
    try:
        return importlib.import_module(name)
    except ImportError:
        top = name.partition(".")[0]
        raise Refused(f"the library {top} isn't installed; `pip install {top}` installs it", 3) from None


TOML_READERS = ("tomllib", "tomli")


def has_toml_reader() -> bool:
    return any(importlib.util.find_spec(it) is not None for it in TOML_READERS)


def toml_reader() -> ModuleType:
    for name in TOML_READERS:
        try:
            return importlib.import_module(name)
        except ImportError:
            continue
    raise Refused("no reader of TOML is installed; `pip install tomli` installs one", 3)


def toml_of(path: str) -> Dict[str, Any]:
    """The tables of a TOML file; a fault is told with its line."""
    text = text_of(path)
    reader = toml_reader()
    try:
        found: Dict[str, Any] = reader.loads(text)
    except RecursionError:
        raise Refused(f"{path}: not TOML: it nests too deep", 3) from None
    except ValueError as fault:
        # The reader's own fault is one; so is a number of thousands of digits.
        raise Refused(f"{path}: not TOML: {fault}", 3) from None
    return found
