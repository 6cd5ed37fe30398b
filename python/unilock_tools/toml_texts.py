"""Values and tables as TOML writes them."""

from __future__ import annotations

import datetime
import json
import re
from typing import Any, Dict, List, Mapping, Tuple, Union

from .console import Refused

Value = Union[str, int, List[str], Dict[str, "Value"]]
# A table of more names than `[a.b.c]` has stands on one line.
MOST_NAMES = 3
BARE = re.compile(r"[A-Za-z0-9_-]+\Z", re.ASCII)


def toml_value(value: Any) -> str:
    """A value as TOML writes it on one line: a text, a number, a date, a truth, a list, or an inline table."""
    if isinstance(value, str):
        return toml_text(value)
    if isinstance(value, bool):
        return "true" if value else "false"
    if isinstance(value, (int, float)):
        return str(value)
    if isinstance(value, (datetime.date, datetime.time)):
        return value.isoformat()
    if isinstance(value, list):
        return f"[{', '.join(toml_value(it) for it in value)}]"
    if isinstance(value, dict):
        inner = ", ".join(f"{toml_key(key)} = {toml_value(it)}" for key, it in value.items())
        return f"{{ {inner} }}" if inner else "{}"
    raise Refused(f"{value!r} has no place in a file of TOML")


def toml_key(key: str) -> str:
    return key if BARE.match(key) else toml_text(key)


def toml_text(text: str) -> str:
    """A text as a basic string of TOML."""
    if any("\ud800" <= it <= "\udfff" for it in text):
        raise Refused(f"{text!r} is no text that a file of TOML can have")
    return json.dumps(text, ensure_ascii=False).replace("\x7f", "\\u007F")


def toml_lines(value: Any) -> str:
    """A value of which a list of texts has a line for each."""
    if isinstance(value, list) and value and all(isinstance(it, str) for it in value):
        return "[\n" + "".join(f"    {toml_text(it)},\n" for it in value) + "]"
    return toml_value(value)


def tables_text(tables: Mapping[str, Any], names: Tuple[str, ...] = ()) -> str:
    """Tables as a file: the values of each, then the tables in it, each under its whole name."""
    inner = {key: it for key, it in tables.items() if isinstance(it, dict) and len(names) < MOST_NAMES}
    lines = [f"{toml_key(key)} = {toml_lines(it)}\n" for key, it in tables.items() if key not in inner]
    if names and (lines or not inner):
        lines.insert(0, f"[{'.'.join(map(toml_key, names))}]\n")
    below = [tables_text(it, (*names, key)) for key, it in inner.items()]
    return "\n".join([*(["".join(lines)] if lines else []), *below])
