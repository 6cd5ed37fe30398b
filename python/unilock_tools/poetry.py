"""A `[project]` table that says what a Poetry project says in `tool.poetry`, as lines to put into the file.

Poetry's constraints (`^1.2`, `~1.2`, `1.2`, `*`, several with `,`) are written as specifiers of PEP 440. What has no
such form (a path, a repository, a constraint with `||`) is told as left out.
"""

from __future__ import annotations

import json
import re
from typing import Any, Dict, Iterator, List, Optional, Set, Tuple

from . import advice
from .readings import requirement_fault
from .versions import normal_name, specifiers_fault, version


def specifiers(constraint: str) -> Optional[str]:
    """The specifiers of a constraint, or None where it has none."""
    pieces = []
    for text in constraint.split(","):
        found = re.fullmatch(r"\s*(\^|~(?!=)|)\s*v?([0-9][^\s]*)\s*", text)
        read = version(found[2]) if found else None
        if found and read is not None:
            bounds = {"^": advice.caret, "~": advice.tilde}
            pieces.append(bounds[found[1]](found[2], read) if found[1] else f"=={found[2]}")
        elif text.strip() not in ("", "*"):
            pieces.append("".join(text.split()))
    made = ",".join(pieces)
    return made if specifiers_fault(made) is None else None


def requirement(name: str, value: Any) -> Optional[str]:
    """The requirement of an entry of `tool.poetry.dependencies`, or None where it has none."""
    table: Dict[str, Any] = value if isinstance(value, dict) else {"version": value}
    bounds = specifiers(table["version"]) if isinstance(table.get("version"), str) else None
    if bounds is None:
        return None
    extras = table.get("extras") or []
    listed = f"[{','.join(map(str, extras))}]" if isinstance(extras, list) and extras else ""
    parts = [str(table["markers"])] if table.get("markers") else []
    python = specifiers(str(table["python"])) if table.get("python") else None
    parts += [f"python_version {it}" for it in quoted(python or "")]
    marker = f"; {' and '.join(f'({it})' if len(parts) > 1 else it for it in parts)}" if parts else ""
    text = f"{name}{listed}{bounds}{marker}"
    return text if requirement_fault(text) is None else None


def quoted(bounds: str) -> Iterator[str]:
    """Specifiers as the right side of comparisons: `>= '3.9'`."""
    for piece in filter(None, bounds.split(",")):
        found = re.match(r"([<>=!~]+)(.*)", piece)
        if found:
            yield f"{found[1]} '{found[2]}'"


def listed(table: Any) -> Tuple[List[str], List[str]]:
    """The requirements of a table of dependencies, and the names of those that have no such form."""
    found, left = [], []
    for name, value in table.items() if isinstance(table, dict) else []:
        if name.lower() != "python":
            several = value if isinstance(value, list) else [value]
            texts = [requirement(name, it) for it in several]
            found += [it for it in texts if it is not None]
            left += [name] if None in texts else []
    return found, left


def optional_in(dependencies: Any) -> Dict[str, Any]:
    """The dependencies that only an extra asks for."""
    table = dependencies if isinstance(dependencies, dict) else {}
    return {name: it for name, it in table.items() if isinstance(it, dict) and it.get("optional") is True}


def extra_lines(optional: Dict[str, Any], extras: Any) -> Tuple[List[str], List[str]]:
    """The lines of extras, and the names of optional dependencies that no extra has, or that have no such form."""
    lines: List[str] = []
    left: List[str] = []
    met: Set[str] = set()
    for extra, names in extras.items() if isinstance(extras, dict) else []:
        wanted = {normal_name(it) for it in names if isinstance(it, str)} if isinstance(names, list) else set()
        texts, missing = listed({name: it for name, it in optional.items() if normal_name(name) in wanted})
        met |= wanted
        left += missing
        lines += ([] if lines else ["[project.optional-dependencies]"]) + [f"{extra} = {json.dumps(texts)}"]
    return lines, left + [it for it in optional if normal_name(it) not in met]


def project_lines(tables: Dict[str, Any]) -> List[str]:
    """The lines of a `[project]` table for a Poetry project; none where the file is none."""
    tool = tables.get("tool")
    poetry = tool.get("poetry") if isinstance(tool, dict) else None
    if not isinstance(poetry, dict) or "project" in tables:
        return []
    dependencies = poetry.get("dependencies", {})
    optional = optional_in(dependencies)
    always = {name: it for name, it in dependencies.items() if name not in optional} if optional else dependencies
    found, left = listed(always)
    python = specifiers(str(dependencies.get("python", ""))) if isinstance(dependencies, dict) else None
    lines = ["[project]", f"name = {json.dumps(str(poetry.get('name', 'demo')))}"]
    lines += [f"version = {json.dumps(str(poetry.get('version', '0')))}"]
    lines += [f'requires-python = "{python}"'] if python else []
    lines += ["dependencies = [", *(f"    {json.dumps(it)}," for it in found), "]"]
    extras, missing = extra_lines(optional, poetry.get("extras"))
    lines, left = lines + extras, left + missing
    groups = poetry.get("group", {})
    made = {name: listed(it.get("dependencies", {})) for name, it in groups.items()} if isinstance(groups, dict) else {}
    for name, (texts, missing) in made.items():
        lines += ([] if "[dependency-groups]" in lines else ["[dependency-groups]"]) + [f"{name} = {json.dumps(texts)}"]
        left += missing
    return lines + ([f"# left out, since they have no such form: {', '.join(left)}"] if left else [])
