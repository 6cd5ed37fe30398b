"""A lock of unilock in the form of `uv.lock`, as uv writes it: for tests of what reads that form.

uv writes what an extra of its own package gives in the place of the edge to it, leaves the version out of an edge where
the lock has one version of the name, and has groups in a list of their own.
"""

from __future__ import annotations

import json
from typing import Dict, Iterator, List, NamedTuple, Set, Tuple

from unilock_tools.locks import Lock, Package
from unilock_tools.project import Project

SOURCE = '{ registry = "https://pypi.org/simple" }'
FILES = "https://files.pythonhosted.org/packages"


class Written(NamedTuple):
    """An edge as uv has it: what it leads to, and the markers that have to hold."""

    name: str
    version: str
    extra: str
    markers: Tuple[str, ...]


def flattened(package: Package, extra: str, before: Tuple[str, ...], seen: Set[str]) -> Iterator[Written]:
    """The edges of a list, those of the package's own extras that it asks for in the place of these."""
    edges = package.extras[extra] if extra else package.edges
    for edge in edges:
        markers = (*before, edge.marker) if edge.marker else before
        if edge.name != package.name:
            yield Written(edge.name, edge.version, edge.extra or "", markers)
        elif edge.extra and edge.extra not in seen:
            yield from flattened(package, edge.extra, markers, {*seen, edge.extra})


def merged(edges: Iterator[Written]) -> List[Written]:
    """The edges without those to a package that goes with an extra of it under the same markers."""
    listed = list(dict.fromkeys(edges))
    whole = {it._replace(extra="") for it in listed if it.extra}
    return [it for it in listed if it not in whole]


def edge_text(edge: Written, several: Set[str]) -> str:
    parts = [f'name = "{edge.name}"']
    if edge.name in several:
        parts += [f'version = "{edge.version}"', f"source = {SOURCE}"]
    parts += [f'extra = ["{edge.extra}"]'] if edge.extra else []
    text = edge.markers[0] if len(edge.markers) == 1 else " and ".join(f"({it})" for it in edge.markers)
    parts += [f"marker = {json.dumps(text)}"] if text else []
    return f"    {{ {', '.join(parts)} }},"


def list_lines(key: str, edges: List[Written], several: Set[str]) -> List[str]:
    return [f"{key} = [", *(edge_text(it, several) for it in edges), "]"] if edges else []


def block_lines(package: Package, lock: Lock, several: Set[str], asked: Set[str]) -> List[str]:
    is_root = package.name == lock.root
    lines = ["", "[[package]]", f'name = "{package.name}"', f'version = "{package.version}"']
    lines.append(f"source = {'{ virtual = ' + json.dumps('.') + ' }' if is_root else SOURCE}")
    lines += list_lines("dependencies", merged(flattened(package, "", (), set())), several)
    tables: Dict[str, List[str]] = {"optional-dependencies": [], "dev-dependencies": []}
    for extra in package.extras:
        key = "dev-dependencies" if is_root and extra.startswith("group-") else "optional-dependencies"
        # uv has no list of an extra that nothing but another extra of its package asks for.
        if is_root or extra in asked:
            name = extra.removeprefix("group-") if key == "dev-dependencies" else extra
            tables[key] += list_lines(name, merged(flattened(package, extra, (), {extra})), several)
    if package.files:
        lines.append("wheels = [")
        lines += [f'    {{ url = "{FILES}/{name}", hash = "sha256:{it}", size = 9 }},' for name, it in package.files]
        lines.append("]")
    for key, listed in tables.items():
        lines += ["", f"[package.{key}]", *listed] if listed else []
    if is_root:
        lines += ["", "[package.metadata]", "requires-dist = []"]
        lines.append(f"provides-extras = {json.dumps([it for it in package.extras if not it.startswith('group-')])}")
    return lines


def uv_text(lock: Lock, project: Project) -> str:
    """The text of a `uv.lock` that says what a lock of unilock says."""
    several = {name for name, found in lock.by_name().items() if len(found) > 1}
    asked: Dict[str, Set[str]] = {}
    for package in lock.packages:
        for _, edge in package.all_edges():
            if edge.extra and edge.name != package.name:
                asked.setdefault(edge.name, set()).add(edge.extra)
    lines = ["version = 1", "revision = 3", f"requires-python = {json.dumps(project.requires_python or '>=0')}"]
    if lock.forks:
        lines += ["resolution-markers = [", *(f"    {json.dumps(it)}," for it in lock.forks), "]"]
    listed = project.settings.get("environments", [])
    environments = [listed] if isinstance(listed, str) else listed
    if environments:
        lines += ["supported-markers = [", *(f"    {json.dumps(it)}," for it in environments), "]"]
    for package in lock.packages:
        lines += block_lines(package, lock, several, asked.get(package.name, set()))
    return "\n".join(lines) + "\n"
