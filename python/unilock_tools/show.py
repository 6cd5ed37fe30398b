"""Writes a lock as one page: packages, the version that each machine gets, why a package is there, the graph, changes.

    show LOCK [OTHER] -o page.html

The page is one file that asks nothing of a network. With OTHER, another lock, it says what changes from LOCK to OTHER.
A refusal (what `unilock lock` prints with status 1), and what `outdated --json` prints, are shown where they are
handed in.

Needs the standard library alone. Status: 0 written; 1 a lock or a handed-in file can't be read; 2 the words aren't
right.
"""

from __future__ import annotations

import argparse
import base64
import hashlib
import json
from collections import deque
from pathlib import Path
from typing import Any, Iterator, Mapping

from . import console, diff, locks, markers
from .console import Refused
from .locks import Edge, Lock, Package
from .machine import PLATFORMS
from .markers import Atom, Join, Marker

PAGE = Path(__file__).parent / "page"
# The interpreters of the table of machines.
PYTHONS = ["3.9", "3.10", "3.11", "3.12", "3.13"]
SYSTEMS = {"linux": "Linux", "macos": "macOS", "windows": "Windows"}
PLATFORM_WORDS = {
    ("sys_platform", "win32"): "Windows",
    ("sys_platform", "linux"): "Linux",
    ("sys_platform", "darwin"): "macOS",
    ("platform_system", "Windows"): "Windows",
    ("platform_system", "Linux"): "Linux",
    ("platform_system", "Darwin"): "macOS",
    ("os_name", "nt"): "Windows",
    ("os_name", "posix"): "POSIX systems",
    ("platform_python_implementation", "CPython"): "CPython",
    ("platform_python_implementation", "PyPy"): "PyPy",
    ("implementation_name", "cpython"): "CPython",
    ("implementation_name", "pypy"): "PyPy",
}
PYTHON_WORDS = {
    ">=": "Python {} and later",
    "<": "Python before {}",
    ">": "Python after {}",
    "<=": "Python up to {}",
    "==": "Python {}",
    "!=": "any Python but {}",
}


def atom_words(atom: Atom) -> str:
    """A comparison in words, or as it is spelled where there are none for it."""
    if atom.variable in markers.PYTHONS and atom.op in PYTHON_WORDS and not atom.contains:
        short = atom.literal[:-2] if atom.literal.endswith(".0") and atom.literal.count(".") == 2 else atom.literal
        return PYTHON_WORDS[atom.op].format(short)
    place = PLATFORM_WORDS.get((atom.variable, atom.literal))
    if place and atom.op in ("==", "!=") and not atom.contains:
        return f"on {place}" if atom.op == "==" else f"not on {place}"
    if atom.contains:
        return f"'{atom.literal}' {atom.op} {atom.variable}"
    return f"{atom.variable} {atom.op} '{atom.literal}'"


def marker_words(marker: Marker) -> str:
    if isinstance(marker, Atom):
        return atom_words(marker)
    parts = [marker_words(it) for it in marker.parts]
    if marker.word == "and":
        parts = [f"({text})" if isinstance(it, Join) else text for it, text in zip(marker.parts, parts)]
    return (", or " if marker.word == "or" else ", ").join(parts)


def where(text: str) -> str:
    """A marker of a lock in words; everywhere, where there is none."""
    if not text:
        return ""
    try:
        return marker_words(markers.read(text))
    except markers.NoMarker:
        return text


def machine_of(system: str, python: str) -> dict[str, str]:
    """The variables of a usual machine with this system and CPython."""
    os_name, sys_platform, platform_system, usual = PLATFORMS[system]
    full = f"{python}.0"
    return {
        "os_name": os_name,
        "sys_platform": sys_platform,
        "platform_system": platform_system,
        "platform_machine": usual,
        "platform_python_implementation": "CPython",
        "platform_release": "",
        "platform_version": "",
        "implementation_name": "cpython",
        "implementation_version": full,
        "python_version": python,
        "python_full_version": full,
    }


def holds(text: str, machine: Mapping[str, str]) -> bool:
    if not text:
        return True
    try:
        return bool(markers.truth(markers.read(text), machine))
    except markers.NoMarker:
        return False


Node = tuple[str, str, "str | None"]


def edges_of(package: Package, extra: str | None) -> list[Edge]:
    return package.edges if extra is None else package.extras.get(extra, [])


def walked(lock: Lock, machine: Mapping[str, str]) -> dict[str, str] | None:
    """The version of each name on a machine, with all extras of the root; None where the lock isn't made for it."""
    if not holds(lock.supported, machine):
        return None
    known = {(it.name, it.version): it for it in lock.packages}
    root = lock.root_package()
    todo: deque[Node] = deque((root.name, root.version, it) for it in [None, *root.extras])
    seen: set[Node] = set(todo)
    while todo:
        name, version, extra = todo.popleft()
        for edge in edges_of(known[name, version], extra):
            node = (edge.name, edge.version, edge.extra)
            if node not in seen and holds(edge.marker, machine):
                seen.add(node)
                todo.append(node)
    return {name: version for name, version, _ in seen if name != lock.root}


def ways_from_root(lock: Lock) -> dict[tuple[str, str], str]:
    """For each package the one before it on a shortest way from the root, as `name version`; nothing for the root."""
    known = {(it.name, it.version): it for it in lock.packages}
    root = lock.root_package()
    before = {(root.name, root.version): ""}
    todo = deque([root])
    while todo:
        package = todo.popleft()
        for _, edge in package.all_edges():
            key = (edge.name, edge.version)
            if key not in before:
                before[key] = f"{package.name} {package.version}"
                todo.append(known[key])
    return before


def packages_told(lock: Lock) -> Iterator[dict[str, Any]]:
    before = ways_from_root(lock)
    for package in lock.packages:
        edges = [
            {
                "name": edge.name,
                "version": edge.version,
                "of": edge.extra or "",
                "for": extra or "",
                "marker": edge.marker,
                "where": where(edge.marker),
            }
            for extra, edge in package.all_edges()
        ]
        yield {
            "name": package.name,
            "version": package.version,
            "extras": list(package.extras),
            "files": [{"file": file, "hash": digest} for file, digest in package.files],
            "edges": edges,
            "before": before.get((package.name, package.version), ""),
        }


def machines_told(lock: Lock) -> list[dict[str, Any]]:
    found = []
    for system, words in SYSTEMS.items():
        for python in PYTHONS:
            versions = walked(lock, machine_of(system, python))
            if versions is not None:
                found.append({"machine": f"{words}, Python {python}", "versions": versions})
    return found


def shared(machines: list[dict[str, Any]]) -> dict[str, Any]:
    """The machines, each with the number of its selection of versions: most have the same."""
    selections: list[dict[str, str]] = []
    rows = []
    for one in machines:
        if one["versions"] not in selections:
            selections.append(one["versions"])
        rows.append({"machine": one["machine"], "selection": selections.index(one["versions"])})
    return {"machines": rows, "selections": selections}


def told(lock: Lock, other: Lock | None, more: Mapping[str, Any]) -> dict[str, Any]:
    """All that the page shows, as data."""
    root = lock.root_package()
    return {
        "root": f"{root.name} {root.version}",
        "supported": where(lock.supported) or "every environment",
        "forks": [{"marker": it, "where": where(it)} for it in lock.forks],
        "packages": list(packages_told(lock)),
        **shared(machines_told(lock)),
        "changes": None if other is None else diff.difference(lock, other, False),
        **more,
    }


def refusal_told(text: str) -> dict[str, Any]:
    """A refusal's lines: the region, the needs of its core, and the lines in front."""
    lines = [it for it in text.splitlines() if it]
    if not lines or not lines[0].startswith("no selection serves"):
        raise Refused("it is no refusal: it doesn't begin with `no selection serves this fork`")
    region = next((it[len("region: ") :] for it in lines if it.startswith("region: ")), "")
    needs = [it.split(" needs ", 1) for it in lines if " needs " in it]
    return {"region": where(region) or region, "needs": needs, "lines": lines}


def embedded(data: Mapping[str, Any]) -> str:
    """JSON that can stand in a page: nothing in it begins or ends markup."""
    text = json.dumps(data, separators=(",", ":"), ensure_ascii=True)
    return text.replace("<", "\\u003c").replace(">", "\\u003e").replace("&", "\\u0026")


def page(data: Mapping[str, Any]) -> str:
    """The page: its style and its script stand in it, and nothing else may run or be fetched."""
    script = (PAGE / "page.js").read_text(encoding="utf-8")
    style = (PAGE / "page.css").read_text(encoding="utf-8")
    digests = [base64.b64encode(hashlib.sha256(it.encode()).digest()).decode() for it in (script, style)]
    policy = f"default-src 'none'; script-src 'sha256-{digests[0]}'; style-src 'sha256-{digests[1]}'; base-uri 'none'"
    return (
        '<!DOCTYPE html>\n<html lang="en">\n<head>\n<meta charset="utf-8">\n'
        f'<meta http-equiv="Content-Security-Policy" content="{policy}">\n'
        '<meta name="viewport" content="width=device-width, initial-scale=1">\n'
        f"<title>unilock</title>\n<style>{style}</style>\n</head>\n<body>\n"
        '<main id="page"></main>\n'
        f'<script type="application/json" id="data">{embedded(data)}</script>\n'
        f"<script>{script}</script>\n</body>\n</html>\n"
    )


def handed_in(path: str | None) -> Any:
    if path is None:
        return None
    try:
        return json.loads(console.text_of(path))
    except ValueError as fault:
        raise Refused(f"{path}: it isn't JSON: {fault}") from None


def parser() -> console.Parser:
    made = console.Parser("show", __doc__)
    made.add_argument("lock", metavar="LOCK", help="the lock")
    made.add_argument("other", metavar="OTHER", nargs="?", help="another lock: what changes from LOCK to OTHER")
    made.add_argument("-o", "--out", metavar="FILE", required=True, help="the page (`-`: standard output)")
    made.add_argument("--refusal", metavar="FILE", help="a refusal, as `unilock lock` prints it")
    made.add_argument("--outdated", metavar="FILE", help="what `outdated --json` printed")
    made.add_argument("--coverage", metavar="FILE", help="what has files for what, as JSON with `rows`")
    return made


def run(asked: argparse.Namespace) -> int:
    lock = locks.load(asked.lock)
    other = None if asked.other is None else locks.load(asked.other)
    more = {
        "refusal": None if asked.refusal is None else refusal_told(console.text_of(asked.refusal)),
        "outdated": handed_in(asked.outdated),
        "coverage": handed_in(asked.coverage),
    }
    console.put(page(told(lock, other, more)), asked.out)
    if asked.out != "-":
        console.say(f"{asked.out} is written: {console.counted(len(lock.packages), 'package')}")
    return 0


def main(words: list[str] | None = None) -> int:
    asked = parser().read(words)
    return console.ended("show", lambda: run(asked))
