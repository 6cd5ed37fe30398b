"""Says in words what differs between two locks: packages added and removed, versions, extras, edges with their
markers, files.

Needs the standard library alone, and `rich` for colours and columns. Status: 0 the locks are the same in all this; 1
they differ, or a lock can't be read; 2 the words aren't right.
"""

from __future__ import annotations

import argparse
from typing import Any, Dict, Iterator, List, Optional, Tuple

from . import console, locks, terminal
from .locks import Lock, Package
from .terminal import Part, Screen


def parser() -> console.Parser:
    made = console.Parser("diff", __doc__)
    made.add_argument("old", metavar="OLD", help="the older lock")
    made.add_argument("new", metavar="NEW", help="the newer lock")
    made.add_argument("--versions", action="store_true", help="say only which packages and versions differ")
    console.add_json(made)
    terminal.add_color(made)
    return made


def region_lines(old: Lock, new: Lock) -> Iterator[str]:
    for what, was, now in [
        ("root", old.root, new.root),
        ("supported", old.supported or "all", new.supported or "all"),
        ("forks", "; ".join(old.forks) or "none", "; ".join(new.forks) or "none"),
    ]:
        if was != now:
            yield f"{what}: {was} -> {now}"


def edges_of(package: Package) -> Dict[Tuple[Optional[str], str, str, Optional[str]], str]:
    return {(of, edge.name, edge.version, edge.extra): edge.marker for of, edge in package.all_edges()}


def node_text(name: str, extra: Optional[str], version: str) -> str:
    return f"{name}[{extra}] {version}" if extra else f"{name} {version}"


def package_lines(was: Package, now: Package) -> Iterator[str]:
    """What differs in one version of one package that both locks have."""
    before, after = edges_of(was), edges_of(now)
    for key in sorted(set(before) | set(after), key=lambda it: (it[0] or "", it[1], it[2], it[3] or "")):
        of, name, version, extra = key
        head = f"{node_text(now.name, of, now.version)}: "
        target = node_text(name, extra, version)
        if key not in after:
            yield f"{head}no longer needs {target}"
        elif key not in before:
            yield f"{head}now needs {target}" + (f" where {after[key]}" if after[key] else "")
        elif before[key] != after[key]:
            yield f"{head}needs {target} where {after[key] or 'always'}, no longer where {before[key] or 'always'}"
    for extra in sorted(set(was.extras) ^ set(now.extras)):
        yield f"{now.name} {now.version}: extra {extra} {'added' if extra in now.extras else 'removed'}"
    files, fresh = dict(was.files), dict(now.files)
    for file in sorted(set(files) | set(fresh)):
        if file not in fresh:
            yield f"{now.name} {now.version}: file {file} removed"
        elif file not in files:
            yield f"{now.name} {now.version}: file {file} added"
        elif files[file] != fresh[file]:
            yield f"{now.name} {now.version}: file {file} has ANOTHER HASH"


def difference(old: Lock, new: Lock, versions_alone: bool) -> List[str]:
    lines = locks.changes(old, new)
    if versions_alone:
        return lines
    lines += region_lines(old, new)
    before = {(it.name, it.version): it for it in old.packages}
    for package in new.packages:
        was = before.get((package.name, package.version))
        if was is not None:
            lines += package_lines(was, package)
    return lines


def show_columns(screen: Screen, old: Lock, new: Lock, lines: List[str]) -> None:
    """Shows the packages that differ as a table, and what else differs below it."""
    versions = locks.changes(old, new)
    changed = [it for it in as_object(old, new, [])["packages"] if it["name"] != new.root]
    if changed:
        screen.table(["package", "old", "new"], (row_of(it["name"], it["old"], it["new"]) for it in changed))
    for line in lines[len(versions) :]:
        head, mark, rest = line.partition(": ")
        screen.line(Part(head + mark, "name"), Part(rest, "bad" if "ANOTHER HASH" in rest else ""))


def row_of(name: str, old: List[str], new: List[str]) -> List[Part]:
    kind = "changed" if old and new else "good" if new else "bad"
    return [Part(name, kind), Part(", ".join(old), "quiet"), Part(", ".join(new), "version")]


def versions_in(lock: Optional[Lock]) -> Dict[str, List[str]]:
    found = {} if lock is None else lock.by_name()
    return {name: [it.version for it in packages] for name, packages in found.items()}


def as_object(old: Optional[Lock], new: Lock, lines: List[str]) -> Dict[str, Any]:
    before, after = versions_in(old), versions_in(new)
    names = sorted(it for it in set(before) | set(after) if before.get(it) != after.get(it))
    packages = [{"name": it, "old": before.get(it, []), "new": after.get(it, [])} for it in names]
    return {"packages": packages, "lines": lines}


def run(asked: argparse.Namespace) -> int:
    old, new = locks.load(asked.old), locks.load(asked.new)
    lines = difference(old, new, asked.versions)
    screen = Screen(asked.color)
    if asked.json:
        console.print_object(as_object(old, new, lines))
    elif screen.has_columns:
        show_columns(screen, old, new, lines)
    else:
        for line in lines:
            print(line)
    return 1 if lines else 0


def main(words: Optional[List[str]] = None) -> int:
    asked = parser().read(words)
    return console.ended("diff", lambda: run(asked))
