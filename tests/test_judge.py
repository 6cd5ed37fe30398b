"""tools/judge: locks in the form of uv, read back and judged; each with one change is told as wrong, by name.

The locks are those of the scenarios and of drawn projects, written as uv writes them by `uv_form`. The variable
SCENARIOS, names with blanks between, picks some of the first, and JUDGED is the number of the second.
"""

from __future__ import annotations

import contextlib
import json
import os
import random
import re
import unittest
from pathlib import Path
from typing import Iterator, NamedTuple, Optional, Tuple
from unittest import mock

import canonical
import small_projects
import uv_form
from making import TOP, Folder, tool, want_program
from program import call, said
from unilock_tools import locks, project, worlds
from unilock_tools.locks import Edge, Lock, Package

SCENARIO = tool("scenario")
FOLDER = TOP / "examples" / "scenarios"
DRAWN = int(os.environ.get("JUDGED", "50"))
NOWHERE = "platform_machine == 'nowhere'"
# A scenario whose project has a requirement by a URL, which is fetched.
BY_URL = "url_in_project_wide"


class Case(NamedTuple):
    """A project with its index folder and the lock that the program writes for it."""

    name: str
    folder: Path
    text: str


class Change(NamedTuple):
    """A lock in uv's form with one change, and a name that has to be told."""

    what: str
    text: str
    name: str


def edges_of(lock: Lock) -> Iterator[Tuple[Package, Optional[str], Edge]]:
    return ((package, extra, edge) for package in lock.packages for extra, edge in package.all_edges())


def in_use(lock: Lock, bound: str) -> Optional[Tuple[Package, Edge]]:
    """An edge of a package to another that holds on some supported machine on which the package is reached."""
    machines = [it for it in worlds.machines(worlds.marker_texts(lock), bound) if worlds.holds(lock.supported, it)]
    walks = [(it, worlds.Walked(lock, it)) for it in machines]
    for package, extra, edge in edges_of(lock):
        node = worlds.Node(package.name, package.version, extra)
        # An edge of the project itself may be one that another of its lists has too.
        if edge.name != package.name and any(edge in walked.edges.get(node, []) for _, walked in walks):
            return package, edge
    return None


def block(text: str, package: Package) -> str:
    """The block of a package in uv's form."""
    head = f'\n[[package]]\nname = "{package.name}"\nversion = "{package.version}"\n'
    begin = text.index(head)
    end = text.find("\n[[package]]\n", begin + 1)
    return text[begin:] if end < 0 else text[begin:end]


def narrowed(line: str) -> str:
    """An edge's line that holds on no machine that there is."""
    found = re.search(r'marker = "(.*)" \},$', line)
    if found is None:
        return line.replace(" },", f', marker = "{NOWHERE}" }},')
    return line.replace(f'marker = "{found[1]}"', f'marker = "({found[1]}) and {NOWHERE}"')


def changes(lock: Lock, text: str, bound: str) -> Iterator[Change]:
    """One change of each kind, in places that are in use."""
    used = in_use(lock, bound)
    if used is None:
        return
    package, edge = used
    target = lock.package(edge.name, edge.version)
    other = block(text, target).replace(f'version = "{target.version}"', 'version = "999"', 1)
    moved = text.replace(block(text, target), other)
    named = f'name = "{target.name}", version = '
    moved = moved.replace(f'{named}"{target.version}"', f'{named}"999"')
    yield Change("a version", moved, target.name)
    mine = block(text, package)
    changed = re.sub(rf'    \{{ name = "{re.escape(edge.name)}".*', lambda it: narrowed(it[0]), mine)
    yield Change("a marker", text.replace(mine, changed), edge.name)
    yield Change("a package left out", text.replace(block(text, target), ""), target.name)
    line = f'    {{ name = "{lock.root}" }},\n'
    theirs = block(text, target)
    if "\ndependencies = [\n" in theirs:
        more = theirs.replace("\ndependencies = [\n", f"\ndependencies = [\n{line}", 1)
    else:
        more = re.sub(r"(\nsource = .*\n)", lambda it: f"{it[1]}dependencies = [\n{line}]\n", theirs, count=1)
    yield Change("an edge too many", text.replace(theirs, more), target.name)


class Judging(Folder):
    """Tests that judge locks, with the program's word `marker` or what stands for it."""

    def setUp(self) -> None:
        super().setUp()
        want_program(self)
        self.patched = contextlib.ExitStack()
        self.patched.enter_context(canonical.word())
        self.addCleanup(self.patched.close)

    def judged(self, *words: object, status: int = 0) -> str:
        return self.ran("judge", *words, status=status).stdout


class RoundTrip(Judging):
    def scenarios(self) -> Iterator[Case]:
        names = os.environ.get("SCENARIOS", "").split()
        # what stands at the path of a source
        self.write("t/pyproject.toml", '[project]\nname = "t"\nversion = "1"\n')
        for path in sorted(FOLDER.glob("*.txt")):
            found = SCENARIO.read(path)
            is_asked = path.stem in names if names else path.stem != BY_URL
            if "unilock.lock" in found.files and is_asked:
                SCENARIO.unpack(found, self.top / found.name)
                yield Case(found.name, self.top / found.name, found.files["unilock.lock"])

    def drawn(self) -> Iterator[Case]:
        count, seed = 0, 0
        while count < DRAWN:
            seed += 1
            small = small_projects.small(random.Random(f"judge/{seed}"))
            folder = self.write(f"drawn{seed}/pyproject.toml", small.project).parent
            for name, value in small.documents.items():
                self.write(f"drawn{seed}/ix/{name}.json", json.dumps(value))
            answer = said(call(folder, "lock pyproject.toml ix 1"))
            if answer.status == 0 and answer.text.count("[[package]]") > 1:
                count += 1
                yield Case(f"drawn {seed}", folder, answer.text)

    def hold(self, case: Case) -> None:
        wanted = project.load(str(case.folder / "pyproject.toml"))
        lock = locks.read(case.text, case.name)
        text = uv_form.uv_text(lock, wanted)
        path, kept = case.folder / "uv.lock", case.folder / "kept.lock"
        path.write_text(text)
        packages = len(lock.packages) - 1
        told = self.judged(path, "-o", kept)
        self.assertIn(f"is right in every environment that the project supports ({packages} package", told)
        self.assertEqual(kept.read_text(), case.text)
        for change in changes(lock, text, wanted.requires_python):
            with self.subTest(change.what):
                self.assertNotEqual(change.text, text)
                path.write_text(change.text)
                told = self.judged(path, status=1)
                self.assertTrue(told.startswith(f"{path} is wrong: "), told)
                self.assertIn(change.name, told.partition(" is wrong: ")[2])

    def test_scenarios(self) -> None:
        for case in self.scenarios():
            with self.subTest(case.name):
                self.hold(case)

    def test_what_cannot_be_fetched_is_named(self) -> None:
        SCENARIO.unpack(SCENARIO.read(FOLDER / f"{BY_URL}.txt"), self.top)
        text = (self.top / "pyproject.toml").read_text(encoding="utf-8")
        self.write("pyproject.toml", text.replace("https://example.org/", "http://127.0.0.1:9/"))
        self.write("uv.lock", 'version = 1\nrevision = 1\n\n[[package]]\nname = "demo"\nsource = { virtual = "." }\n')
        with mock.patch("time.sleep"):
            told = self.judged("uv.lock", status=3)
        self.assertTrue(told.startswith("uv.lock can't be judged: http://127.0.0.1:9/a-1.whl: "), told)

    def test_drawn_projects(self) -> None:
        for case in self.drawn():
            with self.subTest(case.name):
                self.hold(case)


if __name__ == "__main__":
    unittest.main()
