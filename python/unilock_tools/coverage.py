"""Says what fits where: whether each package of a lock can be installed in each environment that the lock supports.

    coverage LOCK [INDEX]

The environments are those of Linux (x86-64 and arm64, with glibc 2.28 and with musl 1.2), macOS (13 on Intel, 14 on
Apple's processors) and Windows (x86-64), each with CPython 3.8 to 3.14 as far as the lock is made for them; --platform
and --python name others, also by a tag of wheels: `--platform manylinux_2_17_x86_64`. What is wanted there with all
extras and groups, or with those that --extra and --group name, has a wheel that fits by its tags, only a source
distribution, or nothing. A release whose Requires-Python excludes the interpreter, as the index folder INDEX tells
(`ix` beside the lock, or what `lock` keeps there), has nothing either: no installer takes it.

The environments of `tool.uv.required-environments` in the project file beside the lock (--project) are looked at too;
the lock has to be made for them. Of Linux that with glibc is meant.

Needs the library `packaging`, and a reader of TOML where there is a project file. Status: 0 everything has a file that
fits, or a source distribution; 1 somewhere something that is wanted has nothing (with --no-build: no wheel), or the
lock isn't made for an environment that is required; 2 the words aren't right; 3 to 9 as the program's (8: the lock is
made for none of the environments); 70 the program can't be built.
"""

from __future__ import annotations

import argparse
import os
from collections.abc import Iterable, Iterator
from dataclasses import dataclass, field
from typing import Any, NamedTuple

from . import chosen, console, documents, markers, own_index, platforms, printing, scripts, vendored, worlds
from .chosen import Pick
from .console import Refused
from .index_settings import uv_table
from .labels import DIRECT
from .locks import Lock
from .markers import Join, Marker, NoMarker
from .platforms import Platform
from .versions import NoReading, meets, normal_name, specifiers_of, version_of

WHEEL, SOURCE, NOTHING = "wheel", "source", "nothing"
WORDS = {SOURCE: "only a source distribution", NOTHING: "nothing"}
# A wheel's name may stand for so many tags; one that stands for more is no name that anybody gave a wheel.
MOST_TAGS = 10_000


class Environment(NamedTuple):
    """A platform with an interpreter, and its exact versions that the lock's markers tell apart."""

    platform: Platform
    python: str
    points: tuple[str, ...]


@dataclass
class Found:
    """What there is of a package by platform and interpreter, and why where it is nothing."""

    name: str
    version: str
    kinds: dict[Environment, str] = field(default_factory=dict)
    why: dict[Environment, str] = field(default_factory=dict)


def parser() -> console.Parser:
    made = console.Parser("coverage", __doc__)
    made.add_argument("lock", metavar="LOCK", nargs="?", default=chosen.USUAL, help=f"the lock ({chosen.USUAL})")
    made.add_argument("index", metavar="INDEX", nargs="?", help="the index folder, for Requires-Python of releases")
    made.add_argument("--extra", metavar="NAME", action="append", help="with this extra alone; may be repeated")
    made.add_argument("--group", metavar="NAME", action="append", help="with this group alone; may be repeated")
    known = ", ".join(it.name for it in [*platforms.USUAL, *platforms.OTHERS])
    made.add_argument(
        "--platform", metavar="NAME", action="append", help=f"on this platform: {known}, or a tag; may be repeated"
    )
    made.add_argument("--python", metavar="3.N", action="append", help="with this interpreter; may be repeated")
    made.add_argument("--project", metavar="PROJECT", help="the project file (`pyproject.toml` beside the lock)")
    made.add_argument("--no-build", action="store_true", help="count a source distribution as nothing")
    made.add_argument("--all", action="store_true", help="list the packages too that have a wheel everywhere")
    console.add_json(made)
    return made


def points_of(lock: Lock) -> list[str]:
    """Exact versions of interpreters, one of each stretch that the lock's markers tell apart."""
    read = [worlds.marker_of(it) for it in worlds.marker_texts(lock)]
    every: list[Marker] = [it for it in read if it is not None]
    return markers.python_points(Join("and", every), "")


def environment(lock: Lock, points: list[str], platform: Platform, python: str) -> Environment | None:
    """A platform with an interpreter, where the lock is made for it."""
    own = [f"{python}.0", *(it for it in points if it.startswith(f"{python}.") and it != f"{python}.0")]
    kept = tuple(it for it in own if worlds.holds(lock.supported, platform.variables(it)))
    return Environment(platform, python, kept) if kept else None


def minor_of(text: str) -> str:
    numbers = text.split(".")
    if len(numbers) != 2 or numbers[0] != "3" or not (numbers[1].isascii() and numbers[1].isdigit()):
        raise Refused(f"--python {text}: it isn't of the form 3.12", 2)
    return f"3.{int(numbers[1])}"


def required(tables: dict[str, Any]) -> list[tuple[str, str]]:
    """The markers of `tool.uv.required-environments` with their places."""
    listed = uv_table(tables).get("required-environments", [])
    texts = [listed] if isinstance(listed, str) else listed
    if not isinstance(texts, list) or not all(isinstance(it, str) for it in texts):
        raise Refused("tool.uv.required-environments: it isn't a list of markers", 3)
    found = []
    for number, text in enumerate(texts):
        place = f"tool.uv.required-environments[{number}]"
        try:
            markers.read(text)
        except NoMarker as fault:
            raise Refused(f"{place}: {fault}", 3) from None
        found.append((place, text))
    return found


class Table:
    """The environments that are looked at: those that the words name, and those that the project requires."""

    def __init__(self, lock: Lock, asked: argparse.Namespace, wanted: list[tuple[str, str]]) -> None:
        self.lock, self.points = lock, points_of(lock)
        self.faults: list[str] = []
        named = [platforms.named(it) for it in dict.fromkeys(asked.platform or [])] or platforms.USUAL
        pythons = [minor_of(it) for it in asked.python or []] or platforms.PYTHONS
        found = list(self.supported((one, python) for one in named for python in pythons))
        for place, text in wanted:
            found += self.required(place, text)
        order = list(dict.fromkeys(it.platform for it in found))
        self.found = sorted(set(found), key=lambda it: (order.index(it.platform), int(it.python[2:])))

    def supported(self, pairs: Iterable[tuple[Platform, str]]) -> Iterator[Environment]:
        for platform, python in pairs:
            found = environment(self.lock, self.points, platform, python)
            if found is not None:
                yield found

    def required(self, place: str, text: str) -> list[Environment]:
        """The environments that a required marker holds in; a fault where the lock is made for none of them."""
        known = [it for it in [*platforms.USUAL, *platforms.OTHERS] if not it.name.startswith("musl-")]
        pairs = [(one, it) for one in known for it in platforms.PYTHONS if worlds.holds(text, one.variables(f"{it}.0"))]
        found = list(self.supported(pairs))
        if not pairs:
            self.faults.append(f"{place}: no environment that is known here is in `{text}`; --platform names others")
        elif not found:
            self.faults.append(f"{place}: the lock isn't made for `{text}`")
        return found


class Files:
    """The files of a lock's packages, and what the index folder tells of their releases."""

    def __init__(self, lock: Lock, index: str | None) -> None:
        self.held = None if index is None else documents.Held(index)
        self.names = {(it.name, it.version): [name for name, _ in it.files] for it in lock.packages}
        self.tags: dict[str, frozenset[Any]] = {}

    def entry(self, name: str, version: str) -> documents.Document:
        return (None if self.held is None else self.held.release(name, version)) or {}

    def of(self, name: str, version: str) -> list[str]:
        """The names of a package's files: those of the lock, or of the index folder where that has none."""
        listed = self.entry(name, version).get("files") or []
        return self.names[name, version] or [it["file"] for it in listed]

    def wheel_tags(self, file: str) -> frozenset[Any]:
        """The tags that a wheel's name stands for; none where it is no such name."""
        if file not in self.tags:
            utils: Any = vendored.library("packaging.utils")
            count = 1
            for part in file.split("-")[-3:]:
                count *= 1 + part.count(".")
            try:
                self.tags[file] = frozenset() if count > MOST_TAGS else utils.parse_wheel_filename(file)[3]
            except ValueError:
                self.tags[file] = frozenset()
        return self.tags[file]

    def kind(self, name: str, version: str, where: Environment, point: str) -> tuple[str, str]:
        """What there is of a package in an environment, and why where it is nothing."""
        bound = str(self.entry(name, version).get("requires_python") or "")
        try:
            if not meets(specifiers_of(bound), version_of(point)):
                return NOTHING, f"it needs Python {bound}"
        except NoReading:
            # A bound that has no reading makes its release one that no lock has.
            bound = ""
        files = self.of(name, version)
        fitting = platforms.fitting(where.platform, where.python)
        if any(it.endswith(".whl") and self.wheel_tags(it) & fitting for it in files):
            return WHEEL, ""
        if any(not it.endswith(".whl") for it in files) or self.entry(name, version).get("source") == DIRECT:
            # A folder or a repository is built wherever it is installed.
            return SOURCE, ""
        return NOTHING, "" if files else "no file of it is known"


def gathered(table: Table, files: Files, picks: list[Pick], no_build: bool) -> list[Found]:
    """What there is of each package in the environments in which it is wanted: the least of its exact versions'."""
    found = {(it.name, it.version): Found(it.name, it.version) for it in picks}
    order = [WHEEL, SOURCE, NOTHING]
    for where in table.found:
        for point in where.points:
            variables = where.platform.variables(point)
            for name, version in {(it.name, it.version) for it in picks if worlds.holds(it.marker, variables)}:
                one = found[name, version]
                kind, why = files.kind(name, version, where, point)
                kind = NOTHING if no_build and kind == SOURCE else kind
                if order.index(kind) >= order.index(one.kinds.get(where, WHEEL)):
                    one.kinds[where], one.why[where] = kind, why
    return list(found.values())


def extras_of(asked: argparse.Namespace, lock: Lock) -> list[str]:
    """The extras of the root that are asked for: those that are named, or all."""
    if asked.extra is None and asked.group is None:
        return list(lock.root_package().extras)
    return [*(normal_name(it) for it in asked.extra or []), *(f"group-{normal_name(it)}" for it in asked.group or [])]


def spans(pythons: list[str], all_of: list[str]) -> str:
    """Interpreters in few words: none where they are all that the platform has."""
    if pythons == all_of:
        return ""
    at = [all_of.index(it) for it in pythons]
    if len(at) > 2 and at == list(range(at[0], at[-1] + 1)):
        return f"Python {pythons[0]} to {pythons[-1]}"
    return f"Python {', '.join(pythons)}"


def cell(one: Found, platform: Platform, kind: str, table: Table) -> str | None:
    """On which interpreters of a platform there is this of a package; None where on none."""
    mine = [it for it in one.kinds if it.platform == platform and one.kinds[it] == kind]
    if not mine:
        return None
    span = spans([it.python for it in mine], [it.python for it in table.found if it.platform == platform])
    why = next((one.why[it] for it in mine if one.why[it]), "") if kind == NOTHING else ""
    return ", ".join(it for it in (span, why) if it)


def line(one: Found, table: Table) -> str:
    """A package in words: where it has no wheel."""
    told = []
    for kind in (NOTHING, SOURCE):
        places = [(it, cell(one, it, kind, table)) for it in dict.fromkeys(where.platform for where in table.found)]
        named = [f"{it.name} ({more})" if more else it.name for it, more in places if more is not None]
        told += [f"{WORDS[kind]} on {', '.join(named)}"] if named else []
    everywhere = "a wheel everywhere" if one.kinds else "wanted in none of the environments"
    return f"{one.name} {one.version}: {'; '.join(told) or everywhere}"


def row(one: Found, table: Table) -> dict[str, str]:
    """A package as a row of a page: what there is of it by platform."""
    made = {"package": one.name, "version": one.version}
    for platform in dict.fromkeys(it.platform for it in table.found):
        told = {kind: cell(one, platform, kind, table) for kind in (WHEEL, SOURCE, NOTHING)}
        listed = [f"{kind}: {more}" if more else kind for kind, more in told.items() if more is not None]
        made[platform.name] = "; ".join(listed)
    return made


def as_object(asked: argparse.Namespace, table: Table, found: list[Found]) -> dict[str, Any]:
    environments = [{"platform": it.platform.name, "python": it.python} for it in table.found]
    missing = [
        {"package": one.name, "version": one.version, "platform": it.platform.name, "python": it.python,
         "why": one.why[it]}
        for one in found for it in one.kinds if one.kinds[it] == NOTHING
    ]  # fmt: skip
    rows = [row(it, table) for it in found]
    return {"lock": asked.lock, "environments": environments, "rows": rows, "missing": missing, "faults": table.faults}


def tables_of(asked: argparse.Namespace) -> dict[str, Any]:
    """The tables of the project file, or of the script that the lock is of; none where it isn't there, or nobody can
    read it and nobody named it."""
    script = scripts.of_lock(asked.lock)
    if asked.project is None and script is not None:
        return scripts.tables_of(script) if script.is_file() and vendored.has_toml_reader() else {}
    path = asked.project or os.path.join(os.path.dirname(asked.lock), "pyproject.toml")
    if asked.project is None and not (os.path.isfile(path) and vendored.has_toml_reader()):
        return {}
    return vendored.toml_of(path)


def run(asked: argparse.Namespace) -> int:
    lock = chosen.load(asked.lock)
    vendored.library("packaging")
    table = Table(lock, asked, required(tables_of(asked)))
    if not table.found and not table.faults:
        supported = lock.supported or "all"
        raise Refused(f"{asked.lock} is made for none of the environments: it supports {supported}", chosen.OUTSIDE)
    usual = own_index.usual_for(asked.lock)
    index = asked.index or (usual if os.path.isdir(usual) else None)
    if index is not None and not os.path.isdir(index):
        raise Refused(f"{index}: there is no such folder", 3)
    picks = chosen.everywhere(asked.lock, lock, extras_of(asked, lock))
    found = gathered(table, Files(lock, index), picks, asked.no_build)
    if asked.json:
        console.print_object(as_object(asked, table, found))
    else:
        tell(asked, table, found)
    return 1 if table.faults or any(NOTHING in it.kinds.values() for it in found) else 0


def tell(asked: argparse.Namespace, table: Table, found: list[Found]) -> None:
    for text in table.faults:
        print(printing.wrapped(text))
    listed = [it for it in found if asked.all or set(it.kinds.values()) - {WHEEL}]
    for one in listed:
        print(printing.wrapped(line(one, table)))
    lacking = sum(NOTHING in it.kinds.values() for it in found)
    packages, places = console.counted(len(found), "package"), console.counted(len(table.found), "environment")
    what = f"{lacking} of {packages} can't be installed somewhere" if lacking else f"{packages} can be installed"
    print(f"{asked.lock}: {what} ({places})")


def main(words: list[str] | None = None) -> int:
    asked = parser().read(words)
    return console.ended("coverage", lambda: run(asked))
