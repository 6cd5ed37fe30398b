"""Removes requirements from a project file, and locks it.

All requirements on the names are taken from `project.dependencies`, or with --group or --optional from a group's or an
extra's list. Comments and the form of the file are kept. On a refusal the project file and the lock stay as they were.

Needs the library `tomlkit` and a reader of TOML. Status: 0 removed and locked; 1 no choice of versions serves the
project; 2 the words aren't right; 3 to 7 as the program's (3 also: a name isn't in the list); 70 the program can't be
built.
"""

from __future__ import annotations

import argparse
from typing import Any, List, Optional

from . import console, editing, project
from .console import Refused
from .versions import normal_name


def parser() -> console.Parser:
    made = console.Parser("remove", __doc__)
    made.add_argument("names", metavar="NAME", nargs="+", help="a package that is required no more")
    editing.add_words(made)
    return made


def taken(listed: Any, name: str) -> List[str]:
    """Takes all requirements on a name from a list, and answers them."""
    found = []
    for number in range(len(listed) - 1, -1, -1):
        if editing.name_in(listed[number]) == name:
            found.append(str(listed[number]))
            del listed[number]
    return found[::-1]


def elsewhere(path: str, name: str) -> str:
    """Where else the project requires a name."""
    places = [it.place for it in project.load(path).requirements if it.requirement.name == name]
    return f"; it is in {', '.join(places)}" if places else ""


def run(asked: argparse.Namespace) -> int:
    place = editing.place_of(asked)

    def change(document: Any) -> List[str]:
        listed = editing.requirement_list(document, place, False)
        lines = []
        for name in map(normal_name, asked.names):
            found = taken(listed, name) if listed is not None else []
            if not found:
                raise Refused(f"{editing.shown(place)} has no requirement on {name}{elsewhere(asked.project, name)}", 3)
            lines += [f"{editing.shown(place)}: `{it}` removed" for it in found]
        return lines

    return editing.changed(asked, change)


def main(words: Optional[List[str]] = None) -> int:
    asked = parser().read(words)
    return console.ended("remove", lambda: run(asked))
