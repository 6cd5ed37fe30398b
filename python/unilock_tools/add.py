"""Adds requirements to a project file, and locks it: `add flask 'numpy>=2; python_version >= "3.11"'`.

Each goes into `project.dependencies`, or with --group or --optional into a group's or an extra's list. One on a name
that is in the list already, with the same marker, takes its place. Comments and the form of the file are kept. On a
refusal the project file and the lock stay as they were, and what clashes is said.

Needs the library `tomlkit` and a reader of TOML. Without it nothing is changed, and the lines to put into the file are
said. Status: 0 added and locked; 1 no choice of versions serves the project, or the index has no document of a name; 2
the words aren't right; 3 to 7 as the program's; 70 the program can't be built.
"""

from __future__ import annotations

import argparse
from typing import Any, List, Optional

from . import advice, console, editing
from .console import Refused
from .readings import requirement_fault, requirement_of


def parser() -> console.Parser:
    made = console.Parser("add", __doc__)
    made.add_argument("requirements", metavar="NAME[SPEC]", nargs="+", help="a requirement, as in project.dependencies")
    editing.add_words(made)
    return made


def marker_in(text: str) -> str:
    return " ".join(text.partition(";")[2].split())


def put(listed: Any, text: str) -> str:
    """Puts a requirement into a list, and says what became of it."""
    name = requirement_of(text).name
    for number, entry in enumerate(listed):
        if editing.name_in(entry) == name and marker_in(str(entry)) == marker_in(text):
            before = str(entry)
            listed[number] = text
            return f"`{text}` in place of `{before}`" if before != text else f"`{text}` is there already"
    listed.append(text)
    return f"`{text}` added"


def run(asked: argparse.Namespace) -> int:
    for text in asked.requirements:
        fault = requirement_fault(text)
        if fault is not None:
            likely = advice.meant(text)
            raise Refused(fault + (f"; is `{likely}` meant?" if likely else ""), 2)
    place = editing.place_of(asked)

    def change(document: Any) -> List[str]:
        listed = editing.requirement_list(document, place, True)
        return [f"{editing.shown(place)}: {put(listed, text)}" for text in asked.requirements]

    return editing.changed(asked, change)


def main(words: Optional[List[str]] = None) -> int:
    asked = parser().read(words)
    return console.ended("add", lambda: run(asked))
