"""Says in sentences why a project can't be locked, why a lock is rejected, or what is wrong at a place of a file.

It asks the program why PROJECT can't be locked by INDEX, or reads what it printed before from --from FILE (`-`:
standard input): a refusal, `rejected: a 1.0` of `verify`, or `malformed: FILE: PLACE`. It looks in both for the
requirement of which release is the cause, the versions that it would take and why none of them counts. The requirements
are those that alone already clash, and with --steps there is how that is shown. Where it asked the program itself,
changes of the project file follow that were tried and lead to a lock.

Needs a reader of TOML: Python 3.11, or the library `tomli`. Status: 0 explained, or nothing is
refused; 1 the text to explain can't be read; 2 the words aren't right; 3 a file can't be read; 70 the program can't be
built.
"""

from __future__ import annotations

import argparse
import contextlib
from typing import Iterator, List, Optional

from . import (
    assembled, console, hints, locks, overlaid, own_index, places, printing, program, project, refusal, sentences,
    verdicts,
)  # fmt: skip
from .console import Refused
from .relocking import Files, cores

REJECTED = "rejected: "


def parser() -> console.Parser:
    made = console.Parser("explain", __doc__)
    made.add_argument(
        "project", metavar="PROJECT", nargs="?", default="pyproject.toml", help="the project file (pyproject.toml)"
    )
    made.add_argument("index", metavar="INDEX", nargs="?", help="the index folder (`ix` beside the project)")
    made.add_argument("--from", dest="text", metavar="FILE", help="explain this text, which `lock` or `why` printed")
    made.add_argument("--steps", action="store_true", help="say each step that shows it, too")
    made.add_argument("--old", metavar="LOCK", help="an old lock whose versions are kept")
    made.add_argument("--lock", metavar="LOCK", help="the lock that was rejected (`unilock.lock` beside the project)")
    made.add_argument("--no-hints", action="store_true", help="try no changes of the project file")
    made.add_argument("--workers", metavar="N", type=int, default=cores(), help="threads, 1 to 64 (%(default)s)")
    console.add_json(made)
    return made


def sentences_of(text: str, asked: argparse.Namespace, index: str) -> Iterator[str]:
    """What a text of the program says, in sentences."""
    first = text.partition("\n")[0]
    told = places.told(first)
    if told is not None:
        yield from told
    elif first == "no fork is refused":
        yield "Nothing is refused: the project can be locked."
    elif first == "verified":
        yield "Nothing is rejected: the lock is right."
    elif first.startswith("version = "):
        yield "Nothing is refused: this is a lock."
    elif first.startswith(REJECTED) and not first.startswith(f"{REJECTED}step "):
        judge = verdicts.Judge(project.load(asked.project), index, locks.load(asked.lock))
        yield f"{first}: {judge.reason(first[len(REJECTED) :])}."
    else:
        read = refusal.read(text, asked.text or "unilock")
        yield from sentences.Teller(project.load(asked.project), index, read).lines(asked.steps)


def refusal_lines(
    text: str, files: Files, kept: bool, answering: Optional[hints.Answering] = None
) -> Iterator[str]:
    """A refusal of `lock` in sentences, and the ways out of it; where the project file can't be read here, its core."""
    read = refusal.read(text, "unilock")
    try:
        wanted = project.load(files.project)
        yield from sentences.Teller(wanted, files.folder, read).lines(False)
        yield from hints.found(files, wanted, read, kept, answering)
    except Refused:
        yield from text.splitlines()[4:]


def run(asked: argparse.Namespace) -> int:
    with contextlib.ExitStack() as held:
        given = held.enter_context(assembled.given(asked.project))
        lock = asked.lock or given.lock
        index = held.enter_context(overlaid.of_given(given, asked.index or own_index.usual_of(given), lock))
        status = told(argparse.Namespace(**{**vars(asked), "project": given.project, "lock": lock}), index)
    return status


def told(asked: argparse.Namespace, index: str) -> int:
    lines = sentences_of(console.text_of(asked.text), asked, index) if asked.text is not None else answer(asked, index)
    if asked.json:
        console.print_object({"sentences": list(lines)})
        return 0
    for line in lines:
        print(printing.wrapped(line))
    return 0


def answer(asked: argparse.Namespace, index: str) -> Iterator[str]:
    """What `lock` answers, in sentences: its core alone, or with --steps and the derivation of `why`; then ways out."""
    files = Files(asked.project, index, asked.workers)
    old = [asked.old] if asked.old else []
    answered = files.locked(*old)
    if answered.status not in (0, 1, 3, 4, 5):
        raise Refused(program.fault_text(answered), answered.status)
    if answered.status != 1:
        yield from sentences_of(answered.text if answered.status else "no fork is refused", asked, index)
        return
    wanted, read = project.load(asked.project), refusal.read(answered.text, "unilock")
    teller = sentences.Teller(wanted, index, read)
    if read.core:
        yield from teller.lines(False)
    if asked.steps or not read.core:
        shown = refusal.read(program.answer(files.words("why", *old)).text, "unilock")
        other = sentences.Teller(wanted, index, shown)
        yield from ["How it is shown:", *other.numbered()] if read.core else other.lines(True)
    if not asked.no_hints:
        yield from hints.found(files, wanted, read, bool(old))


def main(words: Optional[List[str]] = None) -> int:
    asked = parser().read(words)
    return console.ended("explain", lambda: run(asked))
