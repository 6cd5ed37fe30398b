"""Prints the requirements of a lock, with hashes, for `pip install --require-hashes --no-deps -r`.

They are those of the running interpreter, of the machine that --machine names, or with --all of all machines that the
project supports, each with its marker. Where the lock doesn't serve the machine nothing is printed or written.

A package with a source in the project file has its address in its line: that of a file, with its hash; a folder's; or a
repository's with the commit. The last two have no hash, so pip takes them without --require-hashes alone.

Status: 0 printed; 1 the lock can't be read, or has no hashes; 2 the words aren't right; 3 to 9 as the program's (8:
the machine isn't supported, or an extra isn't known); 70 the program can't be built.
"""

from __future__ import annotations

import argparse
from typing import List, Optional

from . import chosen, console, placed
from .chosen import Pick
from .locks import Lock
from .placed import Places


def parser() -> console.Parser:
    made = console.Parser("requirements", __doc__)
    chosen.add_words(made)
    place = made.add_mutually_exclusive_group()
    place.add_argument("--machine", metavar="FILE", help="a machine file, as `tools/machine` prints it")
    place.add_argument("--all", action="store_true", help="for all machines, with markers")
    made.add_argument("--no-hashes", action="store_true", help="leave the hashes out")
    made.add_argument("-o", "--out", metavar="FILE", help="write them there as a whole, in place of printing them")
    return made


def line_of(lock: Lock, pick: Pick, found: Places, hashes: bool) -> str:
    """A package's line; one from a source by its address, with its hash where it is a file."""
    place = found.get(pick.key)
    if place is None:
        return chosen.with_hashes(lock, [pick], hashes)
    if not place.is_package:
        return ""
    extras = f"[{','.join(pick.extras)}]" if pick.extras else ""
    text = f"{pick.name}{extras} @ {placed.address_of(place)}" + (f" ; {pick.marker}" if pick.marker else "")
    is_file = bool(place.files) and not place.commit
    return chosen.with_sums(text, {it.sha256 for it in place.files} if hashes and is_file else set())


def run(asked: argparse.Namespace) -> int:
    extras = chosen.extras_of(asked)
    with chosen.opened(asked) as (path, lock):
        if asked.all:
            picks = chosen.bases(chosen.everywhere(path, lock, extras))
        else:
            picks = chosen.on_machine(path, lock, extras, chosen.machine_file(asked.machine))
        found = placed.of_lock(asked.lock, lock, picks)
        console.put("".join(line_of(lock, it, found, not asked.no_hashes) for it in picks), asked.out)
    return 0


def main(words: Optional[List[str]] = None) -> int:
    asked = chosen.settled(parser().read(words))
    return console.ended("requirements", lambda: run(asked))
