"""Judges a lock that another tool wrote: whether it is right for the project in every environment.

LOCK is a uv.lock, poetry.lock, pdm.lock or pylock.toml, or a compiled requirements file (its name ends in .txt). It is
put into the form of a lock of unilock, and that is judged by the program, by the project file and the documents of the
index folder: right is a lock that gives on each machine that the project supports, with any of its extras and groups,
one version of each package and exactly what is required there. A requirements file is judged with the extras and groups
that are named. Else the first package that isn't right is named, with the requirement, a machine on which it fails and
what the lock gives there.

The program takes the variables of markers as independent. A lock that is wrong so is judged once more, for the
environments alone in which `os_name`, `sys_platform` and `platform_system` (and the two names of the implementation) go
together as they do on all machines that there are; where it is right there, that is said.

The reading of LOCK is plain Python and tested; the verdict is the program's, and proved. What of LOCK can't be read, or
can't be said in the form of a lock, is named, and then the answer is that the lock can't be judged. Files and hashes
aren't judged; -o keeps the lock in unilock's form, on which `tools/verify` does that, and `env`, `export`, `tools/tree`
and `tools/sync` work.

Needs a reader of TOML: Python 3.11, or the library `tomli`. Status: 0 the lock is right; 1 it is wrong; 2 the words
aren't right; 3 it can't be judged, since something of it, of the project file or of the index can't be read; 70 the
program can't be built.
"""

from __future__ import annotations

import argparse
import contextlib
import os
import tempfile
from pathlib import Path
from typing import Any, Dict, List, NamedTuple, Optional, Sequence, Union

from . import (
    assembled, console, documents, foreign, linked, locks, overlaid, own_extras, pdm_lock, places, poetry_lock,
    printing, program, project, pylock_rows, reduced, requirement_rows, rows, uv_lock, verdicts, worlds,
)  # fmt: skip
from .console import Refused
from .foreign import Foreign
from .marker_texts import ALWAYS, every
from .required import Required
from .rows import Rows
from .tables import NOT_JUDGED, Unread
from .terminal import Screen, add_color
from .toml_texts import tables_text
from .vendored import toml_reader
from .versions import normal_name

RIGHT, WRONG = 0, 1
VERDICTS = {RIGHT: "right", WRONG: "wrong", NOT_JUDGED: "not judged"}
# How a terminal shows the sentence that says so.
KINDS = {RIGHT: "good", WRONG: "bad", NOT_JUDGED: "changed"}
# The status of the program's verdict that a lock is rejected.
REJECTED = 9
# What a lock may have at most, as a project file may.
MOST_BYTES = 16 * 1024 * 1024
MOST_TOLD = 20


class Files(NamedTuple):
    """What the program reads: a project file, an index folder, and the lock in unilock's form in its own folder."""

    project: str
    documents: str
    folder: Path

    @property
    def lock(self) -> Path:
        return self.folder / "judged.lock"


class Judged(NamedTuple):
    """The verdict on a lock, with why it isn't right or can't be judged, and the lock in unilock's form.

    `together` are variables that aren't taken as independent; final is a verdict that is the same however they are.
    """

    status: int
    reasons: List[str]
    lock: Optional[locks.Lock] = None
    together: Sequence[str] = ()
    is_final: bool = False


def parser() -> console.Parser:
    made = console.Parser("judge", __doc__)
    made.add_argument("lock", metavar="LOCK", help="the lock of another tool")
    made.add_argument(
        "project", metavar="PROJECT", nargs="?", help="the project file (`pyproject.toml` beside the lock)"
    )
    made.add_argument("index", metavar="INDEX", nargs="?", help="the index folder (`ix` beside the project)")
    made.add_argument("-o", "--out", metavar="FILE", help="keep the lock there in the form of unilock")
    made.add_argument(
        "--extra", metavar="NAME", action="append", default=[],
        help="an extra of the project that a requirements file was made with; may be repeated",
    )  # fmt: skip
    made.add_argument(
        "--group", metavar="NAME", action="append", default=[],
        help="a dependency group that it was made with; may be repeated",
    )  # fmt: skip
    console.add_json(made)
    add_color(made)
    return made


def parsed(text: str) -> Dict[str, Any]:
    """The tables of a lock."""
    reader = toml_reader()
    try:
        found: Dict[str, Any] = reader.loads(text)
    except RecursionError:
        raise Unread("it isn't TOML: it nests too deep") from None
    except ValueError as fault:
        raise Unread(f"it isn't TOML: {fault}") from None
    return found


def read(asked: argparse.Namespace, wanted: project.Project) -> Union[Foreign, Rows]:
    """The lock of a file in common form: packages with their edges, or rows."""
    text = console.text_of(asked.lock, MOST_BYTES)
    if asked.lock.endswith((".txt", ".in")):
        return requirement_rows.read(text, extras_of(asked, wanted), wanted.supported())
    tables = parsed(text)
    if "root" in tables:
        raise Unread("it is a lock of unilock, which `tools/verify` judges")
    if "lock-version" in tables:
        return pylock_rows.read(tables, wanted, extras_of(asked, wanted))
    metadata = tables.get("metadata")
    for key, reader in [("lock-version", poetry_lock.read), ("lock_version", pdm_lock.read)]:
        if isinstance(metadata, dict) and key in metadata:
            return reader(tables, Required(wanted, documents.Held(asked.index)))
    return uv_lock.read(tables, wanted.name, wanted.version)


def extras_of(asked: argparse.Namespace, wanted: project.Project) -> List[str]:
    """The extras of the project that a lock without edges was made for."""
    found = [*map(normal_name, asked.extra), *(f"group-{normal_name(it)}" for it in asked.group)]
    unknown = [it for it in found if it not in wanted.extras()]
    if unknown:
        raise Refused(f"the project has no extra {unknown[0]} (it has: {', '.join(wanted.extras()) or 'none'})", 2)
    return found


def judged_as_given(asked: argparse.Namespace) -> Judged:
    """The verdict by the project file that the program is handed, and an index folder with what comes from sources."""
    with contextlib.ExitStack() as held:
        given = held.enter_context(assembled.given(asked.project))
        if given.workspace is not None and given.workspace.is_declared:
            raise Unread(f"{given.named} has a workspace, whose members are locked each by its own name")
        index = held.enter_context(overlaid.of_given(given, asked.index, ""))
        found = judged(argparse.Namespace(**{**vars(asked), "project": given.project, "index": index}))
    return found


def judged(asked: argparse.Namespace) -> Judged:
    """The verdict: where all variables of markers are independent, and else where some go together as on machines."""
    wanted = project.load(asked.project)
    if not os.path.isdir(asked.index):
        raise Unread(f"there is no index folder {asked.index}; `tools/index {asked.project} {asked.index}` makes it")
    with tempfile.TemporaryDirectory(prefix="unilock-") as folder:
        files = Files(asked.project, asked.index, Path(folder))
        found = read(asked, wanted)
        texts = list(found.marker_texts())
        first = judged_within(found, wanted, files)
        if first.status != WRONG or first.lock is None or first.is_final:
            return first
        packages = [(it.name, it.version) for it in first.lock.packages]
        texts += Required(wanted, documents.Held(asked.index)).marker_texts(packages)
        return again(asked, wanted, files, first, texts) if linked.asked_of(texts) else first


def again(
    asked: argparse.Namespace, wanted: project.Project, files: Files, first: Judged, texts: List[str]
) -> Judged:
    """The verdict for the environments alone in which variables go together that markers with these texts ask for; the
    first verdict, where that says no more."""
    condition = linked.together(texts)
    some = linked.project_of(wanted, condition)
    path = files.folder / "linked.toml"
    path.write_text(tables_text(some.tables), encoding="utf-8")
    found = read(asked, some)
    found.supported = every([found.supported, condition])
    try:
        second = judged_within(found, some, files._replace(project=str(path)))
    except Unread:
        return first
    if second.status == RIGHT:
        return Judged(RIGHT, [], first.lock, linked.asked_of(texts))
    says_less = second.status != WRONG or verdicts.ELSEWHERE in second.reasons[0]
    return first if says_less else second._replace(lock=first.lock)


def judged_within(found: Union[Foreign, Rows], wanted: project.Project, files: Files) -> Judged:
    """The verdict in the environments of a project."""
    return judged_rows(found, wanted, files) if isinstance(found, Rows) else judged_edges(found, wanted, files)


def judged_edges(found: Foreign, wanted: project.Project, files: Files) -> Judged:
    """The verdict on a lock whose packages have edges."""
    held = documents.Held(files.documents)
    foreign.prune(found)
    foreign.tell_absent(found, held)
    if found.wrong or found.unread:
        return Judged(NOT_JUDGED if found.unread else WRONG, found.unread or found.wrong)
    foreign.name_extras(found, wanted)
    compared = own_extras.unfold(found, Required(wanted, held))
    foreign.name_extras(found, wanted)
    lock = foreign.lock_of(found)
    different = own_extras.different(compared, found.supported)
    if different:
        return Judged(WRONG, [unlike(it, wanted) for it in different], lock)
    return verdict(files, wanted, lock)


def judged_rows(found: Rows, wanted: project.Project, files: Files) -> Judged:
    """The verdict on a lock without edges, which may be one for some of the project's extras alone."""
    extras = [extra for selection in found.selections for extra in selection.extras]
    some = project.Project(wanted.path, reduced.tables_of(wanted, extras))
    made = rows.foreign_of(found, Required(some, documents.Held(files.documents)))
    foreign.tell_absent(made, documents.Held(files.documents))
    if made.unread:
        return Judged(NOT_JUDGED, made.unread)
    foreign.name_extras(made, some)
    lock = foreign.lock_of(made)
    if some.extras() != wanted.extras():
        # That the whole project file is read is the program's to say.
        answer_on(files, lock)
        path = files.folder / "reduced.toml"
        path.write_text(tables_text(some.tables), encoding="utf-8")
        files = files._replace(project=str(path))
    first = verdict(files, some, lock)
    if first.status == RIGHT:
        reasons = list(rows.faults(found, str(files.lock), some))
        return Judged(WRONG if reasons else RIGHT, reasons, lock)
    return first


def unlike(it: own_extras.Compared, wanted: project.Project) -> str:
    """That the list of an extra isn't what the extras give that it asks for."""
    extra = f"{it.block}, extra {it.extra}" if it.extra else str(it.block)
    for machine in worlds.machines([it.listed, it.made], wanted.requires_python):
        listed, made = (text == ALWAYS or worlds.holds(text, machine) for text in (it.listed, it.made))
        if listed != made:
            where = f"on {worlds.described(machine)}"
            says = "" if listed else "no "
            return f"{extra}: {where} its list has {says}{it.target.name}, unlike the extras that it asks for"
    return f"{extra}: its list of {it.target.name} isn't that of the extras that it asks for"


def answer_on(files: Files, lock: locks.Lock) -> program.Answer:
    """What the program says of a lock in unilock's form: that it is verified, or that it is rejected."""
    files.lock.write_text(locks.lock_text(lock), encoding="utf-8")
    answered = program.answer(["verify", files.project, files.documents, str(files.lock)])
    if answered.status not in (0, REJECTED):
        text = program.fault_text(answered)
        raise Unread("\n  ".join(places.told(text) or [text]))
    return answered


def verdict(files: Files, wanted: project.Project, lock: locks.Lock) -> Judged:
    """The program's verdict on a lock in unilock's form, with what is behind it."""
    answered = answer_on(files, lock)
    if answered.status == 0:
        return Judged(RIGHT, [], lock)
    rejected = answered.text.rstrip("\n").partition(": ")[2]
    reasons = (verdicts.Judge(wanted, files.documents, lock, wide).reason(rejected) for wide in (False, True))
    reason = next((it for it in reasons if it != verdicts.ELSEWHERE), verdicts.ELSEWHERE)
    is_final = rejected in ("root", "supported")
    return Judged(WRONG, [reason if is_final else f"{rejected}: {reason}"], lock, is_final=is_final)


def lines(path: str, found: Judged) -> List[str]:
    """The verdict in sentences."""
    if found.status == RIGHT:
        assert found.lock is not None
        packages = console.counted(len(found.lock.packages) - 1, "package")
        named = " and ".join(found.together)
        where = f" in which {named} go together, as they do on all machines that there are" if named else ""
        return [f"{path} is right in every environment that the project supports{where} ({packages})"]
    head = f"{path} is wrong" if found.status == WRONG else f"{path} can't be judged"
    first, *others = dict.fromkeys(found.reasons)
    more = [f"- and {len(others) - MOST_TOLD} more"] if len(others) > MOST_TOLD else []
    return [f"{head}: {first}", *(f"- {it}" for it in others[:MOST_TOLD]), *more]


def keep(path: str, lock: locks.Lock) -> None:
    """Writes the lock in unilock's form, in the place of nothing or of another such lock."""
    if os.path.exists(path) and not locks.is_lock(console.text_of(path)):
        raise Unread(f"{path} isn't a lock of unilock, so it isn't replaced; -o names another file")
    console.write_beside(path, locks.lock_text(lock).encode("utf-8"))


def run(asked: argparse.Namespace) -> int:
    asked.project = asked.project or os.path.join(os.path.dirname(asked.lock), "pyproject.toml")
    asked.index = asked.index or os.path.join(os.path.dirname(asked.project), "ix")
    try:
        found = judged_as_given(asked)
        if asked.out and found.lock is not None:
            keep(asked.out, found.lock)
    except Refused as fault:
        if fault.status in (2, 70):
            raise
        found = Judged(NOT_JUDGED, [str(fault)])
    except OSError as fault:
        found = Judged(NOT_JUDGED, [f"{fault.filename}: {fault.strerror or fault}"])
    if asked.json:
        console.print_object(as_object(asked.lock, found))
    else:
        screen = Screen(asked.color)
        for number, line in enumerate(lines(asked.lock, found)):
            screen.told(printing.wrapped(line), "" if number else KINDS[found.status])
    return found.status


def as_object(path: str, found: Judged) -> Dict[str, Any]:
    packages = None if found.lock is None else len(found.lock.packages) - 1
    return {
        "lock": path, "verdict": VERDICTS[found.status], "packages": packages, "together": list(found.together),
        "reasons": list(dict.fromkeys(found.reasons)),
    }  # fmt: skip


def main(words: Optional[List[str]] = None) -> int:
    asked = parser().read(words)
    return console.ended("judge", lambda: run(asked))
