"""Locks a project safely: the lock is replaced only by a good one, and what changed is said in words.

PROJECT is a pyproject.toml, INDEX a folder of package documents as `tools/index` writes it. Without one a package index
is asked for what is tried, and what it told is kept in .unilock/ix beside the project. The lock stands beside the
project as unilock.lock. One that is there already and right stays as it is, but for files that the index has new; where
it isn't right any more, as little as may be changes. The new lock is written beside the old one and takes its name when
it is whole; on any other answer the old lock stays as it was. A file that isn't a lock is never written over.

A name with a source (`tool.uv.sources`: path, url, git or workspace), or required by a URL, has the one release that
this gives, and no other can be chosen: a folder speaks by its project file, a file by its metadata, a repository by
the commit that its branch or tag is at, which the lock keeps until the name is upgraded. A name may have several
sources under markers: where the marker of one holds, a release comes from there, whoever requires the name, and where
none holds from no source; one of them at most may be no index. Folders of this machine are built where their files
don't say what they require, unless --no-build is said; what comes from elsewhere only with --build. In a workspace the
root's file is found from every folder, and one lock holds for all members. --show-project prints the file that is put
together of all that.

The package indexes are those of the words, of UNILOCK_DEFAULT_INDEX and UNILOCK_INDEX, of the project file
(`tool.uv.index`, `extra-index-url`, `find-links`), and of uv's and pip's settings; of each name the first that has it
is asked, and no other, the usual one last. An explicit one is asked for names alone whose source names it. What
`tool.uv.dependency-metadata` states of a release counts in the place of what its files say.

A script with its requirements in it (PEP 723) is locked as a project of its own: `lock script.py` writes
script.py.lock, and what it was told is kept in .unilock/scripts/script.py.

Where no choice of versions serves the project the requirements that clash are said, and changes of the project file
that were tried and lead to a lock.

Needs the standard library alone, and `requests` to ask a package index; to say why, and to change little, a reader of
TOML (Python 3.11, or `tomli`). Status: 0 the lock is written, or is current; 1 no choice of versions serves the
project, or --check found that the lock isn't current; 2 the words aren't right; 3 to 7 as the program's (3 a file is
absent or malformed, 4 a limit, 5 a read fault, 7 memory); with --check 4 where no choice of versions serves the
project; 70 the program can't be built; 130 interrupted.
"""

from __future__ import annotations

import argparse
import os
import sys
import tempfile
from contextlib import ExitStack, contextmanager
from pathlib import Path
from typing import Callable, Dict, Iterator, List, NamedTuple, Optional

from . import (
    advice, assembled, console, diff, explain, folders, gathering, hints, locks, overlaid, own_index, pinned, places,
    printing, program, project, relocking, verdicts,
)  # fmt: skip
from .called import command, named
from .console import Refused
from .project_text import changed, toml_text
from .relocking import Change, Files, cores
from .terminal import Screen, add_color
from .versions import normal_name, version

NOT_CURRENT, NOTHING_SERVES = 1, 4
# How a terminal shows what changed, by the first word of its line.
KINDS = {"added": "good", "removed": "bad", "rejected:": "bad", "no": ""}


def parser() -> console.Parser:
    made = console.Parser("lock", __doc__)
    made.add_argument(
        "project",
        metavar="PROJECT",
        nargs="?",
        default="pyproject.toml",
        help="the project file (pyproject.toml), or a script with its requirements in it (PEP 723)",
    )
    made.add_argument(
        "index",
        metavar="INDEX",
        nargs="?",
        help="the index folder (`ix` beside the project; without one a package index is asked for what is tried)",
    )
    made.add_argument("-o", "--lock", metavar="LOCK", help="the lock (`unilock.lock` beside the project)")
    made.add_argument("--upgrade", "-U", action="store_true", help="choose all versions anew, as if there were no lock")
    made.add_argument(
        "--upgrade-package",
        "-P",
        metavar="NAME[==VERSION]",
        action="append",
        default=[],
        help="choose this package's versions anew, or take this one; may be repeated",
    )
    made.add_argument(
        "--check",
        action="store_true",
        help="write nothing; status 1 where the lock isn't current, 4 where nothing serves; files that the index has "
        "gained of locked releases don't count",
    )
    add_color(made)
    made.add_argument(
        "--workers", metavar="N", type=int, default=cores(), help="threads, 1 to 64 (the machine's cores: %(default)s)"
    )
    made.add_argument("--quiet", "-q", action="store_true", help="don't say what changed")
    made.add_argument(
        "--show-project",
        action="store_true",
        help="print the project file that the program is handed, put together of sources and a workspace; don't lock",
    )
    console.add_json(made)
    own_index.add_words(made)
    made.set_defaults(beside=None, workspace=None, named="")
    return made


class Old(NamedTuple):
    """What stands at the lock's place: its bytes (None: nothing), and the lock where they have a reading."""

    body: Optional[bytes]
    lock: Optional[locks.Lock]


def old_lock(path: str, anew: bool) -> Old:
    """The old lock. A file that isn't one is refused, so that it isn't replaced; a conflict too, unless all is new."""
    try:
        body = Path(path).read_bytes()
    except FileNotFoundError:
        return Old(None, None)
    text = body.decode("utf-8", "replace")
    if not locks.is_lock(text):
        first = places.shown(text.lstrip("\ufeff").partition("\n")[0][:60])
        why = f"it begins with {first}, so it isn't replaced; -o names another file"
        raise Refused(f"{path} isn't a lock of unilock: {why}", 3)
    conflict = locks.conflict_line(text)
    if conflict is not None and not anew:
        sides = f"take one side (`git checkout --ours {path}` or `--theirs`), then lock again"
        raise Refused(f"{path}: line {conflict}: a merge conflict stands there; {sides}", 3)
    for done in locks.in_form(text)[1]:
        console.say(f"lock: {path}: {done}")
    try:
        return Old(body, locks.read(text, path))
    except Refused:
        return Old(body, None)


def fault_of(answered: program.Answer, files: Files, lock: str) -> Refused:
    """What the program refused for another cause than that nothing serves, with what to do about it."""
    text = program.fault_text(answered)
    if answered.status in (3, 4, 5):
        text += "".join(f"\n  {named(line)}" for line in places.told(text) or [])
    if text.startswith(f"malformed: {lock}: "):
        text += "\n  --upgrade makes a new lock without the old one"
    return Refused(text, answered.status)


def stale(files: Files, named: str) -> List[str]:
    """That the index folder lacks names that the project asks for, as one that is older than they are does."""
    try:
        names = verdicts.absent_names(project.load(files.project), files.folder)
    except Refused:
        return []
    if not names:
        return []
    again = f"`{command('index')} {named} {files.folder}` makes it anew"
    return [f"stale index: {files.folder} has no document of {', '.join(names)}; {again}"]


def pins_of(asked: List[str]) -> Dict[str, Optional[str]]:
    """The names that are to be chosen anew, each with the version that is wanted where one is named."""
    found: Dict[str, Optional[str]] = {}
    for word in asked:
        name, equals, spelled = word.partition("==")
        read = version(spelled) if equals else None
        if equals and read is None:
            raise Refused(f"--upgrade-package {word}: `{spelled}` is no version", 2)
        found[normal_name(name.strip())] = None if read is None else read.text()
    return found


def upgraded(files: Files, known: locks.Lock, pins: Dict[str, Optional[str]]) -> program.Answer:
    """Locks with an old lock that lacks some packages, or has them at the versions that are wanted."""
    with tempfile.TemporaryDirectory(prefix="unilock-") as held:
        kept = Path(held) / "kept.lock"
        instead = {name: spelled for name, spelled in pins.items() if spelled is not None}
        kept.write_bytes(locks.preferences(known, [*pins], instead).encode("utf-8"))
        answered = files.locked(str(kept))
    if answered.status == 0:
        new = locks.read(answered.text, "the new lock").by_name()
        for name, spelled in instead.items():
            if not any(verdicts.same_version(it.version, spelled) for it in new.get(name, [])):
                why = "an override has another version" if name in new else f"nothing that is locked needs {name}"
                raise Refused(f"{name} {spelled} isn't taken: {why}", 1)
    return answered


def answer(
    asked: argparse.Namespace, files: Files, path: str, old: Old, pins: Dict[str, Optional[str]]
) -> Change:
    """The lock that the words ask for, with what was wrong with the old one."""
    for name in pins:
        if old.lock is None or name not in old.lock.by_name():
            console.say(f"lock: {path} has no package {name} to upgrade")
    if asked.upgrade or old.body is None:
        return Change(files.locked(), [])
    if pins and old.lock is not None:
        return Change(upgraded(files, old.lock, pins), [])
    with locks.program_form(path) as kept:
        change = relocking.kept(files, kept, old.lock)
    text = change.answer.text if change.answer.status == 0 else change.answer.text.replace(f" {kept}: ", f" {path}: ")
    return change._replace(answer=change.answer._replace(text=text))


def told(old: Optional[locks.Lock], new: locks.Lock, change: Change) -> Iterator[str]:
    """What changed, one line a name, and what was wrong with the old lock where something was."""
    reasons: Dict[str, verdicts.Fault] = {}
    for fault in change.faults:
        reasons.setdefault(fault.name, fault)
    lines = locks.changes(old, new)
    for line in lines:
        name = line.split()[1] if line.startswith(("added ", "removed ")) else line.split()[0]
        reason = reasons.pop(name, None)
        yield line + (f"  ({reason.text})" if reason else "")
    if not lines:
        yield "no version changed, but markers, files or extras did"
    if old is not None:
        yield from diff.difference(old, new, False) if not lines else []
        yield from (f"rejected: {it.name} {it.version}: {it.text}" for it in reasons.values())


def more_files(old: Old, text: str, new: locks.Lock) -> int:
    """How many files a lock has more than the old one, where nothing else differs: files that the index has gained of
    the releases that are locked. 0 where something else differs."""
    if old.lock is None or old.body is None:
        return 0
    before, after = ({(it.name, it.version): it.files for it in lock.packages} for lock in (old.lock, new))
    if any(not set(files) <= set(after.get(key, [])) for key, files in before.items()):
        return 0
    head, *blocks = locks.blocks_of(text)
    same = "\n\n".join([head, *(locks.with_files(it, before.get(locks.block_key(it), [])) for it in blocks)])
    is_same = same == locks.in_form(old.body.decode("utf-8", "replace"))[0]
    return sum(map(len, after.values())) - sum(map(len, before.values())) if is_same else 0


def lock_path(asked: argparse.Namespace) -> str:
    found: str = asked.lock or os.path.join(os.path.dirname(asked.project), "unilock.lock")
    return found


def judged(asked: argparse.Namespace) -> None:
    """Refuses words that nothing can be done by."""
    if not 1 <= asked.workers <= 64:
        raise Refused(f"--workers {asked.workers}: 1 to 64", 2)
    if not os.path.isfile(asked.project):
        lines = [f"{asked.project}: there is no such file", *places.least_project(asked.project)]
        raise Refused("\n  ".join(lines), 3)
    advice.refuse_own_name(asked.project)


def refuse_unread(asked: argparse.Namespace) -> None:
    """Refuses a project file that the program doesn't read, before a package index is asked."""
    with tempfile.TemporaryDirectory(prefix="unilock-") as empty:
        answered = Files(asked.project, empty, 1).locked()
        if answered.status not in (0, 1):
            raise fault_of(answered, Files(asked.project, empty, 1), lock_path(asked))


def fetched(
    asked: argparse.Namespace, old: Old, pins: Dict[str, Optional[str]], held: ExitStack
) -> own_index.Fetched:
    """The index folder of the call, for which a package index is asked where none is named."""
    kept = own_index.Kept(lock_path(asked), old.lock, pins, asked.upgrade)
    if own_index.is_wanted(asked):
        refuse_unread(asked)
        given, found = gathering.asked_for(asked, kept)
        if found.refusal is not None:
            return found
    else:
        index = asked.index or str(own_index.beside(asked) / "ix")
        if not os.path.isdir(index):
            makes = f"`{command('index')} {asked.named} {index}` makes it"
            raise Refused(f"{index}: there is no such folder; {makes}", 3)
        given, found = gathering.beside(asked, kept, Path(index)), own_index.Fetched(Path(index))
    return own_index.Fetched(Path(held.enter_context(overlaid.overlaid(str(found.folder), given))))


def refuse(
    answered: program.Answer,
    asked: argparse.Namespace,
    files: Files,
    kept: bool,
    answering: Optional[hints.Answering] = None,
) -> int:
    """Says why nothing serves, and the ways out that were tried; or what else the program refused. `kept` where an old
    lock's versions were kept; `answering` tries by a package index."""
    if answered.status != 1:
        raise fault_of(answered, files, lock_path(asked))
    console.say(f"lock: {program.fault_text(answered)} ({'; '.join(answered.text.splitlines()[1:3])})")
    for name, spelled in pins_of(asked.upgrade_package).items():
        if spelled is not None:
            console.say(f"{name}=={spelled} is asked for by --upgrade-package, as if it stood among the constraints")
    by_folder = [] if own_index.is_wanted(asked) else stale(files, asked.named)
    lines = [*explain.refusal_lines(answered.text, files, kept, answering), *by_folder]
    for line in lines:
        console.say(printing.wrapped(line, sys.stderr))
    if asked.json:
        console.print_object({"lock": lock_path(asked), "state": "refused", "sentences": lines})
    return NOTHING_SERVES if asked.check else 1


def tell(asked: argparse.Namespace, state: str, old: Old, new: locks.Lock, lines: List[str], more: str = "") -> None:
    """Says what became of the lock: current, not current or written, with what changed."""
    path, count = lock_path(asked), len(new.packages) - 1
    if asked.json:
        differing = [it for it in diff.as_object(old.lock, new, [])["packages"] if it["name"] != new.root]
        console.print_object({"lock": path, "state": state, "count": count, "packages": differing, "lines": lines})
    elif not asked.quiet:
        screen = Screen(asked.color)
        for line in lines:
            screen.told(line, KINDS.get(line.partition(" ")[0], "changed"), "  (")
        said = f"{path} is {state}: {console.counted(count, 'package')}{more}"
        screen.told(said, "good" if state == "current" else "")


@contextmanager
def constrained(asked: argparse.Namespace, pins: Dict[str, Optional[str]]) -> Iterator[argparse.Namespace]:
    """The words with a copy of the project that has the versions which are wanted among its constraints."""
    texts = [f"{name}=={spelled}" for name, spelled in pins.items() if spelled is not None]
    if not texts:
        yield asked
        return
    refuse_unread(asked)
    wanted = project.load(asked.project)
    listed = [*(it.requirement.text for it in wanted.constraints), *texts]
    with tempfile.TemporaryDirectory(prefix="unilock-") as held:
        copy = Path(held) / "pyproject.toml"
        copy.write_text(toml_text(changed(wanted.tables, pinned.CONSTRAINTS, listed)), encoding="utf-8")
        yield argparse.Namespace(**{**vars(asked), "project": str(copy)})


def run(asked: argparse.Namespace, ready: Callable[[], None] = lambda: None) -> int:
    """Locks as the words ask for; `ready` is called when the lock is there, before it is written."""
    with ExitStack() as held:
        given = held.enter_context(assembled.given(asked.project, asked.beside))
        beside = os.path.dirname(given.named)
        lock = asked.lock or given.lock
        words = {"project": given.project, "named": given.named, "workspace": given.workspace}
        found = argparse.Namespace(**{**vars(asked), **words, "lock": lock, "beside": beside or "."})
        status = shown(given.project) if asked.show_project else locked(found, ready, held)
    return status


def shown(path: str) -> int:
    """Prints the project file that is handed on."""
    if not os.path.isfile(path):
        raise Refused(f"{path}: there is no such file", 3)
    print(Path(path).read_text(encoding="utf-8"), end="")
    return 0


def locked(asked: argparse.Namespace, ready: Callable[[], None], held: ExitStack) -> int:
    judged(asked)
    path, pins = lock_path(asked), pins_of(asked.upgrade_package)
    old = old_lock(path, asked.upgrade)
    asked = held.enter_context(constrained(asked, pins))
    found = fetched(asked, old, pins, held)
    files, keeps = Files(asked.project, str(found.folder), asked.workers), bool(pins and old.lock)
    if found.refusal is not None and found.fetching is not None:
        with found.working() as index:
            by_pages = files._replace(folder=index)
            return refuse(found.refusal.answer, asked, by_pages, keeps, found.fetching.tried)
    change = folders.read_whole(files.folder, lambda: answer(asked, files, path, old, pins))
    if change.answer.status != 0:
        return refuse(change.answer, asked, files, keeps)
    new = locks.read(change.answer.text, path)
    ready()
    gained = more_files(old, change.answer.text, new) if asked.check else 0
    if change.answer.body == old.body or gained:
        more = f" (the index has {console.counted(gained, 'more file')} of them)" if gained else ""
        tell(asked, "current", old, new, [], more)
        return 0
    lines = list(told(old.lock, new, change))
    if not asked.check:
        console.write_beside(path, change.answer.body)
        if not asked.quiet:
            for warning in advice.warnings(files.project, files.folder, new):
                # Of the members all extras are asked for, those that add nothing too.
                if not warning.startswith(f"project.optional-dependencies.{assembled.EXTRA}["):
                    console.say(f"warning: {warning}")
    tell(asked, "not current" if asked.check else "written", old, new, lines)
    return NOT_CURRENT if asked.check else 0


def main(words: Optional[List[str]] = None) -> int:
    asked = parser().read(words)
    return console.ended("lock", lambda: run(asked))
