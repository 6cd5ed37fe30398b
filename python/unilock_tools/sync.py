"""Brings a virtual environment to what a lock gives on its interpreter, and installs the project itself, by pip.

LOCK is `unilock.lock` in this folder where the first word is no lock. The environment is --venv (`.venv` beside the
lock; of a script's lock, script.py.lock, one of its own below .unilock, so that no other project's is changed). It is
made where it isn't there, with --python or the running interpreter, and made anew where making it was
broken off. What the lock gives is asked for with the environment's own interpreter, with the extras and groups that are
named and the default groups: those of `tool.uv.default-groups`, or `dev` where there is one; --no-default-groups leaves
them out. All that is missing or has another version is fetched first; then packages that the lock doesn't give are
removed, but for pip, setuptools, wheel and the project itself, and what was fetched is installed; then the project,
where it is a package (its file beside the lock has a `[build-system]`): editable, or with --no-editable as a copy;
--no-project leaves it out. At the end `pip check` says what is broken.

A package with a source in the project file (`tool.uv.sources`, or a requirement by a URL) is taken from there: a
folder, editable where its source or its workspace says so, a file, an address, or a repository at the locked commit.
Its hash is that of the lock, and no index is asked for it; where the source gives something else the lock is refused.
--package MEMBER installs that member of the workspace, with what it needs.

A lock that would install another pip, or of which nothing is there so that everything would be removed, needs --yes;
one that gives a package of the project's own name is refused. Only a virtual environment is changed. Interpreters run
isolated, so nothing of the folder that the command is given in, and of the user's own packages, is run.

Files are looked for where --index-url, --index, UNILOCK_DEFAULT_INDEX, UNILOCK_INDEX or the project file say, else
where pip is told to look: its variables and its configuration, .netrc, keyring; and in --find-links. An environment
without pip is served by the running interpreter's, 22.3 or later. Of a failure pip's own lines are told in ten at most;
`pip.log` in the environment has all of them.

Status: 0 the environment is as the lock says; 1 it isn't one, --yes is wanted, pip failed, or `pip check` found
something broken; 2 the words aren't right; 3 to 9 as the program's (8: the interpreter isn't supported, or an extra
isn't known); 130 interrupted.
"""

from __future__ import annotations

import argparse
import sys
import tempfile
from collections.abc import Iterator
from pathlib import Path
from typing import Any, NamedTuple

from . import (
    archives, assembled, chosen, console, default_groups, environments, folders, index_settings, own_project, placed,
    scripts, uv_runs, workspaces,
)  # fmt: skip
from .addresses import shown
from .called import command
from .chosen import Pick
from .console import Refused
from .direct_files import Means
from .index_settings import Variables
from .locks import Lock
from .own_project import Own
from .pip_runs import Pip
from .placed import Places, Sourced, Stamps
from .terminal import Screen, add_color
from .uv_runs import Uv
from .vendored import has_toml_reader
from .versions import normal_name, version
from .workspaces import Workspace

KEPT = {"pip", "setuptools", "wheel", "distribute"}
# So many changes are told by a line each; of more, the first ones are.
MOST_TOLD = 8


def parser() -> console.Parser:
    made = console.Parser("sync", __doc__)
    chosen.add_words(made)
    made.add_argument("--venv", metavar="DIR", help="the virtual environment (`.venv` beside the lock)")
    made.add_argument(
        "--python", metavar="PYTHON", default=sys.executable, help="the interpreter that a new environment is made with"
    )
    made.add_argument(
        "--project", metavar="PROJECT", help="the project file that is installed (`pyproject.toml` beside the lock)"
    )
    made.add_argument("--no-default-groups", action="store_true", help="don't install the project's default groups")
    made.add_argument("--no-project", action="store_true", help="don't install the project itself")
    made.add_argument("--no-editable", action="store_true", help="install the project as a copy of its sources")
    index_settings.add_words(made, links=False)
    made.add_argument(
        "--find-links", metavar="PLACE", action="append", default=[], help="pip's --find-links; may be repeated"
    )
    made.add_argument("--no-index", action="store_true", help="pip's --no-index")
    made.add_argument("--no-hashes", action="store_true", help="install without hashes, where the lock has none")
    made.add_argument(
        "--installer", choices=["pip", "uv"], default="pip",
        help="pip, or uv (`uv pip sync`) where that program is on the path (%(default)s)",
    )  # fmt: skip
    made.add_argument("--keep", action="store_true", help="don't remove packages that the lock doesn't give")
    made.add_argument(
        "--yes", action="store_true", help="let the lock replace pip, or remove every package that is there"
    )
    made.add_argument("--dry-run", action="store_true", help="say what would be done, and do nothing")
    console.add_json(made)
    add_color(made)
    made.add_argument("--quiet", "-q", action="store_true", help="say nothing of what is done")
    return made


def equal(one: str, other: str | None) -> bool:
    left, right = version(one), version(other or "")
    return other is not None and (one == other or (left is not None and right is not None and left.key == right.key))


class Change(NamedTuple):
    """What has to be done to an environment: packages to install from an index, the names of those to remove, the
    project where it is to be installed, and packages from sources."""

    wanted: list[Pick]
    removed: list[str]
    there: dict[str, str]
    project: Own | None = None
    sourced: tuple[Sourced, ...] = ()

    def lines(self, install: str, remove: str) -> Iterator[str]:
        for pick in self.wanted:
            yield f"{install} {pick.name} {pick.version}{self.was(pick)}"
        for it in self.sourced:
            yield f"{install} {it.pick.name} {it.pick.version} ({it.shown()}){self.was(it.pick)}"
        for name in self.removed:
            yield f"{remove} {name} {self.there[name]}"
        if self.project is not None:
            yield self.project.line(install)

    def was(self, pick: Pick) -> str:
        old = self.there.get(pick.name)
        return "" if old in (None, pick.version) or pick.name in self.removed else f" (in place of {old})"

    def as_object(self) -> dict[str, Any]:
        pairs = [*((it, None) for it in self.wanted), *((it.pick, it.shown()) for it in self.sourced)]
        install = [
            {"name": it.name, "version": it.version, "old": self.there.get(it.name), "source": source}
            for it, source in pairs
        ]
        removed = [{"name": it, "version": self.there[it]} for it in self.removed]
        own = self.project
        named = None if own is None else {"name": own.name, "version": own.version, "editable": own.editable}
        return {"install": install, "remove": removed, "project": named}


def change(
    lock: Lock,
    picks: list[Pick],
    there: dict[str, str],
    keep: bool,
    own: Own | None = None,
    found: Places | None = None,
    stamps: Stamps | None = None,
    editable: bool = True,
) -> Change:
    """What is to be done. What came from a source before and comes from an index now is removed first, whatever its
    version is."""
    names, places = {it.name for it in picks}, found or {}
    direct = {it.name for it in picks if it.key in places}
    gone = [] if keep else [it for it in sorted(there) if it not in names | KEPT | {lock.root}]
    left = {} if stamps is None else {it: 0 for it in stamps.found if it in there and it in names - direct}
    plain = [it for it in picks if it.name not in direct]
    wanted = [it for it in plain if it.name in left or not equal(it.version, there.get(it.name))]
    of_sources = placed.sourced(picks, places, editable)
    fresh = tuple(it for it in of_sources if stamps is None or not stamps.has(it, there))
    return Change(wanted, [*left, *gone], there, own, fresh)


def shortened(lines: list[str]) -> list[str]:
    """Lines of what is done, the first of them where they are many."""
    if len(lines) <= MOST_TOLD:
        return lines
    return [*lines[: MOST_TOLD - 1], f".. and {len(lines) - MOST_TOLD + 1} more (--dry-run lists them before)"]


def judged(lock: Lock, picks: list[Pick], made: Change, yes: bool) -> None:
    """Refuses what a lock may not do to an environment, or not without being allowed to."""
    names = {it.name for it in picks}
    if lock.root in names:
        raise Refused(f"the lock gives a package {lock.root}, which is the project's own name")
    if yes:
        return
    if "pip" in {it.name for it in [*made.wanted, *(one.pick for one in made.sourced)]}:
        raise Refused("the lock would install another pip; --yes allows it")
    if made.removed and not names & set(made.there):
        raise Refused(f"the lock would remove all {len(made.removed)} packages that are there; --yes allows it")


def apply(
    pip: Pip, lock: Lock, made: Change, asked: argparse.Namespace, indexes: dict[str, str], means: Means | None = None
) -> None:
    """Fetches what is wanted, removes what isn't, and installs what was fetched and then the project, in this order."""
    places = places_of(asked)
    with tempfile.TemporaryDirectory(prefix="unilock-") as held:
        checked, plain, fetched = (str(Path(held, it)) for it in ("checked.txt", "plain.txt", "fetched"))
        Path(checked).write_text(chosen.with_hashes(lock, made.wanted, not asked.no_hashes), encoding="utf-8")
        Path(plain).write_text(chosen.with_hashes(lock, made.wanted, False), encoding="utf-8")
        if made.wanted:
            hashes = [] if asked.no_hashes else ["--require-hashes"]
            words = ["wheel", "--no-deps", "--use-pep517", "--wheel-dir", fetched, *places, *hashes, "-r", checked]
            pip.run(words, indexes)
        built = Path(held, "built")
        copied = [it for it in made.sourced if not it.editable]
        pins = [made_wheel(pip, it, built, places, indexes, means) for it in copied if means is not None]
        if made.removed:
            pip.run(["uninstall", "--yes", *made.removed])
        if made.wanted:
            pip.run(["install", "--no-deps", "--no-index", "--find-links", fetched, "-r", plain])
        if pins:
            words = ["install", "--no-deps", "--no-index", "--force-reinstall", "--find-links", str(built)]
            pip.run([*words, *pins])
    for it in made.sourced:
        if it.editable:
            pip.run([*it.own.words(), *places], indexes)
    if made.project is not None:
        (pip.folder / own_project.STAMP).unlink(missing_ok=True)
        pip.run([*made.project.words(), *places], indexes)
    kept(pip, made)


def kept(pip: Pip, made: Change) -> None:
    """Notes what came from sources, and the project, as they are now."""
    Stamps(pip.folder).keep(made.sourced, made.removed)
    if made.project is not None:
        (pip.folder / own_project.STAMP).write_text(made.project.stamp(), encoding="utf-8")


def places_of(asked: argparse.Namespace) -> list[str]:
    """The words that say where an installer looks for files besides an index."""
    found = [it for place in asked.find_links for it in ("--find-links", place)]
    return [*found, *(["--no-index"] if asked.no_index else [])]


def installer(asked: argparse.Namespace, folder: str, python: str, has_pip: bool) -> Pip:
    return Uv(folder, python) if asked.installer == "uv" else Pip(folder, python, has_pip)


def made_wheel(
    pip: Pip, it: Sourced, built: Path, places: list[str], indexes: dict[str, str], means: Means
) -> str:
    """Has pip make a wheel of a package from a source, and answers the requirement that it meets."""
    folder = built / it.pick.name
    with placed.taken(it, means) as spec:
        pip.run(["wheel", "--no-deps", "--use-pep517", "--wheel-dir", str(folder), *places, spec], indexes)
    for path in folder.glob("*.whl"):
        name, spelled = archives.wheel_parts(path.name)
        if normal_name(name) != it.pick.name or not equal(spelled, it.pick.version):
            other = f"its build is {path.name}, and the lock has {it.pick.name} {it.pick.version}"
            raise Refused(f"{it.place.told()}: {other}")
        path.rename(built / path.name)
    return f"{it.pick.name}=={it.pick.version}"


def script_of(asked: argparse.Namespace) -> Path | None:
    """The script that the lock is of, where it is that of one."""
    return scripts.of_lock(asked.lock) if asked.project is None else None


def project_path(asked: argparse.Namespace) -> Path:
    return script_of(asked) or Path(asked.project or Path(asked.lock).parent / "pyproject.toml")


def environment_of(asked: argparse.Namespace) -> str:
    """The folder of the environment: the one that is named, `.venv` beside the lock, or that of a script."""
    script = script_of(asked)
    usual = Path(asked.lock).parent / ".venv" if script is None else folders.of_script(script) / "venv"
    return asked.venv or str(usual)


def workspace_of(asked: argparse.Namespace) -> Workspace | None:
    """The project file with the members of its workspace; none where it isn't there. Where it can't be read for want of
    a reader of TOML, that is said, as nothing of the lock hangs on it."""
    path = project_path(asked)
    if not path.is_file():
        if asked.project is not None:
            raise Refused(f"{asked.project}: there is no such file", 3)
        return None
    if not has_toml_reader():
        console.say(f"sync: {path} isn't read, and the project not installed: `pip install tomli` installs a reader")
        return None
    return workspaces.found_for(path) if script_of(asked) is None else scripts.workspace_of(path)


def indexes_of(asked: argparse.Namespace, workspace: Workspace | None, variables: Variables) -> dict[str, str]:
    """An installer's variables for the indexes where it doesn't look by itself. To pip no index is the first: it takes
    a file from any, so the lock's hashes have to say which one is meant."""
    tables = {} if workspace is None else assembled.index_tables(str(workspace.path), workspace)
    words = index_settings.words_of(asked)._replace(links=())
    found = index_settings.settings(words, tables, project_path(asked).parent)
    made = index_settings.for_installer(found, asked.no_index, variables)
    if asked.no_hashes and variables.further in made:
        several = ", ".join(shown(it.url) for it in found.asked())
        raise Refused(f"--no-hashes: pip would take a file from any of {several}; hashes say which one is meant")
    return made


def owner_of(asked: argparse.Namespace, lock: Lock, workspace: Workspace | None) -> tuple[Path, dict[str, Any]]:
    """The project file that the lock begins at, with its tables: the root's, or of the member that the words name."""
    if asked.package is None or workspace is None or lock.root == workspace.name:
        return project_path(asked), {} if workspace is None else workspace.tables
    member = workspace.members.get(lock.root)
    if member is None:
        known = ", ".join(sorted(workspace.members)) or "none"
        raise Refused(f"{lock.root} is no member of the workspace of {workspace.path} (it has: {known})")
    return member.folder / workspaces.FILE, member.tables


def run(asked: argparse.Namespace) -> int:
    if asked.json and not asked.dry_run:
        raise Refused("--json goes with --dry-run", 2)
    if asked.keep and asked.installer == "uv":
        raise Refused("--keep goes with pip: `uv pip sync` removes what the lock doesn't give", 2)
    with chosen.opened(asked) as (path, lock):
        return synced(asked, path, lock)


def synced(asked: argparse.Namespace, path: str, lock: Lock) -> int:
    workspace = workspace_of(asked)
    file, tables = owner_of(asked, lock, workspace)
    is_left_out = asked.no_project or script_of(asked) is not None
    own = None if is_left_out else own_project.found(file, tables, lock, not asked.no_editable)
    folder = environment_of(asked)
    fresh = asked.dry_run and not environments.is_whole(folder)
    if fresh:
        told = environments.told_by(asked.python)
    else:
        python = environments.made_environment(folder, asked.python, asked.quiet)
        told = environments.environment_told_by(python, folder)
    extras = extras_of(asked, lock, tables)
    picks = [it._replace(extras=()) for it in given_on(asked, path, lock, extras, told.variables)]
    means = placed.means_of(lock, picks)
    found = placed.places(workspace, lock, picks, asked.lock, means)
    pip = None if fresh else installer(asked, folder, python, told.has_pip)
    there = {} if pip is None else pip.installed()
    fresh_own = None if own is None or own.is_installed(Path(folder), there) else own
    made = change(lock, picks, there, asked.keep, fresh_own, found, Stamps(Path(folder)), not asked.no_editable)
    tell(made, asked)
    judged(lock, picks, made, asked.yes)
    if asked.dry_run or pip is None:
        return 0
    indexes = indexes_of(asked, workspace, pip.variables)
    if isinstance(pip, Uv):
        plain = chosen.with_hashes(lock, [it for it in picks if it.key not in found], not asked.no_hashes)
        wanted = uv_runs.Wanted(plain, placed.sourced(picks, found, not asked.no_editable), own)
        uv_runs.sync(pip, wanted, means, places_of(asked), indexes)
        kept(pip, made)
    else:
        apply(pip, lock, made, asked, indexes, means)
    if not asked.quiet:
        script = script_of(asked)
        runs = "" if script is None else f"; `{environments.interpreter(folder)} {script}` runs the script"
        print(f"{folder} is as {asked.lock} says: {console.counted(len(picks), 'package')}{runs}", flush=True)
    return checked(pip)


def checked(pip: Pip) -> int:
    """Says what `pip check` finds broken; the status that this makes."""
    broken = pip.broken()
    for text in broken:
        console.say(f"sync: pip check: {text}")
    return 1 if broken else 0


def extras_of(asked: argparse.Namespace, lock: Lock, tables: dict[str, Any]) -> list[str]:
    """The extras and groups that are named, and the default groups."""
    defaults = [] if asked.no_default_groups else default_groups.words(tables, lock)
    return list(dict.fromkeys([*chosen.extras_of(asked), *defaults]))


def given_on(
    asked: argparse.Namespace, path: str, lock: Lock, extras: list[str], variables: dict[str, str]
) -> list[Pick]:
    """What the lock gives on an interpreter; where it isn't made for that one, what to do is said."""
    try:
        return chosen.on_machine(path, lock, extras, variables)
    except Refused as fault:
        if fault.status != chosen.OUTSIDE or "isn't for this machine" not in str(fault):
            raise
        version = variables.get("python_full_version", "")
        other = f"--python PYTHON with --venv DIR makes an environment of another interpreter than this one ({version})"
        wider = f"or widen requires-python in the project file and run `{command('lock')}`"
        raise Refused(f"{fault}\n  {other}, {wider}", fault.status) from None


def tell(made: Change, asked: argparse.Namespace) -> None:
    """Says what is done, or would be."""
    if asked.json:
        console.print_object(made.as_object())
    elif asked.dry_run or not asked.quiet:
        words = ("would install", "would remove") if asked.dry_run else ("installing", "removing")
        found = list(made.lines(*words))
        screen = Screen(asked.color)
        for line in found if asked.dry_run else shortened(found):
            screen.told(line, "bad" if line.startswith(words[1]) else "good" if line.startswith(words[0]) else "")
        sys.stdout.flush()


def main(words: list[str] | None = None) -> int:
    asked = chosen.settled(parser().read(words))
    return console.ended("sync", lambda: run(asked))
