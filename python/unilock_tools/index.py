"""Writes an index folder for unilock: from a project and a package index, or from wheels and source distributions.

Each SOURCE is a project file (a .toml), a wheel (.whl), a source distribution (.tar.gz), or a folder of such files.

Of files, OUT/NAME.json is written for each project, NAME in its normal form (PEP 503), with an entry for each
version: its requirements, its bound on the interpreter, and the name and SHA-256 of each of its files. All files of
one version make one entry; where their metadata differ they are refused, since a lock for all platforms needs one
answer. A source distribution counts where its PKG-INFO has metadata 2.2 or later and neither its requirements nor its
bound are dynamic (PEP 643); otherwise it is refused, or built where --build names its project (or with --build-all) and
the library `build` is installed. A build runs the project's code, and what it says is kept by the file's hash.

From a project, the package index is asked for all that its requirements can reach: each release that the project's
own bounds, --newest and --before allow. Names of which files are given are taken from these alone. A release speaks
by the metadata of one of its wheels; one without a wheel counts as a source distribution does above, and is passed
over with a warning otherwise. What `tool.uv.dependency-metadata` states counts in the place of both. The server gives
metadata files (PEP 658), ranges of wheels or whole wheels, and pages in JSON (PEP 691) or HTML (PEP 503).

Names with a source (`tool.uv.sources`: path, url, git or workspace), and those that are required by a URL, have the one
release that this gives, with `source = direct` in its entry, and no server is asked for them; of a repository the entry
has the commit. Where a name's sources have markers, each index that they name is asked, and the usual ones where some
supported environment is in none of them; each release says which source it is of, and the program takes it where that
counts. Of a version that several have the first counts: that of no index, then in the order of the sources. Only the
project and the members of its workspace may have sources with markers, and of one name one alone may be no index.

A release that unilock will not be able to use is kept and warned of, with the entry that it can't read.

OUT is written anew as a whole: into a fresh folder beside it, which then takes its place. Only a folder that this
command made (a file .unilock-index in it says so), or an empty one, is replaced.

The usual package index is that of --index-url, or of UNILOCK_DEFAULT_INDEX, the project file (`tool.uv.index-url`, or
the default of `tool.uv.index`), PIP_INDEX_URL, UV_INDEX_URL or pip's configuration, the first that there is; else PyPI.
Before it the further ones are asked: --find-links, --index, UNILOCK_INDEX, the project file's, uv's and pip's. Of each
name the first index that has it is asked, and no other. A user and a password in an address, in the variables
UNILOCK_INDEX_NAME_USERNAME and UNILOCK_INDEX_NAME_PASSWORD, in .netrc or in the system's keyring (the library
`keyring`) are sent to that server alone and written nowhere. An answer that is cut off, or that doesn't say that it is
a page of the Simple API, is refused.

Needs the library `requests` to ask a server, and `rich` for a bar of progress. Status: 0 written; 1 a file is refused;
2 the words aren't right; 3 the project file can't be read; 4 more packages, releases or text than the program reads; 5
a server fails; 130 interrupted.
"""

from __future__ import annotations

import argparse
import contextlib
import os
import sys
from pathlib import Path
from typing import Any, Dict, List, Optional, Set

from . import (
    assembled, building, console, direct, direct_files, documents, folders, index_settings, labels, project, scripts,
    terminal, walk,
)  # fmt: skip
from .archives import Refused
from .building import Builder
from .cache import Cache, usual_folder
from .documents import Projects
from .indexes import Indexes, Patience
from .stated import Stated
from .terminal import Meter, Part
from .vendored import toml_of
from .workspaces import Workspace


def parser() -> console.Parser:
    made = console.Parser("index", __doc__)
    made.add_argument(
        "sources",
        metavar="SOURCE",
        nargs="+",
        type=Path,
        help="a project file or a script, wheels, source distributions, or folders of them",
    )
    made.add_argument("out", metavar="OUT", type=Path, help="the index folder, written anew")
    made.add_argument(
        "--yanked",
        metavar="NAME==VERSION",
        action="append",
        default=[],
        help="mark this release as yanked (PEP 592); may be repeated",
    )
    made.add_argument("--skip", action="store_true", help="pass a file over that can't be taken, with a warning")
    made.add_argument("--quiet", "-q", action="store_true", help="say nothing of what was done, nor warnings")
    terminal.add_color(made)
    building.add_words(made)
    server = made.add_argument_group("from a package index")
    index_settings.add_words(server)
    server.add_argument("--newest", metavar="N", type=int, help="at most so many releases of each package, the newest")
    server.add_argument(
        "--before",
        metavar="DATE",
        help="only files uploaded before this instant (PEP 700): 2024-05-01, or 2024-05-01T12:00:00+02:00",
    )
    server.add_argument("--jobs", metavar="N", type=int, default=16, help="requests side by side (%(default)s)")
    server.add_argument("--cache", metavar="DIR", type=Path, help=f"the cache ({usual_folder()})")
    server.add_argument("--no-cache", action="store_true", help="keep nothing on disk")
    server.add_argument("--tries", metavar="N", type=int, default=4, help="tries of a request that fails (%(default)s)")
    server.add_argument(
        "--timeout", metavar="SECONDS", type=float, default=30, help="how long a server may be silent (%(default)s)"
    )
    server.add_argument(
        "--deadline", metavar="SECONDS", type=float, default=300, help="how long one request may take (%(default)s)"
    )
    return made


def judged(asked: argparse.Namespace) -> None:
    for name, least in [("newest", 1), ("jobs", 1), ("tries", 1), ("timeout", 0.001), ("deadline", 0.001)]:
        value = getattr(asked, name)
        if value is not None and not value >= least:
            raise console.Refused(f"--{name} {value}: at least {least}", 2)
    for name, most in [("jobs", 256), ("timeout", 1e6), ("deadline", 1e6)]:
        if not getattr(asked, name) <= most:
            raise console.Refused(f"--{name} {getattr(asked, name)}: at most {most:g}", 2)


def from_files(
    paths: List[Path], skip: bool, builder: Optional[Builder], stated: Stated
) -> "tuple[Projects, List[str]]":
    gathered, passed = Projects(), []
    for path in documents.files_in(paths):
        try:
            gathered.add_file(path, builder, stated.of_file(path.name))
        except Refused as fault:
            if not skip:
                raise
            passed.append(f"{fault}; passed over")
    return gathered, passed


def from_sources(
    asked: argparse.Namespace, workspace: Workspace, url: str, also: Set[str]
) -> direct.Direct:
    """The releases that come from sources; `also` are names that others lead to."""
    means = direct_files.means_of(asked, cache_of(asked), url)
    means.tries, means.timeout, means.deadline = asked.tries, asked.timeout, asked.deadline
    return direct.Direct(workspace, means, also).gather()


def beside_files(files: Projects, found: Optional[direct.Direct]) -> "tuple[Projects, List[str]]":
    """The releases of files with those that come from sources, and which files these are in the place of. Files of a
    name that is of one index stand for that one's."""
    made = files.copy()
    if found is None:
        return made, []
    for name, listed in found.listed.items():
        if len(listed) == 1 and not labels.is_conditional(listed):
            for release in made.releases.get(name, {}).values():
                release.source = listed[0].name
    twice = sorted(set(files.releases) & set(found.places))
    given = found.projects()
    made.releases.update(given.releases)
    made.beside |= given.beside
    passed = (f"{it}: its files are passed over, since it comes from {found.places[it].told()}" for it in twice)
    return made, [*passed, *found.warnings()]


def from_server(
    asked: argparse.Namespace, path: Path, files: Projects, builder: Optional[Builder]
) -> "tuple[Projects, List[str]]":
    """The releases that a project can reach, with those of files, and what is warned of."""
    with assembled.given(str(path)) as given:
        read, tables = project.load(given.project), assembled.index_tables(given.named, given.workspace)
    cache, settings = cache_of(asked), index_settings.of_words(asked, tables, Path(given.named).parent)
    patience = Patience(asked.tries, asked.timeout, asked.deadline)
    client = Indexes(settings, cache, builder, patience, Stated(tables), read.supported())
    choice = walk.Choice(asked.newest, None if asked.before is None else walk.instant(asked.before))
    also: Set[str] = set()
    while True:
        found = None if given.workspace is None else from_sources(asked, given.workspace, settings.usual.url, also)
        gathered, warned = beside_files(files, found)
        shown: contextlib.AbstractContextManager[Optional[Meter]] = contextlib.nullcontext()
        if not asked.quiet:
            shown = Meter("index", "look-up", asked.color)
        with shown as meter:
            walking = walk.Walk(client, read, choice, gathered, asked.jobs, meter)
            walking.run(it.requirement for it in read.requirements)
        # A source of a name that others led to is followed, and what it requires walked.
        more = set() if found is None else found.left() & set(walking.reached)
        if not more:
            break
        also |= more
    if not asked.quiet:
        several = f"; asked {client.told()}" if len(client.asked) > 1 else settings.usual.shown()
        console.say(f"index: {client.fetched().told()}{several}")
    return gathered, [*warned, *walking.warnings(), *([cache.fault] if cache.fault else [])]


def cache_of(asked: argparse.Namespace) -> Cache:
    return Cache(None if asked.no_cache else asked.cache or usual_folder())


def is_project(path: Path) -> bool:
    """Whether a source is a project file, or a script with its requirements in it."""
    return path.suffix == ".toml" or scripts.is_script(path)


def tables_of(path: Path) -> Dict[str, Any]:
    return scripts.tables_of(path) if scripts.is_script(path) else toml_of(str(path))


def run(asked: argparse.Namespace) -> int:
    judged(asked)
    projects = [it for it in asked.sources if is_project(it)]
    if len(projects) > 1:
        raise console.Refused("two project files: one folder is made for one project", 2)
    folders.prepared(asked.out)
    builder = building.of_words(asked, cache_of(asked), asked.index_url)
    stated = Stated(tables_of(projects[0]) if projects else {})
    files = [it for it in asked.sources if it not in projects]
    gathered, warned = from_files(files, asked.skip, builder, stated)
    for mark in asked.yanked:
        gathered.mark_yanked(mark)
    for path in projects:
        gathered, more = from_server(asked, path, gathered, builder)
        warned += more
    warned += [] if builder is None else builder.warnings()
    folders.replace_folder(asked.out, gathered.documents())
    if not asked.quiet:
        screen = terminal.Screen(asked.color, sys.stderr)
        for text in [*warned, *gathered.warnings()]:
            screen.line(Part("index: warning: ", "changed"), Part(console.escaped(text)))
        if projects:
            releases = sum(len(it) for it in gathered.releases.values())
            packages = console.counted(len(gathered.releases), "package")
            console.say(f"index: {asked.out} has {packages} with {console.counted(releases, 'release')}")
    return 0


def main(words: Optional[List[str]] = None) -> int:
    asked = parser().read(words)
    status = console.ended("index", lambda: run(asked))
    if status == console.INTERRUPTED:
        # Threads that still wait for a server would keep the process until their time is over.
        os._exit(status)
    return status
