"""The index folder of a call of `lock`, with the releases that come from sources."""

from __future__ import annotations

import argparse
from pathlib import Path

from . import console, direct, direct_files, index_settings, own_index
from .cache import Cache, usual_folder
from .direct import Direct


def gathered(asked: argparse.Namespace, kept: own_index.Kept, known: Path | None, also: set[str]) -> Direct | None:
    """The releases that come from sources; a commit of the old lock stays unless it is to be chosen anew. `also` are
    names that others lead to."""
    if asked.workspace is None:
        return None
    source = index_settings.source(asked.index_url, asked.workspace.tables)
    means = direct_files.means_of(asked, Cache(usual_folder()), source.url)
    commits = {} if kept.anew else direct.commits_of(kept.lock)
    means.known, means.kept = known, {name: it for name, it in commits.items() if name not in kept.pins}
    found = Direct(asked.workspace, means, also).gather()
    if not asked.quiet:
        for text in found.warnings():
            console.say(f"lock: warning: {text}")
    return found


def beside(asked: argparse.Namespace, kept: own_index.Kept, index: Path) -> Direct | None:
    """The releases that come from sources, for an index folder that was made before."""
    return gathered(asked, kept, index, led_to(asked, index))


def led_to(asked: argparse.Namespace, folder: Path) -> set[str]:
    return set() if asked.workspace is None else direct.led_to(asked.workspace, folder)


def asked_for(asked: argparse.Namespace, kept: own_index.Kept) -> tuple[Direct | None, own_index.Fetched]:
    """The releases that come from sources, and the own folder with them; fetched again where somebody led to a name
    whose source wasn't followed."""
    also = led_to(asked, own_index.own_folder(asked))
    while True:
        given = gathered(asked, kept, own_index.known(asked, kept), also)
        found = own_index.folder_for(asked, kept, given)
        more = set() if given is None else given.left() & found.reached
        if not more:
            return given, found
        also |= more
