"""Places of links: a folder with wheels and source distributions of all projects, or a page that lists such files.

Neither says which projects it knows, so it has a project where it has a file of it.
"""

from __future__ import annotations

import re
import threading
from collections.abc import Callable, Iterable
from pathlib import Path
from typing import Any, TypeVar

from . import anchors, archives, documents, pages
from .addresses import address_of, fault_of, shown
from .anchors import Anchor
from .archives import Metadata
from .building import Builder
from .cache import Cache, Entry
from .fetching import Answer
from .pages import Listed, ListedRelease, NoFile, Passed, ProjectPage
from .simple import Client, Fetched
from .versions import normal_name

Kind = TypeVar("Kind")


def first_word(name: str) -> str:
    """The first word of a project's name, by which a file's name begins too."""
    return normal_name(name[:200]).partition("-")[0]


def is_named(file: str, project: str) -> bool:
    """Whether the name of a distribution's file begins with a project's."""
    found = pages.DISTRIBUTION.search(file) is not None
    return found and any(normal_name(file[: it.start()]) == project for it in list(re.finditer("-", file))[:100])


def links_in(url: str, body: bytes) -> list[Anchor]:
    """The links to files of a page of those of all projects. Such a page says nothing of what it is, so it is one
    by the links to files that it has."""
    text = body.decode("utf-8", "replace")
    page = pages.html_in(url, text)
    pages.unclosed(url, page, anchors.without_comments(text))
    found = [it for it in page.anchors if pages.DISTRIBUTION.search(pages.file_name(it))]
    if not found:
        raise fault_of(url, "the page has no links to files")
    if len(found) > pages.MOST_FILES:
        raise fault_of(url, f"the page lists more than {pages.MOST_FILES} files")
    return found


def by_first_word(found: Iterable[Kind], name: Callable[[Kind], str]) -> dict[str, list[Kind]]:
    """What has names, by the first words of these."""
    made: dict[str, list[Kind]] = {}
    for it in found:
        made.setdefault(first_word(name(it)), []).append(it)
    return made


class FolderOfFiles:
    """A folder on this machine."""

    def __init__(self, folder: Path, builder: Builder | None) -> None:
        self.folder, self.builder, self.url = folder, builder, str(folder)
        self.files = by_first_word(folder.iterdir(), lambda it: it.name)

    def page(self, name: str) -> ProjectPage | None:
        """The releases of a project's files, each with its hash."""
        near = self.files.get(first_word(name), [])
        found = sorted(it for it in near if is_named(it.name, name) and it.is_file())
        gathered = pages.Gathered(self.url, name)
        for path in found:
            try:
                pages.version_in(path.name, name)
                gathered.add(Listed(path.name, "", archives.sha256_of(path), None, False, None, None, None))
            except NoFile as fault:
                gathered.passed.append(Passed(path.name, str(fault)))
        return gathered.page() if found else None

    def metadata(self, release: ListedRelease) -> Metadata:
        return documents.metadata_of(self.folder / release.speaker.name, self.builder)

    def lacks(self, name: str) -> str:
        return f"{self.folder} has no file of {name}"

    def fetched(self) -> Fetched:
        return Fetched(0, 0)

    def stop(self) -> None:
        """Nothing is under way."""


class PageOfLinks(Client):
    """A page on a server, which is asked once."""

    def __init__(self, url: str, cache: Cache, **more: Any) -> None:
        super().__init__(url, cache, **more)
        self.address = address_of(url)
        self.reading = threading.Lock()
        # The links by the first words of their files' names.
        self.links: dict[str, list[Anchor]] | None = None

    def page(self, name: str) -> ProjectPage | None:
        with self.reading:
            self.links = by_first_word(self.read(), pages.file_name) if self.links is None else self.links
        near = self.links.get(first_word(name), [])
        found = [it for it in near if is_named(pages.file_name(it), name)]
        return pages.page_of(name, self.address, found) if found else None

    def lacks(self, name: str) -> str:
        return f"{shown(self.address)} has no link to a file of {name}"

    def read(self) -> list[Anchor]:
        found = self.page_answer(self.address, self.cache.get("pages", self.address))
        if isinstance(found, Entry):
            return links_in(found.fact("url"), found.body)
        assert isinstance(found, Answer), "an answer is kept or given"
        if found.status != 200:
            raise fault_of(self.address, f"{found.status} {found.reason}")
        if not found.measured:
            raise fault_of(self.address, "the server doesn't tell its length, so it may be cut off")
        links = links_in(found.url, found.body)
        self.keep("pages", self.address, found)
        return links
