"""Several package indexes as one: of each name the first that has it is asked, and no other.

So a name of a private index can't be taken over by another one, whatever versions that has. An index that fails isn't
passed over: the next one might have what somebody else put there under the name. A name whose source names an index is
asked of that one alone, and an index that is explicit is asked for no other.

Where a name's sources have conditions, each index that they name is asked, and for the environments in which none of
them holds, if there are such, the others. Its page has the releases of all, each with the name of its source. Of a
version that several have the first counts, in the order of the sources, since a lock has one release of a version.
"""

from __future__ import annotations

from dataclasses import dataclass
from pathlib import Path
from typing import NamedTuple

from . import labels
from .addresses import shown
from .archives import Metadata
from .building import Builder
from .cache import Cache
from .index_settings import Index, Settings
from .links import FolderOfFiles, PageOfLinks
from .marker_texts import ALWAYS
from .pages import ListedRelease, Passed, ProjectPage
from .simple import Client, Fetched, PackageIndex
from .stated import Stated
from .versions import Key


class Patience(NamedTuple):
    """How often a request is tried, and for how long."""

    tries: int = 4
    timeout: float = 30
    deadline: float = 300


@dataclass(frozen=True)
class Asked:
    """An index with what asks it."""

    index: Index
    client: PackageIndex


def client_of(index: Index, cache: Cache, builder: Builder | None, patience: Patience) -> PackageIndex:
    if index.is_folder:
        return FolderOfFiles(Path(index.url), builder)
    made: type[Client] = PageOfLinks if index.is_flat else Client
    return made(
        index.url, cache, tries=patience.tries, timeout=patience.timeout, deadline=patience.deadline, builder=builder,
        secret=index.secret, unknown=index.unknown,
    )  # fmt: skip


class Indexes:
    """The indexes of some settings, for a project that supports the environments of a marker."""

    def __init__(
        self,
        settings: Settings,
        cache: Cache,
        builder: Builder | None = None,
        patience: Patience = Patience(),
        stated: Stated | None = None,
        supported: str = ALWAYS,
    ) -> None:
        self.settings, self.builder, self.stated, self.supported = settings, builder, stated, supported
        self.asked = [Asked(it, client_of(it, cache, builder, patience)) for it in settings.asked()]
        # What the releases of each name that was found are taken from, by what their documents say of it.
        self.found: dict[str, dict[str, PackageIndex]] = {}

    def usual(self) -> list[Asked]:
        """The indexes that a name without a source is asked of, one after the other until one has it."""
        return [it for it in self.asked if not it.index.is_explicit]

    def parts(self, name: str) -> list[tuple[str, list[Asked]]]:
        """Of a name with sources: the indexes that each part of its releases is asked of, with what documents say."""
        listed = self.settings.sources[name]
        named = [(it, self.settings.called(it)) for it in labels.of_indexes(listed)]
        found = [(label, [it for it in self.asked if it.index == index]) for label, index in named]
        return [*found, ("", self.usual())] if labels.has_rest(listed, self.supported) else found

    def page(self, name: str) -> ProjectPage | None:
        if name not in self.settings.sources:
            return self.first(name, self.usual())
        parts = self.parts(name)
        pages = {label: self.first(name, asked, label) for label, asked in parts}
        lacking = [self.lacked(name, label, asked) for label, asked in parts if pages[label] is None]
        if lacking and len(lacking) == len(parts):
            return None
        return joined({label: page for label, page in pages.items() if page is not None}, lacking)

    def first(self, name: str, asked: list[Asked], label: str | None = None) -> ProjectPage | None:
        """The page of the first index that has a name. Without a label its releases have the index's name, unless that
        is the usual one."""
        for one in asked:
            page = one.client.page(name)
            if page is not None:
                plain = "" if one.index == self.settings.usual else one.index.name
                source = plain if label is None else label
                self.found.setdefault(name, {})[source] = one.client
                for release in page.releases:
                    release.source = source
                return page
        return None

    def metadata(self, release: ListedRelease) -> Metadata:
        """The metadata of a release: those that the project file states, or what its files say."""
        stated = None if self.stated is None else self.stated.of(release.project, release.version.text())
        return stated or self.found[release.project][release.source].metadata(release)

    def lacks(self, name: str) -> str:
        """That no index has a project, in words."""
        parts = self.parts(name) if name in self.settings.sources else [("", self.usual())]
        return " and ".join(self.lacked(name, *it) for it in parts)

    def lacked(self, name: str, label: str, asked: list[Asked]) -> str:
        if label:
            return f"the index {label} has no project {name}"
        return asked[0].client.lacks(name) if len(asked) == 1 else f"none of {len(asked)} indexes has a project {name}"

    @property
    def url(self) -> str:
        return " or ".join(it.client.url for it in self.asked if not it.index.is_folder)

    def fetched(self) -> Fetched:
        found = [it.client.fetched() for it in self.asked]
        return Fetched(sum(it.requests for it in found), sum(it.bytes for it in found))

    def stop(self) -> None:
        for one in self.asked:
            one.client.stop()

    def told(self) -> str:
        """The indexes in their order, each with the place that names it."""
        return ", then ".join(told_of(it, self.settings) for it in self.asked)

    def blamed(self, fault: str) -> Index:
        """The index that a fault is told of: the one whose address it begins with, or the usual one."""
        named = (it.index for it in self.asked if fault.startswith(it.client.url))
        return next(named, self.settings.usual)


def joined(pages: dict[str, ProjectPage], lacking: list[str]) -> ProjectPage:
    """The page of several, each with what documents say of it. Of a version that two have the first counts."""
    found: dict[Key, ListedRelease] = {}
    passed: list[Passed] = []
    for label, page in pages.items():
        passed += page.passed
        for release in page.releases:
            first = found.setdefault(release.version.key, release)
            if first is not release:
                passed += [Passed(it.name, also_of(first, label)) for it in release.files]
    return ProjectPage([found[key] for key in sorted(found, reverse=True)], passed, lacking)


def also_of(release: ListedRelease, label: str) -> str:
    """Why a release isn't taken from a second index."""
    other = f"that of {labels.told(label)}" if label else "that for which no source is"
    return f"{release.version.text()} is there from {labels.told(release.source)} too, which counts before {other}"


def told_of(asked: Asked, settings: Settings) -> str:
    index = asked.index
    wanted = [name for name, it in settings.sources.items() if index.name in labels.of_indexes(it)]
    names = wanted if index.is_explicit else []
    alone = f" for {', '.join(sorted(names))} alone" if index.is_explicit else ""
    return f"{shown(asked.client.url)}{index.shown()}{alone}"
