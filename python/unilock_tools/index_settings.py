"""Which package indexes are asked, and in which order, from where teams have them.

The usual index is that of the words of the command, `UNILOCK_DEFAULT_INDEX`, `UNILOCK_INDEX_URL`, the project file
(`tool.uv.index-url`, or the entry of `tool.uv.index` that is the default), `PIP_INDEX_URL`, `UV_DEFAULT_INDEX`,
`UV_INDEX_URL`, and pip's configuration; else PyPI. The first that names one counts, and it is asked last.

Before it come, in this order: places of links (`find-links`); the further indexes of the words (`--index`), of
`UNILOCK_INDEX`, of the project file (`tool.uv.index`, then `extra-index-url`), of `UV_INDEX` and `UV_EXTRA_INDEX_URL`,
and of `PIP_EXTRA_INDEX_URL` or pip's configuration. `indexes` asks the first of them that has a name, and no other. An
`explicit` index is asked for those names alone whose source names it (`tool.uv.sources`), and such a name is asked of
no other, unless its sources have markers.

NAME=URL in the words or in UNILOCK_INDEX gives an index of the project file another address. A user and a password may
stand in an address, in the variables UNILOCK_INDEX_NAME_USERNAME and UNILOCK_INDEX_NAME_PASSWORD, in .netrc, or in the
system's keyring (`fetching`).
"""

from __future__ import annotations

import argparse
import configparser
import os
import re
import sys
from collections.abc import Collection, Iterable, Iterator, Mapping
from pathlib import Path
from typing import Any, NamedTuple
from urllib.parse import SplitResult, quote, unquote, urlsplit, urlunsplit
from urllib.request import url2pathname

from . import labels
from .addresses import no_address, shown
from .console import Refused
from .keyrings import Secret
from .labels import Labels, is_name
from .profile import uv_table as uv_table
from .versions import normal_name

SERVER = "https://pypi.org/simple/"
OWN_VARIABLES = ("UNILOCK_DEFAULT_INDEX", "UNILOCK_INDEX_URL")
OWN_FURTHER = "UNILOCK_INDEX"
VARIABLES = ("PIP_INDEX_URL", "UV_DEFAULT_INDEX", "UV_INDEX_URL")
FURTHER_VARIABLES = ("UV_INDEX", "UV_EXTRA_INDEX_URL", "PIP_EXTRA_INDEX_URL")
# The sections of pip's configuration that speak for an installation, the later before the earlier.
SECTIONS = ("global", "install")
# More indexes than anybody has: of each name all of them may be asked.
MOST_INDEXES = 100


class Variables(NamedTuple):
    """The variables by which an installer is told of indexes and of places of links, what stands between two of these,
    and what it needs besides to take of several indexes the file that has the lock's hash. `are_pips` are pip's, which
    has read the others already that teams set for it."""

    usual: str
    further: str
    links: str
    between: str
    of_several: dict[str, str]
    are_pips: bool


class Words(NamedTuple):
    """What the words of a command name: the usual index, further ones as NAME=URL or URL, and places of links."""

    usual: str | None = None
    further: tuple[str, ...] = ()
    links: tuple[str, ...] = ()


class Index(NamedTuple):
    """A package index: its address, and the place that names it; `by_pip` where pip looks there by itself.

    `name` is its name in normal form, or empty. A flat one is a page of links, or a folder, with the files of all
    projects. `unknown` are statuses besides 404 by which it says that it doesn't know a project.
    """

    url: str
    place: str
    by_pip: bool = False
    name: str = ""
    is_explicit: bool = False
    is_flat: bool = False
    unknown: tuple[int, ...] = ()

    def shown(self) -> str:
        return f" ({self.place})" if self.place else ""

    @property
    def is_folder(self) -> bool:
        return self.is_flat and not is_server(self.url)

    @property
    def secret(self) -> Secret | None:
        """The user and the password that variables have for it, or its address where they have one of the two."""
        found = [os.environ.get(f"{self.variable}_{it}", "") for it in ("USERNAME", "PASSWORD")] if self.name else []
        if not any(found):
            return None
        parts = parts_of(self.url)
        return found[0] or unquote(parts.username or ""), found[1] or unquote(parts.password or "")

    @property
    def variable(self) -> str:
        """The front of the variables that have its user and its password."""
        return f"UNILOCK_INDEX_{self.name.replace('-', '_').upper()}"


class Settings(NamedTuple):
    """The indexes in the order in which they are asked, the usual one last, and the sources of each name of which an
    index is asked."""

    indexes: tuple[Index, ...]
    sources: dict[str, Labels]

    @property
    def usual(self) -> Index:
        return self.indexes[-1]

    def called(self, name: str) -> Index:
        """The index of a name that a source has."""
        return next(it for it in self.indexes if it.name == name)

    def named(self) -> set[str]:
        """The names of the indexes that sources name."""
        return {it for found in self.sources.values() for it in labels.of_indexes(found)}

    def asked(self) -> list[Index]:
        """The indexes that some name may be asked of."""
        named = self.named()
        return [it for it in self.indexes if not it.is_explicit or it.name in named]


def add_words(made: Any, further: bool = True, links: bool = True) -> None:
    """The words by which a command is told of package indexes: the usual one, further ones, and places of links."""
    made.add_argument(
        "--index-url", "--default-index", metavar="URL",
        help="the usual index's Simple API, where not the one that the settings of uv and pip name; it is asked last",
    )  # fmt: skip
    if further:
        made.add_argument(
            "--index", metavar="NAME=URL", action="append", default=[], dest="indexes",
            help="a further index, asked before the usual one, or another address of an index of the project file; "
            "may be repeated",
        )  # fmt: skip
    if links:
        made.add_argument(
            "--find-links", metavar="PLACE", action="append", default=[],
            help="a folder or a page of wheels and source distributions, asked first; may be repeated",
        )  # fmt: skip


def words_of(asked: argparse.Namespace) -> Words:
    further, links = getattr(asked, "indexes", []), getattr(asked, "find_links", [])
    return Words(asked.index_url, tuple(further), tuple(links))


def texts_at(tables: Mapping[str, Any], key: str) -> list[str]:
    """The texts of a list of `tool.uv`."""
    found = uv_table(tables).get(key, [])
    if not isinstance(found, list) or len(found) > MOST_INDEXES or not all(isinstance(it, str) for it in found):
        raise Refused(f"tool.uv.{key}: it isn't a list of at most {MOST_INDEXES} texts", 3)
    return found


def is_server(text: str) -> bool:
    return text.startswith(("http://", "https://"))


def parts_of(url: str) -> SplitResult:
    try:
        return urlsplit(url)
    except ValueError:
        raise no_address(url) from None


def links_at(text: str, place: str, folder: Path, **more: Any) -> Index:
    """A place of links: the address of a page, or a folder, which may stand in relation to another."""
    if is_server(text):
        return Index(text, place, is_flat=True, **more)
    path = url2pathname(parts_of(text).path) if text.startswith("file:") else text
    found = Path(os.path.abspath(folder / path))
    if "\0" in path or not found.is_dir():
        raise Refused(f"{place}: {shown(text)!r} is no folder that is there, and no address of a page", 3)
    return Index(str(found), place, is_flat=True, **more)


def project_index(number: int, entry: object, folder: Path) -> Index:
    """An entry of `tool.uv.index`."""
    place = f"tool.uv.index[{number}]"
    if not isinstance(entry, dict) or not isinstance(entry.get("url"), str) or not entry["url"]:
        raise Refused(f"{place}: it isn't a table with a text `url`", 3)
    name, form = entry.get("name", ""), entry.get("format", "simple")
    marks = [entry.get(it, False) for it in ("explicit", "default")]
    codes = entry.get("ignore-error-codes", [])
    if name != "" and not is_name(name):
        raise Refused(f"{place}: its `name` is no name", 3)
    if not all(isinstance(it, bool) for it in marks) or form not in ("simple", "flat"):
        raise Refused(f"{place}: `explicit` and `default` are true or false, and `format` is simple or flat", 3)
    if not isinstance(codes, list) or not all(isinstance(it, int) and 400 <= it < 500 for it in codes):
        raise Refused(f"{place}: `ignore-error-codes` isn't a list of statuses from 400 to 499", 3)
    if marks[0] and (not name or marks[1]):
        raise Refused(f"{place}: an explicit index has a name, and isn't the default", 3)
    more = {"name": normal_name(name), "is_explicit": marks[0], "unknown": tuple(codes)}
    if form == "flat":
        return links_at(entry["url"], "tool.uv.index", folder, **more)
    if not is_server(entry["url"]):
        raise Refused(f'{place}: its url is no address of a server; a folder wants format = "flat"', 3)
    return Index(entry["url"], "tool.uv.index", **more)


class Listed(NamedTuple):
    """The indexes of `tool.uv.index`, and which of them is the default."""

    indexes: list[Index]
    default: Index | None


def project_indexes(tables: Mapping[str, Any], folder: Path) -> Listed:
    found = uv_table(tables).get("index", [])
    if not isinstance(found, list) or len(found) > MOST_INDEXES:
        raise Refused(f"tool.uv.index: it isn't a list of at most {MOST_INDEXES} tables", 3)
    made = [project_index(number, entry, folder) for number, entry in enumerate(found)]
    names = [it.name for it in made if it.name]
    twice = next((it for it in names if names.count(it) > 1), None)
    if twice is not None:
        raise Refused(f"tool.uv.index: two indexes are called {twice}", 3)
    defaults = [it for it, entry in zip(made, found) if entry.get("default") is True]
    if len(defaults) > 1:
        raise Refused("tool.uv.index: two indexes are the default", 3)
    return Listed(made, defaults[0] if defaults else None)


def project_usual(tables: Mapping[str, Any], folder: Path) -> Index | None:
    """The usual index of a project file."""
    named = uv_table(tables).get("index-url")
    if isinstance(named, str) and named:
        return Index(named, "tool.uv.index-url")
    return project_indexes(tables, folder).default


def pip_files() -> list[Path]:
    """pip's configuration files, a later one before an earlier one; none where PIP_CONFIG_FILE says so."""
    named = os.environ.get("PIP_CONFIG_FILE")
    if named == os.devnull:
        return []
    home = Path.home()
    shared = os.environ.get("XDG_CONFIG_DIRS") or "/etc/xdg"
    own = Path(os.environ.get("XDG_CONFIG_HOME") or home / ".config")
    found = [Path(it) / "pip" / "pip.conf" for it in reversed(shared.split(os.pathsep))] + [Path("/etc/pip.conf")]
    if sys.platform == "darwin":
        found.append(Path("/Library/Application Support/pip/pip.conf"))
        own = next((it for it in [home / "Library" / "Application Support"] if (it / "pip").is_dir()), own)
    found += [home / ".pip" / "pip.conf", own / "pip" / "pip.conf", Path(sys.prefix) / "pip.conf"]
    return [*found, *([Path(named)] if named else [])]


def in_pip(key: str) -> Index | None:
    """What pip's configuration says for a key, with the file that says it."""
    read = []
    for path in pip_files():
        if path.is_file():
            parser = configparser.RawConfigParser()
            try:
                parser.read(path, encoding="utf-8")
            except (configparser.Error, UnicodeDecodeError, OSError) as fault:
                raise Refused(f"{path}: pip's configuration can't be read: {str(fault).splitlines()[0]}", 3) from None
            read.append((path, parser))
    found = None
    for section in SECTIONS:
        for path, parser in read:
            for spelled in (key, key.replace("-", "_")):
                value = parser.get(section, spelled, fallback="").strip()
                found = Index(value, str(path), True) if value else found
    return found


def source(named: str | None, tables: Mapping[str, Any], folder: Path = Path()) -> Index:
    """The usual index of a project file with these tables in a folder."""
    if named:
        return Index(named, "")
    for variable in OWN_VARIABLES:
        if os.environ.get(variable):
            return Index(os.environ[variable], variable)
    found = project_usual(tables, folder)
    if found is not None:
        return found
    for variable in VARIABLES:
        if os.environ.get(variable):
            return Index(os.environ[variable], variable, variable.startswith("PIP_"))
    return in_pip("index-url") or Index(SERVER, "", True)


def named_index(text: str, place: str) -> Index:
    """An index of the form NAME=URL, or of an address alone."""
    found = re.fullmatch(r"([A-Za-z0-9._-]+)=(.+)", text, re.DOTALL)
    name, url = (found[1], found[2]) if found else ("", text)
    if not is_server(url) or (name and not is_name(name)):
        raise Refused(f"{place} {shown(text)!r}: it isn't of the form NAME=URL, or an address of a server", 2)
    return Index(url, place, place.startswith("PIP_"), normal_name(name))


def in_variable(variable: str) -> list[Index]:
    return [named_index(it, variable) for it in os.environ.get(variable, "").split()]


def elsewhere() -> Iterator[Index]:
    """The further indexes that the settings of uv and pip name."""
    for variable in FURTHER_VARIABLES:
        yield from in_variable(variable)
    # As to pip, its variable stands in the place of its configuration.
    found = None if os.environ.get(FURTHER_VARIABLES[-1]) else in_pip("extra-index-url")
    if found is not None:
        yield from (found._replace(url=it) for it in found.url.split())


def named_sources(tables: Mapping[str, Any]) -> dict[str, Labels]:
    """The sources of each name of which an index is asked, as `tool.uv.sources` says."""
    if not isinstance(uv_table(tables).get("sources", {}), dict):
        # What it has to be is told by who follows sources.
        return {}
    return {name: it for name, it in labels.read(tables, "").items() if not labels.is_direct(it)}


def without_doubles(indexes: Iterable[Index], wanted: Collection[str]) -> list[Index]:
    """The indexes without those of an address that is asked already, but for those that a source names."""
    seen: set[str] = set()
    kept = []
    for one in indexes:
        url = one.url.rstrip("/")
        if one.is_explicit or one.name in wanted or url not in seen:
            kept.append(one)
        seen |= set() if one.is_explicit else {url}
    return kept


def settings(words: Words, tables: Mapping[str, Any], folder: Path) -> Settings:
    """The indexes of a project file with these tables, which stands in a folder."""
    given = [*(named_index(it, "--index") for it in words.further), *in_variable(OWN_FURTHER)]
    addresses = {it.name: it for it in reversed(given) if it.name}

    def addressed(one: Index) -> Index:
        found = addresses.get(one.name)
        return one if found is None else one._replace(url=found.url, place=found.place, is_flat=False)

    usual, own = source(words.usual, tables, folder), project_indexes(tables, folder)
    if own.default is not None and usual != own.default:
        # Another one stands in its place; it is still the one that a source may name.
        replaced = own.default._replace(is_explicit=True)
        own = own._replace(indexes=[replaced if it is own.default else it for it in own.indexes])
    known = {it.name for it in [*own.indexes, usual]}
    found = [links_at(it, "--find-links", Path()) for it in words.links]
    found += [links_at(it, "tool.uv.find-links", folder) for it in texts_at(tables, "find-links")]
    found += [it for it in given if not it.name or it.name not in known]
    found += [addressed(it) for it in own.indexes if it != usual]
    found += [named_index(it, "tool.uv.extra-index-url") for it in texts_at(tables, "extra-index-url")]
    sources = named_sources(tables)
    wanted = Settings((), sources).named()
    made = Settings((*without_doubles([*found, *elsewhere()], wanted), addressed(usual)), sources)
    known = {it.name for it in made.indexes}
    for name, listed in sources.items():
        absent = next((it for it in labels.of_indexes(listed) if it not in known), None)
        if absent is not None:
            ways = f"tool.uv.index, --index {absent}=URL or {OWN_FURTHER} names one"
            raise Refused(f"{labels.PLACE}.{name}: there is no index {absent}; {ways}", 3)
    return made


def of_words(asked: argparse.Namespace, tables: Mapping[str, Any], folder: Path) -> Settings:
    """The indexes that the words of a command and a project file in a folder name."""
    return settings(words_of(asked), tables, folder)


def with_secret(index: Index) -> str:
    """An index's address with the user and the password that variables have for it, for pip's own variables."""
    if index.is_folder:
        return Path(index.url).as_uri()
    if index.secret is None:
        return index.url
    parts, secret = parts_of(index.url), ":".join(quote(it, safe="") for it in index.secret)
    return urlunsplit(parts._replace(netloc=f"{secret}@{parts.netloc.rpartition('@')[2]}"))


def for_installer(found: Settings, no_index: bool, variables: Variables) -> dict[str, str]:
    """An installer's own variables for the indexes and places of links that it wouldn't look at by itself. An address
    may have a password in it, so it is none of the installer's words, which every user of the machine can list."""
    asked = [it for it in found.asked() if it != found.usual]
    links = [with_secret(it) for it in asked if it.is_flat]
    further = [it for it in asked if not it.is_flat]
    known = re.split(r"[\s,]+", os.environ.get(variables.links, ""))
    made = {variables.links: variables.between.join(filter(None, [*known, *links]))} if links else {}
    if no_index:
        return made
    if not (found.usual.by_pip and variables.are_pips) or found.usual.secret is not None:
        made[variables.usual] = with_secret(found.usual)
    if any(not (it.by_pip and variables.are_pips) for it in further):
        made.update({**variables.of_several, variables.further: " ".join(map(with_secret, further))})
    return made
