"""The page that a package index has of a project, in JSON (PEP 691, 700) or HTML (PEP 503): its releases and files.

A page must say that it is one, so that a login page or a page that was cut off isn't taken for a project without
files. Each value is checked for its type. What a page lists and can't be used is told, file by file.
"""

from __future__ import annotations

import json
import re
from dataclasses import dataclass, field
from typing import Any, Dict, Iterable, List, NamedTuple, Optional, Tuple
from urllib.parse import unquote, urljoin, urlsplit

from . import archives
from .addresses import address_of, fault_of, is_weaker
from .anchors import Anchor, HtmlPage, without_comments
from .versions import Key, Version, normal_name, version

JSON_FORM = "application/vnd.pypi.simple.v1+json"
HTML_FORM = "application/vnd.pypi.simple.v1+html"
HTML_FORMS = (HTML_FORM, "text/html", "application/xhtml+xml")
ACCEPTED = f"{JSON_FORM}, {HTML_FORM};q=0.2, text/html;q=0.01"
MOST_FILES = 200_000
MOST_SIZE = 1 << 53
MOST_REASON = 300
SHA256 = re.compile(r"[0-9a-fA-F]{64}\Z")
# How the name of a distribution's file ends, of those that are read and of older ones.
DISTRIBUTION = re.compile(
    r"\.(?:whl|tar\.gz|zip|egg|exe|msi|rpm|deb|dmg|tgz|tar\.(?:bz2|xz|Z)|tar)\s*\Z", re.IGNORECASE
)
# How a page in HTML begins, comments aside.
HTML_START = re.compile(r"[\ufeff\s]*(?:<\?xml[^>]*>\s*)?<(?:!doctype|html)[\s/>]", re.IGNORECASE)


class Listed(NamedTuple):
    """A file as a page lists it. `metadata` is None without a metadata file, else its SHA-256 or the empty text;
    `reason` says why it is yanked, where the page does."""

    name: str
    url: str
    sha256: Optional[str]
    requires_python: Optional[str]
    yanked: bool
    metadata: Optional[str]
    uploaded: Optional[str]
    size: Optional[int]
    reason: str = ""


@dataclass
class ListedRelease:
    """A version of a project with its files as the page lists them; `source` is the name of the index that lists it,
    where that isn't the usual one, or that a source names."""

    version: Version
    files: List[Listed] = field(default_factory=list)
    project: str = ""
    source: str = ""

    @property
    def yanked(self) -> bool:
        """Whether all its files are: a release counts as withdrawn where nothing else is left of it (PEP 592)."""
        return all(it.yanked for it in self.files)

    @property
    def reason(self) -> str:
        """Why it is yanked, as the first of its files that says it does."""
        return next((it.reason for it in self.files if it.reason), "") if self.yanked else ""

    @property
    def counted(self) -> List[Listed]:
        """The files that are locked and may speak for the release: those that aren't yanked, where there are such, and
        of these those with a SHA-256, where there are such."""
        kept = [it for it in self.files if it.yanked == self.yanked]
        return [it for it in kept if it.sha256 is not None] or kept

    @property
    def speaker(self) -> Listed:
        """The file whose metadata speak for the release: a wheel for every machine, else any wheel, else a source
        distribution. One with a metadata file beside it comes before others of its kind."""

        def rank(file: Listed) -> Tuple[bool, bool, bool, str]:
            wheel = file.name.endswith(".whl")
            return (not wheel, file.metadata is None, not file.name.endswith("-none-any.whl"), file.name)

        return min(self.counted, key=rank)

    @property
    def requires_python(self) -> Optional[str]:
        """The bound on the interpreter that the page tells of the file that speaks; its metadata have the last word."""
        return self.speaker.requires_python


class Passed(NamedTuple):
    """A file that a page lists and that isn't taken, with the reason."""

    file: str
    fault: str


@dataclass
class ProjectPage:
    """The releases of a page, the newest first, and what was passed over; of a page that is made of several what is
    told of those that aren't there."""

    releases: List[ListedRelease]
    passed: List[Passed]
    lacking: List[str] = field(default_factory=list)


class NoFile(Exception):
    """What keeps a listed file from being taken."""


def text_at(entry: Dict[str, Any], key: str, what: str) -> Optional[str]:
    """A text of an entry; the empty one counts as none."""
    found = entry.get(key)
    if found is None or found == "":
        return None
    if not isinstance(found, str):
        raise NoFile(f"its {what} is no text")
    return found


def hash_in(found: Any, what: str) -> Optional[str]:
    """The SHA-256 among hashes of JSON, in small letters."""
    summed = found.get("sha256") if isinstance(found, dict) else None
    if summed is None:
        return None
    if not isinstance(summed, str) or not SHA256.match(summed):
        raise NoFile(f"the SHA-256 of {what} isn't 64 hexadecimal digits")
    return summed.lower()


def hash_of_text(text: str, what: str) -> Optional[str]:
    """The SHA-256 in `sha256=DIGITS`, or None where it is of another kind."""
    kind, equals, summed = text.partition("=")
    return hash_in({"sha256": summed}, what) if equals and kind == "sha256" else None


def fragment_hash(href: str) -> str:
    found = re.search(r"[#&](sha256=[^&]*)", href)
    return found[1] if found else ""


def file_address(text: str, base: str) -> str:
    try:
        found = address_of(text, base)
    except ValueError:
        raise NoFile("its address is none of http or https") from None
    if is_weaker(found, base):
        raise NoFile("its address isn't https, and the page's is")
    return found


def json_file(url: str, entry: Dict[str, Any]) -> Listed:
    stated = entry.get("core-metadata", entry.get("dist-info-metadata"))
    if not isinstance(stated, (bool, dict)) and stated is not None:
        raise NoFile("its mark of a metadata file is neither true, false nor hashes")
    address = text_at(entry, "url", "address")
    if address is None:
        raise NoFile("it has no address")
    size = entry.get("size")
    sized = isinstance(size, int) and not isinstance(size, bool) and 0 <= size <= MOST_SIZE
    return Listed(
        name=entry["filename"],
        url=file_address(address, url),
        sha256=hash_in(entry.get("hashes"), "it"),
        requires_python=text_at(entry, "requires-python", "bound on Python"),
        # PEP 592: true, or a text that says why.
        yanked=bool(entry.get("yanked")),
        metadata=(hash_in(stated, "its metadata") or "") if stated else None,
        uploaded=text_at(entry, "upload-time", "upload time"),
        size=size if sized else None,
        reason=reason_in(entry.get("yanked")),
    )


def html_file(anchor: Anchor, url: str) -> Listed:
    marks = anchor.marks
    href = marks.get("href") or ""
    address = file_address(href, anchor.base)
    if is_weaker(address, url):
        raise NoFile("its address isn't https, and the page's is")
    told = [marks[it] for it in ("data-core-metadata", "data-dist-info-metadata") if it in marks][:1]
    return Listed(
        name=file_name(anchor),
        url=address,
        sha256=hash_of_text(fragment_hash(href), "it"),
        requires_python=marks.get("data-requires-python") or None,
        yanked="data-yanked" in marks,
        metadata=(hash_of_text(told[0] or "", "its metadata") or "") if told and told[0] != "false" else None,
        uploaded=None,
        size=None,
        reason=reason_in(marks.get("data-yanked")),
    )


def reason_in(mark: object) -> str:
    """The reason in a mark of a yanked file, in one short line."""
    return " ".join(mark.split())[:MOST_REASON] if isinstance(mark, str) else ""


def file_name(anchor: Anchor) -> str:
    """The name in an address: what stands behind the last slash of its path."""
    href = anchor.marks.get("href") or ""
    try:
        path = urlsplit(urljoin(anchor.base, href)).path
    except ValueError:
        path = re.split(r"[?#]", href, maxsplit=1)[0]
    return unquote(path.rstrip("/").rpartition("/")[2])


def json_entries(url: str, project: str, body: bytes) -> List[Dict[str, Any]]:
    """The files of a page in JSON, as they stand."""
    try:
        page = json.loads(body)
    except (ValueError, RecursionError) as fault:
        raise fault_of(url, f"the page isn't as PEP 691 has it: {fault}") from None
    if not isinstance(page, dict) or not isinstance(page.get("meta"), dict):
        raise fault_of(url, "the page isn't as PEP 691 has it: it has no `meta`")
    edition = page["meta"].get("api-version")
    if not isinstance(edition, str) or not re.fullmatch(r"1\.[0-9]{1,9}", edition):
        raise fault_of(url, f"the page isn't as PEP 691 has it: its api-version is {str(edition)[:40]!r}")
    if not isinstance(page.get("name"), str) or normal_name(page["name"]) != project:
        raise fault_of(url, f"the page is of {str(page.get('name'))[:80]!r}, not of {project}")
    entries = page.get("files")
    if not isinstance(entries, list) or not all(
        isinstance(it, dict) and isinstance(it.get("filename"), str) for it in entries
    ):
        raise fault_of(url, "the page isn't as PEP 691 has it: `files` is no list of files")
    return entries


def is_file_name(name: str, project: str) -> bool:
    """Whether the last part of a link may be meant as a file of a project; others lead elsewhere, as to the folder
    above."""
    return DISTRIBUTION.search(name) is not None or normal_name(name).startswith(f"{project}-")


def html_in(url: str, text: str) -> HtmlPage:
    page = HtmlPage(url)
    try:
        page.feed(text)
    except (AssertionError, ValueError) as fault:
        raise fault_of(url, f"the page is no HTML: {fault}") from None
    return page


def unclosed(url: str, page: HtmlPage, bare: str) -> None:
    """Refuses a page of whose links the reader found fewer than its text has."""
    if page.links != len(re.findall(r"<a[\s/>]", bare, re.IGNORECASE)):
        raise fault_of(url, "the page has a tag or a comment that isn't closed, with a link behind it")


def html_anchors(url: str, project: str, form: str, body: bytes) -> List[Anchor]:
    """The anchors of a page in HTML that says that it is one, and that is whole."""
    text = body.decode("utf-8", "replace")
    page, bare = html_in(url, text), without_comments(text)
    if not HTML_START.match(bare):
        raise fault_of(url, "the page doesn't begin with <!DOCTYPE html> or <html>, so it was cut off")
    if not page.ended:
        raise fault_of(url, "the page doesn't end with </html>, so it was cut off")
    unclosed(url, page, bare)
    if page.edition and not re.fullmatch(r"1\.[0-9]{1,9}", page.edition):
        raise fault_of(url, f"the page is of edition {page.edition[:40]!r} of the Simple API")
    titled = re.fullmatch(r"Links for (.+)", page.title.strip())
    says = page.edition or form == HTML_FORM or (titled is not None and normal_name(titled[1].strip()) == project)
    anchors = page.anchors
    if not says and not any(DISTRIBUTION.search(file_name(it)) for it in anchors):
        raise fault_of(url, "the page has no files, and nothing in it says that it is one of the Simple API")
    return anchors


def version_in(file: str, project: str) -> Version:
    """The version in the name of a wheel or source distribution of the project."""
    if file.endswith(".whl"):
        try:
            name, spelled = archives.wheel_parts(file)
        except archives.Refused as fault:
            raise NoFile(fault.fault) from None
        found = version(spelled)
        if normal_name(name) != project:
            raise NoFile("its name is another project's")
        if found is None:
            raise NoFile("its version has no reading")
        return found
    if not file.endswith(".tar.gz"):
        raise NoFile("it is neither a .whl nor a .tar.gz")
    stem, named = file[: -len(".tar.gz")], False
    for cut in [it.start() for it in re.finditer("-", stem)][:100]:
        if normal_name(stem[:cut]) == project:
            named, found = True, version(stem[cut + 1 :])
            if found is not None:
                return found
    raise NoFile("its version has no reading" if named else "its name is another project's")


class Gathered:
    """The files of a page as they come: releases by their version, and what was passed over."""

    def __init__(self, url: str, project: str) -> None:
        self.url, self.project = url, project
        self.releases: Dict[Key, ListedRelease] = {}
        self.names: Dict[str, Listed] = {}
        self.passed: List[Passed] = []

    def add(self, file: Listed) -> None:
        if not archives.FILE_NAME.match(file.name):
            raise NoFile("its name has a byte that no lock can hold")
        found = version_in(file.name, self.project)
        known = self.names.setdefault(file.name, file)
        if known is not file:
            if known.sha256 != file.sha256:
                raise fault_of(self.url, f"two files of the name {file.name} have different hashes")
            if (known.yanked, known.metadata) != (file.yanked, file.metadata):
                raise fault_of(self.url, f"two entries of the file {file.name} differ")
            return
        self.releases.setdefault(found.key, ListedRelease(found, project=self.project)).files.append(file)

    def page(self) -> ProjectPage:
        for entry in self.passed:
            if entry.file in self.names:
                raise fault_of(self.url, f"of two entries of the file {entry.file} one can't be taken: {entry.fault}")
        return ProjectPage([self.releases[key] for key in sorted(self.releases, reverse=True)], self.passed)


def read_page(project: str, url: str, form: str, body: bytes) -> ProjectPage:
    """The page of a project, in its normal name, of this media type."""
    entries: Iterable[Any]
    if form == JSON_FORM:
        entries = json_entries(url, project, body)
    elif form in HTML_FORMS:
        entries = html_anchors(url, project, form, body)
    else:
        raise fault_of(url, f"the page is {form or 'of no stated form'}, which is no form of the Simple API")
    return page_of(project, url, entries)


def page_of(project: str, url: str, entries: Iterable[Any]) -> ProjectPage:
    """The releases of the files that entries of JSON or links list."""
    gathered = Gathered(url, project)
    for number, entry in enumerate(entries):
        if number == MOST_FILES:
            raise fault_of(url, f"the page lists more than {MOST_FILES} files")
        name = file_name(entry) if isinstance(entry, Anchor) else entry["filename"]
        if isinstance(entry, Anchor) and not is_file_name(name, project):
            continue
        try:
            gathered.add(html_file(entry, url) if isinstance(entry, Anchor) else json_file(url, entry))
        except NoFile as fault:
            gathered.passed.append(Passed(name, str(fault)))
    return gathered.page()
