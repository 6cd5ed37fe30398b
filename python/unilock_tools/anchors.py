"""The links of a page in HTML, and what the page says of itself."""

from __future__ import annotations

from html.parser import HTMLParser
from typing import Dict, List, NamedTuple, Optional, Tuple
from urllib.parse import urljoin


class Anchor(NamedTuple):
    """A link of an HTML page."""

    base: str
    marks: Dict[str, Optional[str]]


class HtmlPage(HTMLParser):
    """The anchors of an HTML page, and what says that it is a page of the Simple API."""

    def __init__(self, url: str) -> None:
        super().__init__()
        self.url = url
        self.base: Optional[str] = None
        self.marks: List[Dict[str, Optional[str]]] = []
        self.links = 0
        self.edition = ""
        self.title = ""
        self.in_title = False
        self.ended = False

    def handle_starttag(self, tag: str, attrs: List[Tuple[str, Optional[str]]]) -> None:
        found = dict(attrs)
        self.ended = False
        self.in_title = tag == "title"
        if tag == "base" and self.base is None and found.get("href"):
            self.base = urljoin(self.url, found["href"] or "")
        elif tag == "meta" and found.get("name") == "pypi:repository-version":
            self.edition = found.get("content") or ""
        self.links += tag == "a"
        if tag == "a" and len(found) != len(attrs):
            raise ValueError("a link has an attribute twice, so two links may have become one")
        if tag == "a" and found.get("href"):
            self.marks.append(found)

    @property
    def anchors(self) -> List[Anchor]:
        """The links that lead anywhere. The first base of a page is that of all its links, as HTML and pip have it."""
        return [Anchor(self.base or self.url, it) for it in self.marks]

    def handle_data(self, data: str) -> None:
        if self.in_title:
            self.title += data[:200]

    def handle_endtag(self, tag: str) -> None:
        self.in_title = False
        self.ended = tag == "html"


def without_comments(text: str) -> str:
    kept: List[str] = []
    at = 0
    while True:
        begin = text.find("<!--", at)
        end = text.find("-->", begin + 4) if begin >= 0 else -1
        if end < 0:
            return "".join([*kept, text[at:]])
        kept.append(text[at:begin])
        at = end + 3
