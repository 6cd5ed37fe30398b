"""Texts of requirements (PEP 508) taken apart: what stands before the URL or the marker, the URL, and the marker.

Nothing is judged here; a text that has no such parts is told as it stands to whoever reads requirements.
"""

from __future__ import annotations

import re
from typing import NamedTuple

from .versions import normal_name

# `name[extras] @ url ; marker`: a blank ends the URL.
BY_URL = re.compile(r"\s*([A-Za-z0-9][A-Za-z0-9._-]*)\s*(\[[^\]]*\])?\s*@\s*(\S+)(?:\s+;(.*))?\s*\Z", re.DOTALL)


class Parts(NamedTuple):
    """A requirement's name in normal form, all that stands before its marker but for a URL, its URL, and its marker;
    the last two are empty where there are none."""

    name: str
    front: str
    url: str
    marker: str

    def text(self) -> str:
        """The requirement without its URL."""
        return f"{self.front}; {self.marker}" if self.marker else self.front

    def of_extra(self, extra: str | None) -> str:
        """The requirement without its URL, as one that the extra adds."""
        if extra is None:
            return self.text()
        asked = f"extra == '{extra}'"
        return f"{self.front}; ({self.marker}) and {asked}" if self.marker else f"{self.front}; {asked}"


def parts_of(text: str) -> Parts:
    found = BY_URL.match(text)
    if found is not None:
        return Parts(normal_name(found[1]), f"{found[1]}{found[2] or ''}", found[3], (found[4] or "").strip())
    front, _, marker = text.partition(";")
    name = re.match(r"\s*([A-Za-z0-9][A-Za-z0-9._-]*)", front)
    return Parts(normal_name(name[1]) if name else "", front.strip(), "", marker.strip())
