"""Tables of a lock that another tool wrote, read so that nothing of them is passed over without being known.

Each key is taken, or named as one without meaning for what is asked, or told as unread; what is taken has its type.
"""

from __future__ import annotations

from typing import Any, Dict, Iterable, List, Optional

from . import markers
from .console import Refused
from .versions import NAME, NoReading, normal_name, version_of

# The status of a command whose answer is that it can't tell.
NOT_JUDGED = 3
LONGEST = 200


class Unread(Refused):
    """What of a lock has no reading, so that the lock can't be judged."""

    def __init__(self, text: str) -> None:
        super().__init__(text, NOT_JUDGED)


def shortly(value: object) -> str:
    """A value of a lock in a sentence."""
    text = repr(value)
    return text if len(text) <= LONGEST else f"{text[:LONGEST]}.."


class Table:
    """A table at a place; `unread` gathers the keys of this and all tables below it that nobody knows."""

    def __init__(self, value: object, place: str, unread: List[str]) -> None:
        if not isinstance(value, dict):
            raise Unread(f"{place} isn't a table")
        self.value: Dict[str, Any] = value
        self.place, self.unread = place, unread
        self.left = dict.fromkeys(value)

    def at(self, key: str) -> str:
        return f"{self.place}.{key}" if self.place else key

    def take(self, key: str) -> Any:
        """What stands at a key, or None."""
        self.left.pop(key, None)
        return self.value.get(key)

    def has(self, key: str) -> bool:
        return key in self.value

    def text(self, key: str) -> Optional[str]:
        found = self.take(key)
        if found is not None and not isinstance(found, str):
            raise Unread(f"{self.at(key)} isn't a text: {shortly(found)}")
        return found

    def wanted(self, key: str) -> str:
        """The text of a key that must be there."""
        found = self.text(key)
        if found is None:
            raise Unread(f"{self.at(key)} isn't there")
        return found

    def marker(self, key: str) -> str:
        """The text of a marker, `*` where there is none."""
        found = self.text(key)
        return "*" if found is None else marker_line(found, self.at(key))

    def truth(self, key: str) -> bool:
        """Whether a key is there and true."""
        found = self.take(key)
        if not isinstance(found, (bool, type(None))):
            raise Unread(f"{self.at(key)} is neither true nor false")
        return bool(found)

    def items(self, key: str) -> List[Any]:
        found = self.take(key)
        if found is not None and not isinstance(found, list):
            raise Unread(f"{self.at(key)} isn't a list")
        return found or []

    def texts(self, key: str) -> List[str]:
        found = self.items(key)
        wrong = next((number for number, it in enumerate(found) if not isinstance(it, str)), None)
        if wrong is not None:
            raise Unread(f"{self.at(key)}[{wrong}] isn't a text")
        return found

    def tables(self, key: str) -> List["Table"]:
        return [Table(it, f"{self.at(key)}[{number}]", self.unread) for number, it in enumerate(self.items(key))]

    def table(self, key: str) -> Optional["Table"]:
        found = self.take(key)
        return None if found is None else Table(found, self.at(key), self.unread)

    def names(self, key: str) -> List[str]:
        return [name_at(it, self.at(key)) for it in self.texts(key)]

    def name(self, key: str) -> str:
        return name_at(self.wanted(key), self.at(key))

    def version(self, key: str) -> Optional[str]:
        """A version in normal text, or None."""
        found = self.text(key)
        return None if found is None else version_at(found, self.at(key))

    def end(self, known: Iterable[str] = ()) -> None:
        """Tells the keys that weren't taken, but for those that are known to say nothing of what is asked."""
        self.unread += [f"`{self.at(key)}` isn't read" for key in self.left if key not in set(known)]


def name_at(text: str, place: str) -> str:
    if not NAME.match(text):
        raise Unread(f"{place} is no name: {shortly(text)}")
    return normal_name(text)


def version_at(text: str, place: str) -> str:
    try:
        return version_of(text).text()
    except NoReading:
        raise Unread(f"{place} is no version: {shortly(text)}") from None


def marker_line(text: str, place: str) -> str:
    """A marker's text, which has a reading and stands on one line."""
    try:
        markers.read(text)
    except markers.NoMarker as fault:
        raise Unread(f"{place} has no reading: {fault}: {shortly(text)}") from None
    return text.strip().replace("\t", " ")
