"""A user and a password that the system keeps for a package index, by the library `keyring` where it is installed.

They are looked for as pip does: by the address of the index, then by its host.
"""

from __future__ import annotations

import importlib
import threading
from typing import Any
from urllib.parse import urlsplit

Secret = tuple[str, str]


class Keyring:
    """What the keyring has for one index, which is asked once."""

    def __init__(self, url: str) -> None:
        self.services = [url, urlsplit(url).netloc]
        self.lock = threading.Lock()
        self.asked = False
        self.found: Secret | None = None

    def secret(self, known: Secret | None) -> Secret | None:
        """The user and the password, of the user that is known where one is."""
        with self.lock:
            if not self.asked:
                self.asked = True
                self.found = self.look(None if known is None else known[0])
            return self.found

    def look(self, user: str | None) -> Secret | None:
        try:
            library: Any = importlib.import_module("keyring")
        except ImportError:
            return None
        for service in self.services:
            try:
                found = library.get_credential(service, user)
                name, password = (None, None) if found is None else (found.username, found.password)
            except Exception:
                # A keyring that is locked or absent raises what its system raises; then there is no password.
                return None
            if isinstance(name, str) and isinstance(password, str):
                return name, password
        return None
