"""pip, as it changes a virtual environment, and what it says of a failure in few lines.

It is the environment's own pip, or where that has none the one of the running interpreter, which is told of the other
(`pip --python`). All that it said is kept in a file of the environment.
"""

from __future__ import annotations

import importlib.metadata
import os
import re
import subprocess
import sys
from collections.abc import Mapping
from pathlib import Path
from typing import Any

from . import console
from .addresses import shown
from .console import Refused
from .environments import ISOLATED, json_in, printed_by
from .index_settings import Variables
from .versions import normal_name, version_of

# The first pip that has the word `--python`.
LEAST = version_of("22.3")
LOG = "pip.log"
MOST_LINES = 10
ERROR = re.compile(r"\s*(ERROR:|error:|fatal:|×)|.*(Expected sha256|\bGot {8}|Error: )")
BUILD_ENDED = "[end of output]"
LINES_OF_BUILD = 4


def essence(text: str) -> list[str]:
    """What pip said of a failure, in at most ten lines: what it calls an error, and how a build's own output ended."""
    lines = [it.strip() for it in text.splitlines() if it.strip()]
    wanted: dict[int, None] = {}
    for number, line in enumerate(lines):
        if BUILD_ENDED in line:
            wanted.update(dict.fromkeys(range(max(0, number - LINES_OF_BUILD), number)))
        if ERROR.match(line):
            wanted[number] = None
    if not wanted:
        wanted = dict.fromkeys(range(max(0, len(lines) - MOST_LINES), len(lines)))
    told = list(dict.fromkeys(lines[it] for it in sorted(wanted)))
    return told if len(told) <= MOST_LINES else [*told[:3], "..", *told[4 - MOST_LINES :]]


def own_pip() -> str | None:
    """The version of the running interpreter's pip."""
    try:
        return importlib.metadata.version("pip")
    except importlib.metadata.PackageNotFoundError:
        return None


class Pip:
    """pip for the environment of a folder, whose interpreter is `python`; `has_pip` where that has one itself."""

    name = "pip"
    variables = Variables("PIP_INDEX_URL", "PIP_EXTRA_INDEX_URL", "PIP_FIND_LINKS", " ", {}, True)

    def __init__(self, folder: str, python: str, has_pip: bool) -> None:
        self.python, self.folder = python, Path(folder)
        self.log = self.folder / LOG
        self.line = [python, ISOLATED, "-m", "pip"]
        if not has_pip:
            own = own_pip()
            if own is None or version_of(own).key < LEAST.key:
                lacks = f"{python} has no pip, and {sys.executable} has none of {LEAST.text()} or later"
                raise Refused(f"{lacks}; `{python} -m ensurepip` puts one there")
            self.line = [sys.executable, ISOLATED, "-m", "pip", "--python", python]
        self.begun = False

    def done(
        self, words: list[str], settings: Mapping[str, str] | None = None
    ) -> subprocess.CompletedProcess[bytes]:
        """Runs pip, by the configuration of its user and these variables of its own."""
        kept = {key: value for key, value in os.environ.items() if key not in ("PYTHONPATH", "PYTHONHOME")}
        environment = {**kept, "PYTHONNOUSERSITE": "1", "PIP_DISABLE_PIP_VERSION_CHECK": "1", "PIP_NO_INPUT": "1"}
        environment.update(settings or {})
        line = [*self.line, *words]
        try:
            return subprocess.run(line, stdout=subprocess.PIPE, stderr=subprocess.PIPE, env=environment, check=False)
        except OSError as fault:
            raise Refused(f"{line[0]}: {fault.strerror or fault}") from None

    def run(self, words: list[str], settings: Mapping[str, str] | None = None) -> None:
        """Runs pip to change the environment. What it says is kept; of a failure the essence is told."""
        found = self.done(words, settings)
        said = (found.stdout + found.stderr).decode("utf-8", "replace")
        self.keep(words, said)
        if found.returncode != 0:
            told = [f"{self.name} {words[0]} failed; the environment isn't as the lock says", *essence(said)]
            has_all = f"({self.log} has all that {self.name} said)"
            raise Refused("\n  ".join([*(console.escaped(it) for it in told), has_all]))

    def keep(self, words: list[str], said: str) -> None:
        """Keeps what pip said in the log, which begins anew with each command."""
        try:
            with self.log.open("ab" if self.begun else "wb") as stream:
                # A word may be an address with a password in it.
                stream.write(f"{self.name} {' '.join(map(shown, words))}\n{said}\n".encode())
            self.begun = True
        except OSError as fault:
            raise Refused(f"{self.log}: {fault.strerror or fault}") from None

    def json(self, words: list[str]) -> Any:
        """What pip prints as JSON."""
        what = f"{self.python}: {self.name} {words[0]}"
        return json_in(printed_by(self.done(words), what), what)

    def installed(self) -> dict[str, str]:
        """The packages of the environment in normal form, with their versions."""
        found = self.json(["list", "--format=json"])
        return {normal_name(str(it["name"])): str(it["version"]) for it in found}

    def broken(self) -> list[str]:
        """What `pip check` finds broken."""
        found = self.done(["check"])
        return found.stdout.decode("utf-8", "replace").splitlines() if found.returncode != 0 else []
