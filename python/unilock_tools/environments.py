"""Virtual environments: making one, and what its interpreter tells of itself.

Interpreters run isolated, so nothing of the folder that a command is given in, and of the user's own packages, is run.
"""

from __future__ import annotations

import json
import os
import shutil
import subprocess
from pathlib import Path
from typing import Any, NamedTuple

from .console import Refused

PACKAGES = os.path.dirname(os.path.dirname(os.path.abspath(__file__)))
# Without the current folder, the user's packages and the variables that name others on the path.
ISOLATED = "-I"
TOLD = (
    "import sys, json; from importlib.util import find_spec; has_pip = find_spec('pip') is not None; "
    "sys.path.append(sys.argv[1]); from unilock_tools.machine import machine; "
    "print(json.dumps([sys.prefix != sys.base_prefix, has_pip, machine()]))"
)
# Stands in an environment while it is made.
MAKING = ".unilock-making"


def interpreter(folder: str) -> str:
    return os.path.join(folder, "Scripts", "python.exe") if os.name == "nt" else os.path.join(folder, "bin", "python")


def output(words: list[str], what: str) -> str:
    try:
        done = subprocess.run(words, stdout=subprocess.PIPE, stderr=subprocess.PIPE, check=False)
    except OSError as fault:
        raise Refused(f"{words[0]}: {fault.strerror or fault}") from None
    return printed_by(done, what)


def printed_by(done: subprocess.CompletedProcess[bytes], what: str) -> str:
    """What a process printed that ended well."""
    if done.returncode != 0:
        last = done.stderr.decode("utf-8", "replace").strip().splitlines()[-1:] or [f"status {done.returncode}"]
        raise Refused(f"{what}: {last[0]}")
    return done.stdout.decode("utf-8", "replace")


def json_in(text: str, what: str) -> Any:
    try:
        return json.loads(text)
    except (ValueError, RecursionError):
        raise Refused(f"{what}: what it prints isn't JSON") from None


def read_json(words: list[str], what: str) -> Any:
    return json_in(output(words, what), what)


def is_whole(folder: str) -> bool:
    """Whether a folder has an environment that was made to its end and whose interpreter runs."""
    python = interpreter(folder)
    if os.path.exists(os.path.join(folder, MAKING)) or not os.path.exists(python):
        return False
    try:
        return subprocess.run([python, ISOLATED, "-c", ""], stderr=subprocess.DEVNULL, check=False).returncode == 0
    except OSError:
        return False


def made_environment(folder: str, python: str, quiet: bool) -> str:
    """The interpreter of the environment, which is made where there is none, and anew where it was broken off."""
    if is_whole(folder):
        return interpreter(folder)
    mark = os.path.join(folder, MAKING)
    if os.path.isdir(folder) and os.listdir(folder):
        if not any(os.path.exists(it) for it in (mark, os.path.join(folder, "pyvenv.cfg"))):
            raise Refused(f"{folder}: the folder isn't empty and is no virtual environment")
        if not quiet:
            print(f"{folder} was broken off")
    if not quiet:
        print(f"making {folder}", flush=True)
    os.makedirs(folder, exist_ok=True)
    for entry in Path(folder).iterdir():
        # `venv --clear` would remove the mark first.
        if entry.name != MAKING:
            removed(entry)
    Path(mark).touch()
    output([python, ISOLATED, "-m", "venv", folder], f"{python} -m venv {folder}")
    os.unlink(mark)
    return interpreter(folder)


def removed(entry: Path) -> None:
    if entry.is_dir() and not entry.is_symlink():
        shutil.rmtree(entry)
    else:
        entry.unlink()


class Told(NamedTuple):
    """What an interpreter tells of itself: its variables, whether it is that of a virtual environment and has pip."""

    variables: dict[str, str]
    is_virtual: bool
    has_pip: bool


def told_by(python: str) -> Told:
    found = read_json([python, ISOLATED, "-c", TOLD, PACKAGES], python)
    is_virtual, has_pip, variables = found if isinstance(found, list) and len(found) == 3 else (False, False, {})
    return Told({str(key): str(value) for key, value in variables.items()}, is_virtual is True, has_pip is True)


def environment_told_by(python: str, folder: str) -> Told:
    """What the interpreter of an environment tells, which has to be a virtual one."""
    found = told_by(python)
    if not found.is_virtual:
        raise Refused(f"{folder}: it is no virtual environment but an interpreter's own folder; it isn't changed")
    return found
