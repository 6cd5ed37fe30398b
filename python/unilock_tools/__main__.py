"""`unilock-tools COMMAND WORDS`: runs a command of this package by its name."""

import difflib
import importlib
import sys
from typing import List, Optional

from . import __version__

COMMANDS = {
    "lock": "lock a project safely, and say what changed",
    "add": "add requirements to a project file, and lock it",
    "remove": "remove requirements from a project file, and lock it",
    "verify": "judge a lock by a project and an index, its files too",
    "judge": "judge a lock that another tool wrote",
    "index": "make an index folder from a package index or from wheels",
    "requirements": "print a lock's requirements with hashes",
    "sync": "bring a virtual environment to what a lock gives",
    "pylock": "write a pylock.toml (PEP 751)",
    "tree": "print a lock's tree, or who needs a package",
    "coverage": "say where each package of a lock has a file that fits",
    "explain": "say in sentences why a project can't be locked",
    "doctor": "look a project file and its index over",
    "machine": "print a machine file",
    "diff": "say what differs between two locks",
    "show": "write a lock as a page",
    "many": "verify, check or lock many projects",
    "outdated": "list packages that have a newer version",
}


def usage() -> str:
    width = max(map(len, COMMANDS))
    lines = ["usage: unilock-tools COMMAND WORDS (COMMAND --help says more)", ""]
    return "\n".join(lines + ["  {}  {}".format(name.ljust(width), text) for name, text in COMMANDS.items()])


def unknown(word: str) -> str:
    """That a word is no command, with the one that is likely meant."""
    near = difflib.get_close_matches(word, COMMANDS, 1)
    hint = "; is {} meant?".format(near[0]) if near else ""
    return "unilock-tools: no command {}{} (--help lists them)".format(word, hint)


def main(words: Optional[List[str]] = None) -> int:
    given = sys.argv[1:] if words is None else words
    if given[:1] in (["--help"], ["-h"]):
        print(usage())
        return 0
    if given[:1] in (["--version"], ["-V"]):
        print("unilock-tools {}".format(__version__))
        return 0
    if not given or given[0] not in COMMANDS:
        print(usage() if not given else unknown(given[0]), file=sys.stderr)
        return 2
    status = importlib.import_module("unilock_tools." + given[0]).main(given[1:])
    return int(status)


if __name__ == "__main__":
    sys.exit(main())
