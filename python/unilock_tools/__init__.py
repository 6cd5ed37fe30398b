"""Commands around unilock: from a package index to an installation, and words for people.

Each command is a module with a `main` that takes the words of its command line and answers the exit status.
`tools/NAME` runs it from a clone; `unilock-tools NAME` or `python -m unilock_tools NAME` where the package is
installed.
"""

import os


def _version() -> str:
    with open(os.path.join(os.path.dirname(__file__), "VERSION"), encoding="ascii") as it:
        return it.read().strip()


__version__ = _version()
