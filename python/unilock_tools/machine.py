"""Prints a machine file: the environment variables of PEP 508, as JSON.

Without options it is that of the running interpreter: `python3.12 tools/machine > machine.json`. With --platform and
--python it is that of a machine that one hasn't got: `tools/machine --platform windows --python 3.12`. What such
options can't tell (the system's release and version) is the empty text, unless --release and --system-version give
it.

Needs the standard library alone, and runs on Python 3.6 and later. Status: 0 printed; 2 the words aren't right.
"""

import argparse
import json
import os
import platform
import re
import sys
from typing import Dict, List, Optional

from . import console
from .console import Refused

# Platform: os_name, sys_platform, platform_system, the usual platform_machine
PLATFORMS = {
    "linux": ("posix", "linux", "Linux", "x86_64"),
    "windows": ("nt", "win32", "Windows", "AMD64"),
    "macos": ("posix", "darwin", "Darwin", "arm64"),
}
# Implementation: implementation_name, platform_python_implementation
IMPLEMENTATIONS = {"cpython": ("cpython", "CPython"), "pypy": ("pypy", "PyPy"), "graalpy": ("graalpy", "GraalVM")}


def implementation_version() -> str:
    """As PEP 508 gives it: the three numbers, then the level's first letter and serial where it isn't final."""
    info = sys.implementation.version
    text = "{}.{}.{}".format(info.major, info.minor, info.micro)
    return text if info.releaselevel == "final" else "{}{}{}".format(text, info.releaselevel[0], info.serial)


def full_version(text: str) -> str:
    """The three numbers of an interpreter. A pre-release (`3.14.0rc1`) counts as the release that it precedes."""
    found = re.match(r"[0-9]+\.[0-9]+\.[0-9]+", text)
    return found.group() if found else text


def machine() -> Dict[str, str]:
    """The variables of the running interpreter."""
    return {
        "os_name": os.name,
        "sys_platform": sys.platform,
        "platform_machine": platform.machine(),
        "platform_python_implementation": platform.python_implementation(),
        "platform_release": platform.release(),
        "platform_system": platform.system(),
        "platform_version": platform.version(),
        "implementation_name": sys.implementation.name,
        "implementation_version": implementation_version(),
        "python_full_version": full_version(platform.python_version()),
    }


def python_of(text: str) -> str:
    """`3.12` as 3.12.0, `3.12.4` as it stands."""
    if not re.match(r"(0|[1-9][0-9]*)(\.(0|[1-9][0-9]*)){1,2}\Z", text):
        raise Refused("--python {}: it isn't of the form 3.12 or 3.12.4".format(text), 2)
    return text if text.count(".") == 2 else text + ".0"


def described(asked: argparse.Namespace) -> Dict[str, str]:
    """The running interpreter's variables with what the options say in their place."""
    found = machine()
    if asked.platform is not None:
        os_name, sys_platform, system, usual = PLATFORMS[asked.platform]
        found.update(os_name=os_name, sys_platform=sys_platform, platform_system=system, platform_machine=usual)
        found.update(platform_release="", platform_version="")
    if asked.python is not None:
        found["python_full_version"] = python_of(asked.python)
    if asked.implementation is not None:
        name, python_implementation = IMPLEMENTATIONS[asked.implementation]
        found.update(implementation_name=name, platform_python_implementation=python_implementation)
    if asked.python is not None or asked.implementation is not None:
        # CPython's own version is the language's. Another implementation's isn't told by it.
        cpython = found["implementation_name"] == "cpython"
        found["implementation_version"] = found["python_full_version"] if cpython else "0"
    for key, value in [
        ("platform_machine", asked.machine),
        ("platform_release", asked.release),
        ("platform_version", asked.system_version),
        ("implementation_version", asked.implementation_version),
    ]:
        if value is not None:
            found[key] = value
    return found


def parser() -> console.Parser:
    made = console.Parser("machine", __doc__)
    made.add_argument("--platform", choices=sorted(PLATFORMS), help="another operating system")
    made.add_argument("--python", metavar="VERSION", help="another interpreter, as 3.12 or 3.12.4")
    made.add_argument("--implementation", choices=sorted(IMPLEMENTATIONS), help="another implementation of Python")
    made.add_argument(
        "--implementation-version", metavar="TEXT", help="its version, where it isn't the language's (PyPy: 7.3.15)"
    )
    made.add_argument("--machine", metavar="TEXT", help="platform_machine: x86_64, aarch64, AMD64, ARM64, arm64, ..")
    made.add_argument("--release", metavar="TEXT", help="platform_release")
    made.add_argument("--system-version", metavar="TEXT", help="platform_version")
    made.add_argument("-o", "--out", metavar="FILE", help="write it there as a whole, in place of printing it")
    return made


def run(asked: argparse.Namespace) -> int:
    console.put(json.dumps(described(asked), indent=2) + "\n", asked.out)
    return 0


def main(words: Optional[List[str]] = None) -> int:
    if sys.version_info < (3, 6):
        sys.exit("machine: it wants Python 3.6 or later")
    asked = parser().read(words)
    return console.ended("machine", lambda: run(asked))
