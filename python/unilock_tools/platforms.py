"""Platforms that a lock is used on, with the tags of the wheels that fit there (PEP 425, 600 and 656).

A wheel's name tells more than markers can: the version of the C library, and which of two it is. So each platform here
is one of a stated age, and another is named by a tag of its own, such as `manylinux_2_17_x86_64`.
"""

from __future__ import annotations

import re
from collections.abc import Iterator
from functools import lru_cache
from typing import Any, NamedTuple

from . import worlds
from .console import Refused
from .vendored import library
from .worlds import Machine

# The interpreters that are looked at where nobody names others.
PYTHONS = [f"3.{minor}" for minor in range(8, 15)]
# How `manylinux` was called before its tags had the version of glibc in them (PEP 600).
OLDER = {17: "manylinux2014", 12: "manylinux2010", 5: "manylinux1"}
# The processors for which there are wheels by the oldest of these tags.
OLDEST = {"x86_64": 5, "i686": 5}
WINDOWS = {"win_amd64": "AMD64", "win_arm64": "ARM64", "win32": "x86"}
TAG = re.compile(r"(manylinux|musllinux|macosx)_([0-9]{1,2})_([0-9]{1,2})_([a-z0-9_]+)\Z", re.ASCII)


class Platform(NamedTuple):
    """A platform: its name, the newest tag of wheels that fits there, and the processor as markers call it."""

    name: str
    tag: str
    machine: str

    @property
    def system(self) -> str:
        """The key of `machine.PLATFORMS`."""
        return "windows" if self.tag.startswith("win") else "macos" if self.tag.startswith("macosx") else "linux"

    def variables(self, python: str) -> Machine:
        """The variables of markers on it, with CPython of this version."""
        return {**worlds.machine_of(self.system, python), "platform_machine": self.machine}

    def tags(self) -> list[str]:
        """The platform tags of the wheels that fit, the best first."""
        if self.tag in WINDOWS:
            return [self.tag]
        kind, major, minor, processor = parts_of(self.tag)
        if kind == "macosx":
            tags: Any = library("packaging.tags")
            return list(tags.mac_platforms((major, minor), processor))
        last = 0 if kind == "musllinux" else OLDEST.get(processor, 17)
        found = []
        for number in range(minor, last - 1, -1):
            found.append(f"{kind}_{major}_{number}_{processor}")
            found += [f"{OLDER[number]}_{processor}"] if kind == "manylinux" and number in OLDER else []
        return [*found, f"linux_{processor}"]


USUAL = [
    Platform("linux-x86_64", "manylinux_2_28_x86_64", "x86_64"),
    Platform("linux-aarch64", "manylinux_2_28_aarch64", "aarch64"),
    Platform("musl-x86_64", "musllinux_1_2_x86_64", "x86_64"),
    Platform("musl-aarch64", "musllinux_1_2_aarch64", "aarch64"),
    Platform("macos-x86_64", "macosx_13_0_x86_64", "x86_64"),
    Platform("macos-arm64", "macosx_14_0_arm64", "arm64"),
    Platform("windows-x86_64", "win_amd64", "AMD64"),
]
# Those that are looked at where somebody names or requires them.
OTHERS = [
    Platform("windows-arm64", "win_arm64", "ARM64"),
    Platform("windows-x86", "win32", "x86"),
    Platform("linux-i686", "manylinux_2_28_i686", "i686"),
    Platform("linux-armv7l", "manylinux_2_28_armv7l", "armv7l"),
    Platform("linux-ppc64le", "manylinux_2_28_ppc64le", "ppc64le"),
    Platform("linux-s390x", "manylinux_2_28_s390x", "s390x"),
]


def parts_of(tag: str) -> tuple[str, int, int, str]:
    found = TAG.match(tag)
    assert found is not None, "a platform's tag is one of these forms"
    return found[1], int(found[2]), int(found[3]), found[4]


def named(word: str) -> Platform:
    """The platform of this name, or of this tag."""
    for one in [*USUAL, *OTHERS]:
        if one.name == word:
            return one
    found = TAG.match(word)
    if word in WINDOWS:
        return Platform(word, word, WINDOWS[word])
    if found is None or (found[1] == "macosx" and found[4] not in ("x86_64", "arm64")):
        known = ", ".join(it.name for it in [*USUAL, *OTHERS])
        raise Refused(f"--platform {word}: it is none of {known}, and no tag such as manylinux_2_17_x86_64", 2)
    return Platform(word, word, found[4])


@lru_cache(maxsize=None)
def fitting(platform: Platform, python: str) -> frozenset[Any]:
    """The tags of the wheels that fit on a platform with CPython of this version, such as 3.12."""
    return frozenset(wheel_tags(platform, python))


def wheel_tags(platform: Platform, python: str) -> Iterator[Any]:
    tags: Any = library("packaging.tags")
    major, minor = map(int, python.split("."))
    # Before 3.8 the interpreter's own interface had a letter more.
    interface = f"cp{major}{minor}" + ("m" if (major, minor) < (3, 8) else "")
    yield from tags.cpython_tags((major, minor), [interface], platform.tags())
    yield from tags.compatible_tags((major, minor), f"cp{major}{minor}", platform.tags())
