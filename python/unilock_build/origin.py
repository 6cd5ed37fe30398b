"""Where a built program comes from: version, commit, toolchain, and a sum of all that was proved.

    python3 python/unilock_build/origin.py

prints these, a line each, for the clone that it stands in.
"""

from __future__ import annotations

import hashlib
import json
import re
import subprocess
import sys
from dataclasses import asdict, dataclass
from pathlib import Path
from typing import Iterator

TOP = Path(__file__).resolve().parent.parent.parent
# What of a crate is proved: its code with the contracts, what their words mean, and the proofs.
PARTS = ("src", "specs", "proofs")
UNKNOWN = "unknown"


class NotPacked(Exception):
    """Why nothing is packed, in one line."""


@dataclass(frozen=True)
class Origin:
    """Version, commit and toolchain; the sum of the sources, and how many functions they have."""

    version: str
    commit: str
    toolchain: str
    sources: str
    functions: int

    def lines(self) -> list[str]:
        return [
            f"unilock {self.version}",
            f"commit {self.commit}",
            f"toolchain {self.toolchain}",
            f"sources {self.sources} ({self.functions} functions)",
        ]

    def record(self, program: Path, gate: str) -> str:
        """The text of PROOF.json: the origin, the gate's last line, and the sum of the program's bytes."""
        told = {**asdict(self), "gate": gate, "program": digest_of(program.read_bytes())}
        return json.dumps(told, indent=2, sort_keys=True) + "\n"


def digest_of(body: bytes) -> str:
    return hashlib.sha256(body).hexdigest()


def sources(top: Path) -> Iterator[Path]:
    """The files that are proved, in the order of their paths."""
    found = [top / "crates.txt", top / "HANDLES"]
    for part in PARTS:
        found += [it for it in top.glob(f"crates/*/{part}/**/*") if it.is_file()]
    yield from sorted(found, key=lambda it: it.relative_to(top).as_posix().encode())


def sources_digest(top: Path) -> str:
    """The SHA-256 of a line for each file: its own SHA-256, two blanks and its path, as `sha256sum` prints them."""
    lines = [f"{digest_of(it.read_bytes())}  {it.relative_to(top).as_posix()}\n" for it in sources(top)]
    return digest_of("".join(lines).encode())


def function_count(top: Path) -> int:
    """How many functions the sources have, tests left out with the crates of tests."""
    begins = re.compile(r"^\s*(?:pub(?:\([a-z]+\))? )?(?:const )?fn \w", re.M)
    texts = (it.read_text(encoding="utf-8") for it in top.glob("crates/*/src/**/*.rt") if "test" not in it.parts[-3])
    return sum(len(begins.findall(it)) for it in texts)


def said(*words: str, folder: Path = TOP) -> str:
    """The first line of what a command prints, or nothing where it isn't there or fails."""
    try:
        done = subprocess.run(words, cwd=folder, capture_output=True, text=True, check=False, timeout=60)
    except (OSError, subprocess.TimeoutExpired):
        return ""
    return done.stdout.partition("\n")[0].strip() if done.returncode == 0 else ""


def commit_of(top: Path) -> str:
    """The commit of a clone, with a + behind it where what is proved was changed since."""
    commit = said("git", "rev-parse", "HEAD", folder=top)
    changed = said("git", "status", "--porcelain", "--", "crates", "crates.txt", "HANDLES", folder=top)
    return (commit or UNKNOWN) + ("+" if commit and changed else "")


def origin_of(top: Path = TOP) -> Origin:
    version = (top / "python" / "unilock_tools" / "VERSION").read_text(encoding="utf-8").strip()
    toolchain = said("rt", "version") or UNKNOWN
    return Origin(version, commit_of(top), toolchain, sources_digest(top), function_count(top))


def built_program(top: Path = TOP) -> Path:
    """The proved program of a clone, or why there is none to pack: `./unilock` writes it once all is proved, and the
    preview's program lies elsewhere."""
    program = top / "out" / "unilock"
    if not program.is_file():
        raise NotPacked("the program isn't proved and built yet: ./unilock does both (the preview is never packed)")
    made = program.stat().st_mtime
    newer = [it for it in sources(top) if "proofs" not in it.parts and it.stat().st_mtime > made]
    if newer:
        raise NotPacked(f"the program is older than {newer[0].relative_to(top)}: ./unilock proves it anew")
    if not program.read_bytes().startswith(b"\x7fELF"):
        raise NotPacked(f"{program} is no program")
    return program


def glibc_of(program: Path) -> tuple[int, int]:
    """The newest version of glibc that a symbol of the program asks for."""
    asked = re.findall(rb"\bGLIBC_(\d+)\.(\d+)(?:\.\d+)?\0", program.read_bytes())
    if not asked:
        raise NotPacked(f"{program} asks for no version of glibc")
    return max((int(major), int(minor)) for major, minor in asked)


def main() -> int:
    print("\n".join(origin_of().lines()))
    return 0


if __name__ == "__main__":
    sys.exit(main())
