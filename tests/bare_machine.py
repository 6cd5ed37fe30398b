"""What a colleague does with a wheel on a machine that has neither the toolchain nor the clone: the steps of
test_bare_machine.py, which run there, and print what was seen as one JSON object.

The folder of this file has the wheel, the program that was packed as `packed`, a project in `project`, and in `hidden`
the paths that mustn't be there, a line each.
"""

from __future__ import annotations

import json
import os
import shutil
import socket
import subprocess
import sys
import time
from pathlib import Path

HERE = Path(__file__).resolve().parent
ROOM = HERE / "venv"
LOCK = ["lock", "pyproject.toml", "ix", "4"]
# So many calls are made, or as many as these seconds have; the fastest counts, since what else the machine does makes
# others slower.
CALLS, SECONDS = 40, 20


def said(*words: object) -> subprocess.CompletedProcess[bytes]:
    return subprocess.run([str(it) for it in words], cwd=HERE / "project", capture_output=True, check=False)


def must(*words: object) -> str:
    done = said(*words)
    if done.returncode != 0:
        sys.exit(f"{words}: {done.returncode}: {done.stdout.decode()}{done.stderr.decode()}")
    return done.stdout.decode()


def seen() -> list[str]:
    """What there is that mustn't be: a path, the toolchain on the path, a network."""
    found = [it for it in (HERE / "hidden").read_text().splitlines() if os.access(it, os.X_OK)]
    found += [it for it in ("rt", "unilock") if shutil.which(it)]
    with socket.socket() as one:
        one.settimeout(2)
        if one.connect_ex(("192.0.2.1", 80)) == 0:
            found.append("network")
    return [*found, *(name for _, name in socket.if_nameindex() if name != "lo")]


def files() -> list[str]:
    found = (it for it in ROOM.rglob("*") if "__pycache__" not in it.parts)
    return sorted(f"{it.relative_to(ROOM)} {it.lstat().st_mode:o}" for it in found)


def fastest(calls: list[list[object]]) -> list[float]:
    """The fastest of many runs of each call, in milliseconds; the calls take turns."""
    found, until = [1e9] * len(calls), time.monotonic() + SECONDS
    for _ in range(CALLS):
        for number, words in enumerate(calls):
            begun = time.perf_counter()
            said(*words)
            found[number] = min(found[number], (time.perf_counter() - begun) * 1000)
        if time.monotonic() > until:
            break
    return found


def main() -> None:
    result: dict[str, object] = {"seen": seen(), "user": os.getuid()}
    must(sys.executable, "-m", "venv", ROOM)
    python, unilock, tools = (ROOM / "bin" / it for it in ("python", "unilock", "unilock-tools"))
    pip = [python, "-m", "pip", "--disable-pip-version-check"]
    before = files()
    must(*pip, "install", "--no-index", "--no-deps", next(HERE.glob("*.whl")))
    result["installed"] = len(files()) - len(before)
    packed, installed = said(HERE / "packed", *LOCK), said(unilock, *LOCK)
    result["statuses"] = [packed.returncode, installed.returncode]
    result["bytes"] = [len(packed.stdout), packed.stdout == installed.stdout]
    result["milliseconds"] = fastest([[HERE / "packed", *LOCK], [unilock, *LOCK]])
    result["version"] = must(unilock, "--version")
    listed = [it.split()[0] for it in must(tools, "--help").splitlines()[2:]]
    result["tools"] = {it: must(tools, it, "--help").partition("\n")[0] for it in listed}
    must(tools, "lock", "pyproject.toml", "ix")
    result["lock"] = (HERE / "project" / "unilock.lock").read_bytes() == packed.stdout
    must(*pip, "uninstall", "-y", "unilock")
    after = files()
    result["left"] = [*sorted(set(after) - set(before)), *sorted(set(before) - set(after))]
    print(json.dumps(result))


if __name__ == "__main__":
    main()
