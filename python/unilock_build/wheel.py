"""wheel OUT: packs the proved program and the tools as a wheel, `unilock-VERSION-py3-none-manylinux_2_N_x86_64.whl`.

Who proves the program once makes a wheel, everyone else installs it by `pip install`. It is made only where the program
is proved, built and newer than all that it is made of; the preview is never packed. N is the newest glibc that the
program's symbols ask for. The wheel has the program as `unilock` (with a small launcher that sets memory as the script
of a clone does), the tools as `unilock-tools`, and unilock/PROOF.json, which says where the program comes from.

    tools/wheel OUT            writes the wheel into the folder OUT and prints its path
    tools/wheel --check WHEEL  whether a wheel is whole, and its program what this clone's sources give

Status: 0; 1 where nothing is packed, or the wheel isn't this clone's; 2 for wrong words; 3 where a file isn't there.
"""

from __future__ import annotations

import argparse
import base64
import hashlib
import io
import json
import os
import re
import sys
import time
import zipfile
from dataclasses import dataclass
from pathlib import Path

from .origin import (
    TOP,
    NotPacked,
    Origin,
    built_program,
    commit_of,
    digest_of,
    glibc_of,
    origin_of,
    said,
    sources_digest,
)

NAME = "unilock"
GENERATOR = "unilock"


@dataclass(frozen=True)
class Entry:
    """A file of the wheel: its path there, its bytes, and whether it is a program."""

    path: str
    body: bytes
    is_program: bool = False


def seconds_of(top: Path) -> int:
    """The date of the commit, or SOURCE_DATE_EPOCH, in seconds, no earlier than an archive can tell."""
    told = os.environ.get("SOURCE_DATE_EPOCH") or said("git", "log", "-1", "--format=%ct", folder=top) or "0"
    return max(int(told), 315532800)


def made_at(top: Path) -> tuple[int, int, int, int, int, int]:
    """The date that all files of a wheel have; so one commit has one wheel."""
    when = time.gmtime(seconds_of(top))
    return when[0], when[1], when[2], when[3], when[4], when[5] // 2 * 2


def project_lines(top: Path, list_name: str) -> list[str]:
    """The texts of a list of python/pyproject.toml's [project] table, such as `dependencies`."""
    text = (top / "python" / "pyproject.toml").read_text(encoding="utf-8")
    table = text.partition("[project]\n")[2].partition("\n[")[0]
    listed = table.partition(f"\n{list_name} = [")[2].partition("\n]")[0]
    return [json.loads(it) for it in re.findall(r'^\s*("(?:[^"\\]|\\.)*"),?\s*$', listed, re.M)]


def extra_lines(top: Path) -> list[str]:
    """The extras of python/pyproject.toml and what they require, as lines of metadata."""
    text = (top / "python" / "pyproject.toml").read_text(encoding="utf-8")
    table = text.partition("[project.optional-dependencies]\n")[2].partition("\n[")[0]
    found = []
    for extra, listed in re.findall(r"^([a-z]+) = (\[.*\])$", table, re.M):
        found += [f"Provides-Extra: {extra}"]
        found += [f'Requires-Dist: {it}; extra == "{extra}"' for it in json.loads(listed)]
    return found


def required_python(top: Path) -> str:
    text = (top / "python" / "pyproject.toml").read_text(encoding="utf-8")
    found = re.search(r'^requires-python = "([^"]+)"', text, re.M)
    return found[1] if found else ">=3.10"


def metadata(top: Path, origin: Origin) -> bytes:
    head = [
        "Metadata-Version: 2.1",
        f"Name: {NAME}",
        f"Version: {origin.version}",
        "Summary: One lock for a Python project, for all its platforms and interpreters, by a proved resolver",
        "License: MIT",
        f"Requires-Python: {required_python(top)}",
        *(f"Classifier: {it}" for it in project_lines(top, "classifiers")),
        *(f"Requires-Dist: {it}" for it in project_lines(top, "dependencies")),
        *extra_lines(top),
        "Description-Content-Type: text/markdown",
    ]
    return ("\n".join(head) + "\n\n" + (top / "README.md").read_text(encoding="utf-8")).encode()


def tools_entries(top: Path) -> list[Entry]:
    """The package of tools, without what its tests leave."""
    folder = top / "python"
    found = [it for it in (folder / "unilock_tools").rglob("*") if it.is_file() and "__pycache__" not in it.parts]
    return [Entry(it.relative_to(folder).as_posix(), it.read_bytes()) for it in sorted(found)]


def help_text(top: Path) -> bytes:
    """What `unilock --help` prints: that of the script, without the words that only a clone has."""
    script = (top / "unilock").read_text(encoding="utf-8")
    text = script.partition("cat <<'TEXT'\n")[2].partition("\nTEXT\n")[0]
    kept = [it for it in text.split("\n\n") if not it.startswith("--preview") and "tools/lock" not in it]
    return ("\n\n".join(kept) + "\n").encode()


def program_entries(top: Path, origin: Origin, program: Path) -> dict[str, Entry]:
    """What an installation of the program has, by where it stands below the prefix."""
    launcher = (Path(__file__).parent / "launcher.sh").read_bytes()
    return {
        "bin/unilock": Entry("unilock", launcher, True),
        "lib/unilock/unilock": Entry("unilock", program.read_bytes(), True),
        "lib/unilock/origin": Entry("origin", ("\n".join(origin.lines()) + "\n").encode()),
        "lib/unilock/help": Entry("help", help_text(top)),
    }


def record_line(entry: Entry) -> str:
    sum256 = base64.urlsafe_b64encode(hashlib.sha256(entry.body).digest()).rstrip(b"=").decode()
    return f"{entry.path},sha256={sum256},{len(entry.body)}\n"


def tag_of(program: Path) -> str:
    major, minor = glibc_of(program)
    return f"py3-none-manylinux_{major}_{minor}_x86_64"


def entries(top: Path, origin: Origin, program: Path, gate: str) -> list[Entry]:
    info, data = f"{NAME}-{origin.version}.dist-info", f"{NAME}-{origin.version}.data"
    placed = program_entries(top, origin, program)
    found = [
        *tools_entries(top),
        Entry("unilock/PROOF.json", origin.record(program, gate).encode()),
        Entry(f"{data}/scripts/unilock", placed.pop("bin/unilock").body, True),
        *(Entry(f"{data}/data/{path}", it.body, it.is_program) for path, it in placed.items()),
        Entry(f"{info}/METADATA", metadata(top, origin)),
        Entry(
            f"{info}/WHEEL",
            f"Wheel-Version: 1.0\nGenerator: {GENERATOR} {origin.version}\nRoot-Is-Purelib: false\n"
            f"Tag: {tag_of(program)}\n".encode(),
        ),
        Entry(f"{info}/entry_points.txt", b"[console_scripts]\nunilock-tools = unilock_tools.__main__:main\n"),
        Entry(f"{info}/licenses/LICENSE", (top / "LICENSE").read_bytes()),
    ]
    record = "".join(map(record_line, found)) + f"{info}/RECORD,,\n"
    return [*found, Entry(f"{info}/RECORD", record.encode())]


def wheel_bytes(packed: list[Entry], when: tuple[int, int, int, int, int, int]) -> bytes:
    held = io.BytesIO()
    with zipfile.ZipFile(held, "w", zipfile.ZIP_DEFLATED) as archive:
        for entry in packed:
            named = zipfile.ZipInfo(entry.path, when)
            named.create_system, named.compress_type = 3, zipfile.ZIP_DEFLATED
            named.external_attr = (0o100755 if entry.is_program else 0o100644) << 16
            archive.writestr(named, entry.body)
    return held.getvalue()


def pack(out: Path, gate: str, top: Path = TOP) -> Path:
    program = built_program(top)
    origin = origin_of(top)
    if origin.commit.endswith("+"):
        raise NotPacked("what is proved was changed since the last commit: commit it, and prove it by ./unilock")
    body = wheel_bytes(entries(top, origin, program, gate), made_at(top))
    out.mkdir(parents=True, exist_ok=True)
    path = out / f"{NAME}-{origin.version}-{tag_of(program)}.whl"
    held = path.with_suffix(".new")
    held.write_bytes(body)
    held.replace(path)
    return path


def faults_of_record(archive: zipfile.ZipFile) -> list[str]:
    """Where the files of a wheel aren't those that its RECORD lists."""
    listed = {}
    names = [it for it in archive.namelist() if it.endswith(".dist-info/RECORD")]
    if len(names) != 1:
        return ["it has no RECORD"]
    for line in archive.read(names[0]).decode().splitlines():
        path, digest, _ = line.rsplit(",", 2)
        listed[path] = digest
    faults = [f"{it} isn't in its RECORD" for it in archive.namelist() if it not in listed]
    for path, digest in listed.items():
        if path == names[0]:
            continue
        if path not in archive.namelist():
            faults.append(f"{path} isn't there")
        elif record_line(Entry(path, archive.read(path))).split(",")[1] != digest:
            faults.append(f"{path} isn't what its RECORD says")
    return faults


def faults_of(wheel: Path, top: Path = TOP) -> list[str]:
    """Why a wheel's program isn't what this clone's sources give; nothing where it is."""
    with zipfile.ZipFile(wheel) as archive:
        faults = faults_of_record(archive)
        if faults:
            return faults
        proof = json.loads(archive.read("unilock/PROOF.json"))
        name = next((it for it in archive.namelist() if it.endswith(".data/data/lib/unilock/unilock")), "")
        program = archive.read(name) if name else b""
    if digest_of(program) != proof["program"]:
        faults.append("its program isn't the one that its PROOF.json names")
    if proof["sources"] != sources_digest(top):
        faults.append(f"it was proved of other sources (commit {proof['commit']}; this clone is at {commit_of(top)})")
    built = top / "out" / "unilock"
    if not faults and built.is_file() and digest_of(built.read_bytes()) != proof["program"]:
        faults.append("the program that this clone built of the same sources has other bytes")
    return faults


def checked(wheel: Path) -> int:
    faults = faults_of(wheel)
    for it in faults:
        print(f"{wheel}: {it}")
    if not faults:
        print(f"{wheel}: its program is what this clone's sources give")
    return int(bool(faults))


def main() -> int:
    parser = argparse.ArgumentParser(
        prog="wheel", description=__doc__, formatter_class=argparse.RawDescriptionHelpFormatter
    )
    parser.add_argument("out", type=Path, nargs="?", metavar="OUT")
    parser.add_argument("--check", type=Path, metavar="WHEEL")
    parser.add_argument("--gate", default="", metavar="LINE", help="the last line of the gate, for PROOF.json")
    given = parser.parse_args()
    if (given.out is None) == (given.check is None):
        parser.error("one of OUT and --check WHEEL is wanted")
    try:
        if given.check is not None:
            return checked(given.check)
        print(pack(given.out, given.gate))
        return 0
    except NotPacked as fault:
        print(f"wheel: {fault}", file=sys.stderr)
        return 1
    except (OSError, KeyError, ValueError, zipfile.BadZipFile) as fault:
        print(f"wheel: {given.check or given.out}: {fault}", file=sys.stderr)
        return 3
