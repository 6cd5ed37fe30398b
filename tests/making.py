"""What the tests share: where the program is, small wheels and source distributions, and how a tool is run."""

from __future__ import annotations

import atexit
import hashlib
import importlib.machinery
import importlib.util
import io
import json
import os
import subprocess
import sys
import tarfile
import tempfile
import types
import unittest
import zipfile
from pathlib import Path
from typing import Dict, Iterable, List, NamedTuple, Optional, Tuple
from unittest import mock

TOP = Path(__file__).resolve().parent.parent
PYTHON = TOP / "python"
sys.path.insert(0, str(PYTHON))
sys.dont_write_bytecode = True
# UNILOCK may name one; the script `unilock` keeps the program in out/; a build by hand leaves it in its crate.
BUILT = [
    Path(os.environ.get("UNILOCK") or "/nowhere"),
    TOP / "out" / "unilock",
    TOP / "crates" / "unilock" / "out" / "unilock",
]
PROGRAM = next((it for it in BUILT if it.is_file()), BUILT[0])
SKIPPED: Dict[str, List[str]] = {}
# What stands for a file's SHA-256 where nobody looks at the file.
SUM = "0123456789abcdef" * 4


@atexit.register
def tell_skipped() -> None:
    """The last line of a run says which tests were passed over, and for want of what."""
    if SKIPPED:
        told = "; ".join(f"{why}: {', '.join(sorted(set(names)))}" for why, names in sorted(SKIPPED.items()))
        print(f"skipped: {told}", file=sys.stderr)


def skip(test: unittest.TestCase, why: str) -> None:
    SKIPPED.setdefault(why, []).append(test.id().rpartition(".")[0])
    test.skipTest(why)


def want_program(test: unittest.TestCase) -> None:
    """Skips a test where there is no program."""
    if not PROGRAM.is_file():
        skip(test, "the program isn't built (./unilock builds it)")


class Done(NamedTuple):
    """What a tool printed."""

    stdout: str
    stderr: str


class Folder(unittest.TestCase):
    """A test with a folder of its own, in which tools are run."""

    def setUp(self) -> None:
        held = tempfile.TemporaryDirectory()
        self.addCleanup(held.cleanup)
        self.top = Path(held.name).resolve()
        self.program: object = PROGRAM

    def write(self, name: str, text: str) -> Path:
        path = self.top / name
        path.parent.mkdir(parents=True, exist_ok=True)
        path.write_text(text, encoding="utf-8")
        return path

    def environment(self) -> Dict[str, str]:
        kept = {key: value for key, value in os.environ.items() if not key.startswith(("PIP_", "UNILOCK", "UV_"))}
        more = {"PIP_CONFIG_FILE": os.devnull, "UNILOCK": str(self.program), "XDG_CACHE_HOME": str(self.top / "cache")}
        return {**kept, **more, "PYTHONDONTWRITEBYTECODE": "1", "NO_PROXY": "*", "no_proxy": "*"}

    def ran(self, *words: object, status: int = 0, python: str = "", into: str = "") -> Done:
        """Runs a tool and looks at its status: in this process, or as `tools/WORD WORDS` with an interpreter where one
        is named."""
        given = [str(it) for it in words]
        found, done = self.started(python, given, into) if python else self.called(given, into)
        self.assertEqual(found, status, f"{words}: {done.stdout}{done.stderr}")
        self.assertNotIn("Traceback", done.stderr)
        return done

    def started(self, python: str, words: List[str], into: str) -> Tuple[int, Done]:
        line = [python, str(TOP / "tools" / words[0]), *words[1:]]
        done = subprocess.run(
            line,
            cwd=self.top,
            capture_output=True,
            text=True,
            encoding="utf-8",
            env=self.environment(),
            input=into,
            check=False,
        )
        return done.returncode, Done(done.stdout, done.stderr)

    def called(self, words: List[str], into: str) -> Tuple[int, Done]:
        main = importlib.import_module(f"unilock_tools.{words[0]}").main
        before = os.getcwd()
        streams = [io.TextIOWrapper(io.BytesIO(text), encoding="utf-8") for text in (into.encode(), b"", b"")]
        # A slow program isn't stopped before it has tried all ways out.
        with mock.patch.dict(os.environ, self.environment(), clear=True), mock.patch.multiple(
            sys, stdin=streams[0], stdout=streams[1], stderr=streams[2]
        ), mock.patch("unilock_tools.hints.SECONDS", 3600.0):
            os.chdir(self.top)
            try:
                status = main(words[1:])
            except SystemExit as ended:
                status = int(ended.code or 0)
            finally:
                os.chdir(before)
        return status, Done(*(told_by(it) for it in streams[1:]))

    def printed(self, *words: object, status: int = 0) -> List[str]:
        return self.ran(*words, status=status).stdout.splitlines()


def tool(name: str) -> types.ModuleType:
    """A script of tools/ as a module."""
    loader = importlib.machinery.SourceFileLoader(f"unilock_{name}", str(TOP / "tools" / name))
    spec = importlib.util.spec_from_loader(loader.name, loader)
    assert spec is not None
    module = importlib.util.module_from_spec(spec)
    sys.modules[loader.name] = module
    loader.exec_module(module)
    return module


def metadata_text(
    name: str, version: str, requires: Iterable[str] = (), python: Optional[str] = None, more: str = ""
) -> str:
    lines = ["Metadata-Version: 2.2", f"Name: {name}", f"Version: {version}"]
    lines += [f"Requires-Dist: {it}" for it in requires]
    if python is not None:
        lines.append(f"Requires-Python: {python}")
    return "\n".join(lines) + "\n" + more + "\nA description.\n"


def wheel(folder: Path, file: str, members: dict) -> Path:
    path = folder / file
    with zipfile.ZipFile(path, "w", zipfile.ZIP_DEFLATED) as archive:
        for name, body in members.items():
            archive.writestr(name, body)
    return path


def plain_wheel(
    folder: Path,
    name: str,
    version: str,
    requires: Iterable[str] = (),
    python: Optional[str] = None,
    tags: str = "py3-none-any",
) -> Path:
    """A wheel that pip can install: one module, METADATA, WHEEL and RECORD."""
    stem = name.replace("-", "_").replace(".", "_")
    info = f"{stem}-{version}.dist-info"
    members = {
        f"{stem.lower()}.py": f"VERSION = {version!r}\n",
        f"{info}/METADATA": metadata_text(name, version, requires, python),
        f"{info}/WHEEL": f"Wheel-Version: 1.0\nGenerator: test\nRoot-Is-Purelib: true\nTag: {tags}\n",
    }
    members[f"{info}/RECORD"] = "".join(f"{it},,\n" for it in members) + f"{info}/RECORD,,\n"
    return wheel(folder, f"{stem}-{version}-{tags}.whl", members)


def sdist(folder: Path, name: str, version: str, text: str) -> Path:
    path = folder / f"{name}-{version}.tar.gz"
    with tarfile.open(path, "w:gz") as archive:
        body = text.encode()
        member = tarfile.TarInfo(f"{name}-{version}/PKG-INFO")
        member.size = len(body)
        archive.addfile(member, io.BytesIO(body))
    return path


def told_by(stream: io.TextIOWrapper) -> str:
    stream.flush()
    stream.seek(0)
    return stream.read()


def document(name: str, *versions: dict) -> str:
    """A package document with these releases."""
    return json.dumps({"name": name, "versions": list(versions)})


def sha256(path: Path) -> str:
    return hashlib.sha256(path.read_bytes()).hexdigest()


def other_interpreters() -> List[str]:
    """An interpreter of another version beside the running one, where there is one that can make environments."""
    found = []
    folder = Path.home() / ".pyenv" / "versions"
    places = [*sorted(folder.glob("3.*/bin/python3")), *(Path(f"/usr/bin/python3.{it}") for it in range(10, 20))]
    for path in places:
        code = "import sys, ensurepip, venv; print(sys.version_info >= (3, 10), sys.version_info[:2])"
        if path.exists():
            done = subprocess.run([str(path), "-c", code], capture_output=True, text=True, check=False)
            if done.stdout.strip().startswith("True") and str(sys.version_info[:2]) not in done.stdout:
                found.append(str(path))
    return found
