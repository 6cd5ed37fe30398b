"""tools/pylock: the file that PEP 751 describes, from what the program's `export` prints (or a stand-in for it)."""

from __future__ import annotations

import re
import unittest
from pathlib import Path
from typing import Any, Dict

from making import PROGRAM, TOP, Folder, document, plain_wheel, sdist, metadata_text, sha256, want_program
from serving import Server
from unilock_tools.vendored import toml_of

PROJECT = """[project]
name = "demo"
version = "0.1"
requires-python = ">=3.8"
dependencies = ["a; sys_platform == 'win32'", "b[x]"]
[project.optional-dependencies]
dev = ["c"]
[dependency-groups]
test = ["d"]
"""
ROWS = {
    "": "a==1 ; sys_platform == 'win32'\nb==1\nb[x]==1\n",
    "dev": "a==1 ; sys_platform == 'win32'\nb==1\nb[x]==1\nc==1\n",
    "dev group-test": "a==1 ; sys_platform == 'win32'\nb==1\nb[x]==1\nc==1\nd==1\n",
}
LOCK = """version = 2
root = "demo"
supported-markers = "python_full_version >= '3.8.0'"

[[package]]
name = "a"
version = "1"
files = [
    { file = "a-1-py3-none-any.whl", hash = "sha256:%s" },
    { file = "a-1.tar.gz", hash = "sha256:%s" },
]

[[package]]
name = "b"
version = "1"
files = [
    { file = "b-1-py3-none-any.whl", hash = "sha256:%s" },
]

[package.optional-dependencies]
x = []

[[package]]
name = "c"
version = "1"
files = [
    { file = "c-1-py3-none-any.whl", hash = "sha256:%s" },
]

[[package]]
name = "d"
version = "1"
files = [
    { file = "d-1-py3-none-any.whl", hash = "sha256:%s" },
]

[[package]]
name = "demo"
version = "0.1"
dependencies = [
    { name = "a", version = "1", marker = "sys_platform == 'win32'" },
    { name = "b", version = "1" },
    { name = "b", version = "1", extra = "x" },
]

[package.optional-dependencies]
dev = [
    { name = "c", version = "1" },
]
group-test = [
    { name = "d", version = "1" },
]
"""


def judge(test: unittest.TestCase, tables: Dict[str, Any], path: Path) -> None:
    """Judges a pylock.toml by `packaging.pylock` where that is there, and by the rules of PEP 751 for the keys that we
    write."""
    try:
        from packaging.pylock import Pylock  # type: ignore[import-not-found]
    except ImportError:
        pass
    else:
        Pylock.from_dict(tables).validate()
    test.assertRegex(path.name, r"\Apylock(\.[^.]+)?\.toml\Z")
    test.assertEqual(tables["lock-version"], "1.0")
    test.assertIsInstance(tables["created-by"], str)
    test.assertLessEqual(set(tables), {"lock-version", "environments", "created-by", "packages"})
    for package in tables["packages"]:
        test.assertLessEqual(set(package), {"name", "version", "marker", "sdist", "wheels"})
        test.assertRegex(package["name"], r"\A[a-z0-9]+(-[a-z0-9]+)*\Z")
        files = package.get("wheels", []) + [package[it] for it in ("sdist",) if it in package]
        test.assertTrue(files)
        for file in files:
            test.assertEqual(len({"url", "path"} & set(file)), 1, "a file has a URL or a path")
            test.assertLessEqual(set(file), {"name", "url", "path", "size", "hashes"})
            test.assertRegex(file["hashes"]["sha256"], r"\A[0-9a-f]{64}\Z")


class Written(Folder):
    def setUp(self) -> None:
        super().setUp()
        self.wheels = self.top / "wheels"
        self.wheels.mkdir()
        made = [plain_wheel(self.wheels, it, "1") for it in "abcd"]
        made.insert(1, sdist(self.wheels, "a", "1", metadata_text("a", "1")))
        self.lock = self.write("unilock.lock", LOCK % tuple(sha256(it) for it in made))
        self.write("pyproject.toml", PROJECT)

    def stand_in(self) -> None:
        """A program that answers `export` with the rows above."""
        calls = {"export unilock.lock" + (" " + words if words else ""): rows for words, rows in ROWS.items()}
        cases = "".join(f'"{call}") printf "%s" "{rows}";;\n' for call, rows in calls.items())
        self.program = self.write(
            "stand-in", f'#!/bin/sh\ncase "$*" in\n{cases}*) echo "extra: nope"; exit 8;;\nesac\n'
        )
        Path(str(self.program)).chmod(0o755)

    def tables(self, name: str = "pylock.toml") -> Dict[str, Any]:
        found = toml_of(str(self.top / name))
        judge(self, found, self.top / name)
        return found


class ByAStandIn(Written):
    def setUp(self) -> None:
        super().setUp()
        self.stand_in()

    def test_files_of_a_folder(self) -> None:
        self.ran("pylock", "unilock.lock", "--files", "wheels")
        found = self.tables()
        self.assertEqual(found["environments"], ["python_full_version >= '3.8.0'"])
        packages = [(it["name"], it["version"], it.get("marker")) for it in found["packages"]]
        self.assertEqual(packages, [("a", "1", "sys_platform == 'win32'"), ("b", "1", None)])
        one = found["packages"][0]
        self.assertEqual(one["sdist"]["path"], "wheels/a-1.tar.gz")
        wheel = self.wheels / "a-1-py3-none-any.whl"
        self.assertEqual(one["wheels"], [{
            "name": wheel.name, "path": f"wheels/{wheel.name}", "size": wheel.stat().st_size,
            "hashes": {"sha256": sha256(wheel)},
        }])  # fmt: skip

    def test_extras_and_groups(self) -> None:
        self.ran("pylock", "unilock.lock", "dev", "--group", "Test", "--files", "wheels", "-o", "sub.toml")
        self.assertEqual([it["name"] for it in toml_of(str(self.top / "sub.toml"))["packages"]], ["a", "b", "c", "d"])
        self.assertIn(
            "has no extra nope (it has: dev, group-test)", self.ran("pylock", "unilock.lock", "nope", status=8).stderr
        )

    def test_urls_of_a_server(self) -> None:
        with Server(self.wheels) as server:
            self.ran("index", "pyproject.toml", "ix", "--index-url", server.url)
            self.ran("pylock", "unilock.lock", "dev", "-o", "pylock.dev.toml")
            files = [file for it in self.tables("pylock.dev.toml")["packages"] for file in it["wheels"]]
            base = server.url.replace("simple/", "files/")
            self.assertEqual([it["url"] for it in files], [f"{base}{it}-1-py3-none-any.whl" for it in "abc"])

    def test_a_file_without_a_place(self) -> None:
        files = [{"file": "a-1.tar.gz", "sha256": "0" * 64, "url": "http://x/a-1.tar.gz"}]
        self.write("ix/a.json", document("a", {"version": "1", "files": files}))
        done = self.ran("pylock", "unilock.lock", "--index", "ix", status=1)
        self.assertIn("no place is known of a-1-py3-none-any.whl", done.stderr)
        self.assertFalse((self.top / "pylock.toml").exists())
        (self.wheels / "a-1.tar.gz").unlink()
        # Another file of that name has another hash, so its place isn't the locked one's.
        self.assertIn(
            "no place is known of a-1.tar.gz",
            self.ran("pylock", "unilock.lock", "--index", "ix", "--files", "wheels", status=1).stderr,
        )

    def test_requirements_of_all_machines(self) -> None:
        said = self.ran("requirements", "unilock.lock", "dev", "--all").stdout
        self.assertEqual([it for it in re.sub(r" \\\n    --hash=sha256:[0-9a-f]{64}", "#", said).splitlines()], [
            "a==1 ; sys_platform == 'win32'##", "b==1#", "c==1#",
        ])  # fmt: skip

    def test_printed(self) -> None:
        said = self.ran("pylock", "unilock.lock", "--files", "wheels", "-o", "-").stdout
        self.assertTrue(said.startswith('lock-version = "1.0"\n'))


class ByTheProgram(Written):
    def test_the_stand_in_prints_what_the_program_does(self) -> None:
        want_program(self)
        import subprocess

        for words, rows in ROWS.items():
            done = subprocess.run(
                [str(PROGRAM), "export", str(self.lock), *words.split()], stdout=subprocess.PIPE, text=True, check=False
            )
            self.assertEqual((done.returncode, done.stdout), (0, rows))

    def test_the_example(self) -> None:
        want_program(self)
        lock = TOP / "examples" / "web_app" / "unilock.lock"
        self.assertIn("the lock has no files of", self.ran("pylock", lock, status=1).stderr)
        said = self.printed("requirements", lock, "dev", "--all", "--no-hashes")
        self.assertIn("colorama==0.4.6 ; sys_platform == 'win32'", said)
        self.assertEqual(len(said), 9)


if __name__ == "__main__":
    unittest.main()
