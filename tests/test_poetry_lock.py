"""tools/judge on `poetry.lock`: one that Poetry 1.3 wrote, and others of its form; each key is read, passed over or
keeps the lock from being judged.

tests/data/locks has the project, the documents and the lock. Where Poetry is installed it locks the project anew.
"""

from __future__ import annotations

import functools
import hashlib
import http.server
import os
import shutil
import subprocess
import threading
import unittest
from pathlib import Path
from typing import Dict, List, Tuple

from making import TOP, document, plain_wheel, skip
from test_judge import Judging
from unilock_tools import locks, poetry_lock

DATA = TOP / "tests" / "data" / "locks"
PROJECT = (DATA / "poetry" / "pyproject.toml").read_text()
LOCK = (DATA / "poetry" / "poetry.lock").read_text()
RIGHT = "poetry.lock is right in every environment that the project supports (7 packages)\n"
UNREAD = [
    ('lock-version = "2.0"', 'lock-version = "3.0"', "it is of lock version '3.0', which isn't read"),
    ('python-versions = ">=3.8,<4.0"', 'python-versions = "3.8 || 3.9"', "metadata.python-versions isn't read"),
    ("content-hash", "new", "`metadata.new` isn't read"),
    ("[extras]\n", "[new]\n", "`new` isn't read"),
    ('name = "f"\n', 'name = "f"\nnew = 1\n', "`f 1.0.new` isn't read"),
    ('name = "f"\n', 'name = "f"\ngroups = ["main"]\n', "`f 1.0.groups` isn't read"),
    ('name = "f"\n', 'name = "f"\nmarkers = ""\n', "`f 1.0.markers` isn't read"),
    ('name = "f"\nversion = "1.0"', 'name = "f"', "f has no version"),
    ('d = {version = "*", ', 'd = {version = "*", platform = "win32", ', "`a 1.0.dependencies.d.platform` isn't read"),
    ('d = {version = "*", ', 'd = {version = "*", optional = 1, ', "a 1.0.dependencies.d.optional is neither"),
    ('d = {version = "*", ', 'd = {version = "*", python = "x", ', "a 1.0.dependencies.d.python isn't read: 'x'"),
    ('d = {version = "*", ', 'd = {version = 1, ', "a 1.0.dependencies.d.version isn't a text: 1"),
    ('"sys_platform == \\"win32\\""', '"sys_platform = 1"', "a 1.0.dependencies.d.markers: the marker isn't read"),
    ('x = ["f (>=1)"]', 'x = ["(f)"]', "e 1.0: its extras aren't read: '(f)'"),
    ('x = ["f (>=1)"]', 'x = [1]', "e 1.0.extras.x[0] isn't a text"),
    ('{file = "f-1', '{new = 1, file = "f-1', "`f 1.0.files[0].new` isn't read"),
    ('name = "f"\n', 'name = "e"\n', "it has a package of one name and version twice"),
    ('name = "c"\nversion = "2.0"', 'name = "c"\nversion = "1.0"\n[[package]]\nname = "c"\nversion = "2.0"',
     "c is locked as 1.0 and 2.0, and more than one of them would do"),
]  # fmt: skip
PASSED_OVER = [
    ('lock-version = "2.0"', 'lock-version = "1.1"\nfiles = {}'),
    ('name = "f"\nversion = "1.0"\ndescription = ""\ncategory = "main"',
     'name = "F"\nversion = "1.0.0"\ndevelop = false'),
    ('d = {version = "*", ', 'd = {version = "*", allow-prereleases = true, source = "local", develop = true, '),
    ('d = {version = "*", ', 'd = {git = "x", branch = "b", tag = "t", rev = "r", '),
    ('d = {version = "*", ', 'd = {path = "p", url = "u", subdirectory = "s", '),
    ('c = ">=1"',
     'c = [{version = ">=1", markers = "os_name == \'nt\'"}, {version = ">1", markers = "os_name != \'nt\'"}]'),
    ('e = {version = "*", extras = ["x"], markers = "python_version < \\"3.10\\""}',
     'e = {version = "*", extras = ["x"], python = "<3.10"}'),
    ('f = {version = ">=1", optional = true, markers = "extra == \\"x\\""}', 'f = {version = ">=1", optional = true}'),
    ('f = {version = ">=1", optional = true, markers = "extra == \\"x\\""}',
     'f = {version = ">=1,<1.5 || >1.5", optional = true, markers = "extra == \\"x\\" or extra == \\"y\\""}'),
    ("[extras]\nmore = [\"g\"]\n", ""),
]  # fmt: skip
WRONG = [
    ('d = {version = "*", markers = "sys_platform == \\"win32\\""}',
     'd = {version = "*", markers = "sys_platform == \\"win32\\" and python_version >= \\"3.9\\""}',
     "a 1.0: a 1.0 requires `d ; sys_platform == 'win32'`, and on Windows, Python 3.8.0 the lock gives it no d"),
    ('name = "c"\nversion = "2.0"', 'name = "c"\nversion = "1.0"',
     "a 2.0: a 2.0 requires `c>=2`, and on Linux, Python 3.12.0 the lock gives c 1.0"),
    ('c = ">=2"\n', 'c = ">=2"\nd = "*"\n',
     "a 2.0: a 2.0 doesn't require d on Linux, Python 3.12.0, and the lock gives it d 1.0"),
    ('python-versions = ">=3.8,<4.0"', 'python-versions = "^3.9"', "the project supports Python `>=3.8,<4.0`, and the "
     "lock is made for python_full_version >= '3.9.0' and python_full_version < '4.0.0'"),
    ('name = "d"\nversion = "1.0"', 'name = "z"\nversion = "1.0"',
     "a 1.0: a 1.0 requires `d ; sys_platform == 'win32'`, and on Windows, Python 3.9.0 the lock gives it no d"),
    ('f = {version = ">=1", optional = true, markers = "extra == \\"x\\""}', "",
     "e 1.0: e 1.0 requires `f (>=1) ; extra == 'x'`, and on Linux, Python 3.12.0 the lock gives it no f"),
]  # fmt: skip


class Written(Judging):
    """Tests with the data's project and documents."""

    def setUp(self) -> None:
        super().setUp()
        self.write("pyproject.toml", PROJECT)
        shutil.copytree(DATA / "ix", self.top / "ix")

    def said(self, text: str, status: int = 0, *words: str) -> str:
        self.write("poetry.lock", text)
        return self.judged("poetry.lock", *words, status=status)

    def changed(self, old: str, new: str) -> str:
        head, place, rest = LOCK.rpartition(old) if old.startswith("python-versions") else LOCK.partition(old)
        self.assertTrue(place, old)
        return head + new + rest


class Edges(Written):
    """Lock versions 1.1 and 2.0, whose packages name requirements."""

    def test_a_lock_that_poetry_wrote(self) -> None:
        self.assertEqual(self.said(LOCK, 0, "-o", "kept.lock"), RIGHT)
        kept = locks.load(str(self.top / "kept.lock"))
        self.assertEqual(len(kept.package("a", "1.0").files), 1)
        self.assertEqual(self.printed("verify", "pyproject.toml", "ix", "kept.lock"),
                         ["verified, and all its files are the index's (7)"])  # fmt: skip

    def test_a_lock_that_poetry_writes_now(self) -> None:
        poetry = Path("/usr/bin/poetry")
        if not poetry.is_file():
            skip(self, "Poetry isn't there (apt-get install python3-poetry)")
        with served(self.top) as url:
            self.write("pyproject.toml", PROJECT.replace("http://127.0.0.1/simple/", url))
            kept = {"HOME": str(self.top), "PATH": "/usr/bin:/bin", "POETRY_VIRTUALENVS_CREATE": "false",
                    "PYTHON_KEYRING_BACKEND": "keyring.backends.null.Keyring"}  # fmt: skip
            words = [str(poetry), "lock", "-n"]
            done = subprocess.run(words, cwd=self.top, env=kept, capture_output=True, check=False)
        self.assertEqual(done.returncode, 0, done.stderr)
        self.assertEqual(self.judged("poetry.lock"), RIGHT)

    def test_each_key_that_is_passed_over_changes_nothing(self) -> None:
        for old, new in PASSED_OVER:
            with self.subTest(new):
                self.assertEqual(self.said(self.changed(old, new)), RIGHT)

    def test_each_key_that_is_not_read_keeps_the_lock_from_being_judged(self) -> None:
        for old, new, told in UNREAD:
            with self.subTest(new):
                found = self.said(self.changed(old, new), 3)
                self.assertTrue(found.startswith("poetry.lock can't be judged: "), found)
                self.assertIn(told, found)

    def test_no_key_is_left_out_of_the_tables(self) -> None:
        rows = "".join(f"{old}{new}" for old, new in PASSED_OVER) + LOCK
        for known in ["PACKAGE", "BOUND", "METADATA", "ORIGIN", "TOP"]:
            for key in getattr(poetry_lock, known):
                self.assertIn(key, rows)

    def test_what_is_wrong(self) -> None:
        for old, new, told in WRONG:
            with self.subTest(new):
                self.assertEqual(self.said(self.changed(old, new), 1), f"poetry.lock is wrong: {told}\n")

    def test_where_a_package_comes_from(self) -> None:
        git = LOCK.replace('type = "legacy"', 'type = "git"\nresolved_reference = "1"')
        self.assertEqual(self.said(git), RIGHT)
        (self.top / "ix" / "f.json").unlink()
        self.assertIn("no document of f, which it takes from git http://127.0.0.1/simple", self.said(git, 3))

    def test_several_versions_of_which_one_would_do(self) -> None:
        """Poetry asks for the requirement's version; of two that would do it takes one when it installs."""
        both = 'name = "c"\nversion = "1.0"\n[[package]]\nname = "c"\nversion = "2.0"'
        text = self.changed('name = "c"\nversion = "2.0"', both).replace('c = ">=1"', 'c = ">=1,<2"')
        self.write("ix/g.json", document("g", {"version": "1.0"}))
        found = self.said(text.replace('[package.dependencies]\nc = "*"\n', ""), 0, "-o", "kept.lock")
        self.assertIn("is right", found)
        kept = locks.load(str(self.top / "kept.lock"))
        self.assertEqual([it.version for it in kept.package("a", "1.0").edges if it.name == "c"], ["1.0"])

    def test_an_extra_that_asks_for_others_of_its_package(self) -> None:
        entry = {"version": "1.0", "requires_dist": ["f>=1; extra == 'y'", "e[y]; extra == 'x'"]}
        self.write("ix/e.json", document("e", entry))
        listed = 'x = ["e[y] ; os_name == \'nt\'"]\ny = ["f (>=1)"]'
        asks = self.changed('x = ["f (>=1)"]', listed).replace('"x\\"', '"y\\"')
        self.assertIn("is right", self.said(asks.replace(" ; os_name == 'nt'", "")))
        self.assertIn("e 1.0 requires `e[y]; extra == 'x'`", self.said(asks, 1))

    def test_groups_that_the_standard_tables_do_not_have(self) -> None:
        self.write("pyproject.toml", PROJECT.replace('\n[dependency-groups]\ndev = ["d"]\n', ""))
        self.assertIn("the group 'dev' is none of the project's [dependency-groups]", self.said(LOCK, 3))


# What each package has beside its version from 2.1 on: by groups, where it is installed.
GROUPS = {
    "a 1.0": 'groups = ["main"]\nmarkers = "python_version < \\"3.11\\""',
    "a 2.0": 'groups = ["main"]\nmarkers = "python_version >= \\"3.11\\""',
    "c 2.0": 'groups = ["main"]',
    "d 1.0": 'groups = ["main", "dev"]\n'
    'markers = { main = "sys_platform == \\"win32\\" and python_version < \\"3.11\\"" }',
    "e 1.0": 'groups = ["main"]\nmarkers = "sys_platform == \\"linux\\" or python_version < \\"3.10\\""',
    "f 1.0": 'groups = ["main"]\nmarkers = "sys_platform == \\"linux\\" or python_version < \\"3.10\\""',
    "g 1.0": 'groups = ["main"]\nmarkers = "extra == \\"more\\""',
}
ROWS_WRONG = [
    ("f 1.0", 'groups = ["main"]\nmarkers = "sys_platform == \\"linux\\""', "e 1.0: e 1.0 requires `f (>=1) ; extra == "
     "'x'`, and on Windows, Python 3.9.0 the lock gives it no f"),
    ("f 1.0", 'groups = ["main"]', "f 1.0 is installed on Windows, Python 3.12.0, where nothing requires it"),
    ("f 1.0", GROUPS["f 1.0"].replace('["main"]', '["dev"]'), "f 1.0 isn't installed on Linux, Python 3.12.0, where it "
     "is required"),
    ("d 1.0", 'groups = ["main"]', "d 1.0 is installed on Linux, Python 3.12.0, where nothing requires it"),
    ("d 1.0", GROUPS["d 1.0"].replace('"main", "dev"', '"main"'), "app 0.1: the project requires `d` "
     "(dependency-groups.dev[0]), and on Linux, Python 3.12.0 the lock gives it no d"),
    ("d 1.0", GROUPS["d 1.0"].replace("}", ', dev = "os_name == \\"posix\\"" }'), "app 0.1: the project requires `d` "
     "(dependency-groups.dev[0]), and on Windows, Python 3.12.0 the lock gives it no d"),
    ("c 2.0", 'groups = ["main"]\nmarkers = "extra == \\"more\\""', "c 2.0 isn't installed on Linux, Python 3.12.0, "
     "where it is required"),
    ("g 1.0", 'groups = ["dev"]',
     "g 1.0 is installed on Linux, Python 3.12.0 with group-dev, where nothing requires it"),
]  # fmt: skip
ROWS_UNREAD = [
    ("g 1.0", 'groups = ["main"]', "g 1.0 is optional, and no marker says with which extra it is installed"),
    ("g 1.0", 'groups = ["main"]\nmarkers = "extra != \\"more\\""', "a marker that asks for several extras at once"),
    ("g 1.0", 'groups = ["main"]\nmarkers = "extra == \\"more\\" and extra == \\"x\\""', "several extras at once"),
    ("g 1.0", 'groups = ["docs"]', "the group 'docs' is none of the project's [dependency-groups]"),
    ("g 1.0", 'groups = ["main"]\nmarkers = 3', "g 1.0: its markers aren't read: 3"),
    ("g 1.0", 'groups = 3', "g 1.0.groups isn't a list"),
]


class LockOfRows(Written):
    """Lock version 2.1, whose packages say where they are installed."""

    def text(self, groups: Dict[str, str]) -> str:
        found = LOCK.replace('lock-version = "2.0"', 'lock-version = "2.1"').replace('category = "main"\n', "")
        for what, more in groups.items():
            name, version = what.split()
            head = f'name = "{name}"\nversion = "{version}"\n'
            found = found.replace(head, f"{head}{more}\n")
        return found

    def test_a_right_lock(self) -> None:
        self.assertEqual(self.said(self.text(GROUPS)), RIGHT)

    def test_rows_that_are_wrong(self) -> None:
        for what, more, told in ROWS_WRONG:
            with self.subTest(f"{what} {more}"):
                found = self.said(self.text({**GROUPS, what: more}), 1)
                self.assertIn(f"poetry.lock is wrong: {told}", found)

    def test_rows_that_are_not_read(self) -> None:
        for what, more, told in ROWS_UNREAD:
            with self.subTest(f"{what} {more}"):
                self.assertIn(told, self.said(self.text({**GROUPS, what: more}), 3))


class served:
    """A package index of the data's wheels on this machine, with pages as files."""

    def __init__(self, top: Path) -> None:
        self.top = top / "web"

    def __enter__(self) -> str:
        wheels = self.top / "files"
        wheels.mkdir(parents=True)
        make_wheels(wheels)
        for wheel in sorted(wheels.iterdir()):
            page = self.top / "simple" / wheel.name.partition("-")[0] / "index.html"
            page.parent.mkdir(parents=True, exist_ok=True)
            summed = hashlib.sha256(wheel.read_bytes()).hexdigest()
            with page.open("a") as it:
                it.write(f'<a href="../../files/{wheel.name}#sha256={summed}">{wheel.name}</a><br>\n')
        handler = functools.partial(Quiet, directory=os.fspath(self.top))
        self.server = http.server.ThreadingHTTPServer(("127.0.0.1", 0), handler)
        threading.Thread(target=self.server.serve_forever, daemon=True).start()
        return f"http://127.0.0.1:{self.server.server_port}/simple/"

    def __exit__(self, *_: object) -> None:
        self.server.shutdown()
        self.server.server_close()


class Quiet(http.server.SimpleHTTPRequestHandler):
    def log_message(self, *_: object) -> None:
        pass


def make_wheels(folder: Path) -> None:
    """The wheels that the data's documents are of."""
    asks = ["c>=1", "d ; sys_platform == 'win32'", "e[x] ; python_version < '3.10'"]
    plain_wheel(folder, "a", "1.0", asks, ">=3.8")
    plain_wheel(folder, "a", "2.0", ["c>=2"], ">=3.8")
    others: List[Tuple[str, str, List[str]]] = [
        ("c", "1.0", []), ("c", "2.0", []), ("d", "1.0", []), ("e", "1.0", ["f (>=1) ; extra == 'x'"]),
        ("f", "1.0", []), ("g", "1.0", ["c"]),
    ]  # fmt: skip
    for name, version, wanted in others:
        plain_wheel(folder, name, version, wanted)


if __name__ == "__main__":
    unittest.main()
