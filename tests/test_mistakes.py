"""The mistakes that a new user makes, in a folder with a project file alone and a package index that is asked: the
first command's output has the solution."""

from __future__ import annotations

import json
import sys
import unittest
from http.server import BaseHTTPRequestHandler
from pathlib import Path
from unittest import mock

from making import Folder, plain_wheel, want_program
from serving import Server
from unilock_tools import locks

NAME = '[project]\nname = "demo"\nversion = "1"\n'
HEAD = NAME + 'requires-python = ">=3.8"\n'
POETRY = '[tool.poetry]\nname = "demo"\n[tool.poetry.dependencies]\npython = "^3.9"\nflask = "^3.0"\n'


def requires(*texts: str) -> str:
    return f"{HEAD}dependencies = {json.dumps(texts)}\n"


# The project file, the status of the first `tools/lock`, and what stands in its output.
IN_THE_FILE = {
    "a typo in a name": (requires("flaks>=3"), 1, ["is flask meant?", '\n    "flask>=3",\n']),
    "a letter that is missing": (requires("flsk"), 1, ['\n    "flask",\n']),
    "a wrong operator": (requires("flask=3.0"), 3, ["project.dependencies[0] (line 5)", "is `flask==3.0` meant?\n"]),
    "Poetry's operator": (requires("flask^3.0"), 3, ["is `flask>=3.0,<4` meant?\n"]),
    "no version behind an operator": (requires("flask>="), 3, ["is `flask` meant?\n"]),
    "no such version": (requires("flask>=4"), 1, ["no version of flask meets `>=4`", '\n    "flask>=3.1",\n']),
    "a variable of a marker that is none": (
        requires("flask; python_verson > '3'"), 3,
        ["`python_verson` is no variable of a marker; is `python_version` meant?\n"],
    ),
    "a value that no machine has": (
        requires("flask; sys_platform == 'windows'"), 0, ["no machine has sys_platform 'windows'; is 'win32' meant?"]
    ),
    "a bound on Python that is too low": (
        requires("new"), 1, ["new 1 needs Python `>=3.12`", '\n    requires-python = ">=3.12"\n']
    ),
    "no bound on Python": (NAME + 'dependencies = ["new"]\n', 1, ['\n    requires-python = ">=3.12"\n']),
    "a bound on Python that holds nowhere": (
        requires("flask").replace(">=3.8", ">=3.12,<3.9"), 3, ["leave no interpreter and no platform to support"]
    ),
    "a fault of TOML": ("[project\n", 3, ["Expected ']' at the end of a table declaration", "line 1: [project\n"]),
    "a Poetry project": (
        POETRY, 3, ["This is a Poetry project", '    requires-python = ">=3.9,<4"\n', '    "flask>=3.0,<4",\n']
    ),
    "an unknown extra": (requires("flask[fast]"), 0, ["requires anything for the extra fast"]),
    "only a pre-release": (requires("pre>=1.5"), 1, ["pre 2rc1 is a pre-release", '\n    "pre>=2rc1",\n']),
    "its own name": (requires("Demo"), 3, ["asks for the project itself; where another package of this name is meant"]),
    "a source that is no index": (
        requires("flask") + '[tool.uv.sources]\nflask = { path = "absent" }\n', 3, ["there is no such file or folder"]
    ),
}  # fmt: skip


class Served(Folder):
    def setUp(self) -> None:
        super().setUp()
        want_program(self)
        self.wheels = self.top / "wheels"
        self.wheels.mkdir()
        releases: list[tuple[str, str, list[str], str | None]] = [
            ("flask", "3.0", ["click>=8"], None), ("flask", "3.1", ["click>=8", "fancy; extra == 'async'"], None),
            ("click", "8.1", [], None), ("new", "1", [], ">=3.12"), ("pre", "1", [], None), ("pre", "2rc1", [], None),
        ]  # fmt: skip
        for name, number, needs, python in releases:
            plain_wheel(self.wheels, name, number, needs, python)

    def lock(self, text: str, url: str, status: int, *words: str) -> str:
        self.write("pyproject.toml", text)
        (self.top / "unilock.lock").unlink(missing_ok=True)
        done = self.ran("lock", "--index-url", url, *words, status=status)
        return done.stderr + done.stdout


class OfTheFile(Served):
    def test_each_mistake_has_its_solution_in_the_first_output(self) -> None:
        with Server(self.wheels) as server:
            for name, (text, status, said) in IN_THE_FILE.items():
                told = self.lock(text, server.url, status)
                for part in said:
                    with self.subTest(f"{name}: {part}"):
                        self.assertIn(part, told)

    def test_what_is_not_read_is_told_before_anything_is_asked(self) -> None:
        with Server(self.wheels) as server:
            for name, (text, status, _) in IN_THE_FILE.items():
                if status == 3:
                    self.lock(text, server.url, 3)
                    self.assertEqual(server.asked, [], name)

    def test_a_dependency_that_was_added_is_locked_by_the_next_command(self) -> None:
        with Server(self.wheels) as server:
            self.lock(requires("click"), server.url, 0)
            self.write("pyproject.toml", requires("click", "flask"))
            self.assertEqual(self.ran("lock", "--index-url", server.url).stdout.splitlines()[0], "added flask 3.1")
        self.assertEqual(set(locks.load(str(self.top / "unilock.lock")).by_name()), {"click", "demo", "flask"})

    def test_no_project_file(self) -> None:
        said = self.ran("lock", status=3).stderr
        begin = "lock: pyproject.toml: there is no such file\n  The least that is read:\n"
        self.assertTrue(said.startswith(begin), said)
        least = [it.strip() for it in said.splitlines()[2:]]
        self.assertEqual(least[0], "[project]")
        with Server(self.wheels) as server:
            self.assertIn("is written: 0 packages", self.lock("\n".join(least), server.url, 0))

    def test_a_word_that_is_none(self) -> None:
        said = self.ran("lock", "--upgrad-package=flask", status=2).stderr
        self.assertIn("--upgrad-package=flask; is --upgrade-package meant? (--help says more)\n", said)
        said = self.ran("lock", "--nothing-like-it", status=2).stderr
        self.assertEqual(said, "lock: unrecognized arguments: --nothing-like-it (--help says more)\n")


class Spoiled(Server):
    """A server whose pages are all answered in one wrong way."""

    def __init__(self, folder: Path, status: int, body: bytes) -> None:
        super().__init__(folder)
        self.status, self.body = status, body

    def found(self, request: BaseHTTPRequestHandler) -> "tuple[int, dict[str, str], bytes]":
        return self.status, {"Content-Type": "text/html"}, self.body


class OfAServer(Served):
    def test_each_fault_has_what_to_do(self) -> None:
        cases = [
            (500, b"", "500 Internal Server Error (4 tries)\n  its address is that of --index-url"),
            (503, b"", "503 Service Unavailable (4 tries)\n  its address is that of --index-url"),
            (401, b"", "401 Unauthorized\n  a user and a password may stand in its address, in .netrc or in the"),
            (403, b"", "403 Forbidden\n  a user and a password may stand in its address"),
            (200, b"<html>Please log in</html>", "its address is that of --index-url; what it told is kept"),
        ]
        for status, body, said in cases:
            with self.subTest(status), Spoiled(self.wheels, status, body) as server, mock.patch("time.sleep"):
                told = self.lock(requires("flask"), server.url, 5)
                self.assertIn(said, told)
                self.assertIn(f"{server.url}flask/: ", told)

    def test_a_server_that_is_not_there(self) -> None:
        with mock.patch("time.sleep"):
            for url, said in [
                ("http://127.0.0.1:9/simple/", "Connection refused (4 tries)\n  its address is that of --index-url"),
                ("http://there-is-none.invalid/simple/", "Name or service not known (4 tries)\n  its address is that"),
            ]:
                self.assertIn(said, self.lock(requires("flask"), url, 5))
        for url, said in [
            ("ftp://host/", "ftp://host/: it is no address of a server; one begins with https:// or http://\n"),
            ("pypi.org/simple", "is https://pypi.org/simple meant?\n"),
        ]:
            self.assertIn(said, self.lock(requires("flask"), url, 2))

    def test_an_address_that_is_no_index(self) -> None:
        with Spoiled(self.wheels, 404, b"") as server:
            told = self.lock(requires("flask"), server.url, 1)
        self.assertIn(f"has no project that is asked for; is {server.url} that of a package index?", told)


class OfTheInterpreter(Served):
    def test_one_that_the_lock_is_not_made_for(self) -> None:
        with Server(self.wheels) as server:
            self.lock(requires("flask").replace(">=3.8", ">=3.99"), server.url, 0)
        said = self.ran("sync", "--dry-run", status=8).stderr
        running = ".".join(map(str, sys.version_info[:3]))
        self.assertIn("unilock.lock isn't for this machine: it supports python_full_version >= '3.99.0'\n", said)
        self.assertIn("--python PYTHON with --venv DIR makes an environment of another interpreter than this one", said)
        self.assertIn(f"({running})", said)
        self.assertIn("or widen requires-python in the project file and run `tools/lock`\n", said)

    def test_an_extra_of_the_project_that_is_none(self) -> None:
        with Server(self.wheels) as server:
            text = requires("flask") + '[project.optional-dependencies]\ndev = ["click"]\n'
            self.lock(text, server.url, 0)
        said = self.ran("sync", "--dry-run", "dve", status=8).stderr
        self.assertEqual(said, "sync: unilock.lock has no extra dve (it has: dev)\n")


if __name__ == "__main__":
    unittest.main()
