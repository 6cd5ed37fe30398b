"""What the tools show on a terminal: colours, columns and a bar of progress where `rich` is there, and plain text where
it isn't or where standard output is no terminal. The terminal is a pseudo-terminal."""

from __future__ import annotations

import fcntl
import functools
import importlib.util
import os
import pty
import re
import struct
import subprocess
import sys
import termios
import unittest
from pathlib import Path
from typing import NamedTuple

from making import PROGRAM, PYTHON, TOP, Folder, document, plain_wheel, skip, want_program
from serving import Server
from unilock_tools import many, terminal

LOCK = TOP / "examples" / "web_app" / "unilock.lock"
COLOR = re.compile(r"\x1b\[[0-9;]*m")
WIDTH = 110
# A program that judges a lock by what stands in it.
STAND_IN = """#!/bin/sh
grep -q right "$4" || { echo 'rejected: [red]a 1'; exit 9; }
"""
UNSET = ("NO_COLOR", "FORCE_COLOR", "COLUMNS")


@functools.lru_cache(maxsize=None)
def rich_python() -> str:
    """An interpreter that has `rich`, or nothing."""
    for python in [sys.executable, "/usr/bin/python3"]:
        if os.path.exists(python):
            found = subprocess.run([python, "-c", "import rich.progress"], capture_output=True, check=False)
            if found.returncode == 0:
                return python
    return ""


class Shown(NamedTuple):
    """How a tool ended, and what the terminal or the two pipes got."""

    status: int
    text: str


class Terminals(Folder):
    def setUp(self) -> None:
        super().setUp()
        # A module of this name in front of the path hides the library.
        self.write("hiding/rich.py", "raise ImportError('rich is hidden')\n")
        self.program = self.write("stand_in", STAND_IN)
        Path(str(self.program)).chmod(0o755)

    def begun(
        self, words: list[object], has_rich: bool, stream: int, more: dict[str, str]
    ) -> "subprocess.Popen[bytes]":
        python = rich_python() if has_rich else sys.executable
        if not python:
            skip(self, "no interpreter has the library rich")
        path = [str(PYTHON)] if has_rich else [str(self.top / "hiding"), str(PYTHON)]
        kept = {key: value for key, value in self.environment().items() if key not in UNSET}
        shown = {"TERM": "xterm-256color", "LC_ALL": "C.UTF-8", **more}
        environment = {**kept, "PYTHONPATH": os.pathsep.join(path), **shown}
        line = [python, "-m", "unilock_tools", *map(str, words)]
        return subprocess.Popen(
            line, cwd=self.top, env=environment, stdin=subprocess.DEVNULL, stdout=stream, stderr=stream, close_fds=True
        )

    def on_terminal(self, *words: object, has_rich: bool = True, **more: str) -> Shown:
        ours, theirs = pty.openpty()
        fcntl.ioctl(theirs, termios.TIOCSWINSZ, struct.pack("HHHH", 40, WIDTH, 0, 0))
        with self.begun(list(words), has_rich, theirs, more) as run:
            os.close(theirs)
            body = b""
            while True:
                try:
                    piece = os.read(ours, 65536)
                except OSError:
                    # The other side was closed.
                    break
                if not piece:
                    break
                body += piece
            os.close(ours)
        return Shown(run.returncode, body.decode().replace("\r\n", "\n"))

    def in_pipe(self, *words: object, has_rich: bool = True, **more: str) -> Shown:
        with self.begun(list(words), has_rich, subprocess.PIPE, more) as run:
            out, errors = run.communicate()
        self.assertNotIn(b"Traceback", errors)
        return Shown(run.returncode, out.decode())


class Locks(Terminals):
    """tools/tree, diff and outdated."""

    def setUp(self) -> None:
        super().setUp()
        old = LOCK.read_text(encoding="utf-8")
        self.write("old.lock", old)
        self.write("new.lock", old.replace("2.1.0", "2.2.0").replace("sys_platform == 'win32'", "os_name == 'nt'"))
        for name in re.findall(r'(?m)^name = "([a-z-]+)"$', old):
            versions = [{"version": it} for it in re.findall(rf'(?m)^name = "{name}"\nversion = "(.*)"$', old)]
            newer = [{"version": "99.0"}] if name in ("numpy", "colorama") else []
            self.write(f"ix/{name}.json", document(name, *versions, *newer))

    CALLS = (("tree", "old.lock"), ("diff", "old.lock", "new.lock"), ("outdated", "old.lock", "ix"))

    def test_a_pipe_gets_plain_text_whether_the_library_is_there_or_not(self) -> None:
        for call in self.CALLS:
            plain = self.in_pipe(*call, has_rich=False)
            self.assertTrue(plain.text)
            self.assertNotIn("\x1b", plain.text)
            self.assertEqual(self.in_pipe(*call), plain)

    def test_a_terminal_gets_plain_text_without_the_library(self) -> None:
        for call in self.CALLS:
            self.assertEqual(self.on_terminal(*call, has_rich=False), self.in_pipe(*call, has_rich=False))

    def test_a_terminal_that_obeys_line_ends_alone_gets_plain_text(self) -> None:
        for call in self.CALLS:
            self.assertEqual(self.on_terminal(*call, TERM="dumb"), self.in_pipe(*call, has_rich=False))

    def test_the_tree_is_the_plain_one_in_colours(self) -> None:
        plain, shown = self.in_pipe("tree", "old.lock"), self.on_terminal("tree", "old.lock")
        self.assertIn("\x1b[1mfastapi\x1b[0m", shown.text)
        self.assertEqual(COLOR.sub("", shown.text), plain.text)

    def test_changes_and_newer_releases_stand_in_columns(self) -> None:
        shown = self.on_terminal("diff", "old.lock", "new.lock")
        self.assertEqual(shown.status, 1)
        lines = [it.split() for it in COLOR.sub("", shown.text).splitlines()]
        self.assertEqual(lines[1], ["package", "old", "new"])
        self.assertIn(["numpy", "1.26.4,", "2.1.0", "1.26.4,", "2.2.0"], lines)
        self.assertIn("needs colorama 0.4.6 where os_name == 'nt'", COLOR.sub("", shown.text))
        shown = self.on_terminal("outdated", "old.lock", "ix")
        lines = [it.split() for it in COLOR.sub("", shown.text).splitlines()]
        self.assertEqual(lines[1], ["package", "locked", "newest", "held", "back", "by"])
        self.assertIn(["colorama", "0.4.6", "99.0", "nothing"], lines)
        self.assertNotRegex(shown.text, "\x1b(?!\\[[0-9;]*m)")

    def test_colours_are_left_out_where_they_are_not_wanted(self) -> None:
        never = ("--color", "never")
        for words, more in [((), {"NO_COLOR": "1"}), (never, {}), (never, {"NO_COLOR": "1"})]:
            shown = self.on_terminal("outdated", "old.lock", "ix", *words, **more)
            self.assertNotIn("\x1b", shown.text)
            self.assertIn("held back by", shown.text)
        self.assertIn("\x1b[", self.on_terminal("outdated", "old.lock", "ix", NO_COLOR="").text)

    def test_words_count_for_more_than_the_environment_and_the_stream(self) -> None:
        for call in self.CALLS:
            self.assertIn("\x1b[", self.in_pipe(*call, "--color", "always", NO_COLOR="1").text)
        plain = self.in_pipe("tree", "old.lock")
        self.assertEqual(self.in_pipe("tree", "old.lock", "--color", "always", has_rich=False), plain)
        self.assertEqual(self.in_pipe("tree", "old.lock", "--color", "red").status, 2)

    def test_nothing_of_a_lock_is_obeyed(self) -> None:
        hostile = "platform_release == '[red]\x1b[2J\u202e:smile:'"
        self.write("hostile.lock", LOCK.read_text(encoding="utf-8").replace("sys_platform == 'win32'", hostile))
        shown = self.on_terminal("tree", "hostile.lock")
        self.assertIn("[red]\\x1b[2J\\u202e:smile:", COLOR.sub("", shown.text))

    def test_json_stays_as_it_is(self) -> None:
        for call in self.CALLS:
            plain = self.in_pipe(*call, "--json", has_rich=False)
            self.assertEqual(self.on_terminal(*call, "--json"), plain)
            self.assertEqual(self.on_terminal(*call, "--json", "--color", "always"), plain)


class Verdicts(Terminals):
    """tools/lock, verify, doctor, judge and sync: lines that are good, bad or changed."""

    def setUp(self) -> None:
        super().setUp()
        want_program(self)
        self.program = PROGRAM
        head = '[project]\nname = "demo"\nversion = "0.1"\nrequires-python = ">=3.9"\n'
        self.write("pyproject.toml", f'{head}dependencies = ["q"]\n[tool.uv]\nresolutoin = "lowest"\n')
        self.write("ix/q.json", document("q", {"version": "1"}, {"version": "2"}))
        self.write("ix/v.json", document("v", {"version": "1"}))
        self.write("requirements.txt", "q==1\nv==1\n")

    def compared(self, *words: object, coloured: str) -> None:
        """On a terminal a tool says what it says in a pipe, in colours; the terminal's width may break lines."""
        plain = self.in_pipe(*words)
        self.assertNotIn("\x1b", plain.text)
        shown = self.on_terminal(*words)
        self.assertIn(coloured, shown.text)
        self.assertEqual((shown.status, COLOR.sub("", shown.text).split()), (plain.status, plain.text.split()))
        for choice in [("--color", "never"), ()]:
            bare = self.on_terminal(*words, *choice, **({} if choice else {"NO_COLOR": "1"}))
            self.assertNotIn("\x1b", bare.text)
            self.assertEqual(bare.text.split(), plain.text.split())
        self.assertEqual(self.on_terminal(*words, has_rich=False).text.split(), plain.text.split())
        self.assertIn(coloured, self.in_pipe(*words, "--color", "always", NO_COLOR="1").text)

    def test_what_lock_changes(self) -> None:
        self.compared("lock", "--check", coloured="\x1b[32madded q 2\x1b[0m")
        self.in_pipe("lock")
        self.compared("lock", "--check", coloured="\x1b[32munilock.lock is current: 1 package\x1b[0m")
        self.write("ix/q.json", document("q", {"version": "1"}))
        self.compared("lock", "--check", coloured="\x1b[33mq 2 -> 1  (\x1b[0m")

    def test_what_the_doctor_finds(self) -> None:
        self.compared("doctor", coloured="\x1b[33mwarning:\x1b[0m tool.uv.resolutoin")

    def test_the_verdict_on_a_lock(self) -> None:
        self.in_pipe("lock")
        self.compared("verify", coloured="\x1b[32mverified\x1b[0m")
        self.write("ix/q.json", document("q", {"version": "1"}))
        self.compared("verify", coloured="\x1b[1;31mrejected:\x1b[0m q 2")

    def test_verdicts_on_another_lock(self) -> None:
        self.compared("judge", "requirements.txt", coloured="\x1b[1;31mrequirements.txt is wrong")
        self.write("requirements.txt", "q==1\n")
        self.compared("judge", "requirements.txt", coloured="\x1b[32mrequirements.txt is right")

    def test_what_sync_would_install(self) -> None:
        self.in_pipe("lock")
        self.compared("sync", "--dry-run", "--no-project", coloured="\x1b[32mwould install q 2\x1b[0m")


class Works(Terminals):
    """tools/many and tools/index, which take a while."""

    def projects(self) -> None:
        for number in range(5):
            folder = f"all/{number} [red]"
            self.write(f"{folder}/pyproject.toml", "[project]\n")
            self.write(f"{folder}/unilock.lock", "wrong" if number == 3 else "right")
            self.write(f"{folder}/ix/a.json", "{}")

    def test_many_shows_how_far_it_is_and_its_rows_in_columns(self) -> None:
        self.projects()
        shown = self.on_terminal("many", "verify", "all", "--workers", "1")
        self.assertEqual(shown.status, 1)
        text = COLOR.sub("", shown.text)
        self.assertRegex(text, r"many verify ━.*5 of 5 projects, \d+\.\d/s, 4 right, 1 wrong, 0 failed, 0 timed out")
        self.assertRegex(text, r"verify +project +said +seconds")
        self.assertRegex(text, r"wrong +/.*/3 \[red\] +rejected: \[red\]a 1 +0\.\d\d")
        self.assertIn("\x1b[1;31mwrong", shown.text)

    def test_many_without_the_library_writes_a_line_over(self) -> None:
        self.projects()
        shown = self.on_terminal("many", "verify", "all", "--workers", "1", has_rich=False)
        plain = self.in_pipe("many", "verify", "all", "--workers", "1", has_rich=False)
        self.assertNotIn("\x1b", plain.text)
        over, _, rows = shown.text.rpartition("\r\x1b[K")
        self.assertEqual(rows, plain.text + "4 right, 1 wrong, 0 failed, 0 timed out\n")
        self.assertRegex(over, r"\r\x1b\[Kmany verify: 5 of 5 projects, \d+\.\d/s, 4 right, 1 wrong")

    def test_many_in_a_pipe(self) -> None:
        self.projects()
        plain = self.in_pipe("many", "verify", "all", has_rich=False)
        self.assertEqual(self.in_pipe("many", "verify", "all"), plain)
        self.assertNotIn("\x1b", plain.text)

    def test_index_shows_its_rate(self) -> None:
        if importlib.util.find_spec("requests") is None:
            skip(self, "the library requests isn't there")
        (self.top / "wheels").mkdir()
        for name in "abcdef":
            plain_wheel(self.top / "wheels", name, "1", [chr(ord(name) + 1)] if name < "f" else ["nowhere"])
        head = '[project]\nname = "p"\nversion = "1"\nrequires-python = ">=3.9"\n'
        self.write("pyproject.toml", f'{head}dependencies = ["a"]\n')
        with Server(self.top / "wheels") as server:
            words = ["index", "pyproject.toml", "ix", "--no-cache", "--index-url", server.url]
            rich, plain = (self.on_terminal(*words, has_rich=it) for it in (True, False))
            quiet = self.on_terminal(*words, "--quiet")
            piped = self.in_pipe(*words)
        told = r"\d+ of \d+ look-ups, \d+\.\d/s(, \d+ s left)?, \d packages, \d releases, \d+\.\d MB, \d+\.\d MB/s"
        self.assertRegex(COLOR.sub("", rich.text), f"index ━.*{told}")
        self.assertRegex(plain.text, f"\r\x1b\\[Kindex: {told}")
        self.assertIn("\x1b[33mindex: warning: \x1b[0m", rich.text)
        # The state is wiped before what stays is told.
        said = r"index: warning: .* no project nowhere, .*\nindex: ix has 6 packages with 6 releases\n"
        self.assertRegex(plain.text, r"\r\x1b\[Kindex: \d+ requests, 0\.0 MB\n" + said + r"\Z")
        self.assertEqual((quiet, piped), (Shown(0, ""), Shown(0, "")))


class Meters(unittest.TestCase):
    def test_what_is_left(self) -> None:
        meter = terminal.Meter("many", "project", "never")
        self.assertEqual(meter.told(0, 3, 1.0), "0 of 3 projects")
        self.assertEqual(meter.told(50, 200, 10.0), "50 of 200 projects, 5.0/s, 30 s left")
        self.assertEqual(meter.told(1, 1, 0.5), "1 of 1 project, 2.0/s")
        for seconds, text in [(8.9, "8 s"), (200, "3 min 20 s"), (7500, "2 h 5 min")]:
            self.assertEqual(terminal.duration(seconds), text)

    def test_counts(self) -> None:
        self.assertEqual(many.counts(["right", "failed", "right"]), "2 right, 0 wrong, 1 failed, 0 timed out")


if __name__ == "__main__":
    unittest.main()
