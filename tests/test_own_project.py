"""tools/sync: the project itself is installed behind what its lock lists, an environment without pip is served by
another's, and of what pip says in many lines ten are told. A stand-in answers for the program, and no network is
asked."""

from __future__ import annotations

import json
import os
import subprocess
import sys
import unittest
from pathlib import Path
from unittest import mock

from making import Done, Folder, plain_wheel, sha256, skip
from sources import BUILD_SYSTEM, source_files
from unilock_tools import pip_runs

PROJECT = f'[project]\nname = "p"\nversion = "0"\ndependencies = ["a"]\n\n{BUILD_SYSTEM}'


class Walked(Folder):
    """A project with a lock that gives `a 1`, in a folder with the wheel of it."""

    def setUp(self) -> None:
        super().setUp()
        looked = subprocess.run([sys.executable, "-c", "import ensurepip, venv"], capture_output=True, check=False)
        if looked.returncode:
            skip(self, "venv and pip aren't there")
        wheels = self.top / "wheels"
        wheels.mkdir()
        summed = sha256(plain_wheel(wheels, "a", "1"))
        self.program = self.write("stand-in", '#!/bin/sh\necho "a==1"\n')
        Path(str(self.program)).chmod(0o755)
        files = f'files = [\n    {{ file = "a-1-py3-none-any.whl", hash = "sha256:{summed}" }},\n]\n'
        self.write(
            "unilock.lock",
            f'version = 2\nroot = "p"\n\n[[package]]\nname = "a"\nversion = "1"\n{files}\n'
            '[[package]]\nname = "p"\nversion = "0"\ndependencies = [\n    { name = "a", version = "1" },\n]\n',
        )
        self.project(PROJECT)

    def project(self, text: str, fails: str = "") -> None:
        for name, body in {**source_files("p", "0", ["a"], fails), "pyproject.toml": text}.items():
            self.write(name, body)

    def synced(self, *words: str, status: int = 0) -> Done:
        return self.ran("sync", *words, "--no-index", "--find-links", "wheels", status=status)

    def code(self, text: str) -> str:
        """What the environment's interpreter prints, in another folder."""
        line = [str(self.top / ".venv" / "bin" / "python"), "-c", text]
        done = subprocess.run(line, cwd=self.top / "wheels", capture_output=True, text=True, check=False)
        return done.stdout.strip() or done.stderr.strip().splitlines()[-1]


class Installed(Walked):
    def test_the_project_is_installed_editable_and_its_sources_are_seen(self) -> None:
        """Without a word: the lock is unilock.lock in this folder."""
        dry = json.loads(self.synced("--dry-run", "--json").stdout)
        self.assertEqual(dry["project"], {"name": "p", "version": "0", "editable": True})
        said = self.synced().stdout.splitlines()
        self.assertEqual(said[1:], [
            "installing a 1", "installing p 0 (this project, editable)", ".venv is as unilock.lock says: 1 package",
        ])  # fmt: skip
        self.assertEqual(self.code("import p; print(p.VERSION)"), "0")
        self.write("p.py", "VERSION = 'changed'\n")
        self.assertEqual(self.code("import p; print(p.VERSION)"), "changed")
        self.assertEqual(self.synced().stdout, ".venv is as unilock.lock says: 1 package\n")
        self.project(PROJECT + "# changed\n")
        self.assertIn("installing p 0 (this project, editable)\n", self.synced().stdout)
        self.copied()
        self.left_out()

    def copied(self) -> None:
        self.assertIn("installing p 0 (this project)\n", self.synced("--no-editable").stdout)
        self.write("p.py", "VERSION = 'changed again'\n")
        self.assertEqual(self.code("import p; print(p.VERSION)"), "0")

    def left_out(self) -> None:
        """What isn't installed stays as it was: the project is no package that the lock doesn't give."""
        self.assertEqual(self.synced("--no-project").stdout, ".venv is as unilock.lock says: 1 package\n")
        self.assertEqual(self.code("import p; print(p.VERSION)"), "0")

    def test_an_environment_without_pip(self) -> None:
        subprocess.run([sys.executable, "-m", "venv", "--without-pip", ".venv"], cwd=self.top, check=True)
        self.assertIn("No module named 'pip'", self.code("import pip"))
        self.synced()
        self.assertEqual(self.code("import a, p; print(a.VERSION, p.VERSION)"), "1 0")
        self.assertIn("No module named 'pip'", self.code("import pip"))
        with mock.patch.object(pip_runs, "own_pip", return_value="22.2.2"):
            said = self.synced(status=1).stderr
        self.assertIn("has no pip, and ", said)
        self.assertIn(" -m ensurepip` puts one there\n", said)

    def test_a_project_that_is_not_built_is_told_in_ten_lines(self) -> None:
        self.project(PROJECT, fails="the compiler isn't there")
        said = self.synced(status=1).stderr.splitlines()
        self.assertEqual(said[0], "sync: pip install failed; the environment isn't as the lock says")
        self.assertLessEqual(len(said), 2 + pip_runs.MOST_LINES)
        self.assertIn("  ValueError: the compiler isn't there", said)
        self.assertEqual(said[-1], "  (.venv/pip.log has all that pip said)")
        self.assertGreater(len((self.top / ".venv" / "pip.log").read_text().splitlines()), 20)
        self.assertEqual(self.code("import a; print(a.VERSION)"), "1")


class Chosen(Walked):
    """Which project is installed, without an environment."""

    def lines(self, text: str, *words: str, status: int = 0) -> str:
        self.write("pyproject.toml", text)
        done = self.ran("sync", "--dry-run", *words, status=status)
        return done.stdout + done.stderr

    def test_a_project_without_a_build_system_is_none_to_install(self) -> None:
        own = "would install p 0 (this project, editable)\n"
        plain = '[project]\nname = "p"\nversion = "0"\n'
        cases: list[tuple[str, list[str], bool]] = [
            (PROJECT, [], True), (PROJECT, ["--no-project"], False), (plain, [], False),
            (plain + "[tool.uv]\npackage = true\n", [], True), (PROJECT + "[tool.uv]\npackage = false\n", [], False),
        ]  # fmt: skip
        for text, words, installed in cases:
            self.assertEqual(self.lines(text, *words), "would install a 1\n" + (own if installed else ""))

    def test_the_file_of_another_project(self) -> None:
        said = self.lines(PROJECT.replace('"p"', '"other"'), status=1)
        self.assertIn("is the project other, and the lock is that of p; --no-project leaves it out", said)
        self.assertIn("absent.toml: there is no such file", self.lines(PROJECT, "--project", "absent.toml", status=3))

    def test_without_a_reader_of_toml_the_lock_is_still_installed(self) -> None:
        with mock.patch.dict(sys.modules, {"tomllib": None, "tomli": None}):
            said = self.lines(PROJECT)
        self.assertIn("would install a 1\n", said)
        self.assertIn("sync: pyproject.toml isn't read, and the project not installed: `pip install tomli`", said)

    def test_the_lock_and_extras_as_words(self) -> None:
        self.write("asked", "")
        self.write("stand-in", '#!/bin/sh\nshift 3\necho "$@" >>asked\necho "a==1"\n')
        os.rename(self.top / "unilock.lock", self.top / "other.lock")
        self.assertIn("unilock.lock: there is no such file", self.lines(PROJECT, "dev", status=1))
        self.lines(PROJECT, "other.lock", "dev", "--group", "test")
        os.rename(self.top / "other.lock", self.top / "unilock.lock")
        self.lines(PROJECT, "dev")
        self.lines(PROJECT)
        self.assertEqual((self.top / "asked").read_text(), "dev group-test\ndev\n\n")


BUILD = [f"output {it}" for it in range(130)]


class Essence(unittest.TestCase):
    def test_what_pip_says_in_many_lines_is_told_in_ten(self) -> None:
        said = [
            "Processing ./p", "  error: subprocess-exited-with-error", "  ", "  × Building wheel for p did not run.",
            "  │ exit code: 1", "  ╰─> [130 lines of output]", *(f"      {it}" for it in BUILD),
            "      gcc: command not found", "      [end of output]", "  note: This error originates from a subprocess.",
            "ERROR: Failed building wheel for p",
        ]  # fmt: skip
        self.assertEqual(pip_runs.essence("\n".join(said)), [
            "error: subprocess-exited-with-error", "× Building wheel for p did not run.", *BUILD[-3:],
            "gcc: command not found", "ERROR: Failed building wheel for p",
        ])  # fmt: skip
        many = [f"ERROR: {number}" for number in range(130)]
        self.assertEqual(pip_runs.essence("\n".join(many)), [*many[:3], "..", *many[-6:]])
        self.assertEqual(pip_runs.essence("\n".join(BUILD)), BUILD[-10:])
        self.assertEqual(pip_runs.essence(""), [])


if __name__ == "__main__":
    unittest.main()
