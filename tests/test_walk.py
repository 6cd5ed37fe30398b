"""The whole walk: a package index or a folder of wheels, tools/index, tools/lock, tools/sync, and what pip then has.

It is walked with the running interpreter and with another one, where there is one.
"""

from __future__ import annotations

import os
import re
import subprocess
import sys
import unittest
from pathlib import Path
from typing import Dict

from making import Folder, other_interpreters, plain_wheel, sha256, skip, want_program
from serving import Server

PROJECT = """[project]
name = "walk"
version = "1"
requires-python = ">=3.8"
dependencies = ["alpha>=1.2,<2", "Beta_Tools[fast]", "winonly; sys_platform == 'no such platform'"]

[project.optional-dependencies]
dev = ["delta"]

[dependency-groups]
test = ["zeta"]
"""
WANTED = {"alpha": "1.3", "beta-tools": "2.0", "epsilon": "1.0", "gamma": "0.3"}


def fill(wheels: Path) -> None:
    wheels.mkdir()
    plain_wheel(wheels, "alpha", "1.2", ["gamma<0.4"])
    plain_wheel(wheels, "alpha", "1.3", ["gamma<0.4", "ancient; python_version < '3'"])
    plain_wheel(wheels, "alpha", "2.0", ["gamma>=0.4"])
    plain_wheel(wheels, "beta-tools", "2.0", ["gamma>=0.3", "epsilon>=1; extra == 'fast'"])
    for name, version in [
        ("delta", "1.0"),
        ("epsilon", "1.0"),
        ("gamma", "0.3"),
        ("gamma", "0.4"),
        ("winonly", "1.0"),
        ("zeta", "1"),
        ("ancient", "1"),
    ]:
        plain_wheel(wheels, name, version)


class Walk(Folder):
    def setUp(self) -> None:
        super().setUp()
        want_program(self)
        if subprocess.run(
            [sys.executable, "-c", "import ensurepip, venv"], capture_output=True, check=False
        ).returncode:
            skip(self, "venv and pip aren't there")
        self.wheels = self.top / "wheels"
        fill(self.wheels)
        self.write("pyproject.toml", PROJECT)

    def installed(self, folder: str = ".venv") -> Dict[str, str]:
        """What an environment has, by the folders that installers leave."""
        found = {}
        for path in (self.top / folder).glob("lib/python*/site-packages/*.dist-info"):
            name, version = path.name[: -len(".dist-info")].split("-")
            found[name.lower().replace("_", "-")] = version
        return {name: version for name, version in found.items() if name not in ("pip", "setuptools", "wheel")}

    def test_from_a_server_in_three_commands(self) -> None:
        python = sys.executable
        with Server(self.wheels, "html") as server:
            self.ran("index", "pyproject.toml", "ix", "--index-url", server.url, python=python)
            self.assertEqual(
                self.ran("lock", python=python).stdout.splitlines()[-1], "unilock.lock is written: 7 packages"
            )
            words = ["sync", "unilock.lock", "--index-url", server.url]
            done = self.ran(*words, python=python)
            self.assertEqual(self.installed(), WANTED)
            self.assertIn("installing alpha 1.3\n", done.stdout)
            self.assertIn(".venv is as unilock.lock says: 4 packages", done.stdout)
            self.changed(words, python)
            self.spoiled(server, words, python)

    def changed(self, words: list, python: str) -> None:
        """With an extra and a group, and without them again: what the lock doesn't give is removed."""
        done = self.ran(*words, "dev", "--group", "test", "--dry-run", python=python)
        self.assertEqual(done.stdout.splitlines(), ["would install delta 1.0", "would install zeta 1"])
        self.ran(*words, "dev", "--group", "test", "--quiet", python=python)
        self.assertEqual(self.installed(), {**WANTED, "delta": "1.0", "zeta": "1"})
        self.ran(*words, "--keep", python=python)
        self.assertEqual(len(self.installed()), 6)
        self.assertIn("removing delta 1.0\nremoving zeta 1\n", self.ran(*words, python=python).stdout)
        self.assertEqual(self.installed(), WANTED)
        self.assertIn(
            "unilock.lock has no extra nope (it has: dev, group-test)",
            self.ran(*words, "nope", status=8, python=python).stderr,
        )

    def spoiled(self, server: Server, words: list, python: str) -> None:
        """A file whose bytes aren't the locked ones isn't installed."""
        lock = (self.top / "unilock.lock").read_text()
        good = sha256(self.wheels / "delta-1.0-py3-none-any.whl")
        self.assertIn(good, lock)
        (self.wheels / "delta-1.0-py3-none-any.whl").unlink()
        plain_wheel(self.wheels, "delta", "1.0", ["evil"])
        done = self.ran(*words, "dev", status=1, python=python)
        self.assertIn("pip wheel failed", done.stderr)
        self.assertIn("DO NOT MATCH THE HASHES", done.stderr)
        self.assertEqual(self.installed(), WANTED)

    def test_from_a_folder_of_wheels_on_another_interpreter(self) -> None:
        others = other_interpreters()
        if not others:
            skip(self, "there is one interpreter alone")
        python = others[0]
        self.ran("index", "wheels", "ix", python=python)
        self.ran("lock", "--quiet", python=python)
        printed = self.ran("requirements", "unilock.lock", "dev", python=python).stdout
        heads = [line.rstrip(" \\") for line in printed.splitlines() if not line.startswith(" ")]
        self.assertEqual(heads, ["alpha==1.3", "beta-tools[fast]==2.0", "delta==1.0", "epsilon==1.0", "gamma==0.3"])
        self.assertIn(
            f"delta==1.0 \\\n    --hash=sha256:{sha256(self.wheels / 'delta-1.0-py3-none-any.whl')}\n", printed
        )
        self.ran("requirements", "unilock.lock", "dev", "-o", "requirements.txt", python=python)
        subprocess.run([python, "-m", "venv", "fresh"], cwd=self.top, check=True)
        line = [
            "fresh/bin/python",
            "-m",
            "pip",
            "install",
            "--quiet",
            "--no-index",
            "--find-links",
            "wheels",
            "--no-deps",
            "--require-hashes",
            "-r",
            "requirements.txt",
        ]
        done = subprocess.run(line, cwd=self.top, env=self.environment(), capture_output=True, text=True, check=False)
        self.assertEqual(done.returncode, 0, done.stderr)
        self.assertEqual(self.installed("fresh"), {**WANTED, "delta": "1.0"})
        words = ["sync", "unilock.lock", "--venv", "fresh", "--no-index", "--find-links", "wheels"]
        self.assertIn("removing delta 1.0", self.ran(*words, python=python).stdout)
        self.assertEqual(self.installed("fresh"), WANTED)


class Requirements(Folder):
    """What needs no environment: other machines, what is refused, and that nothing is written then."""

    def setUp(self) -> None:
        super().setUp()
        want_program(self)
        fill(self.top / "wheels")
        self.write("pyproject.toml", PROJECT)
        self.ran("index", "wheels", "ix")
        self.ran("lock")

    def test_another_machine(self) -> None:
        self.ran("machine", "--platform", "windows", "--python", "3.9", "-o", "windows.json")
        said = self.printed("requirements", "unilock.lock", "--machine", "windows.json", "--no-hashes")
        self.assertEqual(said, ["alpha==1.3", "beta-tools[fast]==2.0", "epsilon==1.0", "gamma==0.3"])

    def test_an_outsider_is_refused_and_the_file_is_kept(self) -> None:
        self.write("requirements.txt", "kept\n")
        self.ran("machine", "--python", "3.7", "-o", "old.json")
        done = self.ran("requirements", "unilock.lock", "--machine", "old.json", "-o", "requirements.txt", status=8)
        self.assertEqual(done.stdout, "")
        self.assertEqual(
            done.stderr,
            "requirements: unilock.lock isn't for this machine: it supports python_full_version >= '3.8.0'\n",
        )
        self.assertEqual((self.top / "requirements.txt").read_text(), "kept\n")
        self.assertEqual(self.ran("requirements", "unilock.lock", "x", status=8).stdout, "")

    def test_a_lock_without_hashes(self) -> None:
        text = (self.top / "unilock.lock").read_text()
        self.write("bare.lock", re.sub(r"files = \[\n(    .*\n)+\]\n", "", text))
        self.assertIn("the lock has no hashes of alpha 1.3", self.ran("requirements", "bare.lock", status=1).stderr)
        self.assertEqual(self.printed("requirements", "bare.lock", "--no-hashes")[0], "alpha==1.3")

    def test_all_machines(self) -> None:
        want_program(self)
        said = self.printed("requirements", "unilock.lock", "--all", "--no-hashes")
        self.assertEqual(said[:2], ["alpha==1.3", "beta-tools==2.0"])
        self.assertIn("winonly==1.0 ; sys_platform == 'no such platform'", said)

    def test_a_folder_that_is_no_environment(self) -> None:
        self.write("mine/notes.txt", "mine")
        self.assertIn(
            "isn't empty and is no virtual environment",
            self.ran("sync", "unilock.lock", "--venv", "mine", status=1).stderr,
        )
        self.assertEqual(os.listdir(self.top / "mine"), ["notes.txt"])
        done = self.ran("sync", "unilock.lock", "--dry-run")
        self.assertEqual(done.stdout.splitlines()[0], "would install alpha 1.3")
        self.assertFalse((self.top / ".venv").exists())
        self.assertIn("absent.lock", self.ran("sync", "absent.lock", status=1).stderr)


if __name__ == "__main__":
    unittest.main()
