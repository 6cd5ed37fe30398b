"""tools/machine: the ten variables, as PyPA's packaging gives them, and machines that one hasn't got."""

from __future__ import annotations

import json
import subprocess
import unittest
from pathlib import Path

from making import PROGRAM, TOP, Folder, skip, want_program
from unilock_tools import machine

KEYS = [
    "os_name", "sys_platform", "platform_machine", "platform_python_implementation", "platform_release",
    "platform_system", "platform_version", "implementation_name", "implementation_version", "python_full_version",
]  # fmt: skip


class Machine(Folder):
    def told(self, *words: str) -> dict:
        found = json.loads(self.ran("machine", *words).stdout)
        self.assertEqual(list(found), KEYS)
        return found

    def test_the_ten_variables(self) -> None:
        self.assertTrue(all(isinstance(it, str) for it in self.told().values()))

    def test_they_are_those_of_packaging(self) -> None:
        try:
            from pip._vendor.packaging.markers import default_environment
        except ImportError:
            skip(self, "pip isn't there")
        found = default_environment()
        self.assertEqual(machine.machine(), {it: found[it] for it in KEYS})

    def test_another_platform(self) -> None:
        for platform, found in [
            ("windows", ["nt", "win32", "Windows", "AMD64"]),
            ("macos", ["posix", "darwin", "Darwin", "arm64"]),
            ("linux", ["posix", "linux", "Linux", "x86_64"]),
        ]:
            told = self.told("--platform", platform, "--python", "3.12")
            self.assertEqual(
                [told[it] for it in ("os_name", "sys_platform", "platform_system", "platform_machine")], found
            )
            self.assertEqual(
                (told["python_full_version"], told["platform_release"], told["platform_version"]), ("3.12.0", "", "")
            )
        self.assertEqual(self.told("--platform", "linux", "--machine", "aarch64")["platform_machine"], "aarch64")

    def test_another_interpreter(self) -> None:
        told = self.told("--python", "3.9.18", "--implementation", "pypy", "--implementation-version", "7.3.15")
        self.assertEqual(told["python_full_version"], "3.9.18")
        self.assertEqual(told["implementation_name"], "pypy")
        self.assertEqual(told["platform_python_implementation"], "PyPy")
        self.assertEqual(told["implementation_version"], "7.3.15")
        self.assertEqual(self.told("--python", "3.11")["implementation_version"], "3.11.0")

    def test_a_pre_release_counts_as_its_release(self) -> None:
        self.assertEqual(
            [machine.full_version(it) for it in ("3.14.0rc1", "3.13.0+", "3.12.4")], ["3.14.0", "3.13.0", "3.12.4"]
        )

    def test_words_that_are_not_right(self) -> None:
        for words in [["--python", "3"], ["--python", "3.x"], ["--platform", "amiga"], ["more"]]:
            done = self.ran("machine", *words, status=2)
            self.assertEqual((done.stdout, len(done.stderr.splitlines())), ("", 1))

    def test_on_the_oldest_interpreter(self) -> None:
        old = sorted((Path.home() / ".pyenv" / "versions").glob("3.6.*/bin/python3"))
        if not old:
            skip(self, "no Python 3.6 is there")
        self.assertEqual(json.loads(self.ran("machine", python=str(old[0])).stdout)["python_full_version"][:4], "3.6.")

    def test_the_program_reads_it(self) -> None:
        want_program(self)
        self.ran("machine", "--platform", "windows", "--python", "3.10", "-o", "windows.json")
        done = subprocess.run(
            [str(PROGRAM), "env", str(TOP / "examples/web_app/unilock.lock"), "windows.json"],
            cwd=self.top,
            capture_output=True,
            text=True,
        )
        self.assertEqual(done.stdout, (TOP / "examples/web_app/windows.txt").read_text())


if __name__ == "__main__":
    unittest.main()
