"""How much stack the deepest trees take: with an eighth of the usual one the program answers as it does with all of
it."""

from __future__ import annotations

import json
import resource
import subprocess
import unittest

from making import PROGRAM, Folder, want_program

# The usual stack of a process has 8 MiB.
STACK = 1024 * 1024
# The most levels of a tree that is read, and the most comparisons that a resolution has.
LEVELS = 512
COMPARISONS = 256

REGION = "region: *"
PROJECT = '[project]\nname = "demo"\nversion = "0.1"\ndependencies = [{}]\n'
MACHINE = {
    "os_name": "posix",
    "sys_platform": "linux",
    "platform_machine": "x86_64",
    "platform_python_implementation": "CPython",
    "platform_release": "6",
    "platform_system": "Linux",
    "platform_version": "1",
    "implementation_name": "cpython",
    "implementation_version": "3.11.0",
    "python_full_version": "3.11.0",
}
LOCK = """version = 2
root = "demo"

[[package]]
name = "demo"
version = "0.1"
dependencies = [
    {{ name = "q", version = "1", marker = "{}" }},
]

[[package]]
name = "q"
version = "1"
"""


def marker(levels: int) -> str:
    """A marker of so many comparisons that must all hold: its tree has a level for each."""
    return " and ".join(f"'k{place:03}' in os_name" for place in range(levels))


def small_stack() -> None:
    resource.setrlimit(resource.RLIMIT_STACK, (STACK, STACK))


class Stack(Folder):
    def setUp(self) -> None:
        super().setUp()
        want_program(self)
        self.write("ix/q.json", '{"name": "q", "versions": [{"version": "1"}]}')
        self.write("m.json", json.dumps(MACHINE))
        self.write("l", LOCK.format(marker(LEVELS)))
        self.write("p.toml", PROJECT.format(f'"q; {marker(COMPARISONS)}"'))
        self.write("none.toml", PROJECT.format('"q>=2"'))

    def status(self, words: str) -> int:
        """The status with a small stack. Below 0 it is a signal; it and what is printed are as with the usual one."""
        call = [str(PROGRAM), *words.split()]
        usual = subprocess.run(call, cwd=self.top, capture_output=True)
        small = subprocess.run(call, cwd=self.top, capture_output=True, preexec_fn=small_stack)
        self.assertEqual((small.returncode, small.stdout), (usual.returncode, usual.stdout), words)
        return small.returncode

    def test_a_lock_with_the_deepest_marker(self) -> None:
        self.assertEqual(self.status("env l m.json"), 0)
        self.assertEqual(self.status("export l"), 0)
        self.assertEqual(self.status("verify p.toml ix l"), 9)
        self.assertEqual(self.status("lock p.toml ix 1 l"), 0)

    def test_a_derivation_of_the_deepest_region(self) -> None:
        call = [str(PROGRAM), "why", "none.toml", "ix", "1"]
        reason = subprocess.run(call, cwd=self.top, capture_output=True, text=True)
        self.assertIn(REGION, reason.stdout)
        self.write("d", reason.stdout.replace(REGION, f"region: {marker(LEVELS)}"))
        # The line behind the region is its world, and this region has another.
        self.assertEqual(self.status("check none.toml ix d"), 3)

    def test_a_marker_with_a_level_more_is_refused_at_its_line(self) -> None:
        deeper = marker(LEVELS + 1)
        self.write("l", LOCK.format(deeper))
        self.write("d", f"no selection serves this fork\nfork: 0\nregion: {deeper}\n")
        for words, told in [
            ("env l m.json", "malformed: l: line 8\n"),
            ("check none.toml ix d", "malformed: d: line 3\n"),
        ]:
            self.assertEqual(self.status(words), 3)
            call = [str(PROGRAM), *words.split()]
            self.assertEqual(subprocess.run(call, cwd=self.top, capture_output=True, text=True).stdout, told)

    def test_a_requirement_with_the_most_comparisons_by_two_workers(self) -> None:
        self.assertEqual(self.status("lock p.toml ix 2"), 0)
        self.assertEqual(self.status("gen 1 5 2"), 0)


if __name__ == "__main__":
    unittest.main()
