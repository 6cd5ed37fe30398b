"""Limits that take large inputs, each at its number and one past it, on the built program.

The limits of forks, of a marker's paths and of comparisons are tests of the program's own crate.
"""

from __future__ import annotations

import json
import subprocess
import unittest

from making import PROGRAM, Folder, want_program

FILE_BYTES = 16_777_216
TEXT_BYTES = 67_108_864
PROJECT = '[project]\nname = "demo"\nversion = "0.1"\ndependencies = {}\n'
# A marker with a pair of comparisons for each pair of letters. Its text in a lock has a path for each choice of one
# comparison of each pair: 1,482,776 bytes for these twelve.
PAIRS = "ab cd ef gh ij kl mn op qr st uv wx".split()
WIDE = " or ".join(f"('{one}' in os_name and '{other}' in os_name)" for one, other in PAIRS)


class Limits(Folder):
    def setUp(self) -> None:
        super().setUp()
        want_program(self)

    def project(self, *requirements: str) -> None:
        self.write("p.toml", PROJECT.format(json.dumps(requirements)))

    def document(self, name: str, *versions: object, size: int = 0) -> None:
        """A document of these versions, with blanks behind it up to a size."""
        self.write(f"ix/{name}.json", json.dumps({"name": name, "versions": versions}).ljust(size))

    def said(self, *words: str) -> tuple:
        done = subprocess.run([str(PROGRAM), *words], cwd=self.top, capture_output=True)
        return done.returncode, done.stdout

    def locked(self) -> tuple:
        return self.said("lock", "p.toml", "ix", "1")

    def assert_limit(self, name: str, number: int, said: tuple) -> None:
        self.assertEqual(said, (4, f"limit: {name} {number}\n".encode()))

    def test_an_old_lock_keeps_many_versions_of_one_name(self) -> None:
        self.write("p.toml", PROJECT.format('["a<1400"]') + '[tool.uv]\nresolution = "lowest"\n')
        self.document("a", *[{"version": str(number)} for number in range(1, 1501)])
        blocks = "".join(f'[[package]]\nname = "a"\nversion = "{number}"\n\n' for number in range(301, 1501))
        edges = 'dependencies = [\n    { name = "a", version = "1500" },\n]\n'
        root = f'[[package]]\nname = "demo"\nversion = "0.1"\n{edges}'
        self.write("old.lock", f'version = 2\nroot = "demo"\n\n{blocks}{root}')
        status, text = self.said("lock", "p.toml", "ix", "1", "old.lock")
        self.assertEqual(status, 0)
        self.assertIn(b'name = "a"\nversion = "1399"\n', text)

    def test_packages(self) -> None:
        self.project("a==1")
        for more, is_past in ((19_998, False), (19_999, True)):
            names = [f"n{place}" for place in range(more)]
            self.document("a", {"version": "1"}, {"version": "2", "requires_dist": names})
            said = self.locked()
            if is_past:
                self.assert_limit("packages", 20_000, said)
            else:
                self.assertEqual(said[0], 0)

    def test_releases(self) -> None:
        self.project("a")
        self.document("a", {"version": "1"}, *[{"version": "!"}] * 199_999)
        self.assertEqual(self.locked()[0], 0)
        self.document("a", {"version": "1"}, *[{"version": "!"}] * 200_000)
        self.assert_limit("releases", 200_000, self.locked())

    def test_bytes_of_a_file_and_of_all_documents(self) -> None:
        names = [f"a{place}" for place in range(16)]
        for name in names:
            self.document(name, {"version": "1"}, size=FILE_BYTES)
        self.document("more", {"version": "1"})
        self.project(*names)
        self.assertEqual(self.locked()[0], 0)
        self.project(*names, "more")
        self.assert_limit("total-bytes", 268_435_456, self.locked())
        self.document("a15", {"version": "1"}, size=FILE_BYTES + 1)
        self.assert_limit("file-bytes", FILE_BYTES, self.locked())

    def test_bytes_of_a_project_file(self) -> None:
        self.write("p.toml", PROJECT.format("[]").ljust(FILE_BYTES))
        self.assertEqual(self.locked()[0], 0)
        self.write("p.toml", PROJECT.format("[]").ljust(FILE_BYTES + 1))
        self.assert_limit("file-bytes", FILE_BYTES, self.locked())

    def test_bytes_of_a_lock_that_is_printed(self) -> None:
        names = [f"p{place}" for place in range(46)]
        for name in names:
            self.document(name, {"version": "1"})
        self.project(*[f"{name}; {WIDE}" for name in names[:45]])
        status, text = self.locked()
        self.assertEqual((status, text.count(b"marker = ")), (0, 45))
        self.assertLess(TEXT_BYTES - len(text), len(text) // 45)
        self.project(*[f"{name}; {WIDE}" for name in names])
        self.assert_limit("text-bytes", TEXT_BYTES, self.locked())

    def test_bytes_of_a_lock_and_of_a_derivation_that_are_read(self) -> None:
        self.project()
        for path, words in (("l", "export l"), ("d", "check p.toml ix d")):
            self.write(path, " " * TEXT_BYTES)
            self.assertEqual(self.said(*words.split()), (3, f"malformed: {path}: line 1\n".encode()))
            self.write(path, " " * (TEXT_BYTES + 1))
            self.assert_limit("text-bytes", TEXT_BYTES, self.said(*words.split()))


if __name__ == "__main__":
    unittest.main()
