"""The program's `main`, on the built program: which words it hands on, which files it reads, and each status.

No clause says what `main` does with the words and with the status of `run`, nor what the system says of a file: these
rows are what sees it.
"""

from __future__ import annotations

import os
import resource
import subprocess
import unittest

from making import PROGRAM, TOP, Folder, want_program

EXAMPLES = TOP / "examples"
USAGE = "usage: unilock lock|why|env|check|gen|export|verify WORDS\n"
# Words, the status and what is printed, in the folder of the examples.
ROWS = [
    ("gen 1 5 1", 0, None),
    ("lock refused/pyproject.toml refused/ix 1", 1, None),
    ("", 2, USAGE),
    ("lock pins/p.toml pins/ix 1 a b", 2, USAGE),
    ("lock pins/unilock.lock pins/ix 1", 3, None),
    ("lock pins/p.toml/p.toml pins/ix 1", 5, "read fault: pins/p.toml/p.toml\n"),
    ("env pins/unilock.lock web_app/linux.json none", 8, "extra: none\n"),
    ("check web_app/pyproject.toml web_app/ix refused/why.txt", 9, None),
]
# Less memory than the program wants for a lock, and enough to begin.
LITTLE = 16 * 1024 * 1024


class Main(Folder):
    def setUp(self) -> None:
        super().setUp()
        want_program(self)

    def run_by(self, words: list, **how: object) -> subprocess.CompletedProcess:
        return subprocess.run([PROGRAM, *words], cwd=EXAMPLES, stderr=subprocess.PIPE, **how)

    def test_each_status(self) -> None:
        for words, status, printed in ROWS:
            with self.subTest(words):
                done = self.run_by(words.split(), stdout=subprocess.PIPE, text=True)
                self.assertEqual((done.returncode, done.stderr), (status, ""))
                if printed is not None:
                    self.assertEqual(done.stdout, printed)

    def test_an_empty_file_is_there(self) -> None:
        documents = self.write("ix/q.json", "").parent
        project = self.write("p.toml", '[project]\nname = "demo"\nversion = "0.1"\ndependencies = ["q"]\n')
        done = self.run_by(["lock", str(project), str(documents), "1"], stdout=subprocess.PIPE, text=True)
        self.assertEqual((done.returncode, done.stdout), (3, f"malformed: {documents}/q.json: not JSON\n"))
        (documents / "q.json").unlink()
        done = self.run_by(["lock", str(project), str(documents), "1"], stdout=subprocess.PIPE, text=True)
        self.assertEqual(done.returncode, 1)
        (documents / "q.json").mkdir()
        done = self.run_by(["lock", str(project), str(documents), "1"], stdout=subprocess.PIPE, text=True)
        self.assertEqual((done.returncode, done.stdout), (5, f"read fault: {documents}/q.json\n"))

    def test_a_limit(self) -> None:
        project = self.write("p.toml", "#" * 17_000_000)
        done = self.run_by(["lock", str(project), "pins/ix", "1"], stdout=subprocess.PIPE, text=True)
        self.assertEqual((done.returncode, done.stdout[:7]), (4, "limit: "))

    def test_a_write_that_fails(self) -> None:
        with open("/dev/full", "wb") as full:
            self.assertEqual(self.run_by(["gen", "1", "5", "1"], stdout=full).returncode, 6)

    def test_memory_that_runs_out(self) -> None:
        def limit() -> None:
            resource.setrlimit(resource.RLIMIT_DATA, (LITTLE, LITTLE))

        done = self.run_by(["gen", "7", "2000", "1"], stdout=subprocess.PIPE, preexec_fn=limit)
        self.assertEqual((done.returncode, done.stdout), (7, b""))

    def test_words_that_are_no_text(self) -> None:
        done = self.run_by([b"gen", b"1", b"5", os.fsencode("\udcff")], stdout=subprocess.PIPE, text=True)
        self.assertEqual((done.returncode, done.stdout), (2, USAGE))

    def test_words_are_handed_on_in_their_order(self) -> None:
        one, other = (self.run_by(["gen", "1", size, "1"], stdout=subprocess.PIPE).stdout for size in ("5", "50"))
        self.assertNotEqual(one, other)
        self.assertTrue(other.startswith(b"packages "), other)


if __name__ == "__main__":
    unittest.main()
