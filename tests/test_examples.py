"""What the program prints for examples/, as examples/README.md says."""

from __future__ import annotations

import subprocess
import unittest

from making import PROGRAM, TOP, Folder, want_program

EXAMPLES = TOP / "examples"
CASES = [
    ("lock pins/p.toml pins/ix 1", 0, "pins/unilock.lock"),
    ("lock web_app/pyproject.toml web_app/ix 4", 0, "web_app/unilock.lock"),
    ("env web_app/unilock.lock web_app/linux.json dev", 0, "web_app/linux.txt"),
    ("env web_app/unilock.lock web_app/windows.json", 0, "web_app/windows.txt"),
    ("lock by_python/pyproject.toml by_python/ix 1", 0, "by_python/unilock.lock"),
    ("lock review/pyproject.toml review/ix 1", 0, "review/unilock.lock"),
    ("lock kept/pyproject.toml kept/ix 1 kept/old.lock", 0, "kept/unilock.lock"),
    ("lock refused/pyproject.toml refused/ix 1", 1, "refused/lock.txt"),
    ("why refused/pyproject.toml refused/ix 1", 1, "refused/why.txt"),
    ("lock deep/fewest.toml deep/ix 1", 1, "deep/fewest.txt"),
    ("lock deep/pyproject.toml deep/ix 1", 0, "deep/unilock.lock"),
    ("export web_app/unilock.lock dev", 0, "web_app/requirements.txt"),
]


class Examples(unittest.TestCase):
    def setUp(self) -> None:
        want_program(self)

    def test_each_prints_its_file(self) -> None:
        for words, status, file in CASES:
            with self.subTest(words):
                done = subprocess.run([str(PROGRAM), *words.split()], cwd=EXAMPLES, capture_output=True, text=True)
                self.assertEqual(done.returncode, status)
                self.assertEqual(done.stdout, (EXAMPLES / file).read_text())

    def test_the_derivation_is_accepted(self) -> None:
        words = "check refused/pyproject.toml refused/ix refused/why.txt"
        done = subprocess.run([str(PROGRAM), *words.split()], cwd=EXAMPLES, capture_output=True, text=True)
        self.assertEqual((done.returncode, done.stdout), (0, "accepted\n"))

    def test_the_lock_is_verified(self) -> None:
        words = "verify web_app/pyproject.toml web_app/ix web_app/unilock.lock"
        done = subprocess.run([str(PROGRAM), *words.split()], cwd=EXAMPLES, capture_output=True, text=True)
        self.assertEqual((done.returncode, done.stdout), (0, "verified\n"))

    def test_edited_locks(self) -> None:
        for lock, status, printed in [
            ("unilock", 0, "verified\n"),
            ("pinned", 0, "verified\n"),
            ("pinned_too_far", 9, "rejected: a 1.0\n"),
            ("left_out", 9, "rejected: shop 1.0\n"),
        ]:
            with self.subTest(lock):
                words = f"verify review/pyproject.toml review/ix review/{lock}.lock"
                done = subprocess.run([str(PROGRAM), *words.split()], cwd=EXAMPLES, capture_output=True, text=True)
                self.assertEqual((done.returncode, done.stdout), (status, printed))


class InWords(Folder):
    """What the tools say of the examples, as examples/README.md has it."""

    def test_the_lock_of_web_app_is_current(self) -> None:
        want_program(self)
        self.assertEqual(
            self.printed("lock", "--check", EXAMPLES / "web_app/pyproject.toml"),
            [f"{EXAMPLES}/web_app/unilock.lock is current: 9 packages"],
        )

    def test_an_upgrade_of_kept(self) -> None:
        want_program(self)
        path = EXAMPLES / "kept/pyproject.toml"
        self.assertEqual(self.printed("lock", path, "--check"), [f"{EXAMPLES}/kept/unilock.lock is current: 1 package"])
        self.assertEqual(self.printed("lock", path, "--check", "--upgrade", status=1)[0], "a 1 -> 2")

    def test_the_refusal(self) -> None:
        want_program(self)
        said = self.printed("explain", EXAMPLES / "refused/pyproject.toml", EXAMPLES / "refused/ix")
        self.assertEqual(said[:2], [
            "No choice of versions serves the project where sys_platform == 'win32'.",
            "Such a machine: sys_platform win32.",
        ])  # fmt: skip
        for line in [
            "the project needs q at 1 (project.dependencies[0]: `q<2; sys_platform == 'win32'`).",
            "q 1 needs z (`z`), and the index has no document of z.",
        ]:
            self.assertTrue(any(it.endswith(line) for it in said), line)


if __name__ == "__main__":
    unittest.main()
