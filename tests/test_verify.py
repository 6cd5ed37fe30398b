"""tools/verify, and `tools/explain --from` of a verdict: a lock that is rejected, in words; files that aren't the
index's; locks that editors and merges have changed."""

from __future__ import annotations

import unittest
from typing import Any, Dict, List

from making import SUM, TOP, Folder, document, want_program
from unilock_tools import locks

REVIEW = TOP / "examples" / "review"
PROJECT = '[project]\nname = "demo"\nversion = "0.1"\nrequires-python = ">=3.9"\n'


class Verified(Folder):
    def made(self, dependencies: str, more: str = "", **index: List[Dict[str, Any]]) -> None:
        """A project with its index folder and its lock."""
        want_program(self)
        self.write("pyproject.toml", f"{PROJECT}dependencies = [{dependencies}]\n{more}")
        for name, releases in index.items():
            self.write(f"ix/{name}.json", document(name, *releases))
        self.ran("lock")
        self.lock = self.top / "unilock.lock"
        self.text = self.lock.read_text()

    def said(self, status: int = 9) -> List[str]:
        return self.printed("verify", "pyproject.toml", "ix", "unilock.lock", status=status)

    def test_the_example(self) -> None:
        want_program(self)
        for name, status, said in [
            ("pinned", 0, "verified"),
            ("pinned_too_far", 9, "a 1.0: a 1.0 requires `c<2`, and on Linux, Python 3.12.0 the lock gives c 2.0"),
            ("left_out", 9, "shop 1.0: the project requires `b; sys_platform == 'win32'` (project.dependencies[1]), "
             "and on Windows, Python 3.12.0 the lock gives it no b"),
        ]:  # fmt: skip
            lines = self.printed(
                "verify", REVIEW / "pyproject.toml", REVIEW / "ix", REVIEW / f"{name}.lock", status=status
            )
            self.assertEqual(lines, [said if status == 0 else f"rejected: {said}"])

    def test_what_is_behind_a_verdict(self) -> None:
        releases = [{"version": "1"}, {"version": "2"}, {"version": "3rc1"}, {"version": "4", "yanked": "leaks"}]
        self.made('"a<3", "b"', a=releases, b=[{"version": "1", "requires_python": ">=3.9"}])
        for version, said in [
            ("3rc1", "a 3rc1 is a pre-release, and no requirement of the project names one"),
            ("4", "a 4 is yanked (leaks), and the project doesn't ask for `==4`"),
            ("5", "the index has no release a 5 that can be used"),
        ]:
            text = self.text.replace('name = "a"\nversion = "2"', f'name = "a"\nversion = "{version}"')
            self.lock.write_text(text.replace('name = "a", version = "2"', f'name = "a", version = "{version}"'))
            self.assertEqual(self.said(), [f"rejected: a {version}: {said}"])
        self.lock.write_text(self.text)
        self.write("ix/b.json", document("b", {"version": "1", "requires_python": ">=3.11"}))
        self.assertEqual(
            self.said(), ["rejected: b 1: b 1 needs Python `>=3.11`, and on Linux, Python 3.9.0 the lock gives it"]
        )
        (self.top / "ix" / "b.json").unlink()
        self.assertEqual(self.said(), ["rejected: b 1: the index has no document of b"])

    def test_what_the_project_changed(self) -> None:
        self.made('"a"', a=[{"version": "1"}, {"version": "2"}], b=[{"version": "1"}])
        for dependencies, more, said in [
            ('"a", "b"', "", "demo 0.1: the project requires `b` (project.dependencies[1]), and on Linux, Python "
             "3.12.0 the lock gives it no b"),
            ("", "", "a 2: the project doesn't require a on Linux, Python 3.12.0, and the lock gives it a 2"),
            ('"a<2"', "", "demo 0.1: the project requires `a<2` (project.dependencies[0]), and on Linux, Python 3.12.0 "
             "the lock gives a 2"),
            ('"a"', '[tool.uv]\nconstraint-dependencies = ["a<2"]\n',
             "demo 0.1: the project allows `a<2` alone (tool.uv.constraint-dependencies[0]), and the lock gives a 2"),
            ('"a"', '[project.optional-dependencies]\nx = ["b"]\n', "root: the lock has no extra x of the project"),
            ('"a"', "[tool.uv]\nenvironments = [\"sys_platform == 'linux'\"]\n", "supported: the project supports "
             "Python `>=3.9` and sys_platform == 'linux', and the lock is made for python_full_version >= '3.9.0'"),
        ]:  # fmt: skip
            with self.subTest(said):
                self.write("pyproject.toml", f"{PROJECT}dependencies = [{dependencies}]\n{more}")
                self.assertEqual(self.said(), [f"rejected: {said}"])

    def test_files_that_are_not_the_index_s(self) -> None:
        files = [{"file": "a-1-py3-none-any.whl", "sha256": SUM.upper()}, {"file": "a-1.tar.gz", "sha256": SUM}]
        self.made('"a"', a=[{"version": "1", "files": files}])
        self.assertEqual(self.said(0), ["verified, and all its files are the index's (2)"])
        forged = self.text.replace(f'whl", hash = "sha256:{SUM}"', f'whl", hash = "sha256:{SUM[::-1]}"')
        self.lock.write_text(forged)
        fault = "a 1: hash of a-1-py3-none-any.whl isn't the index's"
        self.assertEqual(self.said(), [fault, "verified, but for its files"])
        self.assertEqual(self.printed("lock", "--check", status=1)[-1], "unilock.lock is not current: 1 package")
        self.lock.write_text(self.text.replace("a-1.tar.gz", "a-1.zip"))
        self.assertEqual(self.said()[0], "a 1: the index has no file a-1.zip")
        # A forged hash becomes the document's, and a new wheel of a locked release joins its files.
        self.lock.write_text(forged)
        self.write("ix/a.json", document("a", {"version": "1", "files": [*files, {"file": "z.whl", "sha256": SUM}]}))
        self.ran("lock")
        self.assertEqual(
            [it for it, _ in locks.load(str(self.lock)).package("a", "1").files],
            ["a-1-py3-none-any.whl", "a-1.tar.gz", "z.whl"],
        )
        self.assertNotIn(SUM[::-1], self.lock.read_text())
        self.assertEqual(self.said(0), ["verified, and all its files are the index's (3)"])

    def test_a_verdict_is_explained(self) -> None:
        self.made('"a"', a=[{"version": "1"}])
        self.write("pyproject.toml", f"{PROJECT}dependencies = []\n")
        said = self.ran("explain", "--from", "-", into="rejected: a 1\n").stdout
        self.assertTrue(said.startswith("rejected: a 1: the project doesn't require a on Linux"), said)
        self.assertEqual(self.ran("explain", "--from", "-", into="verified\n").stdout,
                         "Nothing is rejected: the lock is right.\n")  # fmt: skip

    def test_a_fault_of_a_lock_says_what_was_expected_there(self) -> None:
        files = [{"file": "a.whl", "sha256": SUM}]
        self.made('"a"', a=[{"version": "1", "files": files}], more="[dependency-groups]\nt = []\n")
        for old, new, line, expected in [
            ('    { file = "a.whl"', '    { flie = "a.whl"', 9, 'expected: { file = "FILE", hash = "sha256:HEX" },'),
            ('    { name = "a"', '    { nmae = "a"', 16, 'expected: { name = "NAME", version = "VERSION" },'),
            ("dependencies = [", "dependencise = [", 15, "expected: name, version, files, dependencies"),
            ("supported-markers", "supported-marker", 3, 'expected: root = "NAME", supported-markers'),
            ("group-t = []", "group-t = [],", 20, "expected: NAME = [, NAME = [] or the next [[package]]"),
            ('    { file = "a.whl"', '    { file = "b.whl", hash = "sha256:' + SUM + '" },\n    { file = "a.whl"', 10,
             "not in this order"),
        ]:  # fmt: skip
            with self.subTest(expected):
                self.assertIn(old, self.text)
                self.lock.write_text(self.text.replace(old, new, 1))
                done = self.ran("lock", "--check", status=3)
                self.assertIn(f"malformed: unilock.lock: line {line}\n", done.stderr)
                self.assertIn(expected, done.stderr)
        self.lock.write_text(self.text[:-20])
        self.assertIn("line", self.ran("lock", "--check", status=3).stderr)


class Changed(Folder):
    """Locks that an editor, a checkout or a merge has changed."""

    def setUp(self) -> None:
        super().setUp()
        want_program(self)
        self.write("pyproject.toml", f'{PROJECT}dependencies = ["a"]\n')
        self.write("ix/a.json", document("a", {"version": "1"}))
        self.ran("lock")
        self.lock = self.top / "unilock.lock"
        self.body = self.lock.read_bytes()

    def test_other_line_ends_and_a_byte_order_mark_are_read_and_put_right(self) -> None:
        changed = b"\xef\xbb\xbf" + self.body.replace(b"\n", b"\r\n")
        self.lock.write_bytes(changed)
        for words in [("requirements", "--no-hashes", "unilock.lock"), ("tree", "unilock.lock")]:
            done = self.ran(*words)
            self.assertIn("unilock.lock: its byte order mark is passed over\n", done.stderr)
            self.assertIn("unilock.lock: its line ends CR LF are read as LF\n", done.stderr)
            self.assertIn("a", done.stdout)
        self.assertEqual(self.printed("verify", "pyproject.toml", "ix", "unilock.lock"), ["verified"])
        self.ran("lock", "--check", status=1)
        self.assertEqual(self.lock.read_bytes(), changed)
        self.ran("lock")
        self.assertEqual(self.lock.read_bytes(), self.body)
        self.lock.write_bytes(changed.replace(b"dependencies", b"dependencise"))
        self.assertIn("lock: malformed: unilock.lock: line", self.ran("lock", status=3).stderr.split("LF\n")[1])

    def test_a_merge_conflict_is_named(self) -> None:
        text = self.body.decode()
        edge = '    { name = "a", version = "1" },\n'
        conflict = f"<<<<<<< HEAD\n{edge}=======\n{edge.replace('1', '2')}>>>>>>> branch\n"
        self.lock.write_text(text.replace(edge, conflict))
        line = text.split("\n").index(edge.rstrip("\n")) + 1
        for words in [("lock",), ("lock", "--check"), ("verify", "pyproject.toml", "ix", "unilock.lock")]:
            status = 3
            self.assertIn(f"line {line}", self.ran(*words, status=status).stderr)
        self.assertIn("a merge conflict stands there; take one side (`git checkout --ours unilock.lock` or",
                      self.ran("lock", status=3).stderr)  # fmt: skip
        self.assertIn("merge conflict", self.ran("tree", "unilock.lock", status=3).stderr)
        self.ran("lock", "--upgrade")
        self.assertEqual(self.lock.read_bytes(), self.body)

    def test_a_file_that_is_no_lock_is_never_written_over(self) -> None:
        uv = 'version = 1\nrequires-python = ">=3.9"\n\n[[package]]\nname = "a"\nversion = "1"\n'
        for name, text in [("pyproject.toml", None), ("uv.lock", uv), ("notes.txt", "notes\n"), ("x.lock", "[a]\n")]:
            if text is not None:
                self.write(name, text)
            before = (self.top / name).read_bytes()
            for more in ["", "--upgrade", "--check", "--quiet"]:
                said = self.ran("lock", "-o", name, *more.split(), status=3).stderr
                self.assertTrue(said.startswith(f"lock: {name} isn't a lock of unilock: it begins with "), said)
                self.assertNotIn("--upgrade makes", said)
                self.assertEqual((self.top / name).read_bytes(), before)


if __name__ == "__main__":
    unittest.main()
