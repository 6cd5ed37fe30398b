"""tools/add and tools/remove: the project file changes with its comments kept, and only where it is locked."""

from __future__ import annotations

import importlib.util
import sys
import unittest
from unittest import mock

from making import Folder, document, skip, want_program

TEXT = """# The shop.
[project]
name = "demo"   # never rename
version = "0.1"
requires-python = ">=3.9"
dependencies = [
    "a<2",  # 2 breaks us
    # the rest
    "B_b; sys_platform == 'win32'",
]

[tool.other]
keep = 1  # this too
"""


class Edited(Folder):
    def setUp(self) -> None:
        super().setUp()
        if importlib.util.find_spec("tomlkit") is None:
            skip(self, "tomlkit isn't installed")
        want_program(self)
        self.path = self.write("pyproject.toml", TEXT)
        self.path.chmod(0o640)
        for name, versions in [("a", ["1", "2"]), ("b-b", ["1"]), ("c", ["1", "2"])]:
            self.write(f"ix/{name}.json", document(name, *({"version": it} for it in versions)))
        self.lock = self.top / "unilock.lock"

    def test_a_requirement_is_added_with_comments_kept(self) -> None:
        said = self.printed("add", "c>=2", "b_b")
        self.assertEqual(said[:3], [
            "project.dependencies: `c>=2` added", "project.dependencies: `b_b` added", "added a 1",
        ])  # fmt: skip
        self.assertEqual(said[-1], "unilock.lock is written: 3 packages")
        rest = "    \"B_b; sys_platform == 'win32'\",\n"
        self.assertEqual(self.path.read_text(), TEXT.replace(rest, f'{rest}    "c>=2",\n    "b_b",\n'))
        self.assertEqual(self.path.stat().st_mode & 0o777, 0o640)

    def test_one_with_the_same_name_and_marker_is_replaced(self) -> None:
        self.ran("lock")
        said = self.printed("add", "A>=2", 'b-b==1 ; sys_platform == "win32"')
        self.assertEqual(said[0], "project.dependencies: `A>=2` in place of `a<2`")
        self.assertIn("a 1 -> 2", said[2])
        self.assertIn('    "A>=2",  # 2 breaks us\n', self.path.read_text())
        self.ran("lock", "--check")

    def test_on_a_refusal_both_files_stay(self) -> None:
        self.ran("lock")
        before = self.lock.read_bytes()
        done = self.ran("add", "c>=3", status=1)
        self.assertEqual(done.stdout, "")
        self.assertIn("no version of c meets `>=3`: the index has 1 or 2", done.stderr)
        self.assertIn('    "c>=2",\n', done.stderr)
        self.assertEqual((self.path.read_text(), self.lock.read_bytes()), (TEXT, before))

    def test_a_name_that_the_index_does_not_have(self) -> None:
        said = self.ran("add", "moto", status=1).stderr
        self.assertIn("add: ix has no document of moto; --frozen writes pyproject.toml alone; then `tools/index", said)
        self.assertEqual(self.path.read_text(), TEXT)
        self.ran("add", "--frozen", "moto")
        self.assertIn('    "moto",\n', self.path.read_text())
        self.assertFalse(self.lock.exists())

    def test_groups_and_extras(self) -> None:
        self.assertEqual(self.printed("add", "--group", "Test", "c")[0], "dependency-groups.test: `c` added")
        self.assertEqual(self.printed("add", "--optional", "fast", "c<2")[0],
                         "project.optional-dependencies.fast: `c<2` added")  # fmt: skip
        text = self.path.read_text()
        self.assertIn('[dependency-groups]\ntest = ["c"]\n', text)
        self.assertIn('[project.optional-dependencies]\nfast = ["c<2"]\n', text)
        self.assertIn("# this too", text)
        self.ran("lock", "--check")
        self.ran("remove", "--group", "test", "C")
        self.assertIn("test = []\n", self.path.read_text())
        self.ran("lock", "--check")

    def test_a_requirement_is_removed(self) -> None:
        self.ran("lock")
        said = self.printed("remove", "b.b")
        self.assertEqual(said[:2], [
            "project.dependencies: `B_b; sys_platform == 'win32'` removed", "removed b-b 1",
        ])  # fmt: skip
        text = self.path.read_text()
        self.assertNotIn("B_b", text)
        for kept in ["# The shop.", "# never rename", "# 2 breaks us", "# this too"]:
            self.assertIn(kept, text)
        self.ran("lock", "--check")

    def test_a_name_that_is_not_there(self) -> None:
        self.ran("add", "--group", "test", "c")
        said = self.ran("remove", "c", status=3).stderr
        self.assertIn("project.dependencies has no requirement on c; it is in dependency-groups.test[0]\n", said)

    def test_a_text_that_is_no_requirement(self) -> None:
        for text, said in [("c=2", "is `c==2` meant?"), ("c^1.2", "is `c>=1.2,<2` meant?"), ("c; os > 'x'", "`os`")]:
            self.assertIn(said, self.ran("add", text, status=2).stderr)
        self.assertEqual(self.path.read_text(), TEXT)

    def test_the_entry_scripts(self) -> None:
        self.assertIn("usage: add", self.ran("add", "--help", python=sys.executable).stdout)
        self.assertIn("usage: remove", self.ran("remove", "--help", python=sys.executable).stdout)


class WithoutTheLibrary(Folder):
    def test_what_to_do_is_said(self) -> None:
        self.write("pyproject.toml", TEXT)
        with mock.patch.dict(sys.modules, {"tomlkit": None, "pip._vendor.tomlkit": None}):
            said = self.ran("add", "c", status=3).stderr
        told = "the library tomlkit isn't installed; `pip install tomlkit` installs it; without it"
        self.assertEqual(said, f"add: {told}, change pyproject.toml by hand and then run `tools/lock`\n")


if __name__ == "__main__":
    unittest.main()
