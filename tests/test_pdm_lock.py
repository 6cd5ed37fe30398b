"""tools/judge on `pdm.lock`: one that PDM 2.2 wrote, and others of its form; each key is read, passed over or keeps the
lock from being judged. tests/data/locks has the project, the documents and the lock."""

from __future__ import annotations

import shutil
import unittest

from making import TOP
from test_judge import Judging
from unilock_tools import locks, pdm_lock

DATA = TOP / "tests" / "data" / "locks"
PROJECT = (DATA / "pdm" / "pyproject.toml").read_text()
LOCK = (DATA / "pdm" / "pdm.lock").read_text()
RIGHT = "pdm.lock is right in every environment that the project supports (6 packages)\n"
F = 'name = "f"\nversion = "1.0"\n'
VERSION = 'lock_version = "4.0"\n'
UNREAD = [
    (VERSION, 'lock_version = "5.0"\n', "it is of lock version '5.0', which isn't read"),
    (VERSION, 'lock_version = "4.4"\n', "it is made for the platform alone on which it was locked"),
    (VERSION, 'lock_version = "4.5.0"\nstrategy = ["inherit_metadata"]\n', "it is made for the platform alone"),
    (VERSION, f'{VERSION}strategy = ["new"]\n', "its strategy 'new' isn't read"),
    (VERSION, f'{VERSION}targets = [{{ requires_python = ">=3.8", platform = "linux" }}]\n',
     "`metadata.targets[0].platform` isn't read"),
    (VERSION, f'{VERSION}targets = [{{ requires_python = "3" }}]\n', "metadata.targets[0]: `3` isn't an operator"),
    (VERSION, f'{VERSION}groups = ["default", "docs"]\n', "the group 'docs' is none of the project's"),
    (VERSION, f"{VERSION}new = 1\n", "`metadata.new` isn't read"),
    ("[metadata]\n", "[new]\n[metadata]\n", "`new` isn't read"),
    (F, f"{F}new = 1\n", "`f 1.0.new` isn't read"),
    (F, 'name = "f"\n', "f has no version"),
    (F, 'name = "a"\nversion = "1.0"\n', "it has a 1.0 twice"),
    (F, 'name = "c"\nversion = "1.0"\n', "c is locked as 2.0 and 1.0, and more than one of them would do"),
    (F, f"{F}marker = 'os_name'\n", "f 1.0.marker has no reading"),
    ('"c>=1"', '"c @ https://x.org/c.whl"', "a 1.0: `c @ https://x.org/c.whl`: a URL isn't supported"),
    ('"c>=1"', "1", "a 1.0.dependencies[0] isn't a text"),
    ('{url = "http://127.0.0.1/files/f-', '{new = 1, url = "http://127.0.0.1/files/f-',
     "`metadata.files.f 1.0[0].new` isn't read"),
]  # fmt: skip
PASSED_OVER = [
    (VERSION, 'lock_version = "4.4"\nstrategy = ["cross_platform", "static_urls", "direct_minimal_versions"]\n'),
    (VERSION, 'lock_version = "4.5.0"\ntargets = [{ requires_python = ">=3.8,<4.0" }]\ngroups = ["default", "more"]\n'),
    (VERSION, 'lock_version = "4.5.0"\n'
     'targets = [{ requires_python = "<3.10,>=3.8" }, { requires_python = ">=3.10,<4" }]\n'),
    (F, 'name = "F"\nversion = "1.0.0"\nref = "r"\nrevision = "r"\neditable = false\nsubdirectory = "s"\n'),
    (F, f'{F}requires_python = ">=3.7"\nfiles = [{{ file = "f.whl", hash = "md5:0" }}]\n'),
]  # fmt: skip
WRONG = [
    ('"d; sys_platform == \\"win32\\""', '"d; sys_platform == \\"win32\\" and python_version >= \\"3.9\\""',
     "a 1.0: a 1.0 requires `d ; sys_platform == 'win32'`, and on Windows, Python 3.8.0 the lock gives it no d"),
    ('name = "a"\nversion = "1.0"', 'name = "a"\nversion = "2.0"',
     "a 2.0: a 2.0 doesn't require d on Windows, Python 3.12.0, and the lock gives it d 1.0"),
    ('    "f>=1",\n', "",
     "e 1.0: e 1.0 requires `f (>=1) ; extra == 'x'`, and on Linux, Python 3.12.0 the lock gives it no f"),
    ('    "c>=1",\n', '    "c>=1",\n    "g",\n', "a 1.0: a 1.0 doesn't require g on Linux, Python 3.12.0, and the lock "
     "gives it g 1.0"),
    (F, 'name = "z"\nversion = "1.0"\n', "e 1.0: e 1.0 requires `f (>=1) ; extra == 'x'`, and on Linux, Python 3.12.0 "
     "the lock gives it no f"),
]  # fmt: skip
# With the strategy `inherit_metadata`: by groups, where each package is installed.
E_MARKER = "sys_platform == 'linux' or python_version < '3.10'"
ROWS = f"""[metadata]
groups = ["default", "dev", "more"]
strategy = ["inherit_metadata"]
lock_version = "4.5.0"
content_hash = "sha256:0"

[[metadata.targets]]
requires_python = ">=3.8,<4.0"

[[package]]
name = "a"
version = "1.0"
groups = ["default"]

[[package]]
name = "c"
version = "2.0"
groups = ["default", "more"]

[[package]]
name = "d"
version = "1.0"
groups = ["default"]
marker = "sys_platform == 'win32'"

[[package]]
name = "d"
version = "1.0"
extras = ["none"]
groups = ["dev"]

[[package]]
name = "e"
version = "1.0"
groups = ["default"]
marker = "{E_MARKER}"

[[package]]
name = "e"
version = "1.0"
extras = ["x"]
groups = ["default"]
marker = "{E_MARKER}"

[[package]]
name = "f"
version = "1.0"
groups = ["default"]
marker = "{E_MARKER}"

[[package]]
name = "g"
version = "1.0"
groups = ["more"]
"""
ROWS_WRONG = [
    ('extras = ["none"]\ngroups = ["dev"]\n', 'extras = ["none"]\ngroups = ["default"]\n',
     "d 1.0 is installed on Linux, Python 3.12.0, where nothing requires it"),
    ('name = "g"\nversion = "1.0"\ngroups = ["more"]', 'name = "g"\nversion = "1.0"\ngroups = ["default"]',
     "g 1.0 is installed on Linux, Python 3.12.0, where nothing requires it"),
    (f'{F}groups = ["default"]\n', f'{F}groups = ["dev"]\n', "f 1.0 isn't installed on Linux, Python 3.12.0, where it "
     "is required"),
]  # fmt: skip


class PdmLock(Judging):
    def setUp(self) -> None:
        super().setUp()
        self.write("pyproject.toml", PROJECT)
        shutil.copytree(DATA / "ix", self.top / "ix")

    def said(self, text: str, status: int = 0, *words: str) -> str:
        self.write("pdm.lock", text)
        return self.judged("pdm.lock", *words, status=status)

    def changed(self, text: str, old: str, new: str) -> str:
        self.assertEqual(text.count(old), 1, old)
        return text.replace(old, new)

    def test_a_lock_that_pdm_wrote(self) -> None:
        self.assertEqual(self.said(LOCK, 0, "-o", "kept.lock"), RIGHT)
        self.assertEqual([it for it, _ in locks.load(str(self.top / "kept.lock")).package("f", "1.0").files],
                         ["f-1.0-py3-none-any.whl"])  # fmt: skip

    def test_each_key_that_is_passed_over_changes_nothing(self) -> None:
        for old, new in PASSED_OVER:
            with self.subTest(new):
                self.assertEqual(self.said(self.changed(LOCK, old, new)), RIGHT)

    def test_each_key_that_is_not_read_keeps_the_lock_from_being_judged(self) -> None:
        for old, new, told in UNREAD:
            with self.subTest(new):
                found = self.said(self.changed(LOCK, old, new), 3)
                self.assertTrue(found.startswith("pdm.lock can't be judged: "), found)
                self.assertIn(told, found)

    def test_no_key_is_left_out_of_the_tables(self) -> None:
        rows = "".join(f"{old}{new}" for old, new in PASSED_OVER) + LOCK + ROWS
        for known in ["PACKAGE", "METADATA", "STRATEGIES", "ORIGIN"]:
            for key in getattr(pdm_lock, known):
                self.assertIn(key, rows)

    def test_what_is_wrong(self) -> None:
        for old, new, told in WRONG:
            with self.subTest(new):
                self.assertEqual(self.said(self.changed(LOCK, old, new), 1), f"pdm.lock is wrong: {told}\n")

    def test_where_a_package_comes_from(self) -> None:
        git = self.changed(LOCK, F, f'{F}git = "https://x.org/f"\n')
        self.assertEqual(self.said(git), RIGHT)
        (self.top / "ix" / "f.json").unlink()
        self.assertIn("no document of f, which it takes from git https://x.org/f", self.said(git, 3))

    def test_groups_that_the_standard_tables_do_not_have(self) -> None:
        self.write("pyproject.toml", PROJECT.replace('\n[dependency-groups]\ndev = ["d"]\n', ""))
        self.assertIn("the group 'dev' is none of the project's [dependency-groups]", self.said(LOCK, 3))

    def test_a_lock_of_rows(self) -> None:
        self.assertEqual(self.said(ROWS), RIGHT)
        for old, new, told in ROWS_WRONG:
            with self.subTest(new):
                self.assertIn(f"pdm.lock is wrong: {told}", self.said(self.changed(ROWS, old, new), 1))
        git = self.changed(ROWS, F, f'{F}git = "https://x.org/f"\n')
        self.assertIn("the lock takes f 1.0 from git https://x.org/f", self.said(git, 3))
        narrow = self.changed(ROWS, '">=3.8,<4.0"', '">=3.9,<4.0"')
        self.assertIn("the lock is made for python_full_version >= '3.9.0'", self.said(narrow, 1))


if __name__ == "__main__":
    unittest.main()
