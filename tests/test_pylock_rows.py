"""tools/judge on `pylock.toml` (PEP 751): rows by extras and groups; what `tools/pylock` writes; each key."""

from __future__ import annotations

import unittest

from making import SUM, document
from test_judge import Judging
from unilock_tools import pylock_rows

PROJECT = """[project]
name = "demo"
version = "0.1"
requires-python = ">=3.9"
dependencies = ["a; python_version < '3.11'", "b[x]>=1"]
[project.optional-dependencies]
more = ["c"]
[dependency-groups]
dev = ["c; sys_platform == 'win32'"]
"""
LOCK = f"""lock-version = "1.0"
environments = ["python_version >= '3.9'"]
requires-python = ">=3.9"
extras = ["more"]
dependency-groups = ["dev"]
default-groups = []
created-by = "a test"

[[packages]]
name = "a"
version = "1.0"
marker = "python_full_version < '3.11'"
wheels = [
    {{ name = "a-1.0-py3-none-any.whl", url = "https://x.org/a-1.0.whl", size = 7, hashes = {{ sha256 = "{SUM}" }} }},
]

[[packages]]
name = "b"
version = "1.0"
sdist = {{ url = "https://x.org/b-1.0.tar.gz", upload-time = 2025-01-01T00:00:00Z, hashes = {{ sha256 = "{SUM}" }} }}

[[packages]]
name = "c"
version = "1.0"
marker = "'more' in extras or ('dev' in dependency_groups and sys_platform == 'win32')"

[[packages]]
name = "demo"
directory = {{ path = "." }}

[[packages]]
name = "e"
version = "1"
marker = "sys_platform == 'linux'"
"""
RIGHT = "pylock.toml is right in every environment that the project supports (4 packages)\n"
C = "'more' in extras or ('dev' in dependency_groups and sys_platform == 'win32')"
UNREAD = [
    ('lock-version = "1.0"', 'lock-version = "2.0"', "it is of lock version '2.0', which isn't read"),
    ('created-by = "a test"', "new = 1", "`new` isn't read"),
    ('name = "a"\n', 'name = "a"\nnew = 1\n', "`a 1.0.new` isn't read"),
    ('name = "a"\nversion = "1.0"\n', 'name = "a"\n', "a has no version"),
    ('name = "a"\n', 'name = "a"\nvcs = { type = "git" }\n', "the lock takes a 1.0 from vcs {'type': 'git'}"),
    ("size = 7", "new = 7", "`a 1.0.wheels[0].new` isn't read"),
    ('requires-python = ">=3.9"', 'requires-python = "3"', "requires-python: `3` isn't an operator"),
    ("python_version >= '3.9'", "python_version", "environments has no reading"),
    ('extras = ["more"]', 'extras = ["most"]', "it is for most, which the project hasn't"),
    (C, "'more' not in extras", "c 1.0: a marker that asks for several extras at once can't be said"),
    (C, "'more' in extras and 'dev' in dependency_groups", "several extras at once"),
    (C, "extra == 'more'", "c 1.0.marker: `extra` has no meaning in this file"),
    (C, "'more' in os", "c 1.0.marker has no reading"),
    (C, "more @", "c 1.0.marker: the marker isn't read from `@`"),
]
WRONG = [
    (C, "'more' in extras", "c 1.0 isn't installed on Windows, Python 3.12.0 with group-dev, where it is required"),
    (C, "'nothing' in extras", "demo 0.1: the project requires `c` (project.optional-dependencies.more[0])"),
    (C, "'more' in extras or 'dev' in dependency_groups",
     "c 1.0 is installed on Linux, Python 3.12.0 with group-dev, where nothing requires it"),
    (C, "os_name == 'nt' or 'more' in extras",
     "c 1.0 is installed on Windows, Python 3.12.0, where nothing requires it"),
    ("\"sys_platform == 'linux'\"", "\"sys_platform == 'win32'\"", "b 1.0: b 1.0 requires `e; extra == 'x' and "
     "sys_platform == 'linux'`, and on Linux, Python 3.12.0 the lock gives it no e"),
]  # fmt: skip


class PylockRows(Judging):
    def setUp(self) -> None:
        super().setUp()
        self.write("pyproject.toml", PROJECT)
        b = {"version": "1.0", "requires_dist": ["e; extra == 'x' and sys_platform == 'linux'"]}
        files = [{"file": "a.whl", "sha256": SUM, "url": "https://x.org/a.whl"}]
        self.write("ix/a.json", document("a", {"version": "1.0", "files": files}))
        self.write("ix/b.json", document("b", b))
        self.write("ix/c.json", document("c", {"version": "1.0"}))
        self.write("ix/e.json", document("e", {"version": "1"}))

    def said(self, text: str, status: int = 0, *words: str) -> str:
        self.write("pylock.toml", text)
        return self.judged("pylock.toml", *words, status=status)

    def changed(self, old: str, new: str) -> str:
        self.assertEqual(LOCK.count(old), 1, old)
        return LOCK.replace(old, new)

    def test_a_right_file(self) -> None:
        self.assertEqual(self.said(LOCK), RIGHT)
        for key in ['environments = ["python_version >= \'3.9\'"]\n', 'requires-python = ">=3.9"\n']:
            self.assertEqual(self.said(self.changed(key, "")), RIGHT)

    def test_a_file_for_no_extras_of_its_own(self) -> None:
        """It was made for those that are named, as `pip lock` and `uv export` write it."""
        plain = LOCK.replace('extras = ["more"]\ndependency-groups = ["dev"]\n', "")
        plain = plain.replace(C, "sys_platform == 'win32'")
        self.assertEqual(self.said(plain, 0, "--group", "dev"), RIGHT)
        self.assertIn("c 1.0 is installed on Windows", self.said(plain, 1))
        self.assertIn("requires `c` (project.optional-dependencies.more[0])", self.said(plain, 1, "--extra", "more"))

    def test_what_tools_pylock_writes_is_right(self) -> None:
        self.write("pyproject.toml", '[project]\nname = "demo"\nrequires-python = ">=3.9"\ndependencies = ["a"]\n')
        self.ran("lock", "pyproject.toml", "ix")
        self.ran("pylock", "unilock.lock", "--index", "ix")
        self.assertIn("is right", self.judged("pylock.toml"))

    def test_each_key_that_is_passed_over_changes_nothing(self) -> None:
        more = "index = 'https://x.org'\nrequires-python = '>=3'\ndependencies = []\n"
        more += "attestation-identities = []\ntool = {}\n"
        text = self.changed('name = "b"\n', f'name = "B"\n{more}').replace("size = 7", 'path = "x/a.whl"')
        self.assertEqual(self.said(f"{text}\n[tool]\nx = 1\n"), RIGHT)
        for known in ["TOP", "PACKAGE", "FILE", "DIRECT"]:
            for key in getattr(pylock_rows, known):
                self.assertIn(key, f"{text}{LOCK}{UNREAD}[tool]archive")

    def test_each_key_that_is_not_read_keeps_the_file_from_being_judged(self) -> None:
        for old, new, told in UNREAD:
            with self.subTest(new):
                found = self.said(self.changed(old, new), 3)
                self.assertTrue(found.startswith("pylock.toml can't be judged: "), found)
                self.assertIn(told, found)

    def test_what_is_wrong(self) -> None:
        for old, new, told in WRONG:
            with self.subTest(new):
                self.assertIn(f"pylock.toml is wrong: {told}", self.said(self.changed(old, new), 1))


if __name__ == "__main__":
    unittest.main()
