"""tools/judge on `uv.lock`: each key is read, or says nothing of what is installed, or keeps the lock from being
judged; what a lock says that is wrong is told with the machine; hostile locks are told from right ones."""

from __future__ import annotations

import json
import unittest
from typing import Any, Dict

from making import SUM, document
from test_judge import Judging
from unilock_tools import judge, locks, uv_lock

PROJECT = """[project]
name = "demo"
version = "0.1"
requires-python = ">=3.9"
dependencies = ["a; python_version < '3.11' or sys_platform == 'win32'", "b[x]>=1"]
[project.optional-dependencies]
more = ["c"]
[dependency-groups]
dev = ["c"]
"""
LOCK = f"""version = 1
revision = 3
requires-python = ">=3.9"
resolution-markers = [
    "python_full_version >= '3.11'",
    "python_full_version < '3.11'",
]

[options]
exclude-newer = "2026-01-01T00:00:00Z"

[manifest]
members = ["demo"]

[[package]]
name = "a"
version = "1.0"
source = {{ registry = "https://pypi.org/simple" }}
sdist = {{ url = "https://x.org/a-1.0.tar.gz", hash = "sha256:{SUM}", size = 7, upload-time = "2025-01-01T00:00:00Z" }}
wheels = [
    {{ url = "https://x.org/a-1.0-py3-none-any.whl", hash = "sha256:{SUM}", size = 7 }},
]

[[package]]
name = "b"
version = "1.0"
source = {{ registry = "https://pypi.org/simple" }}

[package.optional-dependencies]
x = [
    {{ name = "a" }},
]

[[package]]
name = "c"
version = "1.0"
source = {{ registry = "https://pypi.org/simple" }}
resolution-markers = ["python_full_version >= '3.11'"]

[[package]]
name = "demo"
version = "0.1"
source = {{ virtual = "." }}
dependencies = [
    {{ name = "a", marker = "python_full_version < '3.11' or sys_platform == 'win32'" }},
    {{ name = "b", extra = ["x"] }},
]

[package.optional-dependencies]
more = [
    {{ name = "c" }},
]

[package.dev-dependencies]
dev = [
    {{ name = "c" }},
]

[package.metadata]
requires-dist = [{{ name = "a" }}, {{ name = "b", extras = ["x"], specifier = ">=1" }}]
provides-extras = ["more"]

[package.metadata.requires-dev]
dev = [{{ name = "c" }}]
"""
# A text of the lock, what stands in its place, and what is said of it.
UNREAD = [
    ("version = 1\n", "version = 2\n", "it is of version 2, revision 3, which isn't read"),
    ("revision = 3\n", "revision = 4\n", "it is of version 1, revision 4, which isn't read"),
    ("revision = 3\n", 'revision = "3"\n', "revision '3', which isn't read"),
    ("revision = 3\n", "revision = 3\nnew-key = 1\n", "`new-key` isn't read"),
    ('requires-python = ">=3.9"\n', "", "requires-python isn't there"),
    ('requires-python = ">=3.9"\n', "requires-python = 3\n", "requires-python isn't a text: 3"),
    ('requires-python = ">=3.9"\n', 'requires-python = "3.9"\n', "requires-python: `3.9` isn't an operator"),
    ('requires-python = ">=3.9"\n', 'requires-python = "<0"\n', "it is made for no environment"),
    ("resolution-markers = [\n", "supported-markers = [3]\nresolution-markers = [\n",
     "supported-markers[0] isn't a text"),
    ("resolution-markers = [\n", "conflicts = [[{ package = 'demo', extra = 'more' }]]\nresolution-markers = [\n",
     "its `conflicts` can't be said"),
    ("[options]\n", "[options]\nnew = 1\n", "`options.new` isn't read"),
    ("[manifest]\n", "[manifest]\nnew = 1\n", "`manifest.new` isn't read"),
    ("[manifest]\n", "[other]\n", "`other` isn't read"),
    ("[[package]]\nname = \"a\"\n", "[[package]]\nnew = 1\nname = \"a\"\n", "`a 1.0.new` isn't read"),
    ("[[package]]\nname = \"a\"\n", "[[package]]\nname = \"-a\"\n", "package[0].name is no name: '-a'"),
    ('name = "a"\nversion = "1.0"\n', 'name = "a"\nversion = "one"\n', "package[0].version is no version: 'one'"),
    ('name = "a"\nversion = "1.0"\n', 'name = "a"\n', "a has no version, since it is built from"),
    ('version = "1.0"\nsource = { registry = "https://pypi.org/simple" }\nsdist',
     'version = "1.0"\nsource = { git = "https://x.org/a" }\nsdist', None),
    ('version = "1.0"\nsource = { registry = "https://pypi.org/simple" }\nsdist',
     'version = "1.0"\nsource = { oci = "https://x.org/a" }\nsdist', "package[0].source isn't read: {'oci':"),
    ('version = "1.0"\nsource = { registry = "https://pypi.org/simple" }\nsdist', 'version = "1.0"\nsdist',
     "package[0] has no source"),
    ("size = 7, upload-time", "colour = 7, upload-time", "`a 1.0.sdist.colour` isn't read"),
    (f'any.whl", hash = "sha256:{SUM}"', f'any.whl", hash = "sha256:{SUM}", new = 1',
     "`a 1.0.wheels[0].new` isn't read"),
    (f'any.whl", hash = "sha256:{SUM}"', 'any.whl", hash = 3', "a 1.0.wheels[0].hash isn't a text"),
    ('{ name = "a" },\n]\n\n[[package]]', '{ name = "a", new = 1 },\n]\n\n[[package]]',
     "`b 1.0.optional-dependencies.x[0].new` isn't read"),
    ('{ name = "a" },\n]\n\n[[package]]', '"a",\n]\n\n[[package]]', "b 1.0.optional-dependencies.x[0] isn't a table"),
    ('extra = ["x"] }', 'extra = "x" }', "demo 0.1.dependencies[1].extra isn't a list"),
    ("sys_platform == 'win32'\" }", "sys_platform = 'win32'\" }", "the edge to a: the marker isn't read from"),
    ("sys_platform == 'win32'\" }", "extra == 'extra-4-demo-more'\" }",
     "the edge to a: a marker that asks for the extra 'extra-4-demo-more' can't be said"),
    ("sys_platform == 'win32'\" }", "*\" }", "the edge to a: "),
    ("[package.dev-dependencies]\ndev", "[package.dev-dependencies]\n\"-\"", "demo 0.1: a group is no name: '-'"),
    ("provides-extras", "new", "`demo 0.1.metadata.new` isn't read"),
    ('name = "demo"\nversion', 'name = "other"\nversion', "it has no packages of the project's name demo"),
    ('name = "c"\nversion = "1.0"', 'name = "a"\nversion = "1.0"', "it has several packages a 1.0"),
    ('name = "c"\nversion = "1.0"', 'name = "a"\nversion = "1"', "which several packages are"),
]  # fmt: skip
# What says nothing of what is installed where: a text of the lock, and what may stand in its place.
PASSED_OVER = [
    ("revision = 3\n", ""),
    ("revision = 3\n", "revision = 1\n"),
    ("resolution-markers = [\n", "required-markers = [\"sys_platform == 'win32'\"]\nresolution-markers = [\n"),
    ("resolution-markers = [\n", "conflicts = []\nresolution-markers = [\n"),
    ("[options]\n", '[options]\nresolution-mode = "lowest"\nprerelease-mode = "allow"\nfork-strategy = "fewest"\n'),
    ("[options]\n", '[options]\nexclude-newer-span = "P1W"\nexclude-newer-package = { a = "2026-01-01" }\n'),
    ('members = ["demo"]', "requirements = []\nconstraints = []\noverrides = []"),
    ('members = ["demo"]', "build-constraints = []\nexcludes = []"),
    ('members = ["demo"]', "dependency-groups = { dev = [] }\ndependency-metadata = []"),
    ("size = 7, upload-time", "upload-time"),
    (f'any.whl", hash = "sha256:{SUM}"', f'any.whl", hash = "md5:{SUM[:32]}", zstd = {{ size = 3 }}, upload_time = 3'),
    ("https://x.org/a-1.0-py3-none-any.whl", "https://y.org/a%2B1.whl#x"),
    ('name = "demo"\nversion = "0.1"\n', 'name = "Demo"\n'),
    ("dev-dependencies", "dependency-groups"),
    ("requires-dev", "dependency-groups"),
]
RIGHT = "uv.lock is right in every environment that the project supports (3 packages)\n"


class UvLock(Judging):
    def setUp(self) -> None:
        super().setUp()
        self.write("pyproject.toml", PROJECT)
        extra = {"version": "1.0", "requires_dist": ["a; extra == 'x'"], "requires_python": ">=3.8"}
        one = {"version": "1.0"}
        self.write("ix/a.json", document("a", one, {"version": "2.0"}))
        self.write("ix/b.json", document("b", extra))
        self.write("ix/c.json", document("c", one))

    def said(self, text: str, status: int = 0, *words: str) -> str:
        self.write("uv.lock", text)
        return self.judged("uv.lock", *words, status=status)

    def changed(self, old: str, new: str) -> str:
        self.assertEqual(LOCK.count(old), 1, old)
        return LOCK.replace(old, new)

    def test_a_right_lock(self) -> None:
        self.assertEqual(self.said(LOCK, 0, "-o", "kept.lock"), RIGHT)
        kept = locks.load(str(self.top / "kept.lock"))
        self.assertEqual(kept.supported, "python_full_version >= '3.9.0'")
        self.assertEqual(kept.forks, ["python_full_version >= '3.11.0'", "python_full_version < '3.11.0'"])
        self.assertEqual([it for it, _ in kept.package("a", "1.0").files], ["a-1.0-py3-none-any.whl", "a-1.0.tar.gz"])
        self.assertEqual(list(kept.root_package().extras), ["group-dev", "more"])
        self.assertIn("a==1.0\n", self.ran("requirements", "kept.lock", "--no-hashes", "--all").stdout)
        self.assertEqual(self.printed("verify", "pyproject.toml", "ix", "kept.lock", status=9)[-1],
                         "verified, but for its files")  # fmt: skip

    def test_each_key_that_is_passed_over_changes_nothing(self) -> None:
        for old, new in PASSED_OVER:
            with self.subTest(new):
                self.assertEqual(self.said(self.changed(old, new)), RIGHT)

    def test_each_key_that_is_not_read_keeps_the_lock_from_being_judged(self) -> None:
        for old, new, told in UNREAD:
            if told is not None:
                with self.subTest(new):
                    found = self.said(self.changed(old, new), 3)
                    self.assertTrue(found.startswith("uv.lock can't be judged: "), found)
                    self.assertIn(told, found)

    def test_no_key_is_left_out_of_the_tables(self) -> None:
        """What the reader names is in the rows above, and a key beside these is never passed over."""
        rows = "".join(f"{old}{new}" for old, new in [*PASSED_OVER, *((old, new) for old, new, _ in UNREAD)]) + LOCK
        for known in ["MANIFEST", "OPTIONS", "LOCK", "PACKAGE", "METADATA", "FILE", "GROUPS"]:
            for key in getattr(uv_lock, known):
                self.assertIn(key, rows)
        for place in ["version = 1\n", "[[package]]\n", "[package.metadata]\n", "[options]\n", "[manifest]\n"]:
            text = LOCK.replace(place, f"{place}something = 1\n", 1)
            self.assertIn("something` isn't read", self.said(text, 3))

    def test_what_is_wrong_is_told_with_the_machine(self) -> None:
        on = "and on Windows, Python 3.9.0 the lock gives it no a"
        left_out = "sys_platform != 'win32' and python_full_version < '3.11' or "
        marker = "python_full_version < '3.11' or sys_platform == 'win32'"
        hole = f"{left_out}sys_platform == 'win32' and python_full_version >= '3.10'"
        asks = "the project requires `a; python_version < '3.11' or sys_platform == 'win32'` (project.dependencies[0])"
        no_c = "and on Linux, Python 3.12.0 the lock gives it no c"
        for old, new, told in [
            (marker, hole, f"demo 0.1: {asks}, {on}"),
            (f', marker = "{marker}"', "", "demo 0.1: the project doesn't require a on Linux, Python 3.12.0, and the "
             "lock gives it a 1.0"),
            ('name = "a"\nversion = "1.0"', 'name = "a"\nversion = "3.0"', "a 3.0: the index has no release a 3.0 that "
             "can be used"),
            ('requires-python = ">=3.9"', 'requires-python = ">=3.10"', "the project supports Python `>=3.9`, and the "
             "lock is made for python_full_version >= '3.10.0'"),
            ('name = "demo"\nversion = "0.1"', 'name = "demo"\nversion = "0.2"', "the lock is of version 0.2, and the "
             "project has 0.1"),
            ('{ name = "b", extra = ["x"] }',
             '{ name = "b", extra = ["x"], marker = "sys_platform != \'win32\' or platform_machine != \'ARM64\'" }',
             "demo 0.1: the project requires `b[x]>=1` (project.dependencies[1]), and on Windows, platform_machine "
             "ARM64, Python 3.12.0 the lock gives it no b"),
            ('more = [\n    { name = "c" },\n]', "more = []", f"demo 0.1: the project requires `c` "
             f"(project.optional-dependencies.more[0]), {no_c}"),
            ('[package.dev-dependencies]\ndev = [\n    { name = "c" },\n]\n', "", "demo 0.1: the project requires `c` "
             f"(dependency-groups.dev[0]), {no_c}"),
            ('x = [\n    { name = "a" },\n]', "", "b 1.0: b 1.0 requires `a; extra == 'x'`, and on Linux, Python "
             "3.12.0 the lock gives it no a"),
            (', extra = ["x"] }', " }", "demo 0.1: the project requires `b[x]>=1` (project.dependencies[1]), and on "
             "Linux, Python 3.12.0 the lock gives b without its extra x"),
            ('{ name = "a" },\n]\n\n[[package]]', '{ name = "z" },\n]\n\n[[package]]',
             "b 1.0 has an edge to z, which the lock has no package of"),
        ]:  # fmt: skip
            with self.subTest(new):
                self.assertEqual(self.said(self.changed(old, new), 1), f"uv.lock is wrong: {told}\n")

    def test_what_the_index_has_no_document_of_keeps_the_lock_from_being_judged(self) -> None:
        source = 'version = "1.0"\nsource = { registry = "https://pypi.org/simple" }\nsdist'
        git = source.replace("registry", "git").replace("/simple", "/a?rev=1#2")
        self.assertEqual(self.said(self.changed(source, git)), RIGHT)
        (self.top / "ix" / "a.json").unlink()
        told = "uv.lock can't be judged: the index folder has no document of a"
        self.assertEqual(self.said(LOCK, 3), f"{told}\n")
        where = "which it takes from git https://pypi.org/a?rev=1#2"
        self.assertEqual(self.said(self.changed(source, git), 3), f"{told}, {where}\n")
        self.write("ix/a.json", document("a", {"version": "2.0"}))
        self.assertIn("no release a 1.0, which the lock takes from git", self.said(self.changed(source, git), 3))

    def test_packages_that_the_project_does_not_lead_to_are_not_judged(self) -> None:
        other = LOCK[LOCK.index('[[package]]\nname = "c"') : LOCK.index('[[package]]\nname = "demo"')]
        member = other.replace('"c"', '"member"').replace("registry", "editable")
        self.assertEqual(self.said(LOCK + "\n" + member), RIGHT)

    def test_an_extra_that_asks_for_others_of_its_package(self) -> None:
        """uv writes what comes of it; where that isn't what the others give the lock is wrong."""
        asks = 'more = ["c"]\nall = ["demo[more]; os_name == \'nt\'", "b"]'
        self.write("pyproject.toml", PROJECT.replace('more = ["c"]', asks))
        both = 'more = [\n    { name = "c" },\n]'
        listed = both + '\nall = [\n    { name = "b" },\n    { name = "c", marker = "os_name == \'nt\'" },\n]'
        self.assertEqual(self.said(self.changed(both, listed), 0, "-o", "kept.lock"), RIGHT)
        kept = locks.load(str(self.top / "kept.lock")).root_package().extras["all"]
        windows = "os_name == 'nt'"
        wanted = [("b", None, ""), ("demo", None, windows), ("demo", "more", windows)]
        self.assertEqual([(it.name, it.extra, it.marker) for it in kept], wanted)
        for marker, where in [
            ("os_name == 'posix'", "on Linux, Python 3.12.0 its list has c"),
            ("os_name == 'nowhere'", "on Windows, Python 3.12.0 its list has no c"),
        ]:
            told = f"demo 0.1, extra all: {where}, unlike the extras that it asks for"
            wrong = self.changed(both, listed.replace(windows, marker))
            self.assertEqual(self.said(wrong, 1), f"uv.lock is wrong: {told}\n")

    def test_a_requirement_that_is_true_with_and_without_an_extra(self) -> None:
        """uv has it in both lists; here an extra's list has what the extra adds."""
        entry = {"version": "1.0", "requires_dist": ["a; extra == 'x' or sys_platform == 'win32'"]}
        self.write("ix/b.json", document("b", entry))
        head = 'name = "b"\nversion = "1.0"\nsource = { registry = "https://pypi.org/simple" }\n'
        edge = 'dependencies = [\n    { name = "a", marker = "sys_platform == \'win32\'" },\n]\n'
        self.assertEqual(self.said(self.changed(head, head + edge), 0, "-o", "kept.lock"), RIGHT)
        kept = locks.load(str(self.top / "kept.lock")).package("b", "1.0").extras["x"]
        self.assertEqual([(it.name, it.marker) for it in kept], [("a", "sys_platform != 'win32'")])

    def test_variables_that_go_together_on_all_machines(self) -> None:
        """uv writes `sys_platform == 'win32'` for `platform_system == 'Windows'`; both say the same on all machines."""
        project = PROJECT.replace("sys_platform == 'win32'", "platform_system == 'Windows'")
        self.write("pyproject.toml", project)
        where = "in which platform_system and sys_platform go together, as they do on all machines that there are"
        right = f"uv.lock is right in every environment that the project supports {where} (3 packages)\n"
        self.assertEqual(self.said(LOCK, 0, "-o", "kept.lock"), right)
        self.assertEqual(locks.load(str(self.top / "kept.lock")).supported, "python_full_version >= '3.9.0'")
        found = json.loads(self.said(LOCK, 0, "--json"))
        self.assertEqual((found["verdict"], found["together"]), ("right", ["platform_system", "sys_platform"]))
        marker = "python_full_version < '3.11' or sys_platform == 'win32'"
        hole = "python_version < '3.11' and os_name != 'nt' or sys_platform == 'win32' and python_version >= '3.10'"
        asks = "`a; python_version < '3.11' or platform_system == 'Windows'` (project.dependencies[0])"
        given = "and on Windows, Python 3.9.0 the lock gives it no a"
        told = f"uv.lock is wrong: demo 0.1: the project requires {asks}, {given}\n"
        self.assertEqual(self.said(self.changed(marker, hole), 1), told)
        self.write("pyproject.toml", PROJECT.replace("sys_platform == 'win32'", "platform_release == 'Windows'"))
        self.assertIn("uv.lock is wrong: demo 0.1: ", self.said(LOCK, 1))

    def test_as_json(self) -> None:
        found: Dict[str, Any] = json.loads(self.said(LOCK, 0, "--json"))
        wanted: Dict[str, Any] = {"lock": "uv.lock", "verdict": "right", "packages": 3, "together": [], "reasons": []}
        self.assertEqual(found, wanted)
        found = json.loads(self.said(LOCK.replace("revision = 3", "new = 3"), 3, "--json"))
        told = {"verdict": "not judged", "packages": None, "reasons": ["`new` isn't read"]}
        self.assertEqual(found, {**wanted, **told})

    def test_what_is_not_there_or_no_lock_is_never_right(self) -> None:
        self.assertIn("none.toml: no such file", self.judged("uv.lock", "none.toml", status=3).lower())
        for name, body in [("uv.lock", b"\xff"), ("uv.lock", b"["), ("uv.lock", b"a = " + b"[" * 100_000),
                           ("uv.lock", b"a = " + b"1" * 10_000), ("uv.lock", b"")]:  # fmt: skip
            (self.top / name).write_bytes(body)
            self.assertIn("uv.lock can't be judged: ", self.judged(name, status=3))
        (self.top / "uv.lock").write_bytes(b"#" * (judge.MOST_BYTES + 1))
        self.assertIn(f"longer than {judge.MOST_BYTES} bytes", self.judged("uv.lock", status=3))
        self.assertIn("there is no index folder none", self.said(LOCK, 3, "pyproject.toml", "none"))
        self.assertIn("it is a lock of unilock", self.said('version = 2\nroot = "demo"\n', 3))
        self.write("ix/a.json", "{")
        self.assertIn("a.json: not JSON", self.said(LOCK, 3))

    def test_what_the_project_file_has_that_is_not_read_is_told(self) -> None:
        self.write("pyproject.toml", PROJECT + "[tool.uv.sources]\na = { path = 'a' }\n")
        self.assertIn("uv.lock can't be judged: pyproject.toml: path a: there is no such file", self.said(LOCK, 3))
        self.write("pyproject.toml", PROJECT + "[tool.uv]\nconflicts = [[{ extra = 'x' }, { extra = 'y' }]]\n")
        self.assertIn("uv.lock can't be judged: pyproject.toml: tool.uv.conflicts: declared", self.said(LOCK, 3))

    def test_a_lock_is_never_written_over_what_is_none(self) -> None:
        before = (self.top / "pyproject.toml").read_bytes()
        self.assertIn("isn't a lock of unilock", self.said(LOCK, 3, "-o", "pyproject.toml"))
        self.assertEqual((self.top / "pyproject.toml").read_bytes(), before)

    def test_nothing_of_a_lock_is_printed_as_it_stands(self) -> None:
        bell = self.changed('name = "c"\nversion = "1.0"', 'name = "c"\nversion = "\\u0007\\u001b[2J"')
        url = self.changed('{ virtual = "." }', '{ virtual = "\\u001b[31m" }')
        key = LOCK.replace("revision = 3", '"\\u001b[2J" = 3')
        edge = LOCK.replace('{ name = "a" }', '{ name = "a", marker = "\\u001b[2J" }')
        for text in [bell, url, key, edge]:
            for words in ["uv.lock", "uv.lock --json"]:
                self.write("uv.lock", text)
                found = self.ran("judge", *words.split(), status=0 if text == url else 3)
                self.assertNotRegex(found.stdout + found.stderr, r"[\x00-\x09\x0b-\x1f]")

    def test_a_program_without_the_word_judges_nothing(self) -> None:
        old = self.write("old", "#!/bin/sh\necho usage: unilock WORDS\nexit 2\n")
        old.chmod(0o755)
        self.write("uv.lock", LOCK)
        self.program = old
        self.patched.close()
        self.assertIn("the program has no word `marker`", self.judged("uv.lock", status=3))



if __name__ == "__main__":
    unittest.main()
