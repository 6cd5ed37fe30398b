"""tools/diff, tools/tree and tools/outdated: what they print of locks."""

from __future__ import annotations

import json
import os
import shutil
import unittest

from making import TOP, Folder, document, skip

EXAMPLE = TOP / "examples" / "web_app"
LOCK = EXAMPLE / "unilock.lock"
TREE = """web-app 1.2.0
├── colorama 0.4.6 ; sys_platform == 'win32'
├── fastapi 0.110.0
│   ├── starlette 0.36.3
│   │   └── typing-extensions 4.10.0 ; python_full_version < '3.10.0'
│   └── typing-extensions 4.10.0
├── numpy 1.26.4 ; python_full_version < '3.11.0'
└── numpy 2.1.0 ; python_full_version >= '3.11.0'
web-app[dev] 1.2.0
└── pytest 8.1.1
    ├── colorama 0.4.6 ; sys_platform == 'win32'
    ├── iniconfig 2.0.0
    └── tomli 2.0.1 ; python_full_version < '3.11.0'
"""
EXTRAS = """version = 2
root = "demo"

[[package]]
name = "demo"
version = "0.1"
dependencies = [
    { name = "p", version = "1" },
    { name = "p", version = "1", extra = "x" },
]

[[package]]
name = "p"
version = "1"
dependencies = [
    { name = "r", version = "1" },
]

[package.optional-dependencies]
unused = [
    { name = "s", version = "1" },
]
x = [
    { name = "q", version = "1" },
]

[[package]]
name = "q"
version = "1"
dependencies = [
    { name = "p", version = "1", marker = "os_name == 'nt'" },
]

[[package]]
name = "r"
version = "1"

[[package]]
name = "s"
version = "1"
"""


class Tree(Folder):
    def test_the_whole_tree(self) -> None:
        self.assertEqual(self.ran("tree", LOCK).stdout, TREE)

    def test_on_a_machine(self) -> None:
        said = self.ran("tree", LOCK, EXAMPLE / "linux.json").stdout
        self.assertNotIn(";", said)
        self.assertEqual([it.strip("│├└─ ") for it in said.splitlines()], [
            "web-app 1.2.0", "fastapi 0.110.0", "starlette 0.36.3", "typing-extensions 4.10.0", "numpy 2.1.0",
            "web-app[dev] 1.2.0", "pytest 8.1.1", "iniconfig 2.0.0",
        ])  # fmt: skip

    def test_depth_and_extras(self) -> None:
        self.assertEqual(self.printed("tree", LOCK, "--depth", "0"), ["web-app 1.2.0", "web-app[dev] 1.2.0"])
        self.assertEqual(self.printed("tree", LOCK, "--depth", "1", "--extra", "Dev")[-1], "└── pytest 8.1.1")
        self.assertNotIn("pytest 8.1.1", self.ran("tree", LOCK, "--no-extras").stdout)
        self.assertIn("has no extra x (it has: dev)", self.ran("tree", LOCK, "--extra", "x", status=1).stderr)

    def test_who_needs_a_package(self) -> None:
        self.assertEqual(self.ran("tree", LOCK, "--invert", "Colorama").stdout, (
            "colorama 0.4.6\n"
            "├── pytest 8.1.1 ; sys_platform == 'win32'\n"
            "│   └── web-app[dev] 1.2.0\n"
            "└── web-app 1.2.0 ; sys_platform == 'win32'\n"
        ))
        self.assertIn(
            "nothing needs colorama here",
            self.ran("tree", LOCK, EXAMPLE / "linux.json", "-i", "colorama", status=1).stderr,
        )
        self.assertEqual(self.printed("tree", LOCK, "-i", "numpy"), [
            "numpy 1.26.4", "└── web-app 1.2.0 ; python_full_version < '3.11.0'",
            "numpy 2.1.0", "└── web-app 1.2.0 ; python_full_version >= '3.11.0'",
        ])  # fmt: skip

    def test_extras_of_packages_and_cycles(self) -> None:
        lock = self.write("x.lock", EXTRAS)
        self.assertEqual(self.ran("tree", lock).stdout, (
            "demo 0.1\n└── p[x] 1\n    ├── r 1\n    └── q 1\n        └── p 1 ; os_name == 'nt'\n            └── r 1\n"
        ))
        self.assertEqual(self.printed("tree", lock, "-i", "s", status=1), [])

    def test_a_machine_that_is_not_supported(self) -> None:
        self.ran("machine", "--python", "3.8", "-o", "old.json")
        self.assertIn("it supports python_full_version >= '3.9.0'", self.ran("tree", LOCK, "old.json", status=1).stderr)

    def test_the_picture(self) -> None:
        said = self.printed("tree", LOCK, "--dot")
        self.assertEqual((said[0], said[-1]), ("digraph lock {", "}"))
        self.assertIn('    "fastapi 0.110.0" -> "starlette 0.36.3";', said)
        self.assertIn("    \"web-app 1.2.0\" -> \"colorama 0.4.6\" [label = \"sys_platform == 'win32'\"];", said)
        self.assertEqual(sum(" -> " in it for it in said), 11)
        if shutil.which("dot") is None:
            self.assertIn("`dot` isn't on the path", self.ran("tree", LOCK, "--picture", "a.svg", status=1).stderr)
            skip(self, "Graphviz isn't there")
        self.ran("tree", LOCK, "--picture", "a.svg")
        self.assertIn(b"<svg", (self.top / "a.svg").read_bytes())
        self.assertIn("a.txt", self.ran("tree", LOCK, "--picture", "a.txt", status=2).stderr)

    def test_a_stand_in_for_dot(self) -> None:
        dot = self.write("bin/dot", '#!/bin/sh\ncat >"$(dirname "$0")/read"\necho picture "$1"\n')
        dot.chmod(0o755)
        before = os.environ["PATH"]
        self.addCleanup(os.environ.__setitem__, "PATH", before)
        os.environ["PATH"] = f"{dot.parent}{os.pathsep}{before}"
        self.ran("tree", LOCK, "--picture", "a.svg")
        self.assertEqual((self.top / "a.svg").read_text(), "picture -Tsvg\n")
        self.assertEqual((self.top / "bin" / "read").read_text(), self.ran("tree", LOCK, "--dot").stdout)

    def test_what_is_no_lock(self) -> None:
        for text, said in [
            ("", "line 1: it is no lock"),
            ("version = 2\nroot = \"a\"\n", "cut off"),
            (EXTRAS[: len(EXTRAS) // 2], "line"),
            (
                EXTRAS.replace("[[package]]\nname = \"s\"\nversion = \"1\"\n", ""),
                "p 1 needs s 1, which the lock hasn't",
            ),
            (EXTRAS.replace("version = \"0.1\"", "versio = \"0.1\""), "line 6: no line of a lock"),
        ]:
            with self.subTest(said):
                done = self.ran("tree", self.write("x.lock", text), status=1)
                self.assertIn(said, done.stderr)
                self.assertEqual(len(done.stderr.splitlines()), 1)


class TreeAsJson(Folder):
    def test_tops_and_each_node_once(self) -> None:
        found = json.loads(self.ran("tree", LOCK, "--json").stdout)
        self.assertEqual([(it["name"], it["extra"]) for it in found["tops"]], [("web-app", None), ("web-app", "dev")])
        names = [(it["name"], it["version"], it["extra"]) for it in found["nodes"]]
        self.assertEqual(len(names), len(set(names)))
        below = {it["name"]: it["below"] for it in found["nodes"] if it["extra"] is None}
        windows = {"name": "colorama", "version": "0.4.6", "extra": None, "marker": "sys_platform == 'win32'"}
        self.assertEqual(below["pytest"][0], windows)
        self.assertEqual(below["colorama"], [])
        users = json.loads(self.ran("tree", LOCK, "--json", "--invert", "starlette").stdout)
        self.assertEqual([it["name"] for it in users["tops"]], ["starlette"])
        self.assertEqual([it["name"] for it in users["nodes"]], ["starlette", "fastapi", "web-app"])


class Diff(Folder):
    def test_what_differs(self) -> None:
        text = LOCK.read_text()
        new = text.replace('name = "starlette"\nversion = "0.36.3"', 'name = "starlette"\nversion = "0.36.9"')
        new = new.replace('name = "starlette", version = "0.36.3"', 'name = "starlette", version = "0.36.9"')
        new = new.replace(
            "python_full_version < '3.11.0'\" },\n]\n\n[[package]]\nname = \"starlette\"",
            "python_full_version < '3.10.0'\" },\n]\n\n[[package]]\nname = \"starlette\"",
        )
        new = new.replace("supported-markers = \"python_full_version >= '3.9.0'\"\n", "")
        self.write("new.lock", new)
        self.assertEqual(self.printed("diff", LOCK, "new.lock", status=1), [
            "starlette 0.36.3 -> 0.36.9",
            "supported: python_full_version >= '3.9.0' -> all",
            "fastapi 0.110.0: no longer needs starlette 0.36.3",
            "fastapi 0.110.0: now needs starlette 0.36.9",
            "pytest 8.1.1: needs tomli 2.0.1 where python_full_version < '3.10.0', "
            "no longer where python_full_version < '3.11.0'",
        ])  # fmt: skip
        self.assertEqual(self.printed("diff", LOCK, "new.lock", "--versions", status=1), ["starlette 0.36.3 -> 0.36.9"])
        self.assertEqual(self.printed("diff", LOCK, LOCK), [])

    def test_files(self) -> None:
        block = 'name = "a"\nversion = "1"\n'
        sums = [("a.whl", "0" * 64), ("a.whl", "1" * 64), ("b.whl", "1" * 64)]
        files = ['files = [\n    { file = "%s", hash = "sha256:%s" },\n]\n' % it for it in sums]
        for number, told in enumerate(files):
            self.write(f"{number}.lock", f'version = 2\nroot = "a"\n\n[[package]]\n{block}{told}')
        self.assertEqual(self.printed("diff", "0.lock", "1.lock", status=1), ["a 1: file a.whl has ANOTHER HASH"])
        self.assertEqual(
            self.printed("diff", "1.lock", "2.lock", status=1), ["a 1: file a.whl removed", "a 1: file b.whl added"]
        )

    def test_as_json(self) -> None:
        blocks = {it: f'[[package]]\nname = "{it}"\nversion = "1"\n' for it in ("a", "b", "demo")}
        head = 'version = 2\nroot = "demo"\n'
        self.write("old.lock", "\n".join([head, blocks["a"], blocks["demo"]]))
        self.write("new.lock", "\n".join([head, blocks["a"].replace('"1"', '"2"'), blocks["b"], blocks["demo"]]))
        found = json.loads(self.ran("diff", "old.lock", "new.lock", "--json", status=1).stdout)
        changed = [{"name": "a", "old": ["1"], "new": ["2"]}, {"name": "b", "old": [], "new": ["1"]}]
        self.assertEqual(found, {"packages": changed, "lines": self.printed("diff", "old.lock", "new.lock", status=1)})
        same = json.loads(self.ran("diff", "old.lock", "old.lock", "--json").stdout)
        self.assertEqual(same, {"packages": [], "lines": []})

    def test_a_lock_that_is_not_there(self) -> None:
        said = self.ran("diff", LOCK, "absent.lock", status=1).stderr
        self.assertEqual(said, "diff: absent.lock: there is no such file; `tools/lock` makes a lock\n")


class Outdated(Folder):
    def test_what_is_newer_and_what_holds_it_back(self) -> None:
        self.assertEqual(self.printed("outdated", LOCK, status=1), [
            "numpy 1.26.4 -> 2.1.0  "
            "(the project asks for `numpy<2; python_version < '3.11'`; it needs Python `>=3.10`)",
            "starlette 0.36.3 -> 0.37.2  (fastapi 0.110.0 asks for `starlette>=0.36.3,<0.37.0`)",
        ])  # fmt: skip

    def test_as_json(self) -> None:
        found = json.loads(self.ran("outdated", LOCK, "--json", status=1).stdout)["packages"]
        self.assertEqual([(it["name"], it["version"], it["newest"]) for it in found], [
            ("numpy", "1.26.4", "2.1.0"), ("starlette", "0.36.3", "0.37.2"),
        ])  # fmt: skip
        self.assertEqual(found[1]["held_by"], ["fastapi 0.110.0 asks for `starlette>=0.36.3,<0.37.0`"])

    def test_which_versions_count(self) -> None:
        blocks = [f'[[package]]\nname = "{name}"\nversion = "{it}"\n' for name, it in (("a", "1"), ("demo", "0"))]
        lock = self.write("x.lock", "\n".join(['version = 2\nroot = "demo"\n', *blocks]))
        for versions, said in [
            ([{"version": "1"}, {"version": "1.0.0"}, {"version": "0.9"}], []),
            ([{"version": "1"}, {"version": "1.10"}, {"version": "1.9"}], ["a 1 -> 1.10"]),
            ([{"version": "1"}, {"version": "2rc1"}, {"version": "3", "yanked": "bad"}], []),
            ([{"version": "1"}, {"version": "2", "requires_dist": ["b (>dev)"]}, {"version": "0!1.1"}], ["a 1 -> 1.1"]),
            ([{"version": "1.dev0"}, {"version": "2rc1"}], ["a 1 -> 2rc1"]),
        ]:
            self.write("ix/a.json", document("a", *versions))
            self.assertEqual(self.printed("outdated", lock, "ix", status=int(bool(said))), said)
        self.assertIn("absent: there is no such folder", self.ran("outdated", lock, "absent", status=3).stderr)

    def test_a_bound_on_python_that_the_lock_does_not_keep(self) -> None:
        head = 'version = 2\nroot = "demo"\nsupported-markers = "python_full_version >= \'3.9.0\'"\n'
        blocks = [f'[[package]]\nname = "{name}"\nversion = "1"\n' for name in ("a", "demo")]
        lock = self.write("x.lock", "\n".join([head, *blocks]))
        for bound, said in [(">=3.10", "  (it needs Python `>=3.10`)"), (">=3.9", ""), (">=3.8,<3.12", "")]:
            self.write("ix/a.json", document("a", {"version": "1"}, {"version": "2", "requires_python": bound}))
            self.assertEqual(self.printed("outdated", lock, "ix", status=1), [f"a 1 -> 2{said}"])


if __name__ == "__main__":
    unittest.main()
