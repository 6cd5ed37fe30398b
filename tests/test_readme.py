"""What docs/MANUAL.md says of the tools and of the project file: a row for each. The walks themselves stand in
test_walk.py."""

from __future__ import annotations

import importlib
import json
import re
import subprocess
import unittest
from typing import List

from making import PROGRAM, TOP, Folder, document, skip, want_program
from unilock_tools import keys, locks
from unilock_tools.__main__ import COMMANDS

BARE = '[project]\nname = "demo"\nversion = "0.1"\nrequires-python = ">=3.8"\ndependencies = ["a"]\n'
MANUAL = (TOP / "docs" / "MANUAL.md").read_text(encoding="utf-8")


class Rows(Folder):
    def setUp(self) -> None:
        super().setUp()
        want_program(self)
        self.write(
            "ix/a.json",
            document("a", {"version": "1", "requires_python": ">=3.8"}, {"version": "2", "requires_python": ">=3.10"}),
        )

    def asked(self, *words: str) -> str:
        done = subprocess.run([str(PROGRAM), *words], cwd=self.top, stdout=subprocess.PIPE, text=True, check=False)
        self.status = done.returncode
        return done.stdout

    def locked(self, text: str, status: int = 0) -> str:
        self.write("pyproject.toml", text)
        found = self.asked("lock", "pyproject.toml", "ix", "1")
        self.assertEqual(self.status, status, found)
        return found

    def versions(self, text: str, name: str = "a") -> List[str]:
        return [it.version for it in locks.read(self.locked(text), "lock").by_name().get(name, [])]


class Keys(Rows):
    def test_keys_that_are_refused(self) -> None:
        for key in keys.REFUSED:
            for value, status in [("['x']", 3), ("[]", 0)]:
                text = self.locked(BARE + f"[tool.uv]\n{key} = {value}\n", status)
                self.assertEqual(text == f"malformed: pyproject.toml: unsupported tool.uv.{key}\n", status == 3)
        for key in ["dependencies", "optional-dependencies", "requires-python"]:
            self.assertIn("unsupported project.dynamic", self.locked(BARE + f'dynamic = ["{key}"]\n', 3))
        self.locked(BARE + 'dynamic = ["readme"]\n')
        self.assertIn("unsupported tool.uv.prerelease", self.locked(BARE + '[tool.uv]\nprerelease = "allow"\n', 3))
        for key in ["constraint-dependencies", "override-dependencies"]:
            self.assertIn(f"unsupported tool.uv.{key}[0]", self.locked(BARE + f'[tool.uv]\n{key} = ["a[x]"]\n', 3))

    def test_keys_that_are_passed_over(self) -> None:
        plain = self.locked(BARE)
        for key in keys.PASSED_OVER:
            self.assertEqual(self.locked(BARE + f'[tool.uv]\n{key} = "x"\n'), plain, key)
        self.assertEqual(
            self.locked(BARE + 'readme = 1\n[tool.poetry]\nx = 1\n[build-system]\nrequires = ["a @ x"]\n'), plain
        )

    def test_keys_that_are_read(self) -> None:
        plain = self.locked(BARE)
        for more in [
            '[project.optional-dependencies]\nx = ["a"]\n',
            '[dependency-groups]\nx = ["a"]\n',
            '[tool.uv]\nconstraint-dependencies = ["a<1"]\n',
            '[tool.uv]\noverride-dependencies = ["a; os_name == \'nt\'"]\n',
            '[tool.uv]\nenvironments = "sys_platform == \'win32\'"\n',
            '[tool.uv]\nfork-strategy = "requires-python"\n',
        ]:
            text = BARE + more
            self.write("pyproject.toml", text)
            self.assertNotEqual(self.asked("lock", "pyproject.toml", "ix", "1"), plain, more)
        self.assertIn('version = "0"', self.locked(BARE.replace('version = "0.1"\n', "")))
        self.write("ix/b.json", document("b", {"version": "1"}, {"version": "2"}))
        for mode, found in [("highest", "2"), ("lowest", "1"), ("lowest-direct", "1")]:
            self.assertEqual(
                self.versions(BARE.replace('"a"', '"b"') + f'[tool.uv]\nresolution = "{mode}"\n', "b"), [found]
            )

    def test_a_missing_bound_on_the_interpreter(self) -> None:
        self.assertIn("no selection serves", self.locked(BARE.replace('requires-python = ">=3.8"\n', ""), 1))

    def test_an_upper_bound_of_the_project_is_read(self) -> None:
        self.assertIn("python_full_version < '3.12.0'", self.locked(BARE.replace(">=3.8", ">=3.8,<3.12")))

    def test_the_table(self) -> None:
        """Each key that the tools know of stands in the manual's table, in the row that says what becomes of it."""
        section = MANUAL.partition("## What is read of the project file")[2].partition("\n## ")[0]
        if not section:
            skip(self, "docs/MANUAL.md has no table of keys yet")
        rows = {cells[0]: cells[1] for cells in re.findall(r"(?m)^\| (`.*?) \| (.*) \|$", section)}
        named = [(name, text) for cell, text in rows.items() for name in re.findall(r"`([^`]+)`", cell)]
        told = {name.rpartition("tool.uv.")[2]: text for name, text in named}
        for key in keys.READ:
            self.assertRegex(told[key.rpartition("tool.uv.")[2]], r"\A(read|refused)", key)
        for key in keys.REFUSED:
            self.assertTrue(told[key].startswith("refused"), key)
        self.assertTrue(told["exclude-newer"].startswith("passed over"))
        for key in ["dependency-metadata", "default-groups", "required-environments"]:
            self.assertRegex(told[key], r"\Aread by `tools/\w+`", key)
        self.assertLessEqual({"exclude-newer", "dependency-metadata", "default-groups"}, set(keys.PASSED_OVER))


class Differences(Rows):
    def test_groups_are_extras_of_the_root(self) -> None:
        self.write("ix/b.json", document("b", {"version": "1"}))
        self.write("unilock.lock", self.locked(BARE + '[dependency-groups]\nTest = ["b"]\n'))
        self.ran("machine", "-o", "machine.json")
        self.assertEqual(self.asked("env", "unilock.lock", "machine.json", "group-test"), "a==1\nb==1\n")
        self.assertEqual(self.asked("env", "unilock.lock", "machine.json"), "a==1\n")
        self.assertEqual(
            self.printed("requirements", "unilock.lock", "--group", "test", "--no-hashes"), ["a==1", "b==1"]
        )

    def test_fewest_is_the_default(self) -> None:
        self.assertEqual(self.versions(BARE), ["1"])
        self.assertEqual(self.versions(BARE + '[tool.uv]\nfork-strategy = "fewest"\n'), ["1"])
        text = BARE + '[tool.uv]\nfork-strategy = "requires-python"\n'
        self.assertEqual(self.versions(text), ["1", "2"])
        edges = locks.read(self.locked(text), "lock").root_package().edges
        self.assertEqual(
            [it.marker for it in edges], ["python_full_version < '3.10.0'", "python_full_version >= '3.10.0'"]
        )

    def test_upper_python_bounds_of_releases_count_as_nothing(self) -> None:
        self.write("ix/a.json", document("a", {"version": "1"}, {"version": "2", "requires_python": ">=3.8,<3.11"}))
        self.assertEqual(self.versions(BARE), ["2"])
        self.write("unilock.lock", self.locked(BARE))
        self.ran("machine", "--python", "3.12", "-o", "machine.json")
        self.assertEqual(self.asked("env", "unilock.lock", "machine.json"), "a==2\n")

    def test_lowest_with_an_old_lock(self) -> None:
        self.write("ix/a.json", document("a", {"version": "1"}, {"version": "2"}, {"version": "3"}))
        kept = [("a", "1"), ("a", "2"), ("demo", "0.1")]
        blocks = [f'[[package]]\nname = "{name}"\nversion = "{version}"\n' for name, version in kept]
        both = "\n".join(['version = 2\nroot = "demo"\n', *blocks])
        for mode in ["lowest", "highest"]:
            self.write("unilock.lock", both)
            self.write("pyproject.toml", BARE + f'[tool.uv]\nresolution = "{mode}"\n')
            self.ran("lock")
            self.assertEqual([it.version for it in locks.load(str(self.top / "unilock.lock")).by_name()["a"]], ["2"])
        self.write("pyproject.toml", BARE + '[tool.uv]\nresolution = "lowest"\n')
        self.ran("lock", "--upgrade")
        self.assertEqual([it.version for it in locks.load(str(self.top / "unilock.lock")).by_name()["a"]], ["1"])

    def test_further_keys_of_documents_are_passed_over(self) -> None:
        entry = {
            "version": "1", "files": [{"file": "a-1.whl", "sha256": "0" * 64, "url": "https://x/a-1.whl", "size": 3}]
        }
        self.write("ix/a.json", json.dumps({"name": "a", "versions": [entry]}))
        self.assertIn('{ file = "a-1.whl", hash = "sha256:' + "0" * 64 + '" },', self.locked(BARE))


class Tools(Folder):
    def test_each_tool_has_help_and_a_version(self) -> None:
        for name in COMMANDS:
            said = self.ran(name, "--help").stdout
            self.assertIn(f"usage: {name}", said)
            self.assertIn("Status: 0", said)
            self.assertRegex(self.ran(name, "--version").stdout, rf"\A{name} of unilock-tools \d+\.\d+\.\d+\n\Z")
            self.assertTrue((TOP / "tools" / name).is_file())
            self.assertEqual(len(self.ran(name, "--no-such-option", status=2).stderr.splitlines()), 1)

    def test_each_tool_has_a_line_in_the_readme(self) -> None:
        section = MANUAL.partition("## Tools\n")[2].partition("\n## ")[0]
        if not section:
            skip(self, "docs/MANUAL.md has no table of tools yet")
        for name in COMMANDS:
            self.assertIn(f"| `tools/{name}", section)

    def test_options_that_the_readme_names(self) -> None:
        for name, options in [
            ("index", "--index-url --newest --before --skip --yanked --no-cache"),
            ("lock", "--check --upgrade --upgrade-package --workers"),
            ("sync", "--group --no-index --find-links --venv"),
            ("requirements", "--all --machine --no-hashes"),
            ("pylock", "--group --index --files"),
            ("tree", "--invert --depth --picture --dot"),
            ("machine", "--platform --python --implementation"),
        ]:
            said = importlib.import_module(f"unilock_tools.{name}").parser().format_help()
            for option in options.split():
                self.assertIn(option, said)


if __name__ == "__main__":
    unittest.main()
