"""tools/sync installs the project's default groups, unless --no-default-groups: those that `tool.uv.default-groups`
names, else `dev` where there is one. A stand-in answers for the program."""

from __future__ import annotations

import unittest
from pathlib import Path

from making import Folder

GROUPS = ["dev", "docs", "test"]
# Gives `a`, and for each group and the extra `x` a package of its name.
STAND_IN = """#!/bin/sh
echo "a==1"
for word; do case $word in group-*) echo "${word#group-}==1" ;; x) echo x==1 ;; esac; done
"""


def lock_text(extras: list[str]) -> str:
    names = ["a", *GROUPS, "x"]
    packages = "".join(f'[[package]]\nname = "{it}"\nversion = "1"\n\n' for it in sorted(names))
    lists = "".join(f"{it} = []\n" for it in extras)
    root = f'[[package]]\nname = "zp"\nversion = "0"\n\n[package.optional-dependencies]\n{lists}'
    return f'version = 2\nroot = "zp"\n\n{packages}{root}'


class DefaultGroups(Folder):
    def setUp(self) -> None:
        super().setUp()
        self.program = self.write("stand-in", STAND_IN)
        Path(str(self.program)).chmod(0o755)
        self.lock(["group-dev", "group-docs", "group-test", "x"])

    def lock(self, extras: list[str]) -> None:
        self.write("unilock.lock", lock_text(extras))

    def project(self, setting: str = "", groups: tuple[str, ...] = ("dev", "docs", "test"), more: str = "") -> None:
        lists = "".join(f"{it} = []\n" for it in groups)
        text = f'[project]\nname = "zp"\n[dependency-groups]\n{lists}[tool.uv]\n{more}'
        self.write("pyproject.toml", text + (f"default-groups = {setting}\n" if setting else ""))

    def installed(self, *words: str) -> set[str]:
        said = self.printed("sync", "--dry-run", *words)
        return {it.split()[2] for it in said}

    def test_dev_where_there_is_one(self) -> None:
        self.project()
        self.assertEqual(self.installed(), {"a", "dev"})
        self.assertEqual(self.installed("--no-default-groups"), {"a"})
        self.assertEqual(self.installed("--group", "Docs", "unilock.lock", "x"), {"a", "dev", "docs", "x"})
        self.assertEqual(self.installed("--no-default-groups", "--group", "dev"), {"a", "dev"})

    def test_the_groups_that_are_named(self) -> None:
        for setting, groups in [
            ('["Docs", "test"]', {"docs", "test"}), ("[]", set()), ('"all"', {"dev", "docs", "test"}),
            ('["dev", "dev"]', {"dev"}),
        ]:  # fmt: skip
            self.project(setting)
            self.assertEqual(self.installed(), {"a"} | groups, setting)
            self.assertEqual(self.installed("--no-default-groups"), {"a"})

    def test_uvs_own_development_dependencies_are_the_group_dev(self) -> None:
        self.project(groups=(), more='dev-dependencies = ["b"]\n')
        self.assertEqual(self.installed(), {"a", "dev"})

    def test_an_extra_of_such_a_name_is_no_group(self) -> None:
        self.project(groups=("docs",))
        self.assertEqual(self.installed(), {"a"})
        self.project('"all"', groups=("docs",))
        self.assertEqual(self.installed(), {"a", "docs"})

    def test_without_a_project_file(self) -> None:
        self.assertEqual(self.installed(), {"a", "dev"})
        self.lock(["x"])
        self.assertEqual(self.installed(), {"a"})

    def test_a_group_that_the_lock_does_not_have(self) -> None:
        self.lock(["group-test", "x"])
        self.project('["test", "dev"]')
        said = self.ran("sync", "--dry-run", status=8).stderr
        self.assertIn("tool.uv.default-groups: the lock has no group dev (it has: test); `tools/lock` locks", said)
        self.assertEqual(self.installed("--no-default-groups"), {"a"})
        self.project()
        self.assertEqual(self.installed(), {"a"}, "dev isn't locked yet, and nobody named it")

    def test_settings_that_are_none(self) -> None:
        for setting in ["1", '"dev"', "[1]", "{ dev = true }"]:
            self.project(setting)
            said = self.ran("sync", "--dry-run", status=3).stderr
            self.assertIn('tool.uv.default-groups: it is neither a list of names nor "all"', said)


if __name__ == "__main__":
    unittest.main()
