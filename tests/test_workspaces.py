"""Workspaces: members by patterns, one lock for all of them, found from every folder, and walks from a member; and the
members that are refused, for their names, their bounds, or since they lead out."""

from __future__ import annotations

import importlib.util
import json
import os
import unittest
from unittest import mock

from making import Done, Folder, plain_wheel, skip, want_program
from repository import Repository, project_text, want_git
from serving import Server
from sources import BUILD_SYSTEM
from unilock_tools import assembled, workspaces
from unilock_tools.console import Refused
from unilock_tools.locks import load

ROOT = '[tool.uv.workspace]\nmembers = ["packages/*"]\n'
OWN = "[tool.uv.sources]\nb = { workspace = true }\n"


class Members(Folder):
    def member(self, name: str, requires: tuple[str, ...] = (), more: str = "", folder: str = "") -> None:
        self.write(f"{folder or f'packages/{name}'}/pyproject.toml", project_text(name, "1", requires, more))

    def found(self, root: str = ROOT) -> workspaces.Workspace:
        self.write("pyproject.toml", root)
        return workspaces.load(self.top / "pyproject.toml")

    def refused(self, root: str = ROOT) -> str:
        with self.assertRaises(Refused) as found:
            assembled.text_of(self.found(root))
        self.assertEqual(found.exception.status, 3)
        return str(found.exception).replace(f"{self.top}/", "")


class Found(Members):
    def test_patterns_and_what_they_leave_out(self) -> None:
        for name in ("a", "b", "c"):
            self.member(name)
        self.member("deep", folder="packages/a/inner/deep")
        self.member("tool", folder="tools/tool")
        (self.top / "packages" / "__pycache__").mkdir()
        (self.top / "packages" / ".hidden").mkdir()
        self.write("packages/notes.txt", "")
        self.write("packages/left/pyproject.toml", project_text("left", "1", (), "[tool.uv]\nmanaged = false\n"))
        for members, exclude, names in [
            ('["packages/*"]', "", "a b c"), ('["packages/*", "tools/tool/"]', "", "a b c tool"), ("[]", "", ""),
            ('["packages/*"]', 'exclude = ["packages/b", "packages/c*"]', "a"), ('["packages/[ab]"]', "", "a b"),
            ('["packages/a", "packages/a/**/deep"]', "", "a deep"), ('["."]', "", ""),
            ('["packages/a", "packages/a/**/deep"]', 'exclude = ["packages/a/inner"]', "a"),
        ]:  # fmt: skip
            found = self.found(f"[tool.uv.workspace]\nmembers = {members}\n{exclude}\n")
            self.assertEqual(" ".join(sorted(found.members)), names, members + exclude)

    def test_the_root_is_found_from_every_folder(self) -> None:
        self.member("a")
        self.member("left", folder="packages/left")
        self.member("beside", folder="beside")
        (self.top / "packages" / "a" / "src").mkdir()
        self.write("pyproject.toml", ROOT + 'exclude = ["packages/left"]\n')
        places = [".", "packages", "packages/a", "packages/a/src", "packages/left", "beside"]
        found = [workspaces.root_of(self.top / it).relative_to(self.top).as_posix() for it in places]
        self.assertEqual(found, [".", ".", ".", ".", "packages/left", "beside"])

    def test_the_name_of_a_root_without_a_project(self) -> None:
        for folder, name in [("My Shop", "my-shop-workspace"), ("_x_", "x-workspace"), ("é", "workspace")]:
            self.member("a", folder=f"{folder}/packages/a")
            self.write(f"{folder}/pyproject.toml", ROOT)
            self.assertEqual(workspaces.load(self.top / folder / "pyproject.toml").name, name)

    def test_a_member_of_the_name_that_the_root_would_have(self) -> None:
        self.member("x-workspace", folder="x/packages/a")
        self.write("x/pyproject.toml", ROOT)
        self.assertEqual(workspaces.load(self.top / "x" / "pyproject.toml").name, "x-workspace-root")

    def test_the_file_that_is_put_together(self) -> None:
        more = '[project.optional-dependencies]\nFast_er = ["q"]\n[dependency-groups]\ntest = ["z"]\n'
        self.member("a", ("b @ file:///nowhere",), 'requires-python = ">=3.9"\n' + more)
        self.member("b", (), 'requires-python = ">=3.8,<4"\n')
        own = '[tool.uv]\nconstraint-dependencies = ["q<2"]\n[dependency-groups]\ndev = ["t"]\n'
        self.write("pyproject.toml", ROOT + own)
        shown = self.ran("lock", "--show-project").stdout
        self.assertEqual(self.ran("lock", "packages/a/pyproject.toml", "--show-project").stdout, shown)
        tables = workspaces.toml_of(str(self.write("shown.toml", shown)))
        self.assertEqual(tables["project"]["dependencies"], ["a", "b"])
        self.assertEqual(tables["project"]["requires-python"], ">=3.9,>=3.8,<4")
        self.assertEqual(tables["project"]["optional-dependencies"], {"workspace": ["a[fast-er,group-test]", "b"]})
        self.assertEqual(tables["dependency-groups"], {"dev": ["t"]})
        self.assertEqual(tables["tool"], {"uv": {"constraint-dependencies": ["q<2"]}, "unilock": {"profile": "wide"}})

    def test_a_root_that_is_a_project_keeps_what_it_says(self) -> None:
        self.member("a", ("r",))
        extras = '[project.optional-dependencies]\nx = []\n'
        root = project_text("r", "3", ("q>1", "u @ https://example.org/u.whl"), extras)
        made = assembled.tables_of(self.found(root + ROOT))["project"]
        self.assertEqual(made["dependencies"], ["q>1", "u"])
        self.assertEqual(made["optional-dependencies"], {"x": [], "workspace": ["a"]})
        self.assertEqual((made["name"], made["version"]), ("r", "3"))


class RefusedOnes(Members):
    def test_two_members_with_one_name(self) -> None:
        self.member("a")
        self.member("A", folder="packages/z")
        told = "packages/z/pyproject.toml: a is the name of another member, packages/a/pyproject.toml"
        self.assertEqual(self.refused(), told)
        told = "packages/a/pyproject.toml: a is the name of another member, pyproject.toml"
        self.assertEqual(self.refused(project_text("a", "1") + ROOT), told)

    def test_no_interpreter_for_all(self) -> None:
        self.member("a", (), 'requires-python = ">=3.12"\n')
        self.member("b", (), 'requires-python = ">=3.8,<3.12"\n')
        said = self.refused()
        self.assertIn("keeps the requires-python of all members: >=3.12 (packages/a/pyproject.toml)", said)
        self.assertIn("<3.12 (packages/b/pyproject.toml)", said)

    def test_what_is_no_member(self) -> None:
        (self.top / "packages" / "a").mkdir(parents=True)
        self.assertIn("packages/a has no pyproject.toml; `exclude` leaves it out", self.refused())
        self.write("packages/a/pyproject.toml", "[tool.uv]\n")
        self.assertIn("packages/a/pyproject.toml: a member has no [project] with a name", self.refused())
        self.member("a", (), "[tool.uv.workspace]\nmembers = []\n")
        self.assertIn("a member has a workspace of its own", self.refused())
        self.member("a", ("b",), OWN)
        self.write("pyproject.toml", ROOT)
        said = self.ran("index", "pyproject.toml", "ix", status=3).stderr
        self.assertIn("packages/a: b isn't a member of the workspace", said)

    def test_patterns_and_links_that_lead_out(self) -> None:
        for pattern in ("../*", "/etc", "packages/../../x", "\\\\x", "c:/x"):
            text = f"[tool.uv.workspace]\nmembers = [{json.dumps(pattern)}]\n"
            self.assertIn("leads out of the workspace", self.refused(text), pattern)
        self.write("pyproject.toml", "")
        outside = self.top.parent / f"{self.top.name}-outside"
        outside.mkdir()
        self.addCleanup(os.rmdir, outside)
        (outside / "pyproject.toml").write_text(project_text("a", "1"))
        self.addCleanup((outside / "pyproject.toml").unlink)
        (self.top / "packages").mkdir()
        os.symlink(outside, self.top / "packages" / "a")
        self.assertIn("packages/a is a link that leads out of the workspace", self.refused())

    def test_shapes(self) -> None:
        for text in ["members = 1", "members = [1]", 'members = [""]', 'exclude = "x"']:
            self.assertIn("it isn't a list of patterns", self.refused(f"[tool.uv.workspace]\n{text}\n"))
        self.assertIn("tool.uv.workspace: it isn't a table", self.refused("[tool.uv]\nworkspace = 1\n"))
        root = project_text("r", "1", (), "[project.optional-dependencies]\nworkspace = []\n")
        self.assertIn("this extra is the workspace's", self.refused(root + ROOT))


class Locked(Members):
    """With the program: one lock for all members, and walks from one."""

    def setUp(self) -> None:
        super().setUp()
        want_program(self)
        (self.top / "wheels").mkdir()
        for name in ("q", "t", "z"):
            for number in ("1", "2"):
                plain_wheel(self.top / "wheels", name, number)
        self.member("a", ("b[x]", "q"), '[dependency-groups]\ntest = ["z"]\n' + OWN)
        extras = "[project.optional-dependencies]\nx = [\"q<2; os_name == 'posix'\"]\n"
        self.member("b", (), extras + BUILD_SYSTEM)
        self.write("pyproject.toml", ROOT + '[dependency-groups]\ndev = ["t"]\n')
        self.ran("index", "wheels", "ix")

    def at(self, folder: str, *words: str, status: int = 0) -> Done:
        top = self.top
        self.top = self.top / folder
        kept = {**self.environment(), "XDG_CACHE_HOME": str(top / "cache")}
        with mock.patch.object(self, "environment", return_value=kept):
            try:
                return self.ran(*words, status=status)
            finally:
                self.top = top

    def test_one_lock_from_every_folder(self) -> None:
        done = self.at("packages/a", "lock")
        self.assertEqual(done.stdout.splitlines()[-1], "../../unilock.lock is written: 5 packages")
        self.assertEqual(done.stderr, "")
        self.assertFalse((self.top / "packages" / "a" / "unilock.lock").exists())
        lock = load(str(self.top / "unilock.lock"))
        self.assertEqual({it.name for it in lock.packages} - {lock.root}, {"a", "b", "q", "t", "z"})
        self.assertEqual(list(lock.package("a", "1").extras), ["group-test"])
        self.assertEqual(self.ran("lock").stdout, "unilock.lock is current: 5 packages\n")
        self.assertTrue(self.at("packages", "verify").stdout.startswith("verified"))
        self.assertEqual(self.ran("doctor").stdout, "pyproject.toml: nothing was found\n")
        self.walks()
        self.changes()

    def walks(self) -> None:
        member = f"b @ {self.top.as_uri()}/packages/b\n"
        self.assertEqual(self.at("packages/a", "requirements", "--no-hashes", "--all").stdout, f"{member}q==1\n")
        own = self.ran("requirements", "--no-hashes", "--all", "--package", "a", "group-test").stdout
        self.assertEqual(own, f"{member}q==1\nz==2\n")
        self.assertEqual(self.printed("tree", "--package", "b")[0], "b 1")
        said = self.printed("tree", "--package", "B", "--extra", "x")
        self.assertEqual(said[1:3], ["b[x] 1", "└── q 1 ; os_name == 'posix'"])
        self.assertIn("unilock.lock has no package nix, so", self.ran("tree", "--package", "nix", status=1).stderr)
        told = self.ran("requirements", "--package", "b", "nix", status=8).stderr
        self.assertIn("unilock.lock has no extra nix (it has: x)", told)

    def changes(self) -> None:
        """What a member says now counts, and a member's lock isn't looked for beside it."""
        self.member("b", ("z<2",))
        self.assertIn("z 2 -> 1", self.at("packages/b", "lock").stdout)
        self.member("b", ("z>5",))
        before = (self.top / "unilock.lock").read_bytes()
        said = self.ran("lock", status=1).stderr
        self.assertIn("b 1", said)
        self.assertNotIn("unilock-project-", said)
        self.assertEqual((self.top / "unilock.lock").read_bytes(), before)


    def test_a_project_without_a_workspace_is_found_from_below(self) -> None:
        (self.top / "beside" / "src" / "inner").mkdir(parents=True)
        self.write("beside/pyproject.toml", project_text("own", "1", ("q<2",)))
        index = str(self.top / "ix")
        done = self.at("beside/src/inner", "lock", "pyproject.toml", index)
        self.assertEqual(done.stdout.splitlines()[-1], "../../unilock.lock is written: 1 package")
        self.assertEqual(self.at("beside/src", "requirements", "--no-hashes", "--all").stdout, "q==1\n")
        said = self.at("beside/src", "lock", "other/pyproject.toml", index, status=3).stderr
        self.assertTrue(said.startswith("lock: other/pyproject.toml: there is no such file\n"), said)

    def test_requirements_are_added_to_a_member(self) -> None:
        if importlib.util.find_spec("tomlkit") is None:
            skip(self, "tomlkit isn't installed")
        self.ran("lock")
        self.assertIn("added", self.at("packages/b", "add", "z<2").stdout)
        text = (self.top / "packages" / "b" / "pyproject.toml").read_text(encoding="utf-8")
        self.assertIn('dependencies = ["z<2"]', text)
        lock = load(str(self.top / "unilock.lock"))
        self.assertEqual([it.name for it in lock.package("b", "1").edges], ["z"])
        self.assertFalse((self.top / "packages" / "b" / "unilock.lock").exists())
        before = text
        self.at("packages/b", "add", "q>5", status=1)
        self.assertEqual((self.top / "packages" / "b" / "pyproject.toml").read_text(encoding="utf-8"), before)
        self.at("packages/b", "remove", "z")
        self.assertEqual(load(str(self.top / "unilock.lock")).package("b", "1").edges, [])

    def test_an_index_that_a_member_names_is_asked_for_its_package_alone(self) -> None:
        (self.top / "private").mkdir()
        plain_wheel(self.top / "private", "t", "7")
        plain_wheel(self.top / "private", "q", "9")
        more = '[tool.uv.sources]\nt = { index = "Private" }\n'
        self.member("a", ("t", "q"), more)
        for path in (self.top / "ix").iterdir():
            path.unlink()
        (self.top / "ix").rmdir()
        with Server(self.top / "private") as private, Server(self.top / "wheels") as server:
            index = f'[[tool.uv.index]]\nname = "private"\nurl = "{private.url}"\nexplicit = true\n'
            self.write("pyproject.toml", ROOT + index)
            self.at("packages/a", "lock", "--index-url", server.url)
            self.assertEqual({it.split("/")[2] for it, _ in private.asked if "/simple/" in it}, {"t"})
        lock = load(str(self.top / "unilock.lock"))
        self.assertEqual([lock.by_name()[it][0].version for it in ("t", "q")], ["7", "1"])
        self.member("b", ("t",), more.replace("Private", "other"))
        said = self.ran("lock", status=3).stderr
        self.assertIn("packages/b/pyproject.toml: tool.uv.sources.t: its index isn't the one that packages/a", said)

    def test_a_lock_of_uv_is_not_judged(self) -> None:
        self.write("uv.lock", "version = 1\n")
        self.assertIn("pyproject.toml has a workspace, whose members", self.ran("judge", "uv.lock", status=3).stdout)


class InARepository(Members):
    def test_a_member_of_a_workspace_in_a_repository(self) -> None:
        """What it requires of its workspace comes from the same commit."""
        want_git(self)
        remote = Repository(self.top / "remote")
        remote.write("pyproject.toml", ROOT + '[tool.uv.sources]\nc = { path = "libs/c" }\n')
        remote.write("packages/a/pyproject.toml", project_text("a", "1", ("b", "c"), OWN))
        remote.write("packages/b/pyproject.toml", project_text("b", "2"))
        remote.write("libs/c/pyproject.toml", project_text("c", "3"))
        commit = remote.commit()
        source = f'a = {{ git = "{remote.url}", subdirectory = "packages/a" }}'
        self.write("pyproject.toml", f'{project_text("demo", "1", ("a",))}[tool.uv.sources]\n{source}\n')
        self.ran("index", "pyproject.toml", "ix", "--index-url", "http://127.0.0.1:9/", "--tries", "1")
        for name in ("a", "b", "c"):
            entry = json.loads((self.top / "ix" / f"{name}.json").read_text())["versions"][0]
            self.assertEqual(entry["files"][0]["file"], f"{name}-{commit}.git")


if __name__ == "__main__":
    unittest.main()
