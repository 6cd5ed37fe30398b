"""The index folder that `tools/lock` keeps by itself: it serves again while the same is asked and has its lock; else
the package index is asked, so that no answer hangs on what was tried before."""

from __future__ import annotations

import importlib.util
import json
import unittest
from unittest import mock

from making import Folder, plain_wheel, skip, tool, want_program
from serving import Server
from test_relocking import FORKS, VERSIONS
from unilock_tools import locks

HEAD = '[project]\nname = "demo"\nversion = "1"\nrequires-python = ">=3.8"\n'


class Own(Folder):
    def setUp(self) -> None:
        super().setUp()
        want_program(self)
        self.wheels = self.top / "wheels"
        self.wheels.mkdir()
        for number in ("1.0", "1.5", "2.0"):
            plain_wheel(self.wheels, "beta", number)
        self.server = Server(self.wheels)
        self.server.__enter__()
        self.addCleanup(self.server.__exit__)

    def project(self, *required: str, more: str = "") -> None:
        self.write("pyproject.toml", f"{HEAD}dependencies = {json.dumps(required)}\n{more}")

    def locked(self, *words: str, status: int = 0) -> str:
        done = self.ran("lock", *words, "--index-url", self.server.url, status=status)
        return done.stdout + done.stderr

    def versions(self) -> dict[str, list[str]]:
        found = locks.load(str(self.top / "unilock.lock")).by_name()
        return {name: [it.version for it in packages] for name, packages in found.items() if name != "demo"}


class AskedAgain(Own):
    def test_a_bound_that_was_changed(self) -> None:
        """The folder of the first lock has no release that the second project permits."""
        self.project("beta<2")
        self.locked()
        self.assertEqual(self.versions(), {"beta": ["1.5"]})
        self.project("beta>=2")
        self.assertIn("beta 1.5 -> 2.0", self.locked())

    def test_new_releases(self) -> None:
        plain_wheel(self.wheels, "alpha", "1.0")
        self.project("alpha", "beta")
        self.locked()
        plain_wheel(self.wheels, "alpha", "2.0", ["beta<2"])
        plain_wheel(self.wheels, "beta", "3.0")
        asked = len(self.server.asked)
        self.assertIn("is current", self.locked())
        self.assertEqual(len(self.server.asked), asked, "nothing is asked while the same is asked for")
        self.assertIn("is current", self.locked("--refresh"))
        self.assertGreater(len(self.server.asked), asked)
        said = self.locked("-P", "alpha", "--check", status=1)
        self.assertIn("alpha 1.0 -> 2.0\nbeta 2.0 -> 1.5\n", said)
        said = self.locked("-P", "beta==1.0")
        self.assertEqual(self.versions(), {"alpha": ["1.0"], "beta": ["1.0"]}, said)
        self.locked("--upgrade")
        self.assertEqual(self.versions(), {"alpha": ["2.0"], "beta": ["1.5"]})

    def test_one_version_is_taken_though_others_change_by_it(self) -> None:
        plain_wheel(self.wheels, "alpha", "1.0", ["beta<2"])
        plain_wheel(self.wheels, "alpha", "2.0", ["beta>=2"])
        self.project("alpha", more='[dependency-groups]\nx = ["beta>1"]\n')
        self.locked()
        self.assertEqual(self.versions(), {"alpha": ["2.0"], "beta": ["2.0"]})
        said = self.locked("-P", "beta==1.5")
        self.assertEqual(self.versions(), {"alpha": ["1.0"], "beta": ["1.5"]}, said)
        self.assertIn("is current", self.locked())
        said = self.locked("-P", "beta==1", status=1)
        self.assertIn("beta==1 is asked for by --upgrade-package, as if it stood among the constraints\n", said)
        self.assertIn("(dependency-groups.x[0]: `beta>1` and tool.uv.constraint-dependencies[0]: `beta==1`)", said)
        said = self.locked("-P", "delta==1", status=1)
        self.assertIn("delta 1 isn't taken: nothing that is locked needs delta", said)
        self.assertEqual(self.versions(), {"alpha": ["1.0"], "beta": ["1.5"]})

    def test_a_lock_that_is_gone(self) -> None:
        self.project("beta")
        self.locked()
        plain_wheel(self.wheels, "beta", "3.0")
        (self.top / "unilock.lock").unlink()
        self.locked()
        self.assertEqual(self.versions(), {"beta": ["3.0"]})

    def test_an_old_lock_that_leads_to_nothing_is_left_out(self) -> None:
        """With the lock that it has just printed as the old one, `lock` refuses the project with another requirement;
        without it there is a lock, of which the folder then has what it needs."""
        for name, document in tool("scenario").documents(FORKS + VERSIONS + "v 1\n").items():
            for entry in document["versions"]:
                plain_wheel(self.wheels, name, entry["version"], entry.get("requires_dist", ()))
        self.project("a")
        self.locked()
        before = self.versions()
        self.project("a", "v")
        self.locked()
        self.assertEqual(self.versions(), {**before, "v": ["1"]})
        self.assertIn("is current", self.locked())

    def test_a_server_that_is_gone(self) -> None:
        self.project("beta<2")
        self.locked()
        self.project("beta")
        self.server.faults = {"/simple/beta/": [500] * 4}
        with mock.patch("time.sleep"):
            said = self.locked(status=5)
        self.assertIn("500 Internal Server Error", said)
        self.assertIn("`tools/lock pyproject.toml .unilock/ix` locks by what was kept, without a server", said)
        self.ran("lock", "pyproject.toml", ".unilock/ix")
        self.assertEqual(self.versions(), {"beta": ["1.5"]})

    def test_an_old_lock_that_is_none_is_told_before_anything_is_asked(self) -> None:
        self.project("beta")
        self.write("unilock.lock", "[project]\n")
        self.assertIn("unilock.lock isn't a lock of unilock", self.locked(status=3))
        self.assertEqual(self.server.asked, [])


class Used(Own):
    """Other commands take the folder where there is no other."""

    def test_verify_and_explain(self) -> None:
        self.project("beta")
        self.locked()
        self.assertIn("verified, and all its files are the index's (1)", self.ran("verify").stdout)
        self.assertIn("the project can be locked", self.ran("explain").stdout)
        self.assertIn("nothing was found", self.ran("doctor").stdout)
        said = self.ran("outdated")
        self.assertEqual(said.stdout, "")
        self.assertIn("outdated: .unilock/ix has the releases that were tried alone", said.stderr)
        self.assertIn("demo 1\n└── beta 2.0\n", self.ran("tree").stdout)

    def test_a_yanked_release_that_is_pinned_is_warned_of_with_its_reason(self) -> None:
        for form in ("json", "html"):
            self.server.form, self.server.yanked = form, ["beta-1.5-py3-none-any.whl"]
            self.project("beta==1.5")
            said = self.locked("--refresh", "--upgrade")
            self.assertEqual(self.versions(), {"beta": ["1.5"]})
            if form == "json":
                self.assertIn("beta 1.5, which it pins, is yanked: it was wrong\n", said)
        self.assertIn('"yanked": "it was wrong"', (self.top / ".unilock/ix/beta.json").read_text())

    def test_the_index_of_the_project_file(self) -> None:
        """The tools ask it, and the program passes the key over."""
        more = f'[[tool.uv.index]]\nname = "own"\nurl = "{self.server.url}"\ndefault = true\n\n[tool.other]\nx = 1\n'
        self.project("beta", more=more)
        said = self.ran("lock")
        self.assertIn(f"lock: asking {self.server.url} (tool.uv.index)\n", said.stderr)
        self.assertEqual(self.versions(), {"beta": ["2.0"]})
        self.assertIn("verified", self.ran("verify").stdout)
        self.project("beta", more=more + '[dependency-groups]\nx = ["beta=1"]\n')
        said = self.ran("lock", status=3)
        self.assertIn("  pyproject.toml: dependency-groups.x[0] (line 14): `beta=1`: ", said.stderr)
        self.assertIn("is `beta==1` meant?\n", said.stderr)
        self.project("beta>=3", more=more)
        self.assertIn("no version of beta meets `>=3`", self.ran("lock", status=1).stderr)

    def test_indexes_are_refused_by_the_strict_profile(self) -> None:
        more = '[[tool.uv.index]]\nname = "a"\nurl = "https://a/"\ndefault = true\n'
        more += '[[tool.uv.index]]\nurl = "https://b/"\n[tool.unilock]\nprofile = "strict"\n'
        self.project("beta", more=more)
        said = self.locked(status=3)
        self.assertIn("malformed: pyproject.toml: unsupported tool.uv.index", said)


class Edited(Own):
    def setUp(self) -> None:
        super().setUp()
        if importlib.util.find_spec("tomlkit") is None:
            skip(self, "tomlkit isn't installed")

    def test_a_requirement_is_added_by_a_package_index(self) -> None:
        plain_wheel(self.wheels, "moto", "5", ["beta<2"])
        self.project("beta")
        self.locked()
        said = self.ran("add", "moto", "--index-url", self.server.url).stdout
        self.assertIn("project.dependencies: `moto` added\nbeta 2.0 -> 1.5\nadded moto 5\n", said)
        before = (self.top / "pyproject.toml").read_text()
        said = self.ran("add", "nowhere", "--index-url", self.server.url, status=1).stderr
        self.assertIn("the server has no project nowhere", said)
        self.assertNotIn("stale index", said)
        self.assertEqual((self.top / "pyproject.toml").read_text(), before)
        self.ran("remove", "moto", "--index-url", self.server.url)
        self.assertEqual(list(self.versions()), ["beta"])
        self.assertFalse((self.top / "ix").exists())


if __name__ == "__main__":
    unittest.main()
