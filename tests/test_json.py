"""What the tools print with --json: one object (of `many` a list) with the keys that docs/MANUAL.md lists, and the
statuses that they have without."""

from __future__ import annotations

import json
import re
import sys
import unittest

from making import TOP, Folder, document, want_program

MANUAL = (TOP / "docs" / "MANUAL.md").read_text(encoding="utf-8")
UV_LOCK = """version = 1
requires-python = ">=3.9"

[[package]]
name = "demo"
version = "0.1"
source = { virtual = "." }
dependencies = [{ name = "q" }]

[package.metadata]
requires-dist = [{ name = "q" }]

[[package]]
name = "q"
version = "1"
source = { registry = "https://pypi.org/simple" }
"""


def documented() -> dict[str, str]:
    """What the manual says of each tool's keys."""
    table = MANUAL.partition("| Tool | Keys |\n|---|---|\n")[2].partition("\n\n")[0]
    return {name: said for name, said in re.findall(r"^\| `([a-z]+)[^`]*` \| (.*) \|$", table, re.M)}


class Objects(Folder):
    def setUp(self) -> None:
        super().setUp()
        want_program(self)
        head = '[project]\nname = "demo"\nversion = "0.1"\nrequires-python = ">=3.9"\n'
        self.write("pyproject.toml", f'{head}dependencies = ["q"]\n')
        self.write("refused/pyproject.toml", f'{head}dependencies = ["q>=3"]\n')
        self.write("ix/q.json", document("q", {"version": "1"}, {"version": "2", "requires_python": ">=3.11"}))
        self.write("uv.lock", UV_LOCK)
        self.ran("lock")
        self.write("new.lock", (self.top / "unilock.lock").read_text(encoding="utf-8").replace('"1"', '"2"'))

    def found(self, *words: str, status: int) -> object:
        """What a call prints with --json; without, it ends with the same status."""
        done = self.ran(*words, "--json", status=status)
        self.ran(*words, status=status)
        return json.loads(done.stdout)

    def told(self, name: str, *words: str, keys: str, status: int = 0) -> dict:
        """The object of a call, which has these keys, each of which the manual names."""
        found = self.found(name, *words, status=status)
        assert isinstance(found, dict)
        self.assertEqual(sorted(found), sorted(keys.split()))
        self.named(name, found)
        return found

    def named(self, name: str, found: object) -> None:
        """The manual names all keys of an object, and of those in it."""
        for entry in found if isinstance(found, list) else [found]:
            if isinstance(entry, dict):
                for key, value in entry.items():
                    self.assertIn(f"`{key}`", documented()[name], name)
                    self.named(name, value)

    def test_each_tool_that_has_it_is_in_the_manual(self) -> None:
        texts = {it.stem: it.read_text(encoding="utf-8") for it in (TOP / "python" / "unilock_tools").glob("*.py")}
        have = {name for name, text in texts.items() if "add_json(made)" in text or '"--json"' in text}
        self.assertEqual(have - {"console"}, set(documented()))

    def test_lock(self) -> None:
        found = self.told("lock", "--check", keys="lock state count packages lines")
        self.assertEqual((found["state"], found["count"], found["packages"]), ("current", 1, []))
        found = self.told("lock", "refused/pyproject.toml", "ix", keys="lock state sentences", status=1)
        self.assertEqual(found["state"], "refused")
        self.assertIn("no version of q meets `>=3`", "\n".join(found["sentences"]))

    def test_sync(self) -> None:
        found = self.told(
            "sync", "--dry-run", "--no-project", "--python", sys.executable, keys="install remove project"
        )
        self.assertEqual(found["install"], [{"name": "q", "version": "1", "old": None, "source": None}])
        self.assertEqual((found["remove"], found["project"]), ([], None))

    def test_diff(self) -> None:
        found = self.told("diff", "unilock.lock", "new.lock", keys="packages lines", status=1)
        self.assertEqual(found["packages"], [{"name": "q", "old": ["1"], "new": ["2"]}])
        self.assertEqual(found["lines"][0], "q 1 -> 2")

    def test_outdated(self) -> None:
        found = self.told("outdated", "unilock.lock", keys="packages", status=1)
        self.assertEqual([it["newest"] for it in found["packages"]], ["2"])

    def test_tree(self) -> None:
        found = self.told("tree", "unilock.lock", keys="tops nodes")
        self.assertEqual([it["name"] for it in found["tops"]], ["demo"])
        self.assertEqual({it["name"] for it in found["nodes"]}, {"demo", "q"})

    def test_explain(self) -> None:
        found = self.told("explain", "refused/pyproject.toml", "ix", keys="sentences")
        self.assertEqual(found["sentences"][0], "No choice of versions serves the project.")

    def test_doctor(self) -> None:
        found = self.told("doctor", "refused/pyproject.toml", "ix", keys="findings")
        self.assertEqual([it for it in found["findings"] if it["kind"] == "error"], [])
        self.write("ix/q.json", document("other", {"version": "1"}))
        found = self.told("doctor", keys="findings", status=1)
        self.assertEqual(found["findings"][0]["kind"], "error")

    def test_judge(self) -> None:
        found = self.told("judge", "uv.lock", keys="lock verdict packages together reasons")
        self.assertEqual((found["verdict"], found["packages"], found["reasons"]), ("right", 1, []))
        self.write("uv.lock", UV_LOCK.replace('version = "1"\nsource = { reg', 'version = "3"\nsource = { reg'))
        found = self.told("judge", "uv.lock", keys="lock verdict packages together reasons", status=1)
        self.assertEqual(found["verdict"], "wrong")
        self.assertIn("q 3", found["reasons"][0])
        self.write("uv.lock", "version = 9\n")
        found = self.told("judge", "uv.lock", keys="lock verdict packages together reasons", status=3)
        self.assertEqual((found["verdict"], found["packages"]), ("not judged", None))

    def test_many(self) -> None:
        self.write("all/one/pyproject.toml", (self.top / "pyproject.toml").read_text(encoding="utf-8"))
        self.write("all/one/unilock.lock", (self.top / "unilock.lock").read_text(encoding="utf-8"))
        found = self.found("many", "verify", "all", "--index", "ix", status=0)
        self.named("many", found)
        assert isinstance(found, list)
        self.assertEqual([(it["job"], it["result"]) for it in found], [("verify", "right")])
        self.assertEqual(sorted(found[0]), sorted("folder job result text seconds read".split()))


if __name__ == "__main__":
    unittest.main()
