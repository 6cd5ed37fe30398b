"""Locking by what is tried alone: the lock is the one by all documents, or right by them, with few requests."""

from __future__ import annotations

import os
import subprocess
from pathlib import Path
from unittest import mock

import lazily
from lazily import Documents, Held, with_files
from making import PROGRAM, Folder, plain_wheel, want_program
from serving import Server
from unilock_tools import lazy, project, walk

RUNS = int(os.environ.get("LAZY", "60"))


class Locks(Folder):
    def setUp(self) -> None:
        super().setUp()
        want_program(self)

    def all_documents(self, text: str, documents: Documents, *words: str) -> tuple[int, str]:
        """What the program answers by all documents."""
        folder = self.top / "whole"
        lazily.write_index(folder, documents)
        self.write("pyproject.toml", text)
        line = [str(PROGRAM), *(words or ("lock",)), str(self.top / "pyproject.toml"), str(folder)]
        line += ["1"] if not words else [str(self.top / "lazy.lock")]
        done = subprocess.run(line, capture_output=True, text=True, check=False)
        return done.returncode, done.stdout

    def lazily(self, text: str, documents: Documents, old: Path | None = None) -> tuple[lazy.Locked, Held]:
        return lazily.locked(self.write("pyproject.toml", text), documents, old)

    def test_few_requests(self) -> None:
        names = [f"p{number:02}" for number in range(20)]
        documents: Documents = {}
        for at, name in enumerate(names):
            needed = [f"{it}>=50" for it in names[at + 1 : at + 4]]
            entries = [{"version": f"{number}", "requires_dist": needed} for number in range(200)]
            documents[name] = {"name": name, "versions": entries}
        text = '[project]\nname = "demo"\nversion = "1"\ndependencies = ["p00", "p05<150"]\n'
        found, held = self.lazily(text, documents)
        self.assertEqual(found.answer.status, 0, found.answer.text)
        self.assertEqual((found.answer.status, found.answer.text), self.all_documents(text, with_files(documents)))
        self.assertLessEqual(len(held.pages) + len(held.told), 80)
        self.assertEqual(len(held.told), len(set(held.told)))

    def test_requests_to_a_server(self) -> None:
        """20 packages of 200 releases take at most 80 requests, and at most two metadata requests a package of the
        lock. `python3 tests/lazily.py 300 100 4` asks that of a larger project."""
        found = lazily.figure(20, 200, 3)
        self.assertLessEqual(found.pages + found.metadata, 80)
        self.assertLessEqual(found.metadata, 2 * found.packages)

    def test_of_releases_that_all_clash_more_and_more_are_fetched_at_a_time(self) -> None:
        documents: Documents = {
            "a": {"name": "a", "versions": [{"version": f"{it}", "requires_dist": ["c>=2"]} for it in range(100)]},
            "c": {"name": "c", "versions": [{"version": f"{it}"} for it in range(4)]},
        }
        for mode in ("highest", "lowest"):
            text = '[project]\nname = "demo"\nversion = "1"\ndependencies = ["a", "c<2"]\n'
            text += f'[tool.uv]\nresolution = "{mode}"\n'
            with mock.patch.object(lazy.program, "answer", side_effect=lazy.program.answer) as asked:
                found, held = self.lazily(text, documents)
            self.assertEqual((found.answer.status, found.answer.text.count("\na ")), (1, 100))
            self.assertEqual(len(held.told), len(set(held.told)))
            self.assertLess(asked.call_count, 16)

    def test_drawn_indexes(self) -> None:
        """`tools/fuzz --lazy` makes long runs; the variable LAZY has another count of runs here."""
        found = [lazily.compared(7, number) for number in range(RUNS)]
        self.assertEqual([(number, it.finding) for number, it in enumerate(found) if it.finding], [])
        count = {kind: sum(it.kind == kind for it in found) for kind in ("equal", "right", "refused")}
        self.assertGreater(count["equal"], RUNS // 3)
        self.assertGreater(count["refused"], 0)
        self.assertLessEqual(count["right"], count["equal"] // 10)

    def test_pre_releases_count_where_no_final_release_can_be_used(self) -> None:
        documents: Documents = {
            "a": {
                "name": "a",
                "versions": [
                    {"version": "1", "requires_dist": ["b (>dev)"]},
                    {"version": "2a1"},
                ],
            }
        }
        text = '[project]\nname = "demo"\nversion = "1"\ndependencies = ["a>1"]\n'
        found, held = self.lazily(text, documents)
        self.assertEqual((found.answer.status, found.answer.text), self.all_documents(text, with_files(documents)))
        self.assertEqual(found.answer.status, 0)
        self.assertEqual(sorted(held.told), ["a 1", "a 2a1"])

    def test_the_versions_of_an_old_lock_are_tried_first(self) -> None:
        documents: Documents = {"a": {"name": "a", "versions": [{"version": f"{it}"} for it in range(1, 9)]}}
        text = '[project]\nname = "demo"\nversion = "1"\ndependencies = ["a"]\n'
        old = self.write("old.lock", 'version = 2\nroot = "demo"\n\n[[package]]\nname = "a"\nversion = "3"\n'
                         '\n[[package]]\nname = "demo"\nversion = "1"\n')
        found, held = self.lazily(text, documents, old)
        self.assertIn('name = "a"\nversion = "3"', found.answer.text)
        self.assertEqual(sorted(held.told), ["a 3", "a 8"])

    def test_unknown_releases_never_reach_what_is_kept(self) -> None:
        entries = [{"version": f"{it}", "requires_dist": ["b"]} for it in range(1, 9)]
        documents: Documents = {"a": {"name": "a", "versions": entries}}
        documents["b"] = {"name": "b", "versions": [{"version": "1"}]}
        found, _ = self.lazily('[project]\nname = "demo"\nversion = "1"\ndependencies = ["a"]\n', documents)
        kept = [(name, it["version"]) for name, one in found.documents.items() for it in one["versions"]]
        self.assertEqual(kept, [("a", "8"), ("b", "1")])

    def test_a_name_that_the_server_does_not_have(self) -> None:
        documents: Documents = {"a": {"name": "a", "versions": [{"version": "1"}]}}
        found, _ = self.lazily('[project]\nname = "demo"\nversion = "1"\ndependencies = ["a", "gone"]\n', documents)
        self.assertEqual(found.answer.status, 1)
        self.assertEqual(found.warnings, ["the server has no project gone"])

    def test_a_refusal_asks_for_what_was_tried_and_a_way_out_for_more(self) -> None:
        documents: Documents = {
            "a": {"name": "a", "versions": [{"version": f"{it}", "requires_dist": ["c>=20,<30"]} for it in range(50)]},
            "c": {"name": "c", "versions": [{"version": f"{it}"} for it in range(50)]},
        }
        path = self.write("pyproject.toml", '[project]\nname = "demo"\nversion = "1"\ndependencies = ["a", "c<9"]\n')
        held = Held(documents)
        asking = lazy.Lazy(held, project.load(str(path)), walk.Choice(), jobs=2)  # type: ignore[arg-type]
        refused = asking.run()
        self.assertEqual(refused.answer.status, 1)
        self.assertLessEqual(len(held.told), 60, "each release of a, and one or two of c")
        self.assertEqual(len(refused.working["c"]["versions"]), 50)
        self.assertLess(len(refused.documents["c"]["versions"]), 5)
        changed = self.write("changed.toml", path.read_text(encoding="utf-8").replace("c<9", "c"))
        answered = asking.tried(str(changed))
        assert answered is not None
        self.assertIn('name = "c"\nversion = "29"', answered.text)
        self.assertIn("c 29", held.told)
        self.assertLessEqual(len(held.told), 62)


class Served(Folder):
    """`tools/lock` without an index folder, from a package index on the loopback address."""

    def setUp(self) -> None:
        super().setUp()
        want_program(self)
        self.wheels = self.top / "wheels"
        self.wheels.mkdir()
        for version_text in ["1.0", "1.1", "2.0"]:
            plain_wheel(self.wheels, "alpha", version_text, ["beta<2"])
        for version_text in ["1.0", "1.5", "2.0"]:
            plain_wheel(self.wheels, "beta", version_text)
        self.write("pyproject.toml", '[project]\nname = "demo"\nversion = "1"\ndependencies = ["alpha"]\n')

    def test_from_a_project_to_a_lock_in_one_command(self) -> None:
        with Server(self.wheels) as server:
            self.ran("lock", "--index-url", server.url)
            text = (self.top / "unilock.lock").read_text(encoding="utf-8")
            self.assertIn('name = "alpha"\nversion = "2.0"', text)
            self.assertIn('name = "beta"\nversion = "1.5"', text)
            self.assertEqual(len(server.paths("metadata")), 3, "alpha 2.0, beta 2.0 and beta 1.5")
            asked = len(server.asked)
            again = self.ran("lock", "--index-url", server.url)
            self.assertIn("is current: 2 packages", again.stdout)
            self.assertEqual(len(server.asked), asked, "nothing is asked again")
            # A new dependency asks for its page without another command.
            self.write("pyproject.toml", '[project]\nname = "demo"\nversion = "1"\ndependencies = ["alpha", "gamma"]\n')
            plain_wheel(self.wheels, "gamma", "1")
            self.ran("lock", "--index-url", server.url)
            self.assertIn('name = "gamma"\nversion = "1"', (self.top / "unilock.lock").read_text(encoding="utf-8"))
        self.assertEqual((self.top / ".unilock" / ".gitignore").read_text(encoding="utf-8").splitlines()[-1], "*")

    def test_what_is_passed_over_is_told(self) -> None:
        (self.wheels / "alpha-3.0.zip").write_bytes(b"")
        other = plain_wheel(self.wheels, "alpha", "2.0", ["beta<2"], tags="cp311-cp311-win_amd64").name
        (self.wheels / "gamma-1.egg").write_bytes(b"")
        self.write("pyproject.toml", '[project]\nname = "demo"\nversion = "1"\ndependencies = ["alpha", "gamma"]\n')
        full = OSError(28, "No space left on device")
        with Server(self.wheels) as server, mock.patch("unilock_tools.cache.write_beside", side_effect=full):
            server.yanked = [other]
            said = self.ran("lock", "--index-url", server.url, status=1).stderr
        for text in [
            "alpha: alpha-3.0.zip: it is neither a .whl nor a .tar.gz; passed over",
            f"alpha: {other}: it is yanked, and other files of its release aren't; passed over",
            "gamma: gamma-1.egg: it is neither a .whl nor a .tar.gz; passed over",
            "the server has no release of gamma, of 1 file that it lists that can be taken",
            "unilock: No space left on device, so what was fetched isn't kept",
        ]:
            self.assertIn(text, said)
