"""tools/lock: the lock is replaced by a good one alone, and what changed is said. A stand-in answers for the program in
most tests."""

from __future__ import annotations

import json
import os
import signal
import subprocess
import sys
import time
import unittest
from pathlib import Path
from typing import List

from making import TOP, Folder, document, want_program
from unilock_tools import locks

OLD = """version = 2
root = "demo"

[[package]]
name = "a"
version = "1"

[[package]]
name = "b"
version = "1"

[[package]]
name = "demo"
version = "0.1"
dependencies = [
    { name = "a", version = "1" },
    { name = "b", version = "1" },
]
"""
NEW = """version = 2
root = "demo"

[[package]]
name = "a"
version = "2"

[[package]]
name = "c"
version = "1"

[[package]]
name = "c"
version = "2"

[[package]]
name = "demo"
version = "0.1"
dependencies = [
    { name = "a", version = "2" },
    { name = "c", version = "1", marker = "os_name == 'nt'" },
    { name = "c", version = "2", marker = "os_name != 'nt'" },
]
"""
# It says its profile, so the program is called with the file itself.
WIDE = "[project]\nname = 'demo'\n[tool.unilock]\nprofile = 'wide'\n"
REFUSED = "no selection serves this fork\nfork: -\nregion: *\nworld: python_full_version == '0.0.0'\n"
SAID = ["a 1 -> 2", "removed b 1", "added c 1, 2"]


class StandIn(Folder):
    """A program that prints `answer`, ends with `status` and keeps the words that it was called with."""

    def setUp(self) -> None:
        super().setUp()
        said = 'echo "$@" >>asked\ncp "$5" kept 2>/dev/null\ncat answer\nexit $(cat status)\n'
        self.program = self.write("stand-in", f"#!/bin/sh\ncd {self.top}\n{said}")
        Path(str(self.program)).chmod(0o755)
        self.write("pyproject.toml", WIDE)
        (self.top / "ix").mkdir()
        self.lock = self.top / "unilock.lock"
        self.answers(NEW)

    def answers(self, text: str, status: int = 0) -> None:
        self.write("answer", text)
        self.write("status", str(status))

    def asked(self) -> List[str]:
        found = (self.top / "asked").read_text().splitlines()
        (self.top / "asked").unlink()
        return found

    def files(self) -> List[str]:
        return sorted(
            it.name for it in self.top.iterdir() if it.name not in ("asked", "answer", "status", "stand-in", "kept")
        )


class SafeLock(StandIn):
    def test_the_first_lock(self) -> None:
        said = self.printed("lock", "--workers", "3")
        self.assertEqual(said, ["added a 2", "added c 1, 2", "unilock.lock is written: 3 packages"])
        self.assertEqual(self.lock.read_text(), NEW)
        self.assertEqual(self.asked(), ["lock pyproject.toml ix 3"])

    def test_an_old_lock_is_kept_to_and_what_changed_is_said(self) -> None:
        self.lock.write_text(OLD)
        self.assertEqual(self.printed("lock", "--workers", "1"), [*SAID, "unilock.lock is written: 3 packages"])
        said = ["relock pyproject.toml ix 1 unilock.lock", "verify pyproject.toml ix unilock.lock"]
        self.assertEqual(self.asked(), said)
        self.assertEqual(self.lock.read_text(), NEW)
        before = self.lock.stat()
        self.assertEqual(self.printed("lock"), ["unilock.lock is current: 3 packages"])
        self.assertEqual(self.lock.stat().st_mtime_ns, before.st_mtime_ns)

    def test_all_other_answers_leave_the_lock_as_it_was(self) -> None:
        for status, text, said in [
            (1, REFUSED, "serves this fork (fork: -; region: *)\nNo choice of versions serves the project.\n"),
            (3, "malformed: pyproject.toml: not TOML\n", "malformed: pyproject.toml: not TOML"),
            (3, "malformed: unilock.lock: line 6\n", "--upgrade makes a new lock without the old one"),
            (4, "limit: forks 2048\n", "limit: forks 2048"),
            (5, "read fault: ix/a.json\n", "read fault: ix/a.json"),
            (7, "", "memory ran out"),
        ]:
            with self.subTest(text):
                self.lock.write_text(OLD)
                self.answers(text, status)
                done = self.ran("lock", status=status)
                self.assertEqual(done.stdout, "")
                self.assertIn(said, done.stderr)
                self.assertEqual(self.lock.read_text(), OLD)
                self.assertEqual(self.files(), ["ix", "pyproject.toml", "unilock.lock"])

    def test_the_core_of_a_refusal_is_said(self) -> None:
        self.write("pyproject.toml", "[project]\nname = 'demo'\ndependencies = ['q']\n")
        self.write("ix/q.json", document("q", {"version": "1", "requires_dist": ["z"]}))
        self.answers(REFUSED + "core: 2\ndemo 0.1 needs q {1}\nq 1 needs z {}\n", 1)
        said = self.ran("lock", status=1).stderr.splitlines()
        self.assertEqual(said[3:5], [
            "- the project needs q at 1 (project.dependencies[0]: `q`).",
            "- q 1 needs z (`z`), and the index has no document of z.",
        ])  # fmt: skip
        self.assertRegex(said[-1], r"None of \d+ changes of the project file that were tried leads to a lock\.")

    def test_an_answer_that_is_no_lock_is_not_written(self) -> None:
        self.lock.write_text(OLD)
        for text in ["", "nonsense\n", NEW[:100], NEW.replace('version = "2", marker', 'version = "3", marker')]:
            self.answers(text)
            self.ran("lock", status=1)
            self.assertEqual(self.lock.read_text(), OLD)

    def test_check_writes_nothing(self) -> None:
        self.assertEqual(self.printed("lock", "--check", status=1)[-1], "unilock.lock is not current: 3 packages")
        self.assertFalse(self.lock.exists())
        self.lock.write_text(OLD)
        self.assertEqual(self.printed("lock", "--check", status=1), [*SAID, "unilock.lock is not current: 3 packages"])
        self.assertEqual(self.lock.read_text(), OLD)
        self.lock.write_text(NEW)
        self.assertEqual(self.printed("lock", "--check"), ["unilock.lock is current: 3 packages"])

    def test_one_object(self) -> None:
        differing = [
            {"name": "a", "old": ["1"], "new": ["2"]},
            {"name": "b", "old": ["1"], "new": []},
            {"name": "c", "old": [], "new": ["1", "2"]},
        ]
        head = {"lock": "unilock.lock", "count": 3}
        first = json.loads(self.ran("lock", "--json", "--check", status=1).stdout)
        self.assertEqual([it["name"] for it in first["packages"]], ["a", "c"])
        self.lock.write_text(OLD)
        for words, state, status in [(["--check"], "not current", 1), (["--quiet"], "written", 0)]:
            found = json.loads(self.ran("lock", "--json", *words, status=status).stdout)
            self.assertEqual(found, {**head, "state": state, "packages": differing, "lines": SAID})
        found = json.loads(self.ran("lock", "--json", "--check").stdout)
        self.assertEqual(found, {**head, "state": "current", "packages": [], "lines": []})
        self.answers(REFUSED, 1)
        done = self.ran("lock", "--json", status=1)
        found = json.loads(done.stdout)
        self.assertEqual((found["lock"], found["state"]), ("unilock.lock", "refused"))
        self.assertEqual(found["sentences"][0], "No choice of versions serves the project.")
        self.assertIn(found["sentences"][0], done.stderr)

    def test_upgrades(self) -> None:
        self.lock.write_text(OLD)
        self.ran("lock", "--upgrade", "--check", "--workers", "2", status=1)
        self.assertEqual(self.asked(), ["lock pyproject.toml ix 2"])
        self.ran("lock", "--upgrade-package", "A", "--check", "--workers", "2", status=1)
        self.assertRegex(self.asked()[0], r"\Alock pyproject.toml ix 2 /.*/kept.lock\Z")
        kept = locks.load(str(self.top / "kept"))
        self.assertEqual([(it.name, it.version) for it in kept.packages], [("b", "1"), ("demo", "0.1")])
        done = self.ran("lock", "-P", "zz", "--check", status=1)
        self.assertIn("has no package zz to upgrade", done.stderr)

    def test_a_change_of_markers_alone_is_said(self) -> None:
        self.lock.write_text(NEW.replace("'nt'", "'posix'"))
        self.assertEqual(self.printed("lock")[0], "no version changed, but markers, files or extras did")

    def test_quiet(self) -> None:
        self.assertEqual(self.ran("lock", "-q"), ("", ""))
        self.assertTrue(self.lock.exists())

    def test_other_places(self) -> None:
        self.write("sub/pyproject.toml", WIDE)
        (self.top / "sub" / "ix").mkdir()
        self.ran("lock", "sub/pyproject.toml", "--workers", "1")
        self.assertEqual(self.asked(), ["lock sub/pyproject.toml sub/ix 1"])
        self.assertTrue((self.top / "sub" / "unilock.lock").exists())
        self.ran("lock", "pyproject.toml", "sub/ix", "-o", "other.lock", "--workers", "1")
        self.assertEqual(self.asked(), ["lock pyproject.toml sub/ix 1"])
        self.assertTrue((self.top / "other.lock").exists())

    def test_permissions_and_links_are_kept(self) -> None:
        real = self.write("real.lock", OLD)
        real.chmod(0o640)
        self.lock.symlink_to("real.lock")
        self.ran("lock")
        self.assertTrue(self.lock.is_symlink())
        self.assertEqual((real.read_text(), real.stat().st_mode & 0o777), (NEW, 0o640))

    def test_what_is_not_there(self) -> None:
        self.assertIn("absent.toml: there is no such file", self.ran("lock", "absent.toml", status=3).stderr)
        said = self.ran("lock", "pyproject.toml", "absent", status=3).stderr
        self.assertIn("absent: there is no such folder; `tools/index pyproject.toml absent` makes it", said)
        self.assertEqual(self.ran("lock", "--workers", "0", status=2).stderr, "lock: --workers 0: 1 to 64\n")
        self.program = self.top / "nowhere"
        self.assertIn("UNILOCK names", self.ran("lock", status=3).stderr)

    def test_an_interrupt(self) -> None:
        self.lock.write_text(OLD)
        self.write("stand-in", f"#!/bin/sh\necho >{self.top}/begun\nexec sleep 30\n")
        line = [sys.executable, str(TOP / "tools" / "lock")]
        running = subprocess.Popen(
            line,
            cwd=self.top,
            env=self.environment(),
            stdout=subprocess.PIPE,
            stderr=subprocess.PIPE,
            start_new_session=True,
        )
        until = time.monotonic() + 30
        while not (self.top / "begun").exists() and time.monotonic() < until:
            time.sleep(0.01)
        os.killpg(running.pid, signal.SIGINT)
        out, err = running.communicate(timeout=30)
        self.assertEqual((running.returncode, out, err), (130, b"", b"lock: interrupted\n"))
        self.assertEqual(self.lock.read_text(), OLD)

    def test_the_entry_script(self) -> None:
        done = self.ran("lock", "--check", status=1, python=sys.executable)
        self.assertEqual(done.stdout.splitlines()[-1], "unilock.lock is not current: 3 packages")


class WithTheProgram(Folder):
    def setUp(self) -> None:
        super().setUp()
        want_program(self)
        self.write("pyproject.toml", '[project]\nname = "demo"\nversion = "0.1"\ndependencies = ["a", "b"]\n')
        self.write("ix/a.json", document("a", {"version": "1"}, {"version": "2", "requires_dist": ["c"]}))
        self.write("ix/b.json", document("b", {"version": "1"}))
        self.write("ix/c.json", document("c", {"version": "1"}))
        self.lock = self.write("unilock.lock", OLD)

    def test_versions_are_kept_until_an_upgrade(self) -> None:
        self.assertEqual(self.printed("lock"), ["unilock.lock is current: 2 packages"])
        self.write("ix/b.json", document("b", {"version": "1"}, {"version": "2"}))
        self.ran("lock", "--check")
        self.assertEqual(
            self.printed("lock", "--upgrade-package", "b"), ["b 1 -> 2", "unilock.lock is written: 2 packages"]
        )
        said = ["a 1 -> 2", "added c 1", "unilock.lock is written: 3 packages"]
        self.assertEqual(self.printed("lock", "--upgrade"), said)
        self.ran("lock", "--check")

    def test_a_refusal_keeps_the_lock(self) -> None:
        self.write("pyproject.toml", '[project]\nname = "demo"\nversion = "0.1"\ndependencies = ["a>=3", "b"]\n')
        self.assertIn("no selection serves this fork", self.ran("lock", status=1).stderr)
        self.assertEqual(self.lock.read_text(), OLD)

    def test_an_old_lock_that_has_no_reading(self) -> None:
        self.lock.write_text(OLD.replace('version = "1"', "version = 1", 1))
        said = self.ran("lock", status=3).stderr
        self.assertIn("malformed: unilock.lock: line 6\n", said)
        self.assertIn("expected: name, version, files", said)
        self.assertIn("--upgrade makes a new lock without the old one", said)
        self.ran("lock", "--upgrade")
        self.assertEqual(len(locks.load(str(self.lock)).packages), 4)

    def test_locks_of_the_examples_are_read_as_they_are(self) -> None:
        for path in sorted((TOP / "examples").glob("*/*.lock")):
            with self.subTest(path.parent.name):
                lock = locks.load(str(path))
                self.assertEqual(
                    sum(len(list(it.all_edges())) for it in lock.packages), path.read_text().count("    { name = ")
                )
                self.assertEqual(len(lock.forks), path.read_text().split("[[package]]")[0].count('    "'))

    def test_the_mode_lowest_with_an_old_lock_takes_the_newest_that_the_lock_has(self) -> None:
        text = '[project]\nname = "demo"\nversion = "0.1"\ndependencies = ["a"]\n[tool.uv]\nresolution = "lowest"\n'
        self.write("pyproject.toml", text)
        self.write("ix/a.json", document("a", {"version": "1"}, {"version": "2"}))
        self.ran("lock", "--upgrade")
        self.assertEqual([it.version for it in locks.load(str(self.lock)).by_name()["a"]], ["1"])
        both = OLD.replace('name = "b"\nversion = "1"', 'name = "a"\nversion = "2"').replace(
            '{ name = "b", version = "1" }', '{ name = "a", version = "2" }'
        )
        self.lock.write_text(both)
        self.ran("lock")
        self.assertEqual([it.version for it in locks.load(str(self.lock)).by_name()["a"]], ["2"])


if __name__ == "__main__":
    unittest.main()
