"""The folder of an index: what is replaced, in one step, and what a killed run leaves; tools/lock takes it whole."""

from __future__ import annotations

import multiprocessing
import os
import signal
import sys
import time
import unittest
from pathlib import Path
from typing import Dict, List
from unittest import mock

from making import Folder, plain_wheel
from unilock_tools import folders
from unilock_tools.archives import Refused

Documents = Dict[str, Dict[str, object]]


def documents(*names: str) -> Documents:
    return {it: {"name": it, "versions": []} for it in names}


def replace_for_ever(out: Path) -> None:
    for number in range(1_000_000):
        folders.replace_folder(out, documents(*[f"{'ab'[number % 2]}{it}" for it in range(40)]))


class Replaced(Folder):
    def setUp(self) -> None:
        super().setUp()
        self.out = self.top / "ix"

    def names(self) -> List[str]:
        return sorted(it.stem for it in self.out.glob("*.json"))

    def beside(self) -> List[str]:
        return sorted(it.name for it in self.top.iterdir())

    def test_a_folder_takes_the_place_of_another(self) -> None:
        for names in [["a", "b"], ["c"], []]:
            folders.replace_folder(self.out, documents(*names))
            self.assertEqual((self.names(), self.beside()), (names, ["ix"]))

    def test_without_an_exchange_in_one_step(self) -> None:
        with mock.patch.object(folders, "exchanged", return_value=False):
            for names in [["a", "b"], ["c"]]:
                folders.replace_folder(self.out, documents(*names))
                self.assertEqual((self.names(), self.beside()), (names, ["ix"]))

    def test_a_second_step_that_fails_puts_the_old_folder_back(self) -> None:
        folders.replace_folder(self.out, documents("a"))
        true = os.rename

        def failing(one: Path, other: Path) -> None:
            if other == self.out and not str(one).endswith(".old"):
                raise OSError(13, "Permission denied")
            true(one, other)

        with mock.patch.object(folders, "exchanged", return_value=False), mock.patch("os.rename", failing):
            self.assertRaises(OSError, folders.replace_folder, self.out, documents("b"))
        self.assertEqual((self.names(), self.beside()), (["a"], ["ix"]))

    def test_what_somebody_else_made_is_kept(self) -> None:
        self.write("ix/package.json", "{}")
        plain_wheel(self.top, "a", "1")
        said = self.ran("index", "a-1-py3-none-any.whl", "ix", status=1).stderr
        self.assertIn("it has no .unilock-index, so `tools/index` didn't make it", said)
        self.assertEqual(self.names(), ["package"])
        (self.out / "package.json").unlink()
        folders.replace_folder(self.out, documents("a"))
        self.write("ix/notes.txt", "mine")
        self.assertRaisesRegex(Refused, "holds more than .json files", folders.replace_folder, self.out, documents("b"))
        self.assertEqual(self.names(), ["a"])
        self.write("file", "mine")
        self.assertRaisesRegex(Refused, "it is no folder", folders.replace_folder, self.top / "file", documents("b"))

    def test_a_link_is_followed(self) -> None:
        (self.top / "true").mkdir()
        self.out.symlink_to("true")
        folders.replace_folder(self.out, documents("a"))
        self.assertTrue(self.out.is_symlink())
        self.assertEqual([it.name for it in (self.top / "true").glob("*.json")], ["a.json"])

    def test_a_run_that_is_killed_leaves_a_whole_folder_and_nothing_that_stays(self) -> None:
        folders.replace_folder(self.out, documents("a"))
        for turn in range(12):
            run = multiprocessing.get_context("fork").Process(target=replace_for_ever, args=(self.out,))
            run.start()
            time.sleep(0.02 + turn * 0.007)
            os.kill(run.pid or 0, signal.SIGKILL)
            run.join()
            self.assertIn(len({it[0] for it in self.names()}), (1,), "a folder of one run")
            self.assertIn(len(self.names()), (1, 40))
        folders.replace_folder(self.out, documents("b"))
        self.assertEqual((self.names(), self.beside()), (["b"], ["ix"]))

    def test_a_killed_run_between_two_renames(self) -> None:
        folders.replace_folder(self.out, documents("a"))
        self.out.rename(self.top / ".ix.unilock-12345.old")
        folders.prepared(self.out)
        self.assertEqual((self.names(), self.beside()), (["a"], ["ix"]))

    def test_what_a_killed_run_had_begun_or_half_removed_is_removed(self) -> None:
        for names in [[], [folders.MARK], [folders.MARK, "a.json"]]:
            for ending in ["", ".old"]:
                folders.replace_folder(self.out, documents("a"))
                left = self.top / f".ix.unilock-12345{ending}"
                left.mkdir()
                for name in names:
                    (left / name).write_text("")
                folders.prepared(self.out)
                self.assertEqual((self.names(), self.beside()), (["a"], ["ix"]), f"{names}{ending}")

    def test_a_folder_that_another_run_removes_before_it_has_its_mark_is_made_again(self) -> None:
        write, gone = folders.write, []

        def removed_first(path: Path, text: str) -> None:
            if path.name == folders.MARK and not gone:
                gone.append(path.parent)
                path.parent.rmdir()
            write(path, text)

        with mock.patch.object(folders, "write", removed_first):
            folders.replace_folder(self.out, documents("a"))
        self.assertEqual((len(gone), self.names(), self.beside()), (1, ["a"], ["ix"]))

    def test_what_another_run_is_making_is_left(self) -> None:
        fresh = self.top / ".ix.unilock-other"
        fresh.mkdir()
        with folders.held_mark(fresh / folders.MARK):
            folders.prepared(self.out)
            self.assertTrue(fresh.exists())
        folders.prepared(self.out)
        self.assertFalse(fresh.exists())


class Whole(Folder):
    """What is made of a folder is made of one folder."""

    def test_a_folder_that_is_replaced_meanwhile_is_read_again(self) -> None:
        out = self.top / "ix"
        folders.replace_folder(out, documents("a"))
        seen: List[List[str]] = []

        def made() -> int:
            seen.append(sorted(it.stem for it in out.glob("*.json")))
            if len(seen) < 3:
                folders.replace_folder(out, documents("b"))
            return len(seen)

        self.assertEqual(folders.read_whole(str(out), made), 3)
        self.assertEqual(seen, [["a"], ["b"], ["b"]])
        seen.clear()

        def always() -> None:
            folders.replace_folder(out, documents("b"))

        self.assertRaisesRegex(Refused, "was replaced while it was read", folders.read_whole, str(out), always)

    def test_tools_lock_asks_again_where_the_folder_was_replaced(self) -> None:
        folders.replace_folder(self.top / "ix", documents("a"))
        self.write("pyproject.toml", '[project]\nname = "p"\n')
        lock = 'version = 2\nroot = "p"\n\n[[package]]\nname = "p"\nversion = "0"\n'
        self.write("answer", lock)
        replaced = f"{sys.executable} -c 'from unilock_tools import folders; from pathlib import Path; "
        replaced += 'folders.replace_folder(Path("ix"), {})\''
        self.program = self.write(
            "stand-in",
            "#!/bin/sh\n"
            "echo asked >> asked.txt\n"
            f"test -e once || {{ touch once; PYTHONPATH={Path(folders.__file__).parent.parent} {replaced}; }}\n"
            "cat answer\n",
        )
        Path(str(self.program)).chmod(0o755)
        self.ran("lock", "pyproject.toml", "ix", "--quiet")
        self.assertGreaterEqual(len((self.top / "asked.txt").read_text().splitlines()), 2)
        self.assertEqual((self.top / "unilock.lock").read_text(), lock)
        self.assertEqual(list((self.top / "ix").glob("*.json")), [])


if __name__ == "__main__":
    unittest.main()
