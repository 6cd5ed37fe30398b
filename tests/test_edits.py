"""Edits that the gate tries and edits that stand beside them: that each can be applied, and that what the others came
to when they were last tried is true of the files as they are."""

from __future__ import annotations

import contextlib
import io
import os
import sys
import tempfile
import unittest
from pathlib import Path
from unittest import mock

from making import TOP, tool

TRY_EDITS = tool("try-edits")
RESULTS = TOP / "docs" / "edits.txt"
# Each edit of the gate is a check of its crate, so only those of crates that are checked soon are tried there.
MOST_OF_GATE = 73


# Stands for `rt`: refuses each edit of the crates that it is asked for but those named `weak`, and writes into what was
# kept of them.
TRYING = """#!/bin/sh
shift
for crate; do
  for edit in crates/$crate/must-fail/*.edit; do
    case $edit in
      */weak.edit) echo "rt: must-fail $crate/weak.edit: NOT REFUSED: the crate is still proved" ;;
      *) echo "rt: must-fail $crate/${edit##*/}: refused, as it must be: proofs/a.antt:1:1: error" ;;
    esac
  done
  [ ! -e crates/$crate/out ] || echo written >crates/$crate/out/incremental/record
done
[ -e crates/low/out/rlib/stamp ] || echo "rt: must-fail low/one.edit: NOT REFUSED: no library was lent"
"""


def faults_of(edit: str, crate: Path) -> list[str]:
    """What keeps an edit from being applied to a crate: each text that it takes the place of stands in its file
    once."""
    faults, texts, path, old, pairs = [], {}, "", "", 0
    for line in edit.split("\n"):
        word, _, value = line.partition(": ")
        if word == "file":
            path = value.strip()
            if path not in texts:
                texts[path] = (crate / path).read_text(encoding="utf-8")
        elif word == "old":
            old = value
        elif word == "new" or line == "new:":
            if texts[path].count(old) != 1:
                faults.append(f"{path} has this {texts[path].count(old)} times: {old}")
            texts[path] = texts[path].replace(old, value)
            pairs += 1
    return faults if pairs else ["it changes nothing"]


def small_tree(top: Path) -> None:
    """A repository of three crates with an edit each: `high` stands on `low`, and `apart` on none."""
    (top / "crates.txt").write_text("low:\napart:\nmiddle: low std\nhigh may_wait=1: middle\n")
    for crate in ("low", "apart", "middle", "high"):
        for part in ("src", "specs", "proofs", "must-fail"):
            (top / "crates" / crate / part).mkdir(parents=True)
            (top / "crates" / crate / part / "one.md").write_text(f"file: {crate} {part}\n")


class Edits(unittest.TestCase):
    def test_verdicts_are_read(self) -> None:
        lines = [
            "rt: must-fail one/turned.edit: refused, as it must be: proofs/turn/Answers.antt:4:1: error\n",
            "rt: must-fail one/taken.edit: refused, as it must be (only because a proof file names what the edit took "
            "away, so this says little of the contract: change a value and keep the names): proofs/a/Answers.antt\n",
            "rt: must-fail two/long.edit: refused, as it must be (only by a limit of the prover, which gave no "
            "verdict, so this says less of the contract: choose a change that it refuses sooner): antt ran out\n",
            "rt: must-fail two/same.edit: NOT REFUSED: the crate is still proved with this edit\n",
            "rt: must-fail two/gone.edit: BAD EDIT: there is no file src/gone.rt\n",
            "rt: must-fail two/killed.edit: NOT TRIED: its check was killed, so nothing is known of it\n",
            "rt: two: begins with what a check kept in elsewhere\n",
        ]
        told = {
            "one/turned": TRY_EDITS.REFUSED,
            "one/taken": TRY_EDITS.BY_NAME,
            "two/long": TRY_EDITS.BY_LIMIT,
            "two/same": TRY_EDITS.PROVED,
            "two/gone": TRY_EDITS.NOT_APPLIED,
        }
        self.assertEqual(dict(TRY_EDITS.verdicts(lines)), told)

    def test_a_command_is_told_as_it_is_run(self) -> None:
        with contextlib.redirect_stdout(io.StringIO()) as printed:
            lines = TRY_EDITS.told([sys.executable, "-c", "print('a'); print('b'); exit(3)"], TOP)
        self.assertEqual((lines, printed.getvalue()), (["a\n", "b\n"], "a\nb\n"))

    def test_a_sum_is_of_what_an_edit_is_tried_on(self) -> None:
        with tempfile.TemporaryDirectory() as held:
            top = Path(held)
            small_tree(top)
            edits = TRY_EDITS.Tree(top).edits()
            self.assertEqual(edits, ["apart/one", "high/one", "low/one", "middle/one"])

            def changed(crate: str, part: str) -> list[str]:
                """The edits whose sums change with a file."""
                before = {edit: TRY_EDITS.Tree(top).sum(edit) for edit in edits}
                (top / "crates" / crate / part / "one.md").write_text("file: another\n")
                return [edit for edit in edits if TRY_EDITS.Tree(top).sum(edit) != before[edit]]

            self.assertEqual(changed("low", "src"), ["high/one", "low/one", "middle/one"])
            self.assertEqual(changed("middle", "specs"), ["high/one", "middle/one"])
            self.assertEqual(changed("low", "proofs"), ["low/one"])
            self.assertEqual(changed("high", "must-fail"), ["high/one"])

    def test_results_are_kept_and_the_untried_grow_no_more(self) -> None:
        with tempfile.TemporaryDirectory() as held:
            path = Path(held) / "edits.txt"
            results = TRY_EDITS.Results(path)
            results.of = {"one/a": TRY_EDITS.Result("refused", "0f"), "one/b": TRY_EDITS.Result("untried", "-")}
            results.write()
            again = TRY_EDITS.Results(path)
            self.assertEqual((again.of, again.most), (results.of, 1))
            again.of["one/c"] = TRY_EDITS.Result("untried", "-")
            again.write()
            self.assertEqual(TRY_EDITS.Results(path).most, 1)
            path.write_text("one/a perhaps\n")
            self.assertRaises(SystemExit, TRY_EDITS.Results, path)

    def test_edits_are_tried_in_a_copy(self) -> None:
        with tempfile.TemporaryDirectory() as held, mock.patch.dict(os.environ):
            os.environ["PATH"] = f"{held}:{os.environ['PATH']}"
            top = Path(held) / "repository"
            top.mkdir()
            small_tree(top)
            (top / "HANDLES").touch()
            (top / "crates" / "low" / "must-fail" / "weak.md").write_text("file: low\n")
            kept = top / "crates" / "low" / "out" / "incremental"
            for file in (kept / "proved.oantt", kept / "record", kept.parent / "rlib" / "stamp"):
                file.parent.mkdir(parents=True, exist_ok=True)
                file.write_text("kept")
            (Path(held) / "rt").write_text(TRYING)
            (Path(held) / "rt").chmod(0o755)
            before = sorted(top.rglob("*"))
            tree, results = TRY_EDITS.Tree(top), TRY_EDITS.Results(Path(held) / "edits.txt")
            edits = ["high/one", "low/one", "low/weak"]
            with contextlib.redirect_stdout(io.StringIO()), mock.patch.object(tempfile, "tempdir", held):
                TRY_EDITS.try_edits(top, edits, results)
            self.assertEqual(TRY_EDITS.Results(results.path).of, results.of)
            self.assertEqual(
                results.of,
                {edit: TRY_EDITS.Result("proved" if "weak" in edit else "refused", tree.sum(edit)) for edit in edits},
            )
            self.assertEqual(TRY_EDITS.current(tree, results, edits), {"low/weak": "proved"})
            self.assertEqual(sorted(top.rglob("*")), before)
            self.assertEqual((kept / "record").read_text(), "kept", "what a check writes into is copied")
            self.assertEqual(list(Path(held).glob("try-edits-*")), [], "the copy is removed")

    def test_edits_are_handed_over_crate_by_crate(self) -> None:
        edits = [f"{crate}/{number:02}" for crate in ("a", "b", "c") for number in range(10)]
        self.assertEqual(list(TRY_EDITS.batches(edits)), [edits[:10], edits[10:20], edits[20:]])
        self.assertEqual(list(TRY_EDITS.batches(edits[7:13])), [edits[7:13]])

    def test_the_gate_tries_few_edits(self) -> None:
        tried = list(TOP.glob("crates/*/must-fail/*.edit"))
        self.assertTrue(1 <= len(tried) <= MOST_OF_GATE, "those of dear crates are named .md and tried by try-edits")

    def test_each_other_edit_was_tried_on_the_files_as_they_are(self) -> None:
        tree, results = TRY_EDITS.Tree(TOP), TRY_EDITS.Results(RESULTS)
        edits = tree.edits()
        self.assertEqual(sorted(results.of), edits, "tools/try-edits lists edits that are new, and drops those gone")
        self.assertLessEqual(results.untried(), results.most, "tools/try-edits CRATE tries those that have no result")
        wrong = TRY_EDITS.current(tree, results, edits)
        for edit, why in wrong.items():
            with self.subTest(edit=edit):
                self.assertEqual(why, TRY_EDITS.UNTRIED, f"tools/try-edits {edit.partition('/')[0]} tries it anew")

    def test_each_edit_can_be_applied(self) -> None:
        for edit in sorted(TOP.glob("crates/*/must-fail/*")):
            text = edit.read_text(encoding="utf-8")
            if text.startswith("file: "):
                with self.subTest(edit=str(edit.relative_to(TOP))):
                    self.assertEqual(faults_of(text, edit.parent.parent), [])

    def test_an_edit_that_cannot_be_applied_is_told(self) -> None:
        with tempfile.TemporaryDirectory() as held:
            crate = Path(held)
            (crate / "src").mkdir()
            (crate / "src" / "lib.rt").write_text("a b b\n")
            self.assertEqual(faults_of("file: src/lib.rt\nold: a\nnew: b\n", crate), [])
            self.assertEqual(len(faults_of("file: src/lib.rt\nold: b\nnew: a\n", crate)), 1)
            self.assertEqual(len(faults_of("file: src/lib.rt\n", crate)), 1)


if __name__ == "__main__":
    unittest.main()
