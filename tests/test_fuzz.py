"""tools/fuzz: a short run of it, that runs can be made again, and that wrong programs are found.

The variable FUZZ has another count of runs.
"""

from __future__ import annotations

import contextlib
import io
import json
import os
import random
import tempfile
import unittest
from pathlib import Path
from typing import Optional
from unittest import mock

import drawn
import program
import relocked
from making import tool, want_program
from unilock_tools import program as asking
from unilock_tools.program import Answer

fuzz = tool("fuzz")
RUNS = int(os.environ.get("FUZZ", "150"))


class Fuzz(unittest.TestCase):
    def run_fuzz(self, *words: object) -> tuple:
        told = io.StringIO()
        with contextlib.redirect_stdout(told):
            status = fuzz.main([str(it) for it in words])
        return status, told.getvalue()

    def test_a_short_run_finds_nothing(self) -> None:
        want_program(self)
        status, told = self.run_fuzz("--seed", 3, "--count", RUNS)
        self.assertEqual(status, 0, told)

    def test_a_run_can_be_made_again(self) -> None:
        for number in range(40):
            one, other = (drawn.inputs(random.Random(f"5/{number}")) for _ in range(2))
            self.assertEqual(one, other)

    def test_locking_again_is_asked_alone(self) -> None:
        want_program(self)
        status, told = self.run_fuzz("--relock", "--seed", 3, "--first", 5, "--count", 20)
        self.assertEqual(status, 0, told)
        self.assertRegex(told, r"projects: 20, locked: [1-9]\d*, findings: 0")

    def test_a_lock_that_does_not_stay_is_found(self) -> None:
        want_program(self)
        refusing = "case $1 in relock) echo 'no selection serves this fork'; exit 1;; esac"
        script = f'{refusing}; exec {program.PROGRAM} "$@"'
        with tempfile.TemporaryDirectory() as held, self.program(Path(held), script):
            found = Path(held) / "found"
            status, told = self.run_fuzz("--relock", "--seed", 3, "--count", 20, "--keep", found)
            self.assertEqual(status, 1, told)
            self.assertRegex(told, r"projects: 20, locked: ([1-9]\d*), findings: \1\b")
            self.assertIn("a lock that is right isn't kept", told)
            kept = [it.name for it in found.glob("*/made.lock")]
            self.assertEqual(len(kept), told.count("finding: --relock --seed 3 --only "))

    def test_the_program_is_asked_once_of_the_same_files(self) -> None:
        """A fault names its file, so it is asked for again."""
        asked = []

        def answer(words: list, folder: Optional[str] = None) -> Answer:
            asked.append(words)
            text = Path(words[1]).read_text()
            return Answer(3 if text == "fault" else 0, f"{text} {len(asked)}", b"")

        with tempfile.TemporaryDirectory() as held, mock.patch("unilock_tools.program.answer", answer):
            one, other, changed, fault = (Path(held) / it for it in ("one", "other", "changed", "fault"))
            for path, text in (one, "a"), (other, "a"), (changed, "b"), (fault, "fault"):
                path.write_text(text)
            with relocked.asked_once():
                said = [asking.answer(["lock", str(it)]).text for it in (one, other, changed, one, fault, fault)]
                said.append(asking.answer(["verify", str(one)]).text)
        self.assertEqual(said, ["a 1", "a 1", "b 2", "a 1", "fault 3", "fault 4", "a 5"])

    def test_what_is_no_answer_is_found(self) -> None:
        # The words of run 4 are no command's.
        for script, rule, number in [
            ("echo version = 2", "status 0 prints", 0),
            ("kill -9 $$", "ended by signal 9", 0),
            ("exit 5", "status 5 is none of lock", 0),
            ('case $1 in lock|why) echo malformed: ix/a.json: name; exit 3;; esac; echo usage; exit 2', "have Said", 4),
            ("echo unilock >&2; exit 2", "standard error has", 0),
            ("echo malformed: other.toml: absent; exit 3", "a fault of another file", 0),
            ('echo "malformed: pyproject.toml: line $4"; exit 3', "1 and 8 workers differ", 0),
        ]:
            with self.subTest(script), tempfile.TemporaryDirectory() as held, self.program(Path(held), script):
                status, told = self.run_fuzz("--only", number, "--keep", Path(held) / "found")
                self.assertEqual(status, 1)
                self.assertIn(rule, told)
                kept = Path(held) / "found" / f"1-{number}"
                self.assertIn(rule, (kept / "finding.txt").read_text())
                self.assertTrue((kept / "pyproject.toml").exists())

    @contextlib.contextmanager
    def program(self, folder: Path, script: str):
        path, kept = folder / "wrong", program.PROGRAM
        path.write_text(f"#!/bin/sh\n{script}\n")
        path.chmod(0o755)
        program.PROGRAM = path
        try:
            yield
        finally:
            program.PROGRAM = kept

    def test_lines_of_an_export_on_a_machine(self) -> None:
        """The scenarios' requirements lines give their environments, by the fuzzer's own reading."""
        scenarios = drawn.SCENARIO.SCENARIOS
        machines = {it.stem: json.loads(it.read_text()) for it in (scenarios / "machines").glob("*.json")}
        for path in sorted(scenarios.glob("*.txt")):
            files = drawn.SCENARIO.read(path).files
            for line in files.get("env.txt", "").splitlines():
                words, _, answer = line.partition(": ")
                machine, *extras = words.split()
                if answer != "outside":
                    with self.subTest(f"{path.stem}: {words}"):
                        exported = files["export_all.txt" if extras else "export.txt"]
                        lines = fuzz.machine_lines(exported, machines[machine])
                        self.assertEqual(", ".join(lines.splitlines()) or "nothing", answer)


if __name__ == "__main__":
    unittest.main()
