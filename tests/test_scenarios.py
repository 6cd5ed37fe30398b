"""The scenarios of examples/scenarios: what is expected of each, and what the program says.

What a scenario expects was made by trying all selections (brute.py, answers.py), and is made so again here. Then the
program is asked: `lock` with 1 and 8 workers, with and without an old lock; `why`, and `check` of what it prints; `env`
on five machines; `export`; `verify`. The variable SCENARIOS, names with blanks between, picks some of them.
"""

from __future__ import annotations

import os
import re
import tempfile
import unittest
from pathlib import Path
from typing import Iterator

from answers import sections
from making import TOP, tool
from program import PROGRAM, all_said, call

SCENARIO = tool("scenario")
FOLDER = TOP / "examples" / "scenarios"
WORKERS = (1, 8)
# What `refused.txt` has before the core.
HEAD_LINES = 4
# The number of a step of a derivation and, of a cut, the numbers of the two steps that it is made of.
STEP = re.compile(r"^(\d+) (?:cut (\d+) (\d+) on )?", re.MULTILINE)
# Texts of a lock that are changed, and what `verify` says then.
SPOILED = [
    ("disjoint_markers", "supported-markers = \"python_full_version >= '3.9.0'\"\n", "", "supported"),
    ("disjoint_markers", "< '3.11.0'\" },", "< '3.12.0'\" },", "demo 0.1"),
    ("diamond", 'version = "0.1"', 'version = "0.2"', "root"),
    ("diamond", '    { name = "b", version = "1" },\n', "", "demo 0.1"),
    ("extra_adds_package", '{ name = "speedups", version = "1" }', '{ name = "shell", version = "1" }', "web 1"),
    ("python_bound_above_split", "< '3.10.0'\" },", "< '3.9.5'\" },", "demo 0.1"),
]


def picked() -> list:
    """The scenarios by their files, all or those that the variable names."""
    names = os.environ.get("SCENARIOS", "").split()
    return [SCENARIO.read(it) for it in sorted(FOLDER.glob("*.txt")) if not names or it.stem in names]


def head(text: str) -> str:
    return "".join(text.splitlines(keepends=True)[:HEAD_LINES])


def unused_steps(text: str) -> list:
    """The numbers of the steps of a derivation, but for the last, that no cut is made of."""
    steps = [it.groups() for it in STEP.finditer(text)]
    used = {number for _, *parts in steps for number in parts}
    return [number for number, *_ in steps[:-1] if number not in used]


def forks_cell(files: dict) -> str:
    """How the table of the documents says which forks a scenario has."""
    if "fault.txt" in files:
        return "fault"
    if "refused.txt" in files:
        return f"refused at `{files['refused.txt'].splitlines()[1].removeprefix('fork: ')}`"
    _, _, markers = files["unilock.lock"].partition("resolution-markers = [\n")
    return str(markers.partition("]\n")[0].count("\n") or 1)


def machine_rows(text: str) -> Iterator[tuple]:
    """Of each line of `env.txt` the words of `env` and its answer."""
    for line in text.splitlines():
        words, _, answer = line.partition(": ")
        machine, *extras = words.split()
        if answer == "outside":
            yield machine, extras, (8, "outside\n")
        else:
            yield machine, extras, (0, "" if answer == "nothing" else answer.replace(", ", "\n") + "\n")


class Expectations(unittest.TestCase):
    """What scenarios expect is what trying all selections gives."""

    def test_each_scenario_is_what_trying_all_gives(self) -> None:
        for it in picked():
            if "fault.txt" not in it.files:
                with self.subTest(it.name):
                    made = sections(it.files, SCENARIO.documents(it.files["index"]))
                    given = {"pyproject.toml", "index", "old.lock"}
                    self.assertEqual({name: text for name, text in it.files.items() if name not in given}, made)

    def test_each_scenario_has_three_paragraphs(self) -> None:
        for it in picked():
            with self.subTest(it.name):
                lines = it.words.split("\n")
                self.assertEqual(len([line for line in lines if not line.startswith("  ")]), 3)
                self.assertTrue(all(len(line) <= 120 for line in lines))

    def test_each_scenario_stands_in_the_table_with_its_forks(self) -> None:
        lines = (TOP / "docs" / "SCENARIOS.md").read_text(encoding="utf-8").splitlines()
        for it in picked():
            with self.subTest(it.name):
                row = f"| `{it.name}` | {forks_cell(it.files)} | "
                self.assertEqual(len([line for line in lines if line.startswith(row)]), 1, row)


class Steps(unittest.TestCase):
    def test_steps_that_no_cut_is_made_of_are_found(self) -> None:
        text = "fork: -\n1 need a {1} b {1}\n2 need a {1} c {}\n3 need b {1} d {}\n4 cut 1 3 on b: a {1}\n5 base c\n"
        self.assertEqual(unused_steps(text), ["2", "4"])
        self.assertEqual(unused_steps("1 need demo {0.1} z {}\n"), [])


class Scenarios(unittest.TestCase):
    """What the program says."""

    top: Path
    held: tempfile.TemporaryDirectory

    @classmethod
    def setUpClass(cls) -> None:
        if not PROGRAM.exists():
            raise unittest.SkipTest("the program isn't built; ./unilock builds it")
        cls.held = tempfile.TemporaryDirectory()
        cls.top = Path(cls.held.name)
        cls.scenarios = picked()
        for it in cls.scenarios:
            SCENARIO.unpack(it, cls.top / it.name)

    @classmethod
    def tearDownClass(cls) -> None:
        cls.held.cleanup()

    def hold(self, rows: list) -> None:
        """Each row is a scenario's name, words and the answer: a status and a text."""
        found = all_said(call(self.top / name, words) for name, words, _ in rows)
        for name, words, (status, text) in rows:
            with self.subTest(f"{name}: {words}"):
                it = found[call(self.top / name, words)]
                self.assertEqual((it.status, it.errors), (status, ""), it.text)
                self.assertEqual(it.text, text)

    def test_lock(self) -> None:
        rows = []
        for it in self.scenarios:
            answer = 0, it.files.get("unilock.lock", "")
            for name, status in ("refused.txt", 1), ("fault.txt", 3):
                answer = (status, it.files[name]) if name in it.files else answer
            rows += [(it.name, f"lock pyproject.toml ix {workers}", answer) for workers in WORKERS]
        self.hold(rows)

    def test_lock_with_an_old_lock(self) -> None:
        rows = []
        for it in self.scenarios:
            if "old.lock" in it.files:
                answer = 0, it.files["kept.lock"]
                rows += [(it.name, f"lock pyproject.toml ix {workers} old.lock", answer) for workers in WORKERS]
                rows.append((it.name, "why pyproject.toml ix 1 old.lock", (0, "no fork is refused\n")))
            if "unilock.lock" in it.files:
                answer = 0, it.files.get("again.lock", it.files["unilock.lock"])
                rows += [(it.name, f"lock pyproject.toml ix {workers} unilock.lock", answer) for workers in WORKERS]
        self.hold(rows)

    def test_why_and_check(self) -> None:
        calls, checks = {}, []
        for it in self.scenarios:
            for workers in WORKERS:
                calls[it.name, workers] = call(self.top / it.name, f"why pyproject.toml ix {workers}")
        found = all_said(calls.values())
        for it in self.scenarios:
            with self.subTest(it.name):
                one, other = (found[calls[it.name, workers]] for workers in WORKERS)
                self.assertEqual(one, other)
                if "refused.txt" in it.files:
                    self.assertEqual((one.status, head(one.text)), (1, head(it.files["refused.txt"])))
                    self.assertEqual(unused_steps(one.text), [])
                    (self.top / it.name / "why.txt").write_text(one.text)
                    checks.append((it.name, "check pyproject.toml ix why.txt", (0, "accepted\n")))
                elif "unilock.lock" in it.files:
                    self.assertEqual((one.status, one.text), (0, "no fork is refused\n"))
        self.hold(checks)

    def test_env_on_five_machines(self) -> None:
        rows = []
        for it in self.scenarios:
            for machine, extras, answer in machine_rows(it.files.get("env.txt", "")):
                rows.append((it.name, " ".join(["env unilock.lock", f"{machine}.json", *extras]), answer))
        self.hold(rows)

    def test_export(self) -> None:
        rows = []
        for it in self.scenarios:
            if "export.txt" in it.files:
                rows.append((it.name, "export unilock.lock", (0, it.files["export.txt"])))
            if "export_all.txt" in it.files:
                extras = list(machine_rows(it.files["env.txt"]))[-1][1]
                rows.append((it.name, " ".join(["export unilock.lock", *extras]), (0, it.files["export_all.txt"])))
        self.hold(rows)

    def test_verify(self) -> None:
        rows = []
        for it in self.scenarios:
            for name in ("unilock.lock", "kept.lock", "again.lock"):
                if name in it.files:
                    rows.append((it.name, f"verify pyproject.toml ix {name}", (0, "verified\n")))
        for place, (name, old, new, answer) in enumerate(SPOILED):
            it = next((it for it in self.scenarios if it.name == name), None)
            if it is not None:
                self.assertEqual(it.files["unilock.lock"].count(old), 1, (name, old))
                (self.top / name / f"spoiled{place}.lock").write_text(it.files["unilock.lock"].replace(old, new))
                rows.append((name, f"verify pyproject.toml ix spoiled{place}.lock", (9, f"rejected: {answer}\n")))
        self.hold(rows)


if __name__ == "__main__":
    unittest.main()
