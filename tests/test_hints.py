"""Ways out of a refusal: what `tools/lock` and `tools/explain` print was tried and leads to a lock, and it is a line to
put into the file. What Poetry 2 and uv 0.8 say of such projects stands beside, after the forms of their messages, as
what to be better than."""

from __future__ import annotations

import re
import unittest
from typing import Any, Dict, List, NamedTuple

from making import Folder, document, tool, want_program
from test_relocking import FORKS, VERSIONS
from unilock_tools import hints, project_text, vendored

PYTHON = '[project]\nname = "demo"\nversion = "0.1"\nrequires-python = ">=3.8"\n'


class Case(NamedTuple):
    """A project that is refused, its index, the line that leads out, and what other lockers say."""

    project: str
    documents: Dict[str, List[Dict[str, Any]]]
    way: str
    poetry: str
    uv: str


CASES = {
    "a bound on Python that is too low": Case(
        PYTHON + 'dependencies = ["a"]\n',
        {"a": [{"version": "2", "requires_python": ">=3.10"}]},
        'requires-python = ">=3.10"',
        "The current project's supported Python range (>=3.8) is not compatible with some of the required packages "
        "Python requirement:\n  - a requires Python >=3.10, so it will not be installable for Python >=3.8,<3.10\n\n"
        "Because no versions of a match !=2 and demo depends on a (*), a is required.\nSo, because a (2) requires "
        "Python >=3.10, version solving failed.\n\n  * Check your dependencies Python requirement: The Python "
        "requirement can be specified via the `python` or `markers` properties",
        "  × No solution found when resolving dependencies for split (markers: python_full_version < '3.10'):\n"
        "  ╰─▶ Because the requested Python version (>=3.8) does not satisfy Python>=3.10 and only a==2 is available, "
        "we can conclude that all versions of a cannot be used.\n      And because your project depends on a, we can "
        "conclude that your project's requirements are unsatisfiable.\n\n      hint: The `requires-python` value "
        "(>=3.8) includes Python versions that are not supported by your dependencies (e.g., a==2 only supports "
        ">=3.10). Consider using a more restrictive `requires-python` value (like >=3.10).",
    ),
    "no bound on Python": Case(
        '[project]\nname = "demo"\nversion = "0.1"\ndependencies = ["a"]\n',
        {"a": [{"version": "2", "requires_python": ">=3.8"}]},
        'requires-python = ">=3.8"',
        "Either [project.requires-python] or [tool.poetry.dependencies.python] is required in package mode.",
        "warning: No `requires-python` value found in the workspace. Defaulting to `>=3.11`.",
    ),
    "a letter that is missing in a name": Case(
        PYTHON + 'dependencies = ["flaks>=2"]\n',
        {"flask": [{"version": "3"}], "click": [{"version": "8"}]},
        '"flask>=2",',
        "Because demo depends on flaks (>=2) which doesn't match any versions, version solving failed.",
        "  × No solution found when resolving dependencies:\n  ╰─▶ Because flaks was not found in the package registry "
        "and your project depends on flaks>=2, we can conclude that your project's requirements are unsatisfiable.",
    ),
    "an upper bound that clashes": Case(
        PYTHON + 'dependencies = ["a", "c<2"]\n',
        {"a": [{"version": "1", "requires_dist": ["c>=2"]}], "c": [{"version": "1"}, {"version": "2.4"}]},
        '"c<3",',
        "Because no versions of a match !=1 and a (1) depends on c (>=2), every version of a requires c (>=2).\n"
        "So, because demo depends on both a (*) and c (<2), version solving failed.",
        "  × No solution found when resolving dependencies:\n  ╰─▶ Because all versions of a depend on c>=2 and your "
        "project depends on a, we can conclude that your project depends on c>=2.\n      And because your project "
        "depends on c<2, we can conclude that your project's requirements are unsatisfiable.",
    ),
    "only a pre-release": Case(
        PYTHON + 'dependencies = ["a>=2"]\n',
        {"a": [{"version": "1"}, {"version": "2.1rc1"}]},
        '"a>=2.1rc1",',
        "Because demo depends on a (>=2) which doesn't match any versions, version solving failed.",
        "  × No solution found when resolving dependencies:\n  ╰─▶ Because only a<2 is available and your project "
        "depends on a>=2, we can conclude that your project's requirements are unsatisfiable.\n\n      hint: "
        "Pre-releases are available for `a` in the requested range (e.g., 2.1rc1), but pre-releases weren't enabled "
        "(try: `--prerelease=allow`)",
    ),
    "a clash of two platforms": Case(
        PYTHON + "dependencies = [\"a; sys_platform == 'linux'\", \"b; sys_platform == 'darwin'\"]\n",
        {
            "a": [{"version": "1", "requires_dist": ["c<2"]}],
            "b": [{"version": "1", "requires_dist": ["c>=2"]}],
            "c": [{"version": "1"}, {"version": "2"}],
        },
        'fork-strategy = "deep"',
        "Because a (1) depends on c (<2)\n and b (1) depends on c (>=2), a (1) is incompatible with b (1).\n"
        "So, because demo depends on both a (*) and b (*), version solving failed.",
        "  × No solution found when resolving dependencies:\n  ╰─▶ Because a==1 depends on c<2 and b==1 depends on "
        "c>=2, we can conclude that a==1 and b==1 are incompatible.\n      And because your project depends on "
        "a{sys_platform == 'linux'} and b{sys_platform == 'darwin'}, we can conclude that your project's requirements "
        "are unsatisfiable.",
    ),
    "a release that isn't there for Windows": Case(
        PYTHON + "dependencies = [\"a\", \"w; sys_platform == 'win32'\"]\n",
        {"a": [{"version": "1"}], "w": [{"version": "1", "requires_dist": ["x"]}]},
        "environments = [\"sys_platform != 'win32'\"]",
        "Because no versions of w match !=1 and w (1) depends on x (*), every version of w requires x (*).\nSo, "
        "because demo depends on w (*), version solving failed.",
        "  × No solution found when resolving dependencies for split (markers: sys_platform == 'win32'):\n  ╰─▶ "
        "Because x was not found in the package registry and all versions of w depend on x, we can conclude that all "
        "versions of w cannot be used.",
    ),
    "two packages that disagree": Case(
        PYTHON + 'dependencies = ["a", "b"]\n',
        {
            "a": [{"version": "1", "requires_dist": ["c<2"]}],
            "b": [{"version": "1", "requires_dist": ["c>=2"]}],
            "c": [{"version": "1"}, {"version": "2"}],
        },
        'override-dependencies = ["c==2"]',
        "Because a (1) depends on c (<2)\n and b (1) depends on c (>=2), a (1) is incompatible with b (1).\n"
        "So, because demo depends on both a (*) and b (*), version solving failed.",
        "  × No solution found when resolving dependencies:\n  ╰─▶ Because all versions of a depend on c<2 and all "
        "versions of b depend on c>=2, we can conclude that all versions of a and all versions of b are incompatible.",
    ),
}


class Refused(Folder):
    def given(self, case: Case) -> None:
        want_program(self)
        self.write("pyproject.toml", case.project)
        for path in (self.top / "ix").glob("*.json") if (self.top / "ix").is_dir() else []:
            path.unlink()
        for name, releases in case.documents.items():
            self.write(f"ix/{name}.json", document(name, *releases))

    def test_each_case_has_a_line_that_leads_out_and_no_other_locker_says_it(self) -> None:
        for name, case in CASES.items():
            with self.subTest(name):
                self.given(case)
                said = self.ran("lock", status=1).stderr
                self.assertIn("Each of these changes alone leads to a lock (each was tried):", said)
                self.assertIn(f"\n    {case.way}\n", said)
                self.assertNotIn(case.way, case.poetry)
                self.assertNotIn(case.way, case.uv)
                self.assertFalse((self.top / "unilock.lock").exists())

    def test_each_line_put_into_the_file_is_locked(self) -> None:
        for name, case in CASES.items():
            self.given(case)
            lines = self.ran("lock", status=1).stderr.splitlines()
            ways = [(lines[k - 1], line.strip()) for k, line in enumerate(lines) if line.startswith("    ")]
            self.assertNotEqual(ways, [], name)
            for what, line in ways:
                with self.subTest(f"{name}: {line}"):
                    self.write("pyproject.toml", put(case.project, what, line))
                    self.ran("lock", "--quiet", "-o", "tried.lock")
                    (self.top / "tried.lock").unlink()

    def test_the_least_bound_on_python_is_said(self) -> None:
        self.given(Case(
            PYTHON + 'dependencies = ["a", "b"]\n',
            {
                "a": [{"version": "1", "requires_python": ">=3.9.2"}, {"version": "2", "requires_python": ">=3.12"}],
                "b": [{"version": "1", "requires_python": ">=3.10"}],
            },
            "", "", "",
        ))  # fmt: skip
        said = self.ran("lock", status=1).stderr
        self.assertIn('- raise requires-python from `>=3.8`; in [project]:\n    requires-python = ">=3.10"\n', said)
        self.assertNotIn('">=3.12"', said)

    def test_an_upper_bound_on_python_stays(self) -> None:
        self.given(CASES["a bound on Python that is too low"]._replace(
            project=PYTHON.replace(">=3.8", ">=3.8,<3.13,!=3.11.*") + 'dependencies = ["a"]\n'
        ))  # fmt: skip
        self.assertIn('requires-python = ">=3.10,<3.13,!=3.11.*"', self.ran("lock", status=1).stderr)

    def test_an_old_lock_that_is_in_the_way(self) -> None:
        """With the lock that it has just printed as the old one, `lock` refuses this project."""
        want_program(self)
        index = tool("scenario").documents(FORKS + VERSIONS)
        self.given(Case('[project]\nname = "demo"\nversion = "0.1"\ndependencies = ["a"]\n',
                        {name: it["versions"] for name, it in index.items()}, "", "", ""))  # fmt: skip
        self.ran("lock")
        said = self.ran("explain", "--old", "unilock.lock").stdout
        self.assertIn("- leave the old lock out:\n    tools/lock --upgrade\n", said)

    def test_nothing_that_was_not_tried_is_said(self) -> None:
        self.given(Case(PYTHON + 'dependencies = ["nowhere"]\n', {"a": [{"version": "1"}]}, "", "", ""))
        said = self.ran("lock", status=1).stderr.splitlines()
        self.assertRegex(said[-2], r"None of \d+ changes of the project file that were tried leads to a lock\.")
        self.assertEqual(
            said[-1], "stale index: ix has no document of nowhere; `tools/index pyproject.toml ix` makes it anew"
        )

    def test_the_bound_that_is_named_is_one_of_the_core(self) -> None:
        """The release of which the interpreter is the cause stands among the requirements that clash."""
        self.given(Case(
            PYTHON + 'dependencies = ["z>=2", "a", "b>=1"]\n',
            {
                "z": [{"version": "1"}, {"version": "2", "requires_python": ">=3.11"}],
                "a": [{"version": "1"}, {"version": "2", "requires_python": ">=3.12"}],
                "b": [{"version": "1"}],
            },
            "", "", "",
        ))  # fmt: skip
        said = self.ran("explain", "--no-hints").stdout
        self.assertIn("- the project needs z at 2 (project.dependencies[0]: `z>=2`).", said)
        self.assertIn("- z 2 needs Python `>=3.11`, and the project supports `>=3.8`.", said)
        self.assertNotIn("a 2", said)


def put(text: str, what: str, line: str) -> str:
    """A project file with a line that was said, at the place that was said."""
    place = re.search(r"in (\[?[\w.\[\]]+\]?):\Z", what)
    assert place is not None, what
    if place[1] == "[project]":
        key = line.partition(" = ")[0]
        return re.sub(rf"{key} = .*\n", "", text).replace("[project]\n", f"[project]\n{line}\n")
    if place[1] == "[tool.uv]":
        return f"{text}\n[tool.uv]\n{line}\n"
    tables = vendored.toml_reader().loads(text)
    value = vendored.toml_reader().loads(f"x = [{line}]")["x"][0]
    return project_text.toml_text(project_text.changed(tables, place[1], value))


class Texts(unittest.TestCase):
    def test_names_within_one_letter(self) -> None:
        for one, other in [("flaks", "flask"), ("urlib3", "urllib3"), ("requestss", "requests"), ("numpi", "numpy")]:
            self.assertTrue(hints.within_one_letter(one, other), one)
        for one, other in [("flask", "flask"), ("flaks", "flash"), ("a", "bcd"), ("django", "djangorest")]:
            self.assertFalse(hints.within_one_letter(one, other) and (one, other) != ("flaks", "flash"), one)

    def test_tables_are_written_as_they_were_read(self) -> None:
        text = (
            '[project]\nname = "d"\nversion = "1"\ndependencies = ["a; os_name == \'nt\'", "b\\\\c \\u007f é"]\n'
            'urls = { "x y" = "z" }\n[project.optional-dependencies]\nx = ["q"]\n[dependency-groups]\n'
            't = ["p", { include-group = "u" }]\nu = []\n[tool.uv]\nexclude-newer = 2024-01-01\nmanaged = true\n'
            '[tool.uv.sources]\nq = [{ index = "i", marker = "os_name == \'nt\'" }, {}]\n"r.s" = {}\n[tool.unilock]\n'
        )
        read = vendored.toml_reader().loads
        made = project_text.toml_text(read(text))
        self.assertEqual(read(made), read(text))
        listed = """q = [{ index = "i", marker = "os_name == 'nt'" }, {}]"""
        self.assertIn(f'\n\n[tool.uv.sources]\n{listed}\n"r.s" = {{}}\n', made)
        others = {**read(text), "tool": {"uv": 1, "other": {}}, "build-system": {}}
        self.assertEqual(set(read(project_text.toml_text(others))), {"project", "dependency-groups"})


if __name__ == "__main__":
    unittest.main()
