"""Warnings of common slips, by `tools/doctor` and once by `tools/lock`, and what is likely meant by a text that isn't
read: each mistake has its solution in the first command's output."""

from __future__ import annotations

import unittest
from typing import List

from making import SUM, Folder, document, want_program
from unilock_tools import advice, locks, poetry, vendored

START = '[project]\nname = "demo"\nversion = "0.1"\nrequires-python = ">=3.9"\n'
SLIPS = [
    ('dependencies = ["a[speed]"]\n', "no release of a in the index requires anything for the extra speed"),
    ('dependencies = ["y==1"]\n', "y 1, which it pins, is yanked: it leaks"),
    ('dependencies = ["p>=1.5"]\n', "only pre-releases meet `p>=1.5`; `p>=2rc1` takes them"),
    ("dependencies = [\"a; sys_platform == 'windows'\"]\n", "no machine has sys_platform 'windows'; is 'win32' meant?"),
    ("dependencies = [\"a; platform_system != 'linux'\"]\n", "has platform_system 'linux'; is 'Linux' meant?"),
    ("dependencies = [\"a; os_name == 'windows'\"]\n", "no machine has os_name 'windows'; is 'nt' meant?"),
    ("dependencies = [\"a; extra == 'x'\"]\n", "the list of an extra is project.optional-dependencies.NAME"),
    ("dependencies = [\"a; python_version == '3.10.1'\"]\n", "two numbers; is python_full_version meant?"),
]


class Slips(Folder):
    def setUp(self) -> None:
        super().setUp()
        needs = ["b; extra == 'fast'"]
        self.write("ix/a.json", document("a", {"version": "1", "requires_dist": needs}))
        self.write("ix/y.json", document("y", {"version": "1", "yanked": "it leaks"}, {"version": "2"}))
        self.write("ix/p.json", document("p", {"version": "1"}, {"version": "2rc1"}))

    def doctor(self, text: str, status: int = 1) -> List[str]:
        self.write("pyproject.toml", text)
        return self.printed("doctor", status=status)

    def test_each_slip_is_a_warning_of_doctor(self) -> None:
        for text, said in SLIPS:
            with self.subTest(said):
                found = [it for it in self.doctor(START + text) if said in it]
                self.assertEqual([it.partition(": ")[0] for it in found], ["warning"], found)
                self.assertIn("project.dependencies[0]", found[0])

    def test_a_sound_use_of_the_same_is_none(self) -> None:
        for text in ["a", "y>=2", "p", "a; sys_platform == 'win32'", "a; python_version == '3.10'"]:
            self.doctor(f'{START}dependencies = ["{text}"]\n', status=0)

    def test_lock_says_them_once(self) -> None:
        want_program(self)
        self.write("pyproject.toml", START + "dependencies = [\"a; sys_platform == 'windows'\"]\n")
        self.assertIn("warning: project.dependencies[0]: `a; sys_platform", self.ran("lock").stderr)
        self.assertEqual(self.ran("lock").stderr, "")

    def test_a_bound_on_python_that_holds_nowhere(self) -> None:
        said = self.doctor(START.replace(">=3.9", ">=3.12,<3.9"))
        self.assertIn("warning: project.requires-python: no interpreter keeps `>=3.12,<3.9`", said)

    def test_a_project_that_asks_for_itself(self) -> None:
        text = '["Demo>=1"]\n'
        said = self.doctor(f"{START}dependencies = {text}")
        self.assertIn("error: project.dependencies[0]: `Demo>=1` asks for the project itself", said[0])
        self.assertIn("asks for the project itself", self.ran("lock", status=3).stderr)
        extras = '["demo[x]"]\n[project.optional-dependencies]\nx = ["a"]\n'
        self.doctor(f"{START}dependencies = {extras}", status=0)

    def test_no_file_for_a_platform(self) -> None:
        want_program(self)
        self.write("pyproject.toml", START + "dependencies = [\"w\", \"l; sys_platform == 'linux'\", \"s\"]\n")
        for name, files in [("w", ["w-1-cp312-cp312-win_amd64.whl"]), ("l", ["l-1-py3-none-manylinux_2_17_x86_64.whl"]),
                            ("s", ["s-1-py3-none-macosx_11_0_arm64.whl", "s-1.tar.gz"])]:  # fmt: skip
            self.write(f"ix/{name}.json", document(name, {"version": "1", "files": [
                {"file": it, "sha256": SUM} for it in files
            ]}))  # fmt: skip
        said = self.ran("lock").stderr.splitlines()
        self.assertEqual(said, ["warning: w 1 has no file for linux and macos, where the lock gives it"])

    def test_no_release_like_that_in_a_faulty_document(self) -> None:
        self.write("ix/a.json", "{")
        self.assertIn("error: ix/a.json: not JSON", self.doctor(START + 'dependencies = ["a[x]"]\n')[0])


class Mistakes(Folder):
    """The first command's output has the solution."""

    def lock(self, text: str, status: int) -> str:
        want_program(self)
        self.write("ix/flask.json", document("flask", {"version": "3.0"}, {"version": "3.1"}))
        self.write("pyproject.toml", text)
        return self.ran("lock", status=status).stderr

    def test_texts_of_requirements(self) -> None:
        for text, said in [
            ("flask=3.0", "`flask==3.0` meant?"), ("flask^3.0", "`flask>=3.0,<4` meant?"),
            ("flask ^0.2.1", "`flask>=0.2.1,<0.3` meant?"), ("flask~3.0", "`flask>=3.0,<3.1` meant?"),
            ("flask 3.0", "`flask==3.0` meant?"), ("flask=>3", "`flask>=3` meant?"),
            ("flask===3", "`flask==3` meant?"), ("flask>=3 <4", "`flask>=3,<4` meant?"),
            ("flask^3, !=3.1", "`flask>=3,<4,!=3.1` meant?"), ("flask (3)", "`flask==3` meant?"),
            ("flask; python_version => '3'", "`flask; python_version >= '3'` meant?"),
            ("flask; python_version = 3.9", "`flask; python_version == '3.9'` meant?"),
            ("flask; sys_platform == win32", "`flask; sys_platform == 'win32'` meant?"),
            ("flask; 'a&&b' in platform_version && os_name == 'nt' OR os_name = x",
             "`flask; 'a&&b' in platform_version and os_name == 'nt' or os_name == 'x'` meant?"),
            ("flask[x]=3.0; os_name == 'nt'", "`flask[x]==3.0; os_name == 'nt'` meant?"),
        ]:  # fmt: skip
            with self.subTest(text):
                told = self.lock(f'{START}dependencies = ["{text}"]\n', 3)
                self.assertIn("project.dependencies[0] (line 5)", told)
                self.assertIn(f"is {said}", told)
                self.assertIn(f"is {said}", self.ran("doctor", status=1).stdout)

    def test_other_mistakes(self) -> None:
        for text, status, said in [
            (START + 'dependencies = ["flaks"]\n', 1, '    "flask",\n'),
            (START + 'dependencies = ["flask>="]\n', 3, "`flask>=`: `` is no version of PEP 440"),
            (START + "dependencies = [\"flask; python_verson > '3'\"]\n", 3, "`python_verson` is no variable"),
            (START.replace(">=3.9", ">=3.12,<3.9"), 3, "leave no interpreter and no platform to support"),
            ("[project\n", 3, "line 1: [project"),
            (START + 'dependencies = ["flask"\n', 3, "isn't closed stands there:\n  line 5: dependencies = ["),
            (START + 'dependencies = ["flask",\n\n[tool.uv]\n', 3, "stands there:\n  line 5: dependencies = ["),
            (START + "dependencies = [flask]\n", 3, "a text stands in quotes\n  line 5: dependencies = [flask]"),
            ('[tool.poetry]\nname = "x"\n', 3, "wanted: a table [project]"),
            ("[tool.black]\n", 3, "The least that is read:\n      [project]\n      name = "),
            (START + 'dependencies = "flask"\n', 3, 'wanted: a list of texts; is `["flask"]` meant?\n'),
            (START + '[project.dependencies]\nflask = "^3.0"\n', 3, 'is `["flask>=3.0,<4"]` meant?\n'),
            (START.replace(">=3.9", "3.9"), 3, 'with commas between them; is `">=3.9"` meant?\n'),
            (START.replace(">=3.9", "^3.9"), 3, 'is `">=3.9,<4"` meant?\n'),
            (START.replace("0.1", "one"), 3, "`one` is no version of PEP 440, as `1.0` is one.\n"),
            (START + 'dependencies = ["flask@3.0"]\n', 3, "is no address of http or https; is `==3.0` meant?\n"),
            (
                START + 'dependencies = ["flask @ https://x.org/f.whl"]\n[tool.unilock]\nprofile = "strict"\n',
                3,
                "ask for it by its name, of an index",
            ),
            (START + 'dependencies = ["-r requirements.txt"]\n', 3, "`-r` is no name; options, paths and addresses"),
            (START + 'dynamic = ["dependencies"]\n', 3, "it stands in [project], and not in `dynamic`.\n"),
            (
                START + '[dependency-groups]\ndev = [{ include-group = "tests" }]\n',
                3,
                "there is no group `tests` (there are: dev).\n",
            ),
            ('[tool.poetry]\nname = "x"\n[tool.poetry.dependencies]\nflask = "^3.0"\n', 3, '    "flask>=3.0,<4",\n'),
        ]:
            with self.subTest(said):
                self.assertIn(said, self.lock(text, status))


class Texts(unittest.TestCase):
    def test_a_poetry_project_in_the_form_that_is_read(self) -> None:
        text = (
            '[tool.poetry]\nname = "x"\nversion = "1.2"\n[tool.poetry.dependencies]\npython = "^3.9"\n'
            'a = "~1.2"\nb = "*"\n'
            'c = { version = ">=1,<2", extras = ["y"], markers = "os_name == \'nt\'" }\nd = "2.0"\n'
            'e = { git = "https://example.org/e" }\nf = { version = "^0.3", python = ">=3.10" }\n'
            '[tool.poetry.group.dev.dependencies]\npytest = "^8"\n'
        )
        self.assertEqual(poetry.project_lines(vendored.toml_reader().loads(text)), [
            "[project]", 'name = "x"', 'version = "1.2"', 'requires-python = ">=3.9,<4"', "dependencies = [",
            '    "a>=1.2,<1.3",', '    "b",', '    "c[y]>=1,<2; os_name == \'nt\'",', '    "d==2.0",',
            '    "f>=0.3,<0.4; python_version >= \'3.10\'",', "]", "[dependency-groups]", 'dev = ["pytest>=8,<9"]',
            "# left out, since they have no such form: e",
        ])  # fmt: skip
        self.assertEqual(poetry.project_lines({"project": {}, "tool": {"poetry": {}}}), [])

    def test_optional_dependencies_of_a_poetry_project(self) -> None:
        text = (
            '[tool.poetry.dependencies]\na = "^1"\nB_c = { version = "^2", optional = true }\n'
            'd = { version = "*", optional = true }\n[tool.poetry.extras]\nfast = ["b-c"]\n'
        )
        self.assertEqual(poetry.project_lines({"tool": vendored.toml_reader().loads(text)["tool"]})[3:], [
            "dependencies = [", '    "a>=1,<2",', "]", "[project.optional-dependencies]", 'fast = ["B_c>=2,<3"]',
            "# left out, since they have no such form: d",
        ])  # fmt: skip

    def test_what_is_read_is_not_changed(self) -> None:
        for text in ["flask", "flask==3.0", "flask (>=3)", "flask[x]~=3.0; os_name == 'nt'", "no requirement", "=3"]:
            self.assertIsNone(advice.meant(text), text)

    def test_platforms_of_files(self) -> None:
        for file, platforms in [
            ("a-1.tar.gz", ["linux", "windows", "macos"]), ("a-1-py3-none-any.whl", ["linux", "windows", "macos"]),
            ("a-1-cp39-abi3-manylinux_2_17_x86_64.manylinux2014_x86_64.whl", ["linux"]),
            ("a-1-cp312-cp312-win32.whl", ["windows"]), ("a-1-cp312-cp312-macosx_10_9_x86_64.whl", ["macos"]),
        ]:  # fmt: skip
            self.assertEqual(sorted(advice.platforms_of(file)), sorted(platforms))

    def test_a_lock_without_files_has_no_slips_of_platforms(self) -> None:
        text = 'version = 2\nroot = "a"\n\n[[package]]\nname = "a"\nversion = "1"\n'
        self.assertEqual(list(advice.platform_slips(locks.read(text, "it"))), [])


if __name__ == "__main__":
    unittest.main()
