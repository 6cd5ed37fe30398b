"""tools/doctor: what it finds in a project file and its index folder, and that the program refuses what it calls an
error."""

from __future__ import annotations

import json
import subprocess
import unittest
from typing import List

from making import PROGRAM, TOP, Folder, document, want_program

START = '[project]\nname = "demo"\nrequires-python = ">=3.9"\n'
STRICT = '[tool.unilock]\nprofile = "strict"\n'
ERRORS = [
    ('[projet]\nname = "x"\n', "error: project: there is no table [project]"),
    ('[project]\nname = "-x"\n', "error: project.name (line 2): wanted: a text that is a name"),
    (START + 'version = "one"\n', "error: project.version (line 4): `one` is no version of PEP 440"),
    (
        '[project]\nname = "x"\nrequires-python = ">=3.5<4"\n',
        "error: project.requires-python (line 3): `>=3.5<4` isn't an operator with a version",
    ),
    (START + 'dynamic = ["dependencies"]\n', "error: project.dynamic: it names dependencies"),
    (
        START + 'dependencies = ["a", "bb (>dev)"]\n',
        "error: project.dependencies[1] (line 4): `bb (>dev)`: `dev` is no version",
    ),
    (START + "dependencies = [1]\n", "error: project.dependencies[0]: it isn't a text"),
    (START + 'dependencies = ["a @ https://x/y"]\n' + STRICT, "a URL isn't supported"),
    (START + 'dependencies = ["a @ ftp://x/y"]\n', "ftp://x/y is no address of http or https"),
    (
        START + '[project.optional-dependencies]\nX_y = ["a=="]\n',
        "error: project.optional-dependencies.X_y[0] (line 5)",
    ),
    (START + '[dependency-groups]\ntest = ["a=="]\n', "error: dependency-groups.test[0] (line 5)"),
    (START + '[tool.uv]\noverride-dependencies = ["a=="]\n', "error: tool.uv.override-dependencies[0] (line 5)"),
    (
        START + '[tool.uv]\nresolution = "newest"\n',
        "error: tool.uv.resolution (line 5): it is \"newest\"; supported: highest, lowest, lowest-direct",
    ),
    (START + '[tool.uv]\nfork-strategy = "most"\n', "supported: fewest, requires-python, deep"),
    (START + '[tool.uv]\nprerelease = "all"\n', "supported: disallow, allow, if-necessary, explicit"),
    (START + '[tool.uv]\nprerelease = "allow"\n' + STRICT, "supported: if-necessary-or-explicit"),
    (
        START + '[tool.uv]\nenvironments = ["os == \'nt\'"]\n',
        "error: tool.uv.environments[0]: `os` is no variable of a marker",
    ),
    (START + "[tool.uv.sources]\na = { path = '.' }\n" + STRICT, "error: tool.uv.sources: "),
    (START + "[tool.uv.sources]\na = { path = 1 }\n", "error: pyproject.toml: tool.uv.sources.a: path: it is no text"),
    (START + "[tool.uv.workspace]\nmembers = ['../a']\n", "../a leads out of the workspace"),
    (
        START + "[[tool.uv.index]]\nurl = 'x'\n" + STRICT,
        "error: tool.uv.index: the strict profile has no place for it; index-url in [tool.uv] is asked",
    ),
    (
        START + '[tool.uv]\ndev-dependencies = ["a"]\n' + STRICT,
        "error: tool.uv.dev-dependencies: it isn't supported; [dependency-groups] is",
    ),
]


class Doctor(Folder):
    def found(self, text: str, *words: str, status: int = 1) -> List[str]:
        self.write("pyproject.toml", text)
        return self.printed("doctor", *words, status=status)

    def test_as_json(self) -> None:
        text = ERRORS[0][0]
        said = self.found(text)
        found = json.loads(self.ran("doctor", "--json", status=1).stdout)["findings"]
        self.assertEqual([f"{it['kind']}: {it['text']}" for it in found], said)

    def test_errors(self) -> None:
        for text, said in ERRORS:
            with self.subTest(said):
                found = [it for it in self.found(text) if it.startswith("error")]
                self.assertEqual(len(found), 1, found)
                self.assertIn(said, found[0])

    def test_the_program_refuses_each_error_and_no_sound_file(self) -> None:
        want_program(self)
        (self.top / "ix").mkdir()
        one = START + "[[tool.uv.index]]\nurl = 'x'\ndefault = true\n"
        for text in [one, *(text for text, _ in ERRORS)]:
            self.write("pyproject.toml", text)
            done = subprocess.run(
                [str(PROGRAM), "lock", "pyproject.toml", "ix", "1"],
                cwd=self.top,
                stdout=subprocess.PIPE,
                text=True,
                check=False,
            )
            self.assertEqual((done.returncode, done.stdout[:11]), (3, "malformed: "), text)
        self.found(START, status=0)
        done = subprocess.run(
            [str(PROGRAM), "lock", "pyproject.toml", "ix", "1"], cwd=self.top, stdout=subprocess.PIPE, check=False
        )
        self.assertEqual(done.returncode, 0)

    def test_a_sound_project(self) -> None:
        example = TOP / "examples" / "web_app"
        self.assertEqual(
            self.printed("doctor", example / "pyproject.toml"), [f"{example}/pyproject.toml: nothing was found"]
        )

    def test_no_bound_on_the_interpreter(self) -> None:
        said = self.found('[project]\nname = "x"\n')
        self.assertIn(
            "warning: project.requires-python: it isn't there, so every interpreter from 0.0 on is supported", said[0]
        )

    def test_misspelt_keys(self) -> None:
        text = START + (
            "dependancies = []\n[dependency-group]\n"
            '[tool.uv]\nconstraints-dependencies = []\nfork-stategy = "x"\n'
        )
        self.assertEqual([it for it in self.found(text) if "meant" in it], [
            "warning: dependency-group: it is passed over; is dependency-groups meant?",
            "warning: project.dependancies: it is passed over; is project.dependencies meant?",
            "warning: tool.uv.constraints-dependencies: it is passed over; is tool.uv.constraint-dependencies meant?",
            "warning: tool.uv.fork-stategy: it is passed over; is tool.uv.fork-strategy meant?",
        ])  # fmt: skip

    def test_keys_that_are_passed_over(self) -> None:
        text = START + (
            '[tool.uv]\nexclude-newer = "2024-01-01"\ndefault-groups = ["a"]\nlink-mode = "copy"\nmanaged = true\n'
            '[[tool.uv.dependency-metadata]]\nname = "a"\n'
        )
        said = self.found(text, status=0)
        self.assertEqual(
            [it.split(":")[1].strip() for it in said[:-1]],
            ["tool.uv.exclude-newer", "tool.uv.default-groups", "tool.uv.dependency-metadata"],
        )
        self.assertEqual(said[-1], "note: no index folder was looked at; `tools/index` makes one")
        self.assertIn("tool.poetry.dependencies", self.found(START + "[tool.poetry.dependencies]\na = '*'\n")[0])

    def test_the_index_of_the_project(self) -> None:
        said = self.found(START + "[[tool.uv.index]]\nurl = 'https://x/simple'\ndefault = true\n", status=0)
        by = "note: tool.uv.index: the lock is by the index folder alone; "
        self.assertEqual(said[0], by + "`tools/lock` and `tools/index` ask it")
        said = self.found(START + "[[tool.uv.index]]\nurl = 'x'\n")
        self.assertIn("warning: tool.uv.index[0]: its url is no address of a server", said[1])

    def test_names_without_a_document(self) -> None:
        needs = ["urlib3", "never; python_version < '3'", "side; extra == 's'"]
        self.write("ix/requests.json", document("requests", {"version": "1", "requires_dist": needs}))
        self.write("ix/urllib3.json", document("urllib3"))
        said = self.found(START + 'dependencies = ["requets", "requests"]\n')
        self.assertEqual(said, [
            "warning: ix has no document of requets, which the project requires; is requests meant?",
            "warning: ix has no document of urlib3, which requests 1 requires; is urllib3 meant?",
        ])  # fmt: skip
        said = self.found(START + 'dependencies = ["requests[s]"]\n')
        self.assertIn("warning: ix has no document of side, which requests 1 requires", said)

    def test_releases_and_documents(self) -> None:
        releases = [
            {"version": "1", "requires_dist": ["bb (>dev)"]},
            {"version": "2004d"},
            {"version": "3", "requires_python": "<4,>=3.8"},
        ]
        self.write("ix/a.json", document("a", *releases))
        self.write("ix/b.json", document("c"))
        self.write("ix/c.json", "{")
        self.assertEqual(self.found(START + 'dependencies = ["a", "b", "c"]\n')[:-1], [
            "error: ix/c.json: not JSON: "
            "Expecting property name enclosed in double quotes: line 1 column 2 (char 1)",
            "error: ix/b.json: the document's `name` is 'c'",
            "warning: a 1 can't be used: Requires-Dist: `bb (>dev)`: `dev` is no version of PEP 440",
            "warning: a 2004d can't be used: its version `2004d` has no reading",
        ])  # fmt: skip
        last = self.printed("doctor", status=1)[-1]
        self.assertEqual(last, (
            "note: a 3: the upper part of Requires-Python counts as nothing here; "
            "pip will refuse an interpreter above it"
        ))  # fmt: skip

    def test_what_is_not_there(self) -> None:
        self.assertIn("absent.toml", self.ran("doctor", "absent.toml", status=3).stderr)
        self.write("pyproject.toml", "[project\n")
        self.assertIn("not TOML", self.ran("doctor", status=3).stderr)
        self.write("pyproject.toml", START)
        self.assertIn(
            "absent: there is no such folder", self.ran("doctor", "pyproject.toml", "absent", status=3).stderr
        )


if __name__ == "__main__":
    unittest.main()
