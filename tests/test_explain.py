"""tools/explain: refusals in sentences, and the text at a place that is refused. The program's own answers are used
where it is there."""

from __future__ import annotations

import json
import unittest
from typing import List

from making import TOP, Folder, document, skip, want_program
from unilock_tools import refusal

EXAMPLE = TOP / "examples" / "refused"
WORLD = "world: python_full_version == '0.0.0' and os_name == '' and sys_platform == 'win32'"
HEAD = f"no selection serves this fork\nfork: 0\nregion: sys_platform == 'win32'\n{WORLD}\n"


class Explained(Folder):
    """A project and an index, and what is said of the program's answer or of a given one."""

    def project(self, *dependencies: str, more: str = "", python: str = "") -> None:
        listed = ", ".join(f'"{it}"' for it in dependencies)
        bound = f'requires-python = "{python}"\n' if python else ""
        self.write(
            "pyproject.toml", f'[project]\nname = "demo"\nversion = "0.1"\n{bound}dependencies = [{listed}]\n{more}'
        )

    def index(self, **documents: list) -> None:
        for name, versions in documents.items():
            self.write(f"ix/{name}.json", document(name, *versions))

    def told(self, *words: str) -> str:
        want_program(self)
        return self.ran("explain", *(words or ("--no-hints",))).stdout

    def told_of(self, text: str) -> List[str]:
        return self.ran("explain", "--from", "-", into=text).stdout.splitlines()


class AsJson(Explained):
    def test_the_sentences_of_the_example(self) -> None:
        text = (EXAMPLE / "lock.txt").read_text(encoding="utf-8")
        words = ["explain", EXAMPLE / "pyproject.toml", EXAMPLE / "ix", "--from", "-"]
        found = json.loads(self.ran(*words, "--json", into=text).stdout)
        refused = "No choice of versions serves the project where sys_platform == 'win32'."
        self.assertEqual(found["sentences"][0], refused)
        shown = " ".join(self.ran(*words, into=text).stdout.split())
        self.assertEqual(" ".join(" ".join(found["sentences"]).split()), shown)


class Sentences(Explained):
    def test_the_example(self) -> None:
        said = self.ran(
            "explain", EXAMPLE / "pyproject.toml", EXAMPLE / "ix", "--from", EXAMPLE / "why.txt"
        ).stdout.splitlines()
        self.assertEqual(said, [
            "No choice of versions serves the project where sys_platform == 'win32'.",
            "Such a machine: sys_platform win32.",
            "1. the project needs q at 1 (project.dependencies[0]: `q<2; sys_platform == 'win32'`).",
            "2. q 1 needs z (`z`), and the index has no document of z.",
            "3. from 2 and 1: the project can't be chosen.",
            "So the project can't be served there.",
        ])  # fmt: skip

    def test_no_version_meets_a_bound(self) -> None:
        self.project("a", python=">=3.9")
        self.index(a=[{"version": "1", "requires_dist": ["z<1"]}], z=[{"version": "2"}, {"version": "3"}])
        self.assertIn("a 1 needs z (`z<1`), and no version of z meets `<1`: the index has 2 or 3.", self.told())

    def test_an_interpreter_that_is_too_new(self) -> None:
        self.project("a")
        self.index(a=[{"version": "1", "requires_python": ">=3.8"}])
        said = self.told("--workers", "1")
        self.assertIn("a 1 needs Python `>=3.8`, and the project supports all, since it has no requires-python.", said)
        way = '- say which interpreters are supported; in [project]:\n    requires-python = ">=3.8"\n'
        self.assertTrue(said.endswith(way), said)
        self.project("a", python=">=3.7")
        self.assertIn("and the project supports `>=3.7`.", self.told())

    def test_releases_that_do_not_count(self) -> None:
        self.project("a>=2")
        for versions, said in [
            ([{"version": "1"}, {"version": "2rc1"}], "no version of a meets `>=2`: the index has 1 or 2rc1"),
            (
                [{"version": "1"}, {"version": "3rc1"}],
                "a 3rc1 is a pre-release, which counts only where a requirement of the project names one",
            ),
            ([{"version": "2", "yanked": True}], "a 2 is yanked, which counts only where the project asks for `==2`"),
            (
                [{"version": "2", "requires_dist": ["bb (>dev)"]}],
                "a 2 can't be used (Requires-Dist: `bb (>dev)`: `dev` is no version of PEP 440)",
            ),
            ([], "the index has no version of a that can be used"),
        ]:
            with self.subTest(said):
                self.index(a=versions)
                self.assertIn(said, self.told())

    def test_a_clash_of_two(self) -> None:
        self.project("a", "b", python=">=3.9")
        self.index(
            a=[{"version": "1", "requires_dist": ["c<2"]}],
            b=[{"version": "1", "requires_dist": ["c>=2"]}],
            c=[{"version": "1"}, {"version": "2"}],
        )
        said = self.told()
        self.assertIn("a 1 needs c at 1 (`c<2`).", said)
        self.assertIn("b 1 needs c at 2 (`c>=2`).", said)
        self.assertIn("the project needs a at 1 (project.dependencies[0]: `a`).", said)
        self.assertIn("So the project can't be served.\n", said)

    def test_extras_groups_and_settings(self) -> None:
        self.project(
            "a",
            more='[dependency-groups]\ntest = ["b<1"]\n[tool.uv]\nconstraint-dependencies = ["a<2"]\n',
            python=">=3.9",
        )
        self.index(a=[{"version": "2"}], b=[{"version": "1"}])
        said = self.told()
        self.assertTrue(
            "tool.uv.constraint-dependencies[0]: `a<2`" in said or "dependency-groups.test[0]: `b<1`" in said, said
        )

    def test_nothing_is_refused(self) -> None:
        self.project("a")
        self.index(a=[{"version": "1"}])
        self.assertEqual(self.told(), "Nothing is refused: the project can be locked.\n")
        self.assertEqual(self.told_of("version = 2\n"), ["Nothing is refused: this is a lock."])

    def test_a_core(self) -> None:
        self.project("q<2; sys_platform == 'win32'", python=">=3.9")
        self.index(q=[{"version": "1", "requires_dist": ["z"]}])
        said = self.told_of(HEAD + "core: 2\ndemo 0.1 needs q {1}\nq 1 needs z {}\n")
        self.assertEqual(said[2:5], [
            "These requirements alone already clash; with any one of them left out the rest can be served:",
            "- the project needs q at 1 (project.dependencies[0]: `q<2; sys_platform == 'win32'`).",
            "- q 1 needs z (`z`), and the index has no document of z.",
        ])  # fmt: skip

    def test_the_core_of_the_program_comes_without_the_steps(self) -> None:
        self.project("a", "b", python=">=3.9")
        self.index(
            a=[{"version": "1", "requires_dist": ["c<2"]}],
            b=[{"version": "1", "requires_dist": ["c>=2"]}],
            c=[{"version": "1"}, {"version": "2"}],
        )
        said = self.told().splitlines()
        self.assertEqual(said[0], "No choice of versions serves the project.")
        if not said[1].startswith("These requirements alone"):
            skip(self, "the program tells no core")
        self.assertEqual([it[:2] for it in said[2:7]], ["- "] * 4 + ["So"])
        self.assertTrue(said[2].startswith("- the project needs a"), said)
        self.assertIn("\n5. ", self.ran("explain", "--steps", "--no-hints").stdout)

    def test_each_form_of_a_step(self) -> None:
        self.project("q[x]")
        self.index(q=[{"version": "1"}, {"version": "2"}, {"version": "3", "requires_python": ">=3.9"}])
        steps = (
            "1 need demo {0.1} q[x] {1,2}\n2 base q[x] {1,2}\n3 python q {3}\n"
            "4 cut 1 2 on q[x]: demo {0.1}, not q {1,2}\n5 cut 4 3 on q: demo {0.1}, q {3}\n"
        )
        said = self.told_of(HEAD + steps)
        self.assertEqual(said[2:7], [
            "1. the project needs q[x] at 1 or 2 (project.dependencies[0]: `q[x]`).",
            "2. q[x] 1 or 2 goes only with q at the same version.",
            "3. q 3 needs Python `>=3.9`, and the project supports all, since it has no requires-python.",
            "4. from 1 and 2: the project goes only with q 1 or 2.",
            "5. from 4 and 3: the project and q 3 don't go together.",
        ])  # fmt: skip

    def test_steps_that_are_not_used_are_left_out(self) -> None:
        steps = refusal.read(
            HEAD + "1 need a {1} b {}\n2 need c {1} d {}\n3 need demo {0.1} c {1}\n4 cut 2 3 on c: demo {0.1}\n", "x"
        ).steps
        self.assertEqual([number for number, _ in refusal.used(steps)], [2, 3, 4])


class Places(Explained):
    def place(self, place: str, text: str, file: str = "p.toml") -> str:
        self.write(file, text)
        return "\n".join(self.told_of(f"malformed: {file}: {place}\n"))

    def test_requirements(self) -> None:
        text = (
            '[project]\nname = "x"\ndependencies = [\n  "a",\n  "bb (>dev)",\n]\n'
            '[project.optional-dependencies]\nA_b = ["c=="]\n'
        )
        self.assertEqual(
            self.place("requirement project.dependencies[1]", text),
            "p.toml: project.dependencies[1] (line 5): `bb (>dev)`: `dev` is no version of PEP 440.",
        )
        self.assertIn(
            "(line 8): `c==`: `` is no version", self.place("requirement project.optional-dependencies.a-b[0]", text)
        )

    def test_shapes(self) -> None:
        for place, text, said in [
            ("shape project", "[x]\n", "it isn't there; wanted: a table [project]"),
            (
                "shape project.version",
                '[project]\nname = "x"\nversion = "one"\n',
                "(line 3): it is \"one\"; `one` is no version of PEP 440",
            ),
            (
                "shape project.requires-python",
                '[project]\nname = "x"\nrequires-python = ">=3.5<4"\n',
                "`>=3.5<4` isn't an operator with a version",
            ),
            ("shape project.dependencies[0]", '[project]\nname = "x"\ndependencies = [1]\n', "it is 1; wanted: a text"),
            (
                "shape dependency-groups.a[0]",
                '[dependency-groups]\na = [{ include-group = "A" }]\n',
                "include-group = NAME } of a group",
            ),
            (
                "shape dependency-groups.a[0]",
                '[dependency-groups]\na = [{ include-group = "b" }]\n',
                "there is no group `b` (there are: a).",
            ),
            ("shape tool.uv.environments", '[tool.uv]\nenvironments = "linux"\n', "the marker ends too early"),
            ("shape tool.uv.resolution", '[tool.uv]\nresolution = "newest"\n', 'one of "highest", "lowest"'),
            (
                "shape versions[1].requires_dist",
                '{"versions": [{}, {"requires_dist": "a"}]}',
                "a list of texts, or null",
            ),
        ]:
            with self.subTest(place):
                self.assertIn(
                    said, self.place(place, text, "p.json" if place.startswith("shape versions") else "p.toml")
                )

    def test_what_is_not_supported(self) -> None:
        self.assertIn(
            "a URL isn't supported",
            self.place("unsupported project.dependencies[0]", '[project]\ndependencies = ["a @ https://x/y"]\n'),
        )
        self.assertIn(
            "the strict profile has no place for it; the wide profile reads it, and `tools/lock` follows it.",
            self.place("unsupported tool.uv.sources", "[tool.uv.sources]\na = { path = '.' }\n"),
        )
        said = self.place("unsupported tool.uv.sources.a", "[tool.uv.sources]\na = { index = 'b', extra = 'c' }\n")
        self.assertIn("tool.uv.sources.a: it would count for extras alone that exclude each other, and those", said)
        said = self.place("shape tool.uv.sources.a-b", "[tool.uv.sources]\nA_b = { index = 'direct' }\n")
        self.assertIn('tool.uv.sources.a-b: it is {"index": "direct"}; wanted: a table, or a list of tables, in', said)

    def test_lines_of_files_that_are_not_of_their_form(self) -> None:
        self.assertIn("line 2: name = \"x", self.place("not TOML", '[project]\nname = "x\n'))
        said = self.place("not JSON", '{\n  "name": "a",\n  "versions": [,]\n}\n', "a.json")
        self.assertIn('line 3: "versions": [,]', said)
        self.assertIn("line 3: nonsense", self.place("line 3", "version = 2\nroot = \"a\"\nnonsense\n", "unilock.lock"))
        self.assertIn("it ends before line 9", self.place("line 9", "version = 2\n", "unilock.lock"))

    def test_all_other_places(self) -> None:
        for place, said in [
            ("empty region", "leave no interpreter and no platform"),
            ("name", "isn't that of its file"),
            ("root", "no package of its root's name"),
            ("target 3", "package 4 of the lock"),
            ("missing os_name", "`os_name` is missing; `tools/machine`"),
            ("python form", "isn't three numbers"),
        ]:
            self.assertIn(said, self.place(place, "{}", "machine.json"))
        self.assertEqual(self.told_of("malformed: nowhere.toml: absent\n"), ["nowhere.toml: there is no such file."])

    def test_limits_and_read_faults(self) -> None:
        self.assertIn("at most 2,048 forks", self.told_of("limit: forks 2048\n")[0])
        self.assertIn("see its permissions", self.told_of("read fault: ix/a.json\n")[0])

    def test_what_the_program_refuses_is_explained(self) -> None:
        want_program(self)
        (self.top / "ix").mkdir()
        for text, said in [
            ('[project]\nname = "demo"\ndependencies = ["a", "b=="]\n', "project.dependencies[1] (line 3): `b==`"),
            ('[project]\nname = "demo"\nrequires-python = ">=3.9,<3"\n', "leave no interpreter"),
            (
                '[project]\nname = "demo"\n[tool.uv]\nfind-links = ["x"]\n[tool.unilock]\nprofile = "strict"\n',
                "tool.uv.find-links: the strict profile has no place for it",
            ),
            ('[project\n', "line 1: [project"),
        ]:
            self.write("pyproject.toml", text)
            self.assertIn(said, self.ran("explain").stdout)

    def test_what_cannot_be_explained(self) -> None:
        self.project("a")
        for text in ["", "nonsense\n", HEAD + "1 nonsense\n"]:
            done = self.ran("explain", "--from", "-", into=text, status=1)
            self.assertEqual(len(done.stderr.splitlines()), 1)
        self.assertIn("absent.txt", self.ran("explain", "--from", "absent.txt", status=1).stderr)


if __name__ == "__main__":
    unittest.main()
