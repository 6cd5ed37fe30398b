"""A lock that is right stays, and where it isn't right any more as little as may be changes."""

from __future__ import annotations

import unittest
from typing import Any, Dict, List
from unittest import mock

from making import SUM, TOP, Folder, document, tool, want_program
from unilock_tools import locks, mending, pinned, program, project, relocking, vendored, worlds

SCENARIO = tool("scenario")
FORKS = """a 2
    w<2; sys_platform == 'win32'
    w
    b
    c
a 3
    x<2; os_name == 'nt'
    x>=2; os_name == 'nt' or sys_platform == 'zz'
    y<2; os_name != 'nt'
    y>=2; os_name != 'nt' or sys_platform == 'zz'
b 1
    q<2; os_name == 'nt' and sys_platform == 'win32'
    q<3; os_name == 'nt'
c 1
    q>=2; os_name != 'nt' and sys_platform == 'win32'
    q>=1; os_name != 'nt'
"""
VERSIONS = "".join(f"{name} {version}\n" for name in "qwxy" for version in (1, 2))


class Relocked(Folder):
    def setUp(self) -> None:
        super().setUp()
        want_program(self)
        self.lock = self.top / "unilock.lock"

    def project(self, *dependencies: str, more: str = "") -> None:
        listed = "".join(f'    "{it}",\n' for it in dependencies)
        self.write("pyproject.toml", f'[project]\nname = "demo"\nversion = "0.1"\ndependencies = [\n{listed}]\n{more}')

    def index(self, text: str) -> None:
        for name, found in SCENARIO.documents(text).items():
            self.write(f"ix/{name}.json", document(found["name"], *found["versions"]))

    def versions(self) -> Dict[str, List[str]]:
        found = locks.load(str(self.lock)).by_name()
        return {name: [it.version for it in packages] for name, packages in found.items() if name != "demo"}

    def stays(self) -> None:
        before = self.lock.read_bytes()
        self.assertRegex(self.printed("lock")[0], r"unilock\.lock is current")
        self.ran("lock", "--check")
        self.assertEqual(self.lock.read_bytes(), before)

    def test_a_lock_that_lock_refuses_to_keep_stays(self) -> None:
        self.project("a")
        self.index(FORKS + VERSIONS + "v 1\n")
        self.ran("lock")
        self.assertEqual(self.lock.read_text().split("[[package]]")[0].count('    "'), 4)
        self.stays()
        before = self.versions()
        self.project("a", "v")
        said = self.printed("lock", "--check", status=1)
        self.assertEqual(said[0], "added v 1")
        self.assertIn("rejected: demo 0.1: the project requires `v` (project.dependencies[1]), and on Linux", said[1])
        self.ran("lock")
        self.assertEqual(self.versions(), {**before, "v": ["1"]})
        self.stays()
        self.project("a")
        self.assertEqual(self.printed("lock")[0], "removed v 1")
        self.assertEqual(self.versions(), before)
        self.stays()

    def test_a_lock_is_brought_to_its_own_project_as_it_is(self) -> None:
        for example in ("web_app", "by_python", "deep"):
            folder = TOP / "examples" / example
            lock = folder / "unilock.lock"
            with mock.patch.dict("os.environ", self.environment(), clear=True):
                brought = mending.mended(lock.read_text(), str(lock), project.load(str(folder / "pyproject.toml")))
            self.assertEqual(brought, lock.read_text(), example)

    def test_a_version_that_serves_a_part_stays_there(self) -> None:
        """By its definition `lock` would take `a 2` for both platforms once the bound on Linux is gone."""
        self.project("a; implementation_name == 'pypy'", "a<2; sys_platform == 'linux'")
        self.index("a 1\na 2\n")
        self.ran("lock")
        self.project("a; implementation_name == 'pypy'")
        self.ran("lock")
        edges = [(it.version, it.marker) for it in locks.load(str(self.lock)).root_package().edges]
        self.assertEqual(edges, [
            ("1", "sys_platform == 'linux' and implementation_name == 'pypy'"),
            ("2", "sys_platform != 'linux' and implementation_name == 'pypy'"),
        ])  # fmt: skip
        self.stays()

    def test_versions_stay_where_a_package_comes_too(self) -> None:
        """The old lock has no `v`, so it can't be brought to the project as it is; its versions are pinned."""
        self.project("a; implementation_name == 'pypy'", "a<2; sys_platform == 'linux'")
        self.index("a 1\na 2\nv 1\n    a\n")
        self.ran("lock")
        self.project("a; implementation_name == 'pypy'", "v; sys_platform == 'win32'")
        self.ran("lock")
        edges = [(it.name, it.version, it.marker) for it in locks.load(str(self.lock)).root_package().edges]
        self.assertEqual(edges, [
            ("a", "1", "sys_platform == 'linux' and implementation_name == 'pypy'"),
            ("a", "2", "sys_platform != 'linux' and implementation_name == 'pypy'"),
            ("v", "1", "sys_platform == 'win32'"),
        ])  # fmt: skip
        self.stays()

    def test_versions_that_clash_are_let_go_of_and_others_stay(self) -> None:
        """`v` needs the newer `a`, which `c 1` doesn't go with; `b` and the versions of `d` stay."""
        self.project("c", "b", "d", "d<2; sys_platform == 'linux'")
        self.index("a 1\nb 1\nc 1\n    a<2\nd 1\nd 2\n")
        self.ran("lock")
        self.index("a 1\na 2\nb 1\nb 2\nc 1\n    a<2\nc 2\n    a\nd 1\nd 2\nd 3\nv 1\n    a>=2\n")
        self.project("c", "b", "d", "v")
        self.ran("lock")
        self.assertEqual(self.versions(), {"a": ["2"], "b": ["1"], "c": ["2"], "d": ["1", "2"], "v": ["1"]})
        self.stays()

    def test_a_project_that_is_refused_anew_is_locked_by_its_old_versions(self) -> None:
        """The strategy `fewest` has no lock of it, one by `deep` still serves, with `v` besides."""
        self.project("camera", "sound", more='[tool.uv]\nfork-strategy = "deep"\n')
        needs = "camera 1\n    n<2; sys_platform == 'win32'\nsound 1\n    n>=2; sys_platform != 'win32'\n"
        self.index(f"{needs}n 1\nn 2\nv 1\n")
        self.ran("lock")
        before = self.versions()
        self.project("camera", "sound", "v")
        self.ran("lock", "-o", "anew.lock", status=1)
        self.ran("lock")
        self.assertEqual(self.versions(), {**before, "v": ["1"]})
        self.stays()

    def test_versions_of_forks_stay(self) -> None:
        self.project("d<2; sys_platform == 'win32'", "d; sys_platform != 'win32'")
        self.index("d 1\nd 2\n")
        self.ran("lock")
        self.assertEqual(self.versions(), {"d": ["1", "2"]})
        self.stays()

    def test_what_is_asked_of_an_extra_of_the_project_stays(self) -> None:
        lowest = '[tool.uv]\nresolution = "lowest"\n'
        self.project("demo[foo]", "q", "q>=2; sys_platform == 'win32'", more=lowest)
        self.index("q 1\nq 2\n")
        self.ran("lock")
        self.assertEqual(self.versions(), {"q": ["1", "2"]})
        self.stays()

    def test_an_extra_that_the_project_lost_goes(self) -> None:
        self.project("q", more='[project.optional-dependencies]\nx = ["w"]\n')
        self.index("q 1\nw 1\n")
        self.ran("lock")
        self.project("q")
        self.assertEqual(self.printed("lock")[0], "removed w 1")
        self.assertEqual(locks.load(str(self.lock)).root_package().extras, {})

    def test_files_are_renewed_and_no_version_changes(self) -> None:
        self.project("q")
        self.write("ix/q.json", document("q", {"version": "1", "files": [{"file": "q-1.whl", "sha256": SUM}]}))
        self.ran("lock")
        files = [{"file": "q-1.whl", "sha256": SUM[::-1].upper()}, {"file": "p-1.whl", "sha256": SUM}]
        self.write("ix/q.json", document("q", {"version": "1", "files": files}, {"version": "2"}))
        self.assertEqual(self.printed("lock")[:3], [
            "no version changed, but markers, files or extras did", "q 1: file p-1.whl added",
            "q 1: file q-1.whl has ANOTHER HASH",
        ])  # fmt: skip
        self.assertEqual(locks.load(str(self.lock)).package("q", "1").files, [("p-1.whl", SUM), ("q-1.whl", SUM[::-1])])
        self.stays()

    def test_new_files_of_a_locked_release_do_not_make_a_lock_stale(self) -> None:
        self.project("q", "r; sys_platform == 'win32'")
        self.index("q 1\nr 1\n")
        one, other = ({"file": f"q-1-{it}.whl", "sha256": SUM} for it in "ab")
        self.write("ix/q.json", document("q", {"version": "1", "files": [one]}))
        self.ran("lock")
        self.write("ix/q.json", document("q", {"version": "1", "files": [one, other]}))
        self.write("ix/r.json", document("r", {"version": "1", "files": [other]}))
        said = self.printed("lock", "--check")
        self.assertEqual(said, ["unilock.lock is current: 2 packages (the index has 2 more files of them)"])
        # One that is gone, has another hash, or stands beside another change counts.
        for files in ([other], [{**one, "sha256": SUM[::-1]}, other]):
            self.write("ix/q.json", document("q", {"version": "1", "files": files}))
            self.ran("lock", "--check", status=1)
        self.write("ix/q.json", document("q", {"version": "1", "files": [one, other], "requires_dist": ["r"]}))
        self.ran("lock", "--check", status=1)

    def test_the_least_change_is_taken_and_its_cause_is_said(self) -> None:
        """Where `a 1` is gone, the lock that keeps `b 1` and `c 1` is taken, and not the newest of all."""
        self.project("a", "b", "c")
        self.index("a 1\nb 1\nc 1\n")
        self.ran("lock")
        self.index("a 2\nb 1\nb 2\nc 1\nc 2\n")
        said = self.printed("lock")
        self.assertEqual(said[0], "a 1 -> 2  (the index has no release a 1 that can be used)")
        self.assertEqual(self.versions(), {"a": ["2"], "b": ["1"], "c": ["1"]})

    def test_no_old_lock_keeps_a_project_from_being_locked(self) -> None:
        self.project("a")
        self.index(FORKS + VERSIONS)
        self.ran("lock")
        for version in ("2", "3"):
            self.write("old.lock", f'version = 2\nroot = "demo"\n\n[[package]]\nname = "a"\nversion = "{version}"\n'
                       '\n[[package]]\nname = "demo"\nversion = "0.1"\n')  # fmt: skip
            self.ran("lock", "-o", "old.lock")
            self.ran("lock", "--check", "-o", "old.lock")

    def test_nothing_serves_and_not_current_have_statuses_of_their_own(self) -> None:
        self.project("q")
        self.index("q 1\n")
        self.ran("lock", "--check", status=1)
        self.ran("lock")
        self.ran("lock", "--check")
        self.project("q>=2")
        self.ran("lock", "--check", status=4)
        self.ran("lock", status=1)
        self.project("q", "moto")
        said = self.ran("lock", "--check", status=4).stderr
        self.assertIn("stale index: ix has no document of moto; `tools/index pyproject.toml ix` makes it anew", said)

    def test_a_package_at_a_version_that_is_named(self) -> None:
        self.project("a", "b")
        self.index("a 1\na 2\na 3\nb 1\nb 2\n")
        self.ran("lock")
        self.index("a 1\na 2\na 3\nb 1\nb 2\nb 3\n")
        self.assertEqual(self.printed("lock", "-P", "A==2.0"), ["a 3 -> 2", "unilock.lock is written: 2 packages"])
        self.assertEqual(self.versions(), {"a": ["2"], "b": ["2"]})
        self.stays()
        before = self.lock.read_bytes()
        said = self.ran("lock", "-P", "a==9", status=1).stderr
        self.assertIn("\na==9 is asked for by --upgrade-package, as if it stood among the constraints\n", said)
        self.assertIn("no version of a meets `==9`", said)
        self.assertIn("no version", self.ran("lock", "-P", "a==x", status=2).stderr)
        self.assertEqual(self.lock.read_bytes(), before)

    def test_a_program_with_the_word_and_one_without_answer_alike(self) -> None:
        self.project("a")
        self.index(FORKS + VERSIONS)
        self.ran("lock")
        files = relocking.Files(str(self.top / "pyproject.toml"), str(self.top / "ix"), 1)
        with mock.patch.dict("os.environ", self.environment(), clear=True):
            known = program.answer(files.words("relock", str(self.lock)))
            if known.status == 2:
                self.skipTest("the program doesn't have the word relock")
            with mock.patch.object(program, "answer", without_the_word(program.answer)):
                self.assertEqual(relocking.relocked(files, str(self.lock)), known)


def without_the_word(answer: Any) -> Any:
    """The program as one that has no word `relock`."""
    return lambda words: program.Answer(2, "usage: unilock\n", b"") if words[0] == "relock" else answer(words)


class Counted(unittest.TestCase):
    def lock(self, text: str) -> locks.Lock:
        return locks.read(text, "a lock")

    def test_pairs_of_a_machine_and_a_package(self) -> None:
        head = 'version = 2\nroot = "demo"\n\n[[package]]\nname = "d"\nversion = "1"\n\n[[package]]\nname = "d"\n'
        root = 'version = "2"\n\n[[package]]\nname = "demo"\nversion = "0.1"\ndependencies = [\n'
        both = '    { name = "d", version = "1", marker = "sys_platform == \'win32\'" },\n'
        both += '    { name = "d", version = "2", marker = "sys_platform != \'win32\'" },\n'
        one = '    { name = "d", version = "1" },\n'
        two = '    { name = "d", version = "2" },\n'
        made = {name: self.lock(f"{head}{root}{edges}]\n") for name, edges in [("both", both), ("1", one), ("2", two)]}
        count = {
            (left, right): worlds.difference(made[left], made[right], ">=3.9") for left in made for right in made
        }
        self.assertEqual([count[it, it] for it in made], [(0, 0)] * 3)
        self.assertEqual((count["both", "2"], count["both", "1"], count["1", "2"]), ((1, 1), (2, 2), (3, 3)))

    def test_a_version_that_changes_counts_before_packages_that_come(self) -> None:
        blocks = {"a": '[[package]]\nname = "a"\nversion = "%s"\n'}
        blocks.update({name: f'[[package]]\nname = "{name}"\nversion = "1"\n' for name in "bc"})

        def lock(version: str, more: str) -> locks.Lock:
            edges = "".join(
                f'    {{ name = "{it}", version = "{version if it == "a" else 1}" }},\n' for it in f"a{more}"
            )
            root = f'[[package]]\nname = "demo"\nversion = "0.1"\ndependencies = [\n{edges}]\n'
            found = [blocks["a"] % version, *(blocks[it] for it in more), root]
            return self.lock("\n".join(['version = 2\nroot = "demo"\n', *found]))

        old = lock("1", "")
        more, newer = (worlds.difference(old, it, ">=3.9,<3.10") for it in (lock("1", "bc"), lock("2", "")))
        self.assertEqual((more.versions, newer.versions), (0, newer.pairs))
        self.assertEqual(more.pairs, 2 * newer.pairs)
        self.assertLess(more, newer)



HEAD = "no selection serves this fork\nfork: -\nregion: *\nworld: os_name == 'posix'\ncore: 2\n"


class Pins(unittest.TestCase):
    """The project that has the old versions as constraints, by a stand-in for the program."""

    GIVEN = {"demo": {"0.1": ""}, "a": {"1": "os_name == 'nt'"}, "d": {"1": "os_name == 'nt'", "2": "os_name != 'nt'"}}

    def wanted(self) -> project.Project:
        tables = {"project": {"name": "demo", "version": "0.1", "dependencies": ["v"]}}
        settings = {"constraint-dependencies": ["v<9"], "resolution": "lowest"}
        return project.Project("pyproject.toml", {**tables, "tool": {"uv": settings}})

    def settings(self, text: str) -> Dict[str, Any]:
        found = vendored.toml_reader().loads(text)
        self.assertEqual(found["project"], self.wanted().tables["project"])
        return dict(found["tool"]["uv"])

    def test_versions_are_held_everywhere_and_then_where_they_were_and_then_what_clashes_is_let_go_of(self) -> None:
        asked = []

        def lock(text: str) -> program.Answer:
            asked.append(self.settings(text))
            clash = "v 1 needs a {2}\ndemo 0.1 needs a {1}\n" if len(asked) <= 3 else "v 1 needs w {}\n"
            return program.Answer(1, HEAD + clash, b"")

        self.assertIsNone(pinned.locked(self.wanted(), self.GIVEN, 9, lock))
        d = ["d==1; os_name == 'nt'", "d==2; os_name != 'nt'"]
        pins = [["a==1", *d], *[["a==1; os_name == 'nt'", *d]] * 2, *[d] * 3]
        self.assertEqual([it["constraint-dependencies"] for it in asked], [["v<9", *it] for it in pins])
        self.assertEqual([it.get("fork-strategy") for it in asked], [None, None, "deep"] * 2)
        self.assertEqual({it["resolution"] for it in asked}, {"lowest"})

    def test_the_first_lock_is_taken_and_other_faults_end_it(self) -> None:
        for status, found in [(0, "a lock"), (4, None), (7, None)]:
            answers = [program.Answer(it, "a lock", b"") for it in (1, status, 0)]
            lock = mock.Mock(side_effect=answers)
            self.assertEqual(pinned.locked(self.wanted(), self.GIVEN, 1, lock), found)
            self.assertEqual(lock.call_count, 2)


if __name__ == "__main__":
    unittest.main()
