"""tools/coverage: where each package of a lock has a wheel that fits, only a source distribution, or nothing. A
stand-in answers for the program, but where the whole is tried."""

from __future__ import annotations

import importlib.util
import json
import time
import unittest
from pathlib import Path

from making import PROGRAM, Folder, document, skip, want_program

SUPPORTED = "python_full_version >= '3.11.0'"


def lock_text(files: dict[str, list[str]], supported: str = SUPPORTED) -> str:
    """A lock of packages at version 1 with these files."""
    blocks = [f'version = 2\nroot = "p"\nsupported-markers = "{supported}"\n']
    for name, listed in files.items():
        lines = "".join(f'    {{ file = "{it}", hash = "sha256:{"0" * 64}" }},\n' for it in listed)
        more = f"files = [\n{lines}]\n" if listed else ""
        blocks.append(f'[[package]]\nname = "{name}"\nversion = "1"\n{more}')
    edges = "".join(f'    {{ name = "{it}", version = "1" }},\n' for it in files)
    blocks.append(f'[[package]]\nname = "p"\nversion = "0"\ndependencies = [\n{edges}]\n')
    return "\n".join(blocks)


class Covered(Folder):
    def setUp(self) -> None:
        super().setUp()
        if importlib.util.find_spec("packaging") is None:
            skip(self, "packaging isn't installed")

    def locked(self, files: dict[str, list[str]], lines: str = "", supported: str = SUPPORTED) -> None:
        """A lock, and a stand-in that exports these lines of it."""
        self.write("unilock.lock", lock_text(files, supported))
        exported = self.write("exported", lines or "".join(f"{it}==1\n" for it in files))
        self.program = self.write("stand-in", f'#!/bin/sh\necho "$@" >{self.top / "words"}\ncat {exported}\n')
        Path(str(self.program)).chmod(0o755)

    def said(self, *words: str, status: int = 0) -> list[str]:
        return self.printed("coverage", *words, status=status)


class Fits(Covered):
    def test_wheels_for_every_machine(self) -> None:
        self.locked({"a": ["a-1-py3-none-any.whl"], "b": ["b-1-py2.py3-none-any.whl", "b-1.tar.gz"]})
        self.assertEqual(self.said(), ["unilock.lock: 2 packages can be installed (28 environments)"])
        self.assertEqual(self.said("--all")[:2], ["a 1: a wheel everywhere", "b 1: a wheel everywhere"])

    def test_each_platform_and_interpreter(self) -> None:
        """Which of the environments of a platform a wheel fits, as its tags say (PEP 425, 600 and 656)."""
        every = ["3.11", "3.12", "3.13", "3.14"]
        for tags, fits in [
            ("cp312-cp312-manylinux_2_28_x86_64", {"linux-x86_64": ["3.12"]}),
            ("cp312-cp312-manylinux_2_34_x86_64", {}),
            ("cp312-cp312-manylinux2014_x86_64.manylinux_2_17_x86_64", {"linux-x86_64": ["3.12"]}),
            ("cp313-cp313t-manylinux_2_17_x86_64", {}),
            ("cp38-abi3-manylinux_2_5_x86_64", {"linux-x86_64": every}),
            ("cp313-abi3-manylinux_2_17_aarch64", {"linux-aarch64": ["3.13", "3.14"]}),
            ("py3-none-musllinux_1_1_x86_64", {"musl-x86_64": every}),
            ("cp311-cp311-musllinux_1_2_aarch64", {"musl-aarch64": ["3.11"]}),
            ("cp312-cp312-macosx_11_0_arm64", {"macos-arm64": ["3.12"]}),
            ("cp312-cp312-macosx_15_0_arm64", {}),
            ("py3-none-macosx_10_9_universal2", {"macos-x86_64": every, "macos-arm64": every}),
            ("cp314-cp314-win_amd64", {"windows-x86_64": ["3.14"]}),
            ("cp312-cp312-win32", {}),
            ("py3-none-linux_x86_64", {"linux-x86_64": every, "musl-x86_64": every}),
            ("py312-none-any", {}),
            ("py2-none-any", {}),
        ]:
            with self.subTest(tags):
                self.locked({"a": [f"a-1-{tags}.whl"]})
                found = json.loads(self.ran("coverage", "--json", status=1).stdout)
                asked = {(it["platform"], it["python"]) for it in found["environments"]}
                missing = {(it["platform"], it["python"]) for it in found["missing"]}
                wanted = {(platform, python) for platform, pythons in fits.items() for python in pythons}
                if tags == "py312-none-any":
                    wanted = {it for it in asked if it[1] != "3.11"}
                self.assertEqual((len(asked), asked - missing), (28, wanted))

    def test_words(self) -> None:
        self.locked({
            "a": ["a-1-cp311-cp311-win_amd64.whl", "a-1-cp312-cp312-win_amd64.whl", "a-1.tar.gz"],
            "b": ["b-1-cp312-cp312-manylinux_2_17_x86_64.whl"], "c": ["c-1.tar.gz"], "d": [],
        })  # fmt: skip
        self.assertEqual(self.said("--platform", "linux-x86_64", "--platform", "windows-x86_64", status=1), [
            "a 1: only a source distribution on linux-x86_64, windows-x86_64 (Python 3.13, 3.14)",
            "b 1: nothing on linux-x86_64 (Python 3.11, 3.13, 3.14), windows-x86_64",
            "c 1: only a source distribution on linux-x86_64, windows-x86_64",
            "d 1: nothing on linux-x86_64 (no file of it is known), windows-x86_64 (no file of it is known)",
            "unilock.lock: 2 of 4 packages can't be installed somewhere (8 environments)",
        ])  # fmt: skip
        said = self.said("--platform", "windows-x86_64", "--no-build", status=1)
        self.assertEqual(said[0], "a 1: nothing on windows-x86_64 (Python 3.13, 3.14)")
        found = json.loads(self.ran("coverage", "--json", "--platform", "windows-x86_64", status=1).stdout)
        self.assertEqual(found["rows"][0], {
            "package": "a", "version": "1",
            "windows-x86_64": "wheel: Python 3.11, 3.12; source: Python 3.13, 3.14",
        })  # fmt: skip

    def test_a_folder_and_a_commit_are_built(self) -> None:
        self.locked({"a": [], "b": [f"b-{'0' * 40}.git"]})
        self.write("ix/a.json", document("a", {"version": "1", "source": "direct"}))
        self.assertEqual(self.said("--platform", "linux-x86_64"), [
            "a 1: only a source distribution on linux-x86_64", "b 1: only a source distribution on linux-x86_64",
            "unilock.lock: 2 packages can be installed (4 environments)",
        ])  # fmt: skip
        self.assertIn("a 1: nothing", self.said("--platform", "linux-x86_64", "--no-build", status=1)[0])

    def test_what_is_not_wanted_somewhere_needs_nothing_there(self) -> None:
        """An interpreter counts by all its exact versions that the lock tells apart."""
        lines = "a==1 ; sys_platform == 'win32'\nb==1 ; python_full_version < '3.12.4'\nb[x]==1 ; os_name == 'nt'\n"
        self.locked({"a": ["a-1-py3-none-win_amd64.whl"], "b": ["b-1-cp311-none-any.whl"]}, lines)
        edges = '    { name = "b", version = "1", marker = "python_full_version < \'3.12.4\'" },\n'
        text = (self.top / "unilock.lock").read_text().replace('    { name = "b", version = "1" },\n', edges)
        self.write("unilock.lock", text)
        found = json.loads(self.ran("coverage", "--json", status=1).stdout)
        self.assertEqual({it["package"] for it in found["missing"]}, {"b"})
        missing = {(it["platform"], it["python"]) for it in found["missing"]}
        everywhere = {(it["platform"], "3.12") for it in found["environments"]}
        self.assertEqual(missing, everywhere | {("windows-x86_64", it) for it in ("3.13", "3.14")})

    def test_a_bound_that_excludes_an_interpreter(self) -> None:
        """Upper bounds don't count when versions are chosen, and installers heed them."""
        self.locked({"a": ["a-1-py3-none-any.whl"]})
        self.write("ix/a.json", document("a", {"version": "1.0", "requires_python": ">=3.8,<3.13"}))
        said = self.said(status=1)
        self.assertEqual(len(said), 2)
        self.assertIn("nothing on linux-x86_64 (Python 3.13, 3.14, it needs Python >=3.8,<3.13), ", said[0])
        self.said("--python", "3.12")
        self.said("unilock.lock", "nowhere", status=3)

    def test_files_of_the_index_where_the_lock_has_none(self) -> None:
        self.locked({"a": []})
        self.said(status=1)
        entry = {"version": "1", "files": [{"file": "a-1-py3-none-any.whl", "sha256": "0" * 64}]}
        self.write("ix/a.json", json.dumps({"name": "a", "versions": [entry]}))
        self.said()


class Words(Covered):
    def test_extras_and_groups(self) -> None:
        self.locked({"a": ["a-1-py3-none-any.whl"]})
        more = "\n[package.optional-dependencies]\ngroup-dev = []\nx = []\n"
        self.write("unilock.lock", (self.top / "unilock.lock").read_text() + more)
        for words, asked in [
            ([], ["group-dev", "x"]), (["--extra", "X"], ["x"]), (["--group", "Dev"], ["group-dev"]),
            (["--extra", "x", "--group", "dev"], ["x", "group-dev"]),
        ]:
            self.said(*words)
            self.assertEqual((self.top / "words").read_text().split()[2:], asked)

    def test_platforms_by_name_and_by_tag(self) -> None:
        self.locked({"a": ["a-1-cp312-cp312-manylinux_2_17_x86_64.whl", "a-1-cp312-cp312-win_arm64.whl"]})
        for platform, status in [
            ("manylinux_2_17_x86_64", 0), ("manylinux_2_12_x86_64", 1), ("windows-arm64", 0), ("win_arm64", 0),
            ("macosx_12_0_arm64", 1), ("linux-s390x", 1), ("musllinux_1_2_x86_64", 1),
        ]:
            self.said("--platform", platform, "--python", "3.12", status=status)
        for word in ["amiga", "manylinux_2_x86_64", "macosx_12_0_s390x", "manylinux_999_1_x86_64", "../x"]:
            said = self.ran("coverage", "--platform", word, status=2).stderr
            self.assertIn(f"--platform {word}: it is none of", said)
        for word in ["3", "2.7", "3.x", "3.12.1", "3.\u0661"]:
            self.assertIn("isn't of the form 3.12", self.ran("coverage", "--python", word, status=2).stderr)

    def test_environments_that_the_lock_is_not_made_for(self) -> None:
        self.locked({"a": ["a-1-py3-none-any.whl"]}, supported="sys_platform == 'win32'")
        self.assertEqual(self.said(), ["unilock.lock: 1 package can be installed (7 environments)"])
        said = self.ran("coverage", "--platform", "linux-x86_64", status=8).stderr
        self.assertIn("unilock.lock is made for none of the environments: it supports sys_platform == 'win32'\n", said)

    def test_an_exact_version_that_the_lock_begins_with(self) -> None:
        self.locked({"a": ["a-1-py3-none-any.whl"]}, supported="python_full_version >= '3.13.4'")
        self.assertIn("(14 environments)", self.said()[-1])


class Required(Covered):
    def project(self, *markers: str) -> None:
        self.write("pyproject.toml", f"[tool.uv]\nrequired-environments = {json.dumps(markers)}\n")

    def test_they_are_looked_at_beside_those_that_the_words_name(self) -> None:
        self.locked({"a": ["a-1-cp312-cp312-manylinux_2_17_x86_64.whl"]})
        words = ["--platform", "linux-x86_64", "--python", "3.12"]
        self.said(*words)
        self.project("sys_platform == 'win32' and platform_machine == 'ARM64' and python_version < '3.13'")
        said = self.said(*words, status=1)
        self.assertEqual(said[0], "a 1: nothing on windows-arm64")
        self.project("sys_platform == 'linux' and platform_machine == 'x86_64' and python_version == '3.12'")
        self.assertEqual(self.said(*words), ["unilock.lock: 1 package can be installed (1 environment)"])

    def test_what_the_lock_is_not_made_for(self) -> None:
        self.locked({"a": ["a-1-py3-none-any.whl"]}, supported="sys_platform == 'linux'")
        self.project("sys_platform == 'darwin'", "platform_machine == 'toaster'")
        said = self.said(status=1)
        unmade = "tool.uv.required-environments[0]: the lock isn't made for `sys_platform == 'darwin'`"
        unknown = "tool.uv.required-environments[1]: no environment that is known here is in `platform_machine == "
        self.assertEqual((said[0], said[1]), (unmade, f"{unknown}'toaster'`; --platform names others"))

    def test_lists_that_are_none(self) -> None:
        self.locked({"a": ["a-1-py3-none-any.whl"]})
        for value, said in [("1", "it isn't a list of markers"), ("[1]", "it isn't a list of markers"), (
            "['os == 1']", "tool.uv.required-environments[0]: "
        )]:  # fmt: skip
            self.write("pyproject.toml", f"[tool.uv]\nrequired-environments = {value}\n")
            self.assertIn(said, self.ran("coverage", status=3).stderr)


class Hostile(Covered):
    def test_names_that_are_none_fit_nowhere(self) -> None:
        """A wheel's name may stand for many tags at once; one for more than there are is none."""
        many = ".".join(["x"] * 3000)
        for file in [f"a-1-{many}-{many}-{many}.whl", "a.whl", "a-1-py3-none.whl", "a-x-py3-none-any.whl", "-----.whl"]:
            self.locked({"a": [file]})
            begun = time.process_time()
            self.assertIn("a 1: nothing on ", self.said(status=1)[0])
            self.assertLess(time.process_time() - begun, 20)

    def test_what_is_no_lock(self) -> None:
        self.locked({"a": []})
        self.write("unilock.lock", "[project]\n")
        self.assertIn("unilock.lock", self.ran("coverage", status=1).stderr)


class Whole(Covered):
    def test_a_lock_of_the_program(self) -> None:
        want_program(self)
        self.program = PROGRAM
        files = [{"file": f"a-1-{it}.whl", "sha256": "0" * 64} for it in ("py3-none-win_amd64", "py3-none-any")]
        self.write("ix/a.json", json.dumps({"name": "a", "versions": [{"version": "1", "files": files}]}))
        self.write("ix/b.json", json.dumps({"name": "b", "versions": [{"version": "1", "files": files[:1]}]}))
        head = '[project]\nname = "demo"\nrequires-python = ">=3.12"\n'
        self.write("pyproject.toml", head + 'dependencies = ["a", "b; sys_platform == \'win32\'"]\n')
        self.ran("lock")
        self.assertEqual(self.said(), ["unilock.lock: 2 packages can be installed (21 environments)"])
        self.write("pyproject.toml", head + 'dependencies = ["a", "b"]\n')
        self.ran("lock")
        self.assertIn("b 1: nothing on linux-x86_64, linux-aarch64, musl-x86_64, ", self.said(status=1)[0])


if __name__ == "__main__":
    unittest.main()
