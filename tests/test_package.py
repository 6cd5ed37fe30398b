"""The package and the scripts around it: one version, one list of commands, ./unilock's own words, and an
installation."""

from __future__ import annotations

import ast
import os
import subprocess
import sys
import unittest

from making import PYTHON, TOP, Folder, other_interpreters, skip
from unilock_tools import __version__
from unilock_tools.__main__ import COMMANDS

NO_READER = "no reader of TOML is installed; `pip install tomli` installs one"
OWN = sorted((PYTHON / "unilock_tools").glob("*.py"))


class Package(Folder):
    def test_one_version(self) -> None:
        self.assertRegex(__version__, r"\A\d+\.\d+\.\d+\Z")
        said = subprocess.run([str(TOP / "unilock"), "--version"], stdout=subprocess.PIPE, text=True, check=True).stdout
        self.assertEqual(said.splitlines()[0], f"unilock {__version__}")
        self.assertEqual([it.split()[0] for it in said.splitlines()], ["unilock", "commit", "toolchain", "sources"])

    def test_the_script_answers_help_and_builds_nothing(self) -> None:
        link = self.top / "link"
        link.symlink_to(TOP / "unilock")
        before = (TOP / "out").exists()
        for word in ["--help", "-h"]:
            said = subprocess.run([str(link), word], cwd=self.top, stdout=subprocess.PIPE, text=True, check=True).stdout
            self.assertTrue(said.startswith("usage: unilock COMMAND WORDS\n"))
            for command in ["lock", "why", "relock", "env", "export", "check", "verify", "gen"]:
                self.assertIn(f"\n  {command} ", said)
        self.assertEqual((TOP / "out").exists(), before)

    def test_the_list_of_commands(self) -> None:
        environment = {**self.environment(), "PYTHONPATH": str(PYTHON)}

        def asked(*words: str) -> "subprocess.CompletedProcess[str]":
            return subprocess.run(
                [sys.executable, "-m", "unilock_tools", *words],
                env=environment,
                capture_output=True,
                text=True,
                check=False,
            )

        said = asked("--help")
        self.assertEqual([it.split()[0] for it in said.stdout.splitlines()[2:]], list(COMMANDS))
        self.assertEqual(asked("machine", "--python", "3").returncode, 2)
        self.assertEqual(
            (asked().returncode, asked("nope").stderr), (2, "unilock-tools: no command nope (--help lists them)\n")
        )

    def test_a_reader_that_goes_away_is_no_fault(self) -> None:
        tree = f"{sys.executable} {TOP}/tools/tree {TOP}/examples/web_app/unilock.lock"
        line = f"{tree} | head -1; echo ${{PIPESTATUS[0]}}"
        done = subprocess.run(["bash", "-c", line], capture_output=True, text=True, env=self.environment(), check=False)
        self.assertEqual((done.stdout, done.stderr), ("web-app 1.2.0\n0\n", ""))

    def test_plain_letters_where_output_can_show_no_others(self) -> None:
        line = [sys.executable, str(TOP / "tools" / "tree"), str(TOP / "examples" / "by_python" / "unilock.lock")]
        done = subprocess.run(
            line, stdout=subprocess.PIPE, env={**self.environment(), "PYTHONIOENCODING": "ascii"}, check=True
        )
        self.assertEqual(done.stdout.splitlines()[1], b"|-- numpy 1.26 ; python_full_version < '3.11.0'")

    def test_all_is_read_by_python_3_10_and_machine_by_3_6(self) -> None:
        for path in [*OWN, *(TOP / "tools" / it for it in COMMANDS)]:
            ast.parse(path.read_text(encoding="utf-8"), str(path), feature_version=(3, 10))
        for name in ["__init__", "console", "machine"]:
            text = (PYTHON / "unilock_tools" / f"{name}.py").read_text(encoding="utf-8")
            self.assertNotIn("from __future__ import annotations", text)
            ast.parse(text, name, feature_version=(3, 6))

    def test_what_runs_bare_uses_the_standard_library_alone(self) -> None:
        for name in ["lock", "machine", "diff", "tree", "requirements"]:
            code = (
                f"import sys; sys.path.insert(0, {str(PYTHON)!r}); import unilock_tools.{name}; "
                "others = ('pip', 'packaging', 'requests', 'tomli', 'tomllib'); "
                "print([it for it in sys.modules if it.split('.')[0] in others])"
            )
            done = subprocess.run([sys.executable, "-S", "-c", code], capture_output=True, text=True, check=False)
            self.assertEqual((done.stdout, done.stderr), ("[]\n", ""), name)

    def test_lines_and_files_are_short(self) -> None:
        for path in OWN:
            lines = path.read_text(encoding="utf-8").split("\n")
            self.assertLess(len(lines), 420, path.name)
            self.assertEqual([it for it in lines if len(it) > 120], [], path.name)

    def test_it_runs_on_another_interpreter(self) -> None:
        for python in other_interpreters()[:1] + other_interpreters()[-1:]:
            said = self.ran("tree", TOP / "examples" / "by_python" / "unilock.lock", python=python).stdout
            self.assertTrue(said.startswith("by-python 0.1\n"), python)
            # Python 3.10 has no reader of TOML of its own.
            reads = subprocess.run([python, "-c", "import tomllib"], capture_output=True, check=False).returncode == 0
            reads = reads or not subprocess.run([python, "-c", "import tomli"], capture_output=True).returncode
            project = TOP / "examples" / "web_app" / "pyproject.toml"
            said = self.ran("doctor", project, python=python, status=0 if reads else 3).stderr
            self.assertEqual(said, "" if reads else f"doctor: {NO_READER}\n")

    def copied(self, needs: str) -> None:
        """A copy of the package to build from, where what builds it is there."""
        if subprocess.run([sys.executable, "-c", needs], capture_output=True, check=False).returncode:
            skip(self, "setuptools, or what it builds wheels with, isn't there")
        subprocess.run(["cp", "-r", str(PYTHON), str(self.top / "python")], check=True)

    def test_what_is_built(self) -> None:
        self.copied("import setuptools; assert int(setuptools.__version__.split('.')[0]) >= 61")
        line = [
            sys.executable, "-W", "ignore", "-c", "import setuptools; setuptools.setup()", "-q", "build", "egg_info"
        ]
        done = subprocess.run(
            line, cwd=self.top / "python", env=self.environment(), capture_output=True, text=True, check=False
        )
        self.assertEqual(done.returncode, 0, done.stderr)
        built = self.top / "python" / "build" / "lib" / "unilock_tools"
        names = [*(it.name for it in OWN), "VERSION", "page", "py.typed"]
        self.assertEqual(sorted(it.name for it in built.iterdir()), sorted(names))
        told = (self.top / "python" / "unilock_tools.egg-info" / "PKG-INFO").read_text()
        self.assertIn(f"\nName: unilock-tools\nVersion: {__version__}\n", told)
        self.assertIn("Requires-Python: >=3.10\n", told)

    def test_it_is_installed_by_pip(self) -> None:
        self.copied("import setuptools, pip, wheel; assert int(setuptools.__version__.split('.')[0]) >= 61")
        words = [
            "install", "--quiet", "--no-index", "--no-deps", "--no-build-isolation", "--target", "there", "./python"
        ]
        done = subprocess.run(
            [sys.executable, "-m", "pip", *words],
            cwd=self.top,
            env=self.environment(),
            capture_output=True,
            text=True,
            check=False,
        )
        self.assertEqual(done.returncode, 0, done.stderr)
        run = {**self.environment(), "PYTHONPATH": str(self.top / "there")}
        line = [sys.executable, "-m", "unilock_tools", "--version"]
        self.assertEqual(
            subprocess.run(line, cwd=self.top, env=run, stdout=subprocess.PIPE, text=True, check=True).stdout,
            f"unilock-tools {__version__}\n",
        )
        self.assertTrue((self.top / "there" / "bin" / "unilock-tools").exists() or os.name == "nt")


if __name__ == "__main__":
    unittest.main()
