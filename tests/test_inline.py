"""Scripts with their requirements in them (PEP 723): `tools/lock script.py` locks one as a project of its own."""

from __future__ import annotations

import importlib.util
import subprocess
import time
import unittest
from pathlib import Path

from making import Folder, plain_wheel, skip, want_program
from serving import Server
from sources import BUILD_SYSTEM, source_files
from unilock_tools import locks, scripts
from unilock_tools.console import Refused

BLOCK = '# /// script\n# requires-python = ">=3.8"\n# dependencies = ["beta<2"]\n# ///\n'
CODE = "import beta\n\nprint(beta.VERSION)\n"


class Blocks(unittest.TestCase):
    def test_what_is_a_block(self) -> None:
        """The cases of PEP 723: a block goes to the last line of its end before the comments do."""
        for text, found in [
            (BLOCK, 'requires-python = ">=3.8"\ndependencies = ["beta<2"]\n'),
            ("#!/usr/bin/env python3\n\n" + BLOCK + CODE, 'requires-python = ">=3.8"\ndependencies = ["beta<2"]\n'),
            ("\ufeff# /// script\r\n#\r\n# x = 1\r\n# ///\r\n", "\nx = 1\n"),
            ('# /// script\n# a = """\n# ///\n# b\n# """\n# ///\n', 'a = """\n///\nb\n"""\n'),
            ("# /// script\n# a = 1\n# ///\n# more\n", "a = 1\n"),
            ("# /// other\n# # /// script\n# ///\n# /// script\n# a = 1\n# ///\n", None),
            ("# /// other\n# x\n# ///\n\n# /// script\n# a = 1\n# ///\n", "a = 1\n"),
            ("# /// script\n# a = 1\n\n# ///\n", None),
            ("# /// script\n# a = 1\n#b = 2\n# ///\n", None),
            ("# /// script\n# a = 1\n", None),
            ("# /// script\n# ///\n", None),
            (" # /// script\n # a = 1\n # ///\n", None),
            ("# /// script \n# a = 1\n# ///\n", None),
            ("#/// script\n# a = 1\n# ///\n", None),
            ("", None),
        ]:
            with self.subTest(text):
                self.assertEqual([it.text for it in scripts.blocks_in(text)], [] if found is None else [found])

    def test_two_blocks(self) -> None:
        self.assertEqual([it.line for it in scripts.blocks_in(BLOCK + "\n" + BLOCK)], [2, 7])

    def test_a_script_of_many_beginnings_takes_no_square(self) -> None:
        begun = time.process_time()
        self.assertEqual(scripts.blocks_in("# /// script\n" * 100_000), [])
        self.assertEqual(scripts.blocks_in("# /// script\n# a\n\n" * 100_000), [])
        self.assertLess(time.process_time() - begun, 5)

    def test_names_and_locks(self) -> None:
        for file, name in [
            ("a.py", "script-a"), ("My Script.v2.py", "script-my-script-v2"), ("é.py", "script-without-a-name"),
            ("script-a.py", "script-script-a"), ("__x__.pyw", "script-x"),
        ]:
            self.assertEqual(scripts.name_of(Path("at") / file), name)
        self.assertEqual(scripts.lock_of("at/a.py"), "at/a.py.lock")
        self.assertEqual(scripts.of_lock("at/a.py.lock"), Path("at/a.py"))
        for lock in ["unilock.lock", "a.toml.lock", "a.py", "py.lock", ""]:
            self.assertIsNone(scripts.of_lock(lock), lock)


class Read(Folder):
    def refused(self, block: str, said: str) -> None:
        self.write("a.py", block)
        with self.assertRaises(Refused) as found:
            scripts.tables_of(self.top / "a.py")
        self.assertIn(said, str(found.exception))
        self.assertEqual(found.exception.status, 3)

    def test_what_it_stands_for(self) -> None:
        path = self.write("a.py", "# /// script\n# dependencies = []\n# [tool.uv]\n# x = 1\n# ///\n")
        project = {"name": "script-a", "version": "0", "dependencies": []}
        self.assertEqual(scripts.tables_of(path), {"project": project, "tool": {"uv": {"x": 1}}})

    def test_wrong_blocks(self) -> None:
        for block, said in [
            (CODE, "it has no requirements in it (PEP 723); it begins them so:\n    # /// script\n"),
            (BLOCK + "\n" + BLOCK, "a.py: line 6: a second block `# /// script` stands there"),
            ("#\n# /// script\n# dependencies = [\n# x = 1\n# ///\n", "not TOML: "),
            ("# /// script\n# name = 'x'\n# ///\n", "name: a script has dependencies, requires-python and tool alone"),
            ("# /// script\n# [project]\n# name = 'x'\n# ///\n", "project: a script has dependencies, requires-python"),
            ("# /// script\n# x = " + "[" * 9000 + "\n# ///\n", "nests too deep"),
        ]:
            with self.subTest(block[:60]):
                self.refused(block, said)

    def test_a_fault_of_toml_is_told_with_the_line_of_the_script(self) -> None:
        self.refused("#!/bin/python\n\n# /// script\n# dependencies = []\n# x == 1\n# ///\n", "(at line 5, column 4)")


class Locked(Folder):
    def setUp(self) -> None:
        super().setUp()
        want_program(self)
        self.wheels = self.top / "wheels"
        self.wheels.mkdir()
        for number in ("1.0", "2.0"):
            plain_wheel(self.wheels, "beta", number)
        self.write("script.py", BLOCK + CODE)
        # What stands beside it is another project's.
        self.write("pyproject.toml", '[project]\nname = "other"\ndependencies = ["nowhere"]\n')
        (self.top / "ix").mkdir()

    def versions(self, lock: str) -> dict[str, list[str]]:
        found = locks.load(str(self.top / lock))
        return {name: [it.version for it in packages] for name, packages in found.by_name().items()}

    def test_its_lock_stands_beside_it(self) -> None:
        with Server(self.wheels) as server:
            said = self.ran("lock", "script.py", "--index-url", server.url).stdout
            self.assertIn("script.py.lock is written: 1 package\n", said)
            self.assertEqual(self.versions("script.py.lock"), {"beta": ["1.0"], "script-script": ["0"]})
            self.assertTrue((self.top / ".unilock" / "scripts" / "script.py" / "ix" / "beta.json").is_file())
            self.assertIn("script.py.lock is current", self.ran("lock", "script.py", "--index-url", server.url).stdout)
            self.assertIn("verified", self.ran("verify", "script.py").stdout)
            self.assertIn("the project can be locked", self.ran("explain", "script.py").stdout)
            self.assertIn("script.py: nothing was found", self.ran("doctor", "script.py").stdout)
            said = self.ran("outdated", "script.py.lock")
            self.assertEqual(said.stdout, "")
            self.assertIn("`tools/index script.py ix` makes a folder of all", said.stderr)
            self.assertEqual(self.ran("tree", "script.py.lock").stdout, "script-script 0\n└── beta 1.0\n")
            self.write("script.py", BLOCK.replace("beta<2", "beta>=2") + CODE)
            words = ["lock", "script.py", "--index-url", server.url]
            self.assertIn("beta 1.0 -> 2.0", self.ran(*words, "--check", status=1).stdout)
            self.ran(*words)
        self.assertEqual(self.versions("script.py.lock")["beta"], ["2.0"])
        self.assertFalse((self.top / "unilock.lock").exists())

    def test_its_settings_count(self) -> None:
        (self.top / "more").mkdir()
        plain_wheel(self.top / "more", "gamma", "1.0", ["beta"])
        self.write("script.py", '# /// script\n# dependencies = ["gamma", "local"]\n# requires-python = ">=3.8"\n'
                   '# [tool.uv]\n# find-links = ["more"]\n# constraint-dependencies = ["beta<2"]\n'
                   '# sources.local = { path = "local" }\n# ///\n')  # fmt: skip
        self.write("local/pyproject.toml", '[project]\nname = "local"\nversion = "3"\ndependencies = ["beta"]\n')
        with Server(self.wheels) as server:
            self.ran("lock", "script.py", "--index-url", server.url)
        found = {"beta": ["1.0"], "gamma": ["1.0"], "local": ["3"], "script-script": ["0"]}
        self.assertEqual(self.versions("script.py.lock"), found)

    def test_a_script_of_the_name_of_its_requirement(self) -> None:
        self.write("beta.py", BLOCK)
        self.ran("index", "wheels", "wheels-ix")
        self.ran("lock", "beta.py", "wheels-ix")
        self.assertEqual(self.versions("beta.py.lock"), {"beta": ["1.0"], "script-beta": ["0"]})

    def test_what_is_wrong_is_told_of_the_script(self) -> None:
        self.ran("index", "wheels", "wheels-ix")
        self.write("script.py", BLOCK.replace("beta<2", "beta=2"))
        said = self.ran("lock", "script.py", "wheels-ix", status=3).stderr
        self.assertIn("malformed: script.py: requirement project.dependencies[0]\n", said)
        self.assertIn("  script.py: project.dependencies[0]: `beta=2`: ", said)
        self.write("script.py", BLOCK.replace("beta<2", "beta>2"))
        self.assertIn("no version of beta meets `>2`", self.ran("lock", "script.py", "wheels-ix", status=1).stderr)
        self.write("script.py", CODE)
        self.assertIn("it has no requirements in it (PEP 723)", self.ran("lock", "script.py", status=3).stderr)
        self.assertIn("absent.py: there is no such file", self.ran("lock", "absent.py", status=3).stderr)
        self.assertFalse((self.top / "script.py.lock").exists())

    def test_from_a_lock_to_an_environment_of_its_own(self) -> None:
        if importlib.util.find_spec("ensurepip") is None:
            skip(self, "venv and pip aren't there")
        (self.top / "ix").rmdir()
        (self.top / "local").mkdir()
        head = '[project]\nname = "local"\nversion = "3"\ndependencies = ["beta"]\n'
        for name, text in {**source_files("local", "3", ["beta"]), "pyproject.toml": head + BUILD_SYSTEM}.items():
            self.write(f"local/{name}", text)
        block = BLOCK.replace('["beta<2"]', '["beta<2", "local"]')
        block = block.replace("# ///\n", "# [tool.uv.sources]\n# local = { path = \"local\" }\n# ///\n")
        self.write("script.py", block + CODE + "import local\n\nprint(local.VERSION)\n")
        with Server(self.wheels) as server:
            self.ran("lock", "script.py", "--index-url", server.url)
        words = ["script.py.lock", "--no-index", "--find-links", "wheels"]
        said = self.printed("sync", *words, "--dry-run")
        self.assertEqual(said[0], "would install beta 1.0")
        self.assertFalse((self.top / ".unilock" / "scripts" / "script.py" / "venv").exists())
        told = self.printed("sync", *words)[-1]
        environment = ".unilock/scripts/script.py/venv"
        runs = f"`{environment}/bin/python script.py` runs the script"
        self.assertEqual(told, f"{environment} is as script.py.lock says: 2 packages; {runs}")
        line = [f"{environment}/bin/python", "script.py"]
        done = subprocess.run(line, cwd=self.top, capture_output=True, text=True, check=False)
        self.assertEqual((done.stdout, done.stderr), ("1.0\n3\n", ""))
        self.assertFalse((self.top / ".venv").exists())

    def test_a_lock_whose_script_is_gone(self) -> None:
        self.ran("index", "wheels", "wheels-ix")
        self.ran("lock", "script.py", "wheels-ix")
        (self.top / "script.py").unlink()
        said = self.printed("sync", "script.py.lock", "--dry-run")
        self.assertEqual(said, ["would install beta 1.0"])
        self.write("script.py", CODE)
        self.assertIn("it has no requirements in it", self.ran("sync", "script.py.lock", "--dry-run", status=3).stderr)

    def test_its_block_is_changed_by_hand(self) -> None:
        for tool in ("add", "remove"):
            said = self.ran(tool, "gamma", "--project", "script.py", status=2).stderr
            self.assertIn("script.py: change the block of a script by hand; `tools/lock script.py` then locks", said)
        self.assertEqual((self.top / "script.py").read_text(encoding="utf-8"), BLOCK + CODE)

    def test_an_index_folder_of_a_script(self) -> None:
        with Server(self.wheels) as server:
            self.ran("index", "script.py", "out", "--index-url", server.url)
        self.assertTrue((self.top / "out" / "beta.json").is_file())


if __name__ == "__main__":
    unittest.main()
