"""How the tools hand project files to the program: by the wide profile, unless the file says `strict`."""

from __future__ import annotations

import os
import stat
import unittest
from unittest import mock

from making import Folder
from unilock_tools import profile, program
from unilock_tools.project import Project
from unilock_tools.vendored import toml_reader

BARE = '[project]\nname = "demo"\n'
WIDE = '[tool.unilock]\nprofile = "wide"\n'
STRICT = WIDE.replace("wide", "strict")
# A program that tells its words and shows the file of its second one.
SHOWS = '#!/bin/sh\necho "malformed: $2: shape project"\necho "$1 $3"\ncat "$2"\n'
MODES = ["disallow", "allow", "if-necessary", "explicit", "if-necessary-or-explicit"]


def project(text: str) -> Project:
    return Project("pyproject.toml", toml_reader().loads(text))


class Widened(unittest.TestCase):
    def test_a_file_that_says_nothing_becomes_wide(self) -> None:
        for text in [BARE, BARE + "[tool]\nuv = {}\n", "project.name = 'demo'\ntool.uv.x = 1\n", ""]:
            self.assertEqual(profile.widened(text), text + WIDE)
        self.assertEqual(profile.widened(BARE.rstrip("\n")), BARE + WIDE)

    def test_a_table_that_is_there_gets_the_word(self) -> None:
        made = profile.widened(BARE + "[ tool . unilock ]  # ours\nother = 1\n")
        self.assertEqual(made, BARE + '[ tool . unilock ]  # ours\nprofile = "wide"\nother = 1\n')

    def test_what_is_handed_on_as_it_stands(self) -> None:
        for text in [
            BARE + WIDE,
            BARE + STRICT,
            BARE + "[tool.unilock]\nprofile = 1\n",
            BARE + 'dependencies = ["a @ https://example.org/a-1.whl"]\n',
            BARE + '[project.optional-dependencies]\nx = ["b", "a[y]@u"]\n',
            BARE + '[dependency-groups]\nx = ["a @ u"]\n',
            BARE + '[tool.uv]\ndev-dependencies = ["a @ u"]\n',
            # There is no place for the word, or it would be read as part of a text.
            "tool = {uv = {}}\n" + BARE,
            BARE + 'x = """\n[tool.unilock]\n"""\n',
            "not TOML",
        ]:
            self.assertIsNone(profile.widened(text), text)


class Handed(Folder):
    def setUp(self) -> None:
        super().setUp()
        script = self.write("shows", SHOWS)
        script.chmod(script.stat().st_mode | stat.S_IXUSR)
        named = mock.patch.dict(os.environ, UNILOCK=str(script))
        named.start()
        self.addCleanup(named.stop)

    def answered(self, *words: str) -> str:
        return program.answer(list(words), str(self.top)).text

    def test_what_is_told_of_the_copy_is_told_of_the_file(self) -> None:
        self.write("p.toml", BARE)
        for word in profile.COMMANDS:
            text = f"malformed: p.toml: shape project\n{word} ix\n{BARE}{WIDE}"
            self.assertEqual(self.answered(word, "p.toml", "ix"), text)

    def test_other_words_and_files_stay(self) -> None:
        self.write("p.toml", BARE)
        self.assertTrue(self.answered("env", "p.toml", "ix").endswith(f"env ix\n{BARE}"))
        self.assertIn("malformed: absent: shape", self.answered("lock", "absent", "ix"))
        self.write("strict.toml", BARE + STRICT)
        self.assertTrue(self.answered("lock", "strict.toml", "ix").endswith(BARE + STRICT))


class Read(unittest.TestCase):
    def test_development_dependencies_join_their_group(self) -> None:
        text = BARE + '[dependency-groups]\ndev = ["u"]\n[tool.uv]\ndev-dependencies = ["t"]\n'
        self.assertEqual(project(text).groups(), {"dev": ["u", "t"]})
        self.assertEqual(project(text + STRICT).groups(), {"dev": ["u"]})

    def test_which_pre_releases_are_asked_for(self) -> None:
        """By each mode: of a name of which the project names one, of another, and where there is nothing else."""
        answers = [(False, False, False), (True, True, True), (False, False, True), (True, False, False)]
        for mode, found in zip(MODES, [*answers, (True, False, True)]):
            made = project(f'{BARE}dependencies = ["a>=2rc1", "b"]\n[tool.uv]\nprerelease = "{mode}"\n')
            asked = made.asks_prereleases("a"), made.asks_prereleases("b"), made.needs_prereleases
            self.assertEqual(asked, found, mode)


if __name__ == "__main__":
    unittest.main()
