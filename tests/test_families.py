"""Small projects of each family: their answers are the bytes of a program that looked at every requirement at every
node."""

from __future__ import annotations

import hashlib
import tempfile
import unittest
from pathlib import Path

import families
import making
import program

# The family, its sizes, the status, and the first digits of the sum of what is printed.
EXPECTED = """\
index 12 8 4 0 fbb5ba3c79d8eb37
index 6 30 3 0 704c1ce0953dda27
asked 3 8 2 0 da8c5eb74e727bdf
asked 10 12 3 0 9e3ddca798b19ab1
extras 30 0 23a974a7f7a25fa3
same 60 0 4452770976a63ddd
groups 12 0 f92f4abc969a7c91
overrides 9 0 4452770976a63ddd
absent 25 1 aa0ba012823662d7
directs 30 0 3dd48899a827c521
twins 4 1 47a323cdb5d000f5
twins 3 0 11da087036e19fcc
product 7 30 0 f383905aa15af991
"""


class Families(unittest.TestCase):
    def setUp(self) -> None:
        making.want_program(self)

    def test_answers_are_those_of_plainer_looking(self) -> None:
        for line in EXPECTED.splitlines():
            word, *numbers, status, digest = line.split()
            with self.subTest(line), tempfile.TemporaryDirectory() as folder:
                families.write(Path(folder), families.FAMILIES[word](*map(int, numbers)))
                for workers in ["1", "4"]:
                    said = program.said(program.call(Path(folder), f"lock p.toml ix {workers}"))
                    found = hashlib.sha256(said.text.encode()).hexdigest()[:16]
                    self.assertEqual((said.status, found, said.errors), (int(status), digest, ""), said.text[:400])


if __name__ == "__main__":
    unittest.main()
