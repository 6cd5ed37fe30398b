"""Large inputs below every limit, on the built program: no answer gives up at a size that is allowed.

A contract lets each function that takes memory answer its want, so only a run at a size shows that none does.
"""

from __future__ import annotations

import json
import unittest
from pathlib import Path
from typing import Iterable

import program
from making import Folder, want_program

PROJECT = """[project]
name = "demo"
version = "0.1"
requires-python = ">=3.8"
dependencies = {}
"""
LINUX = (Path(__file__).resolve().parent.parent / "examples" / "web_app" / "linux.json").read_text()
# The project's own package counts as one of the 20,000 that may be met.
MOST_PACKAGES = 19_999
CLASHES = 20_000
# A derivation has at most so many bytes where it is read; one of so many clashes has fewer, one of more has more.
MOST_TEXT = 67_108_864
MOST_DERIVED, TOO_MANY = 5_000, 6_000
ROUNDS = 20
EXTRAS = [f"x{number:02}" for number in range(40)]


def block(name: str, version: str, edges: Iterable[str]) -> str:
    """A package of a lock."""
    listed = "".join(f"    {edge},\n" for edge in edges)
    return f'\n[[package]]\nname = "{name}"\nversion = "{version}"\ndependencies = [\n{listed}]\n'


def edge(name: str, marker: str) -> str:
    return f'{{ name = "{name}", version = "1", marker = "{marker}" }}'


class Sizes(Folder):
    def setUp(self) -> None:
        super().setUp()
        want_program(self)
        self.write("linux.json", LINUX)

    def project(self, *requirements: str, more: str = "") -> None:
        self.write("p.toml", PROJECT.format(json.dumps(requirements)) + more)

    def document(self, name: str, *versions: object) -> None:
        self.write(f"ix/{name}.json", json.dumps({"name": name, "versions": versions}))

    def said(self, words: str) -> program.Said:
        return program.said(program.call(self.top, words))

    def assert_verified(self, lock: str) -> None:
        self.write("made.lock", lock)
        self.assertEqual(self.said("verify p.toml ix made.lock")[:2], (0, "verified\n"))

    def test_a_lock_of_as_many_packages_as_may_be_met_is_made_read_and_verified(self) -> None:
        names = [f"n{number:05}" for number in range(MOST_PACKAGES - 1)]
        self.project("a")
        self.document("a", {"version": "1", "requires_dist": names})
        for name in names:
            self.document(name, {"version": "1"})
        made = self.said("lock p.toml ix 4")
        self.assertEqual((made.status, made.text.count("[[package]]")), (0, MOST_PACKAGES + 1))
        self.assert_verified(made.text)
        # The root itself isn't printed.
        for words in ("env made.lock linux.json", "export made.lock"):
            found = self.said(words)
            self.assertEqual((found.status, found.text.count("\n")), (0, MOST_PACKAGES), words)

    def test_a_chain_of_many_packages_is_locked_and_verified(self) -> None:
        names = [f"n{number:05}" for number in range(MOST_PACKAGES)]
        self.project(names[0])
        for name, after in zip(names, [*names[1:], None]):
            self.document(name, {"version": "1", "requires_dist": [after] if after else []})
        made = self.said("lock p.toml ix 4")
        self.assertEqual((made.status, made.text.count("[[package]]")), (0, MOST_PACKAGES + 1))
        self.assert_verified(made.text)

    def test_a_refusal_is_found_and_told_beside_as_many_packages(self) -> None:
        names = [f"n{number:05}" for number in range(MOST_PACKAGES - 2)]
        self.project("a", "z<2")
        self.document("a", {"version": "1", "requires_dist": [*names, "z>=2"]})
        self.document("z", {"version": "1"}, {"version": "2"})
        for name in names:
            self.document(name, {"version": "1"})
        refused = self.said("lock p.toml ix 4")
        self.assertEqual(refused.status, 1)
        self.assertIn("\ncore: 3\n", refused.text)
        why = self.said("why p.toml ix 4")
        self.assertEqual(why.status, 1)
        self.write("why.txt", why.text)
        self.assertEqual(self.said("check p.toml ix why.txt")[:2], (0, "accepted\n"))

    def clashing(self, releases: int) -> None:
        """A project that asks for a package of which each release clashes with another of its requirements."""
        self.project("a", "z<1")
        self.document("a", *[{"version": str(number), "requires_dist": ["z>=1"]} for number in range(releases)])
        self.document("z", {"version": "0"}, {"version": "1"})

    def test_a_core_has_as_many_needs_as_the_releases_that_all_clash(self) -> None:
        self.clashing(CLASHES)
        refused = self.said("lock p.toml ix 4")
        self.assertEqual(refused.status, 1)
        self.assertIn(f"\ncore: {CLASHES + 2}\n", refused.text)

    def test_a_derivation_is_read_up_to_its_limit(self) -> None:
        """Each step of such a derivation lists the releases that are left, so it grows by the square of the clashes."""
        limit = f"limit: text-bytes {MOST_TEXT}\n"
        for releases, status, said in [(MOST_DERIVED, 0, "accepted\n"), (TOO_MANY, 4, limit)]:
            self.clashing(releases)
            why = self.said("why p.toml ix 4")
            self.assertEqual((why.status, why.text.count("\n")), (1, 4 + 2 * releases + 3))
            self.write("why.txt", why.text)
            self.assertEqual((self.top / "why.txt").stat().st_size > MOST_TEXT, status != 0)
            self.assertEqual(self.said("check p.toml ix why.txt")[:2], (status, said))

    def test_forty_extras_are_asked_for_at_once_and_an_empty_word_is_none(self) -> None:
        listed = "".join(f'{extra} = ["b-{extra}"]\n' for extra in EXTRAS)
        self.project("a", more=f"\n[project.optional-dependencies]\n{listed}")
        for name in ["a", *(f"b-{extra}" for extra in EXTRAS)]:
            self.document(name, {"version": "1"})
        self.write("made.lock", self.said("lock p.toml ix 1").text)
        for command in ("env made.lock linux.json", "export made.lock"):
            found = self.said(f"{command} {' '.join(EXTRAS)}")
            self.assertEqual(found.status, 0, command)
            for extra in EXTRAS:
                self.assertIn(f"b-{extra}==1\n", found.text)
        empty = program.Call(self.top, ("env", "made.lock", "linux.json", *EXTRAS, ""))
        self.assertEqual(program.said(empty)[:2], (8, "extra: \n"))

    def test_reaches_that_grow_against_the_order_take_a_round_for_each_package(self) -> None:
        """The packages of a ring come in the order of their edges, and what is reached at its end goes back."""
        names = [f"n{number:02}" for number in range(ROUNDS)]
        start, end = "sys_platform == 'linux'", "sys_platform == 'win32'"
        blocks = block("demo", "0.1", sorted([edge(names[0], start), edge(names[-1], end)]))
        for place, name in enumerate(names):
            edges = []
            if place:
                edges.append(edge(names[place - 1], end))
            if place + 1 < ROUNDS:
                edges.append(edge(names[place + 1], start))
            blocks += block(name, "1", edges)
        self.write("ring.lock", f'version = 2\nroot = "demo"\n{blocks}')
        exported = self.said("export ring.lock")
        wanted = "".join(f"{name}==1 ; {start} or {end}\n" for name in names)
        self.assertEqual((exported.status, exported.text), (0, wanted))

    def test_a_file_with_carriage_returns_is_read_as_it_stands(self) -> None:
        """TOML and JSON take them; a lock's lines end with a line feed alone."""
        self.project("a")
        text = (self.top / "p.toml").read_text()
        (self.top / "p.toml").write_bytes(text.replace("\n", "\r\n").encode())
        (self.top / "linux.json").write_bytes(LINUX.replace("\n", "\r\n").encode())
        self.document("a", {"version": "1"})
        made = self.said("lock p.toml ix 1")
        self.assertEqual(made.status, 0)
        self.write("made.lock", made.text)
        self.assertEqual(self.said("env made.lock linux.json")[:2], (0, "a==1\n"))
        (self.top / "made.lock").write_bytes(made.text.replace("\n", "\r\n").encode())
        self.assertEqual(self.said("env made.lock linux.json")[:2], (3, "malformed: made.lock: line 1\n"))


if __name__ == "__main__":
    unittest.main()
