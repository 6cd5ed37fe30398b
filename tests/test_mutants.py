"""A short run of changed pages, metadata and archives: nothing is raised but a refusal, no document differs from what
is served without a word, and a reader that loses something is found out.

The variable MUTANTS has another count of runs; `tools/fuzz --index` makes long ones.
"""

from __future__ import annotations

import json
import os
import random
import re
import unittest
from typing import Any, List, Tuple
from unittest import mock

import mutants
from unilock_tools import pages, walk

RUNS = int(os.environ.get("MUTANTS", "200"))


class Mutants(unittest.TestCase):
    def findings(self, seed: int, count: int) -> "dict[int, str]":
        found = {number: mutants.finding(seed, number) for number in range(count)}
        return {number: text for number, text in found.items() if text}

    def test_a_short_run_finds_nothing(self) -> None:
        self.assertEqual(self.findings(11, RUNS), {})

    def test_what_is_not_changed_is_read_whole(self) -> None:
        for form, write in [(pages.JSON_FORM, None), (pages.HTML_FORM, mutants.html_of)]:
            for told in [None, "hash", "true"]:
                bodies = {mutants.FILES + it: body for it, body in mutants.TRUE.items()}
                for file, body in mutants.TRUE.items():
                    if told is not None:
                        bodies[f"{mutants.FILES}{file}.metadata"] = mutants.metadata_in(file, body) or b""
                for project in "abc":
                    page = mutants.page_of(project, mutants.TRUE, told, False)
                    body = json.dumps(page).encode() if write is None else write(page)
                    bodies[f"{mutants.BASE}{project}/"] = body
                made = mutants.made_of(mutants.World(bodies, form, told is None))
                self.assertEqual((made.said, made.refused), ("", ""))
                self.assertEqual([len(made.documents[it]["versions"]) for it in "abc"], [2, 1, 1])

    def test_the_plain_reading_has_the_links_of_the_reader(self) -> None:
        for tag in [
            '<a href="{}">', '<a/href="{}">', '<a href=="{}">', '<a href = "{}"/>', '<a x="<b>" href="{}">',
            '<a data-yanked="" href="{}">', '<a/data-yanked/href="{}">', '<a Data-Yanked hRef="{}">',
        ]:  # fmt: skip
            with self.subTest(tag):
                link = tag.format("../../files/a-1.tar.gz;#sha256=" + "0" * 64)
                body = f"<html>{link}1</a></html>".encode()
                read = pages.read_page("a", mutants.BASE + "a/", pages.HTML_FORM, body)
                plain = mutants.listed(mutants.World({mutants.BASE + "a/": body}, pages.HTML_FORM, False), "a")
                self.assertEqual([it.name for it in plain], ["a-1.tar.gz"])
                # Pythons differ on a second `=`: what isn't taken is told.
                self.assertEqual(len(read.releases) + len(read.passed), 1)
                self.assertEqual([it.yanked for it in read.releases], [it.yanked for it in plain][: len(read.releases)])

    def test_a_file_whose_hash_is_none_does_not_keep_a_release_from_being_yanked(self) -> None:
        self.assertEqual(mutants.finding(1203, 8693), "")

    def test_a_quote_within_a_bare_value_makes_no_link_of_the_text_behind_it(self) -> None:
        self.assertEqual([mutants.finding(2702, it) for it in (13583, 13848)], ["", ""])

    def test_a_run_can_be_made_again(self) -> None:
        for number in range(20):
            one, other = (mutants.world_of(random.Random(f"5/{number}")) for _ in range(2))
            self.assertEqual(one, other)

    def test_readers_that_lose_something_are_found(self) -> None:
        true = pages.Gathered.page

        def without_last(self: pages.Gathered) -> pages.ProjectPage:
            page = true(self)
            return pages.ProjectPage(page.releases[:-1], page.passed)

        def without_passed(self: pages.Gathered) -> pages.ProjectPage:
            return pages.ProjectPage(true(self).releases, [])

        places: List[Tuple[object, str, Any]] = [
            (pages.Gathered, "page", without_last),
            (pages.Gathered, "page", without_passed),
            (pages, "HTML_START", re.compile("")),
        ]
        for place, name, wrong in places:
            with self.subTest(str(wrong)), mock.patch.object(place, name, wrong):
                self.assertNotEqual(self.findings(11, 60), {})
        with mock.patch.object(walk, "release_fault", side_effect=KeyError("a fault of the reader")):
            self.assertIn("KeyError", "".join(self.findings(11, 10).values()))


if __name__ == "__main__":
    unittest.main()
