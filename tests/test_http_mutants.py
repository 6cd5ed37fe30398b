"""A short run of answers that are changed as HTTP: no wrong document without a word, nothing short that is kept, and a
client that doesn't look is found out.

The variable HTTP_MUTANTS has another count of runs; `tools/fuzz --http` makes long ones.
"""

from __future__ import annotations

import os
import unittest
from typing import Any, List, Tuple
from unittest import mock

import http_mutants
from unilock_tools import fetching, pages, simple

RUNS = int(os.environ.get("HTTP_MUTANTS", "40"))


class Mutants(unittest.TestCase):
    def test_a_short_run_finds_nothing(self) -> None:
        found = {number: http_mutants.finding(11, number) for number in range(RUNS)}
        self.assertEqual({number: text for number, text in found.items() if text}, {})

    def test_what_is_not_changed_is_read_whole(self) -> None:
        for form in [pages.JSON_FORM, pages.HTML_FORM]:
            for told in [None, "hash", "true"]:
                made = http_mutants.whole(form, told, True)
                self.assertEqual([len(made.documents[it]["versions"]) for it in "abc"], [2, 1, 1])
                self.assertEqual(len(made.served["b"]["versions"]), 2)

    def test_clients_that_do_not_look_are_found(self) -> None:
        """Lengths that aren't compared, and hashes that aren't checked."""

        def unmeasured(self: Any, given: Any, sink: Any, stop: Any, decoded: bool, whole: bool) -> bool:
            sink.add(given.raw.read(decode_content=True))
            return True

        places: List[Tuple[object, str, Any]] = [
            (fetching.Fetcher, "read", unmeasured),
            (simple, "checked", lambda *_: None),
        ]
        for place, name, wrong in places:
            with self.subTest(name), mock.patch.object(place, name, wrong):
                self.assertTrue(any(http_mutants.finding(11, number) for number in range(150)))


if __name__ == "__main__":
    unittest.main()
