"""What the gate costs: whose work a process is, and the totals beside their budget."""

from __future__ import annotations

import unittest

from making import tool

GATE_TIME = tool("gate-time")


class GateTime(unittest.TestCase):
    def test_a_process_is_work_of_a_crate(self) -> None:
        for words, kind in [
            ("rattle build --crate-name low src/lib.rt -o out", ("low", "library")),
            ("rattle check --crate-name low src/lib.rt", ("low", "edits")),
            ("rattle build --crate-name low --test src/lib.rt", ("low", "tests")),
            ("clang -c low.c", None),
        ]:
            self.assertEqual(GATE_TIME.kind_of(words.split()), kind)

    def test_totals_are_told_beside_their_budget(self) -> None:
        told = GATE_TIME.beside_budget
        minutes = GATE_TIME.Minutes
        self.assertEqual(told("tests", minutes(35)), "tests: 35 processor minutes")
        self.assertTrue(told(GATE_TIME.GATE, minutes(269, 200)).endswith("budget is 270 processor minutes: kept"))
        self.assertTrue(told(GATE_TIME.GATE, minutes(271)).endswith("OVER"))
        self.assertTrue(told(GATE_TIME.FIRST, minutes(90, 36)).endswith("OVER"))

    def test_the_page_has_a_row_for_each_total(self) -> None:
        page = GATE_TIME.PAGE.read_text(encoding="utf-8")
        names = [*GATE_TIME.ROWS.values(), GATE_TIME.GATE, GATE_TIME.FIRST]
        filled = GATE_TIME.filled(page, {name: GATE_TIME.Minutes(1234, 567) for name in names})
        self.assertEqual(filled.count("| 1234 | 567 |"), len(names))
        self.assertRaises(SystemExit, GATE_TIME.filled, page, {"another": GATE_TIME.Minutes(1)})


if __name__ == "__main__":
    unittest.main()
