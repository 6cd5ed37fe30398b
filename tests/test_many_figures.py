"""tests/many_figures.py: a line for each way, of a few small projects; its figures are another's to judge."""

from __future__ import annotations

import contextlib
import io
import unittest

import many_figures
from making import want_program
from test_many import cluster_python

FIGURES = r"\d+\.\d s, processor \d+\.\d s; \d+\.\d\d times the fourth; processor \d+\.\d\d times"


class Figures(unittest.TestCase):
    def test_a_line_for_each_way(self) -> None:
        want_program(self)
        told = io.StringIO()
        with contextlib.redirect_stdout(told):
            many_figures.main(3, 4, 6)
        alone, together, cluster = told.getvalue().splitlines()
        self.assertRegex(alone, r"\A3 projects one by one: \d+\.\d s, a fourth of it \d+\.\d s; processor \d+\.\d s\Z")
        self.assertRegex(together, rf"\Amany, 4 at a time: {FIGURES}\Z")
        if cluster_python() is None:
            self.assertEqual(cluster, "no interpreter has `distributed`, so there is no cluster")
        else:
            self.assertRegex(cluster, rf"\Amany on a cluster .*: {FIGURES}\Z")


if __name__ == "__main__":
    unittest.main()
