"""The functions that may wait, and so may never return: each crate has as many as its line of `crates.txt` says.

Such a function meets any clause where it doesn't return. The toolchain prints their number and doesn't compare it, so
it is counted here from the sources: a function with a body that takes a runtime which waits.
"""

from __future__ import annotations

import re
import unittest
from pathlib import Path
from typing import Dict, List

from making import TOP

HEAD = re.compile(r"\bfn \w+[^;{]*?\(")
TEST_MODULE = re.compile(r"#\[cfg\(test\)\]\s*mod (\w+);")


def counts_of(table: str) -> Dict[str, int]:
    """The number that each line of crates.txt gives, 0 where it gives none."""
    counts = {}
    for line in table.split("\n"):
        words = line.partition("#")[0].partition(":")[0].split()
        if words:
            said = dict(it.partition("=")[::2] for it in words[1:])
            counts[words[0]] = int(said.get("may_wait", 0))
    return counts


def waiting(text: str) -> List[str]:
    """The names of a file's functions with a body whose head names a runtime that waits."""
    names = []
    code = re.sub(r"//[^\n]*", "", text)
    for found in HEAD.finditer(code):
        # the head ends where the body begins, or where a member without one ends
        end = re.compile(r"\{[ ]*\n|;\s*\n").search(code, found.start())
        if end and end[0].startswith("{") and re.search(r"\bWait\b|\bHostRuntime\b", code[found.start() : end.start()]):
            names.append(code[found.start() + 3 : found.end() - 1].partition("<")[0])
    return names


def sources_of(crate: Path) -> List[Path]:
    """The files of a crate that are no tests, and in no module of tests."""
    source = crate / "src"
    tests = {name for it in source.glob("*.rt") for name in TEST_MODULE.findall(it.read_text(encoding="utf-8"))}
    return sorted(
        it for it in source.glob("**/*.rt") if not tests & set(it.relative_to(source).with_suffix("").parts)
    )


class Waiting(unittest.TestCase):
    def test_counts_are_those_of_the_sources(self) -> None:
        for name, count in counts_of((TOP / "crates.txt").read_text(encoding="utf-8")).items():
            texts = [it.read_text(encoding="utf-8") for it in sources_of(TOP / "crates" / name)]
            found = [it for text in texts for it in waiting(text)]
            with self.subTest(crate=name):
                self.assertEqual(len(found), count, found)

    def test_waiting_functions_are_found(self) -> None:
        text = (
            "fn one<R: Wait>(rt: &R) -> u64\n    ensures { result ≡ 1 }\n{\n    1\n}\n"
            "// fn two<R: Wait>(rt: &R) {\n"
            "fn three(rt: HostRuntime) -> u8 {\n    3\n}\n"
            "    fn four<R: Threads + Wait + Sync>(\n        rt: &R,\n    ) -> u64;\n"
            "fn five(word: &str) {\n    six::<Wait>();\n}\n"
        )
        self.assertEqual(waiting(text), ["one", "three"])

    def test_lines_are_read(self) -> None:
        self.assertEqual(counts_of("# a\nb may_wait=2: c d\ne tests_may=Wait: b\n"), {"b": 2, "e": 0})


if __name__ == "__main__":
    unittest.main()
