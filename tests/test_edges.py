"""What tools/judge makes of a lock before the program is asked: edges of requirements, texts of markers, limits."""

from __future__ import annotations

import unittest
from typing import List

import plain
from cells import Cells
from making import Folder
from unilock_tools import edges, linked, marker_texts, markers, project, reduced, tables
from unilock_tools.edges import Need
from unilock_tools.foreign import Target
from unilock_tools.toml_texts import tables_text

PROJECT = """[project]
name = "demo"
requires-python = ">=3.9"
dependencies = ["a"]
[project.optional-dependencies]
all = ["demo[x]"]
x = ["b"]
y = ["c"]
"""


class Markers(unittest.TestCase):
    def test_a_negated_marker_is_true_where_the_marker_is_not(self) -> None:
        for text in [
            "os_name == 'nt'", "python_version >= '3.9' and os_name != 'nt'", "python_full_version ~= '3.9.2'",
            "python_version ~= '3.9' or 'x' in platform_version", "platform_release not in 'a b' and os_name < 'x'",
            "python_version in '3.9, 3.10'", "(os_name == 'a' or os_name == 'b') and implementation_version > '7'",
        ]:  # fmt: skip
            other = marker_texts.text_of(marker_texts.negated(markers.read(text)))
            cells = Cells([plain.marker(text), plain.marker(other)], [])
            one, two = (cells.truth(plain.marker(it), "") for it in (text, other))
            self.assertEqual((one | two, one & two), (cells.all, frozenset()), text)

    def test_where_a_requirement_is_true_at_a_package_and_at_an_extra(self) -> None:
        for text, base, extra in [
            ("extra == 'X'", "never", "*"), ("extra == 'x' and os_name == 'nt'", "never", "os_name == 'nt'"),
            ("os_name == 'nt'", "os_name == 'nt'", "never"), ("extra != 'x'", "*", "never"),
            ("extra == 'x' or os_name == 'nt'", "os_name == 'nt'", "os_name != 'nt'"),
            ("extra == 'y'", "never", "never"),
        ]:  # fmt: skip
            read = markers.read(text)
            found = [marker_texts.at_node(read, it) for it in ("", "x")]
            self.assertEqual(found, [base, extra], text)

    def test_variables_that_go_together(self) -> None:
        self.assertEqual(linked.together(["os_name == 'nt'", "platform_machine == 'x'"]), "*")
        text = linked.together(["os_name == 'nt'", "platform_system == 'Linux'"])
        for system, platform, name, holds in [
            ("Windows", "win32", "nt", True), ("Linux", "linux", "posix", True), ("Darwin", "darwin", "posix", True),
            ("FreeBSD", "freebsd14", "posix", True), ("Windows", "linux", "nt", False), ("Linux", "linux", "nt", False),
            ("Java", "java", "java", True), ("", "win32", "nt", False),
        ]:  # fmt: skip
            known = {"platform_system": system, "sys_platform": platform, "os_name": name}
            self.assertEqual(markers.truth(markers.read(text), known), holds, known)


class Edges(Folder):
    def test_a_lock_that_leads_to_too_many_edges_is_not_judged(self) -> None:
        made = project.load(str(self.write("pyproject.toml", PROJECT)))

        def needs(at: Target) -> List[Need]:
            return [Need(f"n{k}", (), None, "*") for k in range(1000)]

        with self.assertRaisesRegex(tables.Unread, "it leads to more than 500,000 edges"):
            edges.walked(made, needs, lambda need: [((need.name, "1"), "*")])

    def test_a_project_file_with_some_of_its_extras(self) -> None:
        made = project.load(str(self.write("pyproject.toml", PROJECT)))
        text = tables_text(reduced.tables_of(made, ["all"]))
        again = project.load(str(self.write("reduced.toml", text)))
        self.assertEqual(again.extras(), ["all", "x"])
        self.assertEqual([it.requirement.text for it in again.requirements], ["a", "demo[x]", "b"])
        self.assertEqual(again.requires_python, ">=3.9")


if __name__ == "__main__":
    unittest.main()
