"""The plain readings by which the program is judged, against written tables and PyPA's packaging where it is there."""

from __future__ import annotations

import itertools
import unittest

import plain
import plain_files

try:
    from pip._vendor import packaging
    from pip._vendor.packaging import specifiers as packaging_specifiers
    from pip._vendor.packaging import version as packaging_version
except ImportError:
    packaging = None  # type: ignore

RISING = """1.0.dev456 1.0a1 1.0a2.dev456 1.0a12.dev456 1.0a12 1.0b1.dev456 1.0b2 1.0b2.post345.dev456 1.0b2.post345
1.0rc1.dev456 1.0rc1 1.0 1.0+abc.5 1.0+abc.7 1.0+5 1.0.post456.dev34 1.0.post456 1.0.15 1.1.dev1 1!0""".split()
SPELLED = [
    ("v1.0", "1.0"), (" 1!2.0-ALPHA_3 ", "1!2.0a3"), ("1.0-1", "1.0.post1"), ("1.0.RC", "1.0rc0"),
    ("1.0preview2", "1.0rc2"), ("1.0.rev3", "1.0.post3"), ("01.002", "1.2"), ("1.0+Ubuntu-1_2", "1.0+ubuntu.1.2"),
    ("1.0a.dev", "1.0a0.dev0"), ("1.0dev", "1.0.dev0"),
]
NO_VERSIONS = ["", "1.", "1.0+", "a1", "1..0", "1!", "18446744073709551616", "1.0+a..b"]
MET = [
    ("==1.0", "1.0+cpu", True), (">1.7", "1.7.post1", False), (">1.7", "1.7.1", True), ("<3.1", "3.1rc1", False),
    ("<3.1rc2", "3.1rc1", True), ("<=1.0", "1.0+x", True), ("~=2.2", "2.10", True), ("~=2.2.0", "2.3", False),
    ("==1.1.*", "1.1a1", True),
    ("==1.1.*", "1.10", False), ("!=1.0", "1.0+x", False), (">=1,<2,", "1.5", True),
    ("==1.0+cpu", "1.0", False), ("", "1!0.dev1", True),
]
NO_SPECIFIERS = ["===1", ",", "1", "==", "~=1", ">1.*", "==1+a.*", ">=1+a", ">=1,,<2", "> =1"]
NO_MARKERS = [
    "", "os_name", "'a' == 'b'", "os_name == sys_platform", "os_name ~= 'a'", "extra < 'x'", "'x' in extra",
    "python_version == 'x'", "(os_name == 'a'", "os_name == 'a' and", "os_nameor == 'a'", "os_name == 'a\\\\'",
    "'3' ~= python_version",
]
NO_REQUIREMENTS = [
    "", "-a", "a-", "a @ https://x/y", "a[x] @ y", "a[x,]", "a >= 1 < 2", "a;", "a b", "a (>=1", "a\n>=1",
]


class Plain(unittest.TestCase):
    def refused(self, read, texts: list) -> None:
        for text in texts:
            with self.subTest(text), self.assertRaises(plain.NoReading):
                read(text)

    def test_versions(self) -> None:
        keys = [plain.version(it).key for it in RISING]
        self.assertEqual(keys, sorted(set(keys)))
        self.assertEqual([plain.version(it).text for it, _ in SPELLED], [it for _, it in SPELLED])
        self.assertEqual(plain.version("1.0").key, plain.version("1").key)
        self.refused(plain.version, NO_VERSIONS)

    def test_specifiers(self) -> None:
        for clauses, text, is_met in MET:
            with self.subTest(f"{clauses} {text}"):
                self.assertEqual(plain.meets(plain.specifiers(clauses), plain.version(text)), is_met)
        self.refused(plain.specifiers, NO_SPECIFIERS)

    def test_markers_and_requirements_without_a_reading(self) -> None:
        self.refused(plain.marker, NO_MARKERS)
        self.refused(plain_files.requirement, NO_REQUIREMENTS)

    def test_requirements(self) -> None:
        read = plain_files.requirement(" Zope.Interface [ B_c , a ] ( >=1 , <2 ) ; os.name == 'nt' ")
        self.assertEqual(read.name, "zope-interface")
        self.assertEqual(read.targets, [(read.name, ""), (read.name, "a"), (read.name, "b-c")])
        self.assertEqual(read.marker, ("text", "os_name", "nt"))
        self.assertEqual(plain_files.requirement("a()").clauses, ())

    @unittest.skipIf(packaging is None, "pip isn't there")
    def test_versions_as_packaging_has_them(self) -> None:
        texts = [*RISING, *(it for it, _ in SPELLED), "1", "2", "1.7.post1", "3.1rc1", "2!1.dev0+a.1"]
        for one, other in itertools.product(texts, texts):
            mine = plain.version(one).key < plain.version(other).key
            self.assertEqual(mine, packaging_version.Version(one) < packaging_version.Version(other), (one, other))
        for it in texts:
            self.assertEqual(plain.version(it).text, str(packaging_version.Version(it)))

    @unittest.skipIf(packaging is None, "pip isn't there")
    def test_specifiers_as_packaging_has_them(self) -> None:
        texts = [*RISING, "1", "1.1", "1.0.1", "1.0.post457", "2.0a1", "1.0.15+a"]
        bounds = ["1.0", "1.0rc1", "1.0.post456", "1.0.15", "1!0.0", "1.0.dev456"]
        for op, bound in itertools.product(["==", "!=", ">=", "<=", ">", "<", "~="], bounds):
            clause = packaging_specifiers.SpecifierSet(op + bound)
            for it in texts:
                mine = plain.meets(plain.specifiers(op + bound), plain.version(it))
                self.assertEqual(mine, clause.contains(it, prereleases=True), (op, bound, it))


if __name__ == "__main__":
    unittest.main()
