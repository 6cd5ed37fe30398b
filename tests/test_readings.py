"""What the tools say that the program reads: texts with what they mean, and the program's own judgement of the same
texts."""

from __future__ import annotations

import json
import subprocess
import unittest
from typing import List, Optional

from making import PROGRAM, Folder, want_program
from unilock_tools import markers
from unilock_tools.readings import requirement_fault, requirement_of
from unilock_tools.versions import meets, specifiers_fault, specifiers_of, version, version_of

READ = [
    "a", "A.b-C", "a[x]", "a [ x , y_z ]>=1", "a[]", "a>=1,<2", "a >= 1 , < 2", "a (>=1)", "a()", "a>=1,", "a==1.*",
    "a!=1.*", "a>=3.5.*", "a<3.*", "a~=1.2", "a==1+local", "a!=1+l", "a==1!2.0", "a>=1.0-1", "a>=v1",
    "a; os_name == 'nt'", 'a;os_name=="nt"', "a; 'x' in sys_platform", "a; sys_platform in 'win32 linux'",
    "a; 'nt' == os_name", "a; os_name not in 'x'", "a; python_version < '3.8' and (os_name == 'a' or os_name == 'b')",
    "a; extra == 'X_y'", "a; extra != ''", "a; '3' < python_version", "a; python_version in '3.8, 3.9'",
    "a; python_version not in '3.8'", "a; python_full_version ~= '3.8.1'", "a; os.name == 'x'",
    "a; python_implementation == 'CPython'", "a; implementation_version >= '7.3'", "a; '3' in python_version",
    "a; platform_release < '5'", "a; python_version >= '3.*'", "a; python_version == '3.8.*'",
]  # fmt: skip
NOT_READ = [
    "", "-a", "a-", "a>", "a==", "a===1", "a>=1.a.*", "a>1.*", "a<=1.*", "a~=1", "a~=1.*", "a>=1+l", "a>=1<2",
    "a (>dev)", "a>=1,,<2", "a,", "a[x", "a[x y]", "a(>=1", "a @ https://example.org/a.whl", "a[x] @ file:///a", "a;",
    "a; os_name", "a; os_name = 'nt'", "a; 'a' == 'b'", "a; os_name == sys_platform", "a; made_up == 'x'",
    "a; os_name ~= '1'", "a; extra > 'x'", "a; extra in 'x'", "a; '1' ~= python_version", "a; python_version > 'x'",
    "a; python_version in '3.8 x'", "a; (os_name == 'a'", "a; os_name == 'a')", "a; os_name == 'a' or",
    "a; os_name not == 'a'", "a; os_name === 'a'", "a; os_name == \"a'", "a>=18446744073709551616",
    "a; os_name == 'a' os_name == 'b'", "a; OS_NAME == 'x'", "a; os_name == 'a' AND os_name == 'b'",
    # Literals are of printable ASCII without the backslash.
    "a; os_name == 'é'", "a; os_name == 'a\x7f'", "a; os_name == 'a\tb'", "a; os_name == 'a\\b'",
]  # fmt: skip
BOUNDS = [">=3.5", ">=3.5.*", "!=3.0.*,>=2.7", "", ">=3.5,", "~=3.8"]
BAD_BOUNDS = [">=3.5<4", "3.5", ">=3.5;", "~=3", ">=3.x", "===3.8", ","]
# Clause, versions that meet it, versions that don't
MET = [
    ("==1.0", "1 1.0.0 1.0+cpu", "1.1 1.0rc1 1.0.post1"),
    (">1.7", "1.7.1 1.8a1", "1.7 1.7.post1 1.7.0.post1 1.7+x"),
    ("<3.1", "3.0 3.0.post1", "3.1rc1 3.1.dev0 3.1"),
    ("<3.1rc2", "3.1rc1 3.0", "3.1rc2 3.1"),
    ("<=1.0", "1.0+x 0.9 1.0rc1", "1.0.post1"),
    ("~=2.2", "2.2 2.10 2.2.post1", "2.1 3.0 2.2rc1"),
    ("~=2.2.0", "2.2.0 2.2.9", "2.3"),
    ("==1.1.*", "1.1a1 1.1.5 1.1", "1.10 1.2"),
    ("!=1.0", "1.1", "1.0 1.0+x"),
    ("==1.0+x", "1.0+x", "1.0 1.0+y"),
    (">=1!1", "1!1 2!0", "9"),
    (">=1,<2,!=1.5", "1 1.4 1.9", "0.9 1.5 2 2.0a1"),
]
INCREASING = (
    "1.0.dev456 1.0a1 1.0a2.dev456 1.0a12.dev456 1.0a12 1.0b1.dev456 1.0b2 1.0b2.post345.dev456 1.0b2.post345 "
    "1.0rc1.dev456 1.0rc1 1.0 1.0+abc.5 1.0+abc.7 1.0+5 1.0.post456.dev34 1.0.post456 1.0.15 1.1.dev1"
).split()


class Texts(unittest.TestCase):
    def test_requirements(self) -> None:
        for text in READ:
            self.assertIsNone(requirement_fault(text), text)
        for text in NOT_READ:
            self.assertIsNotNone(requirement_fault(text), text)

    def test_bounds(self) -> None:
        self.assertEqual([specifiers_fault(it) for it in BOUNDS], [None] * len(BOUNDS))
        for text in BAD_BOUNDS:
            self.assertIsNotNone(specifiers_fault(text), text)

    def test_what_meets_a_clause(self) -> None:
        for text, yes, no in MET:
            clauses = specifiers_of(text)
            self.assertEqual([it for it in f"{yes} {no}".split() if meets(clauses, version_of(it))], yes.split(), text)

    def test_order_and_normal_texts(self) -> None:
        keys = [version_of(it).key for it in INCREASING]
        self.assertEqual(keys, sorted(keys))
        self.assertEqual([version_of(it).text() for it in INCREASING], INCREASING)
        for text, normal in [
            ("v1.0", "1.0"),
            (" 1!2.0-ALPHA_3 ", "1!2.0a3"),
            ("1.0-1", "1.0.post1"),
            ("1.0.RC", "1.0rc0"),
            ("01.002", "1.2"),
            ("1.0+Ubuntu-01_2", "1.0+ubuntu.1.2"),
        ]:
            self.assertEqual(version_of(text).text(), normal)
        for text in ["", "1.", "1.0+", "a1", "1..0", "1!", "18446744073709551616", "1.0+a..b", "１"]:
            self.assertIsNone(version(text))

    def test_markers(self) -> None:
        known = {
            "python_version": "3.10",
            "python_full_version": "3.10.4",
            "sys_platform": "linux",
            "extra": "x-y",
            "implementation_version": "7.10",
        }
        for text, truth in [
            ("python_version < '3.9'", False),
            ("python_version in '3.9, 3.10'", True),
            ("python_full_version >= '3.10.4'", True),
            ("'3.11' > python_version", True),
            ("'lin' in sys_platform", True),
            ("sys_platform in 'linux win32'", True),
            ("sys_platform < 'm'", True),
            ("implementation_version > '7.9'", True),
            ("extra == 'X_y'", True),
            ("extra != 'X_y'", False),
            ("os_name == 'nt'", None),
            ("os_name == 'nt' and sys_platform == 'win32'", False),
            ("os_name == 'nt' or sys_platform == 'linux'", True),
            ("os_name == 'nt' or sys_platform == 'win32'", None),
            ("sys_platform == 'win32' and os_name == 'a' or sys_platform == 'linux'", True),
        ]:
            self.assertEqual(markers.truth(markers.read(text), known), truth, text)

    def test_where_a_requirement_can_apply(self) -> None:
        def possible(text: str, bound: str, extras: Optional[List[str]] = None) -> bool:
            return markers.possible(requirement_of(text).marker, bound, extras or [])

        for text, bound, extras, found in [
            ("a; python_version < '3'", ">=3.8", [], False),
            ("a; python_version < '3'", "", [], True),
            ("a; python_version == '2.7' or os_name == 'nt'", ">=3.8", [], True),
            ("a; python_full_version > '3.8.5' and python_full_version < '3.8.7'", ">=3.8", [], True),
            ("a; python_full_version > '3.8.5' and python_full_version < '3.8.6'", ">=3.8", [], False),
            ("a; extra == 'x'", "", [], False),
            ("a; extra == 'x'", "", ["x"], True),
            ("a; extra == 'x' and python_version < '3.8'", ">=3.8", ["x"], False),
            ("a; extra != 'x'", "", ["x"], True),
            ("a; python_version < '3.10'", ">=3.9,<3.10", [], True),
            ("a; python_version >= '3.10'", ">=3.9,<3.10", [], False),
            ("a; python_version >= '4'", ">=3.9", [], True),
        ]:
            self.assertEqual(possible(text, bound, extras), found, (text, bound))


class TheProgramsOwn(Folder):
    """The program passes over the release of exactly those texts that the tools say it can't read."""

    def used(self, releases: List[dict]) -> List[bool]:
        """Whether each release is used, asked for all at once: each is its own package, and the project wants
        `pK>0`."""
        for number, entry in enumerate(releases):
            self.write(
                f"ix/p{number}.json",
                json.dumps({"name": f"p{number}", "versions": [{"version": "0"}, {"version": "1", **entry}]}),
            )
        names = ", ".join(f'"p{number}"' for number in range(len(releases)))
        self.write("p.toml", f'[project]\nname = "demo"\nrequires-python = ">=3.8"\ndependencies = [{names}]\n')
        done = subprocess.run(
            [str(PROGRAM), "lock", "p.toml", "ix", "1"], cwd=self.top, stdout=subprocess.PIPE, text=True, check=False
        )
        self.assertEqual(done.returncode, 0, done.stdout)
        return [f'name = "p{number}"\nversion = "1"\n' in done.stdout for number in range(len(releases))]

    def test_requirements(self) -> None:
        want_program(self)
        self.write("ix/a.json", json.dumps({"name": "a", "versions": []}))
        # Behind an extra that nobody asks for a requirement is read and never met.
        texts = [it for it in READ if ";" not in it]
        behind = [f"{it} ; extra == 'never'" for it in texts]
        self.assertEqual(self.used([{"requires_dist": [it]} for it in behind]), [True] * len(behind))
        marked = [it for it in READ if ";" in it]
        joined = [f"{it.partition(';')[0]}; ({it.partition(';')[2]}) and extra == 'never'" for it in marked]
        self.assertEqual(self.used([{"requires_dist": [it]} for it in joined]), [True] * len(joined))
        found = self.used([{"requires_dist": [it]} for it in NOT_READ])
        self.assertEqual([text for text, used in zip(NOT_READ, found) if used], [])

    def test_bounds_and_versions(self) -> None:
        want_program(self)
        found = self.used([{"requires_python": it} for it in BOUNDS[:4] + BOUNDS[5:] + BAD_BOUNDS])
        self.assertEqual(found, [True] * 5 + [False] * len(BAD_BOUNDS))


if __name__ == "__main__":
    unittest.main()
