"""tools/index: what it writes, and what it refuses."""

from __future__ import annotations

import contextlib
import io
import json
import tempfile
import time
import unittest
import zipfile
from pathlib import Path

from making import metadata_text, plain_wheel, sdist, tool, wheel
from unilock_tools.versions import normal_name, version

index = tool("index")


class Indexed(unittest.TestCase):
    """A folder of wheels, and an index folder that is made of it."""

    def setUp(self) -> None:
        held = tempfile.TemporaryDirectory()
        self.addCleanup(held.cleanup)
        self.top = Path(held.name)
        self.wheels = self.top / "wheels"
        self.wheels.mkdir()
        self.out = self.top / "ix"

    def run_index(self, *words: object) -> tuple:
        said = io.StringIO()
        with contextlib.redirect_stderr(said):
            status = index.main([str(it) for it in words])
        return status, said.getvalue()

    def document(self, name: str) -> dict:
        return json.loads((self.out / f"{name}.json").read_text())

    def refused(self, path: Path, fault: str) -> None:
        status, said = self.run_index(path, self.out)
        self.assertEqual(status, 1)
        self.assertIn(str(path), said)
        self.assertIn(fault, said)
        self.assertFalse(self.out.exists())


class Index(Indexed):
    def test_a_folder_of_wheels(self) -> None:
        plain_wheel(self.wheels, "Friendly.Bard", "1.0", ["a>=1", "b; sys_platform == 'win32'"], ">=3.9")
        plain_wheel(self.wheels, "Friendly.Bard", "1.0.post1")
        plain_wheel(self.wheels, "Friendly.Bard", "0.9rc1")
        self.assertEqual(self.run_index(self.wheels, self.out), (0, ""))
        found = self.document("friendly-bard")
        self.assertEqual(found["name"], "friendly-bard")
        self.assertEqual([it["version"] for it in found["versions"]], ["0.9rc1", "1.0", "1.0.post1"])
        self.assertEqual(found["versions"][1]["requires_dist"], ["a>=1", "b; sys_platform == 'win32'"])
        self.assertEqual(found["versions"][1]["requires_python"], ">=3.9")
        self.assertNotIn("requires_python", found["versions"][2])
        files = found["versions"][1]["files"]
        self.assertEqual([it["file"] for it in files], ["Friendly_Bard-1.0-py3-none-any.whl"])
        self.assertRegex(files[0]["sha256"], r"\A[0-9a-f]{64}\Z")

    def test_one_version_in_several_wheels(self) -> None:
        plain_wheel(self.wheels, "a", "1", ["b"], tags="cp311-cp311-win_amd64")
        plain_wheel(self.wheels, "a", "1", ["b"], tags="cp311-cp311-manylinux_2_17_x86_64")
        self.assertEqual(self.run_index(self.wheels, self.out)[0], 0)
        self.assertEqual(len(self.document("a")["versions"][0]["files"]), 2)

    def test_metadata_that_differ_are_refused_with_both_names(self) -> None:
        plain_wheel(self.wheels, "a", "1", ["b"], tags="cp311-cp311-win_amd64")
        plain_wheel(self.wheels, "a", "1", ["c"], tags="py3-none-any")
        status, said = self.run_index(self.wheels, self.out)
        self.assertEqual(status, 1)
        self.assertIn("a-1-cp311-cp311-win_amd64.whl", said)
        self.assertIn("a-1-py3-none-any.whl", said)

    def test_spellings_of_names_and_versions(self) -> None:
        for file, name, number in [
            ("Zope.Interface-5.0-1build-py3-none-any.whl", "zope_interface", "5.0"),
            ("a_b-1!2.0-py3-none-any.whl", "A--b", "1!2.0"),
            ("c-1.0+ubuntu.1-py3-none-any.whl", "c", "1.0+ubuntu.1"),
            ("d-1.0_1-py3-none-any.whl", "D", "1.0.post1"),
            ("e-1.0.0-py3-none-any.whl", "e", "1.0"),
        ]:
            with self.subTest(file):
                path = wheel(self.wheels, file, {"x.dist-info/METADATA": metadata_text(name, number)})
                self.assertEqual(self.run_index(path, self.out), (0, ""))
                self.assertEqual(self.document(normal_name(name))["versions"][0]["version"], number)

    def test_yanked_releases(self) -> None:
        plain_wheel(self.wheels, "a", "1")
        plain_wheel(self.wheels, "a", "2")
        self.assertEqual(self.run_index("--yanked", "A==2.0", self.wheels, self.out)[0], 0)
        self.assertEqual([it.get("yanked") for it in self.document("a")["versions"]], [None, True])
        for mark in ["a==3", "a", "a==x", "b==1"]:
            status, said = self.run_index("--yanked", mark, self.wheels, self.out)
            self.assertEqual((status, mark in said), (1, True), mark)

    def test_source_distributions(self) -> None:
        sdist(self.wheels, "a", "1", metadata_text("a", "1", ["b"]))
        self.assertEqual(self.run_index(self.wheels, self.out)[0], 0)
        self.assertEqual(self.document("a")["versions"][0]["files"][0]["file"], "a-1.tar.gz")

    def test_source_distributions_that_a_build_may_change(self) -> None:
        old = metadata_text("a", "1").replace("Metadata-Version: 2.2", "Metadata-Version: 2.1")
        self.refused(sdist(self.wheels, "a", "1", old), "older than 2.2")
        dynamic = metadata_text("a", "1", more="Dynamic: Requires-Dist\n")
        self.refused(sdist(self.wheels, "a", "1", dynamic), "dynamic")

    def test_malformed_wheels(self) -> None:
        good = metadata_text("a", "1")
        for file, members, fault in [
            ("a-1-py3-none-any.whl", {"a.py": ""}, "no METADATA"),
            ("a-1-py3-none-any.whl", {"a.dist-info/METADATA": good, "b.dist-info/METADATA": good}, "2 METADATA"),
            ("a-1-py3-none-any.whl", {"a.dist-info/METADATA": b"Name: \xff"}, "no UTF-8"),
            ("b-1-py3-none-any.whl", {"a.dist-info/METADATA": good}, "the file's b"),
            ("a-2-py3-none-any.whl", {"a.dist-info/METADATA": good}, "the file's 2"),
            ("a-1-py3-none-any.whl", {"a.dist-info/METADATA": good, "../b": ""}, "leads out"),
            ("a-1-py3-none-any.whl", {"a.dist-info/METADATA": good.replace("Name: a", "Name: a\nName: b")}, "2 times"),
            ("a-1-py3-none-any.whl", {"a.dist-info/METADATA": good.replace("Version: 1", "Version: x")}, "no version"),
            ("a-1.whl", {"a.dist-info/METADATA": good}, "isn't that of a wheel"),
        ]:
            with self.subTest(file + fault):
                self.refused(wheel(self.wheels, file, members), fault)

    def test_what_is_no_archive(self) -> None:
        for file in ["a-1-py3-none-any.whl", "a-1.tar.gz"]:
            path = self.wheels / file
            path.write_bytes(b"PK\x03\x04 and no more")
            self.refused(path, "no archive")
            path.unlink()

    def test_a_gigabyte_of_zeros_is_not_read(self) -> None:
        path = self.wheels / "a-1-py3-none-any.whl"
        with zipfile.ZipFile(path, "w", zipfile.ZIP_DEFLATED, compresslevel=1) as archive:
            with archive.open("a.dist-info/METADATA", "w", force_zip64=True) as member:
                chunk = bytes(1 << 22)
                for _ in range(256):
                    member.write(chunk)
        begun = time.process_time()
        self.refused(path, "longer than")
        self.assertLess(time.process_time() - begun, 5)

    def test_a_broken_member(self) -> None:
        path = plain_wheel(self.wheels, "a", "1")
        body = bytearray(path.read_bytes())
        at = body.find(b"METADATA") + len("METADATA") + 4
        body[at : at + 16] = b"\xff" * 16
        path.write_bytes(bytes(body))
        self.assertEqual(self.run_index(path, self.out)[0], 1)

    def test_the_folder_is_written_as_a_whole(self) -> None:
        plain_wheel(self.wheels, "a", "1")
        self.assertEqual(self.run_index(self.wheels, self.out)[0], 0)
        plain_wheel(self.wheels, "b", "1")
        (self.wheels / "c-1-py3-none-any.whl").write_bytes(b"")
        self.assertEqual(self.run_index(self.wheels, self.out)[0], 1)
        self.assertEqual([it.name for it in self.out.glob("*.json")], ["a.json"])
        (self.wheels / "c-1-py3-none-any.whl").unlink()
        (self.wheels / "a-1-py3-none-any.whl").unlink()
        self.assertEqual(self.run_index(self.wheels, self.out)[0], 0)
        self.assertEqual([it.name for it in self.out.glob("*.json")], ["b.json"])
        self.assertEqual(sorted(it.name for it in self.top.iterdir()), ["ix", "wheels"])

    def test_a_folder_with_other_files_is_kept(self) -> None:
        plain_wheel(self.wheels, "a", "1")
        self.out.mkdir()
        (self.out / "notes.txt").write_text("mine")
        status, said = self.run_index(self.wheels, self.out)
        self.assertEqual((status, "isn't replaced" in said), (1, True))
        self.assertEqual((self.out / "notes.txt").read_text(), "mine")

    def test_paths_that_are_no_wheels(self) -> None:
        self.refused(self.wheels / "absent.whl", "no such file")
        self.refused(self.wheels, "neither wheels")
        other = self.wheels / "a.zip"
        other.write_bytes(b"")
        self.refused(other, "neither a wheel")


class WhatTheResolverCannotUse(Indexed):
    """A release that the program passes over is warned of, and kept."""

    def test_entries_that_have_no_reading(self) -> None:
        for number, (required, python, said) in enumerate([
            ("bb (>dev)", None, "Requires-Dist: `bb (>dev)`: `dev` is no version"),
            ("bb @ https://example.org/bb.whl", None, "a URL isn't supported"),
            ("bb===1", None, "`===` isn't supported"),
            ("bb; made_up == 'x'", None, "`made_up` is no variable"),
            ("bb", ">=3.5<4", "Requires-Python: >=3.5<4: "),
        ]):
            with self.subTest(required):
                path = plain_wheel(self.wheels, f"a{number}", "1", [required], python)
                status, text = self.run_index(path, self.out)
                self.assertEqual(status, 0)
                self.assertIn(f"index: warning: a{number} 1 can't be used: ", text)
                self.assertIn(said, text)
                self.assertEqual(len(self.document(f"a{number}")["versions"]), 1)

    def test_a_bad_file_is_passed_over_where_that_is_asked_for(self) -> None:
        plain_wheel(self.wheels, "a", "1")
        wheel(self.wheels, "b-2004d-py3-none-any.whl", {"b.dist-info/METADATA": metadata_text("b", "2004d")})
        old = metadata_text("c", "1").replace("Metadata-Version: 2.2", "Metadata-Version: 2.1")
        sdist(self.wheels, "c", "1", old)
        self.assertEqual(self.run_index(self.wheels, self.out)[0], 1)
        status, said = self.run_index("--skip", self.wheels, self.out)
        self.assertEqual(status, 0)
        self.assertEqual([it.name for it in self.out.glob("*.json")], ["a.json"])
        for text in ["b-2004d-py3-none-any.whl", "is no version", "c-1.tar.gz", "older than 2.2", "passed over"]:
            self.assertIn(text, said)
        self.assertEqual(self.run_index("--skip", "--quiet", self.wheels, self.out), (0, ""))


class VersionOrder(unittest.TestCase):
    def test_order_and_equality(self) -> None:
        texts = [
            "1.0.dev1",
            "1.0a1.dev1",
            "1.0a1",
            "1.0b2",
            "1.0rc1",
            "1.0",
            "1.0+a",
            "1.0+a.b",
            "1.0+2",
            "1.0.post1.dev1",
            "1.0.post1",
            "1.1",
            "1!0",
        ]
        keys = [version(it).key for it in texts]
        self.assertEqual(keys, sorted(keys))
        for one, other in [("1.0", "1"), ("v1.0-1", "1.0.post1"), ("1.0preview", "1.0rc0"), ("1.0+A_1", "1.0+a.1")]:
            self.assertEqual(version(one).key, version(other).key)
        for text in ["", "x", "1.0-", "1.0+", "1..0", "18446744073709551616"]:
            self.assertIsNone(version(text))


if __name__ == "__main__":
    unittest.main()
