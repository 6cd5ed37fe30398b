"""Source distributions of which only a build tells what they require: each tool that meets one says how it is built,
and with --build it is built once, by the library `build`, without a network."""

from __future__ import annotations

import importlib.util
import io
import tarfile
import tempfile
import unittest
from pathlib import Path
from unittest import mock

from making import Folder, plain_wheel, skip, want_program
from serving import Server
from sources import uncertain_sdist
from unilock_tools import archives, building
from unilock_tools.cache import Cache

PROJECT = '[project]\nname = "demo"\nversion = "1"\nrequires-python = ">=3.8"\ndependencies = ["old"]\n'
OLDER = "its metadata are older than 2.2, so a build may change its requirements"
HINT = "`--build old` builds it, which runs its code"


class Sources(Folder):
    def setUp(self) -> None:
        super().setUp()
        self.wheels = self.top / "wheels"
        self.wheels.mkdir()
        uncertain_sdist(self.wheels, "old", "1.0", ["beta<2"])
        for number in ("1.0", "2.0"):
            plain_wheel(self.wheels, "beta", number)
        self.write("pyproject.toml", PROJECT)


class Told(Sources):
    """Without the word, each tool that meets one says it."""

    def test_files(self) -> None:
        said = self.ran("index", "wheels", "ix", status=1).stderr
        self.assertEqual(said, f"index: wheels/old-1.0.tar.gz: {OLDER}; {HINT}\n")
        self.assertIn(f"{HINT}; passed over", self.ran("index", "--skip", "wheels", "ix").stderr)

    def test_a_server(self) -> None:
        with Server(self.wheels) as server:
            said = self.ran("index", "pyproject.toml", "ix", "--index-url", server.url).stderr
        self.assertIn(f"warning: old 1.0: {OLDER}; {HINT}\n", said)

    def test_lock(self) -> None:
        want_program(self)
        with Server(self.wheels) as server:
            said = self.ran("lock", "--index-url", server.url, status=1).stderr
        self.assertIn(f"lock: warning: old 1.0: {OLDER}; {HINT}\n", said)

    def test_what_is_dynamic(self) -> None:
        for key in ("Requires-Dist", "requires-python"):
            text = f"Metadata-Version: 2.2\nName: X_y\nVersion: 1\nDynamic: {key}\n"
            with self.assertRaises(archives.Uncertain) as found:
                archives.sdist_metadata("it", "x-y-1.tar.gz", text.encode())
            told = f"it: its {key.lower()} is dynamic, so only a build tells it; `--build x-y` builds it, which"
            self.assertEqual(str(found.exception), f"{told} runs its code")

    def test_without_the_library(self) -> None:
        with mock.patch.object(importlib.util, "find_spec", return_value=None):
            said = self.ran("index", "wheels", "ix", "--build", "old", status=3).stderr
        self.assertEqual(said, "index: --build: the library build isn't installed; `pip install build` installs it\n")


class Built(Sources):
    def setUp(self) -> None:
        super().setUp()
        if importlib.util.find_spec("build") is None:
            skip(self, "the library build isn't installed")

    def document(self) -> str:
        return (self.top / "ix" / "old.json").read_text(encoding="utf-8")

    def test_a_build_tells_the_requirements_once(self) -> None:
        warning = "index: warning: old 1.0: its requirements are those of a build on this machine; "
        self.assertIn(warning, self.ran("index", "wheels", "ix", "--build", "Old").stderr)
        self.assertIn('"beta<2"', self.document())
        with mock.patch.object(building, "built", side_effect=AssertionError("it is built again")):
            self.ran("index", "wheels", "ix", "--build-all")
            self.assertIn("--build old", self.ran("index", "wheels", "ix", "--build", "other", status=1).stderr)
        # Another file of this name isn't what was built.
        uncertain_sdist(self.wheels, "old", "1.0", ["beta>=2"])
        self.ran("index", "wheels", "ix", "--build", "old")
        self.assertIn('"beta>=2"', self.document())

    def test_from_a_server_to_a_lock(self) -> None:
        want_program(self)
        with Server(self.wheels) as server:
            said = self.ran("lock", "--index-url", server.url, "--build", "old").stderr
            self.assertIn("warning: old 1.0: its requirements are those of a build on this machine", said)
            text = (self.top / "unilock.lock").read_text(encoding="utf-8")
            self.assertIn('name = "old"\nversion = "1.0"', text)
            self.assertIn('name = "beta"\nversion = "1.0"', text)
            again = self.ran("lock", "--index-url", server.url, "--build", "old").stdout
            self.assertIn("is current: 2 packages", again)
            self.ran("index", "pyproject.toml", "ix", "--index-url", server.url, "--build-all")
        self.assertIn('"beta<2"', self.document())

    def test_a_build_that_fails(self) -> None:
        uncertain_sdist(self.wheels, "old", "1.0", fails="the compiler isn't there")
        said = self.ran("index", "wheels", "ix", "--build", "old", status=1).stderr
        self.assertIn("wheels/old-1.0.tar.gz: it can't be built: ", said)
        self.assertIn("ValueError: the compiler isn't there", said)


class Archives(unittest.TestCase):
    """What is unpacked to be built stays in its folder."""

    def setUp(self) -> None:
        self.held = tempfile.TemporaryDirectory()
        self.addCleanup(self.held.cleanup)

    def unpacked(self, *members: tarfile.TarInfo) -> Path:
        held = io.BytesIO()
        with tarfile.open(fileobj=held, mode="w:gz") as archive:
            for member in members:
                archive.addfile(member, io.BytesIO(b"x" * member.size))
        held.seek(0)
        return building.unpacked("it", held, Path(tempfile.mkdtemp(dir=self.held.name)))

    def member(self, name: str, size: int = 1, kind: bytes = tarfile.REGTYPE) -> tarfile.TarInfo:
        made = tarfile.TarInfo(name)
        made.size, made.type, made.mode = size, kind, 0o4755
        made.linkname = "/etc/passwd"
        return made

    def test_files_and_folders_alone(self) -> None:
        link = self.member("a-1/link", 0, tarfile.SYMTYPE)
        found = self.unpacked(self.member("a-1", 0, tarfile.DIRTYPE), self.member("a-1/b/setup.py"), link)
        self.assertEqual(sorted(it.name for it in found.rglob("*")), ["b", "setup.py"])
        self.assertEqual((found / "b" / "setup.py").stat().st_mode & 0o7777, 0o755)

    def test_what_is_refused(self) -> None:
        cases: list[tuple[list[tarfile.TarInfo], str]] = [
            ([self.member("../a")], "a member leads out of the archive"),
            ([self.member("/a-1/b")], "a member leads out of the archive"),
            ([self.member("a-1/x"), self.member("b-1/x")], "it has 2 folders at its top"),
            ([], "it has 0 folders at its top"),
        ]
        for members, fault in cases:
            with self.assertRaisesRegex(archives.Refused, fault):
                self.unpacked(*members)
        with mock.patch.object(building, "MOST_MEMBERS", 2), self.assertRaisesRegex(archives.Refused, "more than 2"):
            self.unpacked(*(self.member(f"a-1/{number}") for number in range(3)))
        with mock.patch.object(building, "MOST_ARCHIVE", 9), self.assertRaisesRegex(archives.Refused, "or 9 bytes"):
            self.unpacked(self.member("a-1/x", 10))

    def test_what_a_build_tells_is_read_as_metadata(self) -> None:
        builder = building.Builder(None, Cache(None))
        for body, fault in [
            (b"Name: other\nVersion: 1\n", "the metadata's name is other, the file's old"),
            (b"Name: old\nVersion: 2\n", "the metadata's version is 2, the file's 1.0"),
            (b"", "the metadata's Name is no name"),
        ]:
            with mock.patch.object(building, "built", return_value=body):
                with self.assertRaisesRegex(archives.Refused, fault):
                    builder.metadata("it", "old-1.0.tar.gz", io.BytesIO(b"x"))
        for text in ["", "[]", '{"Name": 1}', '{"Name": ["a"], "Requires-Dist": null}']:
            path = Path(self.held.name) / "told.json"
            path.write_text(text)
            self.assertRaises(archives.Refused, building.fields, "it", path)


if __name__ == "__main__":
    unittest.main()
