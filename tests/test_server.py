"""tools/index from a package index on the loopback address, in each form that indexes have."""

from __future__ import annotations

import json
import random
import signal
import socket
import subprocess
import sys
import time
import unittest
from typing import List

from making import TOP, Folder, metadata_text, plain_wheel, sdist, sha256, wheel
from serving import Server
from unilock_tools import folders

PROJECT = """[project]
name = "served"
version = "1"
requires-python = ">=3.8"
dependencies = ["alpha>=1.2,<2", "Beta_Tools[fast]"]
[project.optional-dependencies]
dev = ["delta"]
"""
NO_RETRIES = ["--tries", "1", "--jobs", "4"]


class Served(Folder):
    def setUp(self) -> None:
        super().setUp()
        self.wheels = self.top / "wheels"
        self.wheels.mkdir()
        self.out = self.top / "ix"
        self.write("pyproject.toml", PROJECT)

    def fill(self) -> None:
        plain_wheel(self.wheels, "alpha", "1.1")
        plain_wheel(self.wheels, "alpha", "1.2", ["gamma<0.4"], ">=3.6")
        plain_wheel(self.wheels, "alpha", "1.3", ["gamma<0.4", "never; python_version < '3'", "side; extra == 'other'"])
        plain_wheel(self.wheels, "alpha", "2.0", ["gamma>=0.4"])
        plain_wheel(self.wheels, "beta-tools", "2.0", ["gamma>=0.3", "epsilon>=1; extra == 'fast'"])
        plain_wheel(self.wheels, "delta", "1.0")
        plain_wheel(self.wheels, "epsilon", "1.0")
        plain_wheel(self.wheels, "gamma", "0.3")
        plain_wheel(self.wheels, "gamma", "0.4")
        plain_wheel(self.wheels, "never", "1")
        plain_wheel(self.wheels, "side", "1")

    def index(self, server: Server, *words: object, status: int = 0) -> str:
        done = self.ran("index", "pyproject.toml", "ix", "--index-url", server.url, *NO_RETRIES, *words, status=status)
        return done.stderr

    def found(self) -> dict:
        read = {it.stem: json.loads(it.read_text()) for it in sorted(self.out.glob("*.json"))}
        return {name: [one["version"] for one in found["versions"]] for name, found in read.items()}

    def document(self, name: str) -> List[dict]:
        return json.loads((self.out / f"{name}.json").read_text())["versions"]


WHOLE = {"alpha": ["1.2", "1.3"], "beta-tools": ["2.0"], "delta": ["1.0"], "epsilon": ["1.0"], "gamma": ["0.3", "0.4"]}


class Forms(Served):
    """All forms give one index folder: what is reached, in the project's bounds."""

    def test_each_form_and_each_way_to_the_metadata(self) -> None:
        self.fill()
        texts = set()
        for form in ["json", "html"]:
            for metadata, ranges in [
                ("core-metadata", True), ("dist-info-metadata", True), (None, True), (None, False)
            ]:
                with self.subTest(form=form, metadata=metadata, ranges=ranges), Server(
                    self.wheels, form, metadata, ranges
                ) as server:
                    said = self.index(server, "--no-cache")
                    self.assertEqual(self.found(), WHOLE)
                    asked = [len(server.paths(it)) > 0 for it in ("metadata", "range", "whole")]
                    self.assertEqual(asked, [metadata is not None, metadata is None and ranges, not ranges])
                    self.assertNotIn("warning", said)
                    text = "".join(it.read_text() for it in sorted(self.out.glob("*.json")))
                    if form == "html":
                        # An HTML page tells no sizes.
                        text = text.replace(server.url, "")
                    texts.add((form, "".join(text.split(server.url.replace("/simple/", "")))))
        self.assertEqual(len(texts), 2)

    def test_what_an_entry_has(self) -> None:
        self.fill()
        with Server(self.wheels) as server:
            server.yanked = ["alpha-1.3-py3-none-any.whl"]
            self.index(server)
            entries = self.document("alpha")
            self.assertEqual([it.get("requires_python") for it in entries], [">=3.6", None])
            self.assertEqual([it.get("yanked") for it in entries], [None, "it was wrong"])
            self.assertEqual(entries[0]["requires_dist"], ["gamma<0.4"])
            file = entries[0]["files"][0]
            self.assertEqual(file["sha256"], sha256(self.wheels / "alpha-1.2-py3-none-any.whl"))
            self.assertEqual(file["url"], server.url.replace("simple/", "files/") + "alpha-1.2-py3-none-any.whl")
            self.assertEqual(file["size"], (self.wheels / "alpha-1.2-py3-none-any.whl").stat().st_size)

    def test_a_wheel_larger_than_what_is_first_asked_for(self) -> None:
        noise = random.Random(1).getrandbits(8 * 300_000).to_bytes(300_000, "big")
        info = "big-1.dist-info"
        wheel(
            self.wheels,
            "big-1-py3-none-any.whl",
            {f"{info}/METADATA": metadata_text("big", "1", ["alpha"]), "big.bin": noise},
        )
        self.write("pyproject.toml", '[project]\nname = "p"\ndependencies = ["big"]\n')
        with Server(self.wheels, metadata=None) as server:
            self.index(server)
            self.assertEqual(self.document("big")[0]["requires_dist"], ["alpha"])
            self.assertGreater(len(server.paths("range")), 1)
            self.assertEqual(server.paths("whole"), [])


class Choices(Served):
    def releases(self, *words: str, bound: str = "") -> List[str]:
        self.write("pyproject.toml", f'[project]\nname = "p"\ndependencies = ["a{bound}"]\n')
        with Server(self.wheels) as server:
            server.uploaded = {it.name: f"2024-0{it.name[2]}-15T12:00:00.123456Z" for it in self.wheels.iterdir()}
            self.index(server, *words)
        return self.found()["a"]

    def test_bounds_newest_and_dates(self) -> None:
        for number in range(1, 6):
            plain_wheel(self.wheels, "a", str(number))
        self.assertEqual(self.releases(), ["1", "2", "3", "4", "5"])
        self.assertEqual(self.releases(bound=">=2,<5"), ["2", "3", "4"])
        self.assertEqual(self.releases("--newest", "2"), ["4", "5"])
        self.assertEqual(self.releases("--newest", "2", bound="<4"), ["2", "3"])
        self.assertEqual(self.releases("--before", "2024-03-01"), ["1", "2"])
        self.assertEqual(self.releases("--before", "2024-03-15T12:00:00Z"), ["1", "2"])
        self.assertEqual(self.releases("--before", "2024-03-16", "--newest", "1"), ["3"])
        # A bound with a marker holds elsewhere only, so it leaves nothing out.
        self.assertEqual(self.releases(bound="<3; sys_platform == 'win32'"), ["1", "2", "3", "4", "5"])

    def test_dates_that_are_none_or_are_not_told(self) -> None:
        plain_wheel(self.wheels, "alpha", "1.2")
        with Server(self.wheels) as server:
            self.assertIn("--before yesterday", self.index(server, "--before", "yesterday", status=2))
            self.assertIn("no upload time", self.index(server, "--before", "2024-01-01", status=5))

    def test_pre_releases(self) -> None:
        plain_wheel(self.wheels, "a", "1")
        plain_wheel(self.wheels, "a", "2rc1")
        self.assertEqual(self.releases(), ["1"])
        self.assertEqual(self.releases(bound=">=2rc1"), ["2rc1"])
        # The one final release stays, so that the program goes on passing the pre-release over.
        self.assertEqual(self.releases(bound=">1"), ["1"])
        (self.wheels / "a-1-py3-none-any.whl").unlink()
        self.assertEqual(self.releases(), ["2rc1"])

    def test_final_releases_that_cannot_be_used_let_pre_releases_count(self) -> None:
        plain_wheel(self.wheels, "a", "1", ["bb (>dev)"])
        plain_wheel(self.wheels, "a", "2rc1")
        self.assertEqual(self.releases(), ["1", "2rc1"])

    def test_constraints_and_overrides_bound_too(self) -> None:
        for number in range(1, 6):
            plain_wheel(self.wheels, "a", str(number))
            plain_wheel(self.wheels, "b", str(number), ["a"])
        for settings, found in [
            ('constraint-dependencies = ["a<3"]', ["1", "2"]),
            ('override-dependencies = ["a>=4"]', ["4", "5"]),
            ('constraint-dependencies = ["a<3; os_name == \'nt\'"]', ["1", "2", "3", "4", "5"]),
        ]:
            self.write(
                "pyproject.toml",
                f'[project]\nname = "p"\ndependencies = ["b", "a<5; os_name == \'nt\'"]\n[tool.uv]\n{settings}\n',
            )
            with Server(self.wheels) as server:
                self.index(server)
            self.assertEqual(self.found()["a"], found)

    def test_groups_are_walked(self) -> None:
        plain_wheel(self.wheels, "a", "1")
        plain_wheel(self.wheels, "b", "1")
        self.write(
            "pyproject.toml",
            '[project]\nname = "p"\n[dependency-groups]\nOne = ["a"]\ntwo = [{ include-group = "one" }, "b"]\n',
        )
        with Server(self.wheels) as server:
            self.index(server)
        self.assertEqual(sorted(self.found()), ["a", "b"])

    def test_files_of_a_folder_come_before_the_server(self) -> None:
        self.fill()
        own = self.top / "own"
        own.mkdir()
        plain_wheel(own, "gamma", "0.35", ["zeta"])
        plain_wheel(self.wheels, "zeta", "1")
        with Server(self.wheels) as server:
            self.ran("index", "pyproject.toml", own, "ix", "--index-url", server.url)
            self.assertNotIn("/simple/gamma/", server.paths("page"))
        self.assertEqual(self.found(), {**WHOLE, "gamma": ["0.35"], "zeta": ["1"]})


class Faults(Served):
    def test_a_server_that_fails_for_a_while(self) -> None:
        self.fill()
        with Server(self.wheels) as server:
            server.faults = {"/simple/alpha/": [503], "/files/gamma-0.3-py3-none-any.whl.metadata": [500, 429]}
            self.index(server, "--tries", "3")
            self.assertEqual(self.found(), WHOLE)

    def test_a_server_that_fails_for_good(self) -> None:
        self.fill()
        self.index_before()
        with Server(self.wheels) as server:
            server.faults = {"/simple/gamma/": [503] * 9}
            said = self.index(server, "--tries", "2", status=5)
            self.assertRegex(
                said, r"\Aindex: http://127.0.0.1:\d+/simple/gamma/: 503 Service Unavailable \(2 tries\)\n\Z"
            )
        self.assertEqual(self.found(), {"kept": []})

    def index_before(self) -> None:
        folders.replace_folder(self.out, {"kept": {"name": "kept", "versions": []}})

    def test_no_server(self) -> None:
        # A port that is taken and that nobody listens on.
        taken = socket.socket()
        self.addCleanup(taken.close)
        taken.bind(("127.0.0.1", 0))
        url = f"http://127.0.0.1:{taken.getsockname()[1]}/simple/"
        said = self.ran("index", "pyproject.toml", "ix", "--index-url", url, *NO_RETRIES, status=5).stderr
        self.assertIn("Connection refused (1 tries)", said)
        self.assertEqual(len(said.splitlines()), 1)
        secret = self.ran(
            "index", "pyproject.toml", "ix", "--index-url", url.replace("//", "//me:secret@"), *NO_RETRIES, status=5
        ).stderr
        self.assertNotIn("secret", secret)

    def test_a_page_that_is_none(self) -> None:
        plain_wheel(self.wheels, "alpha", "1.2")
        with Server(self.wheels) as server:
            said = self.ran(
                "index",
                "pyproject.toml",
                "ix",
                "--index-url",
                server.url.replace("simple", "files"),
                *NO_RETRIES,
                status=5,
            ).stderr
            self.assertIn("the server has no project alpha, which served requires, nor any other", said)
            self.assertFalse(self.out.exists())
            server.json_page = lambda *_: b"[]"  # type: ignore[method-assign]
            self.assertIn("isn't as PEP 691 has it", self.index(server, status=5))

    def test_hashes_are_checked(self) -> None:
        self.fill()
        told = b"Metadata-Version: 2.1\nName: alpha\nVersion: 1.2\n"
        for metadata in ["core-metadata", None]:
            with Server(self.wheels, metadata=metadata, ranges=False) as server:
                if metadata:
                    server.metadata_of = lambda path: told  # type: ignore[method-assign]
                    page = Server(self.wheels)
                    server.json_page = page.json_page  # type: ignore[method-assign]
                    page.http.server_close()
                else:
                    server.wrong_hash = ["alpha-1.2-py3-none-any.whl"]
                self.assertIn("its hash isn't the one that the index tells", self.index(server, "--no-cache", status=5))

    def test_a_project_that_the_server_does_not_have(self) -> None:
        plain_wheel(self.wheels, "alpha", "1.2", ["gone"])
        plain_wheel(self.wheels, "beta-tools", "1")
        plain_wheel(self.wheels, "delta", "1")
        with Server(self.wheels) as server:
            self.assertIn("warning: the server has no project gone, which alpha 1.2 requires", self.index(server))

    def test_releases_without_a_wheel(self) -> None:
        self.write("pyproject.toml", '[project]\nname = "p"\ndependencies = ["a"]\n')
        sdist(self.wheels, "a", "3", metadata_text("a", "3"))
        sdist(self.wheels, "a", "2", metadata_text("a", "2").replace("Metadata-Version: 2.2", "Metadata-Version: 2.1"))
        sdist(self.wheels, "a", "1", metadata_text("a", "1", more="Dynamic: Requires-Dist\n"))
        (self.wheels / "a-0.9.zip").write_bytes(b"old")
        (self.wheels / "a-0.8-py2.7.egg").write_bytes(b"older")
        with Server(self.wheels) as server:
            said = self.index(server)
        self.assertEqual(self.found(), {"a": ["3"]})
        self.assertIn("warning: a 2: its metadata are older than 2.2", said)
        self.assertIn("warning: a 1: its requires-dist is dynamic", said)

    def test_a_release_that_cannot_be_used_is_told(self) -> None:
        self.write("pyproject.toml", '[project]\nname = "p"\ndependencies = ["a"]\n')
        plain_wheel(self.wheels, "a", "1", ["bb (>dev)"])
        with Server(self.wheels) as server:
            self.assertIn("warning: a 1 can't be used: Requires-Dist: `bb (>dev)`", self.index(server))

    def test_no_hashes(self) -> None:
        self.write("pyproject.toml", '[project]\nname = "p"\ndependencies = ["a"]\n')
        plain_wheel(self.wheels, "a", "1")
        with Server(self.wheels) as server:
            server.no_hash = True
            self.assertIn("a 1: the server tells no SHA-256", self.index(server))
        self.assertNotIn("files", self.document("a")[0])


class Kept(Served):
    """The cache on disk."""

    def test_metadata_are_asked_for_once_and_pages_are_asked_whether_they_changed(self) -> None:
        self.fill()
        for form in ["json", "html"]:
            with Server(self.wheels, form) as server:
                self.index(server, "--cache", f"kept-{form}")
                first = list(server.asked)
                server.asked.clear()
                self.index(server, "--cache", f"kept-{form}")
                self.assertEqual({status for _, status in server.asked}, {304})
                self.assertEqual(len(server.asked), len([it for it in first if it[0].startswith("/simple/")]))
                self.assertEqual(self.found(), WHOLE)

    def test_an_entry_that_was_changed_counts_as_absent(self) -> None:
        self.fill()
        with Server(self.wheels) as server:
            self.index(server, "--cache", "kept")
            for path in (self.top / "kept").rglob("*"):
                if path.is_file():
                    path.write_bytes(path.read_bytes().replace(b"gamma", b"gamme").replace(b"alpha", b"alphe"))
            server.asked.clear()
            self.index(server, "--cache", "kept")
            self.assertEqual(self.found(), WHOLE)
            self.assertIn(200, {status for _, status in server.asked})

    def test_without_a_cache(self) -> None:
        self.fill()
        with Server(self.wheels) as server:
            self.index(server, "--no-cache")
        self.assertEqual(list(self.top.glob("cache/**/*")), [])


class Words(Served):
    def test_words_that_are_not_right(self) -> None:
        with Server(self.wheels) as server:
            for words in [["--newest", "0"], ["--jobs", "0"], ["--tries", "0"]]:
                self.assertEqual(len(self.index(server, *words, status=2).splitlines()), 1)
            self.assertIn(
                "not TOML",
                self.ran("index", self.write("q.toml", "[x"), "ix", "--index-url", server.url, status=3).stderr,
            )
            self.assertIn(
                "absent.toml", self.ran("index", "absent.toml", "ix", "--index-url", server.url, status=1).stderr
            )
            self.write("url.toml", '[project]\nname = "p"\ndependencies = ["a @ https://x/y"]\n')
            said = self.ran("index", "url.toml", "ix", "--index-url", server.url, status=3).stderr
            self.assertIn("url.toml: https://x/y: it is neither a wheel (.whl) nor a source distribution", said)

    def test_progress_is_for_terminals(self) -> None:
        self.fill()
        with Server(self.wheels) as server:
            said = self.index(server)
            self.assertNotIn("\r", said)
            self.assertRegex(said, r"index: \d+ requests, [\d.]+ MB\nindex: ix has 5 packages with 7 releases\n\Z")
            self.assertEqual(self.index(server, "--quiet"), "")

    def test_an_interrupt_is_not_kept_waiting_by_a_silent_server(self) -> None:
        self.fill()
        with Server(self.wheels) as server:
            server.silent = ["/simple/alpha/"]
            line = [sys.executable, str(TOP / "tools" / "index"), "pyproject.toml", "ix", "--index-url", server.url]
            running = subprocess.Popen(line, cwd=self.top, env=self.environment(), stderr=subprocess.PIPE)
            until = time.monotonic() + 20
            while ("/simple/alpha/", 0) not in server.asked and time.monotonic() < until:
                time.sleep(0.01)
            begun = time.monotonic()
            running.send_signal(signal.SIGINT)
            said = running.communicate(timeout=30)[1]
            self.assertEqual((running.returncode, said), (130, b"index: interrupted\n"))
            self.assertLess(time.monotonic() - begun, 10)
        self.assertFalse(self.out.exists())


if __name__ == "__main__":
    unittest.main()
