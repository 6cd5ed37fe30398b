"""Several package indexes: of each name the first that has it is asked and no other, whatever the others have; an index
that is explicit is asked for its own names alone; and no password stands in anything that is written or printed."""

from __future__ import annotations

import base64
import importlib.util
import json
import subprocess
import unittest
from http.server import BaseHTTPRequestHandler
from pathlib import Path
from unittest import mock

from making import Folder, plain_wheel, sha256, skip, want_program
from serving import Server
from unilock_tools import locks, vendored
from unilock_tools.pages import HTML_FORM, JSON_FORM

HEAD = '[project]\nname = "p"\nversion = "0"\nrequires-python = ">=3.8"\n'
NO_RETRIES = ["--tries", "1", "--jobs", "4"]
PASSWORD = "s3cret+/word"


class Noting(Server):
    """A server that notes which users it is asked by, and asks for a password where it has one."""

    def __init__(self, folder: Path, user: str = "") -> None:
        super().__init__(folder)
        self.user, self.users = user, set[str]()
        self.instead: dict[str, tuple[int, dict[str, str], bytes]] = {}

    def found(self, request: BaseHTTPRequestHandler) -> tuple[int, dict[str, str], bytes]:
        told = request.headers.get("Authorization", "")
        self.users.add(base64.b64decode(told.partition(" ")[2]).decode())
        if self.user and told != "Basic " + base64.b64encode(self.user.encode()).decode():
            return 401, {"WWW-Authenticate": "Basic"}, b"who are you?"
        return self.instead.get(request.path) or super().found(request)

    def names(self) -> set[str]:
        """The projects that it is asked for."""
        return {path.split("/")[2] for path, _ in self.asked if path.startswith("/simple/")}


class Several(Folder):
    """A private index with `ours`, and a public one that has `ours` in a later version, and `theirs`."""

    def setUp(self) -> None:
        super().setUp()
        vendored.library("requests")
        self.more: dict[str, str] = {}
        self.folders = {name: self.top / name for name in ("private", "public")}
        for folder in self.folders.values():
            folder.mkdir()
        plain_wheel(self.folders["private"], "ours", "1", ["theirs"])
        plain_wheel(self.folders["public"], "ours", "99")
        plain_wheel(self.folders["public"], "theirs", "1")
        plain_wheel(self.folders["public"], "theirs", "2")

    def environment(self) -> dict[str, str]:
        return {**super().environment(), "HOME": str(self.top), **self.more}

    def served(self, name: str, user: str = "") -> Noting:
        server = Noting(self.folders[name], user)
        server.__enter__()
        self.addCleanup(server.__exit__)
        return server

    def project(self, *required: str, more: str = "") -> None:
        self.write("pyproject.toml", f"{HEAD}dependencies = {json.dumps(required)}\n{more}")

    def index(self, *words: str, status: int = 0) -> str:
        return self.ran("index", "pyproject.toml", "ix", *NO_RETRIES, *words, status=status).stderr

    def entries(self) -> dict[str, list[tuple[str, str]]]:
        """The releases of each document with their sources."""
        read = {it.stem: json.loads(it.read_text()) for it in sorted((self.top / "ix").glob("*.json"))}
        return {name: [(it["version"], it.get("source", "")) for it in one["versions"]] for name, one in read.items()}


class First(Several):
    def test_the_first_index_that_has_a_name_is_asked_and_no_other(self) -> None:
        private, public = self.served("private"), self.served("public")
        self.project("ours")
        said = self.index("--index", f"Corp={private.url}", "--default-index", public.url)
        self.assertEqual(self.entries(), {"ours": [("1", "corp")], "theirs": [("1", ""), ("2", "")]})
        self.assertEqual((private.names(), public.names()), ({"ours", "theirs"}, {"theirs"}))
        self.assertIn(f"; asked {private.url} (--index), then {public.url}\n", said)

    def test_each_place_that_names_one(self) -> None:
        private, public = self.served("private"), self.served("public")
        default = f'[[tool.uv.index]]\nurl = "{public.url}"\ndefault = true\n'
        for more, variables in [
            (f'[[tool.uv.index]]\nname = "corp"\nurl = "{private.url}"\n', {"UNILOCK_DEFAULT_INDEX": public.url}),
            (default + f'[[tool.uv.index]]\nname = "corp"\nurl = "{private.url}"\n', {}),
            (default, {"UNILOCK_INDEX": f"corp={private.url}"}),
            (default, {"UV_INDEX": f"corp={private.url}"}),
            (f'[tool.uv]\nextra-index-url = ["{private.url}"]\nindex-url = "{public.url}"\n', {}),
            ("", {"PIP_INDEX_URL": public.url, "PIP_EXTRA_INDEX_URL": private.url}),
        ]:
            with self.subTest(f"{more}{variables}"):
                self.more = variables
                self.project("ours", more=more)
                self.index()
                source = "corp" if "corp" in f"{more}{variables}" else ""
                self.assertEqual(self.entries()["ours"], [("1", source)])
        self.assertEqual(public.names(), {"theirs"})

    def test_an_index_that_fails_is_not_passed_over(self) -> None:
        """Else who can make it fail could put another index's release in the place of its own."""
        private, public = self.served("private"), self.served("public")
        self.project("ours")
        words = ["--index", f"corp={private.url}", "--default-index", public.url]
        for status in (401, 403, 500):
            private.instead["/simple/ours/"] = (status, {}, b"")
            self.assertIn(f"{private.url}ours/: {status} ", self.index(*words, status=5))
        self.assertEqual(public.names(), set())
        self.assertFalse((self.top / "ix").exists())

    def test_statuses_by_which_an_index_says_that_it_does_not_know_a_name(self) -> None:
        private, public = self.served("private"), self.served("public")
        private.instead["/simple/theirs/"] = (403, {}, b"")
        entry = f'[[tool.uv.index]]\nurl = "{private.url}"\n'
        self.project("ours", more=entry)
        self.assertIn(" 403 ", self.index("--default-index", public.url, status=5))
        self.project("ours", more=entry + "ignore-error-codes = [403]\n")
        self.index("--default-index", public.url)
        self.assertEqual([it for it, _ in self.entries()["theirs"]], ["1", "2"])

    def test_an_index_that_answers_for_a_name_of_another(self) -> None:
        """It has the name first, so it is asked; what it answers is another project's page."""
        private, public = self.served("private"), self.served("public")
        self.project("theirs")
        page = private.page("ours", None)[2]
        private.instead["/simple/theirs/"] = (200, {"Content-Type": JSON_FORM}, page)
        words = ["--index", private.url, "--default-index", public.url]
        self.assertIn("the page is of 'ours', not of theirs", self.index(*words, status=5))
        listed = page.replace(b'"name": "ours"', b'"name": "theirs"')
        private.instead["/simple/theirs/"] = (200, {"Content-Type": JSON_FORM}, listed)
        said = self.index(*words)
        self.assertIn("theirs: ours-1-py3-none-any.whl: its name is another project's; passed over", said)
        self.assertEqual((self.entries(), public.names()), ({}, set()))

    def test_a_name_that_none_has(self) -> None:
        private, public = self.served("private"), self.served("public")
        self.project("ours", "gone")
        said = self.index("--index", private.url, "--default-index", public.url)
        self.assertIn("warning: none of 2 indexes has a project gone, which p requires\n", said)


class Explicit(Several):
    def test_it_is_asked_for_the_names_alone_whose_source_names_it(self) -> None:
        private, public = self.served("private"), self.served("public")
        plain_wheel(self.folders["private"], "theirs", "3")
        index = f'[[tool.uv.index]]\nname = "corp"\nurl = "{private.url}"\nexplicit = true\n'
        self.project("ours", more=index)
        said = self.index("--default-index", public.url)
        self.assertEqual((self.entries(), private.names()), ({"ours": [("99", "")]}, set()))
        self.assertNotIn(private.url, said)
        self.project("ours", more=index + '[tool.uv.sources]\nOurs = { index = "Corp" }\n')
        said = self.index("--default-index", public.url)
        self.assertEqual(self.entries(), {"ours": [("1", "corp")], "theirs": [("1", ""), ("2", "")]})
        self.assertEqual(private.names(), {"ours"})
        self.assertIn(f"{private.url} (tool.uv.index) for ours alone, then {public.url}\n", said)

    def test_a_name_that_its_index_does_not_have_is_asked_of_no_other(self) -> None:
        private, public = self.served("private"), self.served("public")
        index = f'[[tool.uv.index]]\nname = "corp"\nurl = "{private.url}"\n'
        self.project("theirs", "ours", more=index + '[tool.uv.sources]\ntheirs = { index = "corp" }\n')
        said = self.index("--default-index", public.url)
        self.assertIn("warning: the index corp has no project theirs, which p requires\n", said)
        self.assertEqual(public.names(), set())

    def test_it_is_locked_and_said_where_each_package_comes_from(self) -> None:
        want_program(self)
        private, public = self.served("private"), self.served("public")
        default = f'[[tool.uv.index]]\nname = "main"\nurl = "{public.url}"\ndefault = true\n'
        corp = f'[[tool.uv.index]]\nname = "corp"\nurl = "{private.url}"\nexplicit = true\n'
        self.project("ours", more=default + corp + "[tool.uv.sources]\nours.index = 'corp'\n")
        said = self.ran("lock").stderr
        self.assertIn(f"lock: asking {private.url} (tool.uv.index) for ours alone, then {public.url} (tool.uv.i", said)
        self.assertEqual((private.names(), public.names()), ({"ours"}, {"theirs"}))
        found = locks.load(str(self.top / "unilock.lock")).by_name()
        self.assertEqual([it.version for it in found["ours"]], ["1"])
        self.assertIn("verified", self.ran("verify").stdout)
        self.ran("pylock")
        packages = vendored.toml_of(str(self.top / "pylock.toml"))["packages"]
        self.assertEqual({it["name"]: it["index"] for it in packages}, {"ours": private.url, "theirs": public.url})

    def test_the_default_may_be_named_by_a_source(self) -> None:
        public = self.served("public")
        index = f'[[tool.uv.index]]\nname = "main"\nurl = "{public.url}"\ndefault = true\n'
        self.project("theirs", "ours", more=index + "[tool.uv.sources]\ntheirs.index = 'main'\n")
        self.index()
        self.assertEqual(self.entries(), {"ours": [("99", "")], "theirs": [("1", "main"), ("2", "main")]})


class Links(Several):
    """Places of links: folders and pages with files of all projects."""

    def setUp(self) -> None:
        super().setUp()
        files = [plain_wheel(self.folders["private"], "links", number) for number in ("1", "2")]
        files.append(plain_wheel(self.folders["private"], "Links.more", "7"))
        self.sums = [sha256(it) for it in files]

    def page(self, server: Noting, text: str) -> str:
        server.instead["/simple/all.html"] = (200, {"Content-Type": HTML_FORM}, text.encode())
        return f"{server.url}all.html"

    def test_a_folder(self) -> None:
        public = self.served("public")
        self.project("links", "theirs", more='[tool.uv]\nfind-links = ["private"]\n')
        (self.folders["private"] / "links-3.zip").write_bytes(b"")
        said = self.index("--default-index", public.url)
        self.assertEqual([it for it, _ in self.entries()["links"]], ["1", "2"])
        found = json.loads((self.top / "ix" / "links.json").read_text())["versions"][0]
        self.assertEqual(found["files"], [{"file": "links-1-py3-none-any.whl", "sha256": self.sums[0]}])
        self.assertIn("warning: links: links-3.zip: it is neither a .whl nor a .tar.gz; passed over\n", said)
        self.assertEqual(public.names(), {"theirs"})
        said = self.index("--find-links", "nowhere", "--default-index", public.url, status=3)
        self.assertIn("--find-links: 'nowhere' is no folder that is there", said)

    def test_a_page(self) -> None:
        private, public = self.served("private"), self.served("public")
        line = '<a href="/files/links-{0}-py3-none-any.whl#sha256={1}">links</a><br>\n'
        other = line.replace("links-", "Links_more-").format(7, self.sums[2])
        url = self.page(private, line.format(1, self.sums[0]) + line.format(2, self.sums[1]) + other)
        self.project("links", "links-more", "ours", more=f'[tool.uv]\nfind-links = ["{url}"]\n')
        self.index("--default-index", public.url)
        self.assertEqual({name: [it for it, _ in found] for name, found in self.entries().items()}, {
            "links": ["1", "2"], "links-more": ["7"], "ours": ["99"],
        })  # fmt: skip
        self.index("--default-index", public.url)
        self.assertEqual([path for path, _ in private.asked].count("/simple/all.html"), 2, "once a run")

    def test_a_flat_index_with_a_name(self) -> None:
        private, public = self.served("private"), self.served("public")
        url = self.page(private, f'<a href="/files/links-1-py3-none-any.whl#sha256={self.sums[0]}">x</a>')
        flat = f'[[tool.uv.index]]\nname = "flat"\nurl = "{url}"\nformat = "flat"\nexplicit = true\n'
        self.project("links", more=flat + "[tool.uv.sources]\nlinks.index = 'flat'\n")
        self.index("--default-index", public.url)
        self.assertEqual(self.entries(), {"links": [("1", "flat")]})

    def test_pages_that_are_none(self) -> None:
        private, public = self.served("private"), self.served("public")
        for text, said in [
            ("please log in", "the page has no links to files"),
            ("<a href='/files/links-1-py3-none-any.whl'>x</a><!-- <a href='y'>", "isn't closed, with a link behind it"),
            ("<a href='a' href='b'>", "a link has an attribute twice"),
        ]:
            url = self.page(private, text)
            self.project("links")
            self.assertIn(said, self.index("--find-links", url, "--default-index", public.url, status=5))
        self.assertEqual(public.names(), set())

    def test_a_file_with_another_hash_than_the_page_tells(self) -> None:
        private, public = self.served("private"), self.served("public")
        private.metadata, private.ranges = None, False
        url = self.page(private, f'<a href="/files/links-1-py3-none-any.whl#sha256={"0" * 64}">x</a>')
        self.project("links")
        said = self.index("--find-links", url, "--default-index", public.url, status=5)
        self.assertIn("its hash isn't the one that the index tells", said)


class Secrets(Several):
    """A user and a password go to the server alone that they are for, and stand in no file and no message."""

    def kept(self) -> str:
        """All that was written: documents, locks, what was asked, logs and the cache."""
        paths = [it for it in self.top.rglob("*") if it.is_file() and ".venv/lib" not in str(it)]
        return "".join(it.read_bytes().decode("utf-8", "replace") for it in paths if it.suffix not in (".toml", ".whl"))

    def unseen(self, said: str) -> None:
        for spelled in (PASSWORD, "s3cret", base64.b64encode(f"me:{PASSWORD}".encode()).decode()):
            self.assertNotIn(spelled, said)
            self.assertNotIn(spelled, self.kept())

    def test_those_of_variables(self) -> None:
        private, public = self.served("private", f"me:{PASSWORD}"), self.served("public")
        self.project("ours", more=f'[[tool.uv.index]]\nname = "our-corp"\nurl = "{private.url}"\n')
        self.assertIn("401 ", self.index("--default-index", public.url, status=5))
        self.more = {"UNILOCK_INDEX_OUR_CORP_USERNAME": "me", "UNILOCK_INDEX_OUR_CORP_PASSWORD": PASSWORD}
        said = self.index("--default-index", public.url)
        self.assertEqual(self.entries()["ours"], [("1", "our-corp")])
        self.assertEqual(public.users, {""})
        self.unseen(said)

    def test_those_of_an_address(self) -> None:
        want_program(self)
        private, public = self.served("private", f"me:{PASSWORD}"), self.served("public")
        address = private.url.replace("//", "//me:s3cret%2B%2Fword@")
        self.project("ours", more=f'[[tool.uv.index]]\nname = "corp"\nurl = "{address}"\n')
        done = self.ran("lock", "--default-index", public.url)
        self.assertEqual(public.users, {""})
        self.unseen(done.stdout + done.stderr)
        self.assertIn("s3cret", (self.top / "pyproject.toml").read_text())
        self.more = {"UNILOCK_INDEX_CORP_PASSWORD": "wrong"}
        with mock.patch("time.sleep"):
            done = self.ran("lock", "--refresh", "--default-index", public.url, status=5)
        self.assertIn("or in UNILOCK_INDEX_CORP_USERNAME and UNILOCK_INDEX_CORP_PASSWORD\n", done.stderr)
        self.unseen(done.stdout + done.stderr)

    def test_from_a_lock_to_an_installation(self) -> None:
        """pip is asked for what the lock gives, of both indexes, and says no password either. Of two files of one name
        it takes the one that has the lock's hash."""
        want_program(self)
        if importlib.util.find_spec("ensurepip") is None:
            skip(self, "venv and pip aren't there")
        private, public = self.served("private", f"me:{PASSWORD}"), self.served("public")
        self.more = {"UNILOCK_INDEX_CORP_USERNAME": "me", "UNILOCK_INDEX_CORP_PASSWORD": PASSWORD}
        self.more["UNILOCK_DEFAULT_INDEX"] = public.url
        self.project("ours", more=f'[[tool.uv.index]]\nname = "corp"\nurl = "{private.url}"\n')
        plain_wheel(self.folders["public"], "ours", "1", ["another"])
        done = self.ran("lock")
        named = locks.load(str(self.top / "unilock.lock")).by_name()
        found = {name: [it.version for it in packages] for name, packages in named.items() if name != "p"}
        self.assertEqual(found, {"ours": ["1"], "theirs": ["2"]})
        synced = self.ran("sync")
        code = "import importlib.metadata as it; print(it.requires('ours'))"
        line = [str(self.top / ".venv" / "bin" / "python"), "-c", code]
        self.assertEqual(subprocess.run(line, capture_output=True, text=True, check=True).stdout, "['theirs']\n")
        self.assertTrue((self.top / ".venv" / "pip.log").is_file())
        self.assertEqual(public.users, {""})
        self.unseen(done.stdout + done.stderr + synced.stdout + synced.stderr)


class Again(Several):
    def test_another_order_of_indexes_is_another_question(self) -> None:
        want_program(self)
        private, public = self.served("private"), self.served("public")
        self.project("ours")
        words = ["--index", private.url, "--default-index", public.url]
        self.ran("lock", *words)
        asked = len(public.asked)
        self.assertIn("is current", self.ran("lock", *words).stdout)
        self.assertEqual(len(public.asked), asked, "the same question isn't asked again")
        said = self.ran("lock", "--upgrade", "--default-index", public.url).stdout
        self.assertIn("ours 1 -> 99\n", said)


if __name__ == "__main__":
    unittest.main()
