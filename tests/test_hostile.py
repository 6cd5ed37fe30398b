"""A package index that lies or breaks: no wrong document without a word, no secret told, nothing without an end."""

from __future__ import annotations

import gzip
import hashlib
import io
import itertools
import json
import re
import stat
import tarfile
import time
import unittest
import zipfile
from pathlib import Path
from typing import Any, Dict, List, Tuple
from unittest import mock

import hostile
from hostile import HostileServer, reply
from making import Folder, metadata_text, plain_wheel, sdist, wheel
from unilock_tools import archives, console, documents, fetching, markers, pages, pylock, readings, simple, walk
from unilock_tools.versions import version

WHEEL = "a-1-py3-none-any.whl"
PAGE = "/simple/a/"


class Hostile(Folder):
    def setUp(self) -> None:
        super().setUp()
        self.wheels = self.top / "wheels"
        self.wheels.mkdir()
        self.wanting("a")

    def wanting(self, *requirements: str) -> None:
        listed = ", ".join(f'"{it}"' for it in requirements)
        self.write("pyproject.toml", f'[project]\nname = "p"\nrequires-python = ">=3.8"\ndependencies = [{listed}]\n')

    def index(self, server: HostileServer, *words: object, status: int = 0, url: str = "") -> str:
        given = ["--index-url", url or server.url, "--tries", "1", "--jobs", "4", *words]
        return self.ran("index", "pyproject.toml", "ix", *given, status=status).stderr

    def releases(self, name: str = "a") -> List[Dict[str, Any]]:
        found: List[Dict[str, Any]] = json.loads((self.top / "ix" / f"{name}.json").read_text())["versions"]
        return found

    def versions(self, name: str = "a") -> List[str]:
        return [it["version"] for it in self.releases(name)]

    def page(self, server: HostileServer, change: Any = None) -> Dict[str, Any]:
        """The page of `a` as the server has it, changed, in the place of the true one."""
        files = sorted(it for it in self.wheels.iterdir() if it.name.startswith("a-"))
        found: Dict[str, Any] = json.loads(server.json_page("a", files))
        if change is not None:
            change(found)
            server.lies[PAGE] = reply(json.dumps(found).encode())
        return found


class WhatIsKept(Hostile):
    """What one index told, once, makes no other answer wrong."""

    def test_metadata_that_no_hash_checked_are_kept_for_their_address_alone(self) -> None:
        plain_wheel(self.wheels, "a", "1", ["b"])
        plain_wheel(self.wheels, "b", "1")
        lie = metadata_text("a", "1").encode()
        for told in ["metadata", "ranges"]:
            with self.subTest(told):
                cache = ["--cache", f"kept-{told}"]
                with HostileServer(self.wheels, metadata=None) as server:
                    if told == "metadata":
                        self.page(server, lambda page: page["files"][0].update({"core-metadata": True}))
                        server.lies[f"/files/{WHEEL}.metadata"] = reply(lie, ETag='"x"')
                    else:
                        other = self.top / "other"
                        other.mkdir()
                        path = plain_wheel(other, "a", "1")
                        body = path.read_bytes()
                        server.lies[f"/files/{WHEEL}"] = reply(
                            body, status=206, ETag='"x"', Content_Range=f"bytes 0-{len(body) - 1}/{len(body)}"
                        )
                    self.index(server, *cache)
                    self.assertNotIn("requires_dist", self.releases()[0])
                    server.lies.clear()
                    self.index(server, *cache)
                    self.assertEqual(self.releases()[0]["requires_dist"], ["b"])
                with HostileServer(self.wheels) as server:
                    self.index(server, *cache)
                    self.assertEqual(self.releases()[0]["requires_dist"], ["b"])

    def test_what_is_marked_by_the_server_is_sent_again_only_where_it_changed(self) -> None:
        plain_wheel(self.wheels, "a", "1")
        told = metadata_text("a", "1").encode()
        with HostileServer(self.wheels, metadata=None) as server:
            self.page(server, lambda page: page["files"][0].update({"core-metadata": True}))
            server.lies[f"/files/{WHEEL}.metadata"] = reply(told, ETag='"x"')
            self.index(server, "--cache", "kept")
            server.lies[f"/files/{WHEEL}.metadata"] = reply(b"", status=304)
            self.index(server, "--cache", "kept")
            self.assertEqual(server.heard[-1][1].get("If-None-Match"), '"x"')
            self.assertEqual(self.versions(), ["1"])

    def test_a_mark_counts_for_the_address_that_gave_it(self) -> None:
        """A server that leads elsewhere, once, doesn't have its own pages replaced by those of elsewhere."""
        plain_wheel(self.wheels, "a", "1")
        with HostileServer(self.wheels) as server:
            tag = '"' + hashlib.sha256(server.json_page("a", sorted(self.wheels.iterdir()))).hexdigest()[:16] + '"'
            listed = self.page(server, lambda page: page["files"].clear())
            server.lies["/elsewhere/a/"] = reply(json.dumps(listed).encode(), ETag=tag)
            server.lies[PAGE] = reply(b"", status=302, Location="/elsewhere/a/")
            self.index(server, "--cache", "kept")
            self.assertFalse((self.top / "ix" / "a.json").exists())
            server.lies.clear()
            self.index(server, "--cache", "kept")
            self.assertEqual(self.versions(), ["1"])
            self.assertEqual(self.releases()[0]["files"][0]["url"], server.url.replace("/simple/", f"/files/{WHEEL}"))

    def test_metadata_without_a_hash_are_kept_where_they_have_a_reading(self) -> None:
        plain_wheel(self.wheels, "a", "1", ["b"])
        plain_wheel(self.wheels, "b", "1")
        whole = metadata_text("a", "1", ["b"]).encode()
        place = f"/files/{WHEEL}.metadata"
        for lie, warning in [
            (b"log in\n", "a 1: the metadata's Name is no name"),
            (metadata_text("c", "1").encode(), "a 1: "),
            # What ends within a line is a part; the wheel has the whole.
            (whole[: whole.index(b"Requires-Dist: b") + 8], ""),
        ]:
            with self.subTest(lie), HostileServer(self.wheels, metadata=None) as server:
                self.page(server, lambda page: page["files"][0].update({"core-metadata": True}))
                server.lies[place] = reply(lie, ETag='"x"')
                self.assertIn(warning, self.index(server, "--cache", f"kept-{len(lie)}"))
                if not warning:
                    self.assertEqual(self.releases()[0]["requires_dist"], ["b"])
                server.lies[place] = reply(whole, ETag='"x"')
                self.index(server, "--cache", f"kept-{len(lie)}")
                self.assertEqual(self.releases()[0]["requires_dist"], ["b"])
                self.assertNotIn("If-None-Match", dict(server.heard)[place])

    def test_the_cache_is_its_users_alone_and_has_no_secrets(self) -> None:
        plain_wheel(self.wheels, "a", "1")
        with HostileServer(self.wheels) as server:
            self.index(server, "--cache", "kept", url=server.url.replace("//", "//me:hidden@"))
        self.assertEqual(stat.S_IMODE((self.top / "kept").stat().st_mode), 0o700)
        for path in [*(self.top / "kept").rglob("*"), *(self.top / "ix").iterdir()]:
            self.assertNotIn(b"hidden", path.read_bytes() if path.is_file() else b"")

    def test_a_full_disk_ends_the_keeping_and_is_told(self) -> None:
        plain_wheel(self.wheels, "a", "1")
        full = OSError(28, "No space left on device")
        with HostileServer(self.wheels) as server, mock.patch("unilock_tools.cache.write_beside", side_effect=full):
            self.assertIn("kept: No space left on device", self.index(server, "--cache", "kept"))
        self.assertEqual(self.versions(), ["1"])


class CutOff(Hostile):
    """An answer that is short is refused, and not kept."""

    def setUp(self) -> None:
        super().setUp()
        for number in "123":
            plain_wheel(self.wheels, "a", number)

    def test_pages(self) -> None:
        for form in ["json", "html"]:
            with HostileServer(self.wheels, form) as server:
                files = sorted(self.wheels.iterdir())
                body = server.json_page("a", files) if form == "json" else server.html_page(files)
                media = pages.JSON_FORM if form == "json" else pages.HTML_FORM
                tag = '"' + hashlib.sha256(body).hexdigest()[:16] + '"'
                cut = body[: body.index(b"a-2-")]
                for lie in [
                    reply(cut, media, length=len(body), ETag=tag),
                    hostile.unmeasured(cut, media, ETag=tag),
                    reply(cut, media, ETag=tag),
                    reply(body[body.index(b"a-2-") :], media, ETag=tag),
                    reply(gzip.compress(body)[:-20], media, ETag=tag, Content_Encoding="gzip"),
                ]:
                    server.lies[PAGE] = lie
                    self.index(server, "--cache", f"kept-{form}", status=5)
                server.lies.clear()
                self.index(server, "--cache", f"kept-{form}")
                self.assertEqual(self.versions(), ["1", "2", "3"])

    def test_a_page_that_is_kept_and_has_no_reading_is_asked_for_anew(self) -> None:
        with HostileServer(self.wheels, "html") as server:
            body = server.html_page(sorted(self.wheels.iterdir()))
            tag = '"' + hashlib.sha256(body).hexdigest()[:16] + '"'
            server.lies[PAGE] = reply(body[body.index(b"a-2-") :], pages.HTML_FORM, ETag=tag)
            # As a version that doesn't look at a page's beginning.
            with mock.patch.object(pages, "HTML_START", re.compile("")):
                self.index(server, "--cache", "kept")
            self.assertEqual(self.versions(), ["3"])
            server.lies.clear()
            self.index(server, "--cache", "kept")
            self.assertEqual(self.versions(), ["1", "2", "3"])

    def test_metadata(self) -> None:
        whole = metadata_text("a", "1", ["b", "c"]).encode()
        with HostileServer(self.wheels, metadata=None) as server:
            self.page(server, lambda page: [it.update({"core-metadata": True}) for it in page["files"]])
            for lie in [reply(whole[:60], length=len(whole)), hostile.unmeasured(whole[:60])]:
                server.lies[f"/files/{WHEEL}.metadata"] = lie
                self.assertRegex(self.index(server, status=5), "cut off|IncompleteRead")

    def test_a_whole_wheel(self) -> None:
        body = (self.wheels / WHEEL).read_bytes()
        with HostileServer(self.wheels, metadata=None, ranges=False) as server:
            server.no_hash = True
            server.lies[f"/files/{WHEEL}"] = hostile.unmeasured(body[:-30])
            self.assertIn("cut off", self.index(server, status=5))


class NoPages(Hostile):
    """What isn't a page of the project makes no package without files, and no empty folder."""

    def test_pages_that_are_none(self) -> None:
        plain_wheel(self.wheels, "a", "1")
        login = b"<html><head><title>Log in</title></head><body><a href='/lost'>lost?</a></body></html>"
        meta = {"meta": {"api-version": "1.0"}, "name": "a", "files": []}
        with HostileServer(self.wheels) as server:
            self.index(server)
            for body, form in [
                (login, "text/html"),
                (b"<html></html>", "text/html"),
                (b"", "text/html"),
                (login.replace(b"</html>", b""), pages.HTML_FORM),
                (b"{}", pages.JSON_FORM),
                (b"null", pages.JSON_FORM),
                (json.dumps({**meta, "name": "b"}).encode(), pages.JSON_FORM),
                (json.dumps({**meta, "meta": {"api-version": "2.0"}}).encode(), pages.JSON_FORM),
                (json.dumps({**meta, "files": {}}).encode(), pages.JSON_FORM),
                (json.dumps({**meta, "files": [1]}).encode(), pages.JSON_FORM),
                (json.dumps(meta).encode(), "application/json"),
                (b"[" * 200_000, pages.JSON_FORM),
                (b'{"meta": %s}' % (b"1" * 5000), pages.JSON_FORM),
                (b"<html><![x</html>", pages.HTML_FORM),
                (b'<html><a href="a-1.tar.gz">1</a><br/ \n<a href="a-2.tar.gz">2</a></html>', pages.HTML_FORM),
                (b'<html><a href="a-1.tar.gz" x="1</a>\n"a href="a-2.tar.gz">2</a></html>', pages.HTML_FORM),
            ]:
                with self.subTest(body[:60]):
                    server.lies[PAGE] = reply(body, form)
                    self.index(server, status=5)
                    self.assertEqual(self.versions(), ["1"])

    def test_a_page_without_files_that_says_so(self) -> None:
        head = "<html><head>{}</head><body></body></html>"
        for body, form in [
            (head.format('<meta name="pypi:repository-version" content="1.1">'), "text/html"),
            (head.format("<title>Links for A</title>"), "text/html"),
            (head.format(""), pages.HTML_FORM),
            (json.dumps({"meta": {"api-version": "1.9"}, "name": "A", "files": []}), pages.JSON_FORM),
        ]:
            with HostileServer(self.wheels) as server:
                server.lies[PAGE] = reply(body.encode(), form)
                self.assertIn("the server has no release of a, of 0 files that it lists", self.index(server))

    def test_a_server_that_knows_nothing(self) -> None:
        with HostileServer(self.wheels) as server:
            self.assertIn("the server has no project a, which p requires, nor any other", self.index(server, status=5))
        self.assertFalse((self.top / "ix").exists())


class WhatIsPassedOver(Hostile):
    """A file that a page lists and that isn't taken is told."""

    def test_files_by_their_names(self) -> None:
        plain_wheel(self.wheels, "a", "1")
        names = ["a-0.9.zip", "a-0.8-py2.7.egg", "a-2004d.tar.gz", "a-2-py3-none-any.WHL", "b-1.tar.gz"]
        with HostileServer(self.wheels) as server:

            def more(page: Dict[str, Any]) -> None:
                page["files"] += [{**page["files"][0], "filename": it} for it in [*names, "a-3-py3-none-any.whl "]]

            self.page(server, more)
            said = self.index(server)
        for name in names:
            self.assertIn(name, said)
        self.assertIn("a: a-2004d.tar.gz: its version has no reading; passed over", said)
        self.assertIn("its name has a byte that no lock can hold", said)
        self.assertEqual(self.versions(), ["1"])

    def test_all_files_of_a_package(self) -> None:
        (self.wheels / "a-1.zip").write_bytes(b"")
        with HostileServer(self.wheels) as server:
            said = self.index(server)
        self.assertIn("the server has no release of a, of 1 file that it lists that can be taken; p requires it", said)

    def test_addresses_and_hashes(self) -> None:
        plain_wheel(self.wheels, "a", "1")
        cases: List[Tuple[Dict[str, Any], str]] = [
            ({"url": "http://[::1/x.whl"}, "its address is none"),
            ({"url": "ftp://host/x.whl"}, "its address is none"),
            ({"url": "http://host:99999999/x.whl"}, "its address is none"),
            ({"url": 5}, "its address is no text"),
            ({"url": ""}, "it has no address"),
            ({"hashes": {"sha256": "zz"}}, "isn't 64 hexadecimal digits"),
            ({"hashes": {"sha256": 7}}, "isn't 64 hexadecimal digits"),
            ({"core-metadata": 7}, "its mark of a metadata file"),
            ({"requires-python": []}, "its bound on Python is no text"),
        ]
        for change, told in cases:
            with self.subTest(told), HostileServer(self.wheels) as server:
                self.page(server, lambda page, change=change: page["files"][0].update(change))
                self.assertIn(told, self.index(server))

    def test_a_file_with_an_older_hash_alone(self) -> None:
        plain_wheel(self.wheels, "a", "1")
        sdist(self.wheels, "a", "1", metadata_text("a", "1"))
        with HostileServer(self.wheels) as server:

            def older(page: Dict[str, Any]) -> None:
                one = next(it for it in page["files"] if it["filename"] == "a-1.tar.gz")
                one["hashes"] = {"md5": "0" * 32}

            self.page(server, older)
            self.assertIn("a: a-1.tar.gz: the server tells no SHA-256 of it", self.index(server))
        self.assertEqual([it["file"] for it in self.releases()[0]["files"]], [WHEEL])

    def test_a_release_speaks_by_a_file_that_is_locked(self) -> None:
        plain_wheel(self.wheels, "a", "1", ["b"])
        sdist(self.wheels, "a", "1", metadata_text("a", "1", ["c"]))
        with HostileServer(self.wheels) as server:

            def without(page: Dict[str, Any]) -> None:
                next(it for it in page["files"] if it["filename"] == WHEEL)["hashes"] = {}

            self.page(server, without)
            self.assertIn(f"a: {WHEEL}: the server tells no SHA-256 of it", self.index(server))
        self.assertEqual(self.releases()[0]["requires_dist"], ["c"])

    def test_two_files_of_one_name(self) -> None:
        plain_wheel(self.wheels, "a", "1")
        cases: List[Tuple[Dict[str, Any], str]] = [
            ({"hashes": {"sha256": "0" * 64}}, f"two files of the name {WHEEL} have different hashes"),
            ({"hashes": {}}, f"two files of the name {WHEEL} have different hashes"),
            ({"yanked": True}, f"two entries of the file {WHEEL} differ"),
            # One that can't be taken may say of the file what the other doesn't, as that it is yanked.
            ({"hashes": {"sha256": -1}, "yanked": True}, f"of two entries of the file {WHEEL} one can't be taken"),
            ({"url": "http://["}, f"of two entries of the file {WHEEL} one can't be taken"),
        ]
        for (change, told), is_first in itertools.product(cases, [False, True]):
            with self.subTest(told, is_first=is_first), HostileServer(self.wheels) as server:

                def twice(page: Dict[str, Any], change: Dict[str, Any] = change, is_first: bool = is_first) -> None:
                    page["files"].insert(0 if is_first else 1, {**page["files"][0], **change})

                self.page(server, twice)
                self.assertIn(told, self.index(server, status=5))

    def test_what_counts_as_yanked(self) -> None:
        plain_wheel(self.wheels, "a", "1")
        told = "it was wrong"
        none = [(it, None) for it in (None, False, "", 0)]
        for value, yanked in [*none, (True, True), (" ", True), (told, told)]:
            with HostileServer(self.wheels) as server:
                self.page(server, lambda page, value=value: page["files"][0].update({"yanked": value}))
                self.index(server)
                self.assertEqual(self.releases()[0].get("yanked"), yanked, value)

    def test_a_release_speaks_by_a_file_that_is_not_yanked(self) -> None:
        plain_wheel(self.wheels, "a", "1", ["b"])
        plain_wheel(self.wheels, "a", "1", ["c"], tags="cp311-cp311-win_amd64")
        with HostileServer(self.wheels) as server:
            server.yanked = [WHEEL]
            said = self.index(server)
            self.assertEqual(self.releases()[0]["requires_dist"], ["c"])
            self.assertEqual([it["file"] for it in self.releases()[0]["files"]], ["a-1-cp311-cp311-win_amd64.whl"])
            self.assertIn(f"a: {WHEEL}: it is yanked, and other files of its release aren't", said)

    def test_anchors_as_pip_counts_them(self) -> None:
        digits = "0" * 64
        body = (
            f'<html><body><a href="a-1-py3-none-any.whl#sha256={digits}">open '
            f'<a href=" a-2.tar.gz#egg=a&sha256={digits}">'
            '<A HREF="../a-3.tar.gz?x=1">x</A><a href="a-4-py3-none-any.whl ">y</a><a href="a-5-py3-none-any.WHL">z</a>'
            '<a name="a-6.tar.gz">w</a><a href="../">up</a><a href="a-7.tar.gz" data-yanked="">v</a></body></html>'
        )
        page = pages.read_page("a", "https://host/simple/a/", "text/html", body.encode())
        self.assertEqual([it.version.text() for it in page.releases], ["7", "3", "2", "1"])
        self.assertEqual([it.yanked for it in page.releases], [True, False, False, False])
        self.assertEqual([it.files[0].sha256 for it in page.releases], [None, None, digits, digits])
        self.assertEqual([it.file for it in page.passed], ["a-4-py3-none-any.whl ", "a-5-py3-none-any.WHL"])

    def test_the_first_base_is_that_of_all_links(self) -> None:
        link = '<a href="a-{}.tar.gz">x</a>'
        bases = '<base target="x"><base href="/one/"><base href="https://other/">'
        body = f"<html><body>{link.format(1)}{bases}{link.format(2)}</body></html>"
        page = pages.read_page("a", "https://host/simple/a/", "text/html", body.encode())
        found = [it.files[0].url for it in page.releases]
        self.assertEqual(found, [f"https://host/one/a-{it}.tar.gz" for it in (2, 1)])

    def test_how_a_page_in_html_begins(self) -> None:
        rest = '<body><a href="a-1.tar.gz">1</a></body></html>'
        for start in [
            "<!DOCTYPE html>", "<!doctype HTML PUBLIC '-//W3C//DTD'>\n", "<html>", "<HTML lang='en'>",
            "\ufeff \n<html\n>", '<?xml version="1.0"?>\n<html>', "<!-- made by hand --> <!-- twice --><html>",
        ]:  # fmt: skip
            page = pages.read_page("a", "https://host/simple/a/", "text/html", f"{start}{rest}".encode())
            self.assertEqual([it.version.text() for it in page.releases], ["1"])
        for start in ["", "</a>", "x <html>", "html>", "<!-- <html>", "<htmlx>", '<a href="a-2.tar.gz">2</a><html>']:
            with self.assertRaises(console.Refused):
                pages.read_page("a", "https://host/simple/a/", "text/html", f"{start}{rest}".encode())

    def test_literals_that_the_program_does_not_read(self) -> None:
        for literal in ["é", "\\x7f", "\\\\"]:
            with self.assertRaises(markers.NoMarker):
                markers.read(f"os_name == '{literal}'".replace("\\x7f", "\x7f"))
        plain_wheel(self.wheels, "a", "1", ["b; platform_version == 'é'"])
        with HostileServer(self.wheels) as server:
            self.assertIn("a 1 can't be used: Requires-Dist: ", self.index(server))
        self.assertIn("a 1 can't be used", self.ran("doctor", status=1).stdout)


class WhichReleases(Hostile):
    def test_final_releases_outside_the_bounds_keep_pre_releases_out(self) -> None:
        self.wanting("a>=2")
        plain_wheel(self.wheels, "a", "0.9")
        plain_wheel(self.wheels, "a", "1", ["bb (>dev)"])
        plain_wheel(self.wheels, "a", "2.1a1")
        with HostileServer(self.wheels) as server:
            self.index(server)
        self.assertEqual(self.versions(), ["0.9", "1"])
        (self.wheels / "a-0.9-py3-none-any.whl").unlink()
        with HostileServer(self.wheels) as server:
            self.index(server)
        self.assertEqual(self.versions(), ["1", "2.1a1"])

    def test_instants(self) -> None:
        plain_wheel(self.wheels, "a", "1")
        for before, uploaded, taken in [
            ("2024-05-01T01:00:00+05:00", "2024-04-30T19:59:59Z", True),
            ("2024-05-01T01:00:00+05:00", "2024-04-30T20:00:00Z", False),
            ("2024-05-01", "2024-05-01T01:00:00+05:00", True),
            ("2024-05-01T00:00:00.5Z", "2024-05-01T00:00:00.49Z", True),
            ("2024-05-01T00:00:00.5Z", "2024-05-01T00:00:00.500Z", False),
        ]:
            with self.subTest(before), HostileServer(self.wheels) as server:
                server.uploaded = {WHEEL: uploaded}
                self.index(server, "--before", before)
                self.assertEqual((self.top / "ix" / "a.json").exists(), taken)
        for wrong in ["0001-01-01T00:00:00+05:00", "2024-02-30", "2024-05-01T25:00:00Z", "2024-05-01T01:00:00+99:99x"]:
            self.ran("index", "pyproject.toml", "ix", "--before", wrong, status=2)


class Secrets(Hostile):
    def test_a_password_goes_to_its_server_alone(self) -> None:
        plain_wheel(self.wheels, "a", "1")
        with HostileServer(self.wheels) as other, HostileServer(self.wheels) as server:
            server.lies[PAGE] = reply(b"", status=302, Location=other.url + "a/")
            said = self.index(server, url=server.url.replace("//", "//me:hidden@"))
            self.assertIn("Authorization", server.heard[0][1])
            self.assertEqual([it for it in other.heard if "Authorization" in it[1]], [])
            server.lies.clear()
            said += self.index(server, "--no-cache", url=server.url.replace("//", "//me:hidden@"))
            self.assertTrue(all("Authorization" in it[1] for it in server.heard))
        self.assertNotIn("hidden", said + (self.top / "ix" / "a.json").read_text())
        self.assertNotIn("me@", (self.top / "ix" / "a.json").read_text())

    def test_a_password_of_the_environment_or_of_netrc_is_written_nowhere(self) -> None:
        plain_wheel(self.wheels, "a", "1")
        secret = self.write("netrc", "machine 127.0.0.1 login me password hidden\n")
        with HostileServer(self.wheels) as server:
            named = {"UNILOCK_INDEX_URL": server.url.replace("//", "//me:hidden@")}
            for more in [named, {"UNILOCK_INDEX_URL": server.url, "NETRC": str(secret)}]:
                server.heard.clear()
                with mock.patch.object(self, "environment", return_value={**self.environment(), **more}):
                    said = self.ran("index", "pyproject.toml", "ix", "--cache", "kept").stderr
                self.assertTrue(server.heard and all("Authorization" in it[1] for it in server.heard))
                self.assertNotIn("hidden", said)
        for path in [*(self.top / "kept").rglob("*"), *(self.top / "ix").iterdir()]:
            self.assertNotIn(b"hidden", path.read_bytes() if path.is_file() else b"")

    def test_no_page_leads_from_https_to_http(self) -> None:
        self.assertEqual(fetching.redirected("http://a/", "https://b/x"), "https://b/x")
        for location in ["http://b/", "file:///etc/passwd", "http://["]:
            with self.assertRaises(console.Refused):
                fetching.redirected("https://a/", location)
        body = json.dumps({"meta": {"api-version": "1.0"}, "name": "a", "files": [
            {"filename": "a-1.tar.gz", "url": "http://b/a-1.tar.gz", "hashes": {}}
        ]})  # fmt: skip
        found = pages.read_page("a", "https://host/simple/a/", pages.JSON_FORM, body.encode())
        self.assertEqual(found.passed, [("a-1.tar.gz", "its address isn't https, and the page's is")])

    def test_what_a_document_tells_adds_nothing_to_a_pylock(self) -> None:
        evil = '1, hashes = { sha256 = "x" } }\n[[packages]]\nname = "evil"\n'
        entry: Dict[str, Any] = {"file": WHEEL, "sha256": "0" * 64, "url": "https://h/x.whl", "size": evil}
        for change in [{"size": evil}, {"size": True}, {"size": -1}, {"url": evil}, {"url": 5}, {"url": "file:///x"}]:
            places = pylock.Places("ix", [], "-")
            release = {"version": "1", "files": [{**entry, **change}]}
            self.write("ix/a.json", json.dumps({"name": "a", "versions": [release]}))
            with self.assertRaises(console.Refused):
                places.place("a", WHEEL, "0" * 64)
        self.assertEqual(pylock.toml_value({"a": 'x"\n\x1b\x7f'}), '{ a = "x\\"\\n\\u001b\\u007F" }')
        with self.assertRaises(console.Refused):
            pylock.toml_value("\ud800")

    def test_escape_bytes_are_printed_escaped(self) -> None:
        plain_wheel(self.wheels, "a", "1", ["b\x1b[2J>1"])
        with HostileServer(self.wheels) as server:

            def named(page: Dict[str, Any]) -> None:
                page["files"].append({**page["files"][0], "filename": "a-2\x1b[2J\nindex: all is well\u202e.zip"})

            self.page(server, named)
            said = self.index(server)
        self.assertNotRegex(said, "[\x1b\u202e]|^index: all is well")
        self.assertIn("a-2\\x1b[2J\\nindex: all is well\\u202e.zip", said)
        self.assertNotIn("\x1b", self.ran("doctor", status=1).stdout)


    def test_no_command_prints_escape_bytes_of_a_lock_or_of_documents(self) -> None:
        mark = "\x1b[2J\u202e"
        package = f'[[package]]\nname = "{{}}"\nversion = "1{mark}"\n'
        lock = f'version = 2\nroot = "p"\n\n{package.format("a" + mark)}\n{package.format("p")}'
        self.write("unilock.lock", f'{lock}dependencies = [\n    {{ name = "a{mark}", version = "1{mark}" }},\n]\n')
        file = {"file": f"a{mark}.whl", "sha256": "0" * 64, "url": f"http://h/{mark}"}
        release = {"version": f"1{mark}", "requires_python": mark, "requires_dist": [f"b{mark}"], "files": [file]}
        self.write("ix/a.json", json.dumps({"name": "a", "versions": [release, {"version": "1"}]}))
        self.write(f"ix/b{mark}.json", json.dumps({"name": mark, "versions": []}))
        for words in [
            ["doctor"], ["explain", "pyproject.toml", "ix"], ["outdated", "unilock.lock", "ix"], ["lock"],
            ["tree", "unilock.lock"], ["tree", "unilock.lock", "--dot"], ["diff", "unilock.lock", "unilock.lock"],
            ["pylock", "unilock.lock", "--index", "ix"], ["requirements", "unilock.lock"],
            ["verify", "pyproject.toml", "ix", "unilock.lock"],
            ["sync", "unilock.lock", "--dry-run"], ["index", f"x{mark}", "ix"], ["tree", f"x{mark}"],
        ]:  # fmt: skip
            with self.subTest(words[0]):
                status, done = self.called(words, "")
                self.assertIn(status, (0, 1, 3), done.stderr)
                self.assertNotRegex(done.stdout + done.stderr, "[\x1b\u202e]")


class WithoutEnd(Hostile):
    """What goes on for ever, or grows without a bound, is given up."""

    def test_a_server_that_goes_on_byte_by_byte(self) -> None:
        for in_headers in [False, True]:
            with HostileServer(self.wheels) as server:
                server.lies[PAGE] = hostile.dripping(server, in_headers=in_headers)
                begun = time.monotonic()
                said = self.index(server, "--deadline", "0.5", "--timeout", "5", status=5)
                self.assertIn("no whole answer in 0.5 seconds", said)
                self.assertLess(time.monotonic() - begun, 15)

    def test_what_is_longer_than_its_bound(self) -> None:
        plain_wheel(self.wheels, "a", "1")
        with HostileServer(self.wheels) as server:
            with mock.patch.object(simple, "MOST_PAGE", 100_000):
                for lie in [hostile.zeros(200_000), reply(b"x" * 100_001), hostile.unmeasured(b"x" * 100_001)]:
                    server.lies[PAGE] = lie
                    self.assertIn("longer than 100000 bytes", self.index(server, status=5))
            server.lies.clear()
            with mock.patch.object(simple, "MOST_METADATA", 100_000):
                server.lies[f"/files/{WHEEL}.metadata"] = hostile.zeros(200_000)
                self.assertIn("longer than 100000 bytes", self.index(server))
        with HostileServer(self.wheels, metadata=None, ranges=False) as server:
            with mock.patch.object(simple, "MOST_FILE", 100):
                self.assertIn("longer than 100 bytes", self.index(server))

    def test_a_page_of_another_compression(self) -> None:
        with HostileServer(self.wheels) as server:
            server.lies[PAGE] = reply(b"x", Content_Encoding="br")
            self.assertIn("which wasn't asked for", self.index(server, status=5))

    def test_a_header_of_a_tar_archive(self) -> None:
        path = self.top / "a-1.tar.gz"
        member = tarfile.TarInfo("././@LongLink")
        member.type, member.size = tarfile.GNUTYPE_LONGNAME, 300 * 1024 * 1024
        with gzip.open(path, "wb", compresslevel=1) as stream:
            stream.write(member.tobuf(tarfile.GNU_FORMAT))
            stream.write(bytes(4 * 1024 * 1024))
        with self.assertRaisesRegex(archives.Refused, "a part of it has more than"):
            archives.file_metadata(path)

    def test_a_wheels_own_numbers(self) -> None:
        good = plain_wheel(self.wheels, "a", "1").read_bytes()
        end = good.rfind(b"PK\x05\x06")
        for at, value in [(12, 2**31), (16, 2**31), (12, 2**32 - 2), (12, 1), (10, 2**31)]:
            body = good[: end + at] + value.to_bytes(4, "little") + good[end + at + 4 :]
            with self.assertRaises(archives.Refused):
                archives.wheel_body(WHEEL, io.BytesIO(body))

    def test_metadata_in_another_compression(self) -> None:
        path = self.wheels / WHEEL
        with zipfile.ZipFile(path, "w", zipfile.ZIP_LZMA) as archive:
            archive.writestr("a-1.dist-info/METADATA", metadata_text("a", "1"))
        with self.assertRaisesRegex(archives.Refused, "compressed in a way that wheels aren't"):
            archives.file_metadata(path)

    def test_more_packages_than_the_program_meets(self) -> None:
        for number in range(6):
            plain_wheel(self.wheels, f"a{number}" if number else "a", "1", [f"a{number + 1}"])
        with HostileServer(self.wheels) as server, mock.patch.object(walk, "MOST_PACKAGES", 4):
            self.assertIn("more than 4 packages are reached", self.index(server, status=4))
        with HostileServer(self.wheels) as server, mock.patch.object(documents, "MOST_RELEASES", 4):
            self.assertIn("there are more than 4 releases", self.index(server, status=4))

    def test_a_long_chain_of_local_packages(self) -> None:
        own = self.top / "own"
        own.mkdir()
        for number in range(1200):
            metadata = metadata_text(f"c{number}", "1", [f"c{number + 1}"])
            wheel(own, f"c{number}-1-py3-none-any.whl", {f"c{number}-1.dist-info/METADATA": metadata})
        self.wanting("c0")
        with HostileServer(self.wheels) as server:
            self.ran("index", "pyproject.toml", own, "ix", "--index-url", server.url)

    def test_a_marker_of_hundreds_of_kilobytes(self) -> None:
        begun = time.process_time()
        for op, word in [("==", "or"), ("!=", "and")]:
            text = f" {word} ".join(f"python_full_version {op} '3.{it}.1'" for it in range(8000))
            read = readings.requirement_of(f"b; os_name == 'x' and python_version < '2' and {text}")
            self.assertTrue(markers.possible(read.marker, ">=3.8", []))
        self.assertLess(time.process_time() - begun, 10)


class Tracebacks(Hostile):
    def test_numbers_of_thousands_of_digits(self) -> None:
        digits = "1" * 5000
        self.assertIsNone(version(digits))
        self.assertEqual(str(version("0" * 5000 + "7.1").text()), "7.1")  # type: ignore[union-attr]
        for text in [f"b>{digits}", f"b; python_version < '{digits}'"]:
            self.assertIsNotNone(readings.requirement_fault(text))
        read = readings.requirement_of(f"b; '{digits}' in python_version or python_full_version > '{2**64 - 1}'")
        markers.possible(read.marker, ">=3.8", [])
        for edition, spelled in [(f"{digits}.2", "1"), ("2.2", digits)]:
            text = f"Metadata-Version: {edition}\nName: a\nVersion: {spelled}\n"
            with self.assertRaises(archives.Refused):
                archives.sdist_metadata("x", "a-1.tar.gz", text.encode())

    def test_addresses_that_are_none(self) -> None:
        long = "http://" + "a" * 300 + "/"
        for url in ["nothing", "http://[", "http://", "ftp://h/", "http://h:x/", long, "http://a b/"]:
            status = 5 if url == long else 2
            said = self.ran("index", "pyproject.toml", "ix", "--index-url", url, "--tries", "1", status=status)
            self.assertEqual(len(said.stderr.splitlines()), 1)

    def test_a_broken_archive_is_named_and_passed_over(self) -> None:
        good = plain_wheel(self.wheels, "a", "1")
        end = good.read_bytes().rfind(b"PK\x05\x06") + 16
        for name, body in [
            # Its directory is told to lie behind the file's end: a place before the file's beginning is asked for.
            ("f-1-py3-none-any.whl", good.read_bytes()[:end] + b"\0\0\0\x40" + good.read_bytes()[end + 4 :]),
            ("b-1-py3-none-any.whl", good.read_bytes()[:-1].replace(b"PK\x01\x02", b"PK\x01\x03")),
            ("c-1-py3-none-any.whl", b"PK\x05\x06" + b"\xff" * 18),
            ("d-1.tar.gz", gzip.compress(b"\xff" * 2000)),
            ("e-1.tar.gz", b"\x1f\x8b"),
        ]:
            (self.wheels / name).write_bytes(body)
            self.assertIn(name, self.ran("index", self.wheels / name, "ix", status=1).stderr)
        said = self.ran("index", "--skip", "wheels", "ix").stderr
        self.assertEqual(said.count("passed over"), 5)

    def test_a_full_disk_is_told_of_the_file_that_it_hit(self) -> None:
        plain_wheel(self.wheels, "a", "1")
        full = OSError(28, "No space left on device")
        with mock.patch.object(Path, "write_text", side_effect=full):
            said = self.ran("index", "wheels", "ix", status=1).stderr
        self.assertIn(".unilock-index: No space left on device", said)
        with mock.patch("os.fsync", side_effect=full), self.assertRaises(OSError) as told:
            console.write_beside(str(self.top / "some.lock"), b"x")
        self.assertEqual(told.exception.filename, str(self.top / "some.lock"))

    def test_documents_and_project_files_that_are_broken(self) -> None:
        start = '[project]\nname = "p"\nrequires-python = ">=3.8"\n'
        for text in [
            "dynamic = 1", "dynamic = [[1]]", "dynamic = [{a = 1}]", "dependencies = 1", "optional-dependencies = 1",
            "optional-dependencies = [1]", "[project.optional-dependencies]\nx = 1", "[dependency-groups]\nx = 1",
            "[dependency-groups]\nx = [1]", "[dependency-groups]\nx = [{a = 1}]", "[tool.uv]\nenvironments = 1",
            "[tool.uv]\nconstraint-dependencies = 1", "[tool.uv]\noverride-dependencies = {}", "[tool]\nuv = 1",
            f'version = "{"1" * 5000}"', f"x = {'[' * 5000}", f"x = {'1' * 5000}",
        ]:  # fmt: skip
            with self.subTest(text[:60]):
                self.write("pyproject.toml", start + text + "\n")
                self.assertIn(self.called(["doctor"], "")[0], (0, 1, 3))
        self.wanting("a")
        for text in [
            "{", "[]", "1", '{"name": "a", "versions": 1}', '{"name": "a", "versions": [1]}', "[" * 100_000,
            '{"name": "a", "versions": [{"version": 1}]}', '{"name": "a", "versions": [{"version": "1", "yanked": 3}]}',
            '{"name": "a", "versions": [{"version": "1", "requires_dist": [1]}]}', '{"name": [], "versions": []}',
            '{"name": "a", "versions": [{"version": "1", "requires_python": 1}]}',
            '{"name": "a", "x": %s}' % ("1" * 5000),
            '{"name": "a", "versions": [{"version": "1", "files": [{"file": 1}]}]}',
            '{"name": "a", "versions": [{"version": "\\ud800"}]}',
        ]:  # fmt: skip
            with self.subTest(text[:60]):
                self.write("ix/a.json", text)
                self.assertEqual(self.called(["doctor"], "")[0], 1)


if __name__ == "__main__":
    unittest.main()
