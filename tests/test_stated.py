"""`tool.uv.dependency-metadata`: what the project file states of a release counts, and not what its files say."""

from __future__ import annotations

import json
import unittest

from making import Folder, metadata_text, plain_wheel, sdist, want_program
from serving import Server
from unilock_tools import locks, vendored
from unilock_tools.console import Refused
from unilock_tools.stated import Stated

HEAD = '[project]\nname = "p"\nversion = "0"\nrequires-python = ">=3.8"\n'
OLD = metadata_text("a", "1", ["wrong"]).replace("Metadata-Version: 2.2", "Metadata-Version: 2.1")


def stated(text: str) -> Stated:
    return Stated(vendored.toml_reader().loads(f"[tool.uv]\ndependency-metadata = {text}\n"))


class Read(unittest.TestCase):
    def test_the_entry_of_a_version_counts_before_that_of_all(self) -> None:
        later = '{ name = "a-b", version = "1.0", requires-dist = ["y"] }'
        found = stated(f'[{{ name = "A.b", requires-dist = ["x"] }}, {later}]')
        for spelled, required in [("1", ("y",)), ("1.0.0", ("y",)), ("2", ("x",))]:
            metadata = found.of("a-b", spelled)
            assert metadata is not None
            self.assertEqual((metadata.version, metadata.requires_dist), (spelled, required))
        self.assertIsNone(found.of("b", "1"))
        bound = stated('[{ name = "a", requires-python = ">=3.9", provides-extra = ["x"] }]').of_file("A-1.tar.gz")
        assert bound is not None
        self.assertEqual((bound.version, bound.requires_python, bound.requires_dist), ("1", ">=3.9", ()))

    def test_wrong_entries(self) -> None:
        for text, said in [
            ("1", "it isn't a list of tables"), ("[1]", "[0]: it isn't a table with a `name`"),
            ("[{ name = 'a b' }]", "[0]: it isn't a table with a `name`"),
            ("[{ name = 'a', requires = [] }]", "[0]: 'requires' is none of name, version, requires-dist"),
            ("[{ name = 'a', version = 'x' }]", "[0]: its `version` is none of PEP 440"),
            ("[{ name = 'a', version = 1 }]", "[0]: its `version` is none of PEP 440"),
            ("[{ name = 'a', requires-python = '3.x' }]", "[0]: its `requires-python` is no bound"),
            ("[{ name = 'a', requires-dist = 'x' }]", "[0]: its `requires-dist` isn't a list of texts"),
            ("[{ name = 'a', requires-dist = ['x=1'] }]", "[0]: requires-dist: `x=1`"),
            ("[{ name = 'a' }, { name = 'A' }]", "[1]: a without a version stands there twice"),
            ("[{ name = 'a', version = '1' }, { name = 'A', version = '1.0' }]", "[1]: a 1.0 stands there twice"),
        ]:
            with self.subTest(text), self.assertRaises(Refused) as found:
                stated(text)
            place = "tool.uv.dependency-metadata" + ("" if said.startswith("[") else ": ")
            self.assertIn(f"{place}{said}", str(found.exception))


class Used(Folder):
    """A release of which only a build tells what it requires, in a folder and on a server."""

    def setUp(self) -> None:
        super().setUp()
        self.wheels = self.top / "wheels"
        self.wheels.mkdir()
        sdist(self.wheels, "a", "1", OLD)
        plain_wheel(self.wheels, "b", "1")
        plain_wheel(self.wheels, "wrong", "1")

    def project(self, *entries: str) -> None:
        listed = "".join(f"[[tool.uv.dependency-metadata]]\n{it}\n" for it in entries)
        self.write("pyproject.toml", f'{HEAD}dependencies = ["a"]\n{listed}')

    def entry(self) -> dict:
        return json.loads((self.top / "ix" / "a.json").read_text())["versions"][0]

    def test_from_files(self) -> None:
        words = ["index", "wheels", "pyproject.toml", "ix", "--index-url", "http://127.0.0.1:9/simple/"]
        self.project()
        self.assertIn("older than 2.2", self.ran(*words, status=1).stderr)
        self.project('name = "a"\nversion = "1"\nrequires-dist = ["b; python_version >= \'3.8\'"]')
        self.ran(*words)
        self.assertEqual(self.entry()["requires_dist"], ["b; python_version >= '3.8'"])
        self.assertEqual([it["file"] for it in self.entry()["files"]], ["a-1.tar.gz"])

    def test_from_a_server_whose_files_are_not_asked_for(self) -> None:
        self.project('name = "a"\nrequires-dist = ["b"]\nrequires-python = ">=3.7"')
        with Server(self.wheels) as server:
            self.ran("index", "pyproject.toml", "ix", "--index-url", server.url)
            self.assertEqual([path for path, _ in server.asked if "/a-1" in path], [])
            self.assertNotIn("/simple/wrong/", [path for path, _ in server.asked])
        self.assertEqual((self.entry()["requires_dist"], self.entry()["requires_python"]), (["b"], ">=3.7"))

    def test_it_is_locked_by(self) -> None:
        want_program(self)
        with Server(self.wheels) as server:
            self.project('name = "a"\nrequires-dist = ["b"]')
            self.ran("lock", "--index-url", server.url)
            self.assertEqual(set(locks.load(str(self.top / "unilock.lock")).by_name()), {"a", "b", "p"})
            self.project('name = "a"\nrequires-dist = ["wrong"]')
            said = self.ran("lock", "--index-url", server.url).stdout
            self.assertIn("removed b 1\nadded wrong 1\n", said)
            self.project('name = "a"\nrequires-dist = ["b @ https://example.org/b.whl"]')
            self.assertIn("requires-dist: `b @ https", self.ran("lock", "--index-url", server.url, status=3).stderr)


if __name__ == "__main__":
    unittest.main()
