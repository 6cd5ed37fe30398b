"""Sources as a user names them, on real files and repositories: folders, wheels, source distributions, addresses and
commits, with theirs; what becomes of them in the index folder and in the lock; and what is refused."""

from __future__ import annotations

import importlib.util
import io
import json
import os
import tarfile
import unittest
from pathlib import Path
from typing import Any

from making import Folder, metadata_text, plain_wheel, sdist, sha256, skip, want_program
from repository import Guarded, Repository, project_text, want_git
from serving import Server
from sources import BUILD_SYSTEM, source_files
from unilock_tools.console import Refused
from unilock_tools.direct_files import Inside
from unilock_tools.requirement_texts import parts_of
from unilock_tools.source_trees import Tree
from unilock_tools.sources import ByGit
from unilock_tools.vendored import toml_reader

HEAD = '[project]\nname = "demo"\nversion = "1"\nrequires-python = ">=3.9"\n'


def listed(*texts: str) -> str:
    return f"dependencies = [{', '.join(json.dumps(it) for it in texts)}]\n"


class Texts(Folder):
    def test_requirements_taken_apart(self) -> None:
        for text, name, plain, of_x in [
            ("A_b", "a-b", "A_b", "A_b; extra == 'x'"),
            ("a[y]>=1,<2 ; os_name == 'nt'", "a", "a[y]>=1,<2; os_name == 'nt'",
             "a[y]>=1,<2; (os_name == 'nt') and extra == 'x'"),
            ("a [y] @ https://example.org/a.whl ; os_name == 'nt' or extra == 'z'", "a",
             "a[y]; os_name == 'nt' or extra == 'z'", "a[y]; (os_name == 'nt' or extra == 'z') and extra == 'x'"),
            ("a@file:///x;y", "a", "a", "a; extra == 'x'"),
            ("=1", "", "=1", "=1; extra == 'x'"),
        ]:  # fmt: skip
            found = parts_of(text)
            self.assertEqual((found.name, found.text(), found.of_extra("x")), (name, plain, of_x))
            self.assertEqual(found.of_extra(None), plain)


class Sources(Folder):
    """A project beside an index folder that has `c` 1 and 2."""

    def setUp(self) -> None:
        super().setUp()
        wheels = self.top / "wheels"
        wheels.mkdir()
        for number in ("1", "2"):
            plain_wheel(wheels, "c", number)
        self.ran("index", "wheels", "ix")

    def project(self, sources: str, *texts: str) -> None:
        self.write("pyproject.toml", f"{HEAD}{listed(*texts)}[tool.uv.sources]\n{sources}\n")

    def index(self, *words: str, status: int = 0) -> str:
        """Makes the index folder by the project, beside a server that nobody answers for."""
        line = ["index", "pyproject.toml", "wheels", "ix", "--index-url", "http://127.0.0.1:9/", "--tries", "1", *words]
        return self.ran(*line, status=status).stderr

    def entry(self, name: str) -> Any:
        found = json.loads((self.top / "ix" / f"{name}.json").read_text())["versions"]
        self.assertEqual(len(found), 1)
        self.assertEqual(found[0].pop("source"), "direct")
        return found[0]

    def lib(self, more: str = "", folder: str = "lib", name: str = "lib") -> None:
        self.write(f"{folder}/pyproject.toml", project_text(name, "1.0", ("c>=1",), more))


class Folders(Sources):
    def test_a_folder_speaks_by_its_project_file(self) -> None:
        more = 'requires-python = ">=3.8"\n[project.optional-dependencies]\nx = ["c<2; os_name == \'nt\'"]\n'
        self.lib(more + '[dependency-groups]\ntest = ["absent"]\n')
        self.project('lib = { path = "lib" }', "lib[x]")
        self.index()
        required = ["c>=1", "c<2; (os_name == 'nt') and extra == 'x'"]
        self.assertEqual(self.entry("lib"), {"version": "1.0", "requires_python": ">=3.8", "requires_dist": required})

    def test_sources_of_a_folder_are_followed_from_there(self) -> None:
        self.lib('[tool.uv.sources]\nc = { path = "../other" }\n')
        self.write("other/pyproject.toml", project_text("c", "7"))
        self.project('lib = { path = "lib", editable = true }', "lib")
        self.index()
        self.assertEqual(self.entry("c"), {"version": "7"})

    def test_a_folder_is_built_where_its_file_is_not_certain(self) -> None:
        if importlib.util.find_spec("build") is None:
            skip(self, "the library build isn't installed")
        head = '[project]\nname = "lib"\nversion = "1"\ndynamic = ["dependencies"]\n'
        self.write("other/pyproject.toml", project_text("o", "3"))
        required = ["c", f"o @ {self.top.as_uri()}/other"]
        for name, text in {**source_files("lib", "1", required), "pyproject.toml": head + BUILD_SYSTEM}.items():
            self.write(f"lib/{name}", text)
        self.project('lib = { path = "lib" }', "lib")
        self.assertIn("lib 1: its requirements are those of a build on this machine", self.index())
        self.assertEqual(self.entry("lib"), {"version": "1", "requires_dist": ["c", "o"]})
        self.assertEqual(self.entry("o"), {"version": "3"})
        said = self.index("--no-build", status=1)
        self.assertIn("lib: what it requires isn't certain by its pyproject.toml, and nothing is built", said)

    def test_what_a_source_may_not_be(self) -> None:
        self.lib(name="another")
        self.write("file.txt", "")
        self.write("bad/pyproject.toml", project_text("lib", "not a version"))
        self.write("unread/pyproject.toml", project_text("lib", "1", ("c===1",)))
        for source, said in [
            ('{ path = "absent" }', "pyproject.toml: path absent: there is no such file or folder"),
            ('{ path = "lib" }', "lib: it is the project another, not lib"),
            ('{ path = "file.txt" }', "it is neither a wheel (.whl) nor a source distribution (.tar.gz)"),
            ('{ path = "bad" }', "bad/pyproject.toml: project.version: not a version is no version"),
            ('{ path = "unread" }', "unread/pyproject.toml: project.dependencies[0]: "),
            ('{ path = "ix" , url = "x" }', "it has path and url of path, url, git, workspace, index, and one is"),
            ("{ }", "it has none of path, url, git, workspace, index, and one is wanted"),
            ("1", "it is neither a table nor a list of tables"),
            ("[]", "it is neither a table nor a list of tables"),
            ('{ path = 1 }', "path: it is no text"),
            ('{ workspace = true }', "pyproject.toml: lib isn't a member of the workspace"),
            ('[{ path = "a" }, { path = "b" }]', "lib: path a and path b: nothing tells their releases apart"),
            ('{ path = "lib", marker = "os_name = \'nt\'" }', "its `marker`: the marker isn't read from `= 'nt'` on"),
            ('{ path = "lib", extra = "x" }', "a source with extra: it would count for extras alone that exclude"),
            ('{ url = "ftp://example.org/lib-1.whl" }', "ftp://example.org/lib-1.whl is no address of http or https"),
            ('{ git = "--upload-pack=x" }', "--upload-pack=x is no address of https, http, ssh, git or file"),
            ('{ git = "ext::sh -c x" }', "ext::sh -c x is no address of https, http, ssh, git or file"),
            ('{ git = "file:///x", tag = "a", rev = "b" }', "it has rev and tag, and one of them is wanted"),
            ('{ git = "file:///x", branch = "-x" }', "branch: -x is no name that git has"),
            ('{ git = "file:///x", subdirectory = "../y" }', "subdirectory: ../y leads out"),
        ]:  # fmt: skip
            self.project(f"lib = {source}", "lib")
            before = (self.top / "ix" / "c.json").read_bytes()
            self.assertIn(said, self.index(status=1 if "another" in said else 3), source)
            self.assertEqual((self.top / "ix" / "c.json").read_bytes(), before)

    def test_two_places_of_one_name(self) -> None:
        self.lib('[tool.uv.sources]\nc = { path = "../one" }\n')
        for folder in ("one", "two"):
            self.write(f"{folder}/pyproject.toml", project_text("c", "7"))
        self.project('lib = { path = "lib" }\nc = { path = "two" }', "lib", "c")
        said = self.index(status=3)
        self.assertIn("c comes from two places: path two (by pyproject.toml), and path ../one (by lib)", said)
        self.project('lib = { path = "lib" }\nc = { path = "one" }', "lib", "c")
        self.index()
        self.assertEqual(self.entry("c"), {"version": "7"})

    def test_names_that_nothing_requires_and_the_own_one(self) -> None:
        self.project('lib = { path = "absent" }\ndemo = { path = "absent" }', "c", "demo")
        self.index()
        self.assertFalse((self.top / "ix" / "lib.json").exists())

    def test_what_is_neither_a_folder_nor_a_file(self) -> None:
        os.mkfifo(self.top / "lib-1-py3-none-any.whl")
        self.project('lib = { path = "lib-1-py3-none-any.whl" }', "lib")
        self.assertIn("it is neither a folder nor a file", self.index(status=3))

    def test_a_cycle_of_folders_ends(self) -> None:
        self.lib('[tool.uv.sources]\nc = { path = "../c" }\n')
        back = '[tool.uv.sources]\nlib = { path = "../lib" }\n'
        self.write("c/pyproject.toml", project_text("c", "7", ("lib",), back))
        self.project('lib = { path = "lib" }', "lib")
        self.index()
        self.assertEqual(self.entry("c"), {"version": "7", "requires_dist": ["lib"]})


class Files(Sources):
    def test_wheels_and_source_distributions(self) -> None:
        wheel = plain_wheel(self.top, "lib", "3", ["c", "u @ https://example.org/u-1.zip"])
        source = sdist(self.top, "own", "4", metadata_text("own", "4", ["c"]))
        self.project(f'lib = {{ path = "{wheel.name}" }}\nown = {{ path = "{source.name}" }}', "lib", "own")
        self.assertIn("https://example.org/u-1.zip: it is neither a wheel", self.index(status=3))
        wheel = plain_wheel(self.top, "lib", "3", ["c"])
        self.index()
        file = {"file": wheel.name, "sha256": sha256(wheel), "size": wheel.stat().st_size}
        self.assertEqual(self.entry("lib"), {"version": "3", "requires_dist": ["c"], "files": [file]})
        self.assertEqual(self.entry("own")["files"][0]["sha256"], sha256(source))

    def test_a_file_leads_to_no_place_on_this_machine(self) -> None:
        for url in ("file:///etc/x.whl", "git+file:///home/x"):
            wheel = plain_wheel(self.top, "lib", "3", [f"c @ {url}"])
            self.project(f'lib = {{ path = "{wheel.name}" }}', "lib")
            self.assertIn("lib 3: c @ ", self.index(status=3))
            self.assertIn(": a place on another machine", self.index(status=3))

    def test_a_file_given_beside_is_passed_over(self) -> None:
        plain_wheel(self.top / "wheels", "lib", "9")
        self.lib()
        self.project('lib = { path = "lib" }', "lib")
        self.assertIn("lib: its files are passed over, since it comes from path lib (by pyproject.toml)", self.index())
        self.assertEqual(self.entry("lib")["version"], "1.0")

    def archive(self, name: str, files: dict[str, str]) -> Path:
        path = self.top / "served" / name
        path.parent.mkdir(exist_ok=True)
        with tarfile.open(path, "w:gz") as made:
            for file, text in files.items():
                member = tarfile.TarInfo(file)
                member.size = len(text.encode())
                made.addfile(member, io.BytesIO(text.encode()))
        return path

    def test_addresses(self) -> None:
        """A wheel, and an archive that says what it is by its project file alone, in a folder of it."""
        served = self.top / "served"
        served.mkdir()
        wheel = plain_wheel(served, "lib", "3", ["c"])
        archive = self.archive("v4.tar.gz", {"own-4/inside/pyproject.toml": project_text("own", "4", ("c",))})
        with Server(served) as server:
            at = server.url.replace("/simple/", "/files/").replace("//", "//someone:secret-word@")
            self.project(
                f'lib = {{ url = "{at}{wheel.name}#sha256={sha256(wheel)}" }}\n'
                f'own = {{ url = "{at}{archive.name}", subdirectory = "inside" }}', "lib", "own",
            )  # fmt: skip
            self.index()
            before = len(server.asked)
            self.index()
            self.assertEqual([it for it, _ in server.asked[before:]], [f"/files/{archive.name}"])
            self.project(f'lib = {{ url = "{at}{wheel.name}#sha256={"0" * 64}" }}', "lib")
            said = self.index(status=5)
        url = server.url.replace("/simple/", f"/files/{wheel.name}")
        told = f"index: {url}: its SHA-256 is {sha256(wheel)}, and not {'0' * 64} as its source says"
        self.assertEqual(said.splitlines()[0], told)
        file = {"file": wheel.name, "sha256": sha256(wheel), "url": url, "size": wheel.stat().st_size}
        self.assertEqual(self.entry("lib")["files"], [file])
        self.assertEqual(self.entry("own")["requires_dist"], ["c"])
        for path in [*(self.top / "ix").iterdir(), *(self.top / "cache").rglob("*")]:
            self.assertFalse(path.is_file() and b"secret-word" in path.read_bytes(), path)

    def test_an_address_that_is_not_there(self) -> None:
        (self.top / "served").mkdir()
        with Server(self.top / "served") as server:
            at = server.url.replace("/simple/", "/files/")
            self.project(f'lib = {{ url = "{at}lib-1-py3-none-any.whl" }}', "lib")
            self.assertIn("/files/lib-1-py3-none-any.whl: 404 ", self.index(status=5))

    def test_an_archive_that_leads_out(self) -> None:
        files = {"own-4/pyproject.toml": project_text("own", "4"), "own-4/../../x": ""}
        archive = self.archive("own-4.tar.gz", files)
        self.project(f'own = {{ path = "served/{archive.name}" }}', "own")
        self.assertIn("a member leads out of the archive", self.index(status=1))


class Commits(Sources):
    def setUp(self) -> None:
        super().setUp()
        want_git(self)
        self.remote = Repository(self.top / "remote")
        inner = '[tool.uv.sources]\nsib = { path = "sub/sib" }\n'
        self.remote.write("pyproject.toml", project_text("g", "1", ("c", "sib"), inner))
        self.remote.write("sub/sib/pyproject.toml", project_text("sib", "2", ("c<2",)))
        self.first = self.remote.commit()
        self.remote.git("tag", "v1")

    def next(self, version: str) -> str:
        self.remote.write("pyproject.toml", project_text("g", version, ("c",)))
        return self.remote.commit()

    def test_a_commit_stands_in_the_document(self) -> None:
        self.project(f'g = {{ git = "{self.remote.url}", tag = "v1" }}', "g")
        self.index()
        found = self.entry("g")
        self.assertEqual(found["asked"], "refs/tags/v1")
        self.assertEqual(found["by_url"], [f"sib @ git+{self.remote.url}@{self.first}#subdirectory=sub/sib"])
        self.assertEqual(found["files"][0]["file"], f"g-{self.first}.git")
        self.assertEqual(found["files"][0]["url"], f"git+{self.remote.url}@{self.first}")
        inner = self.entry("sib")
        self.assertEqual(inner["files"][0]["sha256"], found["files"][0]["sha256"])
        self.assertEqual(inner["requires_dist"], ["c<2"])

    def test_a_requirement_by_a_url(self) -> None:
        url = f"git+{self.remote.url}@v1#subdirectory=sub/sib"
        self.write("pyproject.toml", HEAD + listed(f"sib @ {url} ; os_name == 'nt'", "c"))
        self.index()
        self.assertEqual(self.entry("sib")["files"][0]["file"], f"sib-{self.first}.git")
        shown = self.ran("lock", "--show-project").stdout
        self.assertIn("    \"sib; os_name == 'nt'\",\n", shown)
        self.assertNotIn("git+", shown)

    def test_what_is_not_there(self) -> None:
        for source, said in [
            ('tag = "v2"', "the repository has no tag v2"),
            (f'rev = "{"1" * 40}"', f"the repository has no rev {'1' * 40}"),
            ('branch = "main", subdirectory = "absent"', "it has no folder absent"),
            ('branch = "main", subdirectory = "sub"', "it has no pyproject.toml, and nothing is built; `--build g`"),
            ('branch = "main", subdirectory = "sub/sib"', "it is the project sib, not g"),
        ]:
            self.project(f'g = {{ git = "{self.remote.url}", {source} }}', "g")
            done = self.index(status=1 if "build" in said or "not g" in said else 3)
            self.assertIn(said, done)

    def test_a_repository_elsewhere_leads_to_none_of_this_machine(self) -> None:
        inner = '[tool.uv.sources]\nc = { git = "file:///home/x" }\n'
        tree = Tree(self.top, "g")
        tables = toml_reader().loads(project_text("g", "1", ("c",), inner))
        for url, allowed in [("https://example.org/g", False), ("file:///elsewhere", True)]:
            inside = Inside(ByGit(url), self.first, self.top)
            if allowed:
                self.assertEqual(list(inside.sources(tables, tree)), [("c", ByGit("file:///home/x"))])
            else:
                with self.assertRaisesRegex(Refused, "c is a repository of another machine: git file:///home/x"):
                    list(inside.sources(tables, tree))

    def test_paths_and_links_that_lead_out(self) -> None:
        self.lib()
        out = '[tool.uv.sources]\nlib = { path = "../lib" }\n'
        self.remote.write("pyproject.toml", project_text("g", "1", ("lib",), out))
        self.remote.commit()
        self.project(f'g = {{ git = "{self.remote.url}" }}', "g")
        self.assertIn("a path leads out of the repository: lib", self.index(status=3))
        (self.remote.folder / "pyproject.toml").unlink()
        os.symlink(self.top / "lib" / "pyproject.toml", self.remote.folder / "pyproject.toml")
        self.remote.commit()
        self.assertIn("its pyproject.toml is a link that leads out of it", self.index(status=1))
        os.symlink(self.top / "lib", self.remote.folder / "linked")
        self.remote.commit()
        self.project(f'g = {{ git = "{self.remote.url}", subdirectory = "linked" }}', "g")
        self.assertIn("its folder linked is a link that leads out of it", self.index(status=1))


    def test_a_password_of_a_repository_stands_nowhere(self) -> None:
        """A server that asks for it gives the repository, and no document, cache or message has it."""
        self.remote.git("clone", "--quiet", "--bare", str(self.remote.folder), str(self.top / "served" / "g.git"))
        Repository.git(self.remote, "-C", str(self.top / "served" / "g.git"), "update-server-info")
        with Guarded(self.top / "served", "someone", "secret-word") as server:
            self.project(f'g = {{ git = "http://someone:secret-word@{server.place}/g.git", tag = "v1" }}', "g")
            said = self.index()
            self.project(f'g = {{ git = "http://someone:wrong-word@{server.place}/g.git", tag = "v1" }}', "g")
            for path in sorted((self.top / "cache" / "unilock" / "git").rglob("*"), reverse=True):
                path.unlink() if path.is_file() else path.rmdir()
            said += self.index(status=5)
        self.assertEqual(self.entry("g")["files"][0]["url"], f"git+http://{server.place}/g.git@{self.first}")
        self.assertEqual(len(self.entry("sib")["files"]), 1)
        self.assertNotRegex(said, "secret-word|wrong-word")
        for path in [*(self.top / "ix").iterdir(), *(self.top / "cache").rglob("*")]:
            self.assertFalse(path.is_file() and b"secret-word" in path.read_bytes(), path)


class Locked(Commits):
    """With the program: what comes from a source is in the lock, by its commit or its hash."""

    def setUp(self) -> None:
        super().setUp()
        want_program(self)

    def text(self) -> str:
        return (self.top / "unilock.lock").read_text(encoding="utf-8")

    def test_a_lock_keeps_its_commit_until_it_is_upgraded(self) -> None:
        self.project(f'g = {{ git = "{self.remote.url}", branch = "main" }}', "g")
        self.ran("lock")
        self.assertIn(f'{{ file = "g-{self.first}.git", hash = "sha256:', self.text())
        self.assertIn('name = "c"\nversion = "1"\n', self.text())
        self.ran("verify")
        second = self.next("2")
        before = self.text()
        self.ran("lock")
        self.assertEqual(self.text(), before)
        said = self.ran("lock", "--upgrade-package", "g").stdout.splitlines()
        self.assertEqual(said[:2], ["g 1 -> 2", "removed sib 2"])
        self.assertIn(f"g-{second}.git", self.text())
        self.assertNotIn(self.first, self.text())

    def test_an_index_folder_counts_while_it_is_of_the_same_source(self) -> None:
        """What it has is taken without the repository; another tag is asked for; and a lock's commit stays."""
        self.next("2")
        self.remote.git("tag", "v2")
        self.project(f'g = {{ git = "{self.remote.url}", tag = "v1" }}', "g")
        self.index()
        away = self.top / "away"
        os.rename(self.remote.folder, away)
        self.ran("lock", "--no-build")
        self.assertIn(f"g-{self.first}.git", self.text())
        self.project(f'g = {{ git = "{self.remote.url}", tag = "v2" }}', "g")
        self.assertIn(f"{self.remote.url}: fatal: ", self.ran("lock", status=5).stderr)
        os.rename(away, self.remote.folder)
        self.assertEqual(self.ran("lock").stdout.splitlines()[0].partition("  ")[0], "g 1 -> 2")

    def test_a_folder_that_changed_counts_as_it_is(self) -> None:
        self.lib()
        self.project('lib = { path = "lib" }', "lib")
        self.index()
        self.ran("lock")
        self.write("lib/pyproject.toml", project_text("lib", "1.1", ("c<2",)))
        self.assertIn("lib 1.0 -> 1.1", self.ran("lock", "--check", status=1).stdout)
        said = self.ran("lock").stdout.splitlines()
        self.assertEqual([it.partition("  ")[0] for it in said[:2]], ["c 2 -> 1", "lib 1.0 -> 1.1"])
        self.assertEqual(self.ran("verify").stdout.splitlines()[0][:8], "verified")
        self.write("lib/pyproject.toml", project_text("lib", "1.1", ("c>1",)))
        self.assertIn("rejected: lib 1.1", self.ran("verify", status=9).stdout)
        self.assertIn("Nothing is refused", self.ran("explain").stdout)

    def test_a_refusal_names_the_files_of_the_user(self) -> None:
        self.lib()
        self.project('lib = { path = "lib" }', "lib", "c>5")
        said = self.ran("lock", status=1).stderr
        self.assertNotIn("unilock-project-", said)
        self.assertNotIn("unilock-index-", said)
        self.assertIn("project.dependencies[1]: `c>5`", said)

    def test_by_a_package_index(self) -> None:
        """Without an index folder: the server is asked for `c`, and for nothing that has a source."""
        self.project(f'g = {{ git = "{self.remote.url}", tag = "v1" }}\nlib = {{ path = "lib" }}', "g", "lib")
        self.lib()
        for path in (self.top / "ix").iterdir():
            path.unlink()
        (self.top / "ix").rmdir()
        with Server(self.top / "wheels") as server:
            self.ran("lock", "--index-url", server.url)
            asked = {path.split("/")[2] for path, _ in server.asked if path.startswith("/simple/")}
            self.assertEqual(asked, {"c"})
            before = len(server.asked)
            self.assertIn("is current", self.ran("lock", "--index-url", server.url).stdout)
            self.assertEqual(len(server.asked), before)
        self.assertIn(f"g-{self.first}.git", self.text())


if __name__ == "__main__":
    unittest.main()
