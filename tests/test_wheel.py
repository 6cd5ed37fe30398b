"""The wheel and the Debian package of a built program: what they have, that they are refused where there is nothing
proved, and that what pip installs of the wheel answers as the program does."""

from __future__ import annotations

import functools
import gzip
import json
import os
import shutil
import subprocess
import sys
import unittest
import zipfile
from pathlib import Path

from making import PROGRAM, TOP, Folder, skip, want_program
from unilock_build import deb, origin, wheel

WHEN = (2026, 1, 2, 3, 4, 6)
EXAMPLE = TOP / "examples" / "web_app"
LAUNCHER = TOP / "python" / "unilock_build" / "launcher.sh"
# A program that tells what was set for it.
STAND_IN = """#!/bin/sh
echo "$GLIBC_TUNABLES"
ulimit -S -s
grep SigIgn /proc/self/status
echo "$@"
"""


@functools.lru_cache(maxsize=None)
def packed() -> tuple[origin.Origin, list[wheel.Entry]]:
    """Where the program of this clone comes from, and what its wheel has."""
    made = origin.origin_of(TOP)
    return made, wheel.entries(TOP, made, PROGRAM, "2 passed, 0 failed")


class Sources(Folder):
    """What a program comes from."""

    def clone(self) -> Path:
        for name, text in [
            ("crates.txt", "a:\n"),
            ("HANDLES", "Handles allowed: none.\n"),
            ("crates/a/src/lib.rt", "pub fn one() {}\n    pub(crate) fn two() {}\n// fn three\n"),
            ("crates/a/proofs/one/Answers.antt", "proof\n"),
            ("crates/a/out/kept", "not a source\n"),
            ("python/unilock_tools/VERSION", "1.2.3\n"),
        ]:
            self.write(name, text)
        return self.top

    def test_the_sum_is_that_of_the_lines_that_sha256sum_prints(self) -> None:
        top = self.clone()
        files = "find crates.txt HANDLES crates/*/src crates/*/proofs -type f"
        line = f"{files} | LC_ALL=C sort | xargs sha256sum | sha256sum"
        said = subprocess.run(["bash", "-c", line], cwd=top, capture_output=True, text=True, check=True).stdout
        self.assertEqual(said.split()[0], origin.sources_digest(top))
        self.assertEqual(origin.function_count(top), 2)

    def test_a_changed_proof_has_another_sum(self) -> None:
        top = self.clone()
        before = origin.sources_digest(top)
        self.write("crates/a/proofs/one/Answers.antt", "other\n")
        self.assertNotEqual(origin.sources_digest(top), before)

    def test_nothing_is_packed_without_a_current_program(self) -> None:
        top = self.clone()
        with self.assertRaisesRegex(origin.NotPacked, "isn't proved and built yet"):
            wheel.pack(self.top / "wheels", "", top)
        program = self.write("out/unilock", "no program\n")
        os.utime(program, (1, 1))
        with self.assertRaisesRegex(origin.NotPacked, "older than"):
            wheel.pack(self.top / "wheels", "", top)
        os.utime(program)
        with self.assertRaisesRegex(origin.NotPacked, "is no program"):
            wheel.pack(self.top / "wheels", "", top)
        self.assertFalse((self.top / "wheels").exists())

    def test_the_newest_glibc_counts(self) -> None:
        program = self.top / "program"
        program.write_bytes(b"\x7fELF..GLIBC_2.2.5\0GLIBC_2.34\0GLIBC_2.9\0")
        self.assertEqual(origin.glibc_of(program), (2, 34))
        program.write_bytes(b"\x7fELF")
        with self.assertRaises(origin.NotPacked):
            origin.glibc_of(program)


class Wheels(Folder):
    """A wheel of the program that is built."""

    def setUp(self) -> None:
        super().setUp()
        want_program(self)
        if PROGRAM.read_bytes()[:4] != b"\x7fELF":
            skip(self, "the program under test is a script")
        self.origin, self.entries = packed()
        self.wheel = self.top / f"unilock-{self.origin.version}-{wheel.tag_of(PROGRAM)}.whl"
        self.wheel.write_bytes(wheel.wheel_bytes(self.entries, WHEN))

    def test_one_commit_has_one_wheel(self) -> None:
        self.assertEqual(wheel.wheel_bytes(self.entries, WHEN), self.wheel.read_bytes())

    def test_what_it_says_of_itself(self) -> None:
        with zipfile.ZipFile(self.wheel) as archive:
            proof = json.loads(archive.read("unilock/PROOF.json"))
            self.assertEqual(wheel.faults_of_record(archive), [])
        self.assertEqual(proof["program"], origin.digest_of(PROGRAM.read_bytes()))
        self.assertEqual((proof["gate"], proof["sources"]), ("2 passed, 0 failed", self.origin.sources))
        self.assertEqual(
            set(proof), {"version", "commit", "toolchain", "sources", "functions", "gate", "program"}
        )

    def test_a_changed_file_is_found(self) -> None:
        path = "unilock_tools/lock.py"
        more = {path: b"#"}
        changed = [wheel.Entry(it.path, it.body + more.get(it.path, b""), it.is_program) for it in self.entries]
        self.wheel.write_bytes(wheel.wheel_bytes(changed, WHEN))
        self.assertEqual(wheel.faults_of(self.wheel), [f"{path} isn't what its RECORD says"])

    def test_other_sources_are_found(self) -> None:
        other = origin.Origin(**{**vars(self.origin), "sources": "0" * 64})
        self.wheel.write_bytes(wheel.wheel_bytes(wheel.entries(TOP, other, PROGRAM, ""), WHEN))
        self.assertIn("it was proved of other sources", wheel.faults_of(self.wheel)[0])

    def test_it_is_installed_and_answers_as_the_program_does(self) -> None:
        """Without a network, and with neither the toolchain nor the clone on the path."""
        room = self.top / "venv"
        made = subprocess.run([sys.executable, "-m", "venv", str(room)], capture_output=True, check=False)
        pip = [str(room / "bin" / "python"), "-m", "pip", "--disable-pip-version-check"]
        if made.returncode or not (room / "bin" / "pip").exists():
            skip(self, "venv has no pip")
        before = {str(it.relative_to(room)) for it in room.rglob("*") if "__pycache__" not in it.parts}
        words = [*pip, "install", "-q", "--no-index", "--no-deps", str(self.wheel)]
        subprocess.run(words, check=True, capture_output=True, env=self.environment())
        self.bare = {"PATH": f"{room}/bin:/usr/bin:/bin", "HOME": str(self.top), "PYTHONDONTWRITEBYTECODE": "1"}
        self.answers_as_the_program_does()
        self.all_tools_work()
        subprocess.run([*pip, "uninstall", "-q", "-y", "unilock"], check=True, capture_output=True)
        after = {str(it.relative_to(room)) for it in room.rglob("*") if "__pycache__" not in it.parts}
        self.assertEqual(after - before, set())

    def answers_as_the_program_does(self) -> None:
        for command in [
            ["unilock", "lock", "pyproject.toml", "ix", "4"],
            ["unilock", "env", "unilock.lock", "linux.json", "dev"],
            ["unilock"],
        ]:
            said = [
                subprocess.run(it, cwd=EXAMPLE, env=self.bare, capture_output=True, check=False)
                for it in (command, [str(PROGRAM), *command[1:]])
            ]
            self.assertEqual([it.returncode for it in said], [said[0].returncode] * 2)
            self.assertEqual(said[0].stdout, said[1].stdout)
        words = ["unilock", "--version"]
        told = subprocess.run(words, env=self.bare, capture_output=True, text=True, check=True).stdout
        self.assertEqual(told.splitlines(), self.origin.lines())

    def installed(self, *words: str, status: int = 0) -> str:
        line = ["unilock-tools", *words]
        done = subprocess.run(line, cwd=self.top, env=self.bare, capture_output=True, text=True, check=False)
        self.assertEqual(done.returncode, status, f"{words}: {done.stdout}{done.stderr}")
        self.assertNotIn("Traceback", done.stderr)
        return done.stdout

    def all_tools_work(self) -> None:
        """Each has its help; those that ask no server and change no environment do what they do in a clone."""
        for name in deb.tool_commands(TOP):
            self.assertIn("usage:", self.installed(name, "--help"), name)
        shutil.copytree(EXAMPLE / "ix", self.top / "ix")
        self.write("pyproject.toml", (EXAMPLE / "pyproject.toml").read_text(encoding="utf-8"))
        self.installed("lock", "pyproject.toml", "ix")
        self.assertEqual((self.top / "unilock.lock").read_bytes(), (EXAMPLE / "unilock.lock").read_bytes())
        self.installed("lock", "--check", "pyproject.toml", "ix")
        self.installed("verify", "pyproject.toml", "ix", "unilock.lock")
        self.installed("doctor", "pyproject.toml", "ix")
        self.assertIn("fastapi 0.110.0", self.installed("tree", "unilock.lock"))
        self.assertEqual(self.installed("diff", "unilock.lock", "unilock.lock"), "")
        self.assertIn("web-app", self.installed("show", "unilock.lock", "-o", "-"))
        self.write("machine.json", self.installed("machine", "--platform", "linux", "--python", "3.12"))
        words = ["unilock", "env", "unilock.lock", "machine.json"]
        told = subprocess.run(words, cwd=self.top, env=self.bare, capture_output=True, check=False)
        self.assertEqual(told.returncode, 0)
        self.write("all/one/pyproject.toml", (EXAMPLE / "pyproject.toml").read_text(encoding="utf-8"))
        shutil.copy(self.top / "unilock.lock", self.top / "all" / "one" / "unilock.lock")
        self.assertIn("right", self.installed("many", "verify", "all", "--index", "ix"))

    def test_the_debian_package_has_the_same_program(self) -> None:
        placed = {it.path: it for it in deb.entries(TOP, self.origin, PROGRAM)}
        self.assertEqual(placed["usr/lib/unilock/unilock"].body, PROGRAM.read_bytes())
        self.assertTrue(placed["usr/bin/unilock"].is_program)
        control = deb.control(TOP, self.origin, PROGRAM).decode()
        self.assertRegex(control, r"Depends: libc6 \(>= 2\.\d+\), ")


# The fields of metadata 2.1, by the standard of core metadata.
FIELDS_2_1 = {
    "Metadata-Version", "Name", "Version", "Summary", "License", "Requires-Python", "Classifier", "Requires-Dist",
    "Description-Content-Type", "Provides-Extra",
}  # fmt: skip


def interpreter_with(module: str) -> str | None:
    """An interpreter that has a module."""
    for python in [sys.executable, "/usr/bin/python3"]:
        if os.path.exists(python):
            found = subprocess.run([python, "-c", f"import {module}"], capture_output=True, check=False)
            if found.returncode == 0:
                return python
    return None


class Packages(Folder):
    """The wheel and the Debian package of a program, which any program of the machine may stand for."""

    def setUp(self) -> None:
        super().setUp()
        found = shutil.which("true")
        if found is None or Path(found).read_bytes()[:4] != b"\x7fELF":
            skip(self, "there is no program `true`")
        self.true = Path(found or "")
        self.origin = origin.Origin("1.2.3", "c" * 40, "toolchain", "s" * 64, 7)

    def test_it_is_made_and_unpacked_by_the_machine_s_own_program(self) -> None:
        if shutil.which("dpkg-deb") is None:
            skip(self, "there is no dpkg-deb")
        made = [deb.write(self.top / it, TOP, self.origin, self.true) for it in ("one", "two")]
        self.assertEqual(made[0].read_bytes(), made[1].read_bytes())
        subprocess.run(["dpkg-deb", "-x", str(made[0]), str(self.top / "root")], check=True)
        usr = self.top / "root" / "usr"
        self.assertEqual((usr / "lib" / "unilock" / "unilock").read_bytes(), self.true.read_bytes())
        said = subprocess.run([str(usr / "bin" / "unilock"), "--version"], capture_output=True, text=True, check=True)
        self.assertEqual(said.stdout.splitlines(), self.origin.lines())
        self.assertEqual(subprocess.run([str(usr / "bin" / "unilock"), "lock"], check=False).returncode, 0)
        self.assertEqual(oct(usr.stat().st_mode & 0o777), "0o755")
        tools = {**self.environment(), "PYTHONPATH": str(usr / "lib" / "python3" / "dist-packages")}
        words = [sys.executable, "-m", "unilock_tools", "--help"]
        said = subprocess.run(words, cwd=self.top, env=tools, capture_output=True, text=True, check=True)
        self.assertIn("unilock-tools COMMAND", said.stdout)

    def wheel_of_true(self) -> Path:
        path = self.top / f"unilock-1.2.3-{wheel.tag_of(self.true)}.whl"
        path.write_bytes(wheel.wheel_bytes(wheel.entries(TOP, self.origin, self.true, ""), WHEN))
        return path

    def test_its_metadata_has_the_fields_of_its_version(self) -> None:
        head, _, body = wheel.metadata(TOP, self.origin).decode().partition("\n\n")
        self.assertEqual({it.partition(":")[0] for it in head.splitlines()}, FIELDS_2_1)
        self.assertIn("\nMetadata-Version: 2.1\n", f"\n{head}\n")
        self.assertEqual(body, (TOP / "README.md").read_text(encoding="utf-8"))
        for line in ["Provides-Extra: terminal", 'Requires-Dist: rich>=12; extra == "terminal"']:
            self.assertIn(line, head.splitlines())

    def test_other_readers_of_wheels_take_it(self) -> None:
        path = self.wheel_of_true()
        read = f"import packaging.utils; print(*packaging.utils.parse_wheel_filename({path.name!r})[:2])"
        for module, words, said in [
            ("packaging", ["-c", read], "unilock 1.2.3"),
            ("wheel", ["-m", "wheel", "unpack", "-d", str(self.top / "unpacked"), str(path)], "OK"),
            ("twine", ["-m", "twine", "check", "--strict", str(path)], "PASSED"),
        ]:
            python = interpreter_with(module)
            if python is not None:
                done = subprocess.run([python, *words], capture_output=True, text=True, check=False)
                self.assertEqual(done.returncode, 0, done.stdout + done.stderr)
                self.assertIn(said, done.stdout)

    def test_the_page_for_man(self) -> None:
        page = gzip.decompress(deb.manual_page(TOP, self.origin)).decode()
        self.assertTrue(page.startswith('.TH UNILOCK 1 "" "unilock 1.2.3"'))
        self.assertIn("verify PROJECT INDEXDIR LOCK", page)
        self.assertEqual(deb.roff("-a\n.b\n'c\\"), "\\-a\n\\&.b\n\\&'c\\e")
        if shutil.which("man") is not None:
            words = ["man", "--warnings", "-E", "UTF-8", "-l", str(self.write("unilock.1", page))]
            said = subprocess.run(words, capture_output=True, text=True, check=False)
            self.assertEqual((said.returncode, said.stderr), (0, ""))
            self.assertIn("unilock - one lock for a Python project", said.stdout)

    def completed(self, *words: str) -> list[str]:
        """What bash offers behind words of a command line."""
        path = "usr/share/bash-completion/completions/unilock"
        script = self.write("completions", deb.completions(TOP)[path].decode())
        line = (
            f'source {script}; COMP_CWORD={len(words) - 1}; COMP_WORDS=("$@");'
            ' _unilock "$1" "${!#}"; printf "%s\\n" "${COMPREPLY[@]}"'
        )
        done = subprocess.run(
            ["bash", "-c", line, "bash", *words], cwd=self.top, capture_output=True, text=True, check=True
        )
        return done.stdout.split()

    def test_completions(self) -> None:
        self.write("pyproject.toml", "")
        self.assertEqual(self.completed("unilock", ""), "lock why relock env export marker check verify gen".split())
        self.assertEqual(self.completed("/usr/bin/unilock", "re"), ["relock"])
        self.assertEqual(self.completed("unilock", "lock", "py"), ["pyproject.toml"])
        self.assertEqual(self.completed("unilock-tools", ""), deb.tool_commands(TOP))
        self.assertEqual(self.completed("unilock-tools", "sh"), ["show"])
        if shutil.which("zsh") is not None:
            script = self.write("zsh", deb.completions(TOP)["usr/share/zsh/vendor-completions/_unilock"].decode())
            subprocess.run(["zsh", "-n", str(script)], check=True)


class Launchers(Folder):
    """What the installed `unilock` sets for the program is what the script of a clone sets."""

    def setUp(self) -> None:
        super().setUp()
        installed, clone = self.top / "installed", self.top / "clone"
        for path, body in [
            (installed / "bin" / "unilock", LAUNCHER.read_text(encoding="utf-8")),
            (installed / "lib" / "unilock" / "unilock", STAND_IN),
            (clone / "unilock", (TOP / "unilock").read_text(encoding="utf-8")),
            (clone / "out" / "unilock", STAND_IN),
        ]:
            path.parent.mkdir(parents=True, exist_ok=True)
            path.write_text(body, encoding="utf-8")
            path.chmod(0o755)
        for name in ["src", "specs"]:
            (clone / "crates" / "a" / name).mkdir(parents=True)
        self.write("clone/crates.txt", "a:\n")
        os.utime(clone / "crates.txt", (1, 1))
        (self.top / "link").symlink_to(installed / "bin" / "unilock")
        self.both = [installed / "bin" / "unilock", self.top / "link", clone / "unilock"]

    def said(self, before: str, more: dict[str, str]) -> list[str]:
        """What the program is told by each, behind commands of a shell that set limits."""
        kept = {key: value for key, value in os.environ.items() if key != "GLIBC_TUNABLES"}
        line = f"{before} exec \"$0\" lock \"a b\" ''"
        calls = [["bash", "-c", line, str(it)] for it in self.both]
        done = [subprocess.run(it, env={**kept, **more}, capture_output=True, text=True, check=False) for it in calls]
        self.assertEqual([it.returncode for it in done], [0] * 3, [it.stderr for it in done])
        return [it.stdout for it in done]

    def test_memory_stacks_and_signals(self) -> None:
        plain = "glibc.malloc.hugetlb=1:glibc.malloc.top_pad=33554432:glibc.malloc.mmap_threshold=33554432"
        few = f"{plain}:glibc.malloc.arena_max=4"
        for before, more, tunables, stack in [
            ("ulimit -S -s 8192;", {}, plain, "8192"),
            ("ulimit -S -s 8192; ulimit -v 8000000;", {}, few, "4096"),
            ("ulimit -S -s 1024; ulimit -v 8000000;", {}, few, "1024"),
            ("ulimit -S -s 8192;", {"GLIBC_TUNABLES": "glibc.malloc.arena_max=2"}, "glibc.malloc.arena_max=2", "8192"),
        ]:
            said = self.said(before, more)
            self.assertEqual(said[1:], said[:1] * 2)
            lines = said[0].splitlines()
            self.assertEqual((lines[0], lines[1], lines[3]), (tunables, stack, "lock a b "))
            # Bit 25 is the signal of a file that grows too large.
            self.assertTrue(int(lines[2].split()[1], 16) >> 24 & 1)


if __name__ == "__main__":
    unittest.main()
