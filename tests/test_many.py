"""Many projects at once: what each row says, that no job ends the run, that a run goes on where it was broken off, and
a cluster of workers of which one is lost."""

from __future__ import annotations

import concurrent.futures
import io
import json
import os
import shutil
import signal
import socket
import subprocess
import sys
import tarfile
import tempfile
import time
from pathlib import Path
from typing import Callable
from unittest import mock

from making import PROGRAM, PYTHON, TOP, Folder, skip, tool, want_program
from unilock_tools import console, many, many_indexes, many_jobs, many_projects, many_runs

SCENARIO = tool("scenario")
# A program that judges a lock by what stands in it, and notes each call.
STAND_IN = """#!/bin/sh
echo "$4" >>"{calls}"
case $(cat "$4") in
  right) echo verified ;;
  wrong) echo "rejected: a 1.0"; exit 9 ;;
  slow) sleep 60 ;;
  hostile) printf 'rejected: \\033[2Ja 1\\n'; exit 9 ;;
  *) echo "malformed: $4: line 1"; exit 3 ;;
esac
"""


class Projects(Folder):
    def setUp(self) -> None:
        super().setUp()
        self.calls = self.top / "calls"
        self.program = self.write("stand_in", STAND_IN.format(calls=self.calls))
        Path(str(self.program)).chmod(0o755)

    def project(self, name: str, lock: str) -> Path:
        self.write(f"{name}/pyproject.toml", "[project]\n")
        self.write(f"{name}/unilock.lock", lock)
        self.write(f"{name}/ix/a.json", "{}")
        return self.top / name

    def calls_made(self) -> int:
        return len(self.calls.read_text(encoding="utf-8").splitlines()) if self.calls.exists() else 0


    def until_called(self) -> None:
        until = time.monotonic() + 60
        while time.monotonic() < until and not self.calls.exists():
            time.sleep(0.05)


class Rows(Projects):
    def rows(self, *words: object, status: int = 1) -> dict[str, tuple[str, str]]:
        done = self.tool(*words, "--json", status=status)
        return {Path(it["folder"]).name: (it["result"], it["text"]) for it in json.loads(done)}

    def tool(self, *words: object, status: int = 1) -> str:
        line = [sys.executable, "-m", "unilock_tools", "many", *map(str, words)]
        environment = {**self.environment(), "PYTHONPATH": str(PYTHON)}
        done = subprocess.run(line, cwd=self.top, env=environment, capture_output=True, text=True, check=False)
        self.assertEqual(done.returncode, status, done.stdout + done.stderr)
        self.assertNotIn("Traceback", done.stderr)
        return done.stdout

    def test_a_row_for_each_project(self) -> None:
        for name in ["right", "wrong", "broken", "slow", "hostile"]:
            self.project(f"all/{name}", name)
        self.project("all/.venv/hidden", "wrong")
        self.assertEqual(
            self.rows("verify", "all", "--timeout", "5"),
            {
                "right": ("right", ""),
                "wrong": ("wrong", "rejected: a 1.0"),
                "broken": ("failed", f"malformed: {self.top}/all/broken/unilock.lock: line 1"),
                "slow": ("timed out", "it took longer than 5 seconds"),
                "hostile": ("wrong", "rejected: \\x1b[2Ja 1"),
            },
        )

    def test_status_and_lines(self) -> None:
        self.project("one", "right")
        self.write("list", f"# those of the team\none\n{self.top}/one\n")
        self.assertEqual(self.tool("verify", "list", status=0), f"right      {self.top}/one\n")
        self.project("two", "wrong")
        said = self.tool("verify", "one", "two")
        self.assertIn(f"wrong      {self.top}/two: rejected: a 1.0\n", said)
        self.tool("verify", "nowhere", status=3)
        self.tool("nothing", "one", status=2)

    def test_a_run_goes_on_where_it_was(self) -> None:
        for name in ["a", "b", "c"]:
            self.project(f"all/{name}", "wrong" if name == "b" else "right")
        first = self.rows("verify", "all", "--state", "state")
        self.assertEqual(self.calls_made(), 3)
        self.assertEqual(self.rows("verify", "all", "--state", "state"), first)
        self.assertEqual(self.calls_made(), 3)
        # A changed lock is judged anew, and so is what was cut off while it was written.
        kept = (self.top / "state").read_text(encoding="utf-8")
        last = Path(json.loads(kept.splitlines()[-1])["folder"]).name
        changed = next(it for it in "abc" if it != last)
        self.write(f"all/{changed}/unilock.lock", "broken")
        self.write("state", kept[:-5])
        again = self.rows("verify", "all", "--state", "state")
        self.assertEqual(again[changed][0], "failed")
        self.assertEqual(self.calls_made(), 5)

    def test_a_changed_index_is_judged_anew(self) -> None:
        self.project("all/a", "right")
        self.tool("verify", "all", "--state", "state", status=0)
        self.write("all/a/ix/b.json", "{}")
        self.tool("verify", "all", "--state", "state", status=0)
        self.assertEqual(self.calls_made(), 2)

    def test_a_project_is_handed_on_by_the_wide_profile(self) -> None:
        """By `verify` as by the tools; a fault of the copy that says so is told of the project's own file."""
        want_program(self)
        self.program = PROGRAM
        found = SCENARIO.read(TOP / "examples" / "scenarios" / "prerelease_allow.txt")
        wide = found.files["pyproject.toml"].replace('[tool.unilock]\nprofile = "wide"\n', "")
        self.assertNotIn("wide", wide)
        texts = {
            "right": wide,
            "strict": f'{wide}[tool.unilock]\nprofile = "strict"\n',
            "faulty": wide.replace('"b"', '"b?"'),
        }
        for name, text in texts.items():
            SCENARIO.unpack(found, self.top / "all" / name)
            self.write(f"all/{name}/pyproject.toml", text)
        rows = self.rows("verify", "all")
        self.assertEqual(rows["right"], ("right", ""))
        place = f"malformed: {self.top}/all/strict/pyproject.toml: unsupported tool.uv.prerelease"
        self.assertEqual(rows["strict"], ("failed", place))
        place = f"malformed: {self.top}/all/faulty/pyproject.toml: requirement project.dependencies[1]"
        self.assertEqual(rows["faulty"], ("failed", place))

    def test_sources_are_put_together_by_the_tool(self) -> None:
        """The release that a source gives stands in no index folder, so the program alone finds none that serves."""
        want_program(self)
        self.program = PROGRAM
        head = '[project]\nname = "{}"\nversion = "1"\nrequires-python = ">=3.9"\n'
        self.write("q/pyproject.toml", head.format("q"))
        more = 'dependencies = ["q"]\n[tool.uv.sources]\nq = { path = "../../q" }\n'
        self.write("all/a/pyproject.toml", head.format("a") + more)
        (self.top / "all" / "a" / "ix").mkdir()
        self.ran("lock", "all/a/pyproject.toml", "all/a/ix")
        self.assertEqual(self.rows("verify", "all", status=0), {"a": ("right", "")})
        lock = self.top / "all" / "a" / "unilock.lock"
        lock.write_text(lock.read_text(encoding="utf-8").replace('"1"', '"2"'), encoding="utf-8")
        self.assertEqual(self.rows("verify", "all")["a"][0], "wrong")

    def test_a_page(self) -> None:
        self.project("a", "<b>")
        self.tool("verify", "a", "--page", "page.html")
        text = (self.top / "page.html").read_text(encoding="utf-8")
        self.assertIn('"result":"failed"', text)
        self.assertNotIn("<b>", text)

    def test_any_executor_does_the_jobs_and_a_lost_batch_is_done_again(self) -> None:
        """One whose worker is lost with more than one job, or with the job `b`."""
        submitted: list[tuple[str, ...]] = []

        class Losing(concurrent.futures.Executor):
            def submit(self, call, *given, **named):  # type: ignore[no-untyped-def]
                submitted.append(tuple(it.folder for it in given[0]))
                found: concurrent.futures.Future[list[many_jobs.Row]] = concurrent.futures.Future()
                if submitted[-1] in (("a",), ("c",)):
                    found.set_result([many_jobs.Row(submitted[-1][0], "verify", "right", "")])
                else:
                    found.set_exception(RuntimeError("the worker is gone"))
                return found

        batch = tuple(many_jobs.Task("verify", it, "/ix", 5) for it in "abc")
        told: list[many_jobs.Row] = []
        rows = many_runs.Runs(lambda it: Losing().submit(many_jobs.done_all, it, {}), told.append).rows([batch])
        self.assertEqual(rows, told)
        self.assertEqual(submitted, [("a", "b", "c"), ("a",), ("b",), ("c",), ("b",), ("b",)])
        self.assertEqual({it.folder: (it.result, it.text) for it in rows}, {
            "a": ("right", ""), "c": ("right", ""), "b": ("failed", "RuntimeError: the worker is gone"),
        })  # fmt: skip

    def test_batches_are_large_first_and_all_jobs_stand_in_one(self) -> None:
        for count, workers in [(0, 4), (1, 4), (30, 2), (1000, 4), (5000, 64)]:
            tasks = [many_jobs.Task("verify", str(it), "/ix", 5) for it in range(count)]
            batches = list(many_runs.batches_of(tasks, workers))
            self.assertEqual([it for batch in batches for it in batch], tasks)
            sizes = [len(it) for it in batches]
            self.assertEqual(sizes, sorted(sizes, reverse=True))
            # Jobs that are alone in theirs come last, and so many that no worker has nothing to do while others have.
            self.assertGreaterEqual(sizes.count(1), min(count, workers))
            self.assertLess(len(sizes), 20 + count / 20 + 20 * workers)

    def test_a_process_that_is_lost_has_its_jobs_done_by_others(self) -> None:
        """The program kills who called it: once for `05`, and always for `07`."""
        for number in range(40):
            self.project(f"all/{number:02}", "wrong" if number % 10 == 3 else "right")
        program = Path(str(self.program))
        killing = f'case $4 in */05/*) mkdir "{self.top}/once" && kill -9 $PPID ;; */07/*) kill -9 $PPID ;; esac\n'
        text = program.read_text(encoding="utf-8")
        program.write_text(text.replace("case $(cat", f"{killing}case $(cat", 1), encoding="utf-8")
        rows = self.rows("verify", "all", "--workers", "2")
        self.assertEqual(rows["07"][0], "failed")
        self.assertEqual(rows["07"][1], "Lost: the process that did it was ended")
        self.assertTrue((self.top / "once").is_dir())
        others = {name: result for name, (result, _) in rows.items() if name != "07"}
        self.assertEqual(others, {f"{it:02}": "wrong" if it % 10 == 3 else "right" for it in range(40) if it != 7})

    def test_an_interrupt_ends_all_at_once_and_in_silence(self) -> None:
        for number in range(20):
            self.project(f"all/{number}", "slow")
        line = [sys.executable, "-m", "unilock_tools", "many", "verify", "all", "--workers", "2"]
        environment = {**self.environment(), "PYTHONPATH": str(PYTHON)}
        run = subprocess.Popen(
            line, cwd=self.top, env=environment, stdout=subprocess.PIPE, stderr=subprocess.PIPE, start_new_session=True
        )
        self.until_called()
        begun = time.monotonic()
        os.killpg(run.pid, signal.SIGINT)
        out, errors = run.communicate(timeout=120)
        self.assertEqual((run.returncode, out, errors), (130, b"", b"many: interrupted\n"))
        # Each job would take a minute, and there are twenty.
        self.assertLess(time.monotonic() - begun, 50)

    def test_what_is_read_is_summed_where_a_row_shows_or_keeps_it(self) -> None:
        self.project("a", "right")
        for words, is_summed in [((), False), (("--json",), True), (("--state", "state"), True)]:
            asked = many.parser().parse_args(["verify", str(self.top / "a"), *words])
            tasks, _ = many.tasks_of(asked, [self.top / "a"], many_projects.Sums())
            self.assertEqual([len(read) for _, read in tasks], [64 if is_summed else 0])

    def test_an_index_that_is_sent_is_placed_whole_or_not_at_all(self) -> None:
        folder = self.project("a", "right")
        archive = many_indexes.packed(folder / "ix")
        self.assertEqual(archive[:4] + archive[8:], many_indexes.packed(folder / "ix")[:4] + archive[8:])
        digest = many_projects.digest_of_folder(folder / "ix")
        files = tuple((it, (folder / it).read_bytes()) for it in (many_projects.PROJECT, many_projects.LOCK))
        task = many_jobs.Task("verify", str(folder), digest, 5, files)
        room = self.top / "room"
        room.mkdir()
        with mock.patch.object(tempfile, "tempdir", str(self.top)):
            # Without its archive, the job goes back to whoever has it.
            self.assertEqual(many_jobs.done(task).result, many_jobs.LACKING)
            many_indexes.keep_index(digest, archive)
            many_indexes.keep_index(digest, archive)
            kept = many_indexes.kept_at(digest)
            self.assertEqual((kept / "a.json").read_text(encoding="utf-8"), "{}")
            self.assertEqual(sorted(it.name for it in self.top.glob("unilock-*")), [kept.name])
            # A file, or what somebody else made, is no folder that was kept.
            shutil.rmtree(kept)
            kept.write_text("{}")
            self.assertFalse(many_indexes.is_kept(digest))
            with self.assertRaises(OSError):
                many_indexes.keep_index(digest, archive)
        self.assertEqual((Path(many_jobs.placed(task, room)) / "unilock.lock").read_text(encoding="utf-8"), "right")

    def test_an_archive_with_other_files_is_refused(self) -> None:
        held = io.BytesIO()
        with tarfile.open(fileobj=held, mode="w:gz") as archive:
            archive.addfile(tarfile.TarInfo("../a.json"))
        with mock.patch.object(tempfile, "tempdir", str(self.top)):
            with self.assertRaisesRegex(ValueError, "has a member '../a.json'"):
                many_indexes.keep_index("0", held.getvalue())
            self.assertFalse(many_indexes.is_kept("0"))

    def test_locks_of_other_tools(self) -> None:
        for name, lock in [("a", "uv.lock"), ("b", "poetry.lock"), ("c", "unilock.lock")]:
            self.write(f"all/{name}/pyproject.toml", "[project]\n")
            self.write(f"all/{name}/{lock}", "")
        self.write("all/b/requirements.txt", "")
        found = many_projects.projects([str(self.top / "all")], "judge")
        self.assertEqual([it.name for it in found], ["a", "b"])
        self.assertEqual([it.name for it in many_projects.projects([str(self.top / "all")], "verify")], ["c"])
        words = many_jobs.command("judge", str(found[1]), "ix")
        self.assertEqual(words[-4:], ["judge", f"{found[1]}/poetry.lock", f"{found[1]}/pyproject.toml", "ix"])
        with self.assertRaisesRegex(console.Refused, "a lock of another tool"):
            many_projects.projects([str(self.top / "all" / "c")], "judge")

    def test_a_projects_own_index_folder_isnt_searched(self) -> None:
        for folder in ("all/a", "all/a/ix/b", "all/ix/c"):
            self.write(f"{folder}/pyproject.toml", "[project]\n")
            self.write(f"{folder}/unilock.lock", "right")
        found = many_projects.projects([str(self.top / "all")], "verify")
        self.assertEqual([it.name for it in found], ["a", "c"])

    def test_ends_of_processes(self) -> None:
        def each_way() -> None:
            self.assertEqual(many_jobs.ended(["sh", "-c", "echo a; echo b >&2; exit 3"], 60, None), (3, b"a\n"))
            self.assertEqual(many_jobs.ended(["sh", "-c", "echo b >&2"], 60, str(self.top)), (0, b"b\n"))
            with self.assertRaises(subprocess.TimeoutExpired):
                many_jobs.ended(["sleep", "60"], 0.1, None)

        each_way()
        if hasattr(os, "pidfd_open"):
            # As where the system doesn't tell of ends.
            self.addCleanup(setattr, os, "pidfd_open", os.pidfd_open)
            del os.pidfd_open
            each_way()

    def test_files_are_sent_to_a_cluster_alone(self) -> None:
        self.project("a", "right")
        self.tool("verify", "a", "--send", status=2)
        self.tool("lock", "a", "--send", "--scheduler", "tcp://127.0.0.1:1", status=2)


def cluster_python() -> str | None:
    """An interpreter that has Dask's `distributed`."""
    for python in [sys.executable, "/usr/bin/python3"]:
        if os.path.exists(python):
            done = subprocess.run([python, "-c", "import distributed"], capture_output=True, check=False)
            if done.returncode == 0:
                return python
    return None


class Cluster(Projects):
    """A scheduler and two workers on the loopback address."""

    def setUp(self) -> None:
        super().setUp()
        python = cluster_python()
        if python is None:
            skip(self, "there is no `distributed`")
        self.python = python or ""
        with socket.socket() as held:
            held.bind(("127.0.0.1", 0))
            self.port = held.getsockname()[1]
        self.rooms = 0
        self.environ = {**self.environment(), "PYTHONPATH": str(PYTHON)}
        self.started("dask_scheduler", "--host", "127.0.0.1", "--port", str(self.port), "--no-dashboard")
        self.workers = [self.worker() for _ in range(2)]

    def started(self, module: str, *words: str) -> subprocess.Popen[bytes]:  # type: ignore[override]
        """Each has a folder for temporary files of its own, as on a machine of its own."""
        self.rooms += 1
        room = self.top / f"room{self.rooms}"
        room.mkdir()
        line = [self.python, "-m", f"distributed.cli.{module}", *words]
        environ = {**self.environ, "TMPDIR": str(room)}
        made = subprocess.Popen(line, cwd=self.top, env=environ, stdout=subprocess.DEVNULL, stderr=subprocess.DEVNULL)
        self.addCleanup(made.wait)
        self.addCleanup(made.kill)
        return made

    def worker(self) -> subprocess.Popen[bytes]:
        words = [f"tcp://127.0.0.1:{self.port}", "--nthreads", "1", "--no-nanny", "--no-dashboard"]
        return self.started("dask_worker", *words)

    def test_a_worker_that_is_lost_has_its_jobs_done_by_the_other(self) -> None:
        self.verified_while(30, self.workers[0].kill)

    def test_what_the_only_worker_held_is_sent_to_the_one_that_comes(self) -> None:
        self.workers[1].kill()
        self.workers[1].wait()

        def replaced() -> None:
            self.workers[0].kill()
            self.worker()

        self.verified_while(8, replaced)

    def verified_while(self, count: int, happens: Callable[[], None]) -> None:
        """All projects are verified, though something happens when the first job has begun."""
        for number in range(count):
            self.project(f"all/{number:02}", "wrong" if number % 10 == 3 else "right")
        # One has an index of its own, the others share one.
        self.write("all/00/ix/b.json", "{}")
        program = Path(str(self.program))
        text = program.read_text(encoding="utf-8").replace("case $(cat", "sleep 0.3\ncase $(cat")
        program.write_text(text, encoding="utf-8")
        words = ["verify", "all", "--send", "--json", "--scheduler", f"tcp://127.0.0.1:{self.port}"]
        line = [self.python, "-m", "unilock_tools", "many", *words]
        pipe = subprocess.PIPE
        run = subprocess.Popen(line, cwd=self.top, env=self.environ, stdout=pipe, stderr=pipe, text=True)
        self.until_called()
        happens()
        out, errors = run.communicate(timeout=120)
        self.assertEqual(run.returncode, 1, errors)
        rows = {Path(it["folder"]).name: it["result"] for it in json.loads(out)}
        self.assertEqual(rows, {f"{it:02}": "wrong" if it % 10 == 3 else "right" for it in range(count)})

    def test_no_scheduler(self) -> None:
        self.project("a", "right")
        line = [self.python, "-m", "unilock_tools", "many", "verify", "a", "--scheduler", "tcp://127.0.0.1:1"]
        done = subprocess.run(line, cwd=self.top, env=self.environ, capture_output=True, text=True, check=False)
        self.assertEqual(done.returncode, 3)
        self.assertIn("no scheduler answers", done.stderr)


if __name__ == "__main__":
    import unittest

    unittest.main()
