"""One job of `many` on one project, and a batch of them, as a worker does it."""

from __future__ import annotations

import os
import select
import subprocess
import sys
import tempfile
import time
from collections.abc import Mapping
from dataclasses import dataclass
from pathlib import Path

from . import profile, program
from .many_indexes import is_kept, keep_index, kept_at
from .many_projects import LOCK, PROJECT, lock_name

RIGHT, WRONG, FAILED, TIMED_OUT = "right", "wrong", "failed", "timed out"
# What a worker answers that hasn't got the index of a job; it never stands in a report.
LACKING = "lacking"
# Statuses that say that the project isn't as wanted; all others but 0 say that the job couldn't be done.
SAYS_WRONG = {"verify": {9}, "check": {1, 4, 9}, "lock": {1, 4}, "outdated": {1}, "judge": {1}}


# A file system in memory, where the system has one: files for small jobs cost less there.
IN_MEMORY = "/dev/shm"


@dataclass(frozen=True)
class Task:
    """A project with its job. Where files are sent, `files` has the project's own, and `index` is a sum."""

    job: str
    folder: str
    index: str
    timeout: float
    files: tuple[tuple[str, bytes], ...] = ()


@dataclass(frozen=True)
class Row:
    """What became of a job: one of the four words, what was said, how long it took, and the sum of what it read."""

    folder: str
    job: str
    result: str
    text: str
    seconds: float = 0.0
    read: str = ""


def command(job: str, folder: str, index: str) -> list[str]:
    project = os.path.join(folder, PROJECT)
    lock = os.path.join(folder, lock_name(Path(folder), job) or LOCK)
    tool = [sys.executable, "-m", "unilock_tools"]
    if job == "verify":
        # A file of sources or of a workspace is put together by the tool, which takes longer.
        begin = [*tool, "verify"] if profile.is_put_together(project) else [program.path(), "verify"]
        return [*begin, project, index, lock]
    if job == "outdated":
        return [*tool, "outdated", lock, index]
    if job == "judge":
        return [*tool, "judge", lock, project, index]
    more = ["--check"] if job == "check" else []
    return [*tool, "lock", *more, "--quiet", "-o", lock, project, index]


def done(task: Task, archive: bytes = b"", room: str | None = None) -> Row:
    """Does a job here. It runs in a worker too, so it takes and gives plain data and raises nothing. `room` is a folder
    for files that are made for it."""
    begun = time.monotonic()
    try:
        if task.files:
            result, text = done_as_sent(task, archive)
        else:
            result, text = answered(task, task.folder, task.index, room)
    except Exception as fault:  # noqa: BLE001  (a row is owed whatever happens)
        result, text = FAILED, f"{type(fault).__name__}: {fault}"
    return Row(task.folder, task.job, result, console_line(text), round(time.monotonic() - begun, 3))


def done_all(tasks: tuple[Task, ...], archives: Mapping[str, bytes]) -> list[Row]:
    """Does the jobs of a batch here, one after another; `archives` has the indexes that go with it."""
    with tempfile.TemporaryDirectory(prefix="unilock-many-", dir=quick_folder()) as room:
        return [done(it, archives.get(it.index, b""), room) for it in tasks]


def done_as_sent(task: Task, archive: bytes) -> tuple[str, str]:
    """Does a job on files that were sent."""
    if archive:
        keep_index(task.index, archive)
    if not is_kept(task.index):
        return LACKING, "no worker keeps the index that was sent"
    with tempfile.TemporaryDirectory(prefix="unilock-many-") as room:
        folder = placed(task, Path(room))
        result, text = answered(task, folder, str(kept_at(task.index)))
    return result, text.replace(folder, task.folder)


def console_line(text: str) -> str:
    """The first line of what was said, without bytes that a terminal would obey."""
    first = next((it for it in text.splitlines() if it.strip()), "").strip()
    return "".join(it if it.isprintable() else "\\x{:02x}".format(ord(it)) for it in first)[:300]


def answered(task: Task, folder: str, index: str, room: str | None = None) -> tuple[str, str]:
    """What a job on these folders comes to, and what was said."""
    words = command(task.job, folder, index)
    # The program is handed a project by its profile; a tool that is called hands it on so by itself.
    with profile.handed(words[1:], room=room) as (asked, told):
        try:
            status, body = ended([words[0], *asked], task.timeout, room)
        except subprocess.TimeoutExpired:
            return TIMED_OUT, f"it took longer than {task.timeout:g} seconds"
        text = told(body).decode("utf-8", "replace")
    if status == 0:
        return RIGHT, text if task.job == "outdated" else ""
    return (WRONG if status in SAYS_WRONG[task.job] else FAILED), text or f"status {status}"


def ended(words: list[str], timeout: float, room: str | None) -> tuple[int, bytes]:
    """The status of a process, and what it wrote to standard output, or else to standard error. Files take both, since
    a pipe wants a reader beside it."""
    environment = None
    if words[0] == sys.executable:
        path = os.pathsep.join([str(Path(__file__).parent.parent), *python_path()])
        environment = {**os.environ, "PYTHONPATH": path}
    with tempfile.TemporaryFile(dir=room) as output, tempfile.TemporaryFile(dir=room) as errors:
        with subprocess.Popen(
            words, stdin=subprocess.DEVNULL, stdout=output, stderr=errors, env=environment
        ) as process:
            try:
                wait(process, timeout)
            except BaseException:
                process.kill()
                raise
        output.seek(0)
        errors.seek(0)
        return process.returncode, output.read() or errors.read()


def wait(process: subprocess.Popen[bytes], timeout: float) -> None:
    """Waits for the end of a process: by the system where it tells, since Python looks at intervals."""
    if not hasattr(os, "pidfd_open"):
        process.wait(timeout)
        return
    ending = os.pidfd_open(process.pid)
    try:
        if not select.select([ending], [], [], timeout)[0]:
            raise subprocess.TimeoutExpired(process.args, timeout)
    finally:
        os.close(ending)
    process.wait()


def quick_folder() -> str | None:
    """Where files of small jobs are put: in memory, or else where temporary files usually are."""
    return IN_MEMORY if os.access(IN_MEMORY, os.W_OK | os.X_OK) else None


def python_path() -> list[str]:
    told = os.environ.get("PYTHONPATH", "")
    return told.split(os.pathsep) if told else []


def placed(task: Task, room: Path) -> str:
    """The folder of a project whose files were sent."""
    folder = room / "project"
    folder.mkdir()
    for name, body in task.files:
        (folder / name).write_bytes(body)
    return str(folder)
