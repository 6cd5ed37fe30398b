"""The folder of an index: written as a whole, replaced in one step, and read as a whole.

A folder that `tools/index` made has a file `.unilock-index` in it, which is no document and has a text of its own.
Only such a folder is replaced, or an empty one. The new folder is written beside the old one and exchanged with it
where the system does that in one step; else the old one is put back where the new one can't take its place. What a
run that was killed left beside is removed by the next one.
"""

from __future__ import annotations

import contextlib
import ctypes
import errno
import glob
import json
import os
import sys
import tempfile
import uuid
from pathlib import Path
from typing import IO, Any, Callable, Dict, Iterator, Optional, Tuple, TypeVar

from .archives import Refused

MARK = ".unilock-index"
# Where `lock` keeps what it tried, beside a project without an index folder; and what belongs to a script.
OWN = Path(".unilock") / "ix"
SCRIPTS = Path(".unilock") / "scripts"
EXCHANGE = 2
HERE = -100
READS = 5
Made = TypeVar("Made")


def is_of_tried(folder: str) -> bool:
    """Whether a folder has the releases that were tried alone, and not all that an index has."""
    parts = Path(folder).parts
    return parts[-2:] == OWN.parts or (parts[-4:-2] == SCRIPTS.parts and parts[-1:] == OWN.parts[-1:])


def of_script(script: Path) -> Path:
    """The folder of what belongs to a script: its index folder, and its environment."""
    return script.parent / SCRIPTS / script.name


def replace_folder(out: Path, documents: Dict[str, Dict[str, Any]]) -> None:
    """Writes the documents into a fresh folder, which then takes the place of `out`. A link is followed."""
    out = prepared(out)
    out.parent.mkdir(parents=True, exist_ok=True)
    with contextlib.ExitStack() as held:
        fresh = begun(out, held)
        try:
            for name, document in documents.items():
                write(fresh / f"{name}.json", json.dumps(document, indent=1) + "\n")
            fresh.chmod(0o755)
            judged(out, out)
            take_place(fresh, out)
        finally:
            # The old folder, where the two were exchanged.
            remove(fresh)


def begun(out: Path, held: contextlib.ExitStack) -> Path:
    """A fresh folder beside another, with its mark held. Another run may remove it before it has the mark; then one
    more is made."""
    for _ in range(READS):
        fresh = Path(tempfile.mkdtemp(prefix=beginning(out), dir=out.parent))
        try:
            held.enter_context(held_mark(fresh / MARK))
            return fresh
        except (Refused, FileNotFoundError):
            if fresh.is_dir():
                remove(fresh)
                raise
    raise Refused(out, f"what was made beside it was removed, {READS} times")


def remove(folder: Path) -> None:
    """Removes a folder of our making, its mark last: where a run is killed meanwhile, the next one knows it by that."""
    with contextlib.suppress(OSError):
        for path in folder.iterdir():
            if path.name != MARK:
                path.unlink()
        (folder / MARK).unlink(missing_ok=True)
        folder.rmdir()


def prepared(out: Path) -> Path:
    """The place of a folder that may be replaced, without what killed runs left beside it."""
    found = Path(os.path.realpath(out))
    remove_left(found)
    judged(found, out)
    return found


def beginning(out: Path) -> str:
    return f".{out.name}.unilock-"


def judged(out: Path, named: Path) -> None:
    """Refuses to replace what `tools/index` didn't make; the refusal has the name that was given."""
    if not os.path.lexists(out):
        return
    if not out.is_dir():
        raise Refused(named, "it is no folder, so it isn't replaced")
    if any(out.iterdir()) and not (out / MARK).is_file():
        fault = f"it has no {MARK}, so `tools/index` didn't make it, and it isn't replaced; remove it first"
        raise Refused(named, fault)
    other = sorted(it.name for it in out.iterdir() if it.name != MARK and not is_document(it))
    if other:
        raise Refused(named, f"it holds more than .json files, so it isn't replaced: {other[0]}")


def is_document(path: Path) -> bool:
    return path.name.endswith(".json") and path.is_file()


def write(path: Path, text: str) -> None:
    try:
        path.write_text(text, encoding="utf-8")
    except OSError as fault:
        raise Refused(path, str(fault.strerror or fault)) from None


@contextlib.contextmanager
def held_mark(path: Path) -> Iterator[None]:
    """A folder's mark, which is locked while its maker lives."""
    write(path, f"An index folder of unilock; `tools/index` replaces it as a whole. {uuid.uuid4()}\n")
    with path.open("rb") as stream:
        if not locked(stream):
            # Such a system doesn't rename a folder in which a file is open.
            stream.close()
        yield


def locked(stream: IO[bytes]) -> bool:
    """Whether a file's lock was free, and is taken now. Where a system has no such locks it never is."""
    try:
        import fcntl
    except ImportError:
        return False
    try:
        fcntl.flock(stream, fcntl.LOCK_EX | fcntl.LOCK_NB)
    except OSError:
        return False
    return True


def remove_left(out: Path) -> None:
    """Removes what killed runs left beside a folder: folders of our making whose makers are gone.

    Where a run was killed between two renames the old folder is put back.
    """
    for path in sorted(out.parent.glob(f"{glob.escape(beginning(out))}*")):
        with contextlib.suppress(OSError):
            if path.is_symlink() or not path.is_dir():
                continue
            if path.suffix == ".old" and not os.path.lexists(out):
                os.rename(path, out)
            elif (path / MARK).is_file():
                with (path / MARK).open("rb") as stream:
                    if locked(stream):
                        remove(path)
            else:
                # Nothing is in it yet, or any more; a maker that is alive makes another.
                path.rmdir()


def take_place(fresh: Path, out: Path) -> None:
    """Puts a fresh folder in the place of another, which stands in the fresh one's place then."""
    if not out.exists():
        os.rename(fresh, out)
        return
    if exchanged(fresh, out):
        return
    aside = fresh.with_name(fresh.name + ".old")
    os.rename(out, aside)
    try:
        os.rename(fresh, out)
    except BaseException:
        os.rename(aside, out)
        raise
    remove(aside)


def exchanged(one: Path, other: Path) -> bool:
    """Whether the system exchanged two folders in one step."""
    try:
        library = ctypes.CDLL(None, use_errno=True)
        names = os.fsencode(one), os.fsencode(other)
        if sys.platform == "darwin":
            status = library.renamex_np(*names, EXCHANGE)
        else:
            status = library.renameat2(HERE, names[0], HERE, names[1], EXCHANGE)
    except (OSError, AttributeError, TypeError):
        return False
    if status == 0:
        return True
    number = ctypes.get_errno()
    if number in (errno.ENOSYS, errno.EINVAL, errno.ENOTSUP, errno.EOPNOTSUPP):
        return False
    raise OSError(number, os.strerror(number), str(other))


def folder_mark(folder: str) -> Optional[Tuple[object, ...]]:
    """What tells a folder from the one that takes its place, or None where there is none."""
    try:
        found = os.stat(folder)
        mark = Path(folder, MARK)
        text = mark.read_bytes() if mark.is_file() else b""
    except OSError:
        return None
    return found.st_dev, found.st_ino, found.st_mtime_ns, text


def read_whole(folder: str, made: Callable[[], Made]) -> Made:
    """What is made of an index folder that nobody replaced meanwhile; where somebody did it is made anew."""
    for _ in range(READS):
        before = folder_mark(folder)
        found = made()
        if before == folder_mark(folder):
            return found
    raise Refused(folder, f"the folder was replaced while it was read, {READS} times")
