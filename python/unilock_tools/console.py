"""What all commands share: their options --help and --version, how an error is said, and how they end.

This module runs on Python 3.6, since `machine` does.
"""

import argparse
import difflib
import json
import os
import sys
import tempfile
import unicodedata
from typing import Any, Callable, Dict, List, NoReturn, Optional

from . import __version__

INTERRUPTED = 130
# Characters that a terminal obeys in place of showing them: controls, marks of direction, halves of pairs, line ends.
OBEYED = ("Cc", "Cf", "Cs", "Zl", "Zp")


class Refused(Exception):
    """What keeps a command from its answer, in one line, with the exit status that it ends with."""

    def __init__(self, text: str, status: int = 1) -> None:
        super().__init__(text)
        self.status = status


class Parser(argparse.ArgumentParser):
    """A command's parser: --version everywhere, and a fault of the words in one line with status 2."""

    def __init__(self, command: str, text: Optional[str]) -> None:
        super().__init__(prog=command, description=text, formatter_class=argparse.RawDescriptionHelpFormatter)
        self.add_argument("--version", action="version", version=f"{command} of unilock-tools {__version__}")

    def read(self, words: Optional[List[str]]) -> argparse.Namespace:
        """The words of the command line, or those handed in; options may stand between the other words."""
        given = sys.argv[1:] if words is None else words
        return getattr(self, "parse_intermixed_args", self.parse_args)(given)

    def error(self, message: str) -> NoReturn:
        self.exit(2, escaped(f"{self.prog}: {message}{self.meant(message)} (--help says more)") + "\n")

    def meant(self, message: str) -> str:
        """The option that is likely meant by the first one that isn't known."""
        unknown = message.partition("unrecognized arguments: ")[2].split(" ")[0].partition("=")[0]
        near = difflib.get_close_matches(unknown, list(self._option_string_actions), 1) if unknown[:2] == "--" else []
        return "; is {} meant?".format(near[0]) if near else ""


def add_json(made: argparse.ArgumentParser) -> None:
    made.add_argument("--json", action="store_true", help="print one object as JSON, as docs/MANUAL.md says")


def print_object(found: Dict[str, Any]) -> None:
    """Prints an object as JSON, in letters that every terminal shows."""
    print(json.dumps(found, indent=1))


def escaped(text: str, kept: str = "") -> str:
    """A text of which a terminal shows each character: others than those of `kept` are written as Python writes
    them."""
    if max(text, default="") <= "~" and text.isprintable():
        return text
    obeyed = {it for it in set(text) - set(kept) if unicodedata.category(it) in OBEYED}
    return text.translate({ord(it): it.encode("unicode_escape").decode("ascii") for it in obeyed}) if obeyed else text


class Escaping:
    """Standard output whose texts, which may come from outside, are escaped; else it is the stream that it stands
    for."""

    def __init__(self, stream: Any) -> None:
        self.stream = stream

    def write(self, text: str) -> int:
        self.stream.write(escaped(text, "\n\t"))
        return len(text)

    def __getattr__(self, name: str) -> Any:
        return getattr(self.stream, name)


def say(text: str) -> None:
    """Writes a line to standard error, or several where the text has line ends of its own."""
    print(escaped(text, "\n"), file=sys.stderr, flush=True)


def counted(number: int, what: str) -> str:
    """`1 package`, `2 packages`."""
    return f"{number} {what}" if number == 1 else f"{number} {what}s"


def is_terminal() -> bool:
    """Whether standard error is a terminal that can overwrite a line."""
    return sys.stderr.isatty() and os.environ.get("TERM") != "dumb"


def ended(command: str, body: Callable[[], int]) -> int:
    """Runs the body of a command and turns what it raises into one line on standard error and an exit status."""
    plain = sys.stdout
    sys.stdout = Escaping(plain)  # type: ignore[assignment]
    try:
        return ended_plainly(command, body)
    finally:
        sys.stdout = plain


def ended_plainly(command: str, body: Callable[[], int]) -> int:
    try:
        status = body()
        sys.stdout.flush()
        return status
    except Refused as fault:
        say(f"{command}: {fault}")
        return fault.status
    except KeyboardInterrupt:
        say(f"{command}: interrupted")
        return INTERRUPTED
    except BrokenPipeError:
        # The reader of standard output went away, which is no fault: `tools/tree unilock.lock | head`.
        os.dup2(os.open(os.devnull, os.O_WRONLY), sys.stdout.fileno())
        return 0
    except OSError as fault:
        say(f"{command}: {escaped(str(fault.filename or 'standard output'))}: {fault.strerror or fault}")
        return 1


def text_of(path: str, limit: int = 64 * 1024 * 1024) -> str:
    """The text of a file of at most `limit` bytes in UTF-8; `-` is standard input."""
    try:
        if path == "-":
            body = sys.stdin.buffer.read(limit + 1)
        else:
            with open(path, "rb") as it:
                body = it.read(limit + 1)
    except OSError as fault:
        raise Refused(f"{path}: {fault.strerror or fault}") from None
    if len(body) > limit:
        raise Refused(f"{path}: the file is longer than {limit} bytes")
    try:
        return body.decode("utf-8")
    except UnicodeDecodeError as fault:
        raise Refused(f"{path}: no UTF-8: {fault}") from None


def write_beside(path: str, body: bytes) -> None:
    """Writes a file as a whole: into a new file beside it, which then takes its name. Its permissions are kept.

    A link is followed, so that the file that it leads to is replaced and the link stays.
    """
    path = os.path.realpath(path)
    folder, name = os.path.split(path)
    handle, fresh = tempfile.mkstemp(prefix=f".{name}.", suffix=".new", dir=folder or ".")
    try:
        with os.fdopen(handle, "wb") as it:
            it.write(body)
            it.flush()
            os.fsync(it.fileno())
        os.chmod(fresh, permissions(path))
        os.replace(fresh, path)
    except OSError as fault:
        os.unlink(fresh)
        # A full disk is told without the file that it was met at.
        raise OSError(fault.errno, fault.strerror, path) from None
    except BaseException:
        os.unlink(fresh)
        raise


def permissions(path: str) -> int:
    """The permissions of a file, or those that a new file gets."""
    try:
        return os.stat(path).st_mode & 0o777
    except OSError:
        mask = os.umask(0)
        os.umask(mask)
        return 0o666 & ~mask


def put(text: str, out: Optional[str]) -> None:
    """Prints a text, or writes it to a file as a whole where one is named."""
    if out is None or out == "-":
        sys.stdout.write(text)
    else:
        write_beside(out, text.encode("utf-8"))
