"""What a terminal shows beyond plain text: colours, columns and how far a long work is.

By the library `rich` where it is installed. Where it isn't, or where a stream is no terminal, texts are printed as they
stand, and a work's state is one line that is written over.
"""

from __future__ import annotations

import argparse
import importlib
import os
import shutil
import sys
import time
from collections.abc import Iterable, Sequence
from typing import Any, NamedTuple

from . import console

CHOICES = ("auto", "always", "never")
# The standard sixteen colours alone, which each terminal's owner chose to be read on its ground.
STYLES = {
    "name": "bold",
    "version": "cyan",
    "where": "magenta",
    "quiet": "dim",
    "good": "green",
    "changed": "yellow",
    "bad": "bold red",
}
# How often a state is shown anew, in seconds.
PAUSE = 0.1


class Part(NamedTuple):
    """A piece of a line, and what it is: a word of STYLES, or none."""

    text: str
    kind: str = ""


def add_color(made: argparse.ArgumentParser) -> None:
    made.add_argument(
        "--color", choices=CHOICES, default="auto", help="colours: on a terminal (auto), always or never; NO_COLOR too"
    )


def library(name: str) -> Any:
    """A module of `rich`, or None where it isn't installed."""
    try:
        return importlib.import_module(f"rich.{name}")
    except ImportError:
        return None


def shows_more(stream: Any) -> bool:
    """Whether a stream is a terminal that obeys more than line ends."""
    return bool(stream.isatty()) and os.environ.get("TERM") != "dumb"


def rich_console(stream: Any, choice: str) -> Any:
    """A console of `rich` for a stream, or None where its text stays plain. It writes nothing by itself."""
    if choice != "always" and not shows_more(stream):
        return None
    rich = library("console")
    if rich is None:
        if choice == "always":
            console.say("--color always wants the library `rich` (pip install rich); the text stays plain")
        return None
    # Words of the call count for more than the environment.
    is_colored = choice == "always" or (choice == "auto" and not os.environ.get("NO_COLOR"))
    return rich.Console(
        file=stream,
        force_terminal=True,
        color_system="standard" if is_colored else None,
        no_color=not is_colored,
        highlight=False,
    )


class Screen:
    """A stream on which lines and tables are shown; standard output where no other is named."""

    def __init__(self, choice: str, stream: Any = None) -> None:
        found = sys.stdout if stream is None else stream
        # Texts are escaped here, one by one: a stream that escapes all that passes would undo the colours.
        self.stream = getattr(found, "stream", found)
        self.rich = rich_console(self.stream, choice)

    @property
    def has_columns(self) -> bool:
        return self.rich is not None

    def line(self, *parts: Part) -> None:
        """Shows a line, whole, however wide it is."""
        if self.rich is None:
            self.stream.write(console.escaped("".join(it.text for it in parts), "\n\t") + "\n")
        else:
            self.put(self.text(parts), soft_wrap=True)

    def told(self, text: str, kind: str, mark: str = "") -> None:
        """Shows a line of a kind; where a mark is named, what stands before it alone is shown so."""
        head, found, rest = text.partition(mark) if mark else (text, "", "")
        self.line(Part(head + found, kind), Part(rest))

    def table(self, heads: Sequence[str], rows: Iterable[Sequence[Part]]) -> None:
        """Shows rows in columns as wide as the terminal allows. It is asked of a screen that has columns alone."""
        made = library("table").Table(box=library("box").SIMPLE_HEAD, pad_edge=False, header_style="bold")
        for head in heads:
            made.add_column(head, overflow="fold")
        for row in rows:
            made.add_row(*(self.text([it]) for it in row))
        self.put(made)

    def text(self, parts: Iterable[Part]) -> Any:
        """Parts as a text of `rich`, in which nothing is read as markup."""
        return library("text").Text.assemble(
            *((console.escaped(it.text, "\n\t"), STYLES.get(it.kind, "")) for it in parts)
        )

    def put(self, shown: Any, **more: Any) -> None:
        with self.rich.capture() as held:
            self.rich.print(shown, **more)
        self.stream.write(held.get())


def duration(seconds: float) -> str:
    """`8 s`, `3 min 20 s`, `2 h 5 min`."""
    whole = int(seconds)
    if whole < 60:
        return f"{whole} s"
    if whole < 3600:
        return f"{whole // 60} min {whole % 60} s"
    return f"{whole // 3600} h {whole % 3600 // 60} min"


class Meter:
    """How far a work of many parts is, on standard error where that is a terminal; nothing elsewhere.

    It says how many parts are done of how many, the rate, and how long the others take at this rate.
    """

    def __init__(self, what: str, unit: str, choice: str) -> None:
        self.what, self.unit = what, unit
        self.begun = time.monotonic()
        self.shown = 0.0
        self.is_shown = shows_more(sys.stderr)
        self.bar: Any = None
        self.task: Any = None
        made = rich_console(sys.stderr, choice) if self.is_shown else None
        if made is not None:
            rich = library("progress")
            columns = [rich.TextColumn(what), rich.BarColumn(20), rich.TextColumn("{task.description}", markup=False)]
            self.bar = rich.Progress(*columns, console=made, transient=True, redirect_stdout=False)

    def __enter__(self) -> Meter:
        if self.bar is not None:
            self.bar.start()
            self.task = self.bar.add_task("", total=None)
        return self

    def __exit__(self, *fault: object) -> None:
        if self.bar is not None:
            self.bar.stop()
        elif self.shown:
            self.write("")

    def show(self, done: int, total: int, more: str = "") -> None:
        """Shows how far the work is; calls that follow one another too fast to be read are passed over."""
        now = time.monotonic()
        if not self.is_shown or (done < total and now - self.shown < PAUSE):
            return
        self.shown = now
        told = self.told(done, total, now - self.begun) + (f", {more}" if more else "")
        if self.bar is None:
            self.write(f"{self.what}: {console.escaped(told)}")
        else:
            self.bar.update(self.task, completed=done, total=total, description=console.escaped(told))

    def told(self, done: int, total: int, seconds: float) -> str:
        text = f"{done} of {console.counted(total, self.unit)}"
        if done == 0 or seconds <= 0:
            return text
        rate = done / seconds
        left = f", {duration((total - done) / rate)} left" if done < total else ""
        return f"{text}, {rate:.1f}/s{left}"

    def write(self, text: str) -> None:
        # A line that is wider than the terminal couldn't be written over.
        sys.stderr.write(f"\r\x1b[K{text[: shutil.get_terminal_size().columns - 1]}")
        sys.stderr.flush()
