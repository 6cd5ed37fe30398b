"""Reading a lock, with the standard library alone: its head, its packages, their files and their edges.

A lock that an editor or a checkout gave a byte order mark or other line ends is read in the program's form, and that is
said; a merge conflict in it is named as one.
"""

from __future__ import annotations

import contextlib
import os
import re
import tempfile
from pathlib import Path
from typing import Dict, Iterator, List, Mapping, NamedTuple, Optional, Sequence, Tuple

from .called import command
from .console import Refused, say, text_of
from .versions import version_of

HEAD = re.compile(r'(root|supported-markers|name|version) = "((?:[^"\\]|\\.)*)"\Z')
EDGE = re.compile(
    r'    \{ name = "([^"]*)", version = "([^"]*)"(?:, extra = "([^"]*)")?(?:, marker = "((?:[^"\\]|\\.)*)")? \},\Z'
)
FILE = re.compile(r'    \{ file = "([^"]*)", hash = "sha256:([0-9a-f]{64})" \},\Z')
LIST = re.compile(r"(files|dependencies|resolution-markers|[a-z0-9-]+) = \[(\])?\Z")
CONFLICT = re.compile(r"(<{7}|>{7}|\|{7})( |\Z)|={7}\Z")
BLOCK_HEAD = re.compile(
    r'(\[\[package\]\]\nname = "[^"]*"\nversion = "[^"]*")(?:\nfiles = \[\n(?:    \{ file = .*\n)+\])?'
)
FILE_FORM = '{ file = "FILE", hash = "sha256:HEX" },'
EDGE_FORM = '{ name = "NAME", version = "VERSION" }, (before the end also extra = "NAME" and marker = "MARKER")'


class Edge(NamedTuple):
    """A requirement as it was locked: the package that it is met by, and the worlds (empty: all) that it holds in."""

    name: str
    version: str
    extra: Optional[str]
    marker: str


class Package:
    """One version of one package."""

    def __init__(self, name: str) -> None:
        self.name = name
        self.version = ""
        self.files: List[Tuple[str, str]] = []
        self.edges: List[Edge] = []
        self.extras: Dict[str, List[Edge]] = {}

    def all_edges(self) -> Iterator[Tuple[Optional[str], Edge]]:
        """Each edge with the extra that it belongs to."""
        for edge in self.edges:
            yield None, edge
        for extra, edges in self.extras.items():
            for edge in edges:
                yield extra, edge


class Lock:
    """A lock: the root's name, the supported region, the forks, and the packages in the order of the file."""

    def __init__(self) -> None:
        self.root = ""
        self.supported = ""
        self.forks: List[str] = []
        self.packages: List[Package] = []

    def root_package(self) -> Package:
        return next(it for it in self.packages if it.name == self.root)

    def package(self, name: str, version: str) -> Package:
        return next(it for it in self.packages if (it.name, it.version) == (name, version))

    def by_name(self) -> Dict[str, List[Package]]:
        named: Dict[str, List[Package]] = {}
        for package in self.packages:
            named.setdefault(package.name, []).append(package)
        return named


def unescaped(text: str) -> str:
    return text.replace('\\"', '"')


class _Reader:
    """Reads the lines of a lock one by one."""

    def __init__(self) -> None:
        self.lock = Lock()
        self.into = ""
        self.in_extras = False

    def line(self, text: str) -> bool:
        """Whether the line is one of a lock at this place."""
        if self.into:
            return self.element(text)
        if text == "":
            return True
        if text == "[[package]]":
            self.lock.packages.append(Package(""))
            self.in_extras = False
            return True
        if text == "[package.optional-dependencies]":
            self.in_extras = True
            return bool(self.lock.packages)
        return self.head(text) or self.opening(text)

    def head(self, text: str) -> bool:
        found = HEAD.match(text)
        if found is None:
            return False
        key, value = found[1], unescaped(found[2])
        if key in ("name", "version"):
            if not self.lock.packages or self.in_extras:
                return False
            setattr(self.lock.packages[-1], key, value)
        elif self.lock.packages:
            return False
        elif key == "root":
            self.lock.root = value
        else:
            self.lock.supported = value
        return True

    def opening(self, text: str) -> bool:
        found = LIST.match(text)
        if found is None or (not self.in_extras and found[2]):
            return False
        if self.in_extras:
            self.lock.packages[-1].extras[found[1]] = []
        elif (found[1] == "resolution-markers") == bool(self.lock.packages):
            return False
        elif found[1] not in ("files", "dependencies", "resolution-markers"):
            return False
        self.into = "" if found[2] else found[1]
        return True

    def element(self, text: str) -> bool:
        if text == "]":
            self.into = ""
            return True
        if self.into == "resolution-markers" and not self.lock.packages:
            self.lock.forks.append(unescaped(text.strip()[1:-2]))
            return True
        package = self.lock.packages[-1]
        if self.into == "files" and not self.in_extras:
            file = FILE.match(text)
            if file is not None:
                package.files.append((file[1], file[2]))
            return file is not None
        edge = EDGE.match(text)
        if edge is not None:
            to = package.extras[self.into] if self.in_extras else package.edges
            to.append(Edge(edge[1], edge[2], edge[3], unescaped(edge[4] or "")))
        return edge is not None


def in_form(text: str) -> Tuple[str, List[str]]:
    """The text without a byte order mark and with the line ends of the program, and what was done to it."""
    done = []
    if text.startswith("\ufeff"):
        text, done = text[1:], ["its byte order mark is passed over"]
    if "\r\n" in text:
        text = text.replace("\r\n", "\n")
        done.append("its line ends CR LF are read as LF")
    return text, done


def conflict_line(text: str) -> Optional[int]:
    """The first line of a merge conflict, where one stands in the text."""
    lines = text.split("\n")
    found = [number for number, line in enumerate(lines, 1) if CONFLICT.match(line)]
    return found[0] if len(found) > 1 else None


def is_lock(text: str) -> bool:
    """Whether a text is a lock of unilock, though perhaps one with faults: what may be replaced by a new lock."""
    lines = [it for it in in_form(text)[0].split("\n") if not CONFLICT.match(it)]
    head = lines[: lines.index("[[package]]")] if "[[package]]" in lines else lines
    if not text.strip():
        return True
    return head[0] in ("version = 1", "version = 2") and any(it.startswith("root = ") for it in head)


@contextlib.contextmanager
def program_form(path: str) -> Iterator[str]:
    """A path by which the program reads the lock: its own, or that of a copy in the program's form."""
    try:
        text, done = in_form(Path(path).read_bytes().decode("utf-8"))
    except (OSError, UnicodeDecodeError):
        done = []
    if not done:
        yield path
        return
    with tempfile.TemporaryDirectory(prefix="unilock-") as held:
        copy = Path(held) / Path(path).name
        copy.write_bytes(text.encode("utf-8"))
        yield str(copy)


def begun(text: str) -> Tuple[_Reader, int]:
    """A reader of the lines up to the first that is no line of a lock, and the number of that (0: there is none)."""
    reader = _Reader()
    lines = text.split("\n")
    if lines[0] not in ("version = 1", "version = 2"):
        return reader, 1
    return reader, next((number for number, line in enumerate(lines[1:], 2) if not reader.line(line)), 0)


def expected_at(text: str, number: int) -> str:
    """What may stand at a line that the program refuses."""
    text = in_form(text)[0]
    lines = text.split("\n")
    if conflict_line(text) is not None:
        return f"a merge conflict begins at line {conflict_line(text)}; take one side, then lock again"
    if number > len(lines) or lines[number - 1 :] == [""]:
        return "the text is cut off; it ends with whole blocks [[package]], each line with its LF"
    if number == 1:
        return "expected: version = 2"
    reader, fault = begun("\n".join(lines[:number]))
    if fault == 0:
        return "such a line may stand there, but not in this order, not twice, or not with another spelling of it"
    if reader.into == "files" and not reader.in_extras:
        return f"expected: {FILE_FORM} or the end ]"
    if reader.into == "resolution-markers" and not reader.lock.packages:
        return 'expected: "MARKER", or the end ]'
    if reader.into:
        return f"expected: {EDGE_FORM} or the end ]"
    if not reader.lock.packages:
        return 'expected: root = "NAME", supported-markers, resolution-markers or [[package]]'
    if reader.in_extras:
        return "expected: NAME = [, NAME = [] or the next [[package]]"
    return "expected: name, version, files, dependencies, [package.optional-dependencies] or the next [[package]]"


def read(text: str, path: str) -> Lock:
    """The lock that a text has; `path` stands in what is refused."""
    text = in_form(text)[0]
    conflict = conflict_line(text)
    if conflict is not None:
        raise Refused(f"{path}: line {conflict}: a merge conflict stands there; take one side, then lock again", 3)
    reader, fault = begun(text)
    lines = text.split("\n")
    if fault == 1:
        raise Refused(f"{path}: line 1: it is no lock of unilock: it doesn't begin with `version = 2`")
    if fault:
        wanted = expected_at(text, fault)
        raise Refused(f"{path}: line {fault}: no line of a lock: {lines[fault - 1][:60]} ({wanted})")
    lock = reader.lock
    if reader.into or not any(it.name == lock.root for it in lock.packages):
        raise Refused(f"{path}: the lock is cut off")
    known = {(it.name, it.version) for it in lock.packages}
    for package in lock.packages:
        for _, edge in package.all_edges():
            if (edge.name, edge.version) not in known:
                raise Refused(
                    f"{path}: {package.name} {package.version} needs {edge.name} {edge.version}, which the lock hasn't"
                )
    return lock


def load(path: str) -> Lock:
    """The lock of a file."""
    if path != "-" and not os.path.lexists(path):
        raise Refused(f"{path}: there is no such file; `{command('lock')}` makes a lock")
    text = text_of(path)
    for done in in_form(text)[1]:
        say(f"{path}: {done}")
    return read(text, path)


def preferences(lock: Lock, without: Sequence[str], instead: Optional[Mapping[str, str]] = None) -> str:
    """A lock's text that has the versions of `lock` without edges, those of some names left out.

    As an old lock it keeps all versions but those of the names left out; a name in `instead` has the version there.
    """
    instead = instead or {}
    kept = [(it.name, it.version) for it in lock.packages if it.name not in (*without, *instead)]
    root = lock.root_package()
    named = {(root.name, root.version), *kept, *instead.items()}
    blocks = [f'version = 2\nroot = "{lock.root}"\n']
    for name, spelled in sorted(named, key=lambda it: (it[0], version_of(it[1]).key)):
        blocks.append(f'\n[[package]]\nname = "{name}"\nversion = "{spelled}"\n')
    return "".join(blocks)


def blocks_of(text: str) -> List[str]:
    """The head of a lock's text and its packages' blocks, which joined by an empty line are the text."""
    head, *packages = text.split("\n\n[[package]]\n")
    return [head, *(f"[[package]]\n{it}" for it in packages)]


def block_key(block: str) -> Tuple[str, str]:
    """The name and the version of a package's block."""
    found = re.match(r'\[\[package\]\]\nname = "([^"]*)"\nversion = "([^"]*)"', block)
    return (found[1], found[2]) if found else ("", "")


def with_files(block: str, files: Sequence[Tuple[str, str]]) -> str:
    """A package's block with these files in the place of its own."""
    lines = "".join(f'    {{ file = "{name}", hash = "sha256:{summed}" }},\n' for name, summed in files)
    listed = f"\nfiles = [\n{lines}]" if lines else ""
    return BLOCK_HEAD.sub(lambda found: found[1] + listed, block, count=1)


def edge_order(edge: Edge) -> Tuple[str, Tuple[object, ...], str]:
    """The order of edges in a lock: by name, version, then the package before its extras."""
    return edge.name, version_of(edge.version).key, edge.extra or ""


def quoted(marker: str) -> str:
    escaped = marker.replace('"', '\\"')
    return f'"{escaped}"'


def edge_line(edge: Edge) -> str:
    parts = [f'name = "{edge.name}"', f'version = "{edge.version}"']
    parts += [f'extra = "{edge.extra}"'] if edge.extra else []
    parts += [f"marker = {quoted(edge.marker)}"] if edge.marker else []
    return f"    {{ {', '.join(parts)} }},\n"


def package_block(package: Package) -> str:
    """The block of a package, its edges and extras in the order in which they stand in it."""
    text = f'[[package]]\nname = "{package.name}"\nversion = "{package.version}"'
    if package.edges:
        text += "\ndependencies = [\n" + "".join(map(edge_line, package.edges)) + "]"
    if package.extras:
        text += "\n\n[package.optional-dependencies]"
    for extra in sorted(package.extras):
        lines = "".join(map(edge_line, package.extras[extra]))
        text += f"\n{extra} = [\n{lines}]" if lines else f"\n{extra} = []"
    return with_files(text, package.files)


def lock_text(lock: Lock) -> str:
    """The text of a lock, its packages in the order in which they stand in it."""
    head = ["version = 2", f'root = "{lock.root}"']
    if lock.supported:
        head.append(f"supported-markers = {quoted(lock.supported)}")
    if lock.forks:
        head += ["resolution-markers = [", *(f"    {quoted(it)}," for it in lock.forks), "]"]
    return "\n\n".join(["\n".join(head), *map(package_block, lock.packages)]) + "\n"


def changes(old: Optional[Lock], new: Lock) -> List[str]:
    """What changed in words, one line for each name: `added`, `removed`, `a 1 -> 2`. The root isn't counted."""
    before = {} if old is None else old.by_name()
    after = new.by_name()
    lines = []
    for name in sorted(set(before) | set(after)):
        if name == new.root:
            continue
        was = [it.version for it in before.get(name, [])]
        now = [it.version for it in after.get(name, [])]
        if not was:
            lines.append(f"added {name} {', '.join(now)}")
        elif not now:
            lines.append(f"removed {name} {', '.join(was)}")
        elif was != now:
            lines.append(f"{name} {', '.join(was)} -> {', '.join(now)}")
    return lines
