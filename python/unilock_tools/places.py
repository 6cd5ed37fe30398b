"""The text at the place that the program refuses: `malformed: FILE: PLACE` in sentences, with the line in the file."""

from __future__ import annotations

import json
import os
import re
import sys
from typing import Any, Iterator, List, Optional, Tuple

from . import advice, console, labels, poetry
from .console import Refused
from .locks import expected_at
from .markers import NoMarker
from .markers import read as read_marker
from .readings import requirement_fault
from .vendored import toml_reader
from .versions import NAME, normal_name, specifiers_fault, version

LOCK_HEADS = ("version = ", "\ufeffversion = ", "<<<<<<<")
LIMITS = {
    "file-bytes": "a project, machine or index file may have at most 16,777,216 bytes",
    "text-bytes": "a lock or a derivation may have at most 67,108,864 bytes",
    "total-bytes": "all documents together may have at most 268,435,456 bytes; `tools/index --newest N` makes fewer",
    "packages": "at most 20,000 names may be met; `tools/index --newest N` makes an index that reaches fewer",
    "releases": "the documents may have at most 200,000 releases; `tools/index --newest N` makes fewer",
    "comparisons": "at most 256 different comparisons of texts may stand in markers, such as `'x' in platform_version`",
    "forks": "the supported region may be split into at most 2,048 forks; fewer markers on the same package make fewer",
    "marker-paths": "a marker that is printed may have at most 4,096 alternatives",
}
SHAPES = {
    "project": "a table [project] with the project's name",
    "project.name": "a text that is a name: letters, digits and `-_.`, with a letter or digit at both ends",
    "project.version": "a text that is a version of PEP 440",
    "project.dynamic": "a list of texts",
    "project.requires-python": "a text such as \">=3.9\": clauses of PEP 440, with commas between them",
    "project.dependencies": "a list of texts",
    "project.optional-dependencies": "a table of lists, whose keys are different names (`A_b` and `a-b` are one name)",
    "dependency-groups": "a table of lists, whose keys are different names, and `group-NAME` is no extra",
    "tool": "a table",
    "tool.uv": "a table",
    "tool.uv.constraint-dependencies": "a list of texts",
    "tool.uv.override-dependencies": "a list of texts",
    "tool.uv.environments": "a marker, or a list of markers",
    "tool.uv.sources": "a table, whose keys are different names",
    "tool.uv.resolution": "one of \"highest\", \"lowest\" and \"lowest-direct\"",
    "document": "an object with `name` and `versions`",
    "name": "a text `name`",
    "versions": "a list `versions`",
}
SOURCE = (
    "a table, or a list of tables, in which `index` is a name other than `direct`, `marker` a marker without `extra`, "
    "and `extra` and `group` are names"
)
STRICT_INDEX = (
    "the strict profile has no place for it; index-url in [tool.uv] is asked, as are --index-url, --index and the "
    "variables of `tools/lock`; the wide profile passes it over, and the tools ask it"
)
# A text, a comment or a bracket of TOML.
TOML_TOKEN = re.compile(
    r'"""(?:[^\\]|\\.)*?"""|"(?:[^"\\\n]|\\.)*"|#[^\n]*|[\[\]{}]|' r"'''.*?'''|'[^'\n]*'", re.DOTALL
)
# How a line of pip's requirements files begins that names no package.
OF_PIP = re.compile(r"\s*(?:-|\.|/|[A-Za-z+]+://|git\+)")
UNSUPPORTED = {
    "project.dynamic": "what it names is read from the file alone, and nothing is built to learn it: it stands in "
    "[project], and not in `dynamic`",
    "tool.uv.sources": "the strict profile has no place for it; the wide profile reads it, and `tools/lock` follows it",
    "tool.uv.conflicts": "declared conflicts aren't supported; all extras and groups are locked together",
    "tool.uv.index": STRICT_INDEX,
    "tool.uv.extra-index-url": STRICT_INDEX,
    "tool.uv.find-links": "the strict profile has no place for it; `tools/index FOLDER OUT` reads a folder of wheels",
    "tool.uv.workspace": "the strict profile has no place for it; `tools/lock` locks one of a file that isn't strict",
    "tool.uv.dev-dependencies": "it isn't supported; [dependency-groups] is",
    "tool.uv.prerelease": "one of \"disallow\", \"allow\", \"if-necessary\", \"explicit\" and "
    "\"if-necessary-or-explicit\" (the default); the strict profile reads the last one alone",
    "tool.uv.fork-strategy": "only \"fewest\" (the default), \"requires-python\" and \"deep\" are supported",
}


def steps_of(place: str) -> Iterator[Tuple[str, Optional[int]]]:
    """The keys of a place, each with the number of an element where one stands: `a.b[3].c`."""
    # Extras and groups are names, which may have points in them only before they are in normal form.
    for piece in place.split("."):
        found = re.match(r"([^\[]*)(?:\[(\d+)\])?\Z", piece)
        yield (piece, None) if found is None else (found[1], None if found[2] is None else int(found[2]))


def value_at(tables: Any, place: str) -> Any:
    """What stands at a place, or None. A key counts in its normal form too, as extras and groups are named."""
    at = tables
    for key, number in steps_of(place):
        if not isinstance(at, dict):
            return None
        at = at.get(key, next((at[it] for it in at if isinstance(it, str) and normal_name(it) == key), None))
        if number is not None:
            at = at[number] if isinstance(at, list) and number < len(at) else None
    return at


def line_of(text: str, value: Any) -> Optional[int]:
    """The line of a file where a text stands, where it stands once."""
    if not isinstance(value, str) or not value:
        return None
    found = [
        number for number, line in enumerate(text.split("\n"), 1) if value in line or json.dumps(value)[1:-1] in line
    ]
    return found[0] if len(found) == 1 else None


def wrong_requirement(value: str) -> str:
    """What keeps a requirement from being read, and what is likely meant."""
    fault = requirement_fault(value)
    if fault is None:
        return "it asks for extras, or its marker does, which a constraint or an override can't"
    likely = advice.meant(value)
    if likely is not None:
        return f"{fault}; is `{likely}` meant?"
    if fault.endswith("a URL isn't supported"):
        return f"{fault}; ask for it by its name, of an index that has it (`tools/index FOLDER OUT` makes one of files)"
    if OF_PIP.match(value):
        return f"{fault}; options, paths and addresses, as pip takes them, aren't read"
    return fault


def meant_value(plain: str, value: Any) -> str:
    """The value that is likely meant where one of another form stands; the empty text where none is known."""
    made: Any = None
    if plain == "project.requires-python" and isinstance(value, str):
        made = advice.meant_python(value)
    elif plain == "project.dependencies" and isinstance(value, str):
        made = [value]
    elif plain == "project.dependencies" and isinstance(value, dict):
        made = poetry.listed(value)[0]
    return json.dumps(made) if made else ""


def wrong_group(value: Any, tables: Any) -> str:
    """What keeps an entry of a group from being read."""
    asked = value.get("include-group") if isinstance(value, dict) else None
    has = list(value_at(tables, "dependency-groups") or [])
    if isinstance(asked, str) and normal_name(asked) not in map(normal_name, has):
        return f"there is no group `{asked}` (there are: {', '.join(has)})"
    return "wanted: a requirement, or { include-group = NAME } of a group that isn't being expanded"


def wrong_shape(place: str, value: Any, tables: Any = None) -> str:
    """What is wanted at a place of the project file or of a document."""
    plain = re.sub(r"\[\d+\]", "", place)
    wanted = SHAPES.get(place) or SHAPES.get(plain)
    if plain == "project.requires-python" and isinstance(value, str):
        return f"{specifiers_fault(value)}; wanted: {wanted}"
    if plain == "project.version" and isinstance(value, str) and version(value) is None:
        return f"`{value}` is no version of PEP 440, as `1.0` is one"
    if plain == "tool.uv.environments" and isinstance(value, str):
        try:
            read_marker(value)
        except NoMarker as fault:
            return str(fault)
    if place.startswith("dependency-groups.") and "[" in place:
        return wrong_group(value, tables)
    if place.startswith(("dependency-groups.", "project.optional-dependencies.")):
        return "wanted: a list" + ("" if "[" not in place else " of texts")
    if plain.startswith("versions"):
        return wrong_entry(plain)
    if "[" in place:
        return "wanted: a text"
    if place.startswith(f"{labels.PLACE}."):
        return f"wanted: {SOURCE}"
    return f"wanted: {wanted}" if wanted else "it isn't of the form that is wanted there"


def least_project(path: str) -> List[str]:
    """The least project file that is read, for one that has no [project]."""
    folder = os.path.basename(os.path.dirname(os.path.abspath(path)))
    name = folder if NAME.match(folder) else "demo"
    running = ".".join(map(str, sys.version_info[:2]))
    lines = [f'name = "{name}"', 'version = "0.1"', f'requires-python = ">={running}"', "dependencies = []"]
    return ["The least that is read:", *(f"    {it}" for it in ["[project]", *lines])]


def wrong_entry(plain: str) -> str:
    wanted = {
        "versions": "an object with `version`",
        "versions.version": "a text",
        "versions.requires_python": "a text or null",
        "versions.requires_dist": "a list of texts, or null",
        "versions.yanked": "true, false, a text or null",
        "versions.files": "objects with `file`, a name without blanks, and `sha256`, 64 hex digits; each file once",
    }
    return f"wanted: {wanted.get(plain, 'the form of a package document')}"


def shown(value: Any) -> str:
    text = json.dumps(value, ensure_ascii=False, default=str)
    return text if len(text) <= 120 else text[:117] + ".."


def parsed(path: str, text: str) -> Tuple[Any, Optional[str]]:
    """The tables of a TOML or JSON file, or what is wrong with it, with the line."""
    if path.endswith(".json"):
        try:
            return json.loads(text), None
        except ValueError as fault:
            number = getattr(fault, "lineno", 0)
            return None, f"not JSON: {fault}" + quoted_line(text, number)
    reader = toml_reader()
    try:
        return reader.loads(text), None
    except reader.TOMLDecodeError as fault:
        return None, f"not TOML: {fault}" + toml_hint(text, str(fault))


def toml_hint(text: str, fault: str) -> str:
    """The line of a fault of TOML, with what is likely wrong there."""
    opened = opened_line(text) if fault.startswith(("Unclosed", "Invalid value")) else 0
    if opened:
        return "; a bracket that isn't closed stands there:" + quoted_line(text, opened)
    found = re.search(r"line (\d+), column (\d+)", fault)
    if found is None:
        return ""
    number, column = int(found[1]), int(found[2])
    is_bare = fault.startswith("Invalid value") and re.match(r"[A-Za-z_]", text.split("\n")[number - 1][column - 1 :])
    return ("; a text stands in quotes" if is_bare else "") + quoted_line(text, number)


def opened_line(text: str) -> int:
    """The line of the outermost bracket that isn't closed; 0 where all are."""
    opened: List[int] = []
    for found in TOML_TOKEN.finditer(text):
        if found[0] in ("[", "{"):
            opened.append(found.start())
        elif found[0] in ("]", "}") and opened:
            opened.pop()
    return text.count("\n", 0, opened[0]) + 1 if opened else 0


def quoted_line(text: str, number: int) -> str:
    lines = text.split("\n")
    return f"\n  line {number}: {lines[number - 1].strip()[:120]}" if 0 < number <= len(lines) else ""


def at_line(text: str, number: int) -> str:
    """What is wrong at a line of a lock, or of another text that the program writes."""
    told = f"the text isn't what the program writes; {expected_at(text, number)}" if text.startswith(LOCK_HEADS) else (
        "the text isn't what the program writes"
    )
    return told + (quoted_line(text, number) or f": it ends before line {number}")


def ended(text: str) -> str:
    """A sentence with its end, which a question has already."""
    return text if text.endswith("?") else f"{text}."


def malformed(path: str, place: str) -> List[str]:
    """`malformed: PATH: PLACE` in sentences."""
    if place == "absent":
        return [f"{path}: there is no such file."]
    text = console.text_of(path)
    word, _, rest = place.partition(" ")
    if word == "line" and rest.isdigit():
        return [f"{path}: {at_line(text, int(rest))}"]
    fixed = {
        "empty region": "requires-python and tool.uv.environments leave no interpreter and no platform to support",
        "name": "the document's `name` isn't that of its file",
        "root": "the lock has no package of its root's name, or several",
        "python form": "python_full_version isn't three numbers joined by points",
    }
    if place in fixed:
        return [f"{path}: {fixed[place]}."]
    if word == "missing":
        return [f"{path}: the text `{rest}` is missing; `tools/machine` prints a whole machine file."]
    if word == "target":
        return [f"{path}: package {int(rest) + 1} of the lock needs one that the lock hasn't."]
    tables, fault = parsed(path, text)
    if fault is not None:
        return [f"{path}: {fault}"]
    value = value_at(tables, rest)
    number = line_of(text, value)
    where = f"{path}: {rest}" + (f" (line {number})" if number else "")
    if word == "requirement" and isinstance(value, str):
        return [f"{where}: {ended(wrong_requirement(value))}"]
    if word == "unsupported":
        reason = UNSUPPORTED.get(rest) or (labels.OF_EXTRAS if rest.startswith(f"{labels.PLACE}.") else "")
        reason = reason or (wrong_requirement(value) if isinstance(value, str) else "it isn't supported")
        return [f"{where}: {ended(reason)}"]
    if word == "shape":
        has = "it isn't there" if value is None else f"it is {shown(value)}"
        likely = meant_value(rest, value)
        fault = wrong_shape(rest, value, tables) + (f"; is `{likely}` meant?" if likely else "")
        return [f"{where}: {has}; {ended(fault)}", *(no_project(path, tables) if rest == "project" else [])]
    return [f"{path}: {place}."]


def no_project(path: str, tables: Any) -> List[str]:
    """What to put into a file that has no [project]: for a Poetry project what it says."""
    lines = poetry.project_lines(tables) if isinstance(tables, dict) else []
    if lines:
        return ["This is a Poetry project; the same as it is read:", *(f"    {it}" for it in lines)]
    return least_project(path) if isinstance(tables, dict) and "project" not in tables else []


def told(line: str) -> Optional[List[str]]:
    """The sentences of a line that the program printed with status 3, 4 or 5, or None where it is none."""
    if line.startswith("malformed: "):
        path, _, place = line[len("malformed: ") :].rpartition(": ")
        try:
            return malformed(path, place)
        except Refused as fault:
            return [str(fault)]
    if line.startswith("limit: "):
        name, _, number = line[len("limit: ") :].partition(" ")
        return [f"A limit is passed ({name} {number}): {LIMITS.get(name, 'the input is too large')}."]
    if line.startswith("read fault: "):
        return [f"{line[len('read fault: '):]}: the file is there and can't be read; see its permissions."]
    return None
