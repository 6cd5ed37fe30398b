"""Common slips in a project file and its index folder, each with what is likely meant.

`doctor` says all of them, and `lock` says them when it has written a lock.
"""

from __future__ import annotations

import re
from typing import Any, Dict, Iterator, List, Optional, Tuple

from . import documents, labels, markers, project, worlds
from .console import Refused
from .locks import Lock
from .machine import PLATFORMS
from .project import Placed, Project
from .readings import requirement_fault, requirement_of
from .versions import (
    NAME, NoReading, Version, meets, normal_name, specifiers_fault, specifiers_of, version, version_of,
)  # fmt: skip

# Values that a variable never has, with the one that is meant.
MEANT: Dict[str, Dict[str, str]] = {
    "sys_platform": {
        "windows": "win32", "win": "win32", "win64": "win32", "nt": "win32", "macos": "darwin", "osx": "darwin",
        "mac": "darwin", "linux2": "linux", "posix": "linux",
    },
    "os_name": {"windows": "nt", "win32": "nt", "linux": "posix", "darwin": "posix", "macos": "posix", "unix": "posix"},
    "platform_system": {
        "win32": "Windows", "windows": "Windows", "nt": "Windows", "linux": "Linux", "darwin": "Darwin",
        "macos": "Darwin", "macOS": "Darwin", "MacOS": "Darwin",
    },
    "platform_python_implementation": {"cpython": "CPython", "pypy": "PyPy", "graalpy": "GraalVM"},
    "implementation_name": {"CPython": "cpython", "PyPy": "pypy"},
}  # fmt: skip
CLAUSES = ("==", "!=", "<=", ">=", "~=", "<", ">")
WHEEL_PLATFORMS = {"linux": ("linux", "manylinux", "musllinux"), "macos": ("macosx",), "windows": ("win",)}
# A requirement without its marker, with clauses by any operator or none; a clause whose operator has no version.
REQUIREMENT = re.compile(
    r"([A-Za-z0-9][A-Za-z0-9._-]*?)\s*(\[[^\]]*\])?\s*\(?\s*((?:[~^=@<>!]*\s*v?[0-9][^\s,;()]*\s*,?\s*)*)\)?"
)
CLAUSE = re.compile(r"([~^=@<>!]*)\s*v?([0-9][^\s,;()]*)")
WITHOUT_VERSION = re.compile(r"([A-Za-z0-9][A-Za-z0-9._-]*?)\s*(\[[^\]]*\])?\s*[~^=@<>!]+")
# Operators as other languages have them.
OPERATORS = [("&&?", " and "), (r"\|\|?", " or "), ("=>", ">="), ("=<", "<="), ("(?<![=!<>~])=(?!=)", "==")]
QUOTED = re.compile(r"('[^']*'|\"[^\"]*\")")
JOINS = ("and", "or", "not", "in")


def meant(text: str) -> Optional[str]:
    """The requirement that is likely meant by a text that has no reading: `flask=3.0`, `flask^3.0`, `flask 3.0`,
    `flask>=`, `flask; sys_platform = win32`."""
    if requirement_fault(text) is None:
        return None
    head, semicolon, marker = text.partition(";")
    made = head.strip() if requirement_fault(head) is None else meant_head(head.strip())
    if made is None:
        return None
    if semicolon:
        made += f"; {meant_marker(marker)}"
    return made if requirement_fault(made) is None else None


def meant_head(text: str) -> Optional[str]:
    """A name, its extras and clauses, of a requirement without its marker."""
    bare = WITHOUT_VERSION.fullmatch(text)
    if bare is not None:
        return f"{bare[1]}{bare[2] or ''}"
    found = REQUIREMENT.fullmatch(text)
    if found is None:
        return None
    clauses = meant_clauses(found[3])
    return None if clauses is None else f"{found[1]}{found[2] or ''}{clauses}"


def meant_clauses(text: str) -> Optional[str]:
    """`>=3,<4` for `^3` and for `>=3 <4`; None where it isn't known what is meant."""
    clauses = [meant_clause(operator, spelled) for operator, spelled in CLAUSE.findall(text)]
    kept = [it for it in clauses if it is not None]
    return ",".join(kept) if len(kept) == len(clauses) else None


def meant_python(text: str) -> Optional[str]:
    """The bound on the interpreter that is likely meant: `>=3.9` for `3.9`, `>=3.9,<4` for `^3.9`."""
    made = f">={text.strip()}" if version(text.strip()) is not None else meant_clauses(text)
    return made if made and specifiers_fault(made) is None else None


def meant_clause(operator: str, spelled: str) -> Optional[str]:
    """`==3.0` for `=3.0` and for `3.0`; None where it isn't known what is meant."""
    if operator in CLAUSES:
        return f"{operator}{spelled}"
    bounds = {it: f"=={spelled}" for it in ("", "=", "@", "===")}
    bounds.update({"=>": f">={spelled}", "=<": f"<={spelled}", "=!": f"!={spelled}"})
    read = version(spelled)
    if read is not None:
        bounds.update({"^": caret(spelled, read), "~": tilde(spelled, read)})
    return bounds.get(operator)


def meant_marker(text: str) -> str:
    """A marker with the operators of markers, and with quotes around what is neither an operator nor a variable."""
    pieces = QUOTED.split(text.strip())
    for at in range(0, len(pieces), 2):
        for slip, instead in OPERATORS:
            pieces[at] = re.sub(slip, instead, pieces[at])
        pieces[at] = re.sub(r"[A-Za-z0-9_.*+-]+", meant_word, pieces[at])
    return re.sub(r"[ \t]+", " ", "".join(pieces))


def meant_word(found: "re.Match[str]") -> str:
    """A word of a marker outside of quotes."""
    word = found[0]
    if word.lower() in JOINS:
        return word.lower()
    return word if word in markers.VARIABLES or word in markers.OLD_SPELLINGS else f"'{word}'"


def caret(spelled: str, read: Version) -> str:
    """Poetry's `^1.2`: up to the next release that changes the first number which isn't 0."""
    numbers = read.release
    at = next((k for k, it in enumerate(numbers) if it), len(numbers) - 1)
    return f">={spelled},<{'.'.join(map(str, [*numbers[:at], numbers[at] + 1]))}"


def tilde(spelled: str, read: Version) -> str:
    """Poetry's `~1.2`: up to the next second number."""
    numbers = [*read.release, 0][:2] if len(read.release) == 1 else read.release[:2]
    upper = [numbers[0] + 1] if len(read.release) == 1 else [numbers[0], numbers[1] + 1]
    return f">={spelled},<{'.'.join(map(str, upper))}"


def own_name(wanted: Project) -> Iterator[str]:
    """Requirements of the project on itself that ask for no extra, as one that is named as a library that it wants."""
    for placed in wanted.requirements:
        one = placed.requirement
        if one.name == wanted.name and not one.extras:
            other = "where another package of this name is meant, give the project another one"
            yield f"{placed.place}: `{one.text}` asks for the project itself; {other}"


def refuse_own_name(path: str) -> None:
    """Refuses a project that depends on its own name, as the program would meet that by the project itself."""
    try:
        wanted = project.load(path)
    except Refused:
        return
    for fault in own_name(wanted):
        raise Refused(f"{path}: {fault}", 3)


def requirement_slips(placed: Placed) -> Iterator[str]:
    """Markers of a requirement that never hold, or that hold by a value that no machine has."""
    for atom in markers.atoms(placed.requirement.marker):
        where = f"{placed.place}: `{placed.requirement.text}`"
        value = MEANT.get(atom.variable, {}).get(atom.literal)
        if value is not None and atom.op in ("==", "!="):
            yield f"{where}: no machine has {atom.variable} '{atom.literal}'; is '{value}' meant?"
        if atom.variable == "extra" and placed.extra is None:
            yield f"{where}: no extra is asked for there; the list of an extra is project.optional-dependencies.NAME"
        is_full = atom.op in ("==", "!=") and re.fullmatch(r"\d+\.\d+\.\d+", atom.literal)
        if atom.variable == "python_version" and is_full:
            yield f"{where}: python_version has two numbers; is python_full_version meant?"


def python_slips(wanted: Project) -> Iterator[str]:
    """A bound on the interpreter that none keeps."""
    clauses = specifiers_of(wanted.requires_python)
    points = markers.python_points(None, wanted.requires_python)
    if clauses and not any(meets(clauses, found) for found in map(version, points) if found is not None):
        yield f"project.requires-python: no interpreter keeps `{wanted.requires_python}`"


def index_slips(wanted: Project, index: str) -> Iterator[str]:
    """What the project's own requirements ask of the index that it doesn't have as they would have it."""
    for placed in wanted.requirements:
        one = placed.requirement
        try:
            found = documents.releases_of(documents.load(index, one.name))
        except Refused:
            # `doctor` says what is wrong with the document, and the program refuses it.
            continue
        if not found or one.name == wanted.name:
            continue
        known = [(version_of(spelled), entry) for spelled, entry in found]
        yield from (f"{placed.place}: {text}" for text in release_slips(wanted, placed, known))


def unsourced(wanted: Project, index: str) -> Iterator[str]:
    """The sources of which an index folder has no release, so that nothing serves where they count."""
    for name, listed in sorted(wanted.sources.items()):
        try:
            found = documents.releases_of(documents.load(index, name))
        except Refused:
            continue
        sources = {labels.source_of(entry) for _, entry in found}
        for one in listed if found else ():
            if one.name not in sources:
                where = labels.told(one.name) + (f", where {one.marker}" if one.marker else "")
                lacks = f"{labels.PLACE}.{name}: no release of {name} in the index comes from {where}"
                yield f"{lacks}; its releases: {labels.releases_told(found)}"


def release_slips(
    wanted: Project, placed: Placed, known: List[Tuple[Version, Dict[str, Any]]]
) -> Iterator[str]:
    one = placed.requirement
    for extra in one.extras:
        if not any(asks_for(text, extra) for _, entry in known for text in entry.get("requires_dist") or []):
            yield f"no release of {one.name} in the index requires anything for the extra {extra}"
    met = [(read, entry) for read, entry in known if meets(one.clauses, read)]
    for read, entry in met:
        yanked = entry.get("yanked")
        pinned = any(it.op == "==" and not it.prefix and it.version.key == read.key for it in one.clauses)
        if pinned and (yanked is True or isinstance(yanked, str)):
            reason = f": {yanked}" if isinstance(yanked, str) and yanked else ""
            yield f"{one.name} {read.text()}, which it pins, is yanked{reason}"
    asked = wanted.asks_prereleases(one.name)
    if met and not asked and all(read.is_pre for read, _ in met) and any(not read.is_pre for read, _ in known):
        newest = max((read for read, _ in met), key=lambda it: it.key).text()
        way = f"; `{one.name}>={newest}` takes them" if "explicit" in wanted.prereleases else ""
        yield f"only pre-releases meet `{one.text}`{way}"


def asks_for(text: str, extra: str) -> bool:
    """Whether a requirement's marker has to do with an extra."""
    try:
        read = requirement_of(text)
    except NoReading:
        return False
    return any(it.variable == "extra" and normal_name(it.literal) == extra for it in markers.atoms(read.marker))


def platforms_of(file: str) -> List[str]:
    """The platforms that a file can be installed on: all, for a source distribution."""
    if not file.endswith(".whl"):
        return list(PLATFORMS)
    tags = file[: -len(".whl")].rpartition("-")[2].split(".")
    starts = {it: WHEEL_PLATFORMS[it] for it in PLATFORMS}
    return [it for it, known in starts.items() if any(tag == "any" or tag.startswith(known) for tag in tags)]


def platform_slips(lock: Lock) -> Iterator[str]:
    """Packages that the lock gives on a platform for which it has none of their files."""
    texts = worlds.marker_texts(lock)
    walks = [(it, worlds.Walked(lock, it)) for it in worlds.machines(texts, "") if worlds.holds(lock.supported, it)]
    for package in lock.packages:
        served = {platform for name, _ in package.files for platform in platforms_of(name)}
        lacking = []
        for platform in PLATFORMS if package.files else []:
            here = [walked for machine, walked in walks if machine["sys_platform"] == PLATFORMS[platform][1]]
            if platform not in served and any(package.version in it.versions().get(package.name, ()) for it in here):
                lacking.append(platform)
        if lacking:
            yield f"{package.name} {package.version} has no file for {' and '.join(lacking)}, where the lock gives it"


def project_slips(wanted: Project) -> Iterator[str]:
    """The slips that the project file alone shows."""
    yield from python_slips(wanted)
    for placed in wanted.requirements:
        yield from requirement_slips(placed)


def warnings(path: str, index: str, lock: Lock) -> Iterator[str]:
    """The slips of a project that was locked."""
    try:
        wanted = project.load(path)
        yield from project_slips(wanted)
        yield from index_slips(wanted, index)
    except Refused:
        return
    yield from platform_slips(lock)


def name_of(text: str) -> str:
    """The name with which a requirement's text begins."""
    found = re.match(r"\s*([A-Za-z0-9._-]+)", text)
    return found[1] if found and NAME.match(found[1]) else ""
