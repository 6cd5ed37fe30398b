"""Requirements, project files and index documents, read plainly: PEP 508, 621 and 735, and the keys of `tool.uv`."""

from __future__ import annotations

import re
from typing import Any, Iterable, NamedTuple, Optional

from plain import ALL_SPACE, SPACE, TRUE, NoReading, Version, marker, normal_name, specifiers, version

try:
    import tomllib
except ImportError:  # before Python 3.11
    from pip._vendor import tomli as tomllib  # type: ignore

# Requirements.

REQUIREMENT = re.compile(
    r"[ \t]*([A-Za-z0-9._-]+)[ \t]*"
    r"(?:\[[ \t]*((?:[A-Za-z0-9._-]+(?:[ \t]*,[ \t]*[A-Za-z0-9._-]+)*)?)[ \t]*\])?[ \t]*"
    r"([^;]*?)[ \t]*(?:;(.*))?",
    re.S,
)


# A requirement by a URL: a name, extras, the URL and a marker.
BY_URL = re.compile(
    r"[ \t]*([A-Za-z0-9._-]+)[ \t]*(?:\[([^\]]*)\])?[ \t]*@[ \t]*[!-~]+(?:[ \t]+;(.*)|[ \t]*)",
    re.S,
)


class Requirement(NamedTuple):
    """A requirement; `source` says where a release has to come from that meets it: None is anywhere, and the empty text
    where no source is named."""

    name: str
    extras: tuple
    clauses: tuple
    marker: tuple
    source: Optional[str] = None

    @property
    def targets(self) -> list:
        return [(self.name, ""), *((self.name, it) for it in sorted(set(self.extras)))]


def requirement(text: str) -> Requirement:
    text = text.strip(ALL_SPACE)
    found = REQUIREMENT.fullmatch(text)
    if found is None or found[3].startswith("@") or any(it in text for it in "\n\v\f\r"):
        raise NoReading(text)
    specs = found[3]
    if specs.startswith("(") and specs.endswith(")"):
        specs = specs[1:-1]
    extras = tuple(normal_name(it.strip(SPACE)) for it in (found[2] or "").split(",") if it.strip(SPACE))
    read = TRUE if found[4] is None else marker(found[4])
    return Requirement(normal_name(found[1]), extras, specifiers(specs), read)


def wide_requirement(text: str) -> Requirement:
    """What a text asks for in a project of the wide profile: one by a URL is on its name, without specifiers."""
    found = BY_URL.fullmatch(text.strip(ALL_SPACE))
    if found is None:
        return requirement(text)
    front = f"{found[1]}[{found[2]}]" if found[2] is not None else found[1]
    return requirement(front if found[3] is None else f"{front};{found[3]}")


# Project files.


class Project(NamedTuple):
    """What a project file says; groups are extras here, named `group-NAME`."""

    name: str
    version: Version
    python: tuple
    requirements: tuple
    extras: tuple
    environments: tuple
    mode: str
    prereleases: str
    strategy: str
    constraints: tuple
    overrides: tuple
    sources: dict


def project(text: str) -> Project:
    given = tomllib.loads(text)
    tools = given.get("tool", {})
    table, uv = given["project"], tools.get("uv", {})
    is_wide = tools.get("unilock", {}).get("profile") == "wide"
    read_one = wide_requirement if is_wide else requirement
    lists = {normal_name(name): list(it) for name, it in table.get("optional-dependencies", {}).items()}
    groups = {normal_name(name): list(it) for name, it in given.get("dependency-groups", {}).items()}
    if is_wide and uv.get("dev-dependencies"):
        groups.setdefault("dev", []).extend(uv["dev-dependencies"])
    for name in groups:
        lists[f"group-{name}"] = expanded(groups, name, set())
    requirements = [read_one(it) for it in table.get("dependencies", [])]
    for name in sorted(lists):
        for read in map(read_one, lists[name]):
            requirements.append(read._replace(marker=("and", read.marker, ("extra", name))))
    environments = uv.get("environments", [])
    return Project(
        normal_name(table["name"]),
        version(table.get("version", "0")),
        specifiers(table.get("requires-python", "")),
        tuple(requirements),
        tuple(sorted(lists)),
        tuple(marker(it) for it in ([environments] if isinstance(environments, str) else environments)),
        uv.get("resolution", "highest"),
        uv.get("prerelease", "if-necessary-or-explicit"),
        uv.get("fork-strategy", "fewest"),
        tuple(map(read_one, uv.get("constraint-dependencies", []))),
        tuple(map(read_one, uv.get("override-dependencies", []))),
        {normal_name(name): sources(it) for name, it in uv.get("sources", {}).items()} if is_wide else {},
    )


def sources(value: Any) -> tuple:
    """The sources of a name, each with its label and its condition."""
    listed = value if isinstance(value, list) else [value]
    conditions = [marker(it["marker"]) if "marker" in it else TRUE for it in listed]
    return tuple((normal_name(it.get("index", "direct")), one) for it, one in zip(listed, conditions))


def expanded(groups: dict, name: str, seen: set) -> list:
    """The requirements of a group, with those of the groups that it includes in their place, each group once."""
    seen.add(name)
    texts: list = []
    for it in groups[name]:
        if isinstance(it, str):
            texts.append(it)
        elif normal_name(it["include-group"]) not in seen:
            texts += expanded(groups, normal_name(it["include-group"]), seen)
    return texts


# Documents.


class Release(NamedTuple):
    version: Version
    python: tuple
    requirements: tuple
    yanked: bool
    files: tuple
    source: str = ""


def releases(document: dict) -> list:
    """The usable releases of a document, in its order."""
    found, seen = [], set()
    for entry in document["versions"]:
        try:
            read = version(entry["version"])
        except NoReading:
            continue
        if read.key in seen:
            continue
        seen.add(read.key)
        try:
            python = specifiers(entry.get("requires_python") or "")
            wanted = tuple(map(requirement, entry.get("requires_dist") or []))
        except NoReading:
            continue
        files = sorted((it["file"], it["sha256"].lower()) for it in entry.get("files") or [])
        found.append(
            Release(read, python, wanted, entry.get("yanked") not in (None, False), tuple(files), source_of(entry))
        )
    return found


def source_of(entry: dict) -> str:
    try:
        return normal_name(entry.get("source") or "")
    except (NoReading, TypeError):
        return ""


def adjusted(project: Project, requirements: Iterable[Requirement]) -> tuple:
    """A release's requirements with the project's overrides in their place, and its constraints and then what its
    sources ask for behind them."""
    replaced: list = []
    for it in requirements:
        mine = [other for other in project.overrides if other.name == it.name]
        for other in mine:
            replaced.append(it._replace(clauses=other.clauses, marker=("and", it.marker, other.marker)))
        replaced += [] if mine else [it]
    made: list = []
    for it in replaced:
        made.append(it)
        for other in project.constraints:
            if other.name == it.name:
                made.append(other._replace(marker=("and", it.marker, other.marker)))
    return tuple(other for it in made for other in (it, *sourced(project, it)))


def sourced(project: Project, it: Requirement) -> list:
    """What the project's sources of a name ask for where a requirement on it is true: where the condition of one holds,
    a release that comes from there; where none holds, one that comes from none."""
    listed = project.sources.get(it.name, ()) if it.name != project.name else ()
    made = [Requirement(it.name, (), (), ("and", it.marker, condition), label) for label, condition in listed]
    if listed and TRUE not in [condition for _, condition in listed]:
        none = ("and", it.marker, *(("not", condition) for _, condition in listed))
        made.append(Requirement(it.name, (), (), none, ""))
    return made
