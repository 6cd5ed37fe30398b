"""Variables of markers that go together on every machine that there is: of the system, and of the implementation.

The program takes them as independent. Some lockers don't: uv writes `sys_platform == 'win32'` where a package says
`platform_system == 'Windows'`. Such a lock is wrong where the two differ, which is on no machine. So it is judged once
more, for the environments alone in which these variables go together.
"""

from __future__ import annotations

from typing import Any, Dict, Iterable, List

from . import markers, reduced
from .marker_texts import ALWAYS, every
from .project import Project
from .worlds import marker_of

# The values of two variables of which a machine has both or neither.
PAIRS = [
    ("platform_system", "Windows", "sys_platform", "win32"),
    ("platform_system", "Darwin", "sys_platform", "darwin"),
    ("platform_system", "Linux", "sys_platform", "linux"),
    ("platform_system", "AIX", "sys_platform", "aix"),
    ("platform_system", "Emscripten", "sys_platform", "emscripten"),
    ("os_name", "nt", "sys_platform", "win32"),
    ("platform_python_implementation", "CPython", "implementation_name", "cpython"),
    ("platform_python_implementation", "PyPy", "implementation_name", "pypy"),
]
# Systems on which `os_name` is `posix`.
POSIX = ["linux", "darwin"]
GROUPS = [
    {"os_name", "sys_platform", "platform_system"},
    {"platform_python_implementation", "implementation_name"},
]


def asked_of(texts: Iterable[str]) -> List[str]:
    """Of each group of variables that go together, those that markers ask for, where these are more than one."""
    asked = {atom.variable for text in texts for atom in markers.atoms(marker_of(text))}
    return [it for group in GROUPS if len(asked & group) > 1 for it in sorted(asked & group)]


def together(texts: Iterable[str]) -> str:
    """The marker of the environments in which the variables go together that these markers ask for."""
    wanted = set(asked_of(texts))
    # What links two of them may be a third one.
    wanted |= {"sys_platform"} if wanted & {"os_name", "platform_system"} else set()
    found = []
    for one, value, other, its in PAIRS:
        if one in wanted and other in wanted:
            both, neither = f"{one} == '{value}' and {other} == '{its}'", f"{one} != '{value}' and {other} != '{its}'"
            found.append(f"{both} or {neither}")
    if "os_name" in wanted:
        found += [f"sys_platform != '{it}' or os_name == 'posix'" for it in POSIX]
    return every(found)


def project_of(project: Project, condition: str) -> Project:
    """The project, for environments alone in which a condition holds."""
    tables: Dict[str, Any] = reduced.tables_of(project, project.extras())
    listed = project.environments() or [ALWAYS]
    tables["tool"]["uv"]["environments"] = [every([it, condition]) for it in listed]
    return Project(project.path, tables)
