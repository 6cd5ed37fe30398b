"""Random small projects with their indexes, as the fuzzer makes them: few names, few versions, many markers."""

from __future__ import annotations

import random
from typing import NamedTuple

MARKERS = [
    "sys_platform == 'win32'", "sys_platform != 'win32'", "sys_platform == 'linux'", "os_name == 'nt'",
    "python_version < '3.10'", "python_version >= '3.10'", "python_version == '3.11'", "python_full_version >= '3.9.7'",
    "python_version in '3.9, 3.10'", "implementation_name == 'pypy'", "platform_machine == 'x86_64'",
    "'linux' in sys_platform", "platform_release >= '5'", "implementation_version < '7.4'", "'3' not in python_version",
    "sys_platform in 'linux linux2'", "extra == 'x'", "extra != 'x'",
]
SPECIFIERS = [
    "<2", ">=2", "<3", ">=1", "<2", ">=2", "<3", ">=1", "!=2", ">1", "==1", "==2", "~=1.0", "==1.*", ">=2.0a1", "<=1",
    "<2,!=1.1",
]
VERSIONS = ["1", "2", "1", "2", "1", "2", "3", "1.1", "2.0a1", "1.0.post1", "1.0+local", "1!1", "2.dev1"]
BOUNDS = [">=3.8", ">=3.9", ">=3.10", ">=3.8,<3.12", "!=3.10.*", ">3.9", "==3.11.*", "~=3.9"]
EXTRAS = ["x", "y", "Long_Extra"]
NAMES = ["a", "b", "c", "Dotted.Name"]
ENVIRONMENTS = ["sys_platform == 'linux'", "sys_platform != 'linux'", "os_name == 'nt' and python_version >= '3.10'"]


class Small(NamedTuple):
    """A project file and its documents as values."""

    project: str
    documents: dict


def spelled(rng: random.Random, name: str) -> str:
    return rng.choice([name, name, name.upper(), name.lower().replace(".", "-")])


def marker(rng: random.Random) -> str:
    text = rng.choice(MARKERS)
    while rng.random() < 0.25:
        text = f"{text} {rng.choice(['and', 'or'])} {rng.choice(MARKERS)}"
    return f"({text})" if rng.random() < 0.1 else text


def requirement(rng: random.Random, name: str) -> str:
    extras = f"[{','.join(rng.sample(EXTRAS, rng.choice([1, 1, 2])))}]" if rng.random() < 0.12 else ""
    text = spelled(rng, name) + extras + (rng.choice(SPECIFIERS) if rng.random() < 0.6 else "")
    return f"{text} ; {marker(rng)}" if rng.random() < 0.5 else text


def release(rng: random.Random, version: str, names: list) -> dict:
    entry: dict = {"version": version}
    wanted = [requirement(rng, name) for name in names for _ in range(rng.choice([0, 0, 0, 1, 1, 2]))]
    if wanted:
        entry["requires_dist"] = wanted
    if rng.random() < 0.12:
        entry["requires_python"] = rng.choice(BOUNDS)
    if rng.random() < 0.07:
        entry["yanked"] = rng.choice([True, "broken"])
    if rng.random() < 0.1:
        entry["files"] = [{"file": f"f-{version}.whl", "sha256": "Ab" * 32}]
    return entry


def document(rng: random.Random, name: str, names: list) -> dict:
    versions = sorted(set(rng.sample(VERSIONS, rng.choice([2, 3, 3, 4]))))
    return {"name": name, "versions": [release(rng, it, names) for it in versions]}


def quoted_lines(texts: list) -> str:
    return "".join(f'    "{it}",\n' for it in texts)


def project_text(rng: random.Random, names: list) -> str:
    wanted = [requirement(rng, name) for name in names[: rng.choice([1, 2, 2])] for _ in range(rng.choice([1, 1, 2]))]
    text = f'[project]\nname = "Demo"\nversion = "{rng.choice(["0.1", "1.0rc1"])}"\n'
    if rng.random() < 0.5:
        text += f'requires-python = "{rng.choice([">=3.9", ">=3.8,<3.12", ">=3.9,!=3.10.*"])}"\n'
    text += f"dependencies = [\n{quoted_lines(wanted)}]\n"
    if rng.random() < 0.2:
        text += f"\n[project.optional-dependencies]\nX = [\n{quoted_lines([requirement(rng, rng.choice(names))])}]\n"
        text += 'y = ["demo[x]"]\n' if rng.random() < 0.3 else ""
    if rng.random() < 0.1:
        text += f"\n[dependency-groups]\nDev = [\n{quoted_lines([requirement(rng, rng.choice(names))])}]\n"
        text += 'all = [{ include-group = "dev" }]\n'
    return text + uv_table(rng, names)


def uv_table(rng: random.Random, names: list) -> str:
    lines = []
    if rng.random() < 0.3:
        lines.append(f'fork-strategy = "{rng.choice(["fewest", "requires-python", "deep"])}"')
    if rng.random() < 0.15:
        lines.append(f'resolution = "{rng.choice(["highest", "lowest", "lowest-direct"])}"')
    if rng.random() < 0.15:
        lines.append(f'environments = [\n{quoted_lines(rng.sample(ENVIRONMENTS, 2))}]')
    for key in ("constraint-dependencies", "override-dependencies"):
        if rng.random() < 0.08:
            lines.append(f'{key} = ["{rng.choice(names)}{rng.choice(SPECIFIERS)} ; {rng.choice(MARKERS[:8])}"]')
    return "\n[tool.uv]\n" + "\n".join(lines) + "\n" if lines else ""


def small(rng: random.Random) -> Small:
    names = NAMES[: rng.choice([2, 3, 3, 4])]
    documents = {}
    for place, name in enumerate(names):
        below = names[place + 1 :] + (names[:1] if rng.random() < 0.1 else [])
        if rng.random() < 0.98:
            documents[name.lower().replace(".", "-")] = document(rng, spelled(rng, name), below)
    return Small(project_text(rng, names), documents)


LABELS = ["beta", "gamma", "Direct"]


def sourced(made: Small) -> Small:
    """A small project, one in six with sources of some of its names. That is drawn by its own text, so that all else is
    drawn as without."""
    rng = random.Random(made.project)
    if rng.random() < 0.83 or not made.documents:
        return made
    names = rng.sample(sorted(made.documents), min(len(made.documents), rng.choice([1, 1, 2])))
    lines, documents = "", dict(made.documents)
    for name in names:
        labels = rng.sample(LABELS, rng.choice([1, 1, 2]))
        lines += f"{name} = {sources(rng, labels)}\n"
        documents[name] = with_sources(rng, documents[name], labels)
    return Small(f'{made.project}\n[tool.uv.sources]\n{lines}\n[tool.unilock]\nprofile = "wide"\n', documents)


def sources(rng: random.Random, labels: list) -> str:
    """The sources of a name, each of an index or of none, most under a marker; two are mostly told apart by one."""
    text = rng.choice(MARKERS[:6])
    pair = [text, text.replace("==", "!=") if "==" in text else text.translate(str.maketrans("<>", "><"))]
    listed = []
    for label, one in zip(labels, pair if rng.random() < 0.8 else [rng.choice(MARKERS[:-2]) for _ in labels]):
        keys = ['path = "."' if label == "Direct" else f'index = "{label}"']
        keys += [f'marker = "{one}"'] if len(labels) == 2 or rng.random() < 0.7 else []
        listed.append(f"{{ {', '.join(keys)} }}")
    return listed[0] if len(listed) == 1 and rng.random() < 0.5 else f"[{', '.join(listed)}]"


def with_sources(rng: random.Random, document: dict, labels: list) -> dict:
    drawn = [(it, rng.choice([None, *labels, *labels, rng.choice(LABELS)])) for it in document["versions"]]
    return {**document, "versions": [it if label is None else {**it, "source": label} for it, label in drawn]}
