"""Families of projects that grow in one direction each, by which speed is measured; at a small size their locks are
tests.

python3 tests/families.py FAMILY NUMBERS.. FOLDER writes one: `FOLDER/p.toml` and `FOLDER/ix`.

    index PACKAGES RELEASES NEEDS   releases whose requirements change slowly, with bounds, markers and extras
    asked RELEASES EXTRAS NEEDS     one package with many extras, and an extra that asks for all of them
    extras SIZE                     a project with SIZE extras of one requirement each
    same SIZE                       a project that says one requirement SIZE times
    groups SIZE                     a chain of SIZE dependency groups, each with a requirement and the next group
    overrides SIZE                  SIZE requirements on one name and SIZE overrides of it
    absent SIZE                     a project that requires SIZE names without a document
    directs SIZE                    SIZE direct requirements on packages with a pre-release and a yanked release
    twins SIZE                      SIZE extras of one package that ask one name, each its own versions of it
    product SPLITS SIZE             SPLITS names that the project asks in two ways (up to five of them 2^SPLITS forks),
                                    and a chain of SIZE others
"""

from __future__ import annotations

import json
import random
import sys
from pathlib import Path
from typing import Callable, Dict, List, Tuple

Release = Tuple[str, List[str]]
Family = Tuple[str, Dict[str, str]]

MARKERS = [
    "", "", "", "; python_version < '3.11'", "; sys_platform == 'win32'", "; extra == 'test'", "; extra == 'docs'",
    "; platform_python_implementation == 'CPython'",
]


VARIABLES = ["sys_platform", "os_name", "platform_machine", "platform_system", "implementation_name"]


def project(requirements: List[str], more: str = "") -> str:
    listed = "".join(f"    {json.dumps(it)},\n" for it in requirements)
    return f'[project]\nname = "demo"\nversion = "1"\nrequires-python = ">=3.9"\ndependencies = [\n{listed}]\n{more}'


def document(name: str, releases: List[Release]) -> str:
    entries = [{"version": version, "requires_dist": texts} for version, texts in releases]
    return json.dumps({"name": name, "versions": entries})


def index(packages: int, releases: int, needs: int) -> Family:
    rng = random.Random(5)
    documents = {}
    for package in range(packages):
        wants = [(rng.randrange(packages), rng.choice(MARKERS)) for _ in range(needs)]
        entries = []
        for version in range(releases):
            if rng.randrange(10) == 0:
                wants[rng.randrange(needs)] = (rng.randrange(packages), rng.choice(MARKERS))
            bounds = [f">={max(0, version - 40) // 10}.0,<{version // 10 + 3 + at % 3}" for at in range(needs)]
            texts = [
                f"p{other}{bounds[at]}{marker}" if other != package else f"p{(other + 1) % packages}{marker}"
                for at, (other, marker) in enumerate(wants)
            ]
            entries.append((f"{version // 10}.{version % 10}.0", texts))
        documents[f"p{package}"] = document(f"p{package}", entries)
    return project([f"p{it}" for it in range(min(5, packages))]), documents


def asked(releases: int, extras: int, needs: int) -> Family:
    texts = [f'q{(e * needs + at) % 40}>=1; extra == "e{e}"' for e in range(extras) for at in range(needs)]
    texts.append(f'many[{",".join(f"e{e}" for e in range(extras))}]; extra == "all"')
    documents = {"many": document("many", [(f"{it}.0", texts) for it in range(1, releases + 1)])}
    for it in range(40):
        documents[f"q{it}"] = document(f"q{it}", [(str(version), []) for version in range(1, 20)])
    return project(["many[all]"]), documents


def extras(size: int) -> Family:
    listed = "".join(f'e{it} = ["x{it}"]\n' for it in range(size))
    documents = {f"x{it}": document(f"x{it}", [("1", [])]) for it in range(size)}
    return project([], f"[project.optional-dependencies]\n{listed}"), documents


def same(size: int) -> Family:
    return project(["a"] * size), {"a": document("a", [("1", [])])}


def groups(size: int) -> Family:
    chain = "".join(f'g{it:05} = ["a", {{include-group = "g{it + 1:05}"}}]\n' for it in range(size))
    return project([], f'[dependency-groups]\n{chain}g{size:05} = ["a"]\n'), {"a": document("a", [("1", [])])}


def overrides(size: int) -> Family:
    listed = ", ".join(['"a>=1"'] * size)
    text = project(["a"] * size, f"[tool.uv]\noverride-dependencies = [{listed}]\n")
    return text, {"a": document("a", [("1", [])])}


def absent(size: int) -> Family:
    return project([f"n{it}" for it in range(size)]), {}


def directs(size: int) -> Family:
    def entries(name: str) -> str:
        releases = [{"version": "1"}, {"version": "2", "yanked": True}, {"version": "3a1"}]
        return json.dumps({"name": name, "versions": releases})

    texts = [f"d{it}" + ["", ">=3a1", "==2"][it % 3] for it in range(size)]
    return project(texts), {f"d{it}": entries(f"d{it}") for it in range(size)}


def twins(size: int) -> Family:
    texts = [f'q=={it + 1}; extra == "e{it}" and python_version == "3.{9 + it}"' for it in range(size)]
    texts.append('q; extra == "e0" or extra == "e1"')
    documents = {
        "many": document("many", [("1", texts), ("2", [*texts, 'q<1; extra != "e0"'])]),
        "q": document("q", [(str(it), []) for it in range(1, size + 3)]),
    }
    wanted = ",".join(f"e{it}" for it in range(size))
    return project([f"many[{wanted}]"]), documents


def product(splits: int, size: int) -> Family:
    texts = ["p0"]
    for it in range(splits):
        variable = VARIABLES[it % len(VARIABLES)]
        texts += [f"c{it}<2; {variable} == 'k{it}'", f"c{it}>=2; {variable} != 'k{it}'"]
    documents = {f"c{it}": document(f"c{it}", [("1", []), ("2", [])]) for it in range(splits)}
    for it in range(size):
        documents[f"p{it}"] = document(f"p{it}", [("1", [f"p{(it + 1) % size}", f"c{it % splits}"])])
    return project(texts), documents


FAMILIES: Dict[str, Callable[..., Family]] = {
    "index": index, "asked": asked, "extras": extras, "same": same, "groups": groups, "overrides": overrides,
    "absent": absent, "directs": directs, "twins": twins, "product": product,
}


def write(folder: Path, family: Family) -> None:
    text, documents = family
    (folder / "ix").mkdir(parents=True, exist_ok=True)
    (folder / "p.toml").write_text(text, encoding="utf-8")
    for name, body in documents.items():
        (folder / "ix" / f"{name}.json").write_text(body, encoding="utf-8")


if __name__ == "__main__":
    _, word, *numbers, where = sys.argv
    write(Path(where), FAMILIES[word](*map(int, numbers)))
