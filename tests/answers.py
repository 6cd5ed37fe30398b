#!/usr/bin/env python3
"""The texts of what `brute` finds: a lock, a refusal, what a machine installs, requirements lines.

    tests/answers.py examples/scenarios/diamond.txt

prints what the scenario's files are expected to be.
"""

from __future__ import annotations

import json
import sys
from pathlib import Path
from typing import Any, Iterable

from brute import Brute, Leaf, Refused
from plain import machine_world, meets, of_triple, version
from plain_files import tomllib


MACHINES = Path(__file__).resolve().parent.parent / "examples" / "scenarios" / "machines"


def pick_version(brute: Brute, leaf: Leaf, node: tuple) -> Any:
    return brute.eligible(node[0])[leaf.picks[node]].version


def answer(brute: Brute) -> tuple:
    """The status and the text of `lock`."""
    found = brute.forks()
    if isinstance(found, int):
        return 4, "limit: forks 2048\n"
    if isinstance(found, Refused):
        return 1, refusal_text(brute, found) + core_text(brute, found)
    return 0, lock_text(brute, found)


def marked(brute: Brute, where: frozenset) -> str:
    """The text of a truth, simplified in the supported region."""
    cells = brute.cells
    return cells.text(cells.simplified(cells.tree(where), cells.tree(brute.supported)))


def escaped(text: str) -> str:
    return text.replace('"', '\\"')


def edges_of(brute: Brute, leaves: list, source: tuple, key: tuple) -> list:
    """The edges of a node at a version: target, version, and where."""
    found: dict = {}
    for leaf in leaves:
        if source in leaf.picks and pick_version(brute, leaf, source).key == key:
            for it, truth in brute.applied(leaf.region, source, leaf.picks[source]):
                for target in it.targets:
                    if target in leaf.picks:
                        to = target[0], pick_version(brute, leaf, target), target[1]
                        found[to] = found.get(to, frozenset()) | (truth & leaf.region)
    rows = [(to, where) for to, where in found.items() if where]
    return sorted(rows, key=lambda it: (it[0][0], it[0][1].key, it[0][2]))


def edge_line(brute: Brute, to: tuple, where: frozenset) -> str:
    name, its_version, extra = to
    text = f'    {{ name = "{name}", version = "{its_version.text}"'
    text += f', extra = "{extra}"' if extra else ""
    marker = marked(brute, where)
    return text + (f', marker = "{escaped(marker)}"' if marker != "*" else "") + " },\n"


def edge_lines(brute: Brute, edges: list) -> str:
    return "".join(edge_line(brute, to, where) for to, where in edges)


def lock_text(brute: Brute, leaves: list) -> str:
    cells, root = brute.cells, brute.project.name
    text = f'version = 2\nroot = "{root}"\n'
    if brute.supported != cells.all:
        text += f'supported-markers = "{escaped(cells.text(cells.tree(brute.supported)))}"\n'
    if len(leaves) > 1:
        text += "resolution-markers = [\n"
        text += "".join(f'    "{escaped(marked(brute, it.region))}",\n' for it in leaves) + "]\n"
    packages: dict = {}
    for leaf in leaves:
        for node in leaf.picks:
            its_version = pick_version(brute, leaf, node)
            packages.setdefault((node[0], its_version.key), (its_version, set()))[1].add(node[1])
    for (name, key), (its_version, extras) in sorted(packages.items(), key=lambda it: it[0]):
        text += f'\n[[package]]\nname = "{name}"\nversion = "{its_version.text}"\n'
        release = next(it for it in brute.eligible(name) if it.version.key == key)
        if release.files:
            lines = (f'    {{ file = "{file}", hash = "sha256:{digest}" }},\n' for file, digest in release.files)
            text += "files = [\n" + "".join(lines) + "]\n"
        edges = edges_of(brute, leaves, (name, ""), key)
        if edges:
            text += "dependencies = [\n" + edge_lines(brute, edges) + "]\n"
        if extras - {""}:
            text += "\n[package.optional-dependencies]\n"
        for extra in sorted(extras - {""}):
            edges = edges_of(brute, leaves, (name, extra), key)
            text += f"{extra} = [\n{edge_lines(brute, edges)}]\n" if edges else f"{extra} = []\n"
    return text


def refusal_text(brute: Brute, refused: Refused) -> str:
    tree = brute.cells.tree(refused.region)
    lines = ["no selection serves this fork", f"fork: {refused.path or '-'}", f"region: {brute.cells.text(tree)}"]
    return "\n".join([*lines, f"world: {brute.cells.sample(tree)}"]) + "\n"


def node_text(node: tuple) -> str:
    return f"{node[0]}[{node[1]}]" if node[1] else node[0]


def core_text(brute: Brute, refused: Refused) -> str:
    rows = brute.core(refused.region)
    text = f"core: {len(rows)}\n"
    for node, rank, need in rows:
        permitted = ",".join(brute.eligible(need.target[0])[it].version.text for it in sorted(need.permitted))
        its_version = brute.eligible(node[0])[rank].version.text
        text += f"{node_text(node)} {its_version} needs {node_text(need.target)} {{{permitted}}}\n"
    return text


def comparisons(brute: Brute) -> list:
    return [it for it in brute.cells.dims if it[0] == "opaque"]


def environment(brute: Brute, leaves: list, machine: dict, extras: Iterable[str]) -> tuple:
    """The status and the text of `env` on a machine."""
    world = machine_world(machine, comparisons(brute))
    project = brute.project
    is_supported = meets(project.python, of_triple(world.python)) and brute.cells.cell_of(world) in brute.supported
    if not is_supported:
        return 8, "outside\n"
    for it in extras:
        if it not in project.extras:
            return 8, f"extra: {it}\n"
    leaf = next(it for it in leaves if brute.cells.cell_of(world) in it.region)
    picks: dict = {}
    for name, extra in brute.closure_at(leaf, world, extras):
        picks.setdefault(name, set()).add(extra)
    lines = []
    for name in sorted(set(picks) - {project.name}):
        chosen = ",".join(sorted(picks[name] - {""}))
        lines.append(f"{name}{f'[{chosen}]' if chosen else ''}=={pick_version(brute, leaf, (name, '')).text}\n")
    return 0, "".join(lines)


def export(brute: Brute, leaves: list, extras: Iterable[str]) -> str:
    """The text of `export`."""
    reached: dict = {}
    for leaf in leaves:
        for cell in leaf.region:
            for node in brute.closure_in(leaf, cell, extras):
                if node[0] != brute.project.name:
                    its_version = pick_version(brute, leaf, node)
                    reached.setdefault((node[0], its_version.key, node[1], its_version.text), set()).add(cell)
    text = ""
    for (name, _, extra, its_version), where in sorted(reached.items()):
        marker = marked(brute, frozenset(where))
        text += f"{node_text((name, extra))}=={its_version}" + (f" ; {marker}" if marker != "*" else "") + "\n"
    return text


def kept_of(text: str) -> list:
    """The names and versions that an old lock keeps: of all its packages but its root."""
    lock = tomllib.loads(text)
    return [(it["name"], version(it["version"])) for it in lock["package"] if it["name"] != lock["root"]]


def machines(folder: Path) -> dict:
    return {it.stem: json.loads(it.read_text(encoding="utf-8")) for it in sorted(folder.glob("*.json"))}


def one_line(text: str) -> str:
    """An environment's text on one line, as a scenario has it."""
    return ", ".join(text.splitlines()) if text else "nothing"


def sections(files: dict, documents: dict) -> dict:
    """What a scenario's files expect: the lock or the refusal, kept locks, environments and requirements lines."""
    brute = Brute(files["pyproject.toml"], documents)
    status, text = answer(brute)
    made = {("unilock.lock" if status == 0 else "refused.txt"): text}
    if "old.lock" in files:
        kept = Brute(files["pyproject.toml"], documents, kept_of(files["old.lock"]))
        made["kept.lock" if answer(kept)[0] == 0 else "kept.txt"] = answer(kept)[1]
    if status:
        return made
    again = answer(Brute(files["pyproject.toml"], documents, kept_of(text)))
    if again != (0, text):
        made["again.lock"] = again[1]
    leaves, every = brute.forks(), [(), brute.project.extras] if brute.project.extras else [()]
    made["env.txt"] = ""
    for extras in every:
        for name, machine in machines(MACHINES).items():
            line = one_line(environment(brute, leaves, machine, extras)[1])
            made["env.txt"] += " ".join([name, *extras]) + f": {line}\n"
        made["export_all.txt" if extras else "export.txt"] = export(brute, leaves, extras)
    return made


if __name__ == "__main__":
    from making import tool

    scenario = tool("scenario").read(Path(sys.argv[1]))
    for name, text in sections(scenario.files, tool("scenario").documents(scenario.files["index"])).items():
        print(f"-- {name} --\n{text}")
