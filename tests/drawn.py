"""What the fuzzer draws: the files of a run by their paths, of an example, a scenario or a small project, some of them
changed."""

from __future__ import annotations

import json
import random
import tempfile
from functools import lru_cache
from pathlib import Path

import changing
import small_projects
from making import TOP, tool

SCENARIO = tool("scenario")


def scenario_files(path: Path) -> dict:
    with tempfile.TemporaryDirectory() as held:
        SCENARIO.unpack(SCENARIO.read(path), Path(held) / "it")
        return folder_files(Path(held) / "it")


def folder_files(folder: Path) -> dict:
    files = {str(it.relative_to(folder)): it.read_bytes() for it in sorted(folder.rglob("*")) if it.is_file()}
    return {("pyproject.toml" if name == "p.toml" else name): it for name, it in files.items()}


def write(folder: Path, files: dict) -> None:
    for name, text in files.items():
        (folder / name).parent.mkdir(parents=True, exist_ok=True)
        (folder / name).write_bytes(text)


@lru_cache(maxsize=None)
def all_examples() -> list:
    folders = [it for it in sorted((TOP / "examples").iterdir()) if (it / "ix").is_dir()]
    scenarios = sorted(SCENARIO.SCENARIOS.glob("*.txt"))
    return [folder_files(it) for it in folders] + [scenario_files(it) for it in scenarios]


def generated_files(rng: random.Random) -> dict:
    made = small_projects.sourced(small_projects.small(rng))
    files = {f"ix/{name}.json": json.dumps(it, indent=1).encode() for name, it in made.documents.items()}
    return {"pyproject.toml": made.project.encode(), **files}


def base_files(rng: random.Random) -> dict:
    files = dict(rng.choice(all_examples())) if rng.random() < 0.4 else generated_files(rng)
    machines = SCENARIO.SCENARIOS / "machines"
    files.update({it.name: it.read_bytes() for it in machines.glob("*.json")})
    return {name: it for name, it in files.items() if name.endswith((".toml", ".json")) or name == "old.lock"}


def inputs(rng: random.Random) -> dict:
    """The files of a run: some of them changed in more than half of all runs."""
    files = base_files(rng)
    if rng.random() < 0.6:
        changing.spoil(rng, files, [name for name in files if name == "pyproject.toml" or name.startswith("ix/")])
    return files
