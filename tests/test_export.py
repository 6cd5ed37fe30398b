"""What `export` prints, on machines: the lines whose markers hold there are what `env` prints.

A line's marker is judged by the tools' own reader and, where it is there, by PyPA's packaging, which is what pip asks.
"""

from __future__ import annotations

import importlib.util
import json
import random
import subprocess
import sys
import unittest
from typing import Callable, Dict, List, Mapping, NamedTuple, Set, Tuple

import program
from making import TOP, Folder, plain_wheel, skip, want_program
from unilock_tools import locks, machine, markers, vendored
from unilock_tools.chosen import picks_in
from unilock_tools.console import Refused

LOCKS = 50
WEB_APP = TOP / "examples" / "web_app" / "unilock.lock"
# Markers as a lock has them: each is the text of its own truth.
MARKERS = [
    "sys_platform == 'win32'", "sys_platform != 'win32'", "sys_platform == 'darwin' or sys_platform == 'win32'",
    "os_name == 'nt'", "os_name == 'posix' and sys_platform == 'linux'", "platform_machine == 'x86_64'",
    "implementation_name == 'pypy'", "implementation_name != 'cpython'", "python_full_version < '3.10.0'",
    "python_full_version >= '3.10.0'", "python_full_version >= '3.9.0' and python_full_version < '3.12.0'",
    "python_full_version < '3.11.0' and platform_machine == 'arm64'", "'linux' in sys_platform",
    "implementation_version < '3.11'",
]  # fmt: skip
SUPPORTED = ["", "", "python_full_version >= '3.9.0'", "sys_platform != 'darwin'"]
MACHINES = {it.stem: json.loads(it.read_text()) for it in (TOP / "examples" / "scenarios" / "machines").glob("*.json")}
MACHINES["arm"] = {**MACHINES["linux"], "platform_machine": "aarch64", "python_full_version": "3.10.13"}

Node = Tuple[str, str, str]
Judge = Callable[[str, Mapping[str, str]], bool]


class Made(NamedTuple):
    """A lock's text and the extras of its root."""

    text: str
    extras: List[str]


def edge_text(rng: random.Random, node: Node) -> str:
    name, version, extra = node
    text = f'    {{ name = "{name}", version = "{version}"' + (f', extra = "{extra}"' if extra else "")
    return text + (f', marker = "{rng.choice(MARKERS)}"' if rng.random() < 0.6 else "") + " },\n"


def list_text(rng: random.Random, key: str, nodes: List[Node]) -> str:
    """A list of edges to some of the nodes, cycles and the root's own nodes among them."""
    wanted = sorted(rng.sample(nodes, rng.choice([0, 1, 1, 2, 3])))
    return f"{key} = [\n{''.join(edge_text(rng, it) for it in wanted)}]\n" if wanted else ""


def made(rng: random.Random) -> Made:
    """A small lock in which each node may lead to each other one."""
    releases = [(name, it) for name in "abcde" for it in "12"]
    blocks = sorted([*rng.sample(releases, rng.choice([3, 4, 6])), ("demo", "0.1")])
    extras = {it: sorted(rng.sample(["x", "y"], rng.choice([0, 0, 1, 2]))) for it in blocks}
    nodes = [(*block, extra) for block in blocks for extra in ["", *extras[block]]]
    text = 'version = 2\nroot = "demo"\n'
    supported = rng.choice(SUPPORTED)
    text += f'supported-markers = "{supported}"\n' if supported else ""
    for block in blocks:
        text += f'\n[[package]]\nname = "{block[0]}"\nversion = "{block[1]}"\n' + list_text(rng, "dependencies", nodes)
        text += "\n[package.optional-dependencies]\n" if extras[block] else ""
        text += "".join(list_text(rng, it, nodes) or f"{it} = []\n" for it in extras[block])
    return Made(text, extras["demo", "0.1"])


def judges() -> Dict[str, Judge]:
    """Who says whether a marker holds."""
    found: Dict[str, Judge] = {"the tools": lambda text, values: markers.truth(markers.read(text), values) is True}
    try:
        marker = vendored.library("packaging.markers").Marker
        found["packaging"] = lambda text, values: bool(marker(text).evaluate({**values, "extra": ""}))
    except Refused:
        pass
    return found


def values_of(variables: Dict[str, str]) -> Dict[str, str]:
    """A machine's variables as markers ask for them."""
    return {**variables, "python_version": ".".join(variables["python_full_version"].split(".")[:2])}


def lines_on(exported: str, judge: Judge, values: Mapping[str, str]) -> str:
    """The lines whose markers hold, in the form that `env` has: one for each package, with its extras."""
    found: Dict[Tuple[str, str], Set[str]] = {}
    for pick in picks_in(exported):
        if not pick.marker or judge(pick.marker, values):
            found.setdefault((pick.name, pick.version), set()).update(pick.extras)
    rows = [(name, f"[{','.join(sorted(it))}]" if it else "", version) for (name, version), it in sorted(found.items())]
    return "".join(f"{name}{extras}=={version}\n" for name, extras, version in rows)


class RandomLocks(Folder):
    def setUp(self) -> None:
        super().setUp()
        want_program(self)
        for name, variables in MACHINES.items():
            self.write(f"{name}.json", json.dumps(variables))
        self.words: Dict[int, str] = {}
        for number in range(LOCKS):
            rng = random.Random(f"export/{number}")
            lock = made(rng)
            self.write(f"{number}.lock", lock.text)
            self.words[number] = " ".join(it for it in lock.extras if rng.random() < 0.5)

    def test_lines_on_machines_are_what_env_prints(self) -> None:
        exports = {it: program.call(self.top, f"export {it}.lock {words}") for it, words in self.words.items()}
        envs = {
            (it, name): program.call(self.top, f"env {it}.lock {name}.json {words}")
            for it, words in self.words.items()
            for name in MACHINES
        }
        answers = program.all_said([*exports.values(), *envs.values()])
        compared = {it: 0 for it in judges()}
        for (number, name), call in envs.items():
            exported, env = answers[exports[number]], answers[call]
            self.assertEqual(exported.status, 0, f"{exports[number]}: {exported.text}")
            if (env.status, env.text) == (8, "outside\n"):
                continue
            for who, judge in judges().items():
                with self.subTest(f"{call} by {who}"):
                    lines = lines_on(exported.text, judge, values_of(MACHINES[name]))
                    self.assertEqual((env.status, env.text), (0, lines))
                    compared[who] += len(lines.splitlines())
        self.assertGreater(min(compared.values()), 300)


class OnThisMachine(Folder):
    def setUp(self) -> None:
        super().setUp()
        want_program(self)
        self.variables = machine.machine()
        self.write("here.json", json.dumps(self.variables))
        answers = program.all_said([self.call("env", "here.json"), self.call("export")])
        self.env, self.exported = answers[self.call("env", "here.json")], answers[self.call("export")]
        self.assertEqual(self.exported.status, 0)
        if self.env.status == 8:
            skip(self, "the example isn't for this interpreter")

    def call(self, command: str, *more: str) -> program.Call:
        return program.Call(self.top, (command, str(WEB_APP), *more, "dev"))

    def test_lines_are_what_env_prints(self) -> None:
        for who, judge in judges().items():
            with self.subTest(who):
                self.assertEqual(self.env.text, lines_on(self.exported.text, judge, values_of(self.variables)))

    def test_pip_installs_what_env_prints(self) -> None:
        if importlib.util.find_spec("pip") is None:
            skip(self, "pip isn't there")
        (self.top / "wheels").mkdir()
        for it in locks.load(str(WEB_APP)).packages:
            plain_wheel(self.top / "wheels", it.name, it.version)
        self.write("requirements.txt", self.exported.text)
        line = "-m pip install --quiet --no-index --find-links wheels --no-deps --target there -r requirements.txt"
        done = subprocess.run(
            [sys.executable, *line.split()],
            cwd=self.top,
            env=self.environment(),
            capture_output=True,
            text=True,
            check=False,
        )
        self.assertEqual(done.returncode, 0, done.stderr)
        found = [it.name[: -len(".dist-info")].split("-") for it in (self.top / "there").glob("*.dist-info")]
        installed = sorted(f"{name.replace('_', '-')}=={version}" for name, version in found)
        self.assertEqual(installed, self.env.text.splitlines())


class Cycles(Folder):
    def test_packages_that_require_one_another(self) -> None:
        want_program(self)
        head = '[project]\nname = "demo"\nversion = "0.1"\nrequires-python = ">=3.8"\n'
        self.write("p.toml", f'{head}dependencies = ["a"]\n')
        for name, needs in (("a", ["b"]), ("b", ["a; python_version >= '3.8'"])):
            releases = [{"version": "1", "requires_dist": needs}]
            self.write(f"ix/{name}.json", json.dumps({"name": name, "versions": releases}))
        call = program.Call(self.top, ("lock", "p.toml", "ix", "1"))
        self.write("l", program.all_said([call])[call].text)
        call = program.Call(self.top, ("export", "l"))
        self.assertEqual(program.all_said([call])[call].text, "a==1\nb==1\n")


if __name__ == "__main__":
    unittest.main()
