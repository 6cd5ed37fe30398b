"""The wheel on a machine without the toolchain, the clone and a network, as a fresh user: it is installed, the program
answers as the packed one does and about as fast, all tools have their help, and what pip uninstalls leaves nothing.

The machine is this one in namespaces of its own, with a root folder that has its system and an interpreter alone
(bare_machine.sh); bare_machine.py has the steps. REAL names another project folder than the example.
"""

from __future__ import annotations

import json
import os
import shutil
import subprocess
import sys
import unittest
from pathlib import Path

from making import PROGRAM, TOP, Folder, skip, want_program
from test_wheel import WHEN, packed
from unilock_build import deb, wheel

TESTS = TOP / "tests"
NOBODY = 65534
# What the installed program may take longer than the packed one. A program that takes longer than the second checks
# itself as it runs; such calls differ by more than that from one to the next.
MOST_MILLISECONDS, SLOW_MILLISECONDS = 5, 200


def namespaces() -> list[str]:
    """The words that begin a machine of its own; one who isn't root becomes it there."""
    found = ["unshare", "--mount", "--net", "--pid", "--fork"]
    return found if os.geteuid() == 0 else [*found, "--user", "--map-root-user"]


class BareMachine(Folder):
    def setUp(self) -> None:
        super().setUp()
        want_program(self)
        if PROGRAM.read_bytes()[:4] != b"\x7fELF":
            skip(self, "the program under test is a script")
        if shutil.which("unshare") is None or subprocess.run([*namespaces(), "true"], check=False).returncode:
            skip(self, "there are no namespaces to be had")
        self.project = Path(os.environ.get("REAL") or TOP / "examples" / "web_app")
        self.python = Path(os.path.realpath(getattr(sys, "_base_executable", sys.executable)))

    def things(self) -> Path:
        """What the machine has: the wheel, the packed program, a project, and the steps."""
        folder = self.top / "things"
        folder.mkdir()
        made, entries = packed()
        name = f"unilock-{made.version}-{wheel.tag_of(PROGRAM)}.whl"
        (folder / name).write_bytes(wheel.wheel_bytes(entries, WHEN))
        shutil.copy(PROGRAM, folder / "packed")
        shutil.copytree(self.project / "ix", folder / "project" / "ix")
        shutil.copy(self.project / "pyproject.toml", folder / "project")
        shutil.copy(TESTS / "bare_machine.py", folder / "steps.py")
        self.hidden = [str(TOP), "/opt/rattle", *filter(None, [shutil.which("rt")])]
        (folder / "hidden").write_text("".join(f"{it}\n" for it in self.hidden))
        return folder

    def lived(self) -> dict:
        root = self.top / "root"
        root.mkdir()
        user = f"{NOBODY}:{NOBODY}" if os.geteuid() == 0 else "0:0"
        words = [*namespaces(), "sh", str(TESTS / "bare_machine.sh"), str(root), str(self.things()), str(self.python)]
        words += [sys.base_prefix, user, *self.hidden]
        done = subprocess.run(words, capture_output=True, text=True, check=False)
        self.assertEqual(done.returncode, 0, done.stdout + done.stderr)
        return json.loads(done.stdout)

    def test_a_wheel_on_a_machine_without_toolchain_clone_and_network(self) -> None:
        made = packed()[0]
        found = self.lived()
        self.assertEqual((found["seen"], found["left"]), ([], []))
        self.assertGreater(found["installed"], 50)
        self.assertEqual(found["statuses"], [0, 0])
        self.assertEqual(found["bytes"][1], True)
        self.assertTrue(found["lock"])
        self.assertEqual(found["version"].splitlines(), made.lines())
        self.assertEqual(sorted(found["tools"]), sorted(deb.tool_commands(TOP)))
        for name, line in found["tools"].items():
            self.assertTrue(line.startswith(f"usage: {name}"), line)
        packed_takes, installed_takes = found["milliseconds"]
        if packed_takes < SLOW_MILLISECONDS:
            self.assertLess(installed_takes, packed_takes + MOST_MILLISECONDS)
        if os.environ.get("REAL"):
            print(f"{self.project}: {found['bytes'][0]} bytes; packed {packed_takes:.1f} ms, "
                  f"installed {installed_takes:.1f} ms; {found['installed']} files")  # fmt: skip


if __name__ == "__main__":
    unittest.main()
