"""The script `unilock`: how the program is started and when it is built, and what it makes of limits of address space
and of files' sizes."""

from __future__ import annotations

import json
import os
import shutil
import subprocess
from pathlib import Path
from typing import List, Tuple

from making import PROGRAM, TOP, Folder, want_program

# Prints what it was started with.
TELLING = """#!/bin/sh
echo "$GLIBC_TUNABLES" "$(ulimit -S -s)" "$@"
"""
# Prints 5,000 bytes, and ends with the status of that write.
WRITING = """#!/bin/sh
exec head -c 5000 /dev/zero
"""
# Stands for `rt`: notes what it is asked, fails where `broken` stands beside the crates, and builds the program.
PROVING = """#!/bin/sh
here=${PWD##*/}
echo "$here $1" >>../../asked
[ ! -e ../../broken ] || { echo "no proof of $here"; exit 1; }
[ "$1" != all ] || printf '== %s\\n' ul_low ul_middle ul_high unilock summary
[ "$1" != run ] || { mkdir -p out; printf '#!/bin/sh\\necho built "$@"\\n' >out/unilock; chmod +x out/unilock; }
"""
# Stands for `awk` where it is asked for the memory that is free: there is enough where `room` stands beside the crates.
ROOM = """#!/bin/sh
case $1 in *MemAvailable*) [ -e room ]; exit ;; esac
exec {} "$@"
"""
CRATES = """# Themes
ul_high may_wait=2: ul_low ul_middle
ul_middle: ul_low
ul_low:
ul_apart:
unilock: ul_high
laws_promises: ul_law ul_high
ul_law: ul_low
"""
BUILDING = [
    "ul_low lib",
    "ul_middle lib",
    "ul_high lib",
    "unilock check",
    "unilock run",
]
BUILDING_MANY = ["unilock all", "unilock run"]
VARIABLES = [
    "os_name",
    "sys_platform",
    "platform_machine",
    "platform_python_implementation",
    "platform_release",
    "platform_system",
    "platform_version",
    "implementation_name",
]
# Eleven markers that don't depend on one another: 2,048 forks.
PAIRS = [(f"{it} == 'k'", f"{it} != 'k'") for it in VARIABLES] + [
    (f"'{it}' in platform_version", f"'{it}' not in platform_version") for it in "abc"
]


class Script(Folder):
    """The script in a folder of its own, where no source is newer than the program."""

    def setUp(self) -> None:
        super().setUp()
        (self.top / "out").mkdir()
        for part in ("src", "specs"):
            (self.top / "crates" / "ul_low" / part).mkdir(parents=True)
        (self.top / "crates.txt").touch()
        shutil.copy(TOP / "unilock", self.top / "unilock")

    def put(self, program: Path) -> None:
        shutil.copy(program, self.top / "out" / "unilock")
        (self.top / "out" / "unilock").chmod(0o755)

    def asked(self, limits: str, words: str) -> Tuple[int, str]:
        """The script's status and what it prints, under these limits of the shell."""
        kept = {key: value for key, value in os.environ.items() if key != "GLIBC_TUNABLES"}
        line = f"{limits}; exec ./unilock {words}"
        done = subprocess.run(["bash", "-c", line], cwd=self.top, env=kept, stdout=subprocess.PIPE, text=True)
        return done.returncode, done.stdout

    def test_address_space_is_saved_where_it_is_limited(self) -> None:
        self.put(self.write("telling", TELLING))
        self.assertRegex(self.asked("ulimit -S -s 8192", "a b")[1], r"\Aglibc\S*threshold=33554432 8192 a b\n\Z")
        for stack, left in ((8192, 4096), (2048, 2048)):
            said = self.asked(f"ulimit -S -s {stack}; ulimit -v 4000000", "a")[1]
            self.assertRegex(said, rf"\Aglibc\S*:glibc\.malloc\.arena_max=4 {left} a\n\Z")
        said = self.asked("export GLIBC_TUNABLES=glibc.malloc.arena_max=9; ulimit -v 4000000", "a")[1]
        self.assertTrue(said.startswith("glibc.malloc.arena_max=9 "), said)

    def test_64_workers_in_600_megabytes(self) -> None:
        want_program(self)
        self.put(PROGRAM)
        needs = []
        for number, (yes, no) in enumerate(PAIRS):
            needs += [f"s{number}<2; {yes}", f"s{number}; {no}"]
            releases = [{"version": "1", "requires_dist": []}, {"version": "2", "requires_dist": []}]
            self.write(f"ix/s{number}.json", json.dumps({"name": f"s{number}", "versions": releases}))
        listed = "\n".join(f'  "{it}",' for it in needs)
        self.write(
            "pyproject.toml",
            f'[project]\nname = "wide"\nversion = "1"\nrequires-python = ">=3.9"\ndependencies = [\n{listed}\n]\n',
        )
        one, many = (self.asked("ulimit -v 614400", f"lock pyproject.toml ix {it}") for it in (1, 64))
        self.assertEqual(one[0], 0)
        self.assertEqual(one, many)

    def test_a_file_that_may_not_grow_fails_the_write_and_ends_no_program(self) -> None:
        self.put(self.write("writing", WRITING))
        for limit, status, size in ((1024, 1, 1024), (8192, 0, 5000)):
            done = subprocess.run(
                ["bash", "-c", f"ulimit -f {limit // 1024}; exec ./unilock lock >printed"],
                cwd=self.top,
                stderr=subprocess.DEVNULL,
            )
            self.assertEqual(done.returncode, status)
            self.assertEqual((self.top / "printed").stat().st_size, size)

    def build(self) -> Tuple[int, str, str]:
        """The script's status and what it prints, with a stand-in for `rt`."""
        env = {**os.environ, "PATH": f"{self.top}/bin:{os.environ['PATH']}"}
        done = subprocess.run(["./unilock", "a", "b"], cwd=self.top, env=env, capture_output=True, text=True)
        return done.returncode, done.stdout, done.stderr

    def asked_of_rt(self) -> List[str]:
        """What `rt` was asked since the last call."""
        notes = self.top / "asked"
        lines = notes.read_text().splitlines() if notes.exists() else []
        notes.write_text("")
        return lines

    def stand_in(self) -> None:
        """Small crates, and stand-ins for `rt` and for how much memory is free."""
        (self.top / "bin").mkdir()
        self.write("bin/rt", PROVING).chmod(0o755)
        self.write("bin/awk", ROOM.format(shutil.which("awk"))).chmod(0o755)
        self.write("crates.txt", CRATES)
        for name in ("ul_low", "ul_middle", "ul_high", "ul_law", "ul_apart", "laws_promises", "unilock"):
            for part in ("src/lib.rt", "specs/Lib.antt", "proofs/Lib.antt"):
                self.write(f"crates/{name}/{part}", "")

    def test_crates_are_proved_in_order(self) -> None:
        self.stand_in()
        for room, asked in ((False, BUILDING), (True, BUILDING_MANY)):
            if room:
                self.write("room", "")
                (self.top / "out" / "unilock").unlink()
            status, printed, said = self.build()
            self.assertEqual((status, printed), (0, "built a b\n"))
            self.assertEqual(self.asked_of_rt(), asked)
            self.assertIn("proving 4 crates", said)
            for count in range(1, 5):
                self.assertIn(f"unilock: {count} of 4 crates are proved\n", said)

    def test_the_program_is_built_again_where_a_source_is_newer(self) -> None:
        self.stand_in()
        self.build()
        self.asked_of_rt()
        built = (self.top / "out" / "unilock").stat().st_mtime
        for part, rebuilds in (("proofs", False), ("specs", True), ("src", True)):
            made = next((self.top / "crates" / "ul_middle" / part).iterdir())
            os.utime(made, (built + 5, built + 5))
            self.assertEqual(self.build()[:2], (0, "built a b\n"))
            self.assertEqual(self.asked_of_rt(), BUILDING if rebuilds else [], part)
            os.utime(made, (built - 5, built - 5))

    def test_without_a_proof_the_old_program_stays_and_nothing_is_answered(self) -> None:
        self.stand_in()
        self.put(self.write("telling", TELLING))
        kept = (self.top / "out" / "unilock").read_text()
        os.utime(self.top / "out" / "unilock", (0, 0))
        self.write("broken", "")
        for room, asked in ((False, ["ul_low lib"]), (True, ["unilock all"])):
            if room:
                self.write("room", "")
            status, printed, said = self.build()
            self.assertEqual((status, printed), (70, ""))
            self.assertEqual(self.asked_of_rt(), asked)
            self.assertIn("no proof of ", said)
            self.assertEqual((self.top / "out" / "unilock").read_text(), kept)
