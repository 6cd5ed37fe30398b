"""The program `unilock`: where it stands, how it is called, and what its statuses mean.

It is looked for in this order: what the environment variable UNILOCK names; the script `unilock` of the clone that
these tools stand in, which proves and builds the program where that wasn't done yet; the program that was installed
beside the interpreter that runs these tools; `unilock` on the path.
"""

import os
import shutil
import subprocess
import sys
from typing import List, NamedTuple, Optional

from . import profile
from .console import Refused

CLONE = os.path.dirname(os.path.dirname(os.path.dirname(os.path.abspath(__file__))))


class Answer(NamedTuple):
    """What the program answered: its status and its standard output."""

    status: int
    text: str
    body: bytes


def path() -> str:
    named = os.environ.get("UNILOCK")
    if named:
        found = shutil.which(named)
        if found is None:
            raise Refused(f"the environment variable UNILOCK names {named}, which is no program", 3)
        return found
    script = os.path.join(CLONE, "unilock")
    if os.path.isfile(script) and os.path.isdir(os.path.join(CLONE, "crates")):
        return script
    beside = os.path.join(os.path.dirname(sys.executable), "unilock")
    found = shutil.which(beside) or shutil.which("unilock")
    if found is None:
        raise Refused("the program unilock isn't on the path; name it by the environment variable UNILOCK", 3)
    return found


def answer(words: List[str], folder: Optional[str] = None) -> Answer:
    """Runs the program, on a project file of the wide profile unless the file says another. What the script says while
    it builds goes to standard error as it comes."""
    program = path()
    with profile.handed(words, folder) as (asked, told):
        try:
            done = subprocess.run(
                [program, *asked], stdout=subprocess.PIPE, stdin=subprocess.DEVNULL, cwd=folder, check=False
            )
        except OSError as fault:
            raise Refused(f"{program}: {fault.strerror or fault}", 3) from None
        body = told(done.stdout)
    if done.returncode < 0:
        raise Refused(f"{program} was ended by signal {-done.returncode}", 70)
    if done.returncode == 70:
        raise Refused(f"{program} can't be proved or built", 70)
    return Answer(done.returncode, body.decode("utf-8", "replace"), body)


def fault_text(answered: Answer) -> str:
    """The answer of a status other than 0, in one line."""
    if answered.status == 7:
        return "memory ran out"
    first = answered.text.partition("\n")[0]
    return first or f"unilock ended with status {answered.status}"
