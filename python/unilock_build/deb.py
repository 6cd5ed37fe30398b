"""deb OUT: packs the proved program and the tools as a Debian package, `unilock_VERSION_amd64.deb`, by `dpkg-deb`.

It is made only where the program is proved, built and newer than all that it is made of. It has the program, the tools,
a page for `man` made of the help texts, and completions for bash and zsh.

Status: 0; 1 where nothing is packed; 2 for wrong words; 3 where `dpkg-deb` isn't there.
"""

from __future__ import annotations

import argparse
import gzip
import os
import re
import shutil
import subprocess
import sys
import tempfile
from pathlib import Path

from .origin import TOP, NotPacked, Origin, built_program, glibc_of, origin_of
from .wheel import Entry, help_text, metadata, program_entries, seconds_of, tools_entries

COMMANDS = re.compile(r"^  ([a-z]+) [A-Z]", re.M)


def tool_commands(top: Path) -> list[str]:
    text = (top / "python" / "unilock_tools" / "__main__.py").read_text(encoding="utf-8")
    return re.findall(r'^    "([a-z]+)": "', text.partition("COMMANDS = {")[2].partition("\n}")[0], re.M)


def control(top: Path, origin: Origin, program: Path) -> bytes:
    major, minor = glibc_of(program)
    lines = [
        "Package: unilock",
        f"Version: {origin.version}",
        "Architecture: amd64",
        "Maintainer: the authors of unilock <unilock@localhost>",
        f"Depends: libc6 (>= {major}.{minor}), libgcc-s1, python3 (>= 3.10), python3-requests, python3-packaging",
        "Section: python",
        "Priority: optional",
        "Description: one lock for a Python project, for all its platforms and interpreters",
        " unilock locks the dependencies of a Python project once, by a resolver of which",
        " every function is proved to meet its contract.",
        f" Commit {origin.commit}, proved with {origin.toolchain}.",
    ]
    return ("\n".join(lines) + "\n").encode()


def roff(text: str) -> str:
    """A text as lines of a manual page: what would be read as a request or an escape is quoted."""
    lines = (it.replace("\\", "\\e").replace("-", "\\-") for it in text.splitlines())
    return "\n".join("\\&" + it if it[:1] in (".", "'") else it for it in lines)


def manual_page(top: Path, origin: Origin) -> bytes:
    body = help_text(top).decode()
    page = (
        f'.TH UNILOCK 1 "" "unilock {origin.version}" "User Commands"\n'
        ".SH NAME\nunilock \\- one lock for a Python project\n"
        f".SH SYNOPSIS\n.B unilock\n.I COMMAND WORDS\n.SH DESCRIPTION\n.nf\n{roff(body)}\n.fi\n"
        ".SH SEE ALSO\n.B unilock\\-tools \\-\\-help\n"
    )
    return gzip.compress(page.encode(), mtime=0)


def completions(top: Path) -> dict[str, bytes]:
    """Completions of the first word, and of files behind it, for bash and zsh."""
    commands = " ".join(COMMANDS.findall(help_text(top).decode()))
    tools = " ".join(tool_commands(top))
    bash = f"""# Completions of unilock and unilock-tools: the command, then files.
_unilock() {{
  local words
  case $1 in
    *unilock-tools) words="{tools}" ;;
    *) words="{commands}" ;;
  esac
  if [ "$COMP_CWORD" = 1 ]; then
    COMPREPLY=($(compgen -W "$words" -- "$2"))
  else
    COMPREPLY=($(compgen -f -- "$2"))
  fi
}}
complete -o filenames -F _unilock unilock unilock-tools
"""
    zsh = f"""#compdef unilock unilock-tools
# Completions of unilock and unilock-tools: the command, then files.
if (( CURRENT > 2 )); then
  _files
elif [[ $service = unilock-tools ]]; then
  compadd {tools}
else
  compadd {commands}
fi
"""
    return {
        "usr/share/bash-completion/completions/unilock": bash.encode(),
        "usr/share/bash-completion/completions/unilock-tools": bash.encode(),
        "usr/share/zsh/vendor-completions/_unilock": zsh.encode(),
    }


def entries(top: Path, origin: Origin, program: Path) -> list[Entry]:
    tools = b'#!/usr/bin/python3\nimport sys\n\nfrom unilock_tools.__main__ import main\n\nsys.exit(main())\n'
    info = f"usr/lib/python3/dist-packages/unilock-{origin.version}.dist-info"
    placed = program_entries(top, origin, program)
    return [
        *(Entry(f"usr/{path}", it.body, it.is_program) for path, it in placed.items()),
        Entry("usr/bin/unilock-tools", tools, True),
        *(Entry(f"usr/lib/python3/dist-packages/{it.path}", it.body) for it in tools_entries(top)),
        Entry(f"{info}/METADATA", metadata(top, origin)),
        Entry("usr/share/doc/unilock/PROOF.json", origin.record(program, "").encode()),
        Entry("usr/share/doc/unilock/copyright", (top / "LICENSE").read_bytes()),
        Entry("usr/share/man/man1/unilock.1.gz", manual_page(top, origin)),
        *(Entry(path, body) for path, body in completions(top).items()),
    ]


def pack(out: Path, top: Path = TOP) -> Path:
    program = built_program(top)
    return write(out, top, origin_of(top), program)


def write(out: Path, top: Path, origin: Origin, program: Path) -> Path:
    """Writes the package of a program; one commit with one program has one package."""
    maker = shutil.which("dpkg-deb")
    if maker is None:
        raise FileNotFoundError("dpkg-deb isn't on the path")
    out.mkdir(parents=True, exist_ok=True)
    path = out / f"unilock_{origin.version}_amd64.deb"
    with tempfile.TemporaryDirectory() as held:
        room = Path(held)
        for entry in [Entry("DEBIAN/control", control(top, origin, program)), *entries(top, origin, program)]:
            placed = room / entry.path
            placed.parent.mkdir(parents=True, exist_ok=True)
            placed.write_bytes(entry.body)
            placed.chmod(0o755 if entry.is_program else 0o644)
        for folder in [room, *(it for it in room.rglob("*") if it.is_dir())]:
            folder.chmod(0o755)
        words = [maker, "--root-owner-group", "--build", str(room), str(path)]
        environment = {**os.environ, "SOURCE_DATE_EPOCH": str(seconds_of(top))}
        subprocess.run(words, check=True, stdout=subprocess.DEVNULL, env=environment)
    return path


def main() -> int:
    parser = argparse.ArgumentParser(
        prog="deb", description=__doc__, formatter_class=argparse.RawDescriptionHelpFormatter
    )
    parser.add_argument("out", type=Path, metavar="OUT")
    given = parser.parse_args()
    try:
        print(pack(given.out))
        return 0
    except NotPacked as fault:
        print(f"deb: {fault}", file=sys.stderr)
        return 1
    except (OSError, subprocess.CalledProcessError) as fault:
        print(f"deb: {fault}", file=sys.stderr)
        return 3
