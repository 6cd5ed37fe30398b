"""Changes to files for the fuzzer: bytes, tokens and lines; and words of the command line that may be none."""

from __future__ import annotations

import random
import re

TOKEN = re.compile(r"[A-Za-z0-9_]+|[<>=!~]+|\s+|.", re.S)
WORDS = """and or not in == != >= <= > < ~= === ; , [ ] ( ) ' " * .* 1 2 1.0 2.0a1 0 18446744073709551616 1!0 +local
.post1 .dev0 extra os_name sys_platform python_version python_full_version implementation_version platform_release
'win32' '3.10' '' null true false {} [] "x" a b demo @ # \\ name version versions requires_dist requires_python yanked
files marker dependencies""".split()
WORDS += [" ", "\n", "\t", "    ", "\\n"]
NUMBERS = ["0", "1", "2", "8", "64", "65", "01", "-1", "+1", "", "1.0", "x", str(2**64 - 1), str(2**64)]
FILES = ["pyproject.toml", "ix", "absent", "", "-", "a b"]


def changed_bytes(rng: random.Random, text: bytes) -> bytes:
    made, at = bytearray(text), rng.randrange(len(text) + 1)
    kind = rng.randrange(4)
    if kind == 0:
        made[at:at] = bytes([rng.randrange(256)])
    elif kind == 1:
        del made[at : at + rng.choice([1, 1, 2, 8])]
    elif kind == 2 and at < len(made):
        made[at] ^= 1 << rng.randrange(8)
    else:
        del made[at:]
    return bytes(made)


def changed_pieces(rng: random.Random, pieces: list, others: list) -> list:
    if not pieces:
        return others[:1]
    at, to = rng.randrange(len(pieces)), rng.randrange(len(pieces))
    kind = rng.randrange(4)
    if kind == 0:
        del pieces[at]
    elif kind == 1:
        pieces.insert(at, rng.choice(others))
    elif kind == 2:
        pieces[at] = rng.choice(others)
    else:
        pieces[at], pieces[to] = pieces[to], pieces[at]
    return pieces


def changed(rng: random.Random, text: bytes, others: list) -> bytes:
    kind = rng.random()
    if kind < 0.2:
        return changed_bytes(rng, text)
    read = text.decode("utf-8", "surrogateescape")
    if kind < 0.75:
        read = "".join(changed_pieces(rng, TOKEN.findall(read), WORDS))
    else:
        lines = [line for it in others for line in it.decode("utf-8", "surrogateescape").splitlines(keepends=True)]
        read = "".join(changed_pieces(rng, read.splitlines(keepends=True), lines or ["\n"]))
    return read.encode("utf-8", "surrogateescape")


def spoil(rng: random.Random, files: dict, names: list) -> None:
    """Changes some of the named files in place."""
    for _ in range(rng.choice([1, 1, 1, 2, 4])):
        name = rng.choice(names)
        files[name] = changed(rng, files[name], list(files.values()))


def is_number(word: str, least: int, most: int) -> bool:
    return re.fullmatch(r"0|[1-9][0-9]*", word) is not None and least <= int(word) <= most


def odd_words(rng: random.Random) -> list:
    """Words of which some are a command's."""
    commands = ["lock", "why", "relock", "env", "check", "gen", "export", "marker", "verify"]
    command = rng.choice([*commands, "Lock", "", "--help"])
    kinds_of = {"lock": "ffnf", "why": "ffnf", "relock": "ffnf", "gen": "nnn", "check": "fff", "marker": "f"}
    kinds = kinds_of.get(command, "fff")
    words = [rng.choice(NUMBERS if it == "n" else FILES) for it in kinds]
    if rng.random() < 0.6:
        words = [rng.choice(["1", "2"]) if it == "n" else "absent" for it in kinds]
    words = words[: rng.choice([len(words), len(words), len(words) - 1, rng.randrange(len(words) + 1)])]
    return [command, *words, *(["more"] if rng.random() < 0.2 else [])]


def are_words(words: list) -> bool:
    """Whether words are one of the commands."""
    command, *given = words
    if command in ("lock", "why"):
        return len(given) in (3, 4) and is_number(given[2], 1, 64)
    if command == "relock":
        return len(given) == 4 and is_number(given[2], 1, 64)
    if command == "gen":
        is_sized = len(given) == 3 and is_number(given[0], 0, 2**64 - 1) and is_number(given[1], 1, 2000)
        return is_sized and is_number(given[2], 1, 64)
    if command in ("check", "verify"):
        return len(given) == 3
    if command == "marker":
        return len(given) == 1
    return len(given) >= {"env": 2, "export": 1}.get(command, len(given) + 1)
