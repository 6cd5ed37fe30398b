"""The definitions that a statement rests on: the cone of a definition of specs/, by the `use` lines of the files.

python3 tests/cone.py prints, for each tier of docs/HEADLINE.md, the files in an order in which they can be read (each
behind those that it uses), with how many of their definitions the statement reaches; with --page the first tier as one
page, comments and definitions in reading order; with --write it puts the lists into that page, and writes
docs/SOUND.md.
"""

from __future__ import annotations

import re
import sys
from itertools import takewhile
from pathlib import Path
from typing import Iterator

TOP = Path(__file__).resolve().parent.parent
# The two tiers: what a lock is good for, and what every call of the program promises.
TIERS = [("ul_sound", "Sound", "IsSound"), ("ul_program", "Headline", "Headline")]
USE = re.compile(r"^(?:unfoldable\s+)?(?:pub\s+)?use (Rattle\.[\w.+]+?)(?:\.\{([^}]*)\}| as (\w+))?\s*$", re.M)
# The head of a definition: with a word for its kind, or in a block and for a lemma its name and its type alone.
HEAD = re.compile(
    r"(?:(?:abbrev|unfoldable|record|data|type|pub)\s+)*(?:abbrev|unfoldable|record|data)\s+(?:pub\s+)?([^\s:(]+)"
)
PLAIN_HEAD = re.compile(r"(?:pub\s+)?([^\s:(){}=]+)\s+:\s")
# The head of a block: definitions that name each other, or that share parameters.
BLOCK = re.compile(r"(?:abbrev\s+|unfoldable\s+)*mutual\s*$|(?:pub\s+)?module\s+\S+\s*(.*)\bwhere\s*$")
# How docs/SOUND.md begins.
PAGE_BEGINS = (
    "A lock is right where this holds of it: in each world that the project supports, with each list of its extras."
)
WORD = re.compile(r"[^\s(){}\[\],;.λ∷]+")


def spec_file(module: str) -> str | None:
    """The file of specs/ that a module's path names, if it is one that is written here."""
    parts = module.split(".")
    if len(parts) < 4 or parts[2] != "specs" or "declared" in parts:
        return None
    path = f"crates/{parts[1]}/specs/{'/'.join(parts[3:])}.antt"
    return path if (TOP / path).is_file() else None


class Block:
    """A block of definitions: how far they are indented, and the parameters that they share."""

    def __init__(self, indent: int, shared: list[str]) -> None:
        self.indent = indent
        self.shared = shared


def definitions(text: str) -> Iterator[tuple[str, list[str]]]:
    """Each definition and lemma of a file with its lines, those of blocks with the parameters that they share.

    Lines as far in as a file's or a block's definitions begin one, or have an equation of one; lines further in go on
    with the last.
    """
    blocks = [Block(0, [])]
    name = ""
    for line in text.splitlines():
        plain = line.strip()
        if not plain or plain.startswith("--") or USE.match(line):
            continue
        indent = len(line) - len(line.lstrip())
        while indent < blocks[-1].indent:
            blocks.pop()
            name = ""
        head = indent == blocks[-1].indent
        block = BLOCK.match(plain) if head else None
        if block:
            blocks.append(Block(indent + 2, [*blocks[-1].shared, block[1] or ""]))
            name = ""
            continue
        found = (HEAD.match(plain) or PLAIN_HEAD.match(plain)) if head else None
        if found:
            name = found[1]
            yield name, blocks[-1].shared
        if name:
            yield name, [line]


class SpecFile:
    """A file of specs/: its definitions with the words of their texts, and where its imported names come from."""

    def __init__(self, path: str) -> None:
        self.text = text = (TOP / path).read_text(encoding="utf-8")
        self.names: dict[str, tuple[str, str]] = {}
        self.modules: dict[str, str] = {}
        self.uses: list[str] = []
        for module, names, alias in USE.findall(text):
            file = spec_file(module)
            if file is None:
                continue
            if file not in self.uses:
                self.uses.append(file)
            for listed in names.split(","):
                name, _, renamed = listed.strip().partition(" as ")
                if name:
                    self.names[renamed or name] = (file, name)
            if alias:
                self.modules[alias] = file
        self.definitions: dict[str, set[str]] = {}
        self.lines: dict[str, list[str]] = {}
        for name, lines in definitions(text):
            self.lines.setdefault(name, []).extend(lines)
            found = self.definitions.setdefault(name, set())
            for line in lines:
                plain = line.split(" -- ")[0]
                found.update(WORD.findall(plain))
                found.update(re.findall(r"\w+\.\w+", plain))


class Cone:
    """All files of specs/ that are reached from a definition, each with its reached names."""

    def __init__(self, crate: str, file: str, name: str) -> None:
        self.files: dict[str, SpecFile] = {}
        self.reached: dict[str, set[str]] = {}
        todo = [(f"crates/{crate}/specs/{file}.antt", name)]
        while todo:
            path, word = todo.pop()
            if path not in self.files:
                self.files[path] = SpecFile(path)
            here = self.files[path]
            if word not in here.definitions:
                # (it may be handed on from another file)
                todo += [here.names[word]] if word in here.names else []
                continue
            if word in self.reached.get(path, set()):
                continue
            self.reached.setdefault(path, set()).add(word)
            for used in here.definitions[word]:
                module, _, part = used.partition(".")
                if used in here.definitions:
                    todo.append((path, used))
                elif used in here.names:
                    todo.append(here.names[used])
                elif part and module in here.modules:
                    todo.append((here.modules[module], part))
                elif f"◌{used}◌" in here.definitions:
                    todo.append((path, f"◌{used}◌"))
                elif f"◌{used}◌" in here.names:
                    todo.append(here.names[f"◌{used}◌"])

    def in_order(self) -> list[str]:
        """The files, each behind those that it uses."""
        done: list[str] = []

        def visit(path: str, above: tuple[str, ...] = ()) -> None:
            if path in done or path in above or path not in self.reached:
                return
            for used in self.files[path].uses:
                visit(used, (*above, path))
            done.append(path)

        for path in sorted(self.reached):
            visit(path)
        return done

    def count(self) -> int:
        return sum(len(it) for it in self.reached.values())


def lines(cone: Cone) -> list[str]:
    """The list as docs/HEADLINE.md has it: crate by crate in reading order, a file with how many definitions are
    reached."""
    out: list[str] = []
    crate = ""
    for path in cone.in_order():
        _, name, _, *rest = path.split("/")
        file = "/".join(rest)
        if name != crate:
            out.append(f"- `{name}`:")
            crate = name
        out[-1] += f" `{file}` ({len(cone.reached[path])})"
    return out


def lists(text: str) -> str:
    """docs/HEADLINE.md with the lists of its tiers as the sources have them now."""
    for crate, file, name in TIERS:
        cone = Cone(crate, file, name)
        head = f"`{name}` reaches {cone.count()} definitions in {len(cone.reached)} files:"
        pattern = re.compile(rf"^`{name}` reaches \d+ definitions in \d+ files:\n\n(?:- .*\n)*\n*", re.M)
        body = "\n".join([head, "", *lines(cone), "", ""])
        text, count = pattern.subn(lambda _: body, text)
        if count != 1:
            raise SystemExit(f"docs/HEADLINE.md has no list of {name}")
    return text


def paragraphs(text: str) -> Iterator[tuple[str, set[str]]]:
    """The pieces of a file between blank lines that have definitions, each with the names that it defines."""
    inside = ""
    for piece in re.split(r"\n\s*\n", text):
        found = piece.strip("\n").splitlines()
        kept = [it for it in found if not USE.match(it) and not it.strip().startswith("-- ----")]
        if any(BLOCK.match(it.strip()) for it in kept):
            inside = ""
        elif inside and kept and kept[0].startswith(" "):
            # A piece of a block that goes on: its definitions are found behind the block's head.
            kept = [inside, *kept]
        names = {name for name, _ in definitions("\n".join(kept))}
        heads = [it for it in kept if BLOCK.match(it.strip())]
        if names:
            yield "\n".join(kept), names
        inside = heads[0] if heads else ""


# How the page is read: where to begin, what isn't on it, and what letters stand for.
READING = (
    "Read the last section first, for what is wanted, and then from the top. A type that has no definition here is the"
    " code's, in `src/` of its crate, and a word that has none is the standard library's. A catalog has its project's"
    " constraints and overrides already, so these aren't spoken of.\n\n"
    "Letters, where whole things are spoken of: `c` a catalog, `p` a project, `l` a lock, `w` a world,"
    " `q` a requirement, `n`, `m` and `t` nodes or their names, `v` and `u` versions, `V` that of a clause,"
    " `r` a release, `e` an edge, `x` and `y` extras, and each with an `s` a list of them. Below, in bytes, parts of"
    " versions and trees, a letter is what its type and the comment say; the levels of a tree are 0 the extra,"
    " 1 the interpreter, 2 to 9 the texts, 10 comparisons."
)


def page(cone: Cone, name: str) -> str:
    """A statement with all definitions that it reaches, file by file, each behind those that it uses."""

    def joined(pieces: list[str]) -> str:
        """The pieces, with the head of a block once where several of its pieces follow one another."""
        made = ""
        for piece in pieces:
            head, _, rest = piece.partition("\n")
            again = BLOCK.match(head.strip()) and f"\n{head}\n" in f"\n{made}" and made.splitlines()[-1].startswith(" ")
            made += ("\n\n" if made else "") + (rest if again else piece)
        return made

    out = [
        f"# What `{name}` says\n",
        f"{PAGE_BEGINS} The {cone.count()} definitions that `{name}` reaches, and no others, in an order in which they"
        " can be read; `◌` in a name is the place of an operand. `python3 tests/cone.py --write` writes this page from"
        " the sources.\n",
        f"{READING}\n",
    ]
    for path in cone.in_order():
        pieces = [text for text, names in paragraphs(cone.files[path].text) if names & cone.reached[path]]
        first = takewhile(lambda it: it.startswith("--"), cone.files[path].text.splitlines())
        about = " ".join(it[2:].strip() for it in first)
        out += [f"## `{path.removeprefix('crates/')}`\n", f"{about}\n", "```", joined(pieces), "```\n"]
    return "\n".join(out).rstrip("\n") + "\n"


if __name__ == "__main__":
    headline, sound = TOP / "docs" / "HEADLINE.md", TOP / "docs" / "SOUND.md"
    first = TIERS[0]
    if sys.argv[1:] == ["--write"]:
        headline.write_text(lists(headline.read_text(encoding="utf-8")), encoding="utf-8")
        sound.write_text(page(Cone(*first), first[2]), encoding="utf-8")
    elif sys.argv[1:] == ["--page"]:
        print(page(Cone(*first), first[2]), end="")
    else:
        for crate, file, name in TIERS:
            cone = Cone(crate, file, name)
            print(f"`{name}` reaches {cone.count()} definitions in {len(cone.reached)} files:\n")
            print("\n".join(lines(cone)))
