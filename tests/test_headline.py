"""docs/HEADLINE.md lists exactly the files that the two statements rest on."""

from __future__ import annotations

import re
import unittest

import cone

# Definitions in each form of block, and what begins like one.
BLOCKS = """\
-- Definitions that name each other, and some that share parameters.
use Rattle.one.specs.Two.{Three}

mutual
  pub data Formula : Type 0 where
    extra : List ℕ → Formula
    all : Formulas → Formula

  pub data Formulas : Type 0 where
    more : Formula → Formulas → Formulas

abbrev mutual
  -- a formula's truth
  pub holds : Formula → Bool
  holds (extra name) = is_name name
  holds (all fs) = hold_all fs

  pub hold_all : Formulas → Bool
  hold_all (more f fs) = holds f && hold_all fs

module _ {L : Type 0} (IsLeaf : L → Leaf → Type 0) where
  -- a list of leaves
  abbrev pub AreLeaves : List L → Type 0
  AreLeaves = All IsLeaf

  pub record HasLeaf (ls : List L) : Type 0 where
    pub leaf : L
    pub listed : Contains ls leaf

  module _ (f : L → Number) where
    abbrev counted : L → Number
    counted leaf = let
        number : Number
        number = f leaf
      in number

unfoldable pub ◌&&◌ : Bool → Bool → Bool
true && b = b

abbrev pub last : Formula → Bool
last f = holds f
"""


IMPORT = re.compile(r"^\s*(?:unfoldable )?(?:pub |ghost )?use (Rattle\.\w+\.specs\.[\w.]+)\.\{([^}]*)\}", re.M)


def imported() -> dict[str, set[str]]:
    """The names that files of any kind import from each file of specs/, but the operators."""
    found: dict[str, set[str]] = {}
    files = [file for part in ("src", "specs", "proofs") for file in cone.TOP.glob(f"crates/*/{part}/**/*.*t")]
    for file in files:
        for module, names in IMPORT.findall(file.read_text(encoding="utf-8")):
            path = cone.spec_file(module)
            if path is not None:
                words = {name.split(" as ")[0].strip() for name in names.split(",")}
                found.setdefault(path, set()).update(word for word in words if word and "◌" not in word)
    return found


class Headline(unittest.TestCase):
    def test_the_lists_are_those_of_the_sources(self) -> None:
        page = (cone.TOP / "docs" / "HEADLINE.md").read_text(encoding="utf-8")
        self.assertEqual(page, cone.lists(page), "python3 tests/cone.py --write puts them right")

    def test_the_page_of_the_first_tier_is_that_of_the_sources(self) -> None:
        crate, file, name = cone.TIERS[0]
        found = (cone.TOP / "docs" / "SOUND.md").read_text(encoding="utf-8")
        made = cone.page(cone.Cone(crate, file, name), name)
        self.assertEqual(found, made, "python3 tests/cone.py --write writes it")

    def test_the_page_has_each_definition_once(self) -> None:
        reached = cone.Cone(*cone.TIERS[0]).reached
        text = (cone.TOP / "docs" / "SOUND.md").read_text(encoding="utf-8")
        for path, names in reached.items():
            part = text.partition(f"## `{path.removeprefix('crates/')}`\n")[2].partition("\n## ")[0]
            listed = [name for name, words in cone.definitions(part) if not isinstance(words, str)]
            for name in names:
                self.assertIn(name, listed, path)

    def test_a_definition_is_reached_through_another_file(self) -> None:
        reached = cone.Cone("ul_sound", "Sound", "IsSound").reached
        self.assertIn("version_cmp", reached["crates/ul_version/specs/Order.antt"])
        self.assertNotIn("crates/ul_sound/specs/Merged.antt", reached)

    def test_definitions_of_blocks_are_reached(self) -> None:
        reached = cone.Cone("ul_sound", "Sound", "IsSound").reached
        self.assertLessEqual({"Formula", "Formulas"}, reached["crates/ul_comparison/specs/Formulas.antt"])

    def test_each_form_of_block_is_read(self) -> None:
        found: dict[str, list[str]] = {}
        for name, lines in cone.definitions(BLOCKS):
            found.setdefault(name, []).extend(lines)
        self.assertEqual(
            list(found),
            ["Formula", "Formulas", "holds", "hold_all", "AreLeaves", "HasLeaf", "counted", "◌&&◌", "last"],
        )
        self.assertIn("hold_all", "".join(found["holds"]))
        self.assertIn("Leaf", "".join(found["HasLeaf"]), "the parameters of a block are part of each definition")
        self.assertIn("number = f leaf", "".join(found["counted"]))
        self.assertNotIn("Number", "".join(found["AreLeaves"]))
        self.assertNotIn("IsLeaf", "".join(found["last"]))

    def test_what_is_handed_on_is_reached_where_it_stands(self) -> None:
        here = cone.SpecFile("crates/ul_version/specs/Reading.antt")
        self.assertEqual(here.names["begins"], ("crates/ul_version/specs/Ascii.antt", "begins"))
        self.assertNotIn("use", here.definitions)

    def test_each_name_that_is_imported_is_a_definition(self) -> None:
        # a second way to find the definitions: by the names that others import
        for path, names in sorted(imported().items()):
            file = cone.SpecFile(path)
            bodies = [line for lines in file.lines.values() for line in lines]
            parts = {word for line in bodies for word in re.findall(r"^ {2,}(?:pub )?(\S+) :", line)}
            uses = re.findall(r"^(?:unfoldable )?pub use (.*)$", file.text, re.M)
            handed_on = set(re.findall(r"\w+", " ".join(uses)))
            with self.subTest(file=path):
                self.assertEqual(names - set(file.definitions) - parts - handed_on, set())


if __name__ == "__main__":
    unittest.main()
