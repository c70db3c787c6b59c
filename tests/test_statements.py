"""docs/STATEMENTS.md is made from the sources, and a promise that says less shows there."""
import sys
import unittest
from pathlib import Path

ROOT = Path(__file__).resolve().parent.parent
sys.path.insert(0, str(ROOT / "tools"))
import statements  # noqa: E402

PAGE = ROOT / "docs" / "STATEMENTS.md"
PROMISES = "crates/promises/proofs"


def page_with(file, old, new):
    """The page as it would be if a source had another text."""

    def text(path):
        found = statements.read(path)
        if path != ROOT / file:
            return found
        if old not in found:
            raise AssertionError(f"{file} has no: {old}")
        return found.replace(old, new)

    return statements.page(statements.Sources(ROOT, text))


class Statements(unittest.TestCase):
    def test_the_page_is_made_from_the_sources(self):
        self.assertEqual(PAGE.read_text(encoding="utf-8"), statements.page(statements.Sources()), "python3 tools/statements.py writes it anew")

    def test_every_law_of_the_tables_is_there(self):
        page = PAGE.read_text(encoding="utf-8")
        sources = statements.Sources()
        for _, rows in statements.parts(sources.text(ROOT / "docs" / "THEOREMS.md")):
            for name, path in statements.promises(sources, rows, set()):
                self.assertTrue(f"\n`{name}`, " in page, name)

    def test_what_says_less_shows(self):
        page = statements.page(statements.Sources())
        for file, old, new in (
            # a list of which a line is gone, and one of the examples
            (f"{PROMISES}/Orders.antt", "    ∷ (read A 3 4 gives (10 ∷ 0 ∷ 3 ∷ []))\n", ""),
            ("crates/format/specs/Examples.antt", "    ∷ (row_of A 1 gives (0 ∷ 2 ∷ 2 ∷ 3 ∷ 1 ∷ []))\n", ""),
            # a word that a line is made of
            (f"{PROMISES}/Orders.antt", "header file = all_told (", "header file = all_told (λ x. x) ("),
            # a premise more, of a law and of the module that it stands in
            (f"{PROMISES}/CallLaws.antt", "pub check_exactly : (K : ℕ) (file", "pub check_exactly : (K : ℕ) → 5 < K → (file"),
            (f"{PROMISES}/FlipPromises.antt", "(q : refusal file set work ≡ 0) where", "(q : refusal file set work ≡ 0) (none : set ≡ []) where"),
            # a definition that says less, and a contract
            ("crates/format/proofs/RowLaws.antt", "IsRow N row = ", "IsRow N row = Unit {0} × "),
            ("crates/call_read/src/lib.rt", "{ lookup_left result work.new ≡", "{ lookup_left result work.old ≡"),
        ):
            self.assertNotEqual(page_with(file, old, new), page, f"{file}: {new}")


if __name__ == "__main__":
    unittest.main()
