"""What a run prints of a must-fail edit is put into the words of docs/EDITS.md; what shows nothing of a contract stops the page."""
import sys
import tempfile
import unittest
from pathlib import Path

ROOT = Path(__file__).resolve().parent.parent
sys.path.insert(0, str(ROOT / "tools"))
import edits  # noqa: E402

AS_IT_MUST = "refused, as it must be: "


class Edits(unittest.TestCase):
    def test_words(self):
        for said, words in (
            ("./proofs/take/Answers.antt:11:23: error: `returns-then-half`: `search`: no proof of `x", "`take`: what it ensures"),
            ("./proofs/take/Answers.antt:8:27: error: `bad_in_block-requires`: `search`: no proof of `x", "`take`: what `bad_in_block` asks for"),
            ("./proofs/take/Answers.antt:8:27: error: `read_track-read-requires-clause-lists`: x", "`take`: what `read_track` asks for"),
            ("./proofs/entry/take/Answers.antt:20:22: error: `loop-j-preserved`: x", "`take`: a loop's invariant"),
            ("./proofs/take/Answers.antt:20:22: error: `overflow_add-sum`: x", "`take`: that a sum, a difference or a product fits"),
            ("./proofs/take/Answers.antt:20:22: error: `slice_bounds-part-end`: x", "`take`: that what it takes of a slice is there"),
            ("./proofs/+take/Proof.antt:57:11: error: `+take_spec`: `search`: no proof of `mathlib.Core.Path.◌≡◌ (x", "`take`: what it ensures"),
            ("./proofs/PairLaws.antt:73:33: error: `table_rule`: expected type", "`table_rule`, `proofs/PairLaws`"),
            ("./specs/Examples.antt:112:17: error: `examples_hold`: as printed", "`examples_hold`, `specs/Examples`"),
        ):
            self.assertEqual(edits.refused_at("format", "any", AS_IT_MUST + said), words)

    def test_a_note_is_of_the_function_that_has_its_line(self):
        lines = (ROOT / "crates" / "base_rows" / "src" / "lib.rt").read_text(encoding="utf-8").splitlines()
        first = next(k for k, line in enumerate(lines, 1) if line.startswith("pub fn clear("))
        for line in (first, first + 4):
            said = f"{AS_IT_MUST}note: src/lib.rt:{line}:1: it is not proved that what the function ensures holds when it returns (`returns`)"
            self.assertEqual(edits.refused_at("base_rows", "any", said), "`clear`: what it ensures")

    def test_what_shows_nothing(self):
        for said in (
            "BAD EDIT: an 'old:' text is in src/lib.rt 0 times, and not once",
            "NOT REFUSED: the crate is still proved with this edit",
            "NOT TRIED: its check was killed",
            "refused, as it must be (only because a proof file names what the edit took away): ./proofs/take/Answers.antt:1:1: error: `returns`: x",
            AS_IT_MUST + "./proofs/take/Answers.antt:1:1: error: `nobody_knows`: x",
        ):
            with self.assertRaises(SystemExit):
                edits.refused_at("format", "any", said)

    def test_the_last_word_counts(self):
        with tempfile.TemporaryDirectory() as folder:
            log = Path(folder) / "log"
            log.write_text("rt: must-fail a/b.edit: first\nrt: a is kept\nrt: must-fail a/b.edit: last\n", encoding="utf-8")
            self.assertEqual(edits.runs([log]), {("a", "b"): "last"})


if __name__ == "__main__":
    unittest.main()
