"""The documents name what is there: files, must-fail edits, definitions and theorems. The public calls ask for nothing, and have one equation each."""
import re
import sys
import unittest
from pathlib import Path

ROOT = Path(__file__).resolve().parent.parent
sys.path.insert(0, str(ROOT / "tools"))
import statements  # noqa: E402

DOCUMENTS = sorted([ROOT / "README.md", *(ROOT / "docs").glob("*.md"), *(ROOT / "tests").rglob("*.md")])
# Documents that name definitions and theorems. The others speak of plink2's options too, which look alike.
OF_NAMES = ("THEOREMS.md", "SCOPE-TRACE.md", "DECISIONS.md", "ARCHITECTURE.md")
# What the prover asks of a function. It gives these names itself; a source has them only where a proof file answers them.
GOAL = r"returns|(returns|loop|bounds|overflow_\w+|initial|prove)-[\w-]+|[\w-]+-requires"


def spans(document):
    """What stands between backticks, outside of indented examples."""
    lines = [line for line in document.read_text(encoding="utf-8").splitlines() if not line.startswith("    ")]
    return re.findall(r"`([^`\n]+)`", "\n".join(lines))


def indented(document):
    """The lines of its examples."""
    return [line[4:] for line in document.read_text(encoding="utf-8").splitlines() if line.startswith("    ")]


def sources():
    return [f for f in (ROOT / "crates").rglob("*") if f.suffix in (".antt", ".rt")]


def edits():
    return {f"{f.parent.parent.name}/{f.stem}" for f in (ROOT / "crates").glob("*/must-fail/*.edit")}


def calls():
    """The public calls: what a caller writes, the crate where the call stands, and its name there."""
    return [(call, path.parent.parent.name, name) for call, path, name in statements.calls(statements.Sources())]


def signature(call):
    """The lines of a call's source from its name to its body."""
    path, name = next((path, name) for other, path, name in statements.calls(statements.Sources()) if other == call)
    return re.search(rf"(?ms)^pub (fn {name}\b.*?)^{{$", path.read_text(encoding="utf-8")).group(1)


class Documents(unittest.TestCase):
    def test_files_are_there(self):
        for document in DOCUMENTS:
            for span in spans(document):
                if re.fullmatch(r"(crates|docs|tests|bench|examples|tools)/[\w./+-]+", span) and not re.search(r"CRATE|NAME", span):
                    path = ROOT / span
                    self.assertTrue(path.exists() or path.with_name(path.name + ".antt").exists(), f"{document.name}: {span}")

    def test_edits_are_there(self):
        # out/ and target/ are not there before the first run
        folders = {f.name for f in ROOT.iterdir() if f.is_dir()} | {"out", "target"}
        for document in DOCUMENTS:
            for span in spans(document):
                if re.fullmatch(r"[a-z][a-z_]*/[a-z0-9_]+", span) and span.split("/")[0] not in folders:
                    self.assertTrue(span in edits(), f"{document.name}: {span}")

    def test_laws_are_there(self):
        for document in DOCUMENTS:
            for span in spans(document):
                if re.fullmatch(r"[a-z][a-z_]*/[A-Z]\w+", span) and not span.startswith(("specs/", "proofs/")):
                    crate, module = span.split("/")
                    self.assertTrue((ROOT / "crates" / crate / "proofs" / f"{module}.antt").exists(), f"{document.name}: {span}")

    def test_calls_stand_where_told(self):
        readme = (ROOT / "README.md").read_text(encoding="utf-8")
        self.assertEqual(len(calls()), 12)
        for call, crate, _ in calls():
            self.assertRegex(readme, rf"(?m)^\| `{call}\(.* \| `{crate}`[^|]*\|$")

    def test_signatures_are_those_of_the_sources(self):
        readme = indented(ROOT / "README.md")
        for call, _, name in calls():
            head = re.split(r"\s*^    ensures", signature(call), maxsplit=1, flags=re.M)[0]
            line = re.sub(r"\s+", " ", head).replace("( ", "(").replace(", )", ")").replace(f"fn {name}", f"fn {call}", 1)
            self.assertIn(line, readme)

    def test_the_example_is_the_crates(self):
        readme = "\n".join(indented(ROOT / "README.md"))
        source = (ROOT / "crates" / "example" / "src" / "main.rt").read_text(encoding="utf-8")
        shown = source[source.index("// The category of a sample") : source.index("fn main")].rstrip()
        self.assertIn(re.sub(r"\n\n", "\n", shown), readme)

    def test_calls_ask_for_nothing(self):
        for call, _, _ in calls():
            contract = signature(call)
            self.assertEqual((contract.count("requires"), contract.count("ensures"), contract.count("≡")), (0, 1, 1), f"{call}: {contract}")

    def test_every_edit_is_listed(self):
        listed = set(spans(ROOT / "docs" / "EDITS.md"))
        for edit in edits():
            self.assertTrue(edit in listed or edit.split("/")[1] in listed, f"EDITS.md does not list {edit}")

    def test_every_crate_has_its_place(self):
        told = set(spans(ROOT / "docs" / "ARCHITECTURE.md"))
        for line in (ROOT / "crates.txt").read_text(encoding="utf-8").splitlines():
            if not line.startswith("#"):
                self.assertTrue(re.split("[ :]", line)[0] in told, f"ARCHITECTURE.md does not tell of {line}")

    def test_demands_have_the_words_of_the_readme(self):
        readme = (ROOT / "README.md").read_text(encoding="utf-8")
        said = re.findall(r"(?ms)^\d\. (.*?)(?=^\d\. |^$)", readme[readme.index("Three promises") :])[:3]
        stated = (ROOT / "crates" / "promises" / "proofs" / "Demands.antt").read_text(encoding="utf-8")
        quoted = re.findall(r'(?ms)^-- "([^"]*)"\npub record Demand\d ', stated)
        self.assertEqual([" ".join(re.sub(r"(?m)^-- ", "", words).split()) for words in quoted], [" ".join(words.split()) for words in said])
        self.assertEqual(len(quoted), 3)

    def test_names_are_there(self):
        words = {name for edit in edits() for name in edit.split("/")}
        for source in sources():
            words.update(re.findall(r"[A-Za-z][A-Za-z0-9_'-]*", source.read_text(encoding="utf-8")))
        # the trace names tests too
        tests = set(re.findall(r"(?m)^ *(?:def|class) (\w+)", "\n".join(path.read_text(encoding="utf-8") for path in (ROOT / "tests").glob("*.py"))))
        for document in DOCUMENTS:
            if document.name in OF_NAMES:
                known = words | tests if document.name == "SCOPE-TRACE.md" else words
                for span in spans(document):
                    if re.fullmatch(r"[a-z][a-z0-9]*([_-][a-z0-9]+)+", span) and not re.fullmatch(GOAL, span):
                        self.assertTrue(span in known, f"{document.name}: {span}")


if __name__ == "__main__":
    unittest.main()
