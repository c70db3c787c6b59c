"""edits.py [--check] [LOG ..]: docs/EDITS.md, the page of the must-fail edits, from the runs: what each edit is stands in its first line, and where the prover
first refuses it in what `rt ci` or `rt must-fail` printed. That is read from the LOGs, the last word on an edit counting, or else from out/ci.log, where ./test leaves it.
With --check the page is only compared with it.
"""
import re
import sys
from pathlib import Path

ROOT = Path(__file__).resolve().parent.parent
PAGE = ROOT / "docs" / "EDITS.md"
LOG = ROOT / "out" / "ci.log"
HEAD = """# Must-fail edits

Made by `tools/edits.py` from what the last `rt ci` printed; `./test` holds it to that. Each edit is a wrong program or a wrong definition. The prover is given a copy of the
crate with the edit and must refuse it. The last column is the first thing that it refuses: what a function ensures, what a call of another function asks for, a loop's invariant,
or a law. In each case that is the very fact that fails of the wrong program: where laws would be refused before it only because they are worded for the right program, the edit
rewords them too.
"""
# What a goal of a function's proof says, by its name, and by the words of a note where no proof file answers it
GOALS = (
    (r"returns\b", "what it ensures"),
    (r"prove-.*requires\b", "the condition of a `prove!`"),
    (r"(\w+)(?:-\w+)*?-requires\b", r"what `\1` asks for"),
    (r".*-(?:init|preserved)\b", "a loop's invariant"),
    (r".*-smaller\b", "that a loop ends"),
    (r"overflow_cast\b", "that a number fits the type that it is cast to"),
    (r"overflow_", "that a sum, a difference or a product fits"),
    (r"nonzero_", "that a divisor is not 0"),
    (r"slice_bounds\b", "that what it takes of a slice is there"),
    (r"(?:offset_)?bounds\b", "that an index is within what it is taken of"),
)
WORDS = (
    (r"what the function ensures holds", "what it ensures"),
    (r"what `(?:\w+::)*(\w+)` requires holds|what (?:\w+::)*(\w+) requires holds", r"what `\1\2` asks for"),
    (r"the invariant (?:of the loop|that rattle tried for the loop) holds", "a loop's invariant"),
    (r"the loop ends", "that a loop ends"),
    (r"the value fits the type that it is cast to", "that a number fits the type that it is cast to"),
    (r"the (?:sum|subtraction|product|negation)", "that a sum, a difference or a product fits"),
    (r"the divisor is not 0", "that a divisor is not 0"),
    (r"the part (?:starts|ends)", "that what it takes of a slice is there"),
    (r"the index is", "that an index is within what it is taken of"),
)
# The same of a goal of a proof by hand, which has no name, by its first words: in this repository an equation is what a function ensures
BY_HAND = (
    (r"mathlib\.Core\.Path\.◌≡◌ ", "what it ensures"),
    (r"Prim\.Native\.Nat\.◌[≤<]◌ ", "a bound that a call asks for"),
)


def told(edit):
    """The wrong program in words: the first line of the edit."""
    first = edit.read_text(encoding="utf-8").splitlines()[0]
    if not first.startswith("# "):
        raise SystemExit(f"{edit.relative_to(ROOT)}: its first line does not say what is wrong with it")
    return first[2:]


def runs(logs):
    """What the runs printed of each edit, by crate and name."""
    found = {}
    for log in logs:
        if not log.exists():
            raise SystemExit(f"{log}: there is no such log: ./test leaves one, and so does `rt must-fail >FILE`")
        for crate, name, said in re.findall(r"^rt: must-fail (\w+)/(\S+?)\.edit: (.*)$", log.read_text(encoding="utf-8", errors="replace"), re.M):
            found[crate, name] = said
    return found


def function_at(source, line):
    """The function of a source that has the line: that of its signature there, or of the body that it stands in."""
    texts = source.read_text(encoding="utf-8").splitlines()
    for text in reversed(texts[:line]):
        found = re.match(r"\s*(?:pub )?(?:const )?fn (\w+)", text)
        if found:
            return found.group(1)
    raise SystemExit(f"{source}:{line}: no function there")


def said_by(table, text):
    """The first line of a table that fits a text, in its words."""
    for pattern, words in table:
        found = re.match(pattern, text)
        if found:
            return found.expand(words)
    return None


def refused_at(crate, name, said):
    """Where the prover first refused, in words."""
    if said.startswith("refused, as it must be (only because"):
        raise SystemExit(f"{crate}/{name}: refused only since a proof file names what it took away, which shows nothing of a contract")
    if said.startswith("refused, as it must be (only by a limit"):
        raise SystemExit(f"{crate}/{name}: refused only by a limit of the prover, which gave no verdict")
    found = re.match(r"refused, as it must be: (?:note: )?(?:\./)?(src|specs|proofs)/(\S+?):(\d+):\d+: (.*)", said)
    if found is None:
        raise SystemExit(f"{crate}/{name}: {said[:200]}")
    part, path, line, text = found.groups()
    if part == "src":
        function = function_at(ROOT / "crates" / crate / "src" / path, int(line))
        of = re.match(r"it is not proved that (.*)", text)
        what = of and said_by(WORDS, of.group(1))
        goal = re.search(r"\(`([^`]+)`\)", text)
        what = what or goal and said_by(GOALS, goal.group(1))
    else:
        of = re.match(r"error: `([^`]*)`", text)
        if of is None:
            raise SystemExit(f"{crate}/{name}: {said[:200]}")
        if Path(path).stem not in ("Answers", "Invariants", "Proof"):
            return f"`{of.group(1)}`, `{part}/{Path(path).stem}`"
        function, what = path.split("/")[-2].lstrip("+"), said_by(GOALS, of.group(1))
        shown = re.search(r"no proof of `(.*)", text)
        if Path(path).stem == "Proof" and shown:
            what = said_by(BY_HAND, shown.group(1))
    if what is None:
        raise SystemExit(f"{crate}/{name}: what is that? {text[:200]}")
    return f"`{function}`: {what}"


def page(logs):
    """The whole page."""
    parts, found = [HEAD], runs(logs)
    for line in (ROOT / "crates.txt").read_text(encoding="utf-8").splitlines():
        crate = re.split(r"[ :]", line)[0]
        edits = sorted((ROOT / "crates" / crate / "must-fail").glob("*.edit")) if not line.startswith("#") else []
        if edits:
            parts.append(f"\n## `{crate}`\n\n| Edit | Wrong program or definition | First refused at |\n|---|---|---|\n")
        for edit in edits:
            if (crate, edit.stem) not in found:
                raise SystemExit(f"{crate}/{edit.stem}: the runs say nothing of it: rt must-fail {crate}")
            parts.append(f"| `{crate}/{edit.stem}` | {told(edit)} | {refused_at(crate, edit.stem, found[crate, edit.stem])} |\n")
    return "".join(parts)


def main():
    words = sys.argv[1:]
    made = page([Path(word) for word in words if word != "--check"] or [LOG])
    if "--check" not in words:
        PAGE.write_text(made, encoding="utf-8")
    elif PAGE.read_text(encoding="utf-8") != made:
        other = ROOT / "out" / "EDITS.md"
        other.parent.mkdir(exist_ok=True)
        other.write_text(made, encoding="utf-8")
        raise SystemExit("docs/EDITS.md is not what the runs say: compare it with out/EDITS.md; python3 tools/edits.py writes it anew")


if __name__ == "__main__":
    main()
