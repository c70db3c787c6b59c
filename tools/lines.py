"""lines.py BASE [TREE]: lines added and taken out since a revision, crate by crate, as a landing note's table has them.

Run in the tree (or give its folder). Counted are the lines of `git diff -U0 BASE` that are no comment, not blank and no `use`, `ghost use`, `mod` or `pub mod` line.
Code is src/, Definitions specs/, Function proofs each Invariants.antt, Answers.antt and Proof.antt, Laws what else is in proofs/. A file that moved counts as one taken out and one added.
Then the module table of crates/format/specs, the specs of every crate, and the totals before and after.
"""
import re
import subprocess
import sys
from collections import defaultdict

base = sys.argv[1]
tree = sys.argv[2] if len(sys.argv) > 2 else "."


def git(*words):
    return subprocess.run(["git", "-C", tree, *words], check=True, capture_output=True, text=True).stdout


def counts(line):
    """Whether a line counts."""
    text = line.strip()
    return bool(text) and not re.match(r"(//|--|(ghost |pub |abbrev )*use\b|(pub )?mod\b)", text)


def column(path):
    """The crate and the column of a file."""
    parts = path.split("/")
    if len(parts) < 4 or parts[0] != "crates":
        return None
    if parts[2] == "src" and path.endswith(".rt"):
        return parts[1], "Code"
    if parts[2] == "specs" and path.endswith(".antt"):
        return parts[1], "Definitions"
    if parts[2] == "proofs" and path.endswith(".antt"):
        return parts[1], "Function proofs" if parts[-1] in ("Invariants.antt", "Answers.antt", "Proof.antt") else "Laws"
    return None


COLUMNS = ("Code", "Definitions", "Laws", "Function proofs")


def moved():
    """By file: lines added, lines taken out."""
    found, path = defaultdict(lambda: [0, 0]), None
    for line in git("diff", "-U0", "--no-renames", base, "--", "crates").splitlines():
        if line.startswith("diff --git "):
            path = line.split(" b/", 1)[1]
        elif line.startswith(("+++", "---")):
            continue
        elif line.startswith("+") and counts(line[1:]):
            found[path][0] += 1
        elif line.startswith("-") and counts(line[1:]):
            found[path][1] += 1
    return found


def totals(revision):
    """Lines by column, and by crate the number of edits, of a revision; None is the tree as it stands."""
    sums, edits = defaultdict(int), defaultdict(int)
    names = git("ls-tree", "-r", "--name-only", revision, "crates").splitlines()
    for name in names:
        if name.endswith(".edit"):
            edits[name.split("/")[1]] += 1
        where = column(name)
        if where:
            number = sum(counts(line) for line in git("show", f"{revision}:{name}").splitlines())
            sums[where[1]] += number
            if name.startswith("crates/format/specs/"):
                sums["format/specs"] += number
    return sums, edits


def order():
    """The crates as crates.txt has them."""
    return [re.split("[ :]", line)[0] for line in git("show", "HEAD:crates.txt").splitlines() if line and not line.startswith("#")]


def told(pair):
    return f"+{pair[0]:,} −{pair[1]:,}" if any(pair) else ""


def main():
    files = moved()
    before, edits_before = totals(base)
    after, edits_after = totals("HEAD")
    table = defaultdict(lambda: defaultdict(lambda: [0, 0]))
    for path, pair in files.items():
        where = column(path)
        if where:
            for k in (0, 1):
                table[where[0]][where[1]][k] += pair[k]
    crates = [c for c in order() if table.get(c) or edits_before[c] != edits_after[c]]
    crates += sorted(set(table) - set(crates))
    print("| Crate | Code | Definitions | Laws | Function proofs | Edits |\n|---|---|---|---|---|---|")
    whole = {c: [0, 0] for c in COLUMNS}
    for crate in crates:
        cells = []
        for c in COLUMNS:
            pair = table[crate][c]
            for k in (0, 1):
                whole[c][k] += pair[k]
            cells.append(told(pair))
        if not any(cells) and edits_before[crate] == edits_after[crate]:
            continue
        changed = f"{edits_before[crate]} → {edits_after[crate]}" if edits_before[crate] != edits_after[crate] else ""
        print(f"| `{crate}` | {' | '.join(cells)} | {changed} |")
    print(f"| all | {' | '.join(told(whole[c]) for c in COLUMNS)} | {sum(edits_before.values())} → {sum(edits_after.values())} |")
    print("\nIn all: " + ", ".join(f"{c.lower()} {before[c]:,} → {after[c]:,}" for c in COLUMNS) + ".")
    print(f"crates/format/specs: {before['format/specs']:,} → {after['format/specs']:,}")
    print(f"crates touched: {len([c for c in crates if any(any(p) for p in table[c].values())])} of {len(order())}")
    print("\nspecs, by file:")
    for path in sorted(files):
        where = column(path)
        if where and where[1] == "Definitions" and any(files[path]):
            print(f"  {path[7:]}: {told(files[path])}")
    print("\nmust-fail edits, by name:")
    print(git("diff", "--name-status", "--no-renames", base, "HEAD", "--", "crates/*/must-fail/*"))
    if git("status", "--porcelain", "--", "crates").strip():
        print("note: the tree has changes that are not committed; the table has them, the totals have not", file=sys.stderr)


main()
