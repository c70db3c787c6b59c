#!/usr/bin/env python3
"""Brings the repository's own definitions and lemmas to snake case, after port.py: `read-list` becomes `read_list`, a prime an apostrophe.

usage: python3 tools/respell.py            at the top of the repository, once

A name is the repository's own if a file of specs/ or proofs/ declares it: at the top of the file, behind `where`, as a field, a constructor,
a bound variable or another name of a module. In a file that imports the same name from the kit it stays, and so do names that Rattle makes. Text between
quotes and prose in comments stay; what stands between backticks in a comment is turned. Two names that would fall together are told, and nothing is written.
"""

import collections
import os
import re
import sys

DECLARED = re.compile(r"^\s*(?:(?:pub|abbrev|unfoldable|data|record|ruleset|axiom) )*([^\s(){};,:.λ]+)(?: ?\{[^}]*\}| \([^)]*\))* :(?= )")
SEVERAL = re.compile(r"^\s+(?:pub )?((?:[^\s(){};,:.λ]+ )+):(?= )")
ALIAS = re.compile(r"^\s*use .* as ([^\s(){};,:.]+)$")
BOUND = re.compile(r"[({]((?:[^\s(){};,:.λ]+ )+):(?= )")
RULESET = re.compile(r"^(?:pub )?ruleset (?:pub )?([^\s(){};,:.]+)")
FROM_KIT = re.compile(r"^(?:ghost )?use (?![\w:]*::)(?!Rattle\.)[^{]*\{([^}]*)\}|^(?:ghost )?use Rattle\.std\.[^{]*\{([^}]*)\}")
TOKEN = re.compile(r"[^\s(){}\[\];,.«»:\"`]+")
MADE = ("invariant-", "decreases-", "loop-")
# types keep camel case; a list named for the example file A is no type
OTHERWISE = {f"{word}-{n}": f"{word}{n}" for word in ("Demand", "Phased") for n in (1, 2, 3)} | {"A-with": "a_with", "bodies-A": "bodies_a"}


def texts(kinds):
    for folder, dirs, files in os.walk("crates"):
        dirs[:] = sorted(d for d in dirs if d != "out")
        for name in sorted(files):
            if name.endswith(kinds):
                yield os.path.join(folder, name)


def read(path):
    with open(path, encoding="utf-8") as f:
        return f.read()


def spelled(name):
    return OTHERWISE.get(name) or name.replace("-", "_").replace("′", "'")


def from_kit(text):
    out = set()
    for line in text.splitlines():
        m = FROM_KIT.match(line)
        if m:
            for it in (m.group(1) or m.group(2)).split(","):
                out |= set(it.split())
    return out


def own_names():
    names = set()
    for path in texts(".antt"):
        for line in read(path).splitlines():
            if line.lstrip().startswith("--"):
                continue
            m = DECLARED.match(line) or RULESET.match(line) or ALIAS.match(line)
            if m:
                names.add(m.group(1))
            several = [s for s in [SEVERAL.match(line)] if s] + list(BOUND.finditer(line))
            names |= {n for s in several for n in s.group(1).split()}
    return names


def turned(piece, table):
    return TOKEN.sub(lambda m: table.get(m.group(0), m.group(0)), piece)


def turn_line(line, table, comment):
    """Code is turned, and what stands between backticks in its comment; text between quotes stays."""
    parts = re.split(rf"(^|\s)({re.escape(comment)}.*)$", line, maxsplit=1) if comment else [line]
    code = "".join(t if t.startswith('"') else turned(t, table) for t in re.split(r'("(?:[^"\\]|\\.)*")', parts[0]))
    if len(parts) == 1:
        return code
    told = "".join(t if i % 2 == 0 else turned(t, table) for i, t in enumerate(re.split(r"(`[^`]*`)", parts[2])))
    return code + parts[1] + told + "".join(parts[3:])


def main():
    names = own_names()
    table = {n: spelled(n) for n in names if spelled(n) != n and not n.startswith(MADE)}
    fall = collections.defaultdict(set)
    for n in names:
        fall[spelled(n)].add(n)
    fall = {a: b for a, b in fall.items() if len(b) > 1}
    if fall:
        print(f"these fall together: {fall}")
        return 1
    for path in texts((".antt", ".rt", ".edit")):
        text = read(path)
        kept = from_kit(text)
        here = {a: b for a, b in table.items() if a not in kept}
        clash = {a for a, b in here.items() if b in kept and re.search(rf"(?<![^\s(){{}},;.]){re.escape(a)}(?![^\s(){{}},;.])", text)}
        if clash:
            print(f"{path}: would fall together with names of the kit: {clash}")
        comment = "--" if path.endswith(".antt") else "//" if path.endswith(".rt") else None
        new = "\n".join(turn_line(line, here, comment) for line in text.split("\n"))
        if new != text:
            with open(path, "w", encoding="utf-8") as f:
                f.write(new)
    print(f"{len(table)} names")
    return 0


if __name__ == "__main__":
    sys.exit(main())
