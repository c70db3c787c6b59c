"""statements.py: docs/STATEMENTS.md, each promise as it stands in the sources, so that a weaker statement under the same name shows in a diff of that
page. The promises are the laws that docs/THEOREMS.md names, with the contracts of the public calls; tests/test_statements.py holds the page to the sources.
"""
import re
from pathlib import Path

ROOT = Path(__file__).resolve().parent.parent
HEAD = """# Statements

Made by `tools/statements.py` from the sources; a test holds it to them. Each promise that `docs/THEOREMS.md` names, in its order, as it stands in the
source: the parameters of the modules that it stands in, the comment above it, its statement. A promise that says less than it did shows in a diff of this
page. "Words" has the definitions outside of `specs/` that the statements use. What stands in `specs/` is not repeated, but for document 01's examples.
"""
# The parts of docs/THEOREMS.md that name promises, by the beginnings of their headings
PARTS = ("The three demands", "Demand 1", "Demand 2", "Demand 3", "Document 01", "The public calls", "Two replies")
# The short names of folders there
SHORT = {"": "crates/format/proofs", "specs": "crates/format/specs", "head_index": "crates/head_index/proofs", "promises": "crates/promises/proofs"}
# Lists in specs/ that a statement is about
LISTS = ("examples",)
NAME = r"[^\s(){};,.λ:`]+"


def read(path):
    """A source's text."""
    return path.read_text(encoding="utf-8")


def indent(line):
    """How far a line is indented."""
    return len(line) - len(line.lstrip())


def block(lines, k, ends):
    """From line k to the last line that is indented further, and those after it at its own depth that begin with `ends`."""
    depth, last = indent(lines[k]), k + 1
    while last < len(lines) and (not lines[last].strip() or indent(lines[last]) > depth or (ends and lines[last].strip().startswith(ends))):
        last += 1
    return [line for line in lines[k:last] if line.strip()]


def above(lines, k):
    """The comment above line k; a heading of a part of the file is none."""
    first = k
    while first > 0 and re.match(r"\s*-- (?!----)", lines[first - 1]) and indent(lines[first - 1]) == indent(lines[k]):
        first -= 1
    return lines[first:k]


def declared(text):
    """What a file declares: by name and kind (law, lemma or definition) its text, with the comment and the modules around it."""
    lines, around, found = text.splitlines(), [], {}
    for k, line in enumerate(lines):
        if not line.strip() or line.strip().startswith("--"):
            continue
        around = [(depth, head) for depth, head in around if depth < indent(line)]
        if line.strip().startswith("module "):
            head = [line]
            while not head[-1].endswith(" where"):
                head.append(lines[k + len(head)])
            around.append((indent(line), head))
            continue
        of = re.match(rf"\s*(abbrev |unfoldable )?(pub )?(record |data )?({NAME})(?: [({{].*[)}}])? :(?: |$)", line)
        if of is None:
            continue
        word, public, shape, name = of.groups()
        body = block(lines, k, (name + " ", "unfolding") if word else None)
        heads = [line for _, head in around for line in head]
        kind = "definition" if word or shape else "law" if public else "lemma"
        found.setdefault((name, kind), []).append("\n".join(heads + above(lines, k) + body))
    return {of: "\n\n".join(texts) for of, texts in found.items()}


def module_file(root, module):
    """The file of a module by the path that a `use` gives, if it is one of proofs/."""
    of = re.fullmatch(r"Rattle\.(\w+)\.proofs\.(\w+)", module)
    path = root / "crates" / of.group(1) / "proofs" / f"{of.group(2)}.antt" if of else None
    return path if path and path.exists() else None


def imported(root, text):
    """By name, the file of proofs/ that it is brought in from."""
    pairs = re.findall(r"^use ([\w.]+)\.\{([^}]*)\}", text, re.M)
    homes = {module: module_file(root, module) for module, _ in pairs}
    return {name.strip(): homes[module] for module, names in pairs for name in names.split(",") if homes[module]}


class Sources:
    """The sources, each read once; `text` gives a file's text."""

    def __init__(self, root=ROOT, text=read):
        self.root, self.text, self.known = root, text, {}

    def of(self, path):
        """What a file declares."""
        if path not in self.known:
            self.known[path] = declared(self.text(path))
        return self.known[path]

    def words(self, path, text):
        """The definitions of proofs/ that a text of a file uses: name and file."""
        names = set(re.findall(NAME, re.sub(r"(?m)^\s*--.*$", "", text)))
        brought = imported(self.root, self.text(path))
        here = {name: path for name, _ in self.of(path)} if path.parent.name == "proofs" else {}
        for name, home in sorted({**here, **brought}.items()):
            if name in names and (name, "definition") in self.of(home):
                yield name, home


def parts(theorems):
    """The parts of THEOREMS.md that name promises: heading and lines."""
    for part in re.split(r"^## ", theorems, flags=re.M)[1:]:
        if part.startswith(PARTS):
            heading, _, rest = part.partition("\n")
            yield heading, [line for line in rest.splitlines() if line.startswith("| ")]


def files_named(root, row):
    """The files that a row of a table names."""
    for span in re.findall(r"`([^`]+)`", row):
        crate, _, module = span.rpartition("/")
        path = root / SHORT.get(crate, crate) / f"{module}.antt"
        if module[:1].isupper() and path.exists():
            yield path


def functions(sources):
    """The functions of two words and more, and the public calls."""
    found = {name for path in (sources.root / "crates").glob("*/src/*.rt") for name in re.findall(r"\bfn (\w+_\w+)", sources.text(path))}
    return found | {call for call, _, _ in calls(sources) if "_" in call}


def promises(sources, rows, shown):
    """The laws that the rows of a part name: name and file. A name that neither its row's files nor an earlier row has is looked for in all files, unless it
    is a function's: `next_row` is the call, and not a law that happens to have its name."""
    everywhere, code = sorted((sources.root / "crates").glob("*/proofs/*.antt")), functions(sources)
    for row in rows:
        named = list(files_named(sources.root, row))
        for name in re.findall(r"`([a-z][a-z0-9_]*)`", row):
            laws = [path for path in named if (name, "law") in sources.of(path)]
            if not laws and name not in code and name not in {before for before, _ in shown}:
                laws = [path for path in everywhere if (name, "law") in sources.of(path)]
            yield from ((name, path) for path in laws)


def calls(sources):
    """The public calls: what a caller writes, the file where the call stands, and its name there. A crate may have it in a module, also without saying so."""
    listed = sources.text(sources.root / "crates" / "pgen" / "src" / "lib.rt")
    for crate, names in re.findall(r"^pub use (\w+)::(?:\w+::)*(\{[^}]*\}|\w+(?: as \w+)?);$", listed, re.M):
        files = sorted((sources.root / "crates" / crate / "src").glob("*.rt"))
        for name, alias in re.findall(r"(\w+)(?: as (\w+))?", names):
            yield alias or name, next(path for path in files if re.search(rf"(?m)^pub fn {name}\b", sources.text(path))), name


def contracts(sources):
    """The public calls: what a caller writes, the file, and its contract with the comment above it."""
    for call, path, name in calls(sources):
        yield call, path, re.search(rf"(?ms)((?:^//[^\n]*\n)*^pub fn {name}\b.*?)^{{$", sources.text(path)).group(1).rstrip()


def entry(sources, name, path, text):
    """A promise or a word, with its file."""
    return f"\n`{name}`, `{path.relative_to(sources.root)}`\n\n```\n{text}\n```\n"


def page(sources):
    """The whole page."""
    out, shown, words = [HEAD], set(), []
    for heading, rows in parts(sources.text(sources.root / "docs" / "THEOREMS.md")):
        out.append(f"\n## {heading}\n")
        if heading.startswith("The public calls"):
            out += [entry(sources, name, path, text) for name, path, text in contracts(sources)]
        for name, path in promises(sources, rows, shown):
            if (name, path) not in shown:
                shown.add((name, path))
                out.append(entry(sources, name, path, sources.of(path)[name, "law"]))
                words += sources.words(path, sources.of(path)[name, "law"])
    lists = sources.root / "crates" / "format" / "specs" / "Examples.antt"
    words += [(name, lists) for name in LISTS]
    out.append("\n## Words\n")
    for name, path in words:
        if (name, path) not in shown:
            shown.add((name, path))
            out.append(entry(sources, name, path, sources.of(path)[name, "definition"]))
            words += sources.words(path, sources.of(path)[name, "definition"])
    return "".join(out)


if __name__ == "__main__":
    (ROOT / "docs" / "STATEMENTS.md").write_text(page(Sources()), encoding="utf-8")
