#!/usr/bin/env python3
"""Makes docs/CALLS.md and docs/PROVED.md from the sources: each public function with its contract's clauses, and each
law.

    docs/pages.py            writes both pages
    docs/pages.py --check    compares them with the sources, and the table of crates in docs/ARCHITECTURE.md with
                             crates.txt; the last line says how many agree

What comes before the line MARK of a page is written by hand and stays. All after it is made: from the docstrings,
from the names of the clauses, and from crates.txt, which gives the order.
"""

import pathlib
import re
import sys

ROOT = pathlib.Path(__file__).resolve().parent.parent
MARK = "<!-- What follows is made from the sources by docs/pages.py. -->"

OWNER = re.compile(r"^(?:pub )?(impl|trait)(?:<.*?>)? +(\w+)(.*)$")
FUNCTION = re.compile(r"^\s*(pub )?(?:const )?(?:unsafe )?(extern \"C\" )?fn (\w+)")
# a clause: what kind, its name, and where it begins with a definition's name that one
CLAUSE = re.compile(r"^\s*(requires|ensures)(?: (\w+))? \{(?: ([A-Z]\w+) )?")

# a crate's row in the table of crates: its name, and what it uses
ROW = re.compile(r"^\| `(\w+)` \|([^|]*)\|", re.M)


class Function:
    """A public function: its owner (a type, a trait, or nothing), its name, its docstring, and the names of its
    clauses."""

    def __init__(self, owner, name, doc):
        self.owner, self.name, self.doc = owner, name, doc
        self.needs, self.clauses = [], []

    def title(self):
        """How the pages call it."""
        return f"`{self.owner}::{self.name}`" if self.owner else f"`{self.name}`"

    def summary(self):
        """The first sentence of its docstring."""
        return sentence(part(self.doc, None))

    def errors(self):
        """What its docstring says of errors."""
        return re.split(r" Cost: ", part(self.doc, "Errors"))[0]


def part(doc, heading):
    """The text of a docstring before its first heading, or below a heading."""
    inside, words = heading is None, []
    for line in doc:
        if line.startswith("# "):
            inside = line[2:] == heading
        elif inside:
            words.append(line.removeprefix("- "))
    return plain(" ".join(words))


def plain(text):
    """A docstring's text without links, fit for a table."""
    text = re.sub(r"\[(`[^`]+`)\](?:\([^)]*\))?", r"\1", text)
    return re.sub(r"\s+", " ", text).strip().replace("|", "\\|")


def sentence(text):
    """The first sentence of a text."""
    found = re.match(r"(.*?[^A-Z.§0-9][.:])(?: [A-Z`]|$)", text)
    return (found[1] if found else text).rstrip(".:")


def clauses_after(lines, index):
    """The clauses of the function that begins on this line: (kind, name) each."""
    depth = 0
    for line in lines[index:]:
        clause = CLAUSE.match(line) if depth == 0 else None
        if clause:
            yield clause[1], clause[2] or clause[3] or ""
        if clause or depth:
            depth += line.count("{") - line.count("}")
        if depth == 0 and (line.rstrip().endswith(";") or not clause and re.search(r"\{\}?\s*$", line)):
            return


def functions_of(path):
    """The public functions of a source file, in order."""
    lines = path.read_text().splitlines()
    owner, shown, doc = "", False, []
    for index, line in enumerate(lines):
        stripped = line.strip()
        begun = OWNER.match(line)
        if begun:
            kind, name, rest = begun.groups()
            owner, shown = ("", False) if " for " in rest else (name, kind == "trait")
            doc = []
        elif line.startswith("}"):
            owner, shown = "", False
        found = FUNCTION.match(line)
        if stripped.startswith("///"):
            doc.append(stripped[3:].strip())
        elif found:
            if (found[1] or shown) and (owner or not line[0].isspace()):
                function = Function(owner, found[3], doc)
                for kind, name in clauses_after(lines, index):
                    (function.needs if kind == "requires" else function.clauses).append(name)
                yield function
            doc = []
        elif not stripped.startswith(("#[", "//")):
            doc = []


def exported(crate):
    """The names that a crate's root exports."""
    text = (ROOT / "crates" / crate / "src/lib.rt").read_text()
    names = set()
    for found in re.finditer(r"^pub use [\w:]+::(?:\{([^}]*)\}|(\w+));", text, re.M):
        names.update(re.findall(r"\w+", found[1] or found[2]))
    names |= set(re.findall(r"^pub (?:type|trait|struct|enum|fn) (\w+)", text, re.M))
    for path in (ROOT / "crates" / crate / "src").rglob("*.rt"):
        names.update(re.findall(r'^pub extern "C" fn (\w+)', path.read_text(), re.M))
    return names


def crates():
    """The libraries of crates.txt, lowest first, each with its functions and its laws."""
    for line in (ROOT / "crates.txt").read_text().splitlines():
        crate = re.match(r"\w*", line)[0]
        source = ROOT / "crates" / crate / "src"
        if not crate or not (source / "lib.rt").exists():
            continue
        names, functions, laws = exported(crate), [], []
        for path in sorted(source.rglob("*.rt")):
            where = path.relative_to(source).parts
            if "tests" in where or path.name == "tests.rt":
                continue
            found = list(functions_of(path))
            if where[0].removesuffix(".rt") == "laws":
                laws += found
            else:
                functions += [it for it in found if (it.owner or it.name) in names]
        if functions or laws:
            yield crate, functions, laws


def named(clauses):
    """The names of clauses, for a table."""
    names = [f"`{name}`" for name in clauses if name]
    unnamed = "one without a name" if names else "its clause"
    return ", ".join(names + [unnamed] * ("" in clauses))


def calls():
    """The tables of CALLS.md: what each call needs, and its errors."""
    for crate, functions, _laws in crates():
        rows = [it for it in functions if it.needs or it.errors()]
        yield f"## `{crate}`\n"
        if not rows:
            yield "No call needs anything, and none has an error.\n"
            continue
        yield "| Call | Needs | Errors | Clauses |\n|---|---|---|---|"
        for it in rows:
            yield f"| {it.title()} | {named(it.needs)} | {it.errors()} | {named(it.clauses)} |"
        yield ""


def proved():
    """The tables of PROVED.md: each law, and each public function with a contract."""
    for crate, functions, laws in crates():
        yield f"## `{crate}`\n"
        if laws:
            yield "| Law | Statement |\n|---|---|"
            for it in laws:
                yield f"| `laws::{it.name}` | {part(it.doc, None)} |"
            yield ""
        rows = [it for it in functions if it.clauses]
        if rows:
            yield "| Call | Meaning | Clauses |\n|---|---|---|"
            for it in rows:
                yield f"| {it.title()} | {it.summary()} | {named(it.clauses)} |"
            yield ""


def uses():
    """The libraries that each crate uses, by crates.txt."""
    lines = [line.split(":") for line in (ROOT / "crates.txt").read_text().splitlines() if ":" in line]
    return {crate.split()[0]: set(libraries.split()) for crate, libraries in lines}


def with_those_below(names, used):
    """These libraries, and all of the project's that they use."""
    own = {name for name in names if name in used}
    return names.union(*(with_those_below(used[name] & used.keys(), used) for name in own))


def rows_that_differ():
    """The crates that do not use what their row in docs/ARCHITECTURE.md says, that have no row, or that are gone."""
    used = uses()
    rows = dict(ROW.findall((ROOT / "docs/ARCHITECTURE.md").read_text()))
    for crate in used | rows:
        row = rows.get(crate, "")
        words = re.sub(r"and those below|,? for its [\w ]+", "", row)
        names = {f"cfdp_{word}" if f"cfdp_{word}" in used else word for word in re.findall(r"\w+", words)}
        allowed = with_those_below(names, used) if "and those below" in row else names
        if crate not in rows or crate not in used or not names <= used.get(crate, set()) <= allowed:
            yield crate


def page(name, parts):
    """A page: what is written by hand, and what is made."""
    path = ROOT / "docs" / name
    text = path.read_text()
    return path, text, text.split(MARK)[0] + MARK + "\n\n" + "\n".join(parts).rstrip() + "\n"


def main():
    if sys.argv[1:] not in ([], ["--check"]):
        sys.exit(__doc__)
    failed = 0
    for name, parts in (("CALLS.md", calls()), ("PROVED.md", proved())):
        path, old, new = page(name, parts)
        if not sys.argv[1:]:
            path.write_text(new)
        elif old != new:
            failed += 1
            print(f"docs/{name} differs from the sources: run docs/pages.py")
    if sys.argv[1:]:
        differing = list(rows_that_differ())
        failed += bool(differing)
        for crate in differing:
            print(f"docs/ARCHITECTURE.md: the row of {crate} differs from crates.txt")
        print(f"{3 - failed} passed, {failed} failed")
    return 1 if failed else 0


if __name__ == "__main__":
    sys.exit(main())
