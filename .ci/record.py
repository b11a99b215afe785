"""The record of edits, `edits.txt`: when all edits of each crate were last tried, and what they were tried on.

Each crate has two sums there. One is of what is its own: the kit, the scripts that try and judge an edit, its line of
crates.txt, its `src/`, `specs/` and `proofs/`, and its edits. The other is of what is below it: of each library that it
uses, and that those use, the contracts and `specs/`. That is its sources without comments, without the proofs, and
without the bodies of functions, where no other function's proof depends on a body.

The record says which edits a run tries. It tries

- all edits of a crate whose own sum is another one, or that has no line;
- a fifth of those that are due only by what is below their crate;
- a twentieth of the rest.

Which ones those are is picked by the hash of the commit, for each edit by its name. So other commits try others."""

import hashlib
import os
import re
import subprocess
import time
from dataclasses import dataclass

import edits

FILE = "edits.txt"
HEAD = """\
# When all must-fail edits of each crate were last tried, each from nothing, and each was refused.
# `.ci/prove --record` writes this file, and only from what was tried on the machine that it runs on. `.ci/record.py`
# says what the two sums are of, and which edits a run of the gate tries.
#
# crate, day, commit, edits, sum of what is its own, sum of what is below it
"""
# One edit in so many is tried, by why it is due.
ANEW, BELOW, REST = "own", "below", "rest"
ONE_IN = {ANEW: 1, BELOW: 5, REST: 20}
DIGITS = 24


@dataclass(frozen=True)
class Line:
    """A line of the record."""

    day: str
    commit: str
    edits: int
    own: str
    below: str


def read(root):
    """The record's lines, by crate. None where it can't be read."""
    try:
        with open(f"{root}/.ci/{FILE}", encoding="utf-8") as it:
            rows = [line.split() for line in it if line.strip() and not line.startswith("#")]
        return {name: Line(day, commit, int(count), own, below) for name, day, commit, count, own, below in rows}
    except (OSError, ValueError):
        return {}


def commit_of(root):
    """The hash of the commit that is checked out, or None."""
    ran = subprocess.run(["git", "rev-parse", "HEAD"], cwd=root, capture_output=True, text=True)
    return ran.stdout.strip() if ran.returncode == 0 else None


def files_of(folder, part):
    """The files of a part of a crate's folder, by their paths in it."""
    found = [f"{at}/{name}" for at, _, names in os.walk(f"{folder}/{part}") for name in names]
    return sorted(os.path.relpath(it, folder) for it in found)


def without_comments(text, mark):
    """The lines of a text that are no comments, and not empty."""
    return [line for line in text.split("\n") if line.strip() and not line.lstrip().startswith(mark)]


def contracts_of(path, text):
    """The text of a source without its comments, and without the bodies that no other function's proof depends on:
    those of a function that is no `const fn`, and of no trait or macro."""
    lines = text.split("\n")
    whole = inside_of(lines, re.compile(r"(pub(\([^)]*\))? )?(trait|macro_rules!) "))
    for it in edits.spans_of(path, text):
        if not it.is_const and it.body not in whole:
            lines[it.body : it.last] = [""] * (it.last - it.body)
    return without_comments("\n".join(lines), "//")


def inside_of(lines, head):
    """The numbers of the lines in blocks whose first line begins so."""
    found, inside = set(), False
    for at, line in enumerate(lines):
        inside = line != "}" and (inside or bool(head.match(line)))
        found |= {at} if inside else set()
    return found


def text_of(file):
    with open(file, encoding="utf-8", errors="replace") as it:
        return it.read()


class Sums:
    """The two sums of each crate."""

    def __init__(self, kit, root):
        self.kit, self.said = kit, {}
        fixed = [text_of(f"{kit.KIT}/{it}") for it in ("KIT-ID", "bin/rt", "bin/rtlib.py")]
        handles = text_of(f"{root}/HANDLES") if os.path.isfile(f"{root}/HANDLES") else ""
        self.fixed = (fixed, handles, edits.sum_of_script())

    def own(self, crate, tried):
        """The sum of what is the crate's own, with these edits."""
        inside = [it for part in self.kit.rtlib.PARTS for it in files_of(crate.folder, part)]
        parts = [(it, text_of(f"{crate.folder}/{it}")) for it in inside]
        line = (crate.name, crate.said, crate.is_program, sorted(it.name for it in crate.deps), sorted(crate.of_kit))
        return digest(self.fixed, line, parts, [(os.path.basename(it), text_of(it)) for it in tried])

    def below(self, crate):
        """The sum of what is below the crate."""
        return digest(self.fixed[0], sorted((it.name, self.contract(it)) for it in crate.below()))

    def contract(self, crate):
        """The sum of what a library promises to the crates above it."""
        if crate.name not in self.said:
            text = lambda it: text_of(f"{crate.folder}/{it}")
            sources = [(it, contracts_of(it, text(it))) for it in files_of(crate.folder, "src")]
            specs = [(it, without_comments(text(it), "--")) for it in files_of(crate.folder, "specs")]
            self.said[crate.name] = digest(sources, specs, sorted(crate.of_kit))
        return self.said[crate.name]


def digest(*parts):
    return hashlib.sha256(repr(parts).encode()).hexdigest()[:DIGITS]


def is_picked(commit, crate, edit, one_in):
    """Whether this commit picks an edit, where it picks one in so many."""
    number = hashlib.sha256(f"{commit} {crate} {os.path.basename(edit)}".encode()).hexdigest()
    return commit is None or int(number, 16) % one_in == 0


class Choice:
    """Which edits a run tries: by the record, and all of the crates that it names. `all_of` is None for all crates."""

    def __init__(self, kit, root, all_of):
        self.kit, self.root, self.all_of = kit, root, all_of
        self.every, self.sums, self.commit = kit.edits_of, Sums(kit, root), commit_of(root)
        self.lines = read(root)
        # by crate: why its edits are due, how many it has, and those that are tried
        self.of_crate = {}
        kit.edits_of = self.edits_of

    def edits_of(self, crate):
        """The edits of a crate that are tried, and files that are no edits, as the kit's command gives all."""
        good, bad = self.every(crate)
        if crate.name not in self.of_crate:
            why = self.why(crate, good)
            chosen = [it for it in good if is_picked(self.commit, crate.name, it, ONE_IN[why])]
            self.of_crate[crate.name] = why, len(good), chosen
        return self.of_crate[crate.name][2], bad

    def why(self, crate, good):
        """Why the edits of a crate are due."""
        line = self.lines.get(crate.name)
        if self.all_of is None or crate.name in self.all_of or not line or line.own != self.sums.own(crate, good):
            return ANEW
        return BELOW if line.below != self.sums.below(crate) else REST

    def told(self):
        """What is said of the choice, in lines."""
        has = {why: sum(count for it, count, _ in self.of_crate.values() if it == why) for why in ONE_IN}
        tries = {why: sum(len(of) for it, _, of in self.of_crate.values() if it == why) for why in ONE_IN}
        every, tried = sum(has.values()), sum(tries.values())
        of_each = {why: f"{tries[why]} of {has[why]}" for why in ONE_IN}
        if every == tried:
            return [f"all {every} were tried, in this run or earlier on this machine on the same files"]
        return [
            f"{tried} of {every} were tried, in this run or earlier on this machine on the same files:",
            f"{of_each[ANEW]} of crates that are not as .ci/{FILE} has them, or that were named;",
            f"{of_each[BELOW]} that are due only by what is below their crate (a fifth, by the commit);",
            f"{of_each[REST]} of the others (a twentieth, by the commit)",
            f"{every - tried} were not tried: .ci/{FILE} says when they were last refused, and on what",
        ]


class Known:
    """What edits came to on this machine: tried from nothing by the gate, on the files as they are."""

    def __init__(self, kit, root):
        kit.Crate.allowed = kit.handles_of(root)
        self.crates = kit.crates_of(root)
        self.kit, self.kept, self.stamps = kit, kit.Kept(self.crates), {}

    def is_refused(self, crate, edit):
        """Whether the edit is known to be refused."""
        tried = self.kept.tried(self.kept.of_edit(edit, self.kit.stamp_of(crate, self.stamps)))
        if not tried or tried[0] not in (self.kit.REFUSED, self.kit.AT_LIMIT):
            return False
        return edits.OVER_KEPT not in tried[1].split("\n")[0]


def write(kit, root):
    """Writes the record anew, from what is known on this machine. A crate whose edits are not all known keeps its line.
    Returns the exit status."""
    known, sums, commit, lines = Known(kit, root), Sums(kit, root), commit_of(root), read(root)
    day, made, lacking = time.strftime("%Y-%m-%d", time.gmtime()), {}, []
    for crate in known.crates:
        good, _ = kit.edits_of(crate)
        refused = [it for it in good if known.is_refused(crate, it)]
        if good and len(refused) == len(good):
            both = sums.own(crate, good), sums.below(crate)
            made[crate.name] = Line(day, (commit or "unknown")[:12], len(good), *both)
        elif good:
            lacking.append(f"{crate.name} ({len(good) - len(refused)} of {len(good)})")
            if crate.name in lines:
                made[crate.name] = lines[crate.name]
    rows = [" ".join([name, it.day, it.commit, str(it.edits), it.own, it.below]) for name, it in sorted(made.items())]
    with open(f"{root}/.ci/{FILE}", "w", encoding="utf-8") as it:
        it.write(HEAD + "".join(f"{row}\n" for row in rows))
    if lacking:
        print(f"Not known on this machine to be refused, so these lines are as before: {', '.join(lacking)}")
    print(f".ci/{FILE}: {len(made) - len([it for it in lacking if it.split()[0] in lines])} lines were written anew")
    return 0
