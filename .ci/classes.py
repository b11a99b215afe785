"""Four classes of refusals: what the prover's words show of an edit that it refused.

- A false goal: the prover found values at which what it was to prove is false, with the facts that it knew there.
- No proof was found: every way was tried that it knows.
- A stored proof does not fit: a proof of `proofs/` proves something else than what is to be proved now. Or it has a
  name that is gone.
- A limit of the search: the search gave up, or a limit of the prover ended it, so it says nothing of the goal.

A refusal is in the first class that one of its complaints is in."""

import re
import threading

FALSE, NONE, STORED, LIMIT = (
    "a false goal",
    "no proof found",
    "a stored proof that does not fit, or a name that is gone",
    "a limit of the search",
)
CLASSES = (FALSE, NONE, STORED, LIMIT)
VALUES = re.compile(r"allow values at which this goal is false|goal fails,? at")
# The values may be no values of the functions that the goal names.
OPEN = "may not break the goal"
ENDED = re.compile(
    r"gave up at one of its limits|lemmas still to try|antt ran out of|outgrew the memory limit"
    r"|stopped at the step limit|only by a limit"
)
LABEL = re.compile(r"must-fail (\w+/\S+): (.*)")


def class_of(complaint):
    """The class of a complaint, or None of one that only repeats others."""
    head, whole = complaint.split("\n")[0], complaint.replace("\n", " ")
    if VALUES.search(whole) and OPEN not in whole:
        return FALSE
    if head.startswith("fn "):
        return None
    if ENDED.search(whole):
        return LIMIT
    if "it is not proved" in head or "no proof of" in head or "found no proof" in head:
        return NONE
    return STORED


def complaints_of(text):
    """The complaints in what is said of an edit: each is a line, and lines that begin with two spaces."""
    found = []
    for line in text.split("\n")[1:]:
        if line.startswith("  ") and found:
            found[-1] += "\n" + line
        elif line.strip():
            found.append(line)
    return found


def class_of_all(complaints):
    """The class of a refusal by these complaints, and the complaint that says so."""
    of_each = [(class_of(it), it) for it in complaints]
    for name in CLASSES:
        found = next((it for of_it, it in of_each if of_it == name), None)
        if found:
            return name, found
    return NONE, complaints[0] if complaints else ""


class Said:
    """What a run of the kit's command says of edits, in classes. At its end it says what `told` gives, and counts."""

    def __init__(self, kit, told):
        self.saying, self.telling, self.told = kit.say, kit.Kept.tell, told
        # the class of each edit that was refused, by its crate and file; None for the others
        self.of_edit, self.lock = {}, threading.Lock()
        kit.say, kit.Kept.tell = self.say, lambda kept: self.tell(kept)

    def say(self, text, out=None):
        """Says what the kit's command says. Of an edit that was refused it says the class, and one complaint."""
        found = LABEL.match(text)
        if found:
            text, of_it = short(found[1], found[2], text)
            with self.lock:
                self.of_edit[found[1]] = of_it
        return self.saying(of_those_due(text), out)

    def tell(self, kept):
        """Says what is said last, once all edits are known."""
        self.telling(kept)
        for line in [*self.told(), *self.counts()]:
            print(f"edits: {line}", flush=True)

    def counts(self):
        """How many edits were refused by each class, in words."""
        found = [it for it in self.of_edit.values() if it]
        return [f"refused by {it}: {found.count(it)}" for it in CLASSES]


def short(label, first, text):
    """What is said of an edit in a line, and the class of its refusal."""
    if not first.startswith("refused"):
        return text, None
    of_it, complaint = class_of_all(complaints_of(text) or [first])
    how = first.split(", as it must be")[0]
    return f"must-fail {label}: {how}, by {of_it}: {complaint.splitlines()[0][:160]}", of_it


def of_those_due(text):
    """The kit's last words, which know no edits but those that were due."""
    if not text.startswith("ok; "):
        return text
    text = re.sub(r"(of the \d+ must-fail edits);", r"\1 that were due;", text)
    every = "every proof and must-fail edit"
    return text.replace(f"{every} was done", f"{every} that was due was done")
