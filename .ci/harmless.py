"""Harmless edits: `crates/NAME/harmless/*.edit`, in the format of must-fail edits. Each changes the body of a function
whose proof is stored, and not its meaning, so the prover may prove it or not.

Where it is proved, the stored proof is no text that any change breaks, so a refusal of a must-fail edit of that
function means something. Where it is refused, a must-fail edit of that function can be told from it only by a class of
refusals that comes before that of the harmless one, in the order of `classes.py`: a false goal comes first.

`.ci/prove --all` tries them, each crate's in as few checks as its must-fail edits, from nothing."""

import hashlib
import os
import threading

import classes
import edits

# What became of a harmless edit, where no class of refusals says it.
PROVED, UNKNOWN = "proved", "it was not tried"


def files_of(crate):
    """The harmless edits of a crate."""
    folder = f"{crate.folder}/harmless"
    names = sorted(os.listdir(folder)) if os.path.isdir(folder) else []
    return [f"{folder}/{it}" for it in names if it.endswith(".edit")]


def result_of(lines, changed):
    """What a check says of functions: its class and the complaint, or that they are proved, or that it does not say."""
    found = [it for it in edits.complaints(lines) if any(edits.is_of(it, path, function) for path, function in changed)]
    if found:
        return classes.class_of_all(found)
    said = [line for line in lines if line.startswith("fn ") and any(edits.is_of(line, *it) for it in changed)]
    is_proved = said and all(line.endswith(": proved") for line in said)
    return (PROVED, "") if is_proved else (UNKNOWN, lines[-1] if lines else "")


def results_of(kit, crate, batch, flags):
    """What each edit of a list comes to, by its file: tried in one check, and in halves where that can't be read. Those
    of which it says nothing, as they call a function that was refused, are tried once more without the others."""
    texts = edits.texts_with(crate, batch)
    functions = [function.path for edit in batch for _, function in edit.functions]
    ran = texts and edits.checked_only(kit, crate, texts, functions, flags, None)
    lines = ran.stdout.rstrip("\n").split("\n") if ran else []
    if not ran or not lines[-1].startswith("only=") or any(kit.unread(it, texts) for it in lines):
        if len(batch) == 1:
            first = next((it for it in lines if ": error" in it or "error[" in it), "its text is not there just once")
            return {batch[0].file: (UNKNOWN, first)}
        halves = batch[: len(batch) // 2], batch[len(batch) // 2 :]
        return {file: found for it in halves for file, found in results_of(kit, crate, it, flags).items()}
    made = {}
    for edit in batch:
        now = {it.path: it for path, _, _ in edit.pairs for it in edits.functions_of(path, texts[path])}
        made[edit.file] = result_of(lines, [(path, now.get(it.path, it)) for path, it in edit.functions])
    again = [it for it in batch if made[it.file][0] == UNKNOWN]
    return made | (results_of(kit, crate, again, flags) if 0 < len(again) < len(batch) else {})


def sum_of_script():
    """A sum of this file, beside that of what tries edits, for the names under which results are kept."""
    with open(os.path.abspath(__file__), "rb") as it:
        return hashlib.sha256(it.read()).hexdigest()


class Harmless:
    """The harmless edits of these crates, or of all: tasks of their own, beside those of the kit's command."""

    def __init__(self, kit, names):
        self.kit, self.names, self.crates, self.results, self.lock = kit, names, [], {}, threading.Lock()
        crates_of, in_lanes, self.kept = kit.crates_of, kit.in_lanes, None

        def every(root):
            self.crates = crates_of(root)
            self.kept = kit.Kept(self.crates)
            return self.crates

        kit.crates_of, kit.in_lanes = every, lambda tasks: in_lanes({**tasks, **self.tasks(tasks)})

    def tasks(self, others):
        """A task for each crate that has harmless edits and is proved in this run."""
        named = [it for it in self.crates if self.names is None or it.name in self.names]
        has = [it for it in named if files_of(it) and (it.name, "proof") in others]
        return {(it.name, "harmless"): self.task(it) for it in has}

    def task(self, crate):
        """The task that tries a crate's harmless edits."""
        waits = [(it.name, "proof") for it in [crate, *crate.below()]]
        return waits, 0, self.kit.need(crate), lambda given, jobs: given[crate.name, "proof"] and self.begin(crate)

    def begin(self, crate):
        """Tries the harmless edits of a crate."""
        found = [edits.read(it, crate.folder) for it in files_of(crate) if not self.kit.read_edit(it, crate.folder)[1]]
        made = {it: (UNKNOWN, "it changes no body alone") for it in files_of(crate)}
        names = {it: self.kept.of_edit(it, f"harmless {self.kit.stamp_of(crate, {})} {sum_of_script()}") for it in made}
        told = {it: self.kept.tried(name) for it, name in names.items()}
        made |= {it: tuple(of_it[1].split("\n", 1)) for it, of_it in told.items() if of_it}
        for batch in edits.batches([it for it in found if it.functions and not told[it.file]]):
            made |= results_of(self.kit, crate, batch, ["--jobs", "1"])
        if all(self.kept.is_untouched(it) for it in [crate, *crate.below()]):
            for file in [it for it, (what, _) in made.items() if what != UNKNOWN and not told[it]]:
                self.kept.keep_tried(names[file], self.kit.REFUSED, "\n".join(made[file]))
        for file, (what, line) in sorted(made.items()):
            by = what if what in (PROVED, UNKNOWN) else f"refused by {what}"
            of_it = f"harmless {crate.name}/{os.path.basename(file)}: {by}"
            self.kit.say(": ".join([of_it, *[it[:160] for it in line.splitlines()[:1]]]))
        functions = {it.file: [function.path for _, function in it.functions] for it in found}
        with self.lock:
            for file, (what, _) in made.items():
                self.results |= {(crate.name, it): what for it in functions.get(file, [])}

    def told(self, of_edit):
        """What is said at the end, beside the classes of the must-fail edits."""
        found = [*self.results.values()]
        if not found:
            return
        refused = len([it for it in found if it not in (PROVED, UNKNOWN)])
        yield f"harmless edits of functions whose proofs are stored: {found.count(PROVED)} proved, {refused} refused"
        for crate in self.crates:
            for file in self.kit.edits_of(crate)[0]:
                label = f"{crate.name}/{os.path.basename(file)}"
                if label in of_edit and self.is_like_harmless(crate, file, of_edit[label]):
                    yield f"can't be told from a harmless one: {label}, refused by {of_edit[label]}"

    def is_like_harmless(self, crate, file, of_it):
        """Whether an edit of this class can't be told from a harmless edit of a function that it changes."""
        if self.kit.read_edit(file, crate.folder)[1]:
            return False
        functions = edits.read(file, crate.folder).functions
        others = [self.results.get((crate.name, it.path), UNKNOWN) for _, it in functions]
        refused = [classes.CLASSES.index(it) for it in others if it not in (PROVED, UNKNOWN)]
        return of_it in classes.CLASSES and bool(refused) and classes.CLASSES.index(of_it) >= min(refused)
