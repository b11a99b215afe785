"""Tries the must-fail edits of a crate, many in one check, and judges what the prover says of each.

`rt ci` proves a crate a second time for its edits, and then checks the crate again for each edit. There are over 500,
and these checks would take longer than all the rest of the gate. Most edits change the body of a function, or a
constant that only bodies use, and no other function's proof depends on a body. So edits of different functions go into
one check. It starts from nothing, and it proves these functions and what they need, and no more. Such an edit is
refused if the prover refuses its function for itself: by its name, at its lines, or in the files of its proof. `rt ci`
asks less: that the prover refuses the crate. If a check is not clear, half of its edits are tried in one check, and
half in another. It is clear if the prover read all texts and refused nothing else for itself, and if no edit changes
what another replaces.

Any other edit (of a definition, a contract, an import) should name functions on lines that begin with `# only: `. They
are checked with the edit, from nothing. If one of them, or what its proof needs, is refused, so is the crate.

The whole crate is checked, as `rt ci` does it, for each edit that

- names no function where it should;
- was not refused so;
- was refused only by a limit of the prover.

What is said of an edit that was refused is a line, and after it what the prover said: the first lines of each of its
complaints of the functions that the edit changes. `classes.py` reads it. It is kept on this machine under a name with
the sums of `.ci/prove` and of this file in it. So a fault in these is never repeated by what they kept."""

import hashlib
import os
import re
import signal
import subprocess
import tempfile
import threading
from dataclasses import dataclass, field, replace

# The head of a function, as `rt fmt` lays it out.
HEAD = re.compile(r'^( *)(?:pub(?:\([^)]*\))? )?(const )?(?:unsafe )?(?:extern "C" )?fn (\w+)')
# The head of a block of methods.
IMPL = re.compile(r"^impl\b(.*)\{$")
# How an edit that is refused was tried.
WITH_OTHERS, WITH_THOSE_NAMED, WITH_ALL = "with others", "with the functions that it names", "with the whole crate"
# Added where the check did not begin from nothing.
OVER_KEPT = ", over what earlier checks kept"
# What is kept of the prover's words: complaints, lines of each, and characters of a line.
COMPLAINTS, LINES, CHARACTERS = 30, 7, 300
# What the prover says in a proof file where an edit took away a name that the file has. It says little of the contract.
BY_NAME = re.compile(r"has no field|is not in scope|has no `")
# What it says where a limit of its own ended a check, so that it gave no verdict.
BY_LIMIT = re.compile(r"antt ran out of|outgrew the memory limit|stopped at the step limit")
# What it says of what cites something that it refused, perhaps another edit's function.
BY_OTHERS = re.compile(r"was not admitted|(was|were) rejected|(was|were) not checked")


@dataclass(frozen=True)
class Function:
    """A function of a file: the end of its name, as the prover knows it, and the lines that it takes, from 0. Functions
    that call one another have one proof: `cycle` names those of its file."""

    path: str
    first: int
    body: int
    last: int
    is_const: bool
    cycle: frozenset = frozenset()


@dataclass
class Edit:
    """A must-fail edit: its file, its pairs of texts with the file that each changes, and the functions that it changes
    where it changes nothing but their bodies. `only` has the functions that the edit names."""

    file: str
    pairs: list
    only: list = field(default_factory=list)
    functions: list = field(default_factory=list)


def without_parameters(text):
    """The text without what is between angle brackets."""
    while "<" in text:
        shorter = re.sub(r"<[^<>]*>", "", text)
        if shorter == text:
            break
        text = shorter
    return text


def type_of(head):
    """The name that the prover gives a block of methods: of the type, or of the type and the trait. A type parameter is
    any type."""
    parameters = re.match(r"<(.*?)>(?= )", head)
    anything = re.findall(r"(?:^|, )(\w+)", parameters[1]) if parameters else []
    words = without_parameters(head).split(" where ")[0].split(" for ")
    names = [it.strip().split("::")[-1].strip() for it in words]
    if not all(re.fullmatch(r"\w+", it) for it in names):
        return None
    return ("Any" if names[-1] in anything else names[-1]) + "".join(names[:-1])


def functions_of(path, text):
    """The functions of a file, each with those that it calls, by their names, and that lead back to it."""
    return with_cycles(spans_of(path, text), text.split("\n"))


def spans_of(path, text):
    """The functions of a file, by its layout."""
    lines, found, inside = text.split("\n"), [], ""
    module = re.sub(r"^src/|\.rt$", "", path).replace("/", "::")
    module = "" if module in ("lib", "main") else module + "::"
    for at, line in enumerate(lines):
        if line.startswith("impl"):
            head = line
            for more in lines[at + 1 : at + 12]:
                if head.endswith("{"):
                    break
                head += " " + more.strip()
            named = IMPL.match(head)
            inside = type_of(named[1]) if named else None
        elif line == "}":
            inside = ""
        head = HEAD.match(line)
        if not head or inside is None:
            continue
        indent, is_const, name = head[1], bool(head[2]), head[3]
        end = next((k for k in range(at, len(lines)) if lines[k] == indent + "}"), None)
        opens = re.compile(rf"{indent}(\S.*)?\{{")
        body = next((k for k in range(at, len(lines)) if opens.fullmatch(lines[k])), None)
        if end is None or body is None or body > end:
            continue
        # its lines begin with its attributes
        first = at
        while first > 0 and lines[first - 1].strip().startswith(("#[", "///")):
            first -= 1
        # a method is named by its type, wherever its block is
        owner = f"{inside}::" if inside and indent else module
        found.append(Function(f"{owner}{name}", first, body + 1, end, is_const))
    return found


def with_cycles(functions, lines):
    """The functions of a file, each with those that it calls, by their names, and that lead back to it."""
    names = [re.compile(rf"\b{it.path.rpartition('::')[2]}\(") for it in functions]
    bodies = ["\n".join(lines[it.body : it.last]) for it in functions]
    reached = [{k for k, name in enumerate(names) if name.search(body)} for body in bodies]
    for through in range(len(functions)):
        for calls in reached:
            calls |= reached[through] if through in calls else set()
    cycles = [frozenset(functions[k].path for k in calls if at in reached[k]) for at, calls in enumerate(reached)]
    return [replace(it, cycle=cycle) for it, cycle in zip(functions, cycles)]


def read(edit, folder):
    """The edit in a file of a crate's folder."""
    made, path, old = Edit(edit, []), "", ""
    with open(edit, encoding="utf-8") as it:
        for line in it.read().split("\n"):
            if line.startswith("file: "):
                path = line[len("file: ") :].strip()
            elif line.startswith("old: "):
                old = line[len("old: ") :]
            elif line.startswith("new:"):
                made.pairs.append((path, old, line[len("new:") :].removeprefix(" ")))
            elif line.startswith("# only: "):
                made.only.append(line[len("# only: ") :].strip())
    for path, old, _ in made.pairs:
        with open(f"{folder}/{path}", encoding="utf-8") as it:
            text = it.read()
        changed = changed_by(path, text, old) if old in text else []
        if not changed or made.only:
            return Edit(edit, made.pairs, made.only)
        made.functions += [(path, it) for it in changed]
    return made


def changed_by(path, text, old):
    """The functions whose bodies change with this text, where nothing else does: the one around it, or those that use a
    constant of the file."""
    if not path.endswith(".rt"):
        return []
    first, functions = text[: text.index(old)].count("\n"), functions_of(path, text)
    names = [it.path for it in functions]
    around = [it for it in functions if it.first <= first <= it.last]
    if around:
        is_one = names.count(around[-1].path) == 1 and "::" in around[-1].path
        return [it for it in around[-1:] if is_one and not it.is_const and first >= it.body]
    lines = text.split("\n")
    constant = re.match(r"const (\w+): ", lines[first])
    if not constant:
        return []
    name = re.compile(rf"\b{constant[1]}\b")
    uses = [at for at, line in enumerate(lines) if at != first and name.search(line.split("//")[0])]
    inside = [[it for it in functions if it.body <= at <= it.last and not it.is_const] for at in uses]
    found = list(dict.fromkeys(it[-1] for it in inside)) if all(inside) else []
    return found if all(names.count(it.path) == 1 and "::" in it.path for it in found) else []


def batches(edits):
    """The edits in lists in which no two change one function, or two with one proof: as few lists as that takes."""
    made = []
    for edit in edits:
        names = {name for _, function in edit.functions for name in (function.path, *function.cycle)}
        where = next((it for it in made if not it[0] & names), None)
        if where:
            where[0].update(names)
            where[1].append(edit)
        else:
            made.append((names, [edit]))
    return [it for _, it in made]


def complaints(said):
    """What the prover refuses for itself, and not for what it cites: the line that says so, and those that go on."""
    found = re.compile(
        r"(\./)?proofs/\S+:\d+:\d+: error: "
        r"|note: src/\S+:\d+:\d+: (it is not proved|`search` found no proof)"
        r"|fn \S+: no proof: expected answers in"
    )
    made = []
    for at, line in enumerate(said):
        if found.match(line) and not BY_OTHERS.search(line):
            end = next((k for k in range(at + 1, len(said)) if not said[k].startswith("  ")), len(said))
            made.append("\n".join(said[at:end]))
    return made


def is_of(line, path, function):
    """Whether the prover says this of the function: by its name, at its lines, or in the files of its proof."""
    noted = re.match(rf"note: {re.escape(path)}:(\d+):", line)
    if noted:
        return function.first < int(noted[1]) <= function.last + 1
    owner, _, name = function.path.rpartition("::")
    names = [function.path, f"{owner}::fn::{name}".removeprefix("::")]
    if any(re.match(rf"fn (\w+::)*{it}(: |::)", line) for it in names):
        return True
    folders = [it.replace("::", "/") for it in names] + ["\\+" + it.rpartition("::")[2] for it in function.cycle]
    return any(re.match(rf"(\./)?proofs/(\w+/)*{it}/", line) for it in folders)


def refusals(kit, crate, batch, flags, kept=None):
    """Tries edits in one check, over the proofs that the folder `kept` holds, if there is one. If not all is clear,
    tries each half of them for itself. Returns the complaints that refuse each, by its file."""
    found = refusals_of_one(kit, crate, batch, flags, kept)
    if found is None and len(batch) > 1:
        halves = batch[: len(batch) // 2], batch[len(batch) // 2 :]
        # not over what this check left
        found = {file: said for it in halves for file, said in refusals(kit, crate, it, flags).items()}
    return found or {}


def refusals_of_one(kit, crate, batch, flags, kept):
    """The result of one check of edits: the complaints that refuse each, by its file, or None if not all is clear."""
    texts = texts_with(crate, batch)
    if texts is None:
        return None
    ran = checked_only(kit, crate, texts, [it.path for edit in batch for _, it in edit.functions], flags, kept)
    lines = ran.stdout.rstrip("\n").split("\n")
    known = [it for it in batch if not any(f"`{function.path}`" in lines[-1] for _, function in it.functions)]
    if lines[-1].startswith("rattle: error: ") and 0 < len(known) < len(batch):
        # the prover knows a function by another name
        print(f"note: a check of edits of {crate.name}: {lines[-1]}", flush=True)
        return refusals_of_one(kit, crate, known, flags, kept)
    if ran.returncode == 0:
        return {}
    if not is_refused(kit, ran, texts):
        return None
    found, own = complaints(lines), {}
    for edit in batch:
        now = {it.path: it for path, _, _ in edit.pairs for it in functions_of(path, texts[path])}
        changed = [(path, now.get(function.path, function)) for path, function in edit.functions]
        own[edit.file] = [it for it in found if any(is_of(it, path, function) for path, function in changed)]
    if {*found} != {it for said in own.values() for it in said}:
        return None
    return {file: said for file, said in own.items() if said and not any(BY_LIMIT.search(it) for it in said)}


def refusal_of_named(kit, crate, edit, flags, kept):
    """Tries an edit with the functions that it names. Returns the complaints that refuse it, if there are any."""
    texts = texts_with(crate, [edit])
    if texts is None:
        return []
    ran = checked_only(kit, crate, texts, edit.only, flags, kept)
    lines = ran.stdout.rstrip("\n").split("\n")
    if lines[-1].startswith("rattle: error: "):
        print(f"note: {label_of(crate, edit.file)}: {lines[-1]}", flush=True)
    said = complaints(lines) if is_refused(kit, ran, texts) else []
    return said if any(not BY_NAME.search(it) and not BY_LIMIT.search(it) for it in said) else []


def texts_with(crate, edits):
    """The texts of the files that the edits change, as the edits leave them, by their paths. None if a text that one of
    them replaces is not there just once."""
    texts = {}
    for path, old, new in (pair for edit in edits for pair in edit.pairs):
        if path not in texts:
            with open(f"{crate.folder}/{path}", encoding="utf-8") as it:
                texts[path] = it.read()
        if texts[path].count(old) != 1:
            return None
        texts[path] = texts[path].replace(old, new)
    return texts


def checked_only(kit, crate, texts, functions, flags, kept):
    """A check of these functions of the crate, with these texts. If it is killed, most likely for memory, it is made
    once more, and not over what the first one left."""
    only = [it for function in functions for it in ("--only", function)]
    ran = kit.checked(crate, texts, [*flags, *only], kept)
    return kit.checked(crate, texts, [*flags, *only], None) if ran.returncode == -signal.SIGKILL else ran


def is_refused(kit, ran, texts):
    """Whether a check of some functions read all the texts, and did not prove all the functions."""
    lines = ran.stdout.rstrip("\n").split("\n")
    is_read = lines[-1].startswith("only=") and not any(kit.unread(it, texts) for it in lines)
    return ran.returncode == 1 and is_read and not kit.rtlib.STALE.search(ran.stdout)


def readable(kit, crate, edits):
    """The edits that can be applied, read."""
    return [read(it, crate.folder) for it in edits if not kit.read_edit(it, crate.folder)[1]]


def label_of(crate, file):
    """The edit's name in what is said of it."""
    return f"must-fail {crate.name}/{os.path.basename(file)}"


def said_of(crate, file, complained, how):
    """What is said of an edit that was tried in this way and refused by these complaints."""
    told = [line[:CHARACTERS] for it in complained[:COMPLAINTS] for line in it.split("\n")[:LINES]]
    return "\n".join([f"{label_of(crate, file)}: refused {how}, as it must be", *told])


class Batches:
    """The checks of a crate's edits. Each is made once, by the first thread that comes to it; a thread whose check is
    under way makes another one of the crate's in the meantime."""

    def __init__(self, made):
        self.left = made
        self.done = {edit.file: threading.Event() for batch in made for edit in batch}
        self.refused = {}
        self.lock = threading.Lock()

    def take(self, file):
        """A check that nobody has begun: that of this edit, if it is one of them."""
        with self.lock:
            mine = next((it for it in self.left if any(edit.file == file for edit in it)), None)
            batch = mine or (self.left[0] if self.left else None)
            self.left = [it for it in self.left if it is not batch]
            return batch

    def make(self, batch, check):
        """Makes a check that was taken."""
        try:
            self.refused |= check(batch)
        finally:
            for edit in batch:
                self.done[edit.file].set()

    def refusal_of(self, file, check):
        """The complaints that refuse the edit, or None."""
        while file in self.done and not self.done[file].is_set():
            batch = self.take(file)
            if batch is None:
                self.done[file].wait()
                break
            self.make(batch, check)
        return self.refused.get(file)


class EachEdit:
    """The tries of edits, for a kit's command that calls a function for each: from nothing, or over what it kept."""

    def __init__(self, kit, from_nothing):
        self.kit, self.alone, self.from_nothing = kit, kit.must_fail, from_nothing
        self.known, self.lock = {}, threading.Lock()
        # what the last check of this thread said
        self.last, self.checked = threading.local(), kit.checked
        kit.must_fail, kit.checked = self.must_fail, self.check

    def check(self, crate, texts, flags, kept):
        """A check by the kit's command."""
        ran = self.checked(crate, texts, flags, kept)
        self.last.said = ran.stdout
        return ran

    def of_crate(self, crate, kept):
        """The edits of a crate by their files, and their checks. What was said over kept proofs says nothing of a check
        from nothing."""
        with self.lock:
            key = crate.folder, kept is None
            if key not in self.known:
                found = readable(self.kit, crate, self.kit.edits_of(crate)[0])
                made = Batches(batches([it for it in found if it.functions]))
                self.known[key] = {it.file: it for it in found}, made
            return self.known[key]

    def begin(self, crate, flags):
        """Makes the first check of a crate's edits, from nothing."""
        _, made = self.of_crate(crate, None)
        batch = made.take("")
        if batch:
            made.make(batch, lambda it: refusals(self.kit, crate, it, flags))

    def must_fail(self, crate, edit, flags, kept=None):
        """Tries an edit."""
        kept = None if self.from_nothing else kept
        over = OVER_KEPT if kept else ""
        by_file, made = self.of_crate(crate, kept)
        said = made.refusal_of(edit, lambda batch: refusals(self.kit, crate, batch, flags, kept))
        if said:
            return self.kit.REFUSED, said_of(crate, edit, said, WITH_OTHERS + over)
        if edit in by_file and by_file[edit].only:
            said = refusal_of_named(self.kit, crate, by_file[edit], flags, kept)
        if said:
            return self.kit.REFUSED, said_of(crate, edit, said, WITH_THOSE_NAMED + over)
        kind, text = self.alone(crate, edit, flags, kept)
        if kind == self.kit.REFUSED:
            # the kit's own words, where the prover complains of something else than proofs
            said = complaints(self.last.said.split("\n")) or [text.partition(", as it must be")[2].lstrip(": ")]
            text = said_of(crate, edit, said, WITH_ALL + over)
        return kind, text


def sum_of_script():
    """A sum of what tries and judges an edit: `.ci/prove` and this file."""
    sum = hashlib.sha256()
    for name in ("prove", os.path.basename(__file__)):
        with open(f"{os.path.dirname(os.path.abspath(__file__))}/{name}", "rb") as it:
            sum.update(it.read())
    return sum.hexdigest()


def with_own_names(kit):
    """Has the kit's command keep what an edit came to under a name with the sum of this script in it."""
    of_edit, own = kit.Kept.of_edit, sum_of_script()
    kit.Kept.of_edit = lambda kept, edit, sum: of_edit(kept, edit, f"{sum} {own}")


def without_seeds(kit, tries):
    """Has the kit's command make the first check of a crate's edits where it would prove the crate a second time. The
    folder that this proof would fill stays empty, so the command needs no check over it at the end."""
    empty, checked = set(), kit.checked

    def seeded(crate, flags, start=None):
        room = tempfile.mkdtemp(prefix=f"rt-edits-{os.getpid()}-")
        kit.SEEDS.append(room)
        os.mkdir(f"{room}/seed")
        empty.add(f"{room}/seed")
        try:
            # a job more takes more memory
            tries.begin(crate, ["--jobs", "1"])
        except OSError as error:
            print(f"note: a check of edits of {crate.name} failed, so they are tried alone: {error}", flush=True)
        return room

    def check(crate, texts, flags, kept):
        return subprocess.CompletedProcess([], 0, "") if kept in empty else checked(crate, texts, flags, kept)

    # a check from nothing takes as much memory as the crate's proof
    kit.seeded, kit.checked, kit.OVER = seeded, check, 1
