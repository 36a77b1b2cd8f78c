#!/usr/bin/env python3
"""Tries the must-fail edits of the crates, and sees that the prover refuses each of them at a goal of the edited function.

    tools/wrong_bodies.py [--built FOLDER [--gate LOG]] [--jobs N] [--kept] [--times] [--only NAME,..] [CRATE..]

A file crates/CRATE/must-fail/NAME.edit has one edit: a line 'file: src/FILE.rt', then pairs of lines 'old: TEXT' and 'new: TEXT'.
A file with lines 'name: NAME' has a group: an edit of its own under each of them, of the file that is named last above it. `rt ci`
takes a group for one edit, so that each must be found once also where those above it are made. Two more lines may stand there:
- 'goal: GOAL' names a goal of the edited function which a proof file answers, and whose answer the edit breaks: of that function
  nothing is searched then, since one goal is enough. Where no proof file answers the goal, the edit may bring its answer, written as
  there: 'goal: GOAL c = search rules'. An edit that breaks no such answer is tried once more, with all searches;
- 'function: PATH', below the crate, names the function that refuses an edit of a definition, a type or a constant.

A crate is checked without an edit first, and must be proved. What that check kept is where the others begin. Where a gate has proved
the crate from nothing, that is the check without an edit, and the others begin with what the gate kept of it, or else with nothing;
where it says that an earlier run proved the same files, the crate is checked here. What was kept makes no goal fail: the check takes
from it what is proved of the same texts, and proves the rest. Answers that edits bring must hold in a copy of the crate with no edit.

Then all edits of bodies are put into one copy, and the functions that they are in are checked together. What they call is not proved
again: each other function that is written on lines of its own is taken at its contract. It gets a body that does nothing and a proof
that is left open, and the check is told to allow that (--allow-holes), so that it judges each goal as if what the function calls were
proved. No goal stands on another function's body or proof, and that these are proved without an edit is known. An edit of the contract
of a function that nothing else names, as of a law, is tried with those of bodies, since it changes that function alone. The next round
has those that touch a function or a text which one of the first touches, and those in doubt: a goal may fail since it needs an `impl`
block that is not proved for another edit. What a round does not settle is tried alone, as is an edit whose goal stands in a proof file
where more than one function may have it, and any edit of anything else: on the function that it names, then that of a constant on the
first function that names it and on all of them, any other on the laws and on the functions of its module too. What is not refused so is
tried once more with what is called proved too, and at last on the whole crate.

An edit is refused where the check names a goal inside the edited function that is not proved. That the function calls, or waits for,
one that is not proved does not count, nor that a proof file misses a name. A function that fails by goals of its own without an edit in
it is a fault.

The libraries below a crate are taken from the tree FOLDER, where `rt ci` or `rt lib` left them; without --built they are proved here
first. With --gate the gate `rt ci` is at work in FOLDER and writes LOG, and makes a file of LOG's name with the ending .status when it
ends: a crate waits until LOG says that it is proved, is not tried where the gate does not prove it, and half of the processors are left
to the gate. N crates are tried side by side, by default one a processor. While edits are written, --kept begins over what `rt check`
kept in the crate's folder, and --only takes the edits of these names alone. A line for each edit names the crate, the edit, and the
goal that refused it or why it was not refused; with --times, a line for each check says what it took of a processor. The last line is
'N refused, M not'.
"""
import argparse
import collections
import concurrent.futures
import os
import pathlib
import re
import shutil
import subprocess
import sys
import tempfile
import threading
import time

ROOT = pathlib.Path(__file__).resolve().parent.parent

# What the check says of a goal that it leaves, and of a function.
GOAL = re.compile(r"note: (?:\./)?(src/\S+?\.rt):(\d+):\d+: (it is not proved .*|`search` found no proof .*)")
FUNCTION = re.compile(r"fn (\S+): (.*)")
WAITS = re.compile(r"no proof: it |not proved; it waits")
BLOCK = re.compile(r"impl (\S+): not proved")
# What a function's line says of others that are not proved: those that it calls, and the blocks that it passes on.
NEEDS = re.compile(r"it (?:calls|passes the blocks?) (.*?), which (?:is|are) not proved")
# What the check says of an answer in a proof file that does not meet its goal, on one line or more, and of one that only misses a name.
ANSWER = re.compile(r"(?:\./)?proofs/(\S+)/(?:Answers|Invariants|Proof)\.antt:\d+:\d+: error: `([^`]+)`: (.*(?:\n +\S.*)*)")
MISSES_NAME = re.compile(r"has no field|is not in scope|has no `|was not admitted")
# What keeps the check from searching a function's goals.
UNSEARCHED = "#[tactic(none)]"
# The proof file of a function that is taken at its contract: it says what is to be proved, and leaves it open.
AT_CONTRACT = """use Rattle.{module}.Statement.{{statement}}

pub {name}_spec : {{M : Type 1}} → statement M
{name}_spec = ?
"""
# A line that declares a constant.
CONSTANT = re.compile(r"(?:pub(?:\([\w:]+\))? )?const (\w+)")
# The modules of what an edit's answer names.
MEANT = {
    "rules": "Rattle.std.proofs.Common",
    "arith": "Rattle.std.proofs.Common",
    "common_steps": "Rattle.std.proofs.lemmas.Grind",
}
# The goal that an edit names, and the answer that it brings.
NAMED_GOAL = re.compile(r"goal: (\S+)((?: [^=]*)?= .*)?")
# A line on which a function begins, with its indentation.
HEAD = re.compile(r"( *)(?:pub(?:\([\w:]+\))? |default |const |final |unsafe |extern \"C\" )*fn (\w+)")

Change = collections.namedtuple("Change", "file old new")
Place = collections.namedtuple("Place", "file first body last name owner words")
Goal = collections.namedtuple("Goal", "function file line text")


class BadEdit(Exception):
    """Why an edit cannot be applied."""


class Edit:
    """A named edit of a crate: the lines that it changes, and the functions which it changes, if it changes nothing else; the answered
    goal that it breaks, with its answer where the edit brings it, and the function that refuses it, where it names them."""

    def __init__(self, name, changes, group):
        self.name, self.changes, self.group = name, changes, group
        self.goal = self.answer = self.function = None
        self.lines, self.places, self.is_of_functions = {}, set(), True

    def locate(self, texts):
        """Finds which lines of the crate's texts become which, and where they stand."""
        if not self.changes:
            raise BadEdit("it has no 'old:' and 'new:' pair")
        for file, text in self.applied(texts).items():
            before = texts[file].split("\n")
            for number, line in enumerate(text.split("\n")):
                if line != before[number]:
                    self.lines[file, number] = line
                    self.place(texts, file, number, line)
        self.is_of_functions = self.is_of_functions and bool(self.places)
        if self.function and not self.is_of_functions:
            self.places = set(places_named(self.function, texts))
            if not self.places:
                raise BadEdit(f"there is no function {self.function}")

    def applied(self, texts):
        """The texts of the files that it changes, as it leaves them."""
        edited = {}
        for change in self.changes:
            if change.file not in texts:
                raise BadEdit(f"there is no file {change.file}")
            text = edited.get(change.file, texts[change.file])
            if text.count(change.old) != 1:
                raise BadEdit(f"an 'old:' text is in {change.file} {text.count(change.old)} times, and not once")
            edited[change.file] = text.replace(change.old, change.new)
        return edited

    def place(self, texts, file, number, line):
        """Notes the function that a changed line is of. An import beside it is no other place."""
        before = texts[file].split("\n")
        place = function_at(file, before, number) or contract_at(texts, file, number)
        if place:
            self.places.add(place)
        elif HEAD.match(before[number]) and "{" in line:
            # a body is written behind the head, and the old one is given to another function
            block = block_of(before, number)
            self.places.add(Place(file, number + 1, number + 1, number + 1, HEAD.match(line)[2], owner_of(block), words_of(block)))
        elif not re.match(r"(pub |ghost )?use ", before[number]):
            self.is_of_functions = False

    def without_change(self):
        """The edit's functions and its goal, with nothing changed."""
        same = Edit(self.name, [], self.group)
        same.goal, same.places = self.goal, self.places
        return same

    def overlaps(self, other):
        """Whether both change the same function or the same line."""
        return bool(self.lines.keys() & other.lines.keys() or self.places & other.places)


def function_at(file, lines, number):
    """The function in whose body a line of a file is, or None where it is in no body."""
    places = (place_of(file, lines, first) for first in range(number + 1 if file.endswith(".rt") else 0))
    found = [it for it in places if it and number < it.last]
    return found[-1] if found and number + 1 >= found[-1].body else None


def contract_at(texts, file, number):
    """The free function in whose contract a line is, if neither code nor proofs of others name that function; or else None."""
    lines = texts[file].split("\n")
    heads = range(number + 1 if file.endswith(".rt") else 0)
    place = next((it for it in (place_of(file, lines, at) for at in reversed(heads)) if it), None)
    if not place or place.owner or not number + 1 < place.body:
        return None
    own = "/".join(["proofs", *module_of(file), place.name, ""])
    is_its = lambda path, at: path.startswith(own) or path == file and place.first <= at + 1 <= place.last
    name = re.compile(rf"\b{place.name}\b")
    naming = (path for path, text in texts.items() for at, it in enumerate(text.split("\n")) if name.search(it) and not is_its(path, at))
    return None if any(naming) else place


def places_in(file, text):
    """The places of the functions of a file."""
    lines = text.split("\n") if file.endswith(".rt") else []
    return filter(None, (place_of(file, lines, it) for it in range(len(lines))))


def places_named(path, texts):
    """The places of the function of a path below the crate."""
    return [it for file, text in texts.items() for it in places_in(file, text) if is_of(f"::{path}", it)]


def place_of(file, lines, first):
    """The place of the function that begins at a line of a file, or None where none with a body does."""
    head = HEAD.match(lines[first])
    span = span_of(lines, first, head[1]) if head else None
    if not span:
        return None
    block = block_of(lines, first)
    return Place(file, with_attributes(lines, first) + 1, span[0] + 1, span[1] + 1, head[2], owner_of(block), words_of(block))


def leave_unsearched(lines, place):
    """Marks a function so that only what its proof files answer is tried. No line moves."""
    head = next(it for it in range(place.first - 1, place.body) if (found := HEAD.match(lines[it])) and found[2] == place.name)
    above = next((it for it in range(place.first - 1, head) if lines[it].lstrip().startswith("#[tactic(")), None)
    indent = HEAD.match(lines[head])[1]
    if above is not None:
        lines[above] = indent + UNSEARCHED
    elif UNSEARCHED not in lines[head]:
        lines[head] = f"{indent}{UNSEARCHED} {lines[head].lstrip()}"


def block_of(lines, first):
    """The type and the trait in the head of the `impl` or `trait` around a line; nothing outside of one."""
    for number in range(first - 1, -1, -1):
        if lines[number] == "}" or re.match(r"\S.*\{\}$", lines[number]):
            return ()
        if re.match(r"(unsafe |pub(\([\w:]+\))? )*(impl|trait)\b", lines[number]):
            end = next(it for it in range(number, len(lines)) if lines[it].rstrip().endswith(("{", "{}")))
            head = " ".join(lines[number : end + 1]).partition(" where ")[0]
            parameters = re.match(r"impl\s*<((?:[^<>]|<(?:[^<>]|<[^<>]*>)*>)*)>", head)
            trait, _, kind = head[parameters.end() if parameters else 0 :].removeprefix("impl").rpartition(" for ")
            return kind, trait
    return ()


def owner_of(block):
    """The names of the type and of the trait of a block, as the check writes them."""
    first_name = lambda text: (re.findall(r"(?:\w+::)*(\w+)", text.replace("trait ", "").replace("pub ", "")) or [""])[0]
    return tuple(it[:1].upper() + it[1:] for it in map(first_name, block) if it)


def words_of(block):
    """The words in the names of the type and of the trait of a block, and of their arguments, as the check writes them."""
    text = " ".join(block)
    return frozenset(words_in(text) + ["array", "slice"] * ("[" in text) + ["ref"] * ("&" in text))


def words_in(text):
    """The words in names, in lower case."""
    return [it.lower() for it in re.findall(r"[A-Z]?[a-z]+\d*|[A-Z]\d*|\d+", text)]


def is_of(function, place):
    """Whether the check's name of a function is that of the function at a place. A method may be named below its type's module."""
    *path, name = function.split("::")[1:]
    module = module_of(place.file)
    if name != place.name:
        return False
    if not place.owner:
        return path == module
    *above, owner = path or [""]
    kind, *trait = place.owner
    named = re.match(rf"(?:Array|Slice|Ref)*{kind}", owner)
    # behind the type's name and the trait's stand those arguments that tell this block from others
    of_type, its_trait, of_trait = owner[named.end() :].partition(trait[0]) if named and trait else ("", "", "")
    is_owner = its_trait and place.words.issuperset(words_in(f"{of_type} {of_trait}")) if trait else owner.partition("+")[0] == kind
    return above == module[: len(above)] and bool(is_owner)


def module_of(file):
    """The path of a source file's module below the crate."""
    path = re.sub(r"(^|/)(lib|mod)$", "", file.removeprefix("src/").removesuffix(".rt"))
    return [it for it in path.split("/") if it]


def with_attributes(lines, first):
    """The first of the attributes and comments above a function's first line: a goal may be named there."""
    while first > 0 and lines[first - 1].strip() and not lines[first - 1].rstrip().endswith(("{", "}", ";")):
        first -= 1
    return first


def span_of(lines, first, indent):
    """The lines on which the body of the function that begins at a line opens and ends, or None where it has no body."""
    body = None
    for number in range(first, len(lines)):
        here = lines[number]
        if body is None and (here.startswith(indent + "{") or here.endswith("{") and not here.startswith(indent + "    ")):
            body = number
        if here in (indent + "}", indent + "{}") or number == first and here.endswith("}"):
            return first if body is None else body, number
        another = HEAD.match(here) if number > first else None
        if another and another[1] == indent or here and not here.startswith(indent) or number == first and here.endswith(";"):
            return None
    return None


def edits_of(folder):
    """The edits of a crate, in the order of their files."""
    edits = []
    for path in sorted((folder / "must-fail").glob("*.edit")):
        file, old, changes = "", None, []
        lines = path.read_text().split("\n")
        is_group = any(line.startswith("name: ") for line in lines)
        if not is_group:
            edits.append(Edit(path.stem, changes, path.stem))
        for line in lines:
            if line.startswith("name: "):
                changes = []
                edits.append(Edit(line[len("name: ") :].strip(), changes, path.stem))
            elif goal := NAMED_GOAL.fullmatch(line):
                edits[-1].goal, edits[-1].answer = goal[1], goal[2]
            elif line.startswith("function: "):
                edits[-1].function = line[len("function: ") :].strip()
            elif line.startswith("file: "):
                file = line[len("file: ") :].strip()
            elif line.startswith("old: "):
                old = line[len("old: ") :]
            elif line.startswith("new:") and old is not None:
                changes.append(Change(file, old, line[len("new:") :].removeprefix(" ")))
                old = None
    return edits


def tried_together(edits):
    """The first of the edits of functions, and with it each that touches no function or text which one before it touches."""
    taken = []
    for edit in edits:
        if edit.is_of_functions and not any(edit.overlaps(it) for it in taken):
            taken.append(edit)
    return taken


class Verdict:
    """What a check says: whether the crate is proved, each goal that is left with its function, and what only misses a name."""

    def __init__(self, said, seconds=0, at_contract=()):
        self.said, self.seconds = said, seconds
        self.goals, self.nameless, self.doubtful, self.functions = [], [], set(), []
        blocks, open_goals = set(BLOCK.findall(said)), []
        answers = collections.defaultdict(list)
        for folder, name, why in ANSWER.findall(said):
            why = " ".join(why.split())
            if not MISSES_NAME.search(why):
                answers[folder.replace("/+", "/")].append(f"`{name}`: {why}")
        for line in said.split("\n"):
            goal, function = GOAL.match(line), FUNCTION.match(line)
            if goal:
                open_goals.append((goal[1], int(goal[2]), goal[3]))
            elif function:
                name, verdict = function.groups()
                self.functions.append(name)
                if name not in at_contract:
                    self.goals += [Goal(name, *it) for it in open_goals]
                    self.goals += [Goal(name, None, None, it) for it in answers["/".join(name.split("::")[1:])]]
                self.note_needs(name, verdict, blocks)
                if verdict.startswith("not proved") and not WAITS.match(verdict) and not any(it.function == name for it in self.goals):
                    self.nameless.append(name)
                open_goals = []
        some = re.search(r"^only=(\d+) (?:proved=(\d+)|holes=\d+)$", said, re.M)
        self.is_proved = some[1] == some[2] if some else re.search(r"^logic=proved", said, re.M) is not None
        self.is_refused = some[1] != some[2] if some else re.search(r"^logic=not-proved", said, re.M) is not None

    def note_needs(self, name, verdict, blocks):
        """Notes a function that needs an `impl` block which is not proved: goals of it may fail for that alone."""
        needed = {it for words in NEEDS.findall(verdict) for it in re.findall(r"`([^`]+)`", words)}
        if needed & blocks or {it.rpartition("::")[0] for it in needed} & blocks:
            self.doubtful.add(name)

    def refusal_of(self, edit, by_answer):
        """The first goal in a function that the edit changes; or, by the answer alone, the goal that the edit names."""
        is_its = lambda it: not by_answer or it.file is None and it.text.startswith(f"`{edit.goal}`:")
        return next((it for it in self.goals if is_inside(it, edit.places) and is_its(it)), None)

    def has_no_fault_in(self, file):
        """Whether the check came to its end, and finds no fault in a file."""
        return (self.is_proved or self.is_refused) and not re.search(rf"^(?:\./)?{re.escape(file)}:.*error", self.said, re.M)

    def strays(self, edits):
        """The goals in functions that none of the edits changes, and that need no block which is not proved."""
        places = set().union(*(it.places for it in edits))
        return [it for it in self.goals if not is_inside(it, places) and it.function not in self.doubtful]


def is_inside(goal, places):
    """Whether a goal is one of a function at these places: by its line, or by the function's name where a proof file has it."""
    if goal.file is None:
        return any(is_of(goal.function, it) for it in places)
    return any(it.file == goal.file and it.first <= goal.line <= it.last for it in places)


class Crate:
    """A crate of the repository: its texts, its libraries and the command that checks it."""

    def __init__(self, name, uses, built, kit):
        self.name, self.folder = name, ROOT / "crates" / name
        self.texts = {str(it.relative_to(self.folder)): it.read_text() for it in sorted(self.folder.rglob("*")) if self.is_text(it)}
        own = [it for it in uses[name] if it in uses]
        below = libraries_below(name, uses)
        folder_of = lambda it: built / "crates" / it / "out" / "rlib"
        self.libraries = [folder_of(it) / f"{it}.rlib" for it in below]
        words = ["--crate-name", name, "src/lib.rt", "--extern", f"std={kit}/rlibs/std.rlib"]
        for it in uses[name]:
            words += ["--extern", f"{it}={folder_of(it) / it}.rlib" if it in own else f"{it}={kit}/rlibs/{it}.rlib"]
        for folder in [kit / "rlibs", *map(folder_of, below)]:
            words += ["-L", f"dependency={folder}"]
        words += ["--crate-type", "staticlib"] if name in static_libraries() else []
        words += ["--antt-project", f"{kit}/rattle/logic/antt-project.json", "--logic-built", f"{kit}/logic_built"]
        self.command = [f"{kit}/bin/rattle", "check", *words, "--links", f"{name}=", "--jobs", "1"]

    def is_text(self, path):
        return path.suffix in (".rt", ".antt") and path.relative_to(self.folder).parts[0] in ("src", "specs", "proofs")

    def kept_at(self, folder):
        """Where checks of this crate have kept their work in a tree."""
        return folder / "crates" / self.name / "out/incremental"

    def check(self, edits, kept, functions=(), by_answers=False, answers=(), at_contract=()):
        """Checks a copy of the crate with the edits, over what earlier checks kept: all of it, or these functions and what they call. By
        answers, nothing is searched of the functions of edits that name a goal. The answers are proof files that this check has. What is
        taken at its contract is not proved, and what calls it is judged as if it were."""
        only = [word for it in functions for word in ("--only", it.partition("::")[2])] + ["--allow-holes"] * bool(at_contract)
        texts = {file: text.split("\n") for file, text in {**self.texts, **dict(answers)}.items()}
        for function, place in dict(at_contract).items():
            self.leave_unproved(texts, function, place)
        for edit in edits:
            for (file, number), line in edit.lines.items():
                texts[file][number] = line
        for place in {place for edit in edits if by_answers and edit.goal for place in edit.places}:
            leave_unsearched(texts[place.file], place)
        with tempfile.TemporaryDirectory(prefix="wrong-bodies-") as room:
            for file, text in texts.items():
                path = pathlib.Path(room, file)
                path.parent.mkdir(parents=True, exist_ok=True)
                path.write_text("\n".join(text))
            how = {"cwd": room, "stdin": subprocess.DEVNULL, "stdout": subprocess.PIPE, "stderr": subprocess.STDOUT}
            with subprocess.Popen([*self.command, "--incremental", kept, *only], text=True, errors="replace", **how) as ran:
                said = ran.stdout.read()
                _, status, usage = os.wait4(ran.pid, 0)
                ran.returncode = os.waitstatus_to_exitcode(status)
        return Verdict(said, usage.ru_utime + usage.ru_stime, at_contract)

    def proof_file(self, function):
        """The file in which the goals of a function are answered."""
        path = "/".join(function.split("::")[1:])
        folders = (it.rpartition("/")[0] for it in self.texts if it.startswith("proofs/"))
        folder = next((it for it in folders if re.sub(r"(^|/)\+", r"\1", it) == f"proofs/{path}"), f"proofs/{path}")
        return f"{folder}/Answers.antt"

    def leave_unproved(self, texts, function, place):
        """Gives a function at a place a body that says nothing and a proof that is left open. No line moves."""
        folder = "/".join(["proofs", *function.split("::")[1:]])
        before = self.proof_file(function).removesuffix("Answers.antt")
        for it in [it for it in texts if it.startswith(before)]:
            del texts[it]
        lines = texts[place.file]
        lines[place.body : place.last - 1] = ["    loop {}"] + [""] * (place.last - place.body - 2)
        module = f"{self.name}.{folder.replace('/', '.')}"
        texts[f"{folder}/Proof.antt"] = AT_CONTRACT.format(module=module, name=place.name).split("\n")

    def with_answers(self, answers):
        """The proof files with more answers, each given by its function, its goal and what stands behind the goal's name."""
        files = {}
        for function, goal, answer in answers:
            file = self.proof_file(function)
            path = file.removesuffix("/Answers.antt").replace("/", ".")
            before = files.get(file, self.texts.get(file, f"use Rattle.{self.name}.{path}.Goals as goal\n"))
            if f"pub {goal} :" not in before:
                uses = [f"use {module}.{{{name}}}\n" for name, module in MEANT.items() if is_named(name, answer) and not is_named(name, before)]
                files[file] = f"{''.join(uses)}{before}\npub {goal} : goal.{goal}\n{goal}{answer}\n"
        return files


class Gate:
    """A gate at work: what its log says of each crate that it has checked."""

    def __init__(self, log):
        self.log, self.status = log, log.with_suffix(".status")

    def is_at_work(self):
        return not self.status.exists()

    def has_passed(self, crate):
        """Whether the gate has proved a crate, or says that an earlier run of it proved the same files."""
        return bool(self.functions_of(crate)) or self.keeps(crate)

    def functions_of(self, crate):
        """The functions of a crate that the gate has proved, or None where it has not proved the crate."""
        said = re.search(rf"^== {crate.name}$(.*?)^rt: {crate.name} proved$", self.text(), re.M | re.S)
        return [it[0] for it in re.findall(r"^fn (\S+): (proved)$", said[1], re.M)] if said else None

    def keeps(self, crate):
        """Whether the gate takes a crate from an earlier run, so that its log names no function of it."""
        return re.search(rf"^rt: {crate.name} is kept: ", self.text(), re.M) is not None

    def text(self):
        return self.log.read_text(errors="replace") if self.log.exists() else ""


def tried_in_turn(crates, run, jobs, gate):
    """What a call gives for each crate, so many side by side, in their order; half as many as long as a gate is at work, and then only
    crates that it has proved."""
    left, given = list(crates), {}
    with concurrent.futures.ThreadPoolExecutor(jobs) as pool:
        while left:
            waits = gate is not None and gate.is_at_work()
            ready = next((it for it in left if not waits or gate.has_passed(it)), None)
            running = sum(not it.done() for it in given.values())
            if ready and running < (max(jobs // 2, 1) if waits else jobs):
                left.remove(ready)
                given[ready] = pool.submit(run, ready)
            else:
                time.sleep(1)
    return [given[it].result() for it in crates]


def libraries_below(name, uses):
    """The repository's libraries that a crate stands on, directly or not."""
    found = []
    for it in uses[name]:
        if it in uses:
            found += [below for below in [*libraries_below(it, uses), it] if below not in found]
    return found


def is_named(name, text):
    """Whether a text has a name."""
    return re.search(rf"(?<![\w.-]){re.escape(name)}(?![\w-])", text) is not None


def with_one_answer(text, goal):
    """A proof file without the answers to other goals than this one, but for those which it names."""
    parts = re.split(r"\n\n(?=\S)", text.rstrip("\n"))
    others = {it: found[1] for it in parts if (found := re.match(r"(?:--.*\n)*pub (\S+) :\s+goal\.\1\b", it)) and found[1] != goal}
    kept = [it for it in parts if it not in others]
    while more := [it for it in others if it not in kept and any(is_named(others[it], other) for other in kept)]:
        kept += more
    return "\n\n".join(it for it in parts if it in kept) + "\n"


def linked(source, target):
    """Gives a file a second place, or a copy of it where that place is on another disk."""
    try:
        os.link(source, target)
    except OSError:
        shutil.copy2(source, target)


def told(goal):
    place = f" at {goal.file}:{goal.line}" if goal.file else ""
    return f"{goal.function}{place}: {goal.text[:160]}"


def why_not(edit, verdict):
    """Why an edit that was tried alone counts as not refused."""
    if verdict.is_proved:
        return "NOT REFUSED: it is still proved with it"
    if not verdict.is_refused:
        said = next((it for it in verdict.said.split("\n") if "error" in it), verdict.said[-200:])
        return f"NOT TRIED: the check gave no verdict: {said[:200]}"
    if verdict.nameless:
        return f"NOT REFUSED by a goal: a proof file of {verdict.nameless[0]} misses a name"
    return "NOT REFUSED by a goal of the edited function"


class Trial:
    """The trial of a crate's edits: prints a line for each, and counts them."""

    def __init__(self, crate, printing, asked):
        self.crate, self.printing, self.asked = crate, printing, asked
        self.functions, self.answers, self.bodies = [], {}, {}
        self.refused = self.failed = 0

    def say(self, text, is_refused):
        self.refused, self.failed = self.refused + is_refused, self.failed + (not is_refused)
        with self.printing:
            print(f"wrong body: {self.crate.name} {text}", flush=True)

    def judge(self, edit, verdict, is_alone):
        """Says that an edit is refused, and by which goal; returns whether it is."""
        goal = verdict.refusal_of(edit, bool(edit.goal) and not is_alone)
        if goal is None and is_alone and not edit.is_of_functions and verdict.goals:
            goal = verdict.goals[0]
        if goal is None or not verdict.is_refused:
            return False
        if not is_alone and (goal.function in verdict.doubtful or self.may_be_of_another(edit, goal)):
            return False
        self.say(f"{edit.name}: refused, {told(goal)}", True)
        return True

    def may_be_of_another(self, edit, goal):
        """Whether a goal that a proof file has, and so no line tells where it is, may be one of another function of that name."""
        return goal.file is None and sum(is_of(it, place) for place in edit.places for it in self.functions) > 1

    def is_in_doubt(self, edit, verdict):
        """Whether goals of an edit's functions may fail for an `impl` block that another edit makes wrong."""
        return any(is_of(it, place) for it in verdict.doubtful for place in edit.places)

    def run(self):
        """Tries all edits of the crate; the work that is kept goes from one check to the next."""
        sound = self.sound_edits()
        with tempfile.TemporaryDirectory(prefix="wrong-bodies-kept-") as kept:
            self.begin(kept)
            self.functions = self.functions_without_edit(kept)
            if not self.functions:
                self.say("is not proved without an edit", False)
                return self
            self.bodies = self.bodies_of_functions()
            sound = self.with_sure_answers(sound, kept)
            self.try_together([it for it in sound if it.is_of_functions], kept)
            for edit in sound:
                if not edit.is_of_functions:
                    self.try_alone(edit, kept)
        return self

    def sound_edits(self):
        """The edits that are asked for and can be applied; names the others."""
        sound, names, above = [], collections.Counter(), collections.defaultdict(dict)
        for edit in edits_of(self.crate.folder):
            names[edit.name] += 1
            try:
                if names[edit.name] > 1:
                    raise BadEdit("another edit has its name")
                edit.locate(self.crate.texts)
                above[edit.group].update(edit.applied({**self.crate.texts, **above[edit.group]}))
                sound.append(edit)
            except BadEdit as why:
                self.say(f"{edit.name}: BAD EDIT: {why}", False)
        return [it for it in sound if not self.asked.only or it.name in self.asked.only]

    def begin(self, kept):
        """Begins over what checks of the crate without an edit have kept, in its own folder or where it was built, if anything."""
        trees = [ROOT] * self.asked.kept + [self.asked.built] * bool(self.asked.built)
        found = next((it for it in map(self.crate.kept_at, trees) if it.is_dir()), None)
        if found:
            shutil.copytree(found, kept, copy_function=linked, dirs_exist_ok=True)

    def functions_without_edit(self, kept):
        """The crate's functions, all proved without an edit: by the gate, or here. None where one is not."""
        gate = self.asked.gate
        if gate and not gate.keeps(self.crate):
            return gate.functions_of(self.crate)
        clean = self.timed([], kept)
        return clean.functions if clean.is_proved else None

    def with_sure_answers(self, edits, kept):
        """The edits without those whose own answers do not hold in the crate as it is, which it names."""
        asked = [it for it in edits if it.answer]
        if not asked:
            return edits
        answers = self.crate.with_answers((function, it.goal, it.answer) for it in asked for function in self.functions_of(it))
        functions = sorted({function for it in asked for function in self.functions_of(it)})
        verdict = self.timed([it.without_change() for it in asked], kept, functions, True, answers, by_contracts=True)
        self.answers = {file: text for file, text in answers.items() if verdict.has_no_fault_in(file)}
        lost = [it for it in asked if any(self.crate.proof_file(function) not in self.answers for function in self.functions_of(it))]
        for edit in lost:
            self.say(f"{edit.name}: NOT TRIED: its own answer does not hold without it", False)
        return [it for it in edits if it not in lost]

    def timed(self, edits, kept, functions=(), by_answers=False, answers=None, by_contracts=False):
        """Checks the crate with the edits and their own answers, and says what that took where times are asked for. By answers, nothing
        but the goal that an edit names is answered of its functions. By contracts, no function is proved but those that are named."""
        texts, files = {**self.crate.texts, **(answers or self.answers)}, {}
        for edit in edits:
            for file in {self.crate.proof_file(it) for it in self.functions_of(edit)} & texts.keys():
                files[file] = with_one_answer(texts[file], edit.goal) if by_answers and edit.goal else texts[file]
        at_contract = self.at_contract(functions, edits) if by_contracts else {}
        verdict = self.crate.check(edits, kept, functions, by_answers, files, at_contract)
        if self.asked.times:
            tried = ", ".join(it.name for it in edits[:1]) + f" and {len(edits) - 1} more" * (len(edits) > 1)
            how = f"{len(functions) or 'all'} functions by {'answers' if by_answers else 'searches'}"
            how += f", {len(at_contract)} at their contracts" * bool(at_contract)
            with self.printing:
                print(f"time: {self.crate.name} {verdict.seconds:.0f} s, {how}: {tried or 'no edit'}", flush=True)
        return verdict

    def at_contract(self, functions, edits):
        """The functions that a check of these ones takes at their contracts, with their places: all others that no edit touches."""
        lines = {line for it in edits for line in it.lines}
        is_touched = lambda place: any(place.file == file and place.first <= number + 1 <= place.last for file, number in lines)
        return {it: place for it, place in self.bodies.items() if it not in functions and not is_touched(place)}

    def bodies_of_functions(self):
        """The places of those functions that a check can take at their contracts, since they have a body on lines of its own."""
        places = [it for file, text in self.crate.texts.items() for it in places_in(file, text)]
        named = {place: [it for it in self.functions if is_of(it, place)] for place in places}
        times = collections.Counter(it for functions in named.values() for it in functions)
        is_sure = lambda place: len(named[place]) == 1 and times[named[place][0]] == 1
        return {named[it][0]: it for it in places if it.last > it.body + 1 and is_sure(it)}

    def functions_of(self, edit):
        """The functions that an edit is in, or that it names."""
        return sorted({it for place in edit.places for it in self.named_at(place)})

    def lists_of(self, edit):
        """Lists of functions that refuse an edit or are likely to, in the order in which they are tried. No function stands for all."""
        own = self.functions_of(edit)
        if edit.is_of_functions and own:
            return [own]
        lists = [it for it in [own, *self.likely(edit)] if it]
        return [it for number, it in enumerate(lists) if it not in lists[:number]] + [[]]

    def likely(self, edit):
        """Lists of functions that an edit of anything but a body is likely to be seen in, those that are checked soonest first."""
        constants = {it[1] for line in edit.lines.values() if (it := CONSTANT.match(line))}
        users = sorted({it for name in constants for it in self.users_of(name)})
        laws = self.of_modules([["laws"]])
        beside = self.of_modules([["laws"], *(module_of(file) for file, _ in edit.lines if file.endswith(".rt"))])
        return [users[:1], users] if users else [laws, beside]

    def users_of(self, constant):
        """The functions in whose bodies a constant is named."""
        for file, text in self.crate.texts.items():
            lines = text.split("\n")
            named = [number for number, line in enumerate(lines) if re.search(rf"\b{constant}\b", line)]
            for place in filter(None, (function_at(file, lines, it) for it in named)):
                yield from self.named_at(place)

    def of_modules(self, modules):
        """The functions of some modules and of those below them."""
        return [it for it in self.functions if any(it.split("::")[1 : len(module) + 1] == module for module in modules)]

    def named_at(self, place):
        """The functions that may be the one at a place: of its module, else of its owner anywhere, else of its name."""
        named = [it for it in self.functions if it.rpartition("::")[2] == place.name]
        of_module = [it for it in named if is_of(it, place)]
        return of_module or [it for it in named if all(owner in it.split("::")[-2] for owner in place.owner)] or named

    def try_together(self, edits, kept):
        """Tries edits of functions in rounds. What is in doubt goes into the next one, as long as a round settles anything."""
        left, alone = edits, []
        while left:
            tried = tried_together(left)
            verdict = self.timed(tried, kept, sorted({name for it in tried for name in self.functions_of(it)}), True, by_contracts=True)
            for goal in verdict.strays(tried):
                self.say(f"no edit: a function without one fails, {told(goal)}", False)
            still = [it for it in tried if not self.judge(it, verdict, False)]
            again = [it for it in still if len(still) < len(tried) and self.is_in_doubt(it, verdict)]
            alone += [it for it in still if it not in again]
            left = [it for it in left if it not in tried] + again
        for edit in alone:
            self.try_alone(edit, kept)

    def try_alone(self, edit, kept):
        """Tries an edit with no other: by the answer to the goal that it names, then by searches, at last with what is called proved too,
        and on the whole crate."""
        lists = self.lists_of(edit)
        if edit.goal and edit.places:
            verdict = self.timed([edit], kept, lists[0], True, by_contracts=True)
            if verdict.is_refused and (goal := verdict.refusal_of(edit, True)) and not self.may_be_of_another(edit, goal):
                return self.say(f"{edit.name}: refused, {told(goal)}", True)
        for functions, by_contracts in [*((it, True) for it in lists if it), *((it, False) for it in lists)]:
            verdict = self.timed([edit], kept, functions, by_contracts=by_contracts)
            if self.judge(edit, verdict, True):
                return None
        return self.say(f"{edit.name}: {why_not(edit, verdict)}", False)


def lines_of_crates():
    """The words before the colon and behind it of each line of crates.txt that names a crate."""
    for line in (ROOT / "crates.txt").read_text().splitlines():
        head, _, deps = line.partition("#")[0].partition(":")
        if head.strip():
            yield head.split(), deps.split()


def uses_of_crates():
    """The libraries that each crate of the repository uses, by its name."""
    return {head[0]: deps for head, deps in lines_of_crates()}


def static_libraries():
    """The crates of the repository that are static libraries."""
    return {head[0] for head, _ in lines_of_crates() if "staticlib" in head[1:]}


def kit_folder():
    """Where the kit of `rt` is."""
    return pathlib.Path(subprocess.run(["rt", "doc"], capture_output=True, text=True, check=True).stdout.strip()).parent


def main():
    usage = "wrong_bodies.py [--built FOLDER [--gate LOG]] [--jobs N] [--kept] [--times] [--only NAME,..] [CRATE..]"
    asked = argparse.ArgumentParser(usage=usage)
    asked.add_argument("--built", type=lambda folder: pathlib.Path(folder).resolve())
    asked.add_argument("--gate", type=lambda log: Gate(pathlib.Path(log)))
    asked.add_argument("--jobs", type=int, default=len(os.sched_getaffinity(0)))
    asked.add_argument("--kept", action="store_true")
    asked.add_argument("--times", action="store_true")
    asked.add_argument("--only", type=lambda names: set(names.split(",")), default=set())
    asked.add_argument("crates", nargs="*")
    asked = asked.parse_args()
    uses = uses_of_crates()
    names = asked.crates or [it for it in uses if (ROOT / "crates" / it / "must-fail").is_dir()]
    if not asked.built:
        for it in dict.fromkeys(below for name in names for below in libraries_below(name, uses)):
            subprocess.run(["rt", "lib"], cwd=ROOT / "crates" / it, check=True, stdout=subprocess.DEVNULL)
    # those that take longest first, so that none is left alone at the end
    length = lambda it: (len(edits_of(it.folder)), sum(map(len, it.texts.values())))
    crates = sorted((Crate(it, uses, asked.built or ROOT, kit_folder()) for it in names), key=length, reverse=True)
    printing = threading.Lock()
    trials = tried_in_turn(crates, lambda it: Trial(it, printing, asked).run(), asked.jobs, asked.gate)
    refused, failed = sum(it.refused for it in trials), sum(it.failed for it in trials)
    print(f"{refused} refused, {failed} not")
    return 1 if failed or not refused else 0


if __name__ == "__main__":
    sys.exit(main())
