#!/usr/bin/env python3
"""Finds the tactic that closes each goal of some functions, and writes it where the check's own search finds it late.

    tools/find_answers.py [--built FOLDER] [--slow SECONDS] [--every] CRATE [FUNCTION..]

The check tries its tactics at a goal one after another. A goal that only a later one closes costs those before it, whenever its
function is proved; and an edit of must-fail/ that breaks a goal costs all of them. So this tool tries them once: one tactic at all goals
of the functions in one check, the next one at those that are left. A goal that another than the first tactic closes gets its answer in
the function's Answers.antt. Then each edit of these functions that names no goal is put into a copy of the crate: where an answer
breaks, the edit names that goal (a line 'goal: GOAL'), and brings its answer where no proof file has it ('goal: GOAL c = search rules').
So tools/wrong_bodies.py need not search. With --every the proof files answer every goal of these functions that an edit breaks, also of
edits that name one: so `rt ci`, which looks at all goals of an edited function, need not search either.

FUNCTION is a function's name as the check prints it, below the crate. Without one, all are tried that an edit without a goal is in;
with --slow besides those whose goals took so many seconds, by the times of the files that the last check with one job kept. The crate
has to be proved, over what its out/incremental keeps: call `rt check` before. The libraries below it are taken from the tree FOLDER,
as by tools/wrong_bodies.py. What is written is laid out by `rt fmt` and `rt tidy`, and read before it is kept.
"""
import argparse
import os
import pathlib
import re
import shutil
import tempfile

import wrong_bodies as trial

# The tactics in the order in which they are tried; LEMMAS are those that the function's attribute names.
TACTICS = [
    "search rules",
    "grind (arith, common_steps)",
    "grind (arith, LEMMAS)",
    "grind arith",
    "search (rules, common_steps)",
    "search (rules, LEMMAS)",
]
IMPORTS = ["Rattle.std.proofs.Common.{rules, arith}", "Rattle.std.proofs.lemmas.Grind.{common_steps}"]
# The lines that the check offers for a proof file, and a goal and its arguments in them.
OFFER = re.compile(r"^help: [^\n]*?\./proofs/(\S+)/Answers\.antt[^\n]*\n((?:    [^\n]*\n|\n)+)", re.M)
GOAL = re.compile(r"^pub (\S+) :\s+goal\.\S+\n\1( [^=]*)= \?", re.M)
USE = re.compile(r"^use [^\n]*(?:\n[ }][^\n]*)*\n?", re.M)


class Answers:
    """The proof file of a function: what it has, the goals that it does not answer, and what closes them."""

    def __init__(self, folder, before, offered, lemmas):
        self.file, self.before, self.offered, self.lemmas = f"proofs/{folder}/Answers.antt", before, offered, lemmas
        answered = set(re.findall(r"^pub (\S+) :", before, re.M))
        self.goals = {goal: names.strip() for goal, names in GOAL.findall(offered) if goal not in answered}
        self.found = {}

    def left(self):
        return [it for it in self.goals if it not in self.found]

    def tactic(self, number):
        """The tactic of a number, or None where it wants lemmas that the function does not name."""
        names = ", ".join(it.rpartition(".")[2] for it in self.lemmas)
        return TACTICS[number].replace("LEMMAS", names) if names or "LEMMAS" not in TACTICS[number] else None

    def text(self, answers):
        """The file with these answers, goals with the numbers of their tactics, behind those that it has."""
        rest = USE.sub("", self.before).strip("\n")
        chosen = {goal: self.tactic(number) for goal, number in answers.items()}
        often = next((it for it in chosen.values() if len(self.lemmas) > 2 and list(chosen.values()).count(it) > 1), None)
        rules = ""
        if often and self.lemmas[0].rpartition(".")[2] in often:
            word, _, names = often.partition(", ")
            rules = f"ruleset steps = ({names}"
            chosen = {goal: f"{word}, steps)" if it == often else it for goal, it in chosen.items()}
        new = [f"pub {goal} : goal.{goal}\n{goal} {self.goals[goal]} = {it}" for goal, it in chosen.items()]
        body = "\n\n".join(filter(None, [rules, rest, *new]))
        lemmas = [f"{module}.{{{name}}}" for module, _, name in (it.rpartition(".") for it in self.lemmas)]
        uses = [it.strip()[len("use ") :] for it in USE.findall(self.before) + USE.findall(self.offered)]
        return f"{imports([it for it in uses if not self.is_other_alias(it)] + IMPORTS + lemmas, body)}\n\n{body}\n"

    def is_other_alias(self, use):
        """Whether a line would bring the goals a second time."""
        return " as goal" in use and use not in self.before and " as goal" in self.before


def imports(uses, body):
    """The lines that bring what a text names, each module once, and last those that bring a module whole."""
    named, whole = {}, []
    for use in (" ".join(it.split()) for it in uses):
        module, brace, names = use.partition(".{")
        if brace:
            named.setdefault(module, {}).update(dict.fromkeys(it.strip() for it in names.rstrip("} ").split(",")))
        elif use not in whole:
            whole.append(use)
    kept = {module: [it for it in names if it and is_named(it, body)] for module, names in named.items()}
    return "\n".join([f"use {module}.{{{', '.join(names)}}}" for module, names in kept.items() if names] + [f"use {it}" for it in whole])


def is_named(name, body):
    """Whether a text names an item, or has each part of an operator."""
    parts = [it for it in name.rpartition(" as ")[2].split("◌") if it]
    is_word = lambda it: re.fullmatch(r"[\w-]+", it)
    return all(re.search(rf"(?<![\w.-]){re.escape(it)}(?![\w-])", body) if is_word(it) else it in body for it in parts)


class Finder:
    """Tries tactics at the goals of functions of a crate, in checks that begin with what the crate's folder keeps."""

    def __init__(self, crate, kept):
        self.crate, self.kept, self.texts = crate, kept, dict(crate.texts)
        self.trial = trial.Trial(crate, None, None)
        self.trial.functions = self.check(self.texts, ()).functions
        self.places = {}
        for file, text in self.texts.items():
            for place in trial.places_in(file, text):
                self.places.update((it, place) for it in self.trial.functions if trial.is_of(it, place))

    def check(self, texts, functions, edits=()):
        self.crate.texts = texts
        return self.crate.check(edits, self.kept, functions, True)

    def unsearched(self, functions):
        """The crate's texts with these functions marked, so that only what their proof files answer is tried."""
        texts = dict(self.texts)
        for file in {self.places[it].file for it in functions}:
            lines = texts[file].split("\n")
            for place in {self.places[it] for it in functions if self.places[it].file == file}:
                trial.leave_unsearched(lines, place)
            texts[file] = "\n".join(lines)
        return texts

    def lemmas_of(self, function):
        """The lemmas that the nearest attribute above a function names for its goals."""
        place = self.places[function]
        lines = self.texts[place.file].split("\n")
        within = [lines[place.first - 1 : place.body], reversed(lines[: place.first - 1])]
        attribute = next((it for part in within for it in part if "tactic(auto," in it), "")
        used = re.search(r"using\(([^)]*)\)", attribute)
        paths = [it.strip().replace("::", ".") for it in used[1].split(",")] if used else []
        return [f"Rattle.{re.sub(r'^crate', self.crate.name, it)}" for it in paths]

    def answers_of(self, functions):
        """The proof files of functions, with what closes each goal."""
        texts = self.unsearched(functions)
        offers = dict(OFFER.findall(self.check(texts, functions).said))
        files = []
        for folder, offered in offers.items():
            function = next((it for it in functions if it.split("::")[1:] == re.sub(r"(^|/)\+", r"\1", folder).split("/")), None)
            before = self.texts.get(f"proofs/{folder}/Answers.antt", "")
            if function:
                files.append(Answers(folder, before, re.sub(r"^    ", "", offered, flags=re.M), self.lemmas_of(function)))
        for number, tactic in enumerate(TACTICS):
            asked = [it for it in files if it.left() and it.tactic(number)]
            if not asked:
                continue
            tried = {it.file: it.text(dict.fromkeys(it.left(), number)) for it in asked}
            lost = trial.ANSWER.findall(self.check({**texts, **tried}, functions).said)
            for it in asked:
                open_goals = {goal for folder, goal, _ in lost if it.file.startswith(f"proofs/{folder}/")}
                it.found.update({goal: number for goal in it.left() if goal not in open_goals})
            print(f"{tactic}: closes what is left but for {sum(len(it.left()) for it in files)} goals", flush=True)
        return files

    def edits(self, every=False):
        """The edits of bodies that name no goal, or all of them."""
        edits = [it for it in trial.edits_of(self.crate.folder) if every or not it.goal]
        for edit in edits:
            edit.locate(self.texts)
        return [it for it in edits if it.is_of_functions]

    def functions_of(self, edit):
        return {it for place in edit.places for it in self.trial.named_at(place)}

    def broken(self, files, functions, every):
        """The answered goals that edits of these functions break, by the edits' names: a function and a goal each. What stands first
        has an answer of its own, where there is one. Looks at the edits that name no goal, or at every one."""
        answered = {it.file: it.text(it.found) for it in files if it.found}
        found = {}
        for edits in rounds_of([it for it in self.edits(every) if functions & self.functions_of(it)]):
            for edit in edits:
                # of such an edit's functions only what is answered is tried
                edit.goal = "any"
            edited = sorted(set().union(*map(self.functions_of, edits)))
            verdict = self.check({**self.texts, **answered}, edited, edits)
            for edit in edits:
                goals = [it for it in verdict.goals if it.file is None and trial.is_inside(it, edit.places)]
                named = [(it.function, re.match(r"`([^`]+)`", it.text)[1]) for it in goals if not self.trial.may_be_of_another(edit, it)]
                if named:
                    found[edit.name] = sorted(named, key=lambda it: (is_new(*it, files), len(it[1])))
        return found


def rounds_of(edits):
    """The edits in rounds, in each of which no two touch the same function or text."""
    while edits:
        tried = trial.tried_together(edits)
        yield tried
        edits = [it for it in edits if it not in tried]


def is_new(function, goal, files):
    """Whether a goal of a function gets an answer for an edit's sake alone."""
    file = file_of(function, files)
    return file is not None and file.found.get(goal) == 0


def file_of(function, files):
    """The proof file of a function, if it is one of these."""
    path = "/".join(function.split("::")[1:])
    return next((it for it in files if re.sub(r"(^|/)\+", r"\1", it.file) == f"proofs/{path}/Answers.antt"), None)


def with_answer(function, goal, files):
    """A goal as an edit names it, with its answer where it gets one for the edit's sake alone."""
    if not is_new(function, goal, files):
        return goal
    file = file_of(function, files)
    return f"{goal} {file.goals[goal]} = {file.tactic(0)}"


def slow_functions(crate, kept, seconds):
    """The functions whose goals took so many seconds: a check with one job writes its files one after another."""
    files = sorted((it.stat().st_mtime_ns, it.name) for it in kept.rglob("*.oantt"))
    for (before, _), (after, name) in zip(files, files[1:]):
        found = re.fullmatch(rf"Rattle-{crate}-proofs\.(.*)\.Proof\.decls\.oantt", name)
        if found and after - before > seconds * 1e9:
            yield "::".join([crate, *re.sub(r"(^|\.)\+", r"\1", found[1]).split(".")])


def write_goals(folder, broken):
    """Writes the goals' names into the edits."""
    for path in sorted((folder / "must-fail").glob("*.edit")):
        lines = []
        for line in path.read_text().split("\n"):
            name = line[len("name: ") :].strip() if line.startswith("name: ") else path.stem if line.startswith("file: ") else None
            lines += [line] + ([f"goal: {broken[name]}"] if name in broken else [])
        path.write_text("\n".join(lines))


def main():
    asked = argparse.ArgumentParser(usage="find_answers.py [--built FOLDER] [--slow SECONDS] [--every] CRATE [FUNCTION..]")
    asked.add_argument("--built", type=pathlib.Path, default=trial.ROOT)
    asked.add_argument("--slow", type=float)
    asked.add_argument("--every", action="store_true")
    asked.add_argument("crate")
    asked.add_argument("functions", nargs="*")
    asked = asked.parse_args()
    crate = trial.Crate(asked.crate, trial.uses_of_crates(), asked.built.resolve(), trial.kit_folder())
    before = crate.folder / "out/incremental"
    with tempfile.TemporaryDirectory(prefix="find-answers-") as kept:
        shutil.copytree(before, kept, copy_function=os.link, dirs_exist_ok=True)
        finder = Finder(crate, kept)
        functions = {f"{crate.name}::{it}" for it in asked.functions}
        if not functions:
            functions = set().union(*map(finder.functions_of, finder.edits()))
        if asked.slow is not None:
            functions |= set(slow_functions(crate.name, before, asked.slow))
        files = finder.answers_of(sorted(functions & finder.places.keys()))
        broken = finder.broken(files, functions, asked.every)
        unnamed = {it.name for it in finder.edits()}
    first = {edit: goals[0] for edit, goals in broken.items() if edit in unnamed}
    needed = {it for goals in broken.values() for it in goals} if asked.every else set(first.values())
    for it in files:
        wanted = {goal for function, goal in needed if file_of(function, files) is it} if asked.every else set()
        answers = {goal: number for goal, number in it.found.items() if number or goal in wanted}
        if answers:
            (crate.folder / it.file).parent.mkdir(parents=True, exist_ok=True)
            (crate.folder / it.file).write_text(it.text(answers))
    named = lambda function, goal: goal if asked.every else with_answer(function, goal, files)
    write_goals(crate.folder, {edit: named(*it) for edit, it in first.items()})
    print(f"{len(first)} edits name a goal now, {len(needed)} goals that edits break are answered")


if __name__ == "__main__":
    main()
