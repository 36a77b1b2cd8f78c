#!/usr/bin/env python3
"""Tests tools/wrong_bodies.py on small crates: what it must name, and what it must count as refused.

Of the edits of a crate a harmless one must be named, also where the function that it is in calls one with a wrong body, or one that is
taken at its contract, where it needs a trait's block that is not proved for another edit, where it takes away a goal that a proof file
answers, and where such a goal of another function of that name fails. An edit that cannot be applied must be named too, one that cannot
be applied behind those above it in its file among them, and a crate that is not proved without an edit. An edit that names the goal that
it breaks is refused by it, and one that names another goal by a search; an edit whose own answer does not hold without it is named, and
so is a harmless edit of a constant, or of a contract that other functions stand on. What is refused is the same over work that was kept
of another crate of the same name, in which a wrong body is the right one, and over files that hold nothing. A crate that a gate keeps
from an earlier run is tried all the same. The last line is 'N passed, M failed'.
"""
import pathlib
import shutil
import subprocess
import sys
import tempfile

TOOL = pathlib.Path(__file__).resolve().parent / "wrong_bodies.py"

CRATE = """//! Sums of small numbers.
#![tactic(auto)]

ghost use Rattle.std.specs.Prelude.{◌≡◌, ◌+◌, ◌<◌, ℕ};

/// One more than a number.
pub fn one_more(n: u64) -> u64
    requires { n < 100 }
    ensures { result ≡ n + 1 }
{
    n + 1
}

/// Two more than a number.
pub fn two_more(n: u64) -> u64
    requires { n < 50 }
    ensures { result ≡ n + 2 }
{
    let more = one_more(n);
    one_more(more)
}

/// Three more than a number.
pub fn three_more(n: u64) -> u64
    requires { n < 50 }
    ensures { result ≡ n + 3 }
{
    n + 3
}

/// Four more than a number, of a name that is longer than a line of what the check says.
pub fn four_more_than_a_number_below_fifty_by_way_of_three_more(n: u64) -> u64
    requires { n < 50 }
    ensures { result ≡ n + 4 }
{
    let third = three_more(n);
    third + 1
}

/// How much five more is.
const FIVE: u64 = 5;

/// Five more than a number.
pub fn five_more(n: u64) -> u64
    requires { n < 50 }
    ensures { result ≡ n + 5 }
{
    n + FIVE
}

/// Ten more than a number.
pub fn ten_more(n: u64) -> u64
    requires { n < 45 }
    ensures { result ≡ n + 10 }
{
    let more = five_more(n);
    five_more(more)
}

/// Eleven more than a number.
pub fn eleven_more(n: u64) -> u64
    requires { n < 45 }
    ensures { result ≡ n + 11 }
{
    ten_more(n) + 1
}

/// Twelve more than a number.
pub fn twelve_more(n: u64) -> u64
    requires { n < 45 }
    ensures { result ≡ n + 12 }
{
    ten_more(n) + 2
}

/// A number is less than the next, and than each later one.
pub fn numbers_ascend()
    ensures { (n : ℕ) → n < n + 1 }
{}

/// What is written as so many bytes, whatever its value.
pub trait Measured {
    /// That number of bytes.
    ghost length: { ℕ };

    /// How many bytes.
    fn measure(&self) -> u64
        ensures { result ≡ Self.length };
}

/// A word of two bytes.
pub struct Word {}

impl Measured for Word {
    ghost length = { 2 };

    fn measure(&self) -> u64 {
        2
    }
}

/// A word of four bytes, whose name ends with that of another type.
pub struct DoubleWord {}

impl Measured for DoubleWord {
    ghost length = { 4 };

    fn measure(&self) -> u64 {
        4
    }
}

/// The length of a word.
pub fn length_of_word(word: &Word) -> u64
    ensures { result ≡ 2 }
{
    word.measure()
}
"""

# Answers of goals: of one that a harmless edit takes away, and of one that fails where another function of that name has one.
ANSWERED = "four_more_than_a_number_below_fifty_by_way_of_three_more"
ANSWERS = {
    ANSWERED: f"""use Rattle.std.proofs.Common.{{arith}}
use Rattle.sums.proofs.{ANSWERED}.Goals as goal

pub three_more-third-requires : goal.three_more-third-requires
three_more-third-requires c = omega (arith, c.requires)
""",
    "numbers_ascend": """use Rattle.std.proofs.Common.{arith}
use Rattle.sums.proofs.numbers_ascend.Goals as goal

pub returns : goal.returns
returns c = omega (arith, c.requires)
""",
    "DoubleWordMeasured/measure": """use Rattle.std.proofs.Common.{refl}
use Rattle.sums.proofs.DoubleWordMeasured.measure.Goals as goal

pub returns : goal.returns
returns c = refl
""",
}

EDITS = {
    "callee_wrong": ("    n + 1", "    n + 2"),
    "harmless_caller": ("let more = one_more(n);", "let more = one_more(n + 0);"),
    "harmless": ("    n + 3", "    3 + n"),
    "harmless_beside_another_word": ("        2", "        1 + 1"),
    "other_word_wrong": ("        4", "        5"),
    "block_wrong": ("        2", "        1"),
    "harmless_beside_block": ("word.measure()", "word.measure() + 0"),
    "harmless_where_a_goal_is_answered": ("let third = three_more(n);", "let third = n + 3;"),
    # edits of functions that call one without an edit, which is taken at its contract
    "harmless_over_a_contract": ("ten_more(n) + 1", "1 + ten_more(n)"),
    "wrong_over_a_contract": ("ten_more(n) + 2", "ten_more(n) + 3"),
    "no_such_text": ("seven_more", "six_more"),
    "text_taken_by_one_above": ("    n + 1", "    n + 3"),
    # an edit that names the answered goal that it breaks, a harmless one that names a goal, and one that breaks another goal
    "wrong_by_its_answer": ("        4", "        6", "returns"),
    "harmless_that_names_a_goal": ("        4", "        2 + 2", "returns"),
    "wrong_by_another_goal": ("third + 1", "third + 2", "three_more-third-requires"),
    # edits that bring the answer which they break, one that does not hold in the crate itself, and a harmless one
    "wrong_by_its_own_answer": ("n + FIVE", "n + FIVE + 1", "returns c = omega (arith, c.requires)"),
    "own_answer_that_never_holds": ("    n + 3", "    n + 4", "returns c = c.requires"),
    "harmless_that_brings_an_answer": ("n + FIVE", "FIVE + n", "returns c = omega (arith, c.requires)"),
    # edits of a constant, which name a function, and of contracts: of a law, and of a function that others call
    "constant_wrong": ("u64 = 5;", "u64 = 6;", None, "five_more"),
    "harmless_constant": ("u64 = 5;", "u64 = 2 + 3;", None, "five_more"),
    "law_wrong": ("n < n + 1 }", "n < n }", "returns"),
    "harmless_law": ("n < n + 1 }", "n < n + 2 }"),
    "called_contract_wrong": ("{ result ≡ n + 3 }", "{ result ≡ n + 2 }"),
}
# the edits that are not in a file of their own, which has their name
GROUPS = {"callee_wrong": "src.lib", "text_taken_by_one_above": "src.lib"}
REFUSED = {"callee_wrong", "other_word_wrong", "block_wrong", "wrong_by_its_answer", "wrong_by_another_goal", "wrong_by_its_own_answer"}
REFUSED |= {"constant_wrong", "law_wrong", "called_contract_wrong", "wrong_over_a_contract"}
# a crate of the same name in which a wrong body is the right one
OTHER = CRATE.replace("n + 2 }\n{\n    let", "n + 4 }\n{\n    let").replace("n + 1 }\n{\n    n + 1", "n + 2 }\n{\n    n + 2")
# proves the crate of the folder where it runs, and keeps that work
KEEP = """import sys, wrong_bodies as it
sys.exit(not it.Crate("sums", {"sums": []}, it.ROOT, it.kit_folder()).check([], str(it.ROOT / "kept")).is_proved)"""


def lines_of(edit):
    """The lines of an edit that name a goal and a function, where it names them."""
    return "".join(f"{word}: {it}\n" for word, it in zip(("goal", "function"), edit[2:]) if it)


def kept_from(text):
    """A folder with what checks keep of a crate with this text, to be removed."""
    folder = tempfile.mkdtemp()
    root = pathlib.Path(folder)
    lay_out(root, text)
    subprocess.run([sys.executable, "-c", KEEP], cwd=root / "tools", check=True)
    return root


def lay_out(root, text):
    """Makes a repository of one crate with this text."""
    for it in ("tools", "crates/sums/src", "crates/sums/must-fail", *(f"crates/sums/proofs/{it}" for it in ANSWERS)):
        (root / it).mkdir(parents=True)
    shutil.copy(TOOL, root / "tools")
    (root / "crates.txt").write_text("sums:\n")
    (root / "crates/sums/src/lib.rt").write_text(text)
    (root / "crates/sums/proofs/Lib.antt").write_text("")
    for folder, answers in ANSWERS.items():
        (root / "crates/sums/proofs" / folder / "Answers.antt").write_text(answers)


def said(text, edits, gate=None, kept=None):
    """What the tool says of a crate with this text and these edits, by the name of each edit, and its status; beside a gate where its log
    is given, and over what was kept in a folder where there is one."""
    with tempfile.TemporaryDirectory() as name:
        root = pathlib.Path(name)
        crate = root / "crates/sums"
        lay_out(root, text)
        for it, edit in edits.items():
            group = crate / f"must-fail/{GROUPS.get(it, it)}.edit"
            above = group.read_text() if group.exists() else "file: src/lib.rt\n"
            group.write_text(f"{above}\nname: {it}\n{lines_of(edit)}old: {edit[0]}\nnew: {edit[1]}\n")
        words = [root / "tools/wrong_bodies.py", "--times"]
        if kept:
            shutil.copytree(kept / "kept", crate / "out/incremental")
            words += ["--kept"]
        if gate:
            (root / "gate.log").write_text(gate)
            (root / "gate.status").write_text("0")
            words += ["--built", root, "--gate", root / "gate.log"]
        ran = subprocess.run(words, capture_output=True, text=True)
    lines = [it.removeprefix("wrong body: sums ").split(": ", 1) for it in ran.stdout.splitlines() if it.startswith("wrong body: ")]
    return {it[0]: it[-1] for it in lines}, ran.returncode, ran.stdout + ran.stderr


def main():
    tried, status, output = said(CRATE, EDITS)
    results = {f"{it} is {'refused' if it in REFUSED else 'named'}": tried.get(it, "").startswith("refused") == (it in REFUSED) for it in EDITS}
    results["each edit has a line"] = EDITS.keys() <= tried.keys()
    results["the status is 1"] = status == 1
    results["what is called is taken at its contract"] = "at their contracts" in output
    wrong, status, _ = said(CRATE.replace("    n + 3", "    n + 4"), {"callee_wrong": EDITS["callee_wrong"]})
    results["a crate that is not proved is named"] = status == 1 and any("without an edit" in it for it in wrong)
    kept = "rt: sums is kept: an earlier run on this machine proved the same files over the same libraries\n"
    over, status, _ = said(CRATE, {"callee_wrong": EDITS["callee_wrong"]}, kept)
    results["a crate that the gate keeps is tried, and one refused edit is well"] = status == 0 and over.keys() == {"callee_wrong"}
    lost, status, _ = said(CRATE, {"callee_wrong": EDITS["callee_wrong"]}, "rt: sums NOT PROVED\n")
    results["a named goal is what refuses"] = "`returns`" in tried.get("wrong_by_its_answer", "")
    results["a crate that the gate does not prove is named"] = status == 1 and any("without an edit" in it for it in lost)
    other = kept_from(OTHER)
    for it in (other / "kept").rglob("*three_more*.oantt"):
        it.write_bytes(b"no checked file")
    few = {it: EDITS[it] for it in ("callee_wrong", "harmless_caller", "wrong_by_its_answer")}
    over, status, more = said(CRATE, few, kept=other)
    well = {it for it, why in over.items() if why.startswith("refused")}
    results["over what was kept of another crate the same is refused"] = over.keys() == few.keys() and well == few.keys() & REFUSED
    shutil.rmtree(other)
    for name, is_well in results.items():
        print(f"{name}: {'passed' if is_well else 'FAILED'}")
    if not all(results.values()):
        print(output, more)
    print(f"{sum(results.values())} passed, {len(results) - sum(results.values())} failed")
    return 0 if all(results.values()) else 1


if __name__ == "__main__":
    sys.exit(main())
