#!/usr/bin/env python3
"""Refuses memory to the built tests and programs, and sees that each answer is the right one or want of memory.

    tools/refused_memory.py [CRATE..]

Takes what `rt ci` left: the tests of each crate that has some, and the programs `stateproof`, `gawerunoa`, `replay` and `benchmarks`; or of
the named crates alone. A case is a test, a command of `stateproof` or `gawerunoa`, a line for `replay`, or for `benchmarks` the shortest line
of each kind of its rows, and those of its work `commands`. Of the lines for `replay` that are of a worked row, which begin with its name and a
colon, all of each list are taken where they are at most LINES_OF_ROW or the row is one of WHOLE, else LINES of them and those that ALSO names;
of the others LINES of each list. A case is run once with all memory that it asks for, and must give the right answer. Then each of its requests
for memory is refused in turn: once alone, and once with all that come after it. Such a run must give the right answer too, or name want of
memory, and write nothing else.

So each request is refused of a line of a row of WHOLE, of a test or a line of another worked row that makes at most EACH_OF_ROW, and of any
other case that makes at most EACH. Where they are more the first EACH are refused, and SPREAD of the others, spread evenly up to the last;
a line says of how many cases of which rows and lists. The last line is 'N cases, M refusals, F faults'. A fault has a line of its own.
The status is 0 where there is no fault, 1 where there is one, and 77 where nothing could be refused here, since there is no C compiler or
a program is not given the shim.
"""
import collections
import concurrent.futures
import functools
import itertools
import json
import os
import pathlib
import random
import re
import resource
import struct
import subprocess
import sys
import tempfile

import database
import definitions
from key_questions import KINDS, Database, question

ROOT = pathlib.Path(__file__).resolve().parent.parent

EACH = 250
EACH_OF_ROW = 1500
SPREAD = 50
LINES = 8
LINES_OF_ROW = 24
# Rows of which each line is taken, and each request of a line is refused.
WHOLE = {"altered_and_truncated:", "mmb_zero_chunks:"}
# Further lines of rows with more than so many: a bitmap of 20 bits.
ALSO = {"bitmap_every_length:": re.compile(r",p:[01]{20},")}
# The word before the list of a line whose digests are not those of SHA-256.
OTHER_HASH = "sha512"
SECONDS = 60
NOT_RUN = 77
LAST = 2**64 - 1

# Want of memory as it is printed, alone or within the errors of the layers above.
WANT = r"(\w+\()*(AllocError|AllocFailed \{ \.\. \}|NoMemory|OutOfMemory|Memory)\)*"

# What a test writes that returns an error, one that is ended by it, and one that was given another answer than it expected.
RETURNED = re.compile(rf"error: {WANT}\n.*\n")
ENDED = re.compile(rf"error: {WANT}\n")
ANSWERED = re.compile(rf"assertion `left == right` failed(: .*)?\n  left: {WANT}\n right: .*\n")
STOPPED = re.compile(r"\ntest stopped at .*\n")

Ending = collections.namedtuple("Ending", "status output errors requests")
Case = collections.namedtuple("Case", "name words given right is_want each", defaults=[EACH])


def built(tree, crate, end=""):
    """What `rt ci` built of a crate in a tree: the program, or with the end `_tests` its tests."""
    path = tree / f"crates/{crate}/out/{crate}{end}"
    if not path.is_file():
        raise SystemExit(f"crates/{crate} is not built: run rt ci first")
    return path


def ended(shim, words, given="", first=0, last=0):
    """How a program ends whose requests for memory from `first` to `last`, counted from 1, are refused. It runs in a folder of this
    process, beside the shim."""
    folder = shim.parent / f"{os.getpid()}"
    folder.mkdir(exist_ok=True)
    account = folder / "account"
    account.write_bytes(struct.pack("=QQQ", 0, first, last))
    # from a file, since how much comes at once from a pipe is not always the same
    standard_input = folder / "input"
    standard_input.write_text(given)
    env = {"PATH": "/usr/bin:/bin", "LANG": "C.UTF-8", "LD_PRELOAD": str(shim), "REFUSED_MEMORY": str(account)}
    how = {"cwd": folder, "env": env, "capture_output": True, "timeout": SECONDS}
    try:
        with standard_input.open() as source:
            run = subprocess.run(words, stdin=source, **how)
    except subprocess.TimeoutExpired:
        return Ending(None, "", f"no end after {SECONDS} seconds", 0)
    output, errors = run.stdout.decode(errors="replace"), run.stderr.decode(errors="replace")
    return Ending(run.returncode, output, errors, struct.unpack("=QQQ", account.read_bytes())[0])


def is_want_of_test(ending):
    """Whether a test ended, and named want of memory as its error or as the answer that it was given."""
    if ending.status == 101:
        return ending.output == "" and bool(RETURNED.fullmatch(ending.errors))
    is_named = ENDED.fullmatch(ending.errors) or ANSWERED.fullmatch(ending.errors)
    return ending.status == -6 and bool(is_named and STOPPED.fullmatch(ending.output))


def tests(shim, tree, crate):
    """A case for each test of a crate."""
    program = built(tree, crate, "_tests")
    listed = ended(shim, [program, "--list"]).output.splitlines()
    names = [line[: -len(": test")] for line in listed if line.endswith(": test")]
    if listed[-1:] != [f"tests: {len(names)}"]:
        raise SystemExit(f"{crate} did not list its tests")
    for name in names:
        yield Case(name, [program, name], "", (0, "\ntest result: ok\n", ""), is_want_of_test, EACH_OF_ROW)


def is_want_of_command(ending):
    """Whether `stateproof` answered nothing but that it wants memory."""
    return ending[:3] == (2, "", "stateproof: memory\n")


OPERATIONS = "".join(f"{int(i % 3 == 1)} {'ab' * (i + 1)}\n" for i in range(11))
STEPS = ["put 00000005 7", "put 00000009 8", "absence 00000007", "commit", "value 00000005", "absence 00000007"]
STEPS += ["delete 00000009", "delete 00000005", "commit", "absence 00000005", "value 00000005"]


def commands(shim, tree):
    """Roots, proofs, checks and databases of `stateproof`, over both families and both chunk sizes."""
    program = built(tree, "stateproof")
    for family, size in itertools.product(("mmr", "mmb"), ("1", "32")):
        proved = ended(shim, [program, "prove", family, size, "0", "7"], OPERATIONS).output
        root, proof = proved.split()
        shape = f"{family} {size}"
        steps = "".join(f"{it}\n" for it in STEPS)
        for line, given, right in [
            (f"root {shape} 0", OPERATIONS, (0, f"{root}\n", "")),
            (f"prove {shape} 0 7", OPERATIONS, (0, proved, "")),
            (f"check {shape} {root} 7", f"{'ab' * 8}\n{proof}\n", (0, "yes\n", "")),
            (f"check {shape} {root} 7", f"{'ab' * 9}\n{proof}\n", (1, "no\n", "")),
            (f"check {shape} {root} 7", f"{'ab' * 8}\n{proof}0\n", (2, "", "stateproof: line 2\n")),
            (f"root {shape} 12", OPERATIONS, (2, "", "stateproof: range\n")),
            (f"db {shape}", steps, (0, database.answers(family, int(size), STEPS), "")),
            (f"db {shape}", f"{steps}puts\n", (2, "", f"stateproof: line {len(STEPS) + 1}\n")),
        ]:
            yield Case(line, [program, *line.split()], given, right, is_want_of_command)


def is_want_of_question(ending):
    """Whether `gawerunoa` answered nothing but that it wants memory."""
    return ending[:3] == (4, "", "error: out of memory\n")


def questions(shim, tree):
    """Proofs, checks and copies of `gawerunoa`, over both families and two chunk sizes, which its cases compare with the definitions, and its
    help; and checks of keys over each kind of a database."""
    program = built(tree, "gawerunoa")
    asked = [(["--help"], "")]
    for family, size in itertools.product(("mmr", "mmb"), ("1", "32")):
        shape = ["--family", family, "--chunk", size]
        words = ["prove", *shape, "--floor", "0", "--at", "7", "-"]
        shown = dict(line.split(": ") for line in ended(shim, [program, *words], OPERATIONS).output.splitlines())
        check = ["check", "operation", *shape, "--root", shown["root"], "--at", "7", "--operation", "ab" * 8, "--proof", "@-"]
        asked += [(words, OPERATIONS), (check, f"{shown['proof']}\n"), ([*check, "--floor"], "")]
        line = {"check": "operation", "family": family, "chunk": int(size), "at": 7, "operation": "ab" * 8, **shown}
        asked += [(["check", "--batch", "-"], json.dumps(line)), (["check", "--batch", "-", "--json"], json.dumps(line | {"hash": "sha1"}))]
        asked += copied(program, shim.parent, shape, shown["root"])
        asked += [(["inspect", *shape, "--svg", os.devnull, "-"], shown["proof"])]
    asked += key_questions()
    for words, given in asked:
        right = ended(shim, [program, *words], given)[:3]
        yield Case(" ".join(words), [program, *words], given, right, is_want_of_question)


def copied(program, room, shape, root):
    """The words and the input of who serves a page, and of who asks two peers, of which one sends none."""
    operations, pages = room / "operations", room / f"{'-'.join(shape[1::2])}.pages"
    operations.write_text(OPERATIONS)
    words, request = ["sync", "serve", *shape, "--floor", "0", str(operations)], "\0" * 7 + "\2\0\x7f"
    pages.write_bytes(subprocess.run([program, *words], input=request.encode(), capture_output=True, check=True).stdout)
    yield words, request
    peers = ["--peer", f"{os.devnull},{os.devnull}", "--peer", f"{os.devnull},{pages}"]
    for copy in ("-", os.devnull):
        yield ["sync", "ask", *shape, "--root", root, "--floor", "0", *peers, copy], ""


def key_questions():
    """The words and the input of a check of a value, an absence and a range, over each kind of a database."""
    dice, digests = random.Random(3), definitions.Digests("sha256")
    for kind in KINDS:
        held = Database(dice, digests, definitions.MMB, 1, *kind)
        key, root = next(iter(held.own)), held.snapshot.root.hex()
        absent = next(it for byte in range(256) if (it := bytes([byte]) + key[1:]) not in held.own)
        yield question(held, root, held.value_proof(key), key, held.own[key][0])
        yield question(held, root, held.absence_proof(absent), absent)
        side = ["--root", root, "--start", "0", "--operations", "-", "--chunks", os.devnull, "--proof", "00", "--json"]
        yield ["check", "range", *held.words[:6], *side], "".join(f"{it.hex()}\n" for it in held.snapshot.operations)


def is_want_of_line(ending):
    """Whether `replay`, or `benchmarks`, answered nothing but that it wants memory."""
    return ending.status == 1 and ending.output == "" and re.fullmatch(rf"Error: {WANT}\n", ending.errors) is not None


def list_of(line):
    """The worked row of a line, None where it is of none, and the line's list."""
    first, second, third, *_ = f"{line.strip()} - -".split()
    row, words = (first, (second, third)) if first.endswith(":") else (None, (first, second))
    return row, words[words[0] == OTHER_HASH]


def sampled():
    """Lines of each list that `replay` answers, and of each list in each row, with their answers: all where they are few, else ones that
    are evenly spread, the longest one, and those that are named."""
    folder = ROOT / "crates/replay"
    lists = collections.defaultdict(list)
    for given, answer in zip((folder / "stdin").open(), (folder / "stdout").open()):
        lists[list_of(given), f" {OTHER_HASH} " in f" {given}"].append((given, answer))
    for ((row, _), _), cases in lists.items():
        if row and (len(cases) <= LINES_OF_ROW or row in WHOLE):
            yield from cases
            continue
        step = -(-len(cases) // (LINES - 1))
        named = [it for it in cases if row in ALSO and ALSO[row].search(it[0])]
        yield from dict.fromkeys([*cases[::step], max(cases, key=lambda it: len(it[0])), *named])


def lines(tree):
    """A case for each of these lines."""
    for given, answer in sampled():
        row, _ = list_of(given)
        each = LAST if row in WHOLE else EACH_OF_ROW if row else EACH
        yield Case(given.strip(), [built(tree, "replay")], given, (0, answer, ""), is_want_of_line, each)


def shortest_lines():
    """The shortest line of each kind of the rows that `benchmarks` answers, which come before the measured work, and its answer."""
    folder = ROOT / "crates/benchmarks"
    kinds = {}
    for given, answer in zip((folder / "stdin").open(), (folder / "stdout").open()):
        row, _ = list_of(given)
        if not row:
            break
        kind = given.split()[1]
        if kind not in kinds or len(given) < len(kinds[kind][0]):
            kinds[kind] = given, answer
    return kinds


def lines_of_commands():
    """The lines that give commands to a database of `benchmarks`, with their answers."""
    given = [it for it in (ROOT / "crates/benchmarks/stdin").open() if it.startswith("commands ")]
    return [(it, f"{database.answer_to_commands(it)}\n") for it in given]


def lines_of_benchmarks(tree):
    """A case for each of these lines."""
    for given, answer in [*shortest_lines().values(), *lines_of_commands()]:
        yield Case(given.strip(), [built(tree, "benchmarks")], given, (0, answer, ""), is_want_of_line)


def refused(requests, each):
    """The requests that are refused of so many, where of `each` at most all are."""
    others = max(requests - EACH, 0) if requests > each else 0
    spread = min(others, SPREAD)
    return [*range(1, requests - others + 1), *(EACH + others * (i + 1) // spread for i in range(spread))]


def fault(case, ending, first):
    """What is wrong with a run whose requests from `first` on were refused, or none where that is 0; None if nothing is."""
    if ending[:3] == case.right or (first and case.is_want(ending)):
        return None if ending.requests >= first else "it made fewer requests than before"
    return f"status {ending.status}, wrote {ending.output[:200]!r} and {ending.errors[:300]!r}"


def sweep(shim, case):
    """How many requests a case makes, how many refusals there were, how many of them ended in want of memory, the faults, and what the
    case is of where not each request was refused."""
    whole = ended(shim, case.words, case.given)
    wrong = fault(case, whole, 0)
    if wrong:
        return 0, 0, 0, [f"{case.name[:100]}: nothing refused: {wrong}"], None
    wants, faults, places = 0, [], refused(whole.requests, case.each)
    for first in places:
        for last, what in ((first, "refused"), (LAST, "and all later ones refused")):
            ending = ended(shim, case.words, case.given, first, last)
            wants += case.is_want(ending)
            wrong = fault(case, ending, first)
            if wrong:
                faults.append(f"{case.name[:100]}: request {first} {what}: {wrong}")
    return whole.requests, 2 * len(places), wants, faults, kind_of(case) if len(places) < whole.requests else None


def kind_of(case):
    """The row and the list of a line, or the first word of a command, or a test."""
    return " ".join(filter(None, list_of(case.name)))


def told(crate, swept):
    """The lines of a crate: its cases, requests, refusals and answers, and of which cases not each request was refused."""
    requests, refusals, wants = (sum(column) for column in list(zip(*swept))[:3])
    cut = collections.Counter(it[4] for it in swept if it[4])
    some = f"{crate}: not each request of {', '.join(f'{count} of {it}' for it, count in sorted(cut.items()))}"
    return [f"{crate}: {len(swept)} cases, {requests} requests, {refusals} refusals: {wants} wanted memory", *[some][: len(cut)]]


def cases_of(shim, tree, crate):
    """All cases of a crate, of what is built of it in a tree."""
    if crate == "stateproof":
        return [*commands(shim, tree)]
    if crate == "gawerunoa":
        return [*questions(shim, tree)]
    if crate == "replay":
        return [*lines(tree)]
    if crate == "benchmarks":
        return [*lines_of_benchmarks(tree)]
    sources = (ROOT / f"crates/{crate}/src").rglob("*.rt")
    return [*tests(shim, tree, crate)] if any("#[test]" in it.read_text() for it in sources) else []


def compiled_shim(room):
    """The shim that refuses memory, built in a folder."""
    shim = pathlib.Path(room, "refuse_memory.so")
    flags = ["-std=gnu11", "-O2", "-Wall", "-Wextra", "-shared", "-fPIC"]
    subprocess.run([os.environ.get("CC", "cc"), *flags, "-o", shim, ROOT / "tools/refuse_memory.c", "-ldl"], check=True)
    return shim


def made_shim(room, tree):
    """The same; None where it can't be built, or where the tree's program runs without it."""
    try:
        shim = compiled_shim(room)
    except (OSError, subprocess.CalledProcessError) as error:
        print(f"nothing is refused: {error}")
        return None
    if ended(shim, [built(tree, "stateproof"), "root", "mmr", "1", "0"], OPERATIONS).requests:
        return shim
    print("nothing is refused: the shim saw no request for memory")
    return None


def main():
    resource.setrlimit(resource.RLIMIT_CORE, (0, 0))
    total = [0, 0, 0]
    # two for each processor, since a process that ends is waited for
    workers = 2 * len(os.sched_getaffinity(0))
    with tempfile.TemporaryDirectory() as room, concurrent.futures.ProcessPoolExecutor(workers) as pool:
        shim = made_shim(room, ROOT)
        if shim is None:
            return NOT_RUN
        for crate in sys.argv[1:] or sorted(it.name for it in (ROOT / "crates").iterdir()):
            cases = cases_of(shim, ROOT, crate)
            if not cases:
                continue
            swept = [*pool.map(functools.partial(sweep, shim), cases)]
            faults = [fault for it in swept for fault in it[3]]
            if not any(it[0] for it in swept):
                faults.append("no request for memory was seen")
            print("\n".join([*told(crate, swept), *(f"FAULT {crate} {it}" for it in faults)]), flush=True)
            total = [total[0] + len(cases), total[1] + sum(it[1] for it in swept), total[2] + len(faults)]
    print("{} cases, {} refusals, {} faults".format(*total))
    return 1 if total[2] else 0


if __name__ == "__main__":
    sys.exit(main())
