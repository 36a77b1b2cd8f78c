#!/usr/bin/env python3
"""Runs the program `gawerunoa` on mistakes and on questions, and sees what it says.

    tools/gawerunoa_cases.py [PROGRAM]

PROGRAM is crates/gawerunoa/out/gawerunoa, which `rt ci` leaves, if none is named. Where that is not there, the program is compiled with
run-time checks and no proof, which takes some minutes and wants gcc.

crates/gawerunoa/cases.json has what is typed and what is said: the words behind the program's name as a shell takes them, standard input,
files with their texts, the exit status, and the text on standard output for a status of 0 or 1, else on standard error. Of what is said of
words that the program does not take, the usage behind it is left out; of a help's text each line of `says` must be there. With "to", the
shell's redirection of the run. A byte above 127 in a text stands for itself.

Then roots and proofs of snapshots of both families and both digest functions, over each size of a chunk, are computed from the definitions
by tools/definitions.py. The program must print the same, say yes to the proofs of active operations and of ranges, and no to those of others,
to a proof with a byte changed, to another root and to another location. So it is with the values and the absences of databases of each kind of
keys and each encoding of values, where every answer is the definitions'. Proofs are taken apart, the strings that their checks hash are
hashed (tools/path_cases.py), copies are taken from peers (tools/copy_cases.py), lines have ten megabytes, and pipes are closed.
Then all these checks are the lines of one file, and crates/gawerunoa/gawerunoa.1 must be the page that tools/manual.py makes of the help.

The last line is 'N runs, M of them wrong'; the status is 1 where M is not 0.
"""
import json
import os
import pathlib
import random
import shlex
import subprocess
import sys
import tempfile

import definitions
import manual
import unproved
from copy_cases import copies
from key_questions import KINDS, Database, question
from path_cases import path
from tries import Try

ROOT = pathlib.Path(__file__).resolve().parent.parent
CRATE = "gawerunoa"
CASES = ROOT / f"crates/{CRATE}/cases.json"
PAGE = ROOT / f"crates/{CRATE}/{CRATE}.1"
SECONDS = 60
# Behind these the usage stands, which is the same for all mistakes of a subcommand.
USAGE = ("\n\nUsage: ", "\n\nFor more information, try ")
SIZES = [2**it for it in range(13)]


# the options whose members are numbers, and those whose members are arrays
NUMBERS, ARRAYS = ("chunk", "at", "start", "max-digests", "value-size"), ("operations", "chunks")


class Program:
    """The program, the runs that it has made, what was wrong with them, and the checks among them as objects, with their right answers."""

    def __init__(self, path):
        self.path, self.runs, self.faults, self.lines = path, 0, [], []

    def check(self, name, asked, given, files, right):
        """Sees what a check says, and keeps it for the lines of a file."""
        self.see(name, self.ended(asked, given, files), right)
        self.lines.append((object_of(asked, given, files or {}), right))

    def ended(self, words, given="", files=None, to=""):
        """How a run ends: its status, what it wrote on standard output, and what on standard error."""
        with tempfile.TemporaryDirectory() as room:
            for name, text in (files or {}).items():
                pathlib.Path(room, name).write_bytes(text.encode("latin-1"))
            command = ["sh", "-c", f'exec "$0" "$@" {to}', self.path, *words] if to else [self.path, *words]
            run = subprocess.run(command, cwd=room, input=given.encode("latin-1"), capture_output=True, timeout=SECONDS)
        return run.returncode, run.stdout.decode("latin-1"), run.stderr.decode("latin-1")

    def see(self, name, ending, right):
        """Counts a run, and notes one that did not end as is right."""
        self.runs += 1
        if ending != right:
            self.faults.append(f"{name}: {ending!r} where {right!r} is right")


def object_of(asked, given, files):
    """The object that asks what the words of a check ask."""
    members = {"check": asked[1]}
    for option, word in zip(asked[2::2], asked[3::2]):
        name = option.removeprefix("--")
        if name in NUMBERS:
            members[name] = int(word)
        elif name in ARRAYS:
            members[name] = files[word].splitlines()
        else:
            members[name] = given.strip() if word == "@-" else word
    return members


def without_usage(text):
    for it in USAGE:
        text = text.partition(it)[0]
    return text.removesuffix("\n")


def typed(program, case):
    """Sees one case of the file."""
    words, status = shlex.split(case["typed"]), case["status"]
    found, output, errors = program.ended(words, case.get("input", ""), case.get("files"), case.get("to", ""))
    said, silent = (output, errors) if status < 2 else (errors, output)
    said = without_usage(said) if status >= 2 else said.removesuffix("\n")
    if isinstance(case["says"], list):
        lines = said.splitlines()
        said = [it for it in case["says"] if it in lines]
    program.see(f"{case['typed']}", (found, said, silent), (status, case["says"], ""))


def snapshots(program, hashes, seed=5):
    """Roots, proofs and checks of snapshots, over each size of a chunk."""
    dice = random.Random(seed)
    for name in hashes:
        for family in (definitions.MMR, definitions.MMB):
            for size in SIZES:
                count = dice.choice([1, 2, 7, 8 * size, 8 * size + 3, 24 * size + 1]) if size < 16 else dice.randrange(1, 40)
                operations = [dice.randbytes(dice.randrange(1, 40)) for _ in range(count)]
                bits = "".join(dice.choice("01") for _ in range(count))
                floor, at = dice.randrange(count + 1), dice.randrange(count)
                snapshot = definitions.Snapshot(definitions.Digests(name), family, operations, bits, floor, size)
                shown(program, name, snapshot, bits, at)


def shown(program, name, snapshot, bits, at):
    """What is printed of a snapshot, and what a check says of its proof of one operation."""
    words = ["--family", snapshot.family.name, "--hash", name, "--chunk", str(snapshot.size)]
    floor, root, proof = str(snapshot.floor), snapshot.root.hex(), snapshot.operation_proof(at).hex()
    text = "".join(f"{bit} {it.hex()}\n" for bit, it in zip(bits, snapshot.operations))
    program.see(f"root {words}", program.ended(["root", *words, "--floor", floor, "-"], text), (0, f"root: {root}\n", ""))
    answer = (0, f"root: {root}\nproof: {proof}\n", "")
    asked = ["prove", *words, "--floor", floor, "--at", str(at), "operations.txt"]
    program.see(f"prove {words}", program.ended(asked, "", {"operations.txt": text}), answer)
    path(program, snapshot, "operation", snapshot.operation_proof(at), snapshot.operations[at])
    operation, active = snapshot.operations[at].hex(), bits[at] == "1"

    def check(what, yes, root=root, at=at, operation=operation, proof=proof):
        asked = ["check", "operation", *words, "--root", root, "--at", str(at), "--operation", operation, "--proof", "@-"]
        shows = f"that the operation stands at location {at} and is active"
        right = (0, f"yes: {shows.removeprefix('that ')}\n", "") if yes else (1, f"no: this does not show {shows}\n", "")
        program.check(f"check {what} {words}", asked, proof, None, right)

    check("its proof", active)
    if active:
        check("a digit of the root changed", False, root=turned(root))
        check("a byte of the proof changed", False, proof=turned(proof))
        check("another location", False, at=at + 1)
        check("another operation", False, operation=operation + "00")
        check("a byte too many", False, proof=proof + "00")
    ranges(program, words, snapshot, at)


def turned(digits):
    """The same with the last digit changed."""
    return digits[:-1] + "0f"[digits[-1] == "0"]


def ranges(program, words, snapshot, start):
    """What a check says of the own proof of a range."""
    end, width = min(start + 3, snapshot.leaves), snapshot.width
    root, proof = snapshot.root.hex(), snapshot.range_part(start, end).hex()
    operations = [it.hex() for it in snapshot.operations[start:end]]
    chunks = [it.hex() for it in snapshot.chunks[start // width : (end - 1) // width + 1]]

    def check(what, yes, operations=operations, chunks=chunks, proof=proof, root=root, start=start):
        files = {"operations": "".join(f"{it}\n" for it in operations), "chunks": "".join(f"{it}\n" for it in chunks)}
        asked = ["check", "range", *words, "--root", root, "--start", str(start), "--operations", "operations", "--chunks", "chunks"]
        shows = f"{len(operations)} operations stand from location {start} on, and the chunks are theirs"
        right = (0, f"yes: {shows}\n", "") if yes else (1, f"no: this does not show that {shows}\n", "")
        program.check(f"check a range, {what} {words}", [*asked, "--proof", "@-"], proof, files, right)

    check("its proof", True)
    check("a digit of the root changed", False, root=turned(root))
    check("a byte of the proof changed", False, proof=turned(proof))
    check("a byte of an operation changed", False, operations=[turned(operations[0]), *operations[1:]])
    check("a byte of a chunk changed", False, chunks=[*chunks[:-1], turned(chunks[-1])])
    check("a chunk too many", False, chunks=[*chunks, chunks[-1]])
    check("an operation too few", False, operations=operations[1:])


def databases(program, hashes, seed=7):
    """Values and absences of databases of each kind."""
    dice = random.Random(seed)
    for name in hashes:
        for family in (definitions.MMR, definitions.MMB):
            for kind in KINDS:
                for size in dice.sample(SIZES, 2):
                    shape = dice, definitions.Digests(name), family, size, *kind
                    database = Database(*shape)
                    values(program, dice, database)
                    absences(program, dice, database)
                    absences(program, dice, Database.of_nothing(*shape))


def keyed(program, what, database, proof, root, key, value=None):
    """Sees what a check says of a key, which is what the definitions say."""
    snapshot, types = database.snapshot, database.types
    shape, columns = (snapshot.digests, snapshot.family.name, snapshot.size, database.kind), [proof.hex(), database.key(key).hex()]
    if value is None:
        right, shows = definitions.exclusions(*shape, *columns, root, None), "the key has no value"
    else:
        written = database.written(types.value, value).hex()
        right, shows = definitions.key_values(*shape, *columns, written, root, None), "the key has the value"
    said = (0, f"yes: {shows}\n", "") if right == "yes" else (1, f"no: this does not show that {shows}\n", "")
    program.check(f"check {what}, {shows} {database.words}", *question(database, root, proof, key, value), None, said)
    if what == "its proof" and right != "yes":
        program.faults.append(f"the definitions refuse a proof that {shows}: {database.words}")


def values(program, dice, database):
    key = dice.choice([*database.own])
    right = {"root": database.snapshot.root.hex(), "proof": database.value_proof(key), "key": key, "value": database.own[key][0]}
    check = lambda what, **given: keyed(program, what, database, **(right | given))
    alike(check, **right)
    check("a byte of the key changed", key=bytes([key[0] ^ 1]) + key[1:])
    check("another value", value=bytes(it ^ 1 for it in right["value"]) or b"\0")


def absences(program, dice, database):
    least, most = definitions.lengths_of(database.types.key)
    key = next(it for _ in range(99) if (it := dice.randbytes(dice.randint(max(least, 1), most))) not in database.own)
    right = {"root": database.snapshot.root.hex(), "proof": database.absence_proof(key), "key": key}
    check = lambda what, **given: keyed(program, what, database, **(right | given))
    alike(check, **right)
    check("a key that is there, if there is one", key=next(iter(database.own), b"\1" * most))


def alike(check, root, proof, **_):
    """What is tried of each claim about a key."""
    check("its proof")
    check("a digit of the root changed", root=turned(root))
    check("a byte of the proof changed", proof=proof[:-1] + bytes([proof[-1] ^ 1]))
    check("a byte too many", proof=proof + b"\0")


def batches(program):
    """All checks above as the lines of one file, with lines at fault among them."""
    faults = [
        ("", "expected an object of JSON: "),
        ("[]", "expected an object of JSON"),
        ("{}", "--check: not given"),
        ('{"check":"operations"}', "--family: not given"),
        ('{"check":"operation","Family":"mmr"}', "Family: no option has this name"),
        ('{"check":"operation","family":"mmx"}', "--family: `mmx`: expected one of its values"),
        ('{"check":"operation","family":"mmr","chunk":"1"}', "chunk: expected a number from 0 to 18446744073709551615"),
        ('{"check":"operation","family":"mmr","chunk":3}', f"--chunk: 3: expected a power of two from 1 to {2**59}"),
    ]
    lines = [json.dumps(asked) for asked, _ in program.lines] + [text for text, _ in faults]
    said = [answer.rstrip("\n") for _, (_, answer, _) in program.lines]
    count = len(said)
    for named, source, words in (("lines", "", ["lines"]), ("standard input", "-", ["-", "--json"])):
        text = "".join(f"{it}\n" for it in lines)
        ending = program.ended(["check", "--batch", *words], text, {"lines": text})
        right = said + [f"error: {named}: line {count + number}: {fault}" for number, (_, fault) in enumerate(faults, 1)]
        told = ending[1].splitlines()
        if source:
            right, told = [object_said(it) for it in right], [json.loads(it) for it in told]
        # what is wrong with JSON itself is said in the words of the kit
        told[count] = right[count] if str(told[count]).startswith(str(right[count])[:60]) else told[count]
        program.see(f"check --batch {words}", (ending[0], told, ending[2]), (3, right, ""))


def object_said(line):
    """The object that says what a line says."""
    label, _, said = line.partition(": ")
    return {"error": said} if label == "error" else {"answer": label, "claim": said.removeprefix("this does not show that ")}


def fields(program, hashes, seed=11):
    """The fields of proofs of each kind, over both families and functions: their offsets, bytes and names."""
    dice = random.Random(seed)
    for name in hashes:
        for family in (definitions.MMR, definitions.MMB):
            held = Database(dice, definitions.Digests(name), family, 1, *KINDS[3])
            key, snapshot = next(iter(held.own)), held.snapshot
            location = held.place[key]
            shown = fields_of(snapshot, location)
            start = [("tag", b"\0")]
            value, update = held.value_proof(key), held.absence_proof(b"")
            taken(program, snapshot, "operation", shown, snapshot.operation_proof(location))
            taken(program, snapshot, "range", shown[2:], snapshot.range_part(location, location + 1))
            after = held.key(held.own[key][1])
            taken(program, snapshot, "value", [*shown, ("next key", after)], value)
            path(program, snapshot, "value", value, snapshot.operations[location], after)
            last = max(held.own)
            shown = [*start, *fields_of(snapshot, held.place[last])]
            rest = update[sum(len(it) for _, it in shown) :]
            taken(program, snapshot, "absence", [*shown, ("update or value", rest)], update)
            path(program, snapshot, "absence", update, snapshot.operations[held.place[last]], rest)


def fields_of(snapshot, location):
    """The names and the bytes of the fields of an operation proof."""
    leaves, inactive, proof, pending, partial, ops_root = snapshot.range_proof(location, location + 1)
    slots = [("pending chunk", pending)] * (snapshot.family is definitions.MMB) + [("partial chunk", partial)]
    counts = [("leaves", leaves), ("inactive peaks", inactive), ("number of digests", len(proof))]
    return [
        ("location", definitions.varint(location)),
        ("chunk", snapshot.chunks[location // snapshot.width]),
        *((name, definitions.varint(count)) for name, count in counts),
        *(("digest", it) for it in proof),
        *(part for name, it in slots for part in ([(name, b"\1"), (name, it)] if it else [(name, b"\0")])),
        ("operations root", ops_root),
    ]


def taken(program, snapshot, shows, right, proof):
    words = ["--family", snapshot.family.name, "--hash", snapshot.digests.name, "--chunk", str(snapshot.size), "--shows", shows]
    status, output, errors = program.ended(["inspect", *words, "--json", "-"], proof.hex())
    told = [fields for it in output.splitlines() if "field" in (fields := json.loads(it))]
    offsets = [sum(len(it) for _, it in right[:place]) for place in range(len(right))]
    right = [{"offset": at, "bytes": it.hex(), "field": name} for at, (name, it) in zip(offsets, right)]
    program.see(f"inspect {words}", (status, [{name: it[name] for name in right[0]} for it in told], errors), (0, right, ""))


def hardships(program):
    """Lines of ten megabytes, and a pipe that nobody reads any more."""
    ten, words = 10**7, ["--family", "mmb", "--chunk", "32"]
    operations = [b"\xab" * (ten // 2), b"\1"]
    snapshot = definitions.Snapshot(definitions.Digests("sha256"), definitions.MMB, operations, "11", 0, 32)
    root, proof = snapshot.root.hex(), snapshot.operation_proof(0).hex()
    text = "".join(f"1 {it.hex()}\n" for it in operations)
    program.see("root of a long line", program.ended(["root", *words, "--floor", "0", "-"], text), (0, f"root: {root}\n", ""))
    fault = f"error: standard input: line 2, column {ten + 3}: expected a hexadecimal digit, found `g`\n"
    ending = program.ended(["root", *words, "--floor", "0", "-"], "1 00\n1 " + "a" * ten + "g\n")
    program.see("root of a long line at fault", ending, (3, "", fault))
    asked = ["check", "operation", *words, "--root", root, "--at", "0", "--operation", "@-", "--proof", proof]
    right = (0, "yes: the operation stands at location 0 and is active\n", "")
    program.check("check of a long operation", asked, operations[0].hex(), None, right)
    ending = program.ended(["check", "--batch", "-"], "x" * ten)
    program.see("a long line of no JSON", (ending[0], ending[1][:50], ending[2]), (3, "error: standard input: line 1: expected an object ", ""))
    ending = program.ended(["inspect", *words, "-"], "00" * ten)
    program.see("a long proof", (ending[0], ending[1]), (3, ""))
    for asked, given in (["root", *words, "--floor", "0", "-"], text), (["check", "--batch", "-"], "{}\n" * 9), (["--help"], ""):
        # nobody reads before the program begins: a short text would else be written in time
        reader, writer = os.pipe()
        os.close(reader)
        with open(writer, "wb") as output:
            run = subprocess.run([program.path, *asked], input=given.encode(), stdout=output, stderr=subprocess.PIPE, timeout=SECONDS)
        program.see(f"{asked[0]} into a closed pipe", (run.returncode, run.stderr), (3, b"error: standard output: Broken pipe (os error 32)\n"))


def main():
    with tempfile.TemporaryDirectory() as work:
        path = pathlib.Path(sys.argv[1] if sys.argv[1:] else ROOT / f"crates/{CRATE}/out/{CRATE}").resolve()
        if not sys.argv[1:] and not path.is_file():
            path = pathlib.Path(work, CRATE)
            unproved.program(Try(), CRATE, pathlib.Path(work, "made"), path)
        program = Program(path)
        for case in json.loads(CASES.read_text()):
            typed(program, case)
        snapshots(program, ["sha256", "sha512"])
        databases(program, ["sha256", "sha512"])
        fields(program, ["sha256", "sha512"])
        copies(program, ["sha256", "sha512"], [1, 32])
        hardships(program)
        batches(program)
        program.see("the page of the manual", manual.page(program.path), PAGE.read_text())
    print("".join(f"FAULT {it}\n" for it in program.faults), end="")
    print(f"{program.runs} runs, {len(program.faults)} of them wrong")
    return 1 if program.faults else 0


if __name__ == "__main__":
    sys.exit(main())
