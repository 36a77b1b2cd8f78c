#!/usr/bin/env python3
"""Runs the built program `stateproof` where what it reads or writes fails, on very long input, and with too little memory.

    tools/program_faults.py [PROGRAM]

PROGRAM is crates/stateproof/out/stateproof, which `rt ci` leaves, if none is named. Standard output and error are closed or full,
standard input is closed, a directory, or ends in the middle of a line; there are a million lines, and lines of ten megabytes; and the
address space is limited (`ulimit -v`) at STEPS steps, from the least limit at which the program says how it is used to one that is
enough. Each run must end with the status and the texts that are documented, or want memory where it is limited, and never by a signal.
The roots of a million operations are computed here, from the definitions, and what a database answers by tools/database.py. The last
line is 'N runs, M of them wrong'; the status is 1 where M is not 0, and 77 where the program is not there.
"""
import hashlib
import pathlib
import subprocess
import sys
import tempfile

import database

ROOT = pathlib.Path(__file__).resolve().parent.parent
STEPS = 40
SECONDS = 120
NOT_RUN = 77
MILLION = 1_000_000
MANY_STEPS = 100_000
TEN_MEGABYTES = 10_000_000

USAGE, INPUT, MEMORY = ((2, "", f"stateproof: {it}\n") for it in ("usage", "input", "memory"))
# A run whose output fails, whatever it is: nothing more is written.
UNWRITTEN = (2, "", "")


def line(number):
    """What a run ends with whose input has a bad line."""
    return 2, "", f"stateproof: line {number}\n"


def be8(number):
    return number.to_bytes(8, "big")


def digest(*parts):
    return hashlib.sha256(b"".join(parts)).digest()


class Family:
    """A family of trees: the heights of its peaks, and the positions of its nodes."""

    def __init__(self, byte):
        self.byte = byte

    def peaks(self, leaves):
        """The heights of the peaks, from left to right."""
        if self.byte == 0:
            return [it for it in reversed(range(leaves.bit_length())) if leaves >> it & 1]
        return [it + (leaves + 1 >> it & 1) for it in reversed(range((leaves + 1).bit_length() - 1))]

    def size(self, leaves):
        if self.byte == 0:
            return 2 * leaves - leaves.bit_count()
        return 2 * leaves - (leaves + 1).bit_length() + 1

    def position(self, first, height):
        if height == 0:
            return self.size(first)
        if self.byte == 0:
            return self.size(first) + 2 ** (height + 1) - 2
        return self.size(first + 3 * 2 ** (height - 1) - 1) - 1


class Snapshot:
    """Operations with their activity bits, in chunks of so many bytes, with floor 0."""

    def __init__(self, family, size, operations, bits):
        self.family, self.operations, self.count = family, operations, len(operations)
        self.height, width = (8 * size).bit_length() - 1, 8 * size
        chunks = [bits[it : it + width].ljust(width, "0")[::-1] for it in range(0, self.count, width)]
        self.chunks = [int(it, 2).to_bytes(size, "little") for it in chunks]
        self.complete, self.rest = divmod(self.count, width)

    def peaks(self):
        """The digests of the peaks, over the operations alone and with the chunks grafted, and how many chunks are grafted."""
        plain, grafted, chunks, first = [], [], 0, 0
        for height in self.family.peaks(self.count):
            both = self.node(first, height)
            plain.append(both[0])
            grafted.append(both[1])
            first += 2**height
            chunks += 2 ** (height - self.height) if height >= self.height else 0
        return plain, grafted, chunks

    def node(self, first, height):
        """The digests of a node, over the operations alone and with the chunks grafted."""
        place = be8(self.family.position(first, height))
        if height == 0:
            plain = digest(place, self.operations[first])
            return plain, plain
        left, right = self.node(first, height - 1), self.node(first + 2 ** (height - 1), height - 1)
        plain = digest(place, left[0], right[0])
        if height < self.height:
            return plain, plain
        grafted = digest(place, left[1], right[1])
        chunk = self.chunks[first >> self.height] if height == self.height else b""
        return plain, digest(chunk, grafted) if any(chunk) else grafted

    def tree_root(self, peaks):
        bagged = peaks[-1]
        for it in reversed(peaks[:-1]):
            bagged = digest(it, bagged)
        return digest(bytes([self.family.byte, 1]), be8(self.count), be8(0), bagged)

    def root(self):
        """The canonical root, in hexadecimal."""
        plain, grafted, chunks = self.peaks()
        parts = [self.tree_root(plain), self.tree_root(grafted)]
        if chunks < self.complete:
            parts.append(digest(self.chunks[chunks]))
        if self.rest:
            parts.append(be8(self.rest) + digest(self.chunks[-1]))
        return digest(*parts).hex()


class Program:
    """The program, the runs that it has made, and what was wrong with them."""

    def __init__(self, path, room):
        self.path, self.room, self.runs, self.faults = path, room, 0, []

    def file(self, text):
        """The path of a file with a text."""
        path = self.room / f"{len([*self.room.iterdir()])}"
        path.write_bytes(text)
        return path

    def ended(self, words, source="/dev/null", kilobytes=None, redirection=""):
        """How a run ends that reads from a file or folder, with another redirection of a shell, or with a limit of address space."""
        limit = f"ulimit -v {kilobytes} && " if kilobytes else ""
        script = f'{limit}exec "$@" <"$0" {redirection}'
        command = ["sh", "-c", script, source, self.path, *words.split()]
        try:
            run = subprocess.run(command, capture_output=True, timeout=SECONDS)
        except subprocess.TimeoutExpired:
            return None, "", f"no end after {SECONDS} seconds"
        return run.returncode, run.stdout.decode(errors="replace"), run.stderr.decode(errors="replace")

    def see(self, name, ending, *right):
        """Counts a run, and notes one that does not end with one of some endings."""
        self.runs += 1
        if ending not in right:
            status, output, errors = ending
            self.faults.append(f"{name}: status {status}, wrote {output[:100]!r} and {errors[:200]!r}")

    def run(self, name, words, text, right, redirection=""):
        """Sees a run on a text."""
        self.see(f"{words[:40]}: {name}", self.ended(words, self.file(text), redirection=redirection), right)


def text_of(operations, bits):
    """The lines of operations with their bits."""
    return "".join(f"{bit} {it.hex()}\n" for bit, it in zip(bits, operations)).encode()


def asked(program, family, size, operations, bits, location):
    """The words and the input of `root`, `prove` and `check`, and what they answer; the proof is what `prove` wrote."""
    tree, text = f"{'mmb' if family.byte else 'mmr'} {size}", text_of(operations, bits)
    root = Snapshot(family, size, operations, bits).root()
    proved = program.ended(f"prove {tree} 0 {location}", program.file(text))
    proof = proved[1].split("\n")[1] if proved[1].count("\n") == 2 else ""
    claimed = f"{operations[location].hex()}\n{proof}\n".encode()
    answer = (0, "yes\n", "") if bits[location] == "1" else (1, "no\n", "")
    return [
        (f"root {tree} 0", text, (0, f"{root}\n", "")),
        (f"prove {tree} 0 {location}", text, (0, f"{root}\n{proof}\n", "")),
        (f"check {tree} {root} {location}", claimed, answer),
    ]


def stepped(family, size, steps):
    """The words and the input of `db`, and what it answers."""
    name = "mmb" if family.byte else "mmr"
    return f"db {name} {size}", "".join(f"{it}\n" for it in steps).encode(), (0, database.answers(name, size, steps), "")


def puts(count, keys):
    """So many puts, of so many keys in turn."""
    return [f"put {it * 2654435761 % keys:08x} {it}" for it in range(count)]


FEW_STEPS = [*puts(5, 3), "commit", "value 00000001", "absence ffffffff", "delete 00000000", "commit", "absence 00000000"]


def outputs(program, cases):
    """Standard output or error that is closed or full, and standard input that is closed."""
    for words, text, right in cases:
        program.run("nothing fails", words, text, right)
        for redirection in (">&-", ">/dev/full"):
            program.run(f"output {redirection}", words, text, UNWRITTEN, redirection)
            program.run(f"error 2{redirection}", words, text, right, f"2{redirection}")
            program.run(f"a fault, error 2{redirection}", f"{words} 0", text, UNWRITTEN, f"2{redirection}")
            program.run(f"a fault, output {redirection}", f"{words} 0", text, USAGE, redirection)
        program.run("input closed", words, text, INPUT, "<&-")
        program.see(f"{words[:40]}: a directory", program.ended(words, program.room), INPUT)


def cut_lines(program, cases):
    """Input that ends in the middle of a line."""
    (root, text, right), (prove, _, proved), (check, claimed, shown) = cases
    last = text.count(b"\n")
    for words, answer in ((root, right), (prove, proved)):
        program.run("no last line feed", words, text[:-1], answer)
        program.run("half a byte", words, text[:-2], line(last))
        program.run("no digits", words, text[: text[:-1].rindex(b" ") + 1], line(last))
        program.run("a bit alone", words, text[: text[:-1].rindex(b" ")], line(last))
        program.run("half a character", words, text + b"1 \xe2\x82", INPUT)
    program.run("no last line feed", check, claimed[:-1], shown)
    program.run("half a byte", check, claimed[:-2], line(2))
    program.run("no proof", check, claimed[: claimed.index(b"\n")], line(2))
    program.run("half a byte of the operation", check, claimed[: claimed.index(b"\n") - 1], line(1))
    program.run("half a character", check, claimed + b"\xe2\x82", INPUT)


def cut_steps(program, words, text, right):
    """Commands of a database that end in the middle of a line."""
    last = text.count(b"\n")
    program.run("no last line feed", words, text[:-1], right)
    program.run("half a key", words, text[:-2], line(last))
    program.run("no key", words, text[: text.rindex(b" ") + 1], line(last))
    program.run("a word alone", words, text[: text.rindex(b" ")], line(last))
    program.run("half a character", words, text + b"commit \xe2\x82", INPUT)


def long_input(program):
    """A million lines, and lines of ten megabytes."""
    operations = [be8(it) for it in range(MILLION)]
    bits = "011" * (MILLION // 3) + "1"
    for family, size, location in ((MMR, 32, MILLION - 1), (MMB, 1, 0)):
        cases = asked(program, family, size, operations, bits, location)
        for words, text, right in cases:
            program.run("a million lines", words, text, right)
        (root, text, _), _, (check, claimed, _) = cases
        program.run("a bad line after a million", root, text + b"1 0\n", line(MILLION + 1))
        program.run("a million lines too many", check, claimed + text, line(3))
    long = [bytes([7]) * (TEN_MEGABYTES // 2), b"short"]
    for family in (MMR, MMB):
        cases = asked(program, family, 1, long, "11", 0)
        for words, text, right in cases:
            program.run("ten megabytes", words, text, right)
        (root, text, _), _, (check, claimed, _) = cases
        program.run("a bad line of ten megabytes", root, text.replace(b" 07", b" 0g", 1), line(1))
        program.run("no hexadecimal at all", root, b"1 " + b"z" * TEN_MEGABYTES, line(1))
        program.run("a proof of ten megabytes", check, claimed.replace(b"\n", b"\n" + b"07" * (TEN_MEGABYTES // 2), 1), (1, "no\n", ""))


def many_steps(program):
    """Many commands of a database, and one of ten megabytes."""
    for family, size in ((MMR, 32), (MMB, 1)):
        words, text, right = stepped(family, size, [*puts(MANY_STEPS, 8), "commit", "value 00000003", "absence 00000008"])
        program.run("many steps", words, text, right)
        program.run("a bad step after many", words, text + b"commit 1\n", line(MANY_STEPS + 4))
        program.run("a bad step of ten megabytes", words, b"put 00000003 " + b"0" * TEN_MEGABYTES + b"\n" + text, line(1))


def least(low, high, is_enough):
    """The least number of `low + 1` to `high` that is enough, where `high` is."""
    while high - low > 1:
        middle = (low + high) // 2
        low, high = (low, middle) if is_enough(middle) else (middle, high)
    return high


def limits(program, words, text, right):
    """Limits of the address space, from too small to enough."""
    source, most = program.file(text), 2**22
    begins = least(0, most, lambda it: program.ended("", kilobytes=it) == USAGE)
    enough = least(begins - 1, most, lambda it: program.ended(words, source, it) == right)
    name = f"{words[:40]}: {begins} to {enough} kilobytes"
    endings = []
    for step in range(STEPS):
        kilobytes = begins + (enough - begins) * step // (STEPS - 1)
        endings.append(program.ended(words, source, kilobytes))
        program.see(f"{name}: {kilobytes}", endings[-1], right, MEMORY)
    program.see(f"{name}: nothing was refused", (0, "", "") if MEMORY in endings else endings[0], (0, "", ""))
    print(f"{name}, {endings.count(MEMORY)} of {STEPS} wanted memory")


MMR, MMB = Family(0), Family(1)


def main():
    path = pathlib.Path(sys.argv[1] if sys.argv[1:] else ROOT / "crates/stateproof/out/stateproof").resolve()
    if not path.is_file():
        print(f"{path} is not there: nothing was run")
        return NOT_RUN
    with tempfile.TemporaryDirectory() as room:
        program = Program(path, pathlib.Path(room))
        few = [bytes([it]) * (it + 1) for it in range(19)]
        for family, size, location in ((MMR, 1, 16), (MMB, 1, 7), (MMR, 32, 4), (MMB, 32, 0)):
            cases = asked(program, family, size, few, "01" * 9 + "1", location)
            steps = stepped(family, size, FEW_STEPS)
            outputs(program, [*cases, steps])
            cut_lines(program, cases)
            cut_steps(program, *steps)
        for family in (MMR, MMB):
            root, prove, _ = asked(program, family, 1, [be8(it) * 16 for it in range(5000)], "01" * 2500, 17)
            _, _, check = asked(program, family, 1, [bytes(500_000), b"short"], "11", 0)
            steps = stepped(family, 32, [*puts(2000, 500), "commit", "value 00000003"])
            for case in (root, prove, check, steps):
                limits(program, *case)
        long_input(program)
        many_steps(program)
    print("".join(f"FAULT {it}\n" for it in program.faults), end="")
    print(f"{program.runs} runs, {len(program.faults)} of them wrong")
    return 1 if program.faults else 0


if __name__ == "__main__":
    sys.exit(main())
