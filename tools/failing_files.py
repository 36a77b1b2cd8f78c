#!/usr/bin/env python3
"""Has calls on files go wrong, one after another, while a stored database makes commits, and sees that each that was answered is kept.

    tools/failing_files.py [PROGRAM]

PROGRAM is crates/stored_tests/out/stored_tests_tests, which `rt ci` leaves, if none is named. Its test `load` stores commits in a file;
where something fails it opens the file again, compares the root with those of its commits, and goes on. The test is run once with nothing
wrong. Then each of its calls that reads, writes, cuts or syncs a file goes wrong in turn, in seven ways.

The call fails, or the disk is full, or one byte is moved: the test must pass. Or the test is killed before the call, or when half of its
bytes are written; or it is killed before it, and what was not synced is lost, or all of that but the last change, as where the power is cut.
What is left is read by Python's sqlite3: the operations and the rows of the commits that were answered, or of one more, with the roots that
tools/database.py computes. And the test, run again with nothing wrong, must go on from there and pass.

Wants a C compiler. The last line is 'N passed, M failed', of these runs; the status is 77 where the program or the compiler is not there.
"""
import collections
import concurrent.futures
import functools
import os
import pathlib
import shutil
import sqlite3
import struct
import subprocess
import sys
import tempfile

from database import Database

ROOT = pathlib.Path(__file__).resolve().parent.parent
SECONDS = 60
NOT_RUN = 77
# The ways of tools/fail_files.c.
FAIL = {"fails": 1, "finds no room": 2, "moves one byte": 3}
KILL = {"is not reached": 4, "is cut short": 5, "finds what was synced": 6, "finds what was synced and the last change": 7}
# What the load has: so many commits, of so many puts and a deletion.
COMMITS, PUTS = 5, 30
# The file has no table before its first two pages are there.
TWO_PAGES = 8192

Ending = collections.namedtuple("Ending", "status output errors calls")
RIGHT = (0, "\ntest result: ok\n", "")


def ended(shim, words, folder, call=0, way=0):
    """How a program ends, run in a folder, whose call of this number goes wrong in this way; and how many calls it made."""
    account = folder / "account"
    account.write_bytes(struct.pack("=QQQ", 0, call, way))
    env = {"PATH": "/usr/bin:/bin", "LANG": "C.UTF-8", "LD_PRELOAD": str(shim), "FAILED_FILES": str(account)}
    how = {"cwd": folder, "env": env, "stdin": subprocess.DEVNULL, "capture_output": True, "timeout": SECONDS}
    try:
        run = subprocess.run(words, **how)
    except subprocess.TimeoutExpired:
        return Ending(None, "", f"no end after {SECONDS} seconds", 0)
    output, errors = run.stdout.decode(errors="replace"), run.stderr.decode(errors="replace")
    return Ending(run.returncode, output, errors, struct.unpack("=QQQ", account.read_bytes())[0])


def load():
    """The operations and the rows of commits before and after each commit of the load."""
    database, rows = Database("mmr", 1), []
    yield [], []
    for number in range(COMMITS):
        for it in range(PUTS):
            database.put(bytes([0, 0, 0, (3 * it + 7 * number) % 64]), number)
        database.delete(bytes([0, 0, 0, number]))
        database.commit()
        last = database.last
        rows.append((number, last.location, last.snapshot.floor, last.snapshot.root))
        yield [*enumerate(database.operations)], [*rows]


@functools.cache
def states():
    return [*load()]


def tables(path):
    """The operations and the commits that sqlite3 reads in a file; none where no table was made yet."""
    try:
        with sqlite3.connect(path) as conn:
            if not conn.execute("SELECT count(*) FROM sqlite_schema").fetchone()[0]:
                return [], []
            operations = conn.execute("SELECT location, bytes FROM operations ORDER BY location").fetchall()
            return operations, conn.execute("SELECT number, location, floor, root FROM commits ORDER BY number").fetchall()
    except sqlite3.DatabaseError:
        if path.stat().st_size < TWO_PAGES:
            return [], []
        raise


def fault_of_files(folder):
    """What is wrong with the files that a load left; None if nothing is."""
    marks = folder / "answered"
    answered = marks.stat().st_size if marks.is_file() else 0
    if not (folder / "a.db").is_file():
        return f"no file where {answered} commits were answered" if answered else None
    with tempfile.TemporaryDirectory() as room:
        # a copy, since sqlite3 writes too
        copy = pathlib.Path(shutil.copytree(folder, pathlib.Path(room, "copy")))
        try:
            found = tables(copy / "a.db")
        except sqlite3.Error as error:
            return f"sqlite3: {error}"
    if found not in states()[answered : answered + 2]:
        return f"sqlite3 reads {len(found[0])} operations and {len(found[1])} commits where {answered} were answered"
    return None


def fault_of_ending(ending):
    """What is wrong with a test that should pass; None if nothing is."""
    return None if ending[:3] == RIGHT else f"status {ending.status}, wrote {ending.output[:200]!r} and {ending.errors[:300]!r}"


def fault(shim, words, case):
    """What is wrong with a run whose call of a number goes wrong, and with what follows; None if nothing is."""
    call, way = case
    with tempfile.TemporaryDirectory() as room:
        room = pathlib.Path(room)
        ending = ended(shim, words, room, call, (FAIL | KILL)[way])
        if way in FAIL:
            wrong = fault_of_ending(ending)
        elif ending.status != -9:
            wrong = f"it was not killed: {fault_of_ending(ending)}"
        else:
            files = room / "stored_load"
            wrong = fault_of_files(files) if files.is_dir() else None
            if not wrong:
                if files.is_dir():
                    files.rename(room / "stored_left")
                wrong = fault_of_ending(ended(shim, words, room))
    return wrong and f"call {call} {way}: {wrong}"


def compiled_shim(room):
    """The shim that lets calls go wrong, built in a folder; None where it can't be built."""
    shim = pathlib.Path(room, "fail_files.so")
    flags = ["-std=gnu11", "-O2", "-Wall", "-Wextra", "-shared", "-fPIC"]
    try:
        subprocess.run([os.environ.get("CC", "cc"), *flags, "-o", shim, ROOT / "tools/fail_files.c", "-ldl"], check=True)
    except (OSError, subprocess.CalledProcessError) as error:
        print(f"nothing goes wrong: {error}")
        return None
    return shim


def test_of_load(program):
    """The words that run the test of the load."""
    listed = subprocess.run([program, "--list"], stdout=subprocess.PIPE, text=True, check=True).stdout.splitlines()
    (name,) = (it[: -len(": test")] for it in listed if "load::" in it)
    return [program, name]


def main():
    program = pathlib.Path(sys.argv[1] if sys.argv[1:] else ROOT / "crates/stored_tests/out/stored_tests_tests").resolve()
    if not program.is_file():
        print(f"{program} is not there: nothing was run")
        return NOT_RUN
    # two for each processor, since a process that ends is waited for
    workers = 2 * len(os.sched_getaffinity(0))
    with tempfile.TemporaryDirectory() as room, concurrent.futures.ProcessPoolExecutor(workers) as pool:
        shim = compiled_shim(room)
        if shim is None:
            return NOT_RUN
        words = test_of_load(program)
        whole = ended(shim, words, pathlib.Path(room))
        wrong = fault_of_ending(whole) or (None if whole.calls else "no call was seen")
        if wrong:
            print(f"FAULT nothing goes wrong: {wrong}\n0 passed, 1 failed")
            return 1
        cases = [(call + 1, way) for call in range(whole.calls) for way in FAIL | KILL]
        faults = [it for it in pool.map(functools.partial(fault, shim, words), cases, chunksize=4) if it]
    print("".join(f"FAULT {it}\n" for it in faults), end="")
    print(f"{whole.calls} calls on files, each of which goes wrong in {len(FAIL | KILL)} ways")
    print(f"{len(cases) - len(faults)} passed, {len(faults)} failed")
    return int(bool(faults))


if __name__ == "__main__":
    sys.exit(main())
