#!/usr/bin/env python3
"""Tests the library for C, from C, over what `rt lib` built of the crate light_c.

    crates/light_c/tests/interface.py [--built TREE] [--kept FOLDER] [--calls N] [--seed S]

With --built the crate is built here, over the libraries that a gate left in TREE. With --kept what is built stays in FOLDER. Each of
these is a part:

1. The header compiles alone, as C11 and as C++17, with all warnings.
2. Its functions are those that the sources export, and those whose names the archive has; its numbers and its struct are the sources'
   own, and the library says the header's version and how it was built.
3. All cases of the lists `program_checks`, `ranges_checks`, `key_values` and `exclusions` of `replay` are answered from C as they say,
   but for claimed bytes that are no whole key or value as it is written: a call is given the bytes of a vector alone.
4. The same cases, asked from C and from C++ by the four calls over a struct of what is agreed.
5. What these refuse of the struct and of what they are given, from Python and from Rust.
6. Two cases of each call over each digest function, with each request for memory refused in turn, alone and with all later ones: the
   answer is the right one or -1, and of each call -1 at least once.
7. N hostile calls over each digest function (200,000 where nothing is said), under the address sanitizer of the caller:
   hostile.c says which.
8. The examples.

A part that fails says why. The last line is 'N passed, M failed'; the status is 0 where none failed, and 77 where there is no gcc.
"""
import argparse
import ctypes
import pathlib
import re
import shutil
import subprocess
import sys
import tempfile

HERE = pathlib.Path(__file__).resolve().parent
ROOT = HERE.parent.parent.parent
sys.path.append(str(ROOT / "tools"))

import c_library
import refused_memory
from cases import cases_of

HEADER = ROOT / "include/gawerunoa.h"
SOURCES = [ROOT / "crates/light_c/src", ROOT / "crates/light_questions/src"]
NOT_RUN = 77
SANITIZER = ["-fsanitize=address,undefined", "-fno-sanitize-recover=all", "-g"]
WARNINGS = ["-Wall", "-Wextra", "-Wpedantic", "-Wconversion", "-Wshadow", "-Werror"]
LANGUAGES = [("gcc", "c", "c11"), ("g++", "c++", "c++17")]
FAMILIES = {"mmr": 0, "mmb": 1}
HASHES = {"sha256": 0, "sha512": 1}
ANSWERS = {"yes": 1, "no": 0}
KEYS = ("key_values", "exclusions")
LISTS = ("program_checks", "ranges_checks", *KEYS)
# how answers.c ends where it lacks memory for the strings of a line
CALLER_LACKS_MEMORY = 4

# what the calls about keys begin with, by the encoding of operations, and by whether keys, and values, are vectors
FORMS = {
    ("ordered-fixed", False, False): "fixed_",
    ("ordered-variable", False, False): "sized_",
    ("ordered-variable", False, True): "",
    ("ordered-variable", True, False): "string_sized_",
    ("ordered-variable", True, True): "string_",
}
SIZES = {"fixed4": "4", "u64": "8"}

# the right proofs that hostile calls are made of: the call, the list of the case, and the case's strings
RIGHT = [
    ("operation", "program_checks", ["root", "proof", "operation"]),
    *((f"{form}value", "key_values", ["root", "proof", "key", "value"]) for form in FORMS.values()),
    *((f"{form}absence", "exclusions", ["root", "proof", "key"]) for form in FORMS.values()),
]
CALLS = [*(it[0] for it in RIGHT), "range"]
# what the four calls over a struct are given, and their answers: the struct of a right proof is all 0 but the size of a chunk
AGREED = {name: ctypes.c_uint32 for name in ("family", "hash", "keys", "values")} | {
    name: ctypes.c_size_t
    for name in ("chunk_size", "min_key_length", "max_key_length", "min_value_length", "max_value_length", "max_digests")
}
EXAMPLE = ROOT / "examples/data"
# what such a case must have, where it has it
RIGHT_OVER = {"chunk": "1", "location": "3"}


def run(*words, text=None):
    """What a command printed, or why it failed."""
    ended = subprocess.run(list(map(str, words)), input=text, text=True, stdout=subprocess.PIPE, stderr=subprocess.STDOUT)
    if ended.returncode:
        raise AssertionError(f"{words[0]} ended with {ended.returncode}: {ended.stdout[-2000:]}")
    return ended.stdout


def same(what, first, second):
    if first != second:
        raise AssertionError(f"{what}: {first} and {second}")


def compiles(folder):
    """The header alone, in each language whose compiler is there."""
    for compiler, language, standard in LANGUAGES:
        if shutil.which(compiler):
            run(compiler, f"-std={standard}", *WARNINGS, "-fsyntax-only", "-x", language, HEADER)


def names(folder):
    """The functions, the numbers and the struct of the header, and what the library says of itself."""
    header = HEADER.read_text()
    sources = "\n".join(path.read_text() for folder in SOURCES for path in sorted(folder.rglob("*.rt")))
    declared = sorted(re.findall(r"^(?:u?int32_t |const char \*)(gawerunoa_\w+)\(", header, re.M))
    exported = [*re.findall(r'extern "C" fn (\w+)', sources), "gawerunoa_build"]
    same("functions of the header and of the sources", declared, sorted(exported))
    symbols = run("nm", "--defined-only", "--extern-only", "--format=posix", folder / "libgawerunoa.a")
    same("functions of the header and of the archive", declared, sorted(re.findall(r"^(\w+) T ", symbols, re.M)))
    numbers = {name: int(value) for name, value in re.findall(r"GAWERUNOA_(\w+) = (-?\d+)", header)}
    constants = {name: int(value) for name, value in re.findall(r"pub const (\w+): [ui]32 = (-?\d+);", sources)}
    same("numbers of the header and of the sources", numbers, constants)
    members = re.search(r"^struct gawerunoa_agreed \{\n(.*?)^\};", header, re.M | re.S)[1]
    fields = [name for them in re.findall(r"^    \w+ ([\w, ]+);", members, re.M) for name in them.split(", ")]
    same("fields of the header's struct and of the tests'", fields, [*AGREED])
    source = re.search(r"^pub struct Agreed \{\n(.*?)^\}", sources, re.M | re.S)[1]
    same("fields of the header's struct and of the sources'", fields, re.findall(r"^    pub (\w+): \w+,$", source, re.M))
    version = int(re.search(r"#define GAWERUNOA_VERSION (\d+)", header)[1])
    library = library_in(folder)
    same("versions of the header and of the library", version, library.gawerunoa_version())
    library.gawerunoa_build.restype = ctypes.c_char_p
    same("how the library was built", c_library.build_text(), library.gawerunoa_build().decode())
    written = ".".join(map(str, (version // 1_000_000, version // 1000 % 1000, version % 1000)))
    same("the version in a number and in words", written, c_library.build_text().split()[1])


def library_in(folder):
    """The shared object, as Python loads it."""
    return ctypes.CDLL(str((folder / "libgawerunoa.so").resolve()))


def bytes_or_none(text):
    return text or "-"


def strings(texts):
    if texts == [""]:
        raise AssertionError("a list of one empty string has no word of its own")
    return ",".join(texts) or "-"


def hash_of(case):
    """The number of a case's digest function."""
    return HASHES[case.get("hash", "sha256")]


def types_of(case):
    """The types of the keys and of the values of a case, and what the calls about it begin with."""
    shape, key, value = case["type"].split("/")
    form = (shape, *(kind.startswith("vec:") for kind in (key, value)))
    if form not in FORMS or not all(kind in SIZES or kind.startswith("vec:") for kind in (key, value)):
        raise AssertionError(f"no call has the type {case['type']}")
    return key, value, FORMS[form]


def bytes_of(kind, written):
    """The bytes of a key or a value: those that are written, but of a vector not the byte before them, which is its length."""
    if kind in SIZES:
        same("the size of a string that is written", SIZES[kind], str(len(written) // 2))
        return written
    same("the length of a vector that is written", int(written[:2], 16), len(written) // 2 - 1)
    return written[2:]


def strings_of(case):
    """The key of a case about a key, and its value where it has one."""
    key, value, _ = types_of(case)
    return {part: bytes_of(kind, case[part]) for part, kind in (("key", key), ("value", value)) if part in case}


def is_whole(case):
    """Whether what is claimed of a key is one whole key, and one whole value where the case has one."""
    try:
        return bool(strings_of(case))
    except AssertionError:
        return False


def whole_cases(name):
    """The cases of a list, but for those of claimed bytes that are no whole key or value."""
    return [it for it in cases_of(name) if name not in KEYS or is_whole(it["in"])]


def lengths(kind):
    """What a call is told of the values of a type, or of keys that are vectors: their size, or the least and the greatest length."""
    return [SIZES[kind]] if kind in SIZES else kind.removeprefix("vec:").split(":")


def question(name, hash_, case):
    """The line for answers.c that asks what a case asks."""
    head = f"{FAMILIES[case['family']]} {hash_} {case['chunk']}"
    proof, root = bytes_or_none(case["proof"]), case["root"]
    if name == "program_checks":
        return f"operation {head} {case['location']} {proof} {bytes_or_none(case['operation'])} {root}"
    if name in KEYS:
        key, value, form = types_of(case)
        told = lengths(key) if form.startswith("string_") else []
        call = "value" if name == "key_values" else "absence"
        told += lengths(value) if call == "absence" else []
        return " ".join([form + call, head, *told, proof, *map(bytes_or_none, strings_of(case).values()), root])
    lists = f"{strings(case['operations'])} {strings(case['chunks'])}"
    return f"range {head} {case['most']} {case['start']} {proof} {lists} {root}"


def answering(folder, name, *flags, source="answers.c", language=LANGUAGES[0]):
    """The program that answers lines, from C where no other language is said."""
    compiler, words, standard = language
    parts = ["-x", words, HERE / source, "-x", "none", folder / "libgawerunoa.a"]
    run(compiler, f"-std={standard}", *WARNINGS, *flags, f"-I{HEADER.parent}", *parts, "-o", folder / name)
    return folder / name


def answers(folder):
    """The cases of four lists, by the twelve calls."""
    answered_by(answering(folder, "answers", *SANITIZER), "C")


def asks(folder):
    """The cases of four lists, by the four calls over a struct."""
    for language in LANGUAGES:
        if shutil.which(language[0]):
            answered_by(answering(folder, "asks", *SANITIZER, source="asks.c", language=language), f"{language[1]}, over a struct")


def answered_by(program, how):
    """That a program answers the cases of four lists as they say."""
    for name in LISTS:
        cases = whole_cases(name)
        asked = [question(name, hash_of(case), case["in"]) for case in cases]
        said = run(program, text="".join(f"{line}\n" for line in asked)).split()
        same(f"{name}: how many cases and answers", len(cases), len(said))
        for answer, line, case in zip(said, asked, cases):
            same(f"{name}: {line}", int(answer), ANSWERS[case["out"]])
        longer = sum(map(hash_of, cases))
        print(f"interface: {name}: all {len(cases)} cases answered from {how}, {longer} over SHA-512", flush=True)


def first_cases():
    """The first case of each call, digest function and answer: the line that asks it, and its answer."""
    found = {}
    for name in LISTS:
        for case in whole_cases(name):
            line = question(name, hash_of(case), case["in"])
            found.setdefault((line.split()[0], hash_of(case), case["out"]), (line, ANSWERS[case["out"]]))
    return found.values()


def refused(folder):
    """Calls whose requests for memory are refused."""
    room = folder / "memory"
    room.mkdir(exist_ok=True)
    shim = refused_memory.compiled_shim(room)
    for source in ("answers.c", "asks.c"):
        refused_by(shim, answering(folder, "answers_alone", source=source), source)


def refused_by(shim, program, source):
    """The calls of one program."""
    wanted, runs = dict.fromkeys(CALLS, 0), 0
    for line, answer in first_cases():
        ask = lambda *refusals: refused_memory.ended(shim, [program], f"{line}\n", *refusals)
        whole = ask()
        same(line, (0, f"{answer}\n"), (whole.status, whole.output))
        for first in range(1, whole.requests + 1):
            for last in (first, refused_memory.LAST):
                ending = ask(first, last)
                if (ending.status, ending.output) == (CALLER_LACKS_MEMORY, ""):
                    continue
                if ending.status or ending.output not in (f"{answer}\n", "-1\n"):
                    raise AssertionError(f"request {first} of {whole.requests} refused: {ending[:3]}: {line}")
                wanted[line.split()[0]] += ending.output == "-1\n"
                runs += 1
    same("calls that never want memory", [], [it for it, count in wanted.items() if not count])
    print(f"interface: {source}: {runs} calls with memory refused, of which {sum(wanted.values())} wanted memory", flush=True)


class Asking:
    """The four calls over a struct, from Python, each with what it is given beside the struct and the root, and the example's answer."""

    def __init__(self, folder):
        self.library = library_in(folder)
        self.struct = type("Agreed", (ctypes.Structure,), {"_fields_": [*AGREED.items()]})
        self.given = {it: (EXAMPLE / f"{it}.bin").read_bytes() for it in ("root", "proof", "operation")}

    def __call__(self, call, *parts, count=1, root=None, **agreed):
        """What a call answers over so many structs: for none a null pointer is handed over."""
        structs = (self.struct * count)(*[self.struct(**{"chunk_size": 1} | agreed)] * count)
        words = [structs if count else None, ctypes.c_size_t(count)]
        for it in (*parts, self.given["root"] if root is None else root):
            words += [ctypes.c_char_p(it), ctypes.c_size_t(len(it))] if isinstance(it, bytes) else [it]
        return getattr(self.library, f"gawerunoa_ask_{call}")(*words)


def refusals(folder):
    """What is refused, and in which order, from Python; the same of an operation from Rust."""
    ask = Asking(folder)
    numbers = {name: int(value) for name, value in re.findall(r"GAWERUNOA_(\w+) = (-?\d+)", HEADER.read_text())}
    proof, operation = ask.given["proof"], ask.given["operation"]
    empty_list = [b"", None, ctypes.c_size_t(0)]
    sized = {"values": numbers["SIZED"], "min_value_length": 8, "max_value_length": 8}
    string_sized = sized | {"keys": numbers["STRINGS"]}
    calls = {
        "operation": [ctypes.c_uint64(3), proof, operation],
        "range": [ctypes.c_uint64(0), b"", *empty_list, *empty_list],
        "value": [b"", b"k" * 8, b"v" * 8],
        "absence": [b"", b"k" * 8],
    }
    # each refusal, with all that comes after it in the order wrong too
    root, family = {"root": b"r" * 31}, {"family": 2}
    later = [root, {"hash": 2}, family, {"values": 3}, {"keys": 2}]
    names_of = ["OTHER_ROOT", "OTHER_HASH", "OTHER_FAMILY", "OTHER_ENCODING", "OTHER_KIND"]
    for call, parts in calls.items():
        for count in (0, 2):
            same(f"{call}: {count} structs", numbers["OTHER_AGREED"], ask(call, *parts, count=count, **family, keys=2))
        wrong = {}
        for more, name in zip(later, names_of):
            wrong |= more
            same(f"{call}: {name}", numbers[name], ask(call, *parts, **wrong))
        same(f"{call}: fixed values and strings", numbers["OTHER_ENCODING"], ask(call, *parts, keys=1, values=2, **family))
    same("a right proof", numbers["YES"], ask("operation", *calls["operation"]))
    same("another location", numbers["NO"], ask("operation", ctypes.c_uint64(4), proof, operation))
    same("a size that no chunk has", numbers["NO"], ask("operation", *calls["operation"], chunk_size=3))
    lengths = (ctypes.c_size_t * 1)(2)
    bad_list = [b"a", lengths, ctypes.c_size_t(1)]
    same("lengths", numbers["OTHER_LENGTHS"], ask("range", ctypes.c_uint64(0), b"", *bad_list, *empty_list))
    for values in ("VARIABLE", "SIZED", "FIXED"):
        agreed = {**sized, "values": numbers[values]}
        same(f"a key of 7 bytes, {values}", numbers["OTHER_KEY"], ask("value", b"", b"k" * 7, b"v" * 7, **agreed))
        same(f"no value of a key of 7 bytes, {values}", numbers["OTHER_KEY"], ask("absence", b"", b"k" * 7, **agreed))
    for agreed in (sized, sized | {"values": numbers["FIXED"]}, string_sized):
        for least, most, length in ((4, 4, 8), (8, 4, 8), (4, 8, 8), (7, 7, 7)):
            limits = {"min_value_length": least, "max_value_length": most}
            same("the size of a value", numbers["OTHER_VALUE"], ask("value", b"", b"k" * 8, b"v" * length, **agreed | limits))
        for least, most in ((8, 4), (4, 8), (7, 7), (0, 0)):
            limits = {"min_value_length": least, "max_value_length": most}
            same("the size of values", numbers["OTHER_VALUE"], ask("absence", b"", b"k" * 8, **agreed | limits))
        same("no proof of a value", numbers["NO"], ask("value", b"", b"k" * 8, b"v" * 8, **agreed))
        same("no proof of an absence", numbers["NO"], ask("absence", b"", b"k" * 8, **agreed))
    if shutil.which("rustc"):
        run("rustc", "--edition", "2021", "-O", "-L", f"native={folder}", "-o", folder / "asks_rs", HERE / "asks.rs")
        of_struct = ["OTHER_AGREED", "OTHER_AGREED", "OTHER_KIND", "OTHER_ENCODING", "OTHER_ENCODING", "OTHER_FAMILY", "OTHER_HASH"]
        wanted = [*(numbers[it] for it in ("YES", "NO", *of_struct)), ask.library.gawerunoa_version()]
        same("from Rust", wanted, [*map(int, run(folder / "asks_rs", EXAMPLE).split())])


def hostile(folder, calls, seed):
    """Calls that nobody means."""
    program = folder / "hostile"
    source = [HERE / "hostile.c", folder / "libgawerunoa.a"]
    run("gcc", "-std=c11", *WARNINGS, *SANITIZER, "-O1", f"-I{HEADER.parent}", *source, "-o", program)
    for name, hash_ in HASHES.items():
        seen = run(program, calls, seed, right_proof(folder, hash_), hash_)
        print(f"interface: {calls} hostile calls, {name}, answers and how often: {', '.join(seen.splitlines())}", flush=True)


def right_proof(folder, hash_):
    """A folder with the files of right proofs over a digest function: cases of `replay` that are answered yes."""
    room = folder / f"proof{hash_}"
    room.mkdir(exist_ok=True)
    for call, name, parts in RIGHT:
        asked = ((hash_of(case), case["out"], case["in"]) for case in cases_of(name))
        found = (case for hashed, out, case in asked if (hashed, out) == (hash_, "yes"))
        strings = next(filter(None, (right_strings(call, name, hash_, case, parts) for case in found)))
        for part, string in strings.items():
            (room / f"{call}_{part}.bin").write_bytes(string)
    return room


def right_strings(call, name, hash_, case, parts):
    """The strings of a case by their names, and its family as a byte, where it asks this call, and none of the strings is empty."""
    if question(name, hash_, case).split()[0] != call or any(case.get(part, it) != it for part, it in RIGHT_OVER.items()):
        return None
    given = case | (strings_of(case) if name in KEYS else {})
    found = {"family": bytes([FAMILIES[case["family"]]]), **{part: bytes.fromhex(given[part]) for part in parts}}
    return found if all(found.values()) else None


def main():
    words = argparse.ArgumentParser(usage="interface.py [--built TREE] [--kept FOLDER] [--calls N] [--seed S]")
    words.add_argument("--built", type=pathlib.Path)
    words.add_argument("--kept", type=pathlib.Path)
    words.add_argument("--calls", type=int, default=200_000)
    words.add_argument("--seed", type=int, default=1)
    given = words.parse_args()
    if not shutil.which("gcc"):
        print("interface: there is no gcc: not run")
        return NOT_RUN
    failed = 0
    with tempfile.TemporaryDirectory() as work:
        folder = given.kept or pathlib.Path(work)
        c_library.make(folder, given.built)
        parts = [
            ("the header compiles", lambda: compiles(folder)),
            ("its names and numbers", lambda: names(folder)),
            ("the cases of four lists", lambda: answers(folder)),
            ("the same over a struct", lambda: asks(folder)),
            ("refusals over a struct", lambda: refusals(folder)),
            ("calls with memory refused", lambda: refused(folder)),
            ("hostile calls", lambda: hostile(folder, given.calls, given.seed)),
            ("the examples", lambda: print(run(ROOT / "examples/run", folder), end="")),
        ]
        for name, part in parts:
            try:
                part()
                print(f"interface: {name}: passed", flush=True)
            except AssertionError as error:
                failed += 1
                print(f"interface: {name}: failed: {error}", flush=True)
    print(f"{len(parts) - failed} passed, {failed} failed")
    return int(failed > 0)


if __name__ == "__main__":
    sys.exit(main())
