#!/usr/bin/env python3
"""Tests the packages: makes each, installs it in an empty place, and asks it every case that the library for C is asked.

    packages/test_packages.py [FOLDER] [--programs FILE..] [--unproved] [--only NAME]

FOLDER has what `tools/c_library.py FOLDER --built TREE` leaves, or with --unproved `tools/unproved.py FOLDER`: the library and the LLVM module
of its code, of which the WebAssembly module is made here. Without it what `./build` left in dist/ is taken. The files are the programs
`gawerunoa` and `stateproof` for Debian's packages. A package whose language is not there (cargo, go; for JavaScript npm and a node that
takes wasm64, or Chromium; for Debian dpkg, gcc and the programs) is named and not tested. Each package has the names of the answers that
the C header has, and says the same version. The last line is 'N passed, M failed'; the status is 77 where there is no library.
"""
import argparse
import functools
import os
import pathlib
import re
import shutil
import subprocess
import sys
import tempfile

HERE = pathlib.Path(__file__).resolve().parent
ROOT = HERE.parent
sys.path += [str(HERE), *(str(ROOT / it) for it in ("tools", "crates/light_c/tests", "examples/page"))]

import debs
import make
from interface import ANSWERS, EXAMPLE, HEADER, LISTS, hash_of, question, whole_cases
from test_page import BROWSERS, Browser, served

ANSWERS_IN_C = ROOT / "crates/light_c/tests/answers.c"
# where each language has the constant names of the answers, and how they stand there
CONSTANTS = {
    "packages/python/gawerunoa/__init__.py": r"^    ([A-Z_]+) = (-?\d+)$",
    "packages/rust/src/answer.rs": r"^pub const ([A-Z_]+): i32 = (-?\d+);$",
    "packages/javascript/gawerunoa.js": r"^  ([A-Z_]+): (-?\d+),$",
    "packages/javascript/gawerunoa.d.ts": r"^  ([A-Z_]+): (-?\d+);$",
}
NOT_THERE = None
NOT_RUN = 77
UNPROVED = "-unproved"


def run(*words, text=None, folder=None, **names):
    """What a command printed, or why it failed."""
    environment = {**os.environ, **{name: str(it) for name, it in names.items()}}
    how = {"input": text, "text": True, "cwd": folder, "env": environment}
    ended = subprocess.run(list(map(str, words)), stdout=subprocess.PIPE, stderr=subprocess.PIPE, **how)
    if ended.returncode:
        raise AssertionError(f"{words[0]} ended with {ended.returncode}: {(ended.stdout + ended.stderr)[-3000:]}")
    return ended.stdout


def compare(questions, answers):
    """That each question has the answer of its case."""
    said = answers.split("\n")[:-1]
    if len(said) != len(questions):
        raise AssertionError(f"{len(questions)} questions, and {len(said)} answers")
    for (asked, wanted), answer in zip(questions, said):
        if answer != wanted:
            raise AssertionError(f"{answer}, and not {wanted}: {asked[:300]}")
    return f"{len(questions)} cases"


def python(made, questions, work):
    """The wheel in an environment of its own."""
    room = work / "python"
    run(sys.executable, "-m", "venv", room)
    run(room / "bin/pip", "install", "--quiet", "--no-index", "--disable-pip-version-check", made)
    asked = "".join(f"{it}\n" for it, _ in questions)
    return compare(questions, run(room / "bin/python", "-I", HERE / "python/answers.py", text=asked, folder=work))


def rust(made, questions, work):
    """The crate's documentation, as it is run, and an example of it that answers cases."""
    if not shutil.which("cargo"):
        return NOT_THERE
    room = work / "rust"
    shutil.copytree(made, room)
    run("cargo", "test", "--quiet", "--offline", folder=room)
    asked = "".join(f"{it}\n" for it, _ in questions)
    answers = run("cargo", "run", "--quiet", "--offline", "--release", "--example", "answers", text=asked, folder=room)
    return compare(questions, answers)


def go(made, questions, work):
    """The module's tests, with the cases in a file."""
    if not shutil.which("go"):
        return NOT_THERE
    room, cases = work / "go", work / "cases.txt"
    shutil.copytree(made, room)
    cases.write_text("".join(f"{it}\t{wanted}\n" for it, wanted in questions))
    told = run("go", "test", "-v", "./...", folder=room, GAWERUNOA_CASES=cases, GOCACHE=work / "go-cache", GOFLAGS="-mod=mod")
    if f"{len(questions)} cases" not in told:
        raise AssertionError(f"go test did not answer {len(questions)} cases: {told[-1000:]}")
    return f"{len(questions)} cases"


def javascript(made, questions, work):
    """The package as npm packs and installs it, in node; and its files, in a browser."""
    asked = "".join(f"{it}\n" for it, _ in questions)
    by = {"node": in_node(made, asked, work), "a browser": in_browser(made, asked, work)}
    told = [f"{compare(questions, answers)} in {it}" for it, answers in by.items() if answers is not NOT_THERE]
    return ", ".join(told) or NOT_THERE


def in_node(made, asked, work):
    if not shutil.which("npm"):
        return NOT_THERE
    flags = next((it for it in ([], ["--experimental-wasm-memory64"]) if is_run_by_node(made / "gawerunoa.wasm", it)), NOT_THERE)
    if flags is NOT_THERE:
        return NOT_THERE
    room = work / "javascript"
    room.mkdir()
    (room / "package.json").write_text('{"type": "module"}')
    packed = run("npm", "pack", "--silent", made.resolve(), folder=room).strip()
    run("npm", "install", "--silent", "--offline", "--no-audit", "--no-fund", f"./{packed}", folder=room)
    shutil.copy(HERE / "javascript/answers.mjs", room)
    script = 'import { load } from "gawerunoa"; import { answers } from "./answers.mjs"; import { readFileSync } from "node:fs";'
    (room / "main.mjs").write_text(f'{script} process.stdout.write(answers(await load(), readFileSync(0, "utf8")));')
    return run("node", *flags, "main.mjs", text=asked, folder=room)


def in_browser(made, asked, work):
    program = next(filter(None, map(shutil.which, BROWSERS)), None)
    if program is None:
        return NOT_THERE
    room = work / "site"
    shutil.copytree(made, room)
    shutil.copy(HERE / "javascript/answers.mjs", room)
    (room / "index.html").write_text("<!doctype html><title>gawerunoa</title>")
    script = 'const { load } = await import("/gawerunoa.js"); const { answers } = await import("/answers.mjs");'
    with served(room) as address, tempfile.TemporaryDirectory(ignore_cleanup_errors=True) as profile:
        browser = Browser(program, profile)
        try:
            browser.open(address)
            return browser.run(f"{script} return answers(await load(), given[0]);", asked)
        finally:
            browser.close()


def names():
    """That each language has the names of the answers that the header has; Go's are the header's own."""
    enum = re.search(r"^enum gawerunoa_answer \{(.*?)\};", HEADER.read_text(), re.M | re.S)[1]
    wanted = dict(re.findall(r"GAWERUNOA_(\w+) = (-?\d+)", enum))
    for file, pattern in CONSTANTS.items():
        text = (ROOT / file).read_text()
        text = re.search(r"^class Answer.*?\n\n\n", text, re.M | re.S)[0] if file.endswith(".py") else text
        if (found := dict(re.findall(pattern, text, re.M))) != wanted:
            raise AssertionError(f"{file} has {found}, and the header {wanted}")
    go_names = re.findall(r"Answer = C\.GAWERUNOA_(\w+)", (HERE / "go/gawerunoa.go").read_text())
    if sorted(go_names) != sorted(wanted):
        raise AssertionError(f"Go has {go_names}, and the header {[*wanted]}")
    return f"{len(wanted)} names of answers, version {make.version()}"


def debian(made, questions, work):
    """The packages in an empty root: a program in C is linked with them, the programs are run, and all of it is removed."""
    if not all(map(shutil.which, ("dpkg", "gcc"))):
        return NOT_THERE
    root = work / "root"
    for it in ("info", "updates", "triggers"):
        (root / "var/lib/dpkg" / it).mkdir(parents=True)
    for it in ("status", "available"):
        (root / "var/lib/dpkg" / it).touch()
    # what they stand on is not there; nothing runs in that root
    dpkg = functools.partial(run, "dpkg", f"--root={root}", "--force-depends", "--force-not-root", "--force-bad-path", "--log=/dev/null")
    dpkg("--install", *made)
    programs = sorted((root / "usr/bin").iterdir())
    told = [asked_in_c(root, questions, work), *(checked_by(it, root) for it in programs), linted(made)]
    names = [it.name.partition("_")[0] for it in made]
    dpkg("--purge", *reversed(names))
    left = [it for it in root.rglob("*") if not it.is_dir() and root / "var" not in it.parents]
    if left:
        raise AssertionError(f"{left} are left when the packages are removed")
    return ", ".join(filter(None, told))


def asked_in_c(root, questions, work):
    """The cases, by a program that is linked with the shared object as pkg-config says it."""
    libraries = root / debs.LIB
    config = next((libraries / "pkgconfig").iterdir())
    words = dict(line.split(": ", 1) for line in config.read_text().splitlines() if ": " in line)
    link = words["Libs"].replace("${libdir}", str(libraries)).split()
    program = work / "asks_installed"
    run("gcc", "-std=c11", ANSWERS_IN_C, f"-I{root / 'usr/include'}", *link, "-o", program)
    told = run(program, text="".join(f"{it}\n" for it, _ in questions), LD_LIBRARY_PATH=libraries)
    by_number = {str(number): word for word, number in ANSWERS.items()}
    return compare(questions, "".join(f"{by_number.get(it, it)}\n" for it in told.split()))


def checked_by(program, root):
    """The example, by an installed program, whose page of the manual is there."""
    digest, operation, proof = ((EXAMPLE / f"{it}.bin").read_bytes().hex() for it in ("root", "operation", "proof"))
    words, given = {
        "stateproof": (f"check mmr 1 {digest} 3", f"{operation}\n{proof}\n"),
        "gawerunoa": (f"check operation --family mmr --chunk 1 --root {digest} --at 3 --operation {operation} --proof @-", f"{proof}\n"),
    }[program.name.removesuffix(UNPROVED)]
    told = run(program, *words.split(), text=given)
    if not told.startswith("yes") or not (root / f"usr/share/man/man1/{program.name}.1.gz").is_file():
        raise AssertionError(f"{program.name} says {told}, or has no page")
    return f"{program.name} says yes"


def linted(made):
    """That lintian finds no error."""
    if not shutil.which("lintian"):
        return "lintian is not there"
    run("lintian", "--allow-root", "--fail-on", "error", *made)
    return "lintian finds no error"


def is_run_by_node(module, flags):
    """Whether node takes the module, which has a memory and a table of 64 bits."""
    script = "process.exit(WebAssembly.validate(require('fs').readFileSync(process.argv[1])) ? 0 : 1)"
    return subprocess.run(["node", *flags, "-e", script, module], stderr=subprocess.DEVNULL).returncode == 0


TESTS = {"python": python, "rust": rust, "go": go, "javascript": javascript, "debian": debian}


def made_of(given, work):
    """Makes the packages, from what a build of the library left in a folder or else in dist/."""
    suffix = UNPROVED if given.unproved else ""
    library, module = given.folder, work / "wasm"
    folder = library if library and suffix else ROOT / "dist/bin"
    # without a proof `stateproof` alone is made
    programs = given.programs or [folder / f"{it}{suffix}" for it in debs.PAGES if it == "stateproof" or not suffix]
    if library is None:
        library, module = ROOT / "dist/lib", ROOT / "dist/wasm"
    else:
        run(ROOT / "examples/page/wasm", module, "--kept", library, *["--unproved"] * given.unproved)
    made = make.make(work / "made", library, module, suffix)
    if shutil.which("dpkg-deb") and all(it.is_file() for it in programs):
        made["debian"] = debs.make_debs(work / "made", library, programs, given.unproved)
    return made


def main():
    words = argparse.ArgumentParser(usage="test_packages.py [FOLDER] [--programs FILE..] [--unproved] [--only NAME]")
    words.add_argument("folder", type=lambda it: pathlib.Path(it).resolve(), nargs="?")
    words.add_argument("--programs", type=lambda it: pathlib.Path(it).resolve(), nargs="+")
    words.add_argument("--unproved", action="store_true")
    words.add_argument("--only", choices=TESTS)
    given = words.parse_args()
    if not (given.folder or ROOT / "dist/lib").joinpath(f"libgawerunoa{UNPROVED * given.unproved}.a").is_file():
        print("packages: there is no library: not run")
        return NOT_RUN
    questions = [(question(name, hash_of(it), it["in"]), it["out"]) for name in LISTS for it in whole_cases(name)]
    passed = failed = 0
    with tempfile.TemporaryDirectory() as folder:
        work = pathlib.Path(folder)
        made = made_of(given, work)
        tests = {name: functools.partial(test, made.get(name), questions, work) for name, test in TESTS.items()}
        tests = {given.only: tests[given.only]} if given.only else {"names": names, **tests}
        for name, test in tests.items():
            try:
                told = test() if name == "names" or name in made else NOT_THERE
                passed += told is not NOT_THERE
                print(f"packages: {name}: {told or 'not tested, since what it wants is not there'}", flush=True)
            except AssertionError as error:
                failed += 1
                print(f"packages: {name}: failed: {error}", flush=True)
    print(f"{passed} passed, {failed} failed")
    return int(failed > 0)


if __name__ == "__main__":
    sys.exit(main())
