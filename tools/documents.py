#!/usr/bin/env python3
"""Sees that what the documents cite is there, that their examples are proved code, and that what must not compile does not.

    tools/documents.py [citations] [examples] [refusals]

`citations`: the documents are README.md, docs/*.md and crates/*/README.md. A citation is one of these:

    `src/light.rt`, `specs/`, `crates.txt`     a word in backticks with a slash, or with the ending of a file of the repository:
                                               what git lists has such a file or folder, at the top, beside the document, or
                                               anywhere below; `merkle/mmr`, without an ending, is a module's file too
    docs/GATE.md                               the same of a plain word that begins with a folder at the top
    `check.rt::Given::node`, `light.rt:50`     such a file, and in it each of the names, or a line of that number
    `Trees.tree_root`                          a definition of a file Trees.antt in the specs/ of a crate
    [text](GATE.md)                            a link, from the document's folder on

In a path `*` and the words NAME, CRATE, FILE and FOLDER stand for any name, and `...` for any folders; then the ending of a file may be
left out. What is made below out/ and dist/ is not looked for, nor a reader's own crate, whose name begins with `my_`, nor anything outside
of the repository.

`examples`: a block of code that is marked as `rust` is the text of a file of a crate that crates.txt lists, word for word: the last path
before the block, as `crates/example_client/src/client.rt`. README.md has such a block. One that is marked as `text PATH` has lines of
that file, in their order: `..` inside a line is any text that was left out, a line `..` any lines. What `example_server`,
`example_follower` and `example_client` are to write is what tools/database.py computes.

`refusals`: each edit of crates/*/must-not-compile, in a copy of the repository, is refused by the compiler with the error that it names.

Without a word all three are looked at. A line for each fault says where it is, a line for each part how many it has seen. The last line
is 'N passed, M failed', of the parts that have no fault, and of the faults.
"""
import itertools
import pathlib
import re
import shutil
import subprocess
import sys
import tempfile

import database
from tries import Try

ROOT = pathlib.Path(__file__).resolve().parent.parent
DOCUMENTS = [ROOT / "README.md", *sorted(ROOT.glob("crates/*/README.md")), *sorted(ROOT.glob("docs/*.md"))]

SPAN = re.compile(r"(`+)((?:(?!\n\n).)+?)\1", re.S)
FENCED = re.compile(r"^```.*?^```", re.M | re.S)
PLAIN = re.compile(r"(?<![\w/.`+*-])(?:bench|conformance|crates|docs|examples|fuzz|tools)/[\w./+*-]*[\w/*]")
LINK = re.compile(r"\]\(([^()\s]+)\)")

# A path, and what may follow it after a colon or two: names, or the number of a line.
PATH = re.compile(r"((?:[\w+*-]|\.(?!/))[\w./+*-]*)")
INSIDE = re.compile(r"::?(\w+(?:::\w+)*)")
ENDING = re.compile(r"\.(?:rt|antt|py|md|edit|txt|c)$")
# A definition by its file; one letter or `Self` before the dot is a type, as in a clause.
DEFINITION = re.compile(r"(?!Self\.)([A-Z]\w+)\.([\w-]+)")
ANY_NAME = re.compile(r"\*|\b(?:NAME|CRATE|FILE|FOLDER)\b")

BLOCK = re.compile(r"^```rust\n(.*?)^```$", re.M | re.S)
SOURCE = re.compile(r"`(crates/(\w+)/src/[\w/]+\.rt)`")
LINES = re.compile(r"^```text (\S+)\n(.*?)^```$", re.M | re.S)


def kept_files():
    """The files that git lists, with those that are to be added."""
    told = subprocess.run(["git", "ls-files", "-z", "-co", "--exclude-standard"], cwd=ROOT, capture_output=True, check=True)
    return [it for it in told.stdout.decode().split("\0") if it and (ROOT / it).is_file()]


def place(document, text, at):
    """Where something stands in a document."""
    return f"{document.relative_to(ROOT)}:{text.count(chr(10), 0, at) + 1}"


class Files:
    """The files that git lists, and the folders that they are in."""

    def __init__(self):
        self.files = kept_files()
        self.paths = sorted({*self.files, *(str(it) for file in self.files for it in pathlib.PurePath(file).parents)})

    def named(self, path, document):
        """The files and folders that a cited path may be."""
        path = path.removeprefix("./").rstrip("/")
        beside = (document.parent / path).resolve()
        if beside.is_relative_to(ROOT) and str(beside.relative_to(ROOT)) in self.paths:
            return [str(beside.relative_to(ROOT))]
        parts = [ANY_NAME.sub("*", re.sub(r"[.+-]", r"\\\g<0>", it)).replace("*", "[^/]*") for it in path.split("/")]
        pattern = "/".join(".*" if it == r"\.\.\." else it for it in parts)
        ending = r"(?:\.\w+)?" if "..." in path else "" if ENDING.search(path) else r"(?:\.rt)?"
        return [it for it in self.paths if re.search(f"(?:^|/){pattern}{ending}$", it)]

    def define(self, module, name):
        """Whether a file of definitions has one of this name."""
        declared = re.compile(rf"^\s*(?:(?:abbrev|unfoldable|pub|record|data) )*{re.escape(name)}(?![\w-])", re.M)
        files = [it for it in self.files if re.fullmatch(rf"crates/\w+/specs/{module}\.antt", it)]
        return any(declared.search((ROOT / it).read_text()) for it in files)


def words_of(text):
    """The words of a document that may be citations: the place where each stands, the word, and whether it is a link's."""
    prose, plain = FENCED.sub(lambda it: re.sub(r"[^\n]", " ", it[0]), text), text
    for span in SPAN.finditer(prose):
        plain = plain[: span.start()] + " " * len(span[0]) + plain[span.end() :]
        for word in re.finditer(r"\S+", span[2]):
            yield span.start(2) + word.start(), word[0].strip(",;()"), False
    for word in PLAIN.finditer(plain):
        yield word.start(), word[0], False
    for link in LINK.finditer(prose):
        yield link.start(1), link[1].partition("#")[0], True


def is_there(word, is_link, document, files):
    """Whether what a word cites exists; None where it cites nothing here."""
    if "://" in word or not word or any(it in ("out", "dist") or it.startswith("my_") for it in word.split("/")):
        return None
    if is_link:
        return (document.parent / word).exists()
    definition = DEFINITION.fullmatch(word)
    path = PATH.match(word.removeprefix("./"))
    if not path or not ("/" in word or ENDING.search(path[1])):
        return files.define(*definition.groups()) if definition else None
    inside = word.removeprefix("./")[path.end() :]
    if not inside:
        return bool(files.named(path[1], document))
    names = INSIDE.fullmatch(inside)
    if not names or not ENDING.search(path[1]):
        return None
    texts = [(ROOT / it).read_text() for it in files.named(path[1], document) if it in files.files]
    if names[1].isdigit():
        return any(int(names[1]) <= text.count("\n") for text in texts)
    return any(all(re.search(rf"\b{it}\b", text) for it in names[1].split("::")) for text in texts)


def citations():
    """How many citations the documents have, and those whose subject is missing."""
    files, cited, faults = Files(), 0, []
    for document in DOCUMENTS:
        text = document.read_text()
        for at, word, is_link in sorted(words_of(text)):
            there = is_there(word, is_link, document, files)
            cited += there is not None
            if there is False:
                faults.append(f"{place(document, text, at)}: {word} is missing")
    return cited, faults


def fault_of(text, block, crates):
    """Why a block of a document is not the text of a file of the crates, None where it is."""
    named = SOURCE.findall(text[: block.start()])
    if not named:
        return "no file is named before it"
    path, crate = named[-1]
    if crate not in crates or not (ROOT / path).is_file():
        return f"{path} is no source of a crate"
    pairs = itertools.zip_longest(block[1].split("\n"), (ROOT / path).read_text().split("\n"))
    differing = next((number for number, (shown, proved) in enumerate(pairs, 1) if shown != proved), None)
    return differing and f"it is not the text of {path} from its line {differing} on"


def fault_of_lines(block):
    """Why the lines of a block are not those of the file that it names, None where they are."""
    path, shown = ROOT / block[1], block[2]
    if not path.is_file():
        return f"{block[1]} is missing"
    told = "".join("(?:.*\n)*" if it == "..\n" else re.escape(it).replace(r"\.\.", ".+") for it in shown.splitlines(keepends=True))
    return None if re.search(f"^{told}", path.read_text(), re.M) else f"these are no lines of {block[1]}"


def wrong_answers():
    """What is wrong with the files of the examples: a server's answer is right where the definitions give it, and a client takes it where
    they give it of the last commit. The log that is followed is that of the server's database."""
    told = lambda name: (ROOT / "crates" / name).read_text()
    commands = told("example_server/stdin").splitlines()
    served, kept = database.example(commands)
    log, followed = database.followed(commands)
    asked = [it for it in told("example_client/stdin").splitlines() if not it.startswith("demo ")]
    answers = "".join("yes\n" if it == kept.last.claim(it.split(" ")[1].encode()) else "no\n" for it in asked)
    right = {
        "example_server/stdout": told("example_server/stdout") == served,
        "example_follower/stdin": told("example_follower/stdin") == log,
        "example_follower/stdout": told("example_follower/stdout") == followed,
        "example_client/args": told("example_client/args") == f"{kept.last.snapshot.root.hex()}\n",
        "example_client/stdout": told("example_client/stdout").startswith(answers),
    }
    return [f"crates/{name}: not what tools/database.py computes" for name, is_right in right.items() if not is_right]


def examples():
    """How many examples the documents have, and those that are not the text of a proved file, or not what is computed."""
    crates = {line.split()[0].rstrip(":") for line in (ROOT / "crates.txt").read_text().splitlines() if line.strip()}
    count, faults = 0, wrong_answers()
    for document in DOCUMENTS:
        text = document.read_text()
        blocks, lines = list(BLOCK.finditer(text)), list(LINES.finditer(text))
        count += len(blocks) + len(lines)
        if not blocks and document.parent == ROOT:
            faults.append("README.md: no example")
        found = [*((it, fault_of(text, it, crates)) for it in blocks), *((it, fault_of_lines(it)) for it in lines)]
        faults += [f"{place(document, text, block.start())}: {fault}" for block, fault in found if fault]
    return count, faults


def copy_to(folder):
    """A copy of the files that are kept by git, with no proofs from earlier runs."""
    for name in kept_files():
        (folder / name).parent.mkdir(parents=True, exist_ok=True)
        shutil.copy(ROOT / name, folder / name)


def compiles(copy):
    """Whether the tests of libraries and the libraries below them compile, and what the compiler says of them, which it does not prove.
    Tests that compile are run, and are counted first; how they end is no matter here."""
    said = "\n".join(Try(copy).run("library_tests"))
    return any(line.startswith("tests: ") for line in said.splitlines()), said


def refusals():
    """How many edits there are that must not compile, and those that are not refused as they name it."""
    with tempfile.TemporaryDirectory() as name:
        copy, faults = pathlib.Path(name), []
        copy_to(copy)
        before, _ = compiles(copy)
        edits = sorted(copy.glob("crates/*/must-not-compile/*.edit"))
        for edit in edits:
            lines = dict(line.split(": ", 1) for line in edit.read_text().splitlines())
            path = edit.parent.parent / lines["file"]
            text = path.read_text()
            path.write_text(text.replace(lines["old"], lines["new"]))
            after, said = compiles(copy)
            path.write_text(text)
            if not before or after or text.count(lines["old"]) != 1 or f"error[{lines['error']}]" not in said:
                faults.append(f"{edit.relative_to(copy)}: not refused as named")
        return len(edits), faults if edits else ["there is no edit that must not compile"]


PARTS = {"citations": citations, "examples": examples, "refusals": refusals}


def main():
    passed = failed = 0
    words = sys.argv[1:] or [*PARTS]
    if not PARTS.keys() >= {*words}:
        sys.exit("usage: tools/documents.py [citations] [examples] [refusals]")
    for word in words:
        count, faults = PARTS[word]()
        print(*faults, f"documents: {count} {word}, {len(faults)} faults", sep="\n", flush=True)
        passed, failed = passed + (not faults), failed + len(faults)
    print(f"{passed} passed, {failed} failed")
    return int(failed > 0)


if __name__ == "__main__":
    sys.exit(main())
