#!/usr/bin/env python3
"""Makes the page of the manual of the program `gawerunoa` from what its `--help` says, and prints it.

    tools/manual.py PROGRAM >crates/gawerunoa/gawerunoa.1

The page has a section for each subcommand, with the lines of its help as they stand. tools/gawerunoa_cases.py sees that the page in the tree
is the one that the program gives.
"""
import pathlib
import re
import subprocess
import sys


def help_of(program, *words):
    """What is said of the program, or of one of its subcommands: the first line, and all that follows."""
    told = subprocess.run([program, *words, "--help"], capture_output=True, text=True, check=True).stdout
    about, _, rest = told.partition("\n")
    return about, rest.strip("\n")


def subcommands(text):
    """The names on the lines below `Commands:`, but `help`."""
    named = re.search(r"^Commands:\n((?:  .*\n?)+)", text, re.M)
    return [] if named is None else [name for it in named[1].splitlines() if (name := it.split()[0]) != "help"]


def escaped(text):
    """A text as troff takes it: no backslash or hyphen of its own, and no line that begins as a request."""
    text = text.replace("\\", "\\e").replace("-", "\\-")
    return re.sub(r"^(?=[.'])", r"\\&", text, flags=re.M)


def sections(program, *words):
    """The section of the program or of a subcommand, and those of the subcommands below it."""
    about, rest = help_of(program, *words)
    name = " ".join(["gawerunoa", *words])
    yield f'.SH "{escaped(name).upper()}"\n{escaped(about)}.\n.PP\n.EX\n{escaped(rest)}\n.EE\n'
    for it in subcommands(rest):
        yield from sections(program, *words, it)


def page(program):
    about, _ = help_of(program)
    version = subprocess.run([program, "--version"], capture_output=True, text=True, check=True).stdout.strip()
    head = f'.TH GAWERUNOA 1 "" "{version}" "User Commands"\n.SH NAME\ngawerunoa \\- {escaped(about[0].lower() + about[1:])}\n'
    return head + "".join(sections(program))


if __name__ == "__main__":
    if len(sys.argv) != 2:
        sys.exit(__doc__)
    print(page(str(pathlib.Path(sys.argv[1]).resolve())), end="")
