#!/usr/bin/env python3
"""Says what a gate's proof of a crate takes of a processor, which its log does not tell.

    tools/proof_time.py TREE [CRATE]

Waits until a gate proves CRATE in TREE, by default `storage_codec`, the first of all: a whole run is told as a multiple of that proof, so
that fast and slow hosts can be compared. Twice a second the times of its processes are read from /proc, until they have ended, or the
one that called this has. The one line is the seconds. The tree is one of `rt ci` or `rt ci --anew`, which begin from nothing.
"""
import contextlib
import os
import pathlib
import sys
import time

PAUSE = 0.5


def times(folder, crate):
    """The processes that check a crate in its folder: the parent of each, its own ticks, and those of its children that have ended."""
    found = {}
    for process in pathlib.Path("/proc").glob("[0-9]*"):
        # one that has ended meanwhile is not there
        with contextlib.suppress(OSError):
            words = (process / "cmdline").read_bytes().split(b"\0")
            is_check = words[0].endswith(b"/rattle") and words[1:2] in ([b"check"], [b"build"]) and crate.encode() in words
            if is_check and os.readlink(process / "cwd") == str(folder):
                fields = (process / "stat").read_text().rpartition(")")[2].split()
                own, of_children = (sum(map(int, it)) for it in (fields[11:13], fields[13:15]))
                found[int(process.name)] = int(fields[1]), own, of_children
    return found


def proof_time(tree, crate):
    """The seconds of the first proof of a crate."""
    folder, caller, seen, last = tree / "crates" / crate, os.getppid(), {}, None
    while (not seen or last) and os.getppid() == caller:
        last = times(folder, crate)
        seen |= last
        time.sleep(PAUSE)
    # a child that has ended counts with its parent, or by what was seen of it last
    each = sum(own for _, own, _ in seen.values())
    whole = sum(own + children for parent, own, children in seen.values() if parent not in seen)
    return max(each, whole) / os.sysconf("SC_CLK_TCK")


def main():
    if len(sys.argv) not in (2, 3):
        sys.exit("usage: tools/proof_time.py TREE [CRATE]")
    tree, crate = sys.argv[1], (sys.argv[2:] or ["storage_codec"])[0]
    print(f"{proof_time(pathlib.Path(tree).resolve(), crate):.0f}")


if __name__ == "__main__":
    main()
