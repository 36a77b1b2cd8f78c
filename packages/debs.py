#!/usr/bin/env python3
"""Puts the library for C and the programs `gawerunoa` and `stateproof` into packages for Debian.

    packages/debs.py FOLDER LIBRARY PROGRAM.. [--unproved]

LIBRARY is a folder with libgawerunoa.a and libgawerunoa.so, and each PROGRAM one of the programs. With --unproved they are those of
tools/unproved.py, and the packages say so in their names. Into FOLDER go

    libgawerunoa0_VERSION_amd64.deb       the shared object
    libgawerunoa-dev_VERSION_amd64.deb    the header, the static library and the file for pkg-config
    gawerunoa_VERSION_amd64.deb           the programs, and the page of the manual of each

Two runs over the same files make the same bytes. It wants dpkg-deb, and strip of binutils.
"""
import argparse
import gzip
import hashlib
import os
import pathlib
import shutil
import subprocess
import tempfile

import make

HERE = pathlib.Path(__file__).resolve().parent
ROOT = HERE.parent
MAINTAINER = "Gawerunoa maintainers <maintainers@users.noreply.gawerunoa.example>"
# that of the files, and of the changelog's one entry
SAME_TIME, SAME_DATE = "315532800", "Tue, 01 Jan 1980 00:00:00 +0000"
ABOUT = """It trusts one digest, the canonical root of a snapshot; anybody may have made
 the bytes of a proof. What a check answers, and what its yes means, is proved."""
NOT_PROVED = """
 .
 This build has run-time checks in place of the proof."""
LIB = "usr/lib/x86_64-linux-gnu"
# the page of the manual of each program
PAGES = {"gawerunoa": ROOT / "crates/gawerunoa/gawerunoa.1", "stateproof": HERE / "deb/stateproof.1"}


class Package:
    """One package: its name, and a tree of the files in it."""

    def __init__(self, name, section, line, depends, files, suffix):
        self.name, self.section, self.line, self.depends, self.files, self.suffix = name, section, line, depends, files, suffix

    def control(self, size):
        words = {
            "Package": self.name,
            "Source": "gawerunoa",
            "Version": f"{make.version()}-1",
            "Architecture": "amd64",
            "Maintainer": MAINTAINER,
            "Installed-Size": str(size),
            "Depends": self.depends,
            "Section": self.section,
            "Priority": "optional",
            "Description": f"{self.line}\n {ABOUT}{NOT_PROVED if self.suffix else ''}",
        }
        return "".join(f"{name}: {value}\n" for name, value in words.items())

    def write(self, folder, more=()):
        """Writes the package, with more files of its control archive, and answers its path."""
        with tempfile.TemporaryDirectory() as work:
            root = pathlib.Path(work, "root")
            for place, source in {**self.files, **self.documents()}.items():
                put(root / place, source)
            contents = sorted(it for it in root.rglob("*") if it.is_file() and not it.is_symlink())
            sums = "".join(f"{hashlib.md5(it.read_bytes()).hexdigest()}  {it.relative_to(root)}\n" for it in contents)
            size = sum(-(-it.stat().st_size // 1024) for it in contents)
            for name, text in {"control": self.control(size), "md5sums": sums, **dict(more)}.items():
                put(root / "DEBIAN" / name, text.encode())
            for it in [root, *root.rglob("*")]:
                if not it.is_symlink():
                    it.chmod(0o755 if it.is_dir() or it.parent.name == "bin" else 0o644)
            path = folder / f"{self.name}_{make.version()}-1_amd64.deb"
            called("dpkg-deb", "--root-owner-group", "-Zxz", "--build", root, path)
        return path

    def documents(self):
        about = f"usr/share/doc/{self.name}"
        entry = f"gawerunoa ({make.version()}-1) unstable; urgency=medium\n\n  * The packages.\n\n -- {MAINTAINER}  {SAME_DATE}\n"
        return {f"{about}/copyright": HERE / "deb/copyright", f"{about}/changelog.Debian.gz": packed(entry.encode())}


def packed(contents):
    return gzip.compress(contents, 9, mtime=0)


def put(path, source):
    """Puts a file in its place: of a path its bytes, of a text the link to it, of bytes these."""
    path.parent.mkdir(parents=True, exist_ok=True)
    if isinstance(source, str):
        path.symlink_to(source)
    else:
        path.write_bytes(source if isinstance(source, bytes) else source.read_bytes())


def called(*words):
    ran = subprocess.run(list(map(str, words)), env={**os.environ, "SOURCE_DATE_EPOCH": SAME_TIME}, capture_output=True, text=True)
    if ran.returncode:
        raise SystemExit(f"{words[0]} ended with {ran.returncode}: {ran.stdout + ran.stderr}")


def stripped(path, work, *flags):
    """A copy without what a debugger wants."""
    copy = work / path.name
    shutil.copy(path, copy)
    called("strip", "--remove-section=.comment", "--remove-section=.note", *flags, copy)
    return copy


def installed(programs, suffix, work):
    """The places of the programs and of their pages, with what stands there."""
    files = {}
    for path in programs:
        page = PAGES[path.name.removesuffix(suffix)]
        files[f"usr/bin/{path.name}"] = stripped(path, work)
        files[f"usr/share/man/man1/{path.name}.1.gz"] = packed(page.read_bytes())
    return files


def make_debs(folder, library, programs, unproved=False):
    """Makes all, and answers their paths."""
    suffix = "-unproved" if unproved else ""
    name, version = f"libgawerunoa{suffix}", make.version()
    folder.mkdir(parents=True, exist_ok=True)
    with tempfile.TemporaryDirectory() as room:
        work = pathlib.Path(room)
        shared = stripped(library / f"{name}.so", work, "--strip-unneeded")
        archive = stripped(library / f"{name}.a", work, "--strip-debug", "--enable-deterministic-archives")
        objects = {f"{LIB}/{name}.so.{version}": shared, f"{LIB}/{name}.so.0": f"{name}.so.{version}"}
        runtime = Package(f"{name}0", "libs", "proved checks for a light client of a database", "libc6 (>= 2.34)", objects, suffix)
        headers = {
            "usr/include/gawerunoa.h": ROOT / "include/gawerunoa.h",
            f"{LIB}/{name}.a": archive,
            f"{LIB}/{name}.so": f"{name}.so.0",
            f"{LIB}/pkgconfig/gawerunoa{suffix}.pc": make.pkgconfig("/usr", LIB.removeprefix("usr/"), suffix).encode(),
        }
        same = f"{runtime.name} (= {version}-1), libc6-dev"
        line = "proved checks for a light client of a database - development files"
        development = Package(f"{name}-dev", "libdevel", line, same, headers, suffix)
        line = "make and check proofs of an authenticated database"
        tools = Package(f"gawerunoa{suffix}", "utils", line, "libc6 (>= 2.34)", installed(programs, suffix, work), suffix)
        shlibs = {"shlibs": f"{name} 0 {runtime.name} (>= {version})\n", "triggers": "activate-noawait ldconfig\n"}
        return [runtime.write(folder, shlibs.items()), development.write(folder), tools.write(folder)]


def main():
    words = argparse.ArgumentParser(usage="debs.py FOLDER LIBRARY PROGRAM.. [--unproved]")
    words.add_argument("folder", type=pathlib.Path)
    words.add_argument("library", type=pathlib.Path)
    words.add_argument("programs", type=pathlib.Path, nargs="+", metavar="program")
    words.add_argument("--unproved", action="store_true")
    given = words.parse_args()
    for path in make_debs(given.folder, given.library, given.programs, given.unproved):
        print(path)


if __name__ == "__main__":
    main()
