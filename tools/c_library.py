#!/usr/bin/env python3
"""Makes the library for C from what `rt lib` built of the crate light_c.

    tools/c_library.py FOLDER [--built TREE]

Into the folder go `libgawerunoa.a`, `libgawerunoa.so` and a link to this. Both have the code of the crate, the kit's three functions over malloc,
realloc and free, and `gawerunoa_build`, which says how they were built; and no names but those that begin with `gawerunoa_`. With --built the crate is proved and built here, over the
libraries that stand in TREE and over what a proof of the crate kept there, and the LLVM module of its code goes into the folder too, for
examples/page/wasm. It wants gcc with its binutils.
"""
import argparse
import pathlib
import re
import shlex
import shutil
import subprocess
import tempfile

from wrong_bodies import Crate, kit_folder, uses_of_crates

ROOT = pathlib.Path(__file__).resolve().parent.parent
CRATE = "light_c"
BUILT = ROOT / f"crates/{CRATE}/out/lib{CRATE}.a"
NAMES = "gawerunoa_*"
# programs that are linked with one version run with each later one of this number
ABI = 0
LLVM = f"{CRATE}.bc"


def called(*words, folder=None):
    """Runs a command, and shows what it printed where it fails."""
    ran = subprocess.run(list(map(str, words)), cwd=folder, stdout=subprocess.PIPE, stderr=subprocess.STDOUT, text=True)
    if ran.returncode:
        raise SystemExit(f"{words[0]} ended with {ran.returncode}: {ran.stdout[-3000:]}")


def toolchain_with(kit, work, first):
    """The kit's folder of compilers by links, in the folder `work`, but that its clang runs a line of the shell first."""
    folder = pathlib.Path(work, "toolchain")
    (folder / "bin").mkdir(parents=True)
    (folder / "lib").symlink_to(kit / "toolchain/lib")
    for it in (kit / "toolchain/bin").iterdir():
        if it.name != "clang":
            (folder / "bin" / it.name).symlink_to(it)
    clang = folder / "bin/clang"
    clang.write_text(f'#!/bin/sh\n{first}\nexec {shlex.quote(str(kit))}/toolchain/bin/clang "$@"\n')
    clang.chmod(0o755)
    return folder


def module_kept(module):
    """The line of the shell that keeps the LLVM module which clang is given."""
    return f'for it; do case "$it" in *.bc) cp "$it" {shlex.quote(str(module))} ;; esac; done'


def archive_over(built, kit, work):
    """The crate's archive, proved and built over the libraries of a tree, and over what a proof of the crate kept there, so that nothing is
    proved twice. The LLVM module of its code stands beside it."""
    built = built.resolve()
    crate = Crate(CRATE, uses_of_crates(), built, kit)
    kept = crate.kept_at(built)
    kept.mkdir(parents=True, exist_ok=True)
    archive = pathlib.Path(work, f"lib{CRATE}.a")
    rattle, _, *words = crate.command
    toolchain = toolchain_with(kit, work, module_kept(pathlib.Path(work, LLVM)))
    words += ["--incremental", kept, "--toolchain", toolchain, "--backend", "llvm"]
    called(rattle, "build", *words, "-o", archive, folder=crate.folder)
    return archive


def build_text(unproved=False):
    """How the library is built, as `gawerunoa_build` says it: the version and the kit."""
    packages = (ROOT / "packages/python/gawerunoa/__init__.py").read_text()
    version = re.search(r'^__version__ = "(.*)"', packages, re.M)[1]
    identity = subprocess.run(["rt", "version"], capture_output=True, text=True, check=True).stdout.strip()
    return f"gawerunoa {version}-unproved with {identity}" if unproved else f"gawerunoa {version} proved by {identity}"


def build_object(path, *compiler, unproved=False):
    """The object of the one function in C, which answers the text of this build."""
    source = path.with_suffix(".c")
    text = build_text(unproved).replace('"', "")
    source.write_text(f'const char *gawerunoa_build(void);\nconst char *gawerunoa_build(void) {{ return "{text}"; }}\n')
    called(*compiler, "-c", source, "-o", path)
    return path


def joined(folder, parts, suffix=""):
    """The archive and the shared object of the parts, objects and archives, with no names but the library's own."""
    name = f"libgawerunoa{suffix}"
    with tempfile.TemporaryDirectory() as work:
        for part in parts:
            if part.suffix == ".a":
                called("ar", "x", part.resolve(), folder=work)
            else:
                shutil.copy(part, work)
        one = pathlib.Path(work, "gawerunoa.o")
        called("ld", "-r", "-o", one, *sorted(pathlib.Path(work).glob("*.o")))
        called("objcopy", "--wildcard", f"--keep-global-symbol={NAMES}", one)
        called("ar", "rcsD", f"{name}.a", one.name, folder=work)
        soname = f"-Wl,-soname,{name}.so.{ABI}"
        called("gcc", "-shared", "-o", f"{name}.so", soname, "-Wl,-z,defs", "-Wl,-z,relro,-z,now", one.name, folder=work)
        folder.mkdir(parents=True, exist_ok=True)
        for it in (f"{name}.a", f"{name}.so"):
            shutil.copy(pathlib.Path(work, it), folder / it)
    # the name by which a program that is linked with it asks for it
    link = folder / f"{name}.so.{ABI}"
    link.unlink(missing_ok=True)
    link.symlink_to(f"{name}.so")
    return folder / f"{name}.a"


def make(folder, built=None):
    """Makes both, and answers the path of the archive."""
    if built is None and not BUILT.is_file():
        raise SystemExit(f"crates/{CRATE} is not built: run `rt lib` in crates/{CRATE} first")
    kit = kit_folder()
    with tempfile.TemporaryDirectory() as room:
        room = pathlib.Path(room)
        checks = BUILT if built is None else archive_over(built, kit, room)
        text = build_object(room / "gawerunoa_build.o", "gcc", "-O2", "-fPIC")
        archive = joined(folder, [checks, kit / "c/liblibc_c.a", text])
        if built is not None:
            shutil.copy(room / LLVM, folder / LLVM)
    return archive


if __name__ == "__main__":
    asked = argparse.ArgumentParser(usage="c_library.py FOLDER [--built TREE]")
    asked.add_argument("folder", type=pathlib.Path)
    asked.add_argument("--built", type=pathlib.Path)
    asked = asked.parse_args()
    make(asked.folder, asked.built)
