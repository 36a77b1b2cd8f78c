#!/usr/bin/env python3
"""Puts the library into packages for Python, Rust, Go and JavaScript.

    packages/make.py FOLDER LIBRARY [MODULE] [--unproved]
    packages/make.py --pkgconfig [--unproved]

LIBRARY is a folder with libgawerunoa.a and libgawerunoa.so, MODULE a folder with gawerunoa.wasm, by default LIBRARY. Into FOLDER go

    gawerunoa-VERSION-py3-none-manylinux_2_17_x86_64.whl     a wheel, for pip
    rust/, go/                                               a crate and a module with the static library inside
    javascript/                                              an npm package with the WebAssembly module inside, if that is there

With --unproved the files of LIBRARY are those of tools/unproved.py, and the names of the packages and of the files in them say so; what a
program imports keeps its name. With --pkgconfig the file for pkg-config is printed. Two runs over the same files make the same bytes. It
wants Python alone.
"""
import argparse
import base64
import hashlib
import pathlib
import re
import shutil
import zipfile

HERE = pathlib.Path(__file__).resolve().parent
ROOT = HERE.parent
EXAMPLE = ROOT / "examples/data"

# where each package, and what else is handed on, says the version
VERSIONS = {
    "packages/deb/stateproof.1": r'"gawerunoa (.*?)"',
    "crates/gawerunoa/gawerunoa.1": r'"gawerunoa (.*?)"',
    "packages/python/gawerunoa/__init__.py": r'__version__ = "(.*)"',
    "packages/rust/Cargo.toml": r'^version = "(.*)"',
    "packages/go/gawerunoa.go": r'Version = "(.*)"',
    "packages/javascript/package.json": r'"version": "(.*)"',
    "packages/javascript/gawerunoa.js": r'version = "(.*)"',
}
# glibc's names are older than those of this tag: malloc, realloc, free
TAG = "py3-none-manylinux_2_17_x86_64"
SAME_TIME = (1980, 1, 1, 0, 0, 0)


# where it is said as one number
NUMBERS = {"include/gawerunoa.h": r"GAWERUNOA_VERSION (\d+)", "crates/light_c/src/version.rt": r"^    (\d+)$"}
# what is said otherwise in a package of what is not proved: the file, the text there, and the other one
RENAMED = {
    "rust": [
        ("build.rs", "libgawerunoa.a", "libgawerunoa-unproved.a"),
        ("build.rs", "static=gawerunoa", "static=gawerunoa-unproved"),
        ("Cargo.toml", 'version = "0.1.0"', 'version = "0.1.0-unproved"'),
    ],
    "go": [("gawerunoa.go", "libgawerunoa.a", "libgawerunoa-unproved.a")],
    "javascript": [
        ("gawerunoa.js", "gawerunoa.wasm", "gawerunoa-unproved.wasm"),
        ("package.json", "gawerunoa.wasm", "gawerunoa-unproved.wasm"),
        ("package.json", '"version": "0.1.0"', '"version": "0.1.0-unproved"'),
    ],
}


def version():
    """The version, which each package, the header and the library say alike."""
    said = lambda places: {file: re.search(pattern, (ROOT / file).read_text(), re.M)[1] for file, pattern in places.items()}
    found = said(VERSIONS)
    found |= {file: f"{int(it) // 1_000_000}.{int(it) // 1000 % 1000}.{int(it) % 1000}" for file, it in said(NUMBERS).items()}
    if len(set(found.values())) != 1:
        raise SystemExit(f"make: versions differ: {found}")
    return next(iter(found.values()))


def pkgconfig(prefix="${pcfiledir}/../..", lib="lib", suffix=""):
    """The file for pkg-config."""
    return f"""prefix={prefix}
libdir=${{prefix}}/{lib}
includedir=${{prefix}}/include

Name: gawerunoa{suffix}
Description: Checks for a light client of an authenticated database that trusts one digest
Version: {version()}
Libs: -L${{libdir}} -lgawerunoa{suffix}
Cflags: -I${{includedir}}
"""


def wheel(folder, library, suffix=""):
    """Writes the wheel, and answers its path."""
    name = f"gawerunoa{suffix.replace('-', '_')}"
    info = f"{name}-{version()}.dist-info"
    files = {f"gawerunoa/{it.name}": it.read_bytes() for it in sorted((HERE / "python/gawerunoa").iterdir()) if it.is_file()}
    files["gawerunoa/libgawerunoa.so"] = (library / f"libgawerunoa{suffix}.so").read_bytes()
    files[f"{info}/licenses/LICENSE"] = (ROOT / "LICENSE").read_bytes()
    files[f"{info}/METADATA"] = metadata(suffix).encode()
    files[f"{info}/WHEEL"] = f"Wheel-Version: 1.0\nGenerator: gawerunoa\nRoot-Is-Purelib: false\nTag: {TAG}\n".encode()
    files[f"{info}/RECORD"] = record(files, f"{info}/RECORD").encode()
    path = folder / f"{name}-{version()}-{TAG}.whl"
    with zipfile.ZipFile(path, "w", zipfile.ZIP_DEFLATED) as made:
        for name, contents in files.items():
            entry = zipfile.ZipInfo(name, SAME_TIME)
            entry.external_attr = 0o644 << 16
            made.writestr(entry, contents, zipfile.ZIP_DEFLATED)
    return path


def metadata(suffix):
    head = {
        "Metadata-Version": "2.1",
        "Name": f"gawerunoa{suffix}",
        "Version": version(),
        "Summary": "Proved checks for a light client of an authenticated database",
        "License": "Apache-2.0",
        "Requires-Python": ">=3.10",
        "Description-Content-Type": "text/markdown",
    }
    return "".join(f"{name}: {value}\n" for name, value in head.items()) + "\n" + (HERE / "python/README.md").read_text()


def record(files, own):
    """The list of a wheel's files, with their digests and sizes."""
    digest = lambda it: base64.urlsafe_b64encode(hashlib.sha256(it).digest()).rstrip(b"=").decode()
    rows = [f"{name},sha256={digest(contents)},{len(contents)}\n" for name, contents in files.items()]
    return "".join(rows) + f"{own},,\n"


def tree(name, folder, suffix, *more):
    """Copies a package's folder, with the licence, and other files to their places in it."""
    room = folder / f"{name}{suffix}"
    shutil.rmtree(room, ignore_errors=True)
    shutil.copytree(HERE / name, room, ignore=shutil.ignore_patterns("target", "Cargo.lock", "node_modules"))
    for source, place in [(ROOT / "LICENSE", "LICENSE"), *more]:
        (room / place).parent.mkdir(parents=True, exist_ok=True)
        shutil.copy(source, room / place)
    if suffix:
        for file, old, new in RENAMED.get(name, []):
            text = (room / file).read_text()
            if old not in text:
                raise SystemExit(f"make: {name}/{file} has no {old}")
            (room / file).write_text(text.replace(old, new))
    return room


def make(folder, library, module, suffix=""):
    """Makes all packages, and answers their paths by the names of their languages."""
    folder.mkdir(parents=True, exist_ok=True)
    archive = (library / f"libgawerunoa{suffix}.a", f"lib/libgawerunoa{suffix}.a")
    data = sorted(EXAMPLE.glob("*.bin"))
    header = (ROOT / "include/gawerunoa.h", "include/gawerunoa.h")
    made = {
        "python": wheel(folder, library, suffix),
        "rust": tree("rust", folder, suffix, archive, *((it, f"data/{it.name}") for it in data)),
        "go": tree("go", folder, suffix, archive, header, *((it, f"testdata/{it.name}") for it in data)),
    }
    wasm = module / f"gawerunoa{suffix}.wasm"
    if wasm.is_file():
        made["javascript"] = tree("javascript", folder, suffix, (wasm, wasm.name))
    return made


def main():
    words = argparse.ArgumentParser(usage="make.py FOLDER LIBRARY [MODULE] [--unproved] | --pkgconfig [--unproved]")
    words.add_argument("folder", type=pathlib.Path, nargs="?")
    words.add_argument("library", type=pathlib.Path, nargs="?")
    words.add_argument("module", type=pathlib.Path, nargs="?")
    words.add_argument("--unproved", action="store_true")
    words.add_argument("--pkgconfig", action="store_true")
    given = words.parse_args()
    suffix = "-unproved" if given.unproved else ""
    if given.pkgconfig:
        print(pkgconfig(suffix=suffix), end="")
        return
    if given.library is None:
        words.error("FOLDER and LIBRARY are wanted")
    for path in make(given.folder, given.library, given.module or given.library, suffix).values():
        print(path)


if __name__ == "__main__":
    main()
