"""Copies between runs of `gawerunoa sync serve` and `gawerunoa sync ask`, and from peers that lie. Pages are those of tools/definitions.py."""
import random
import subprocess
import tempfile
from pathlib import Path

import definitions
from definitions import varint

SECONDS = 60


def message(content):
    return len(content).to_bytes(8, "big") + content


def text_of(content):
    """Bytes as the text that stands for them in a case."""
    return content.decode("latin-1")


def page(snapshot, start, end):
    """The page of the operations from a location to before another one, as it is written."""
    operations = snapshot.operations[start:end]
    chunks = snapshot.chunks[start // snapshot.width : (end - 1) // snapshot.width + 1]
    lists = [varint(len(operations)), *(varint(len(it)) + it for it in operations), varint(len(chunks)), *chunks]
    return snapshot.range_part(start, end) + b"".join(lists)


def pages_of(snapshot, step):
    """The requests for pages of so many operations, and the pages."""
    starts = range(0, snapshot.leaves, step)
    return [varint(it) + varint(step) for it in starts], [page(snapshot, it, min(it + step, snapshot.leaves)) for it in starts]


def snapshot_of(dice, name, family, size, count):
    """A snapshot, and its digits."""
    operations = [dice.randbytes(dice.randrange(1, 40)) for _ in range(count)]
    bits = "".join(dice.choice("01") for _ in range(count))
    return definitions.Snapshot(definitions.Digests(name), family, operations, bits, dice.randrange(count + 1), size), bits


def rows(snapshot, bits):
    return "".join(f"{bit} {it.hex()}\n" for bit, it in zip(bits, snapshot.operations))


def copies(program, hashes, sizes, seed=13):
    """Copies over both families and digest functions, and each size of a chunk."""
    dice = random.Random(seed)
    for name in hashes:
        for family in (definitions.MMR, definitions.MMB):
            for size in sizes:
                count = dice.choice([1, 8 * size, 8 * size + 3, 24 * size + 1]) if size < 64 else dice.randrange(1, 40)
                snapshot, bits = snapshot_of(dice, name, family, size, count)
                words = ["--family", family.name, "--hash", name, "--chunk", str(size)]
                served(program, words, snapshot, bits)
                joined(program, words, snapshot, bits)
    snapshot, bits = snapshot_of(dice, "sha256", definitions.MMB, 1, 30)
    lied(program, ["--family", "mmb", "--chunk", "1"], snapshot, bits)
    hardships(program)


def served(program, words, snapshot, bits):
    """The pages for all requests of a copy, and for all of it at once."""
    files = {"operations": rows(snapshot, bits)}
    asked, pages = pages_of(snapshot, snapshot.width)
    asked, pages = [*asked, varint(0) + varint(2**64 - 1)], [*pages, page(snapshot, 0, snapshot.leaves)]
    given = text_of(b"".join(map(message, asked)))
    ending = program.ended(["sync", "serve", *words, "--floor", str(snapshot.floor), "operations"], given, files)
    program.see(f"sync serve {words}", ending, (0, text_of(b"".join(map(message, pages))), ""))


def joined(program, words, snapshot, bits, *limits):
    """A copy by two runs, whose inputs and outputs are joined."""
    text = rows(snapshot, bits)
    with tempfile.TemporaryDirectory() as folder:
        room = Path(folder)
        (room / "operations").write_text(text)
        how = {"cwd": room, "stdout": subprocess.PIPE, "stderr": subprocess.PIPE}
        serve = [program.path, "sync", "serve", *words, "--floor", str(snapshot.floor), "operations"]
        ask = [program.path, "sync", "ask", *words, "--root", snapshot.root.hex(), "--floor", str(snapshot.floor), *limits, "copy"]
        with subprocess.Popen(serve, stdin=subprocess.PIPE, **how) as server:
            asker = subprocess.run(ask, stdin=server.stdout, **{**how, "stdout": server.stdin}, timeout=SECONDS)
            server.stdin.close()
            endings = (asker.returncode, asker.stderr, server.wait(SECONDS), server.stderr.read())
        program.see(f"sync {words}", (endings, (room / "copy").read_text()), ((0, b"", 0, b""), text))


def lied(program, words, snapshot, bits):
    """Copies from two peers, of which one begins with an honest page and then lies."""
    width, root = snapshot.width, snapshot.root.hex()
    _, pages = pages_of(snapshot, width)
    operation = pages[2].replace(snapshot.operations[2 * width], bytes(len(snapshot.operations[2 * width])))
    lies = {
        "a bit turned": (pages[2][:-1] + bytes([pages[2][-1] ^ 1]), "not proved"),
        "another operation": (operation, "not proved"),
        "the first page again": (pages[0], "not proved"),
        "a page too long": (page(snapshot, 2 * width, snapshot.leaves), "more than the limits admit"),
        "a cut page": (pages[2][:-1], "no page"),
        "a byte too many": (pages[2] + b"\0", "no page"),
        "nothing": (b"", "no page"),
    }
    for what, (lie, why) in lies.items():
        liar, honest = b"".join(map(message, [pages[0], lie])), b"".join(map(message, [pages[1], *pages[2:]]))
        files = {"liar": text_of(liar), "honest": text_of(honest)}
        asked = ["sync", "ask", *words, "--root", root, "--max-operations", str(width), "--peer", "asked,liar", "--peer", "asked-too,honest"]
        told = f"peer: honest: {len(pages) - 1} pages taken\nrefused: liar: page 2: {why}\ncopied: {snapshot.leaves} operations\n"
        floor = f"floor: {snapshot.floor}: with it the copy has the root\n"
        ending = program.ended([*asked, "--floor", str(snapshot.floor), "copy"], "", files)
        program.see(f"sync ask, {what}", ending, (0, told + floor, ""))
        program.see(f"sync ask, {what}, to standard output", program.ended([*asked, "-"], "", files), (0, rows(snapshot, bits), ""))


def hardships(program):
    """An operation of five megabytes, and pages into a pipe that nobody reads."""
    ten, words = 10**7, ["--family", "mmb", "--chunk", "32"]
    operations = [b"\xab" * (ten // 2), b"\1"]
    snapshot = definitions.Snapshot(definitions.Digests("sha256"), definitions.MMB, operations, "11", 0, 32)
    joined(program, words, snapshot, "11", "--max-operation-length", str(ten))
    with tempfile.TemporaryDirectory() as room:
        Path(room, "operations").write_text(rows(snapshot, "11"))
        asked = [program.path, "sync", "serve", *words, "--floor", "0", "operations"]
        how = {"cwd": room, "stdin": subprocess.PIPE, "stdout": subprocess.PIPE, "stderr": subprocess.PIPE}
        run = subprocess.Popen(asked, **how)
        run.stdout.close()
        _, errors = run.communicate(message(varint(0) + varint(256)), timeout=SECONDS)
        right = (3, b"error: standard output: Broken pipe (os error 32)\n")
        program.see("sync serve into a closed pipe", (run.returncode, errors), right)
