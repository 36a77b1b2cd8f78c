#!/usr/bin/env python3
"""Takes a copy of a snapshot from three peers, over sockets of this machine: one is honest, and two lie.

    examples/sync.py [OPERATIONS] [--family mmr|mmb] [--chunk BYTES] [--page CHUNKS] [--program PATH]

The asker trusts the canonical root and nothing else. It asks the peers in turn for the page that it wants next, and checks each page by
`verifier/verifier.py`. It keeps the operations and bits of a page that is proved, and nothing of one that is refused: its peer is told by
name and asked no more. The peers serve pages of `tools/definitions.py`. crates/storage_sync/README.md says how requests and pages are
written; here a message goes over a socket behind its length, eight bytes, the highest first.

Each liar begins with an honest page. Then the forger sets and clears bits of activity, and the replayer sends its first page again. The
status is 0 if the copy is whole in the end and the two liars, and no others, were found out.

With --program the asker is `gawerunoa sync ask`, the honest peer `gawerunoa sync serve`, and the liars lie on what another one serves. PATH
is the program. It asks by named pipes, which are joined to the sockets here.
"""
import argparse
import itertools
import os
import shutil
import socket
import socketserver
import subprocess
import sys
import tempfile
import threading
import time
from contextlib import ExitStack
from pathlib import Path

HERE = Path(__file__).resolve().parent
sys.path[:0] = [str(HERE / "verifier"), str(HERE.parent / "tools")]

import definitions
from verifier import Database, Reader, Refused, canonical_root, require, varint

# The limits of the asker: how long an operation is, and how many digests a proof has, at most.
MOST_BYTES, MOST_DIGESTS = 64, 128


def send(stream, message):
    stream.write(len(message).to_bytes(8, "big") + message)
    stream.flush()


def connected(at):
    """A socket that is connected to the one at a path."""
    it = socket.socket(socket.AF_UNIX)
    it.connect(str(at))
    return it


def receive(stream, most):
    """The next message of a stream, of at most so many bytes."""
    size = int.from_bytes(stream.read(8), "big")
    require(size <= most)
    message = stream.read(size)
    require(len(message) == size)
    return message


# ---- the one who asks


class Asker:
    """The operations and bits that are proved so far of the snapshot with a canonical root."""

    def __init__(self, database, root, max_ops):
        width = 8 * database.chunk_size
        assert max_ops >= width, "a page has to have room for a chunk's operations"
        self.database, self.root, self.step = database, root, max_ops // width * width
        self.leaves, self.operations, self.bits = None, [], []

    def next(self):
        """Where the wanted page begins, and how many operations it may have; none once all is there."""
        return None if len(self.operations) == self.leaves else (len(self.operations), self.step)

    def read(self, page):
        """The parts of a page, within the limits."""
        reader = Reader(self.database, page)
        proof = reader.range_proof(MOST_DIGESTS)
        operations = [reader.take(reader.varint(MOST_BYTES)) for _ in range(reader.varint(self.step))]
        chunks = [reader.take(self.database.chunk_size) for _ in range(reader.varint(len(operations)))]
        require(reader.at == len(page))
        return proof, operations, chunks

    def take(self, page):
        """Takes a page if it is a proved one of what is wanted; else refuses it, and is as it was."""
        start, width = len(self.operations), 8 * self.database.chunk_size
        proof, operations, chunks = self.read(page)
        leaves, end = proof[0] if self.leaves is None else self.leaves, start + len(operations)
        require(start < end <= leaves and (end % width == 0 or end == leaves))
        require(canonical_root(self.database, proof, start, operations, chunks) == self.root)
        self.leaves = leaves
        self.operations += operations
        self.bits += [chunks[it // width][it % width // 8] >> it % 8 & 1 for it in range(len(operations))]


def ask(asker, peers, told):
    """Asks the peers in turn until all is there, and returns those whose pages were refused. `told` is called after each page."""
    refused, page_size = [], 2**20 + asker.step * (MOST_BYTES + 2)
    with ExitStack() as stack:
        streams = {name: stack.enter_context(connected(at)).makefile("rwb") for name, at in peers.items()}
        for name in itertools.cycle(peers):
            wanted = asker.next()
            if wanted is None or len(refused) == len(peers):
                return refused
            if name in refused:
                continue
            try:
                send(streams[name], b"".join(map(varint, wanted)))
                asker.take(receive(streams[name], page_size))
            except Refused:
                refused.append(name)
            told(name, name not in refused)


# ---- the ones who serve


class Pages:
    """The pages of a snapshot."""

    def __init__(self, snapshot):
        self.snapshot = snapshot

    def page(self, start, max_ops):
        """The page of all operations from a location on, or of the most whole chunks of them, as it is written."""
        snapshot, width = self.snapshot, self.snapshot.width
        end = snapshot.leaves if snapshot.leaves - start <= max_ops else start + max_ops // width * width
        operations, chunks = snapshot.operations[start:end], snapshot.chunks[start // width : (end - 1) // width + 1]
        lists = [varint(len(operations)), *(varint(len(it)) + it for it in operations), varint(len(chunks)), *chunks]
        return snapshot.range_part(start, end) + b"".join(lists)


class Peer(socketserver.StreamRequestHandler):
    """Answers requests honestly."""

    def handle(self):
        self.first = None
        while head := self.rfile.peek(1) and self.rfile.read(8):
            reader = Reader(None, self.rfile.read(int.from_bytes(head, "big")))
            page = self.server.pages.page(reader.varint(), reader.varint())
            send(self.wfile, self.lie(page) if self.first else page)
            self.first = self.first or page

    def lie(self, page):
        return page


class Forger(Peer):
    """Turns the last bit of activity of each page but the first."""

    def lie(self, page):
        return page[:-1] + bytes([page[-1] ^ 1])


class Replayer(Peer):
    """Sends its first page again and again."""

    def lie(self, page):
        return self.first


def serve(stack, pages, peer, at):
    """Serves pages at the path of a socket until the stack is closed, and returns the path."""
    server = stack.enter_context(socketserver.ThreadingUnixStreamServer(str(at), peer))
    server.daemon_threads, server.pages = True, pages
    threading.Thread(target=server.serve_forever, daemon=True).start()
    stack.callback(server.shutdown)
    return at


# ---- together


def rows_of(count):
    """So many operations, their locations in eight bytes, and a digit for each, of which each third is set."""
    return [it.to_bytes(8, "big") for it in range(count)], "".join("1" if it % 3 == 0 else "0" for it in range(count))


def floor_of(count):
    """The floor of a snapshot of so many operations: the last tenth is past it."""
    return count * 9 // 10


def snapshot_of(family, chunk_size, count):
    return definitions.Snapshot(definitions.Digests("sha256"), family, *rows_of(count), floor_of(count), chunk_size)


# ---- with the program


class Served:
    """The pages that `gawerunoa sync serve` gives."""

    def __init__(self, command):
        self.command, self.process = command, None

    def page(self, start, max_ops):
        if self.process is None:
            self.process = subprocess.Popen(self.command, stdin=subprocess.PIPE, stdout=subprocess.PIPE)
        send(self.process.stdin, varint(start) + varint(max_ops))
        return receive(self.process.stdout, 2**40)

    def close(self):
        if self.process is not None:
            self.process.communicate()


class Program(socketserver.BaseRequestHandler):
    """Answers requests by the program, which has the socket as its input and output."""

    def handle(self):
        subprocess.run(self.server.pages.command, stdin=self.request, stdout=self.request, check=True)


def join(room, name, at):
    """Joins a peer's two named pipes, which are made, to its socket."""
    pipes = [room / f"{name}.{end}" for end in ("requests", "pages")]
    for it in pipes:
        os.mkfifo(it)

    def carry():
        with connected(at) as there, pipes[0].open("rb", buffering=0) as requests, pipes[1].open("wb", buffering=0) as pages:
            answers = there.makefile("rb", buffering=0)

            def back():
                try:
                    shutil.copyfileobj(answers, pages)
                except BrokenPipeError:
                    pass  # the peer is asked no more

            returns = threading.Thread(target=back, daemon=True)
            returns.start()
            shutil.copyfileobj(requests, there.makefile("wb", buffering=0))
            there.shutdown(socket.SHUT_WR)
            returns.join()

    threading.Thread(target=carry, daemon=True).start()
    return f"{name}.requests,{name}.pages"


def lines_of(count):
    """The lines of the operations, as the program reads and writes them."""
    return "".join(f"{bit} {it.hex()}\n" for it, bit in zip(*rows_of(count)))


def by_program(given):
    """Takes a copy by the program, and returns the root, how many pages of each peer were taken, whose were refused, and whether it is whole."""
    words = ["--family", given.family, "--chunk", str(given.chunk)]
    floor, program = ["--floor", str(floor_of(given.operations))], str(given.program.resolve())
    with ExitStack() as stack:
        room = Path(stack.enter_context(tempfile.TemporaryDirectory()))
        text = lines_of(given.operations)
        (room / "operations").write_text(text)
        run = lambda *words: subprocess.run([program, *words], cwd=room, stdout=subprocess.PIPE, text=True, check=True).stdout
        root = run("root", *words, *floor, "operations").split()[1]
        peers = []
        for name, kind in KINDS.items():
            pages = Served([program, "sync", "serve", *words, *floor, str(room / "operations")])
            stack.callback(pages.close)
            peers += ["--peer", join(room, name, serve(stack, pages, Program if kind is Peer else kind, room / name))]
        began = time.monotonic()
        told = run("sync", "ask", *words, *floor, "--root", root, "--max-operations", str(8 * given.chunk * given.page), *peers, "copy")
        print(f"the program took {time.monotonic() - began:.1f} seconds")
        is_whole = (room / "copy").read_text() == text and run("root", *words, *floor, "copy") == f"root: {root}\n"
    lines = [it.replace(".pages", "").split(": ") for it in told.splitlines()]
    pages = {it[1]: int(it[2].split()[0]) for it in lines if it[0] == "peer"}
    refused = {it[1]: int(it[2].split()[1]) - 1 for it in lines if it[0] == "refused"}
    return root, {**pages, **refused}, [*refused], is_whole


KINDS = {"honest": Peer, "forger": Forger, "replayer": Replayer}


def options():
    parser = argparse.ArgumentParser(description=__doc__.split("\n\n")[0])
    parser.add_argument("operations", nargs="?", type=int, default=20_000, help="how many operations the snapshot has")
    parser.add_argument("--family", choices=["mmr", "mmb"], default="mmb")
    parser.add_argument("--chunk", type=int, default=32, metavar="BYTES", help="of a chunk: a power of two")
    parser.add_argument("--page", type=int, default=1, metavar="CHUNKS", help="of a page, at most")
    parser.add_argument("--program", type=Path, metavar="PATH", help="the program gawerunoa, which asks and serves")
    return parser.parse_args()


def by_python(given):
    """The same, by what stands here."""
    family = definitions.family_of(given.family)
    snapshot = snapshot_of(family, given.chunk, given.operations)
    asker = Asker(Database(given.family, "sha256", given.chunk, *3 * [None]), snapshot.root, 8 * given.chunk * given.page)
    pages = dict.fromkeys(KINDS, 0)

    def told(name, taken):
        pages[name] += taken
        done = 40 * len(asker.operations) // given.operations
        if sys.stderr.isatty():
            print(f"\r[{'#' * done}{' ' * (40 - done)}] {sum(pages.values())} pages", end="", file=sys.stderr, flush=True)

    with ExitStack() as stack:
        room = Path(stack.enter_context(tempfile.TemporaryDirectory()))
        served = {name: serve(stack, Pages(snapshot), kind, room / name) for name, kind in KINDS.items()}
        refused = ask(asker, served, told)
    if sys.stderr.isatty():
        print(file=sys.stderr)

    bits = "".join(map(str, asker.bits))
    is_whole = asker.next() is None and asker.operations == snapshot.operations
    again = definitions.Snapshot(snapshot.digests, family, asker.operations, bits, snapshot.floor, given.chunk)
    return asker.root.hex(), pages, refused, is_whole and again.root == asker.root


def main():
    """Take a copy from the peers, and say what became of it."""
    given = options()
    root, pages, refused, is_whole = (by_program if given.program else by_python)(given)
    for name, count in pages.items():
        print(f"{name}: {count} pages taken{', then one refused' if name in refused else ''}")
    print(f"the copy is {'whole' if is_whole else 'not whole'}: {given.operations} operations, root {root}")
    return int(not is_whole or sorted(refused) != ["forger", "replayer"])


if __name__ == "__main__":
    sys.exit(main())
