#!/usr/bin/env python3
"""What a database answers, from the definitions over whole lists: `stateproof db`, the work `commands` of `benchmarks`, and the programs
`example_server` and `example_follower`.

    tools/database.py FAMILY CHUNK
    tools/database.py commands
    tools/database.py example
    tools/database.py log
    tools/database.py follower

Standard input has the commands and questions, a line for each, all of them as they should be: of `stateproof db`, or of `example_server`.
With `commands` it has lines of `benchmarks`, each with a number that settles many commands. With `log` its commands give the log that
`example_follower` reads, with questions after each batch; with `follower` what it answers to it.
Nothing is taken from the sources of the crates: tools/definitions.py has trees, snapshots and proofs, docs/DEFINITIONS.md says in words
what a command appends.
"""
import sys

from definitions import Digests, Family, Snapshot, be8, varint


class Fixed:
    """Keys of 4 bytes and numbers as values. An operation has as many bytes as a commit: its tag, a value that may be missing, its floor."""

    def key(self, key):
        return key

    def value(self, value):
        return be8(value)

    def operation(self, tag, *parts):
        return b"".join([tag, *parts]).ljust(1 + 9 + 8, b"\0")

    def commit(self, floor):
        return b"\xd3" + bytes(9) + be8(floor)


class Variable:
    """Byte strings as keys and values, each after its length."""

    def key(self, key):
        return varint(len(key)) + key

    value = key

    def operation(self, tag, *parts):
        return b"".join([tag, *parts])

    def commit(self, floor):
        return b"\xd3\0" + varint(floor)


def others(keys, key):
    """The other keys, from the one after a key on, around past the greatest."""
    return sorted(it for it in keys if it > key) + sorted(it for it in keys if it < key)


class Commit:
    """What a database keeps of a commit: where it stands, the keys and the snapshot."""

    def __init__(self, encoding, location, active, snapshot):
        self.encoding, self.location, self.active, self.snapshot = encoding, location, active, snapshot

    def next_key(self, key):
        return self.encoding.key(next(iter(others(self.active, key)), key))

    def value_proof(self, key):
        return self.snapshot.operation_proof(self.active[key][1]) + self.next_key(key)

    def absence_proof(self, key):
        if not self.active:
            return b"\1" + self.snapshot.operation_proof(self.location) + b"\0"
        before = others(self.active, key)[-1]
        value, location = self.active[before]
        told = self.encoding.key(before) + self.encoding.value(value) + self.next_key(before)
        return b"\0" + self.snapshot.operation_proof(location) + told

    def proof(self, key):
        return self.value_proof(key) if key in self.active else self.absence_proof(key)

    def value(self, key):
        return f"{self.active[key][0]} {self.value_proof(key).hex()}" if key in self.active else "absent"

    def absence(self, key):
        return "present" if key in self.active else self.absence_proof(key).hex()

    def claim(self, key):
        """What `example_server` answers of a key."""
        if key in self.active:
            return f"value {key.decode()} {self.active[key][0].decode()} {self.value_proof(key).hex()}"
        return f"absence {key.decode()} {self.absence_proof(key).hex()}"


class Database:
    """Operations, a bit for each, the active keys with their values and locations, and the last commit."""

    def __init__(self, family, size, encoding=Fixed(), function="sha256"):
        self.family, self.size, self.encoding, self.digests = Family(family), size, encoding, Digests(function)
        self.operations, self.bits, self.active, self.last = [], [], {}, None

    def append(self, operation, bit):
        self.operations.append(operation)
        self.bits.append(bit)

    def updated(self, key, value, next_key):
        if key in self.active:
            self.bits[self.active[key][1]] = "0"
        self.active[key] = value, len(self.operations)
        parts = self.encoding.key(key), self.encoding.value(value), self.encoding.key(next_key)
        self.append(self.encoding.operation(b"\xd2", *parts), "1")

    def put(self, key, value):
        is_new, ring = key not in self.active, others(self.active, key)
        self.updated(key, value, ring[0] if ring else key)
        if is_new and ring:
            self.updated(ring[-1], self.active[ring[-1]][0], key)

    def delete(self, key):
        if key not in self.active:
            return "no"
        ring = others(self.active, key)
        self.bits[self.active.pop(key)[1]] = "0"
        self.append(self.encoding.operation(b"\xd1", self.encoding.key(key)), "0")
        if ring:
            self.updated(ring[-1], self.active[ring[-1]][0], ring[0])
        return "yes"

    def commit(self):
        location = len(self.operations)
        floor = min([location, *(it for _, it in self.active.values())])
        if self.last:
            self.bits[self.last.location] = "0"
        self.append(self.encoding.commit(floor), "1")
        snapshot = Snapshot(self.digests, self.family, [*self.operations], "".join(self.bits), floor, self.size)
        self.last = Commit(self.encoding, location, dict(self.active), snapshot)
        return snapshot.root.hex()

    def change(self, word, key, value):
        """Does what the word says, where that changes the database."""
        if word == "put":
            self.put(key, value)
        elif word == "delete":
            self.delete(key)
        elif word == "commit":
            self.commit()

    def answer(self, line):
        """What `stateproof db` answers to a line; none for a put."""
        word, *rest = line.split(" ")
        key = bytes.fromhex(rest[0]) if rest else None
        if word == "put":
            return self.put(key, int(rest[1]))
        if word == "delete":
            return self.delete(key)
        if word == "commit":
            return self.commit()
        if self.last is None:
            return "uncommitted"
        return self.last.value(key) if word == "value" else self.last.absence(key)

    def answer_of_example(self, line):
        """What `example_server` answers to a line; none for a put and a deletion."""
        word, _, rest = line.partition(" ")
        if word == "commit":
            return f"root {self.commit()}"
        if word == "put":
            return self.put(*rest.encode().split(b" ", 1))
        if word == "delete":
            return self.delete(rest.encode()) and None
        return self.last.claim(rest.encode()) if self.last else "uncommitted"


def drawn(keys, count, seed):
    """So many commands that look random, with so many keys, a power of two: each a word, a key, and the number that gave both."""
    for _ in range(count):
        seed = (seed * 6_364_136_223_846_793_005 + 1_442_695_040_888_963_407) % 2**64
        first, _, what, *_ = be8(seed)
        word = "commit" if what % 64 == 0 else "ask" if what % 64 == 1 else "delete" if what % 64 <= 20 else "put"
        yield word, be8(first % keys)[4:], seed


def answer_to_commands(line):
    """What `benchmarks` answers to a line of its work `commands`: the digest of all roots and proofs."""
    *function, family, keys, count, seed = line.split()[1:]
    digests = Digests(*function or ["sha256"])
    database, answer = Database(family, 1, function=digests.name), digests.filled(0)
    for word, key, number in drawn(int(keys), int(count), int(seed)):
        database.change(word, key, number)
        last = database.last
        if last and word in ("commit", "ask"):
            answer = digests.of(answer, last.snapshot.root, last.proof(key))
    return answer.hex()


def lines_of(answers):
    """The text of the answers that there are, a line for each."""
    return "".join(f"{it}\n" for it in answers if it is not None)


def answers(family, size, lines):
    """The text that `stateproof db` writes for some lines."""
    database = Database(family, size)
    return lines_of([database.answer(it) for it in lines])


def example(lines):
    """The text that `example_server` writes for some lines, and its database after them."""
    database = Database("mmb", 32, Variable())
    return lines_of([database.answer_of_example(it) for it in lines]), database


def followed(lines):
    """The lines of the log of the database that some lines for `example_server` make, with questions after each batch, and what
    `example_follower` answers: a batch is what a commit ends."""
    database, log, told, before = Database("mmb", 32, Variable()), [], [], ""
    for line in lines:
        database.answer_of_example(line)
        if line != "commit":
            continue
        snapshot, bits = database.last.snapshot, "".join(database.bits)
        count = len(before)
        log += [f"{'active' if it == '1' else 'inactive'} {them.hex()}" for it, them in zip(bits[count:], database.operations[count:])]
        log += [f"clear {it}" for it in range(count) if before[it] > bits[it]]
        log.append(f"end {snapshot.floor}")
        told.append(f"root {snapshot.root.hex()}")
        end, start = len(bits), 3 * len(bits) // 5
        chunks = b"".join(snapshot.chunks[start // snapshot.width : -(-end // snapshot.width)])
        for it in sorted({end // 2, end - 1}):
            log.append(f"operation {it}")
            told.append(f"operation {it} {snapshot.operation_proof(it).hex()}")
        log.append(f"range {start} {end}")
        told.append(f"range {start} {end} {chunks.hex()} {snapshot.range_part(start, end).hex()}")
        before = bits
    return lines_of(log), lines_of(told)


def main():
    lines = sys.stdin.read().splitlines()
    if sys.argv[1:] == ["commands"]:
        print(lines_of(map(answer_to_commands, lines)), end="")
    elif sys.argv[1:] == ["example"]:
        print(example(lines)[0], end="")
    elif sys.argv[1:] in (["log"], ["follower"]):
        print(followed(lines)[sys.argv[1] == "follower"], end="")
    else:
        family, size = sys.argv[1:]
        print(answers(family, int(size), lines), end="")


if __name__ == "__main__":
    main()
