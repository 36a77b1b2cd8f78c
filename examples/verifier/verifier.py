"""A verifier for light clients, written from docs/FORMAT.md alone, in its names and steps; `cases.py` tries it."""
import hashlib
from collections import namedtuple
from functools import reduce
from itertools import accumulate

# Agreed beforehand but for the root: "mmr" or "mmb", "sha256" or "sha512", N, and the three parts of a type text.
Database = namedtuple("Database", "family hash chunk_size encoding key value")

class Refused(Exception):
    """The bytes are no proof, or the proof does not fit: the answer is no."""

def require(condition):
    if not condition:
        raise Refused

def answers(check):
    """Give a check a reader of the proof. The answer is no where it refuses, bytes are left over, or N is none."""
    def answer(db, root, proof, *claim):
        reader = Reader(db, proof)
        try:
            require(db.chunk_size in [2**i for i in range(60)])
            return check(db, root, reader, *claim) and reader.at == len(proof)
        except Refused:
            return False
    return answer

def h(db, *texts):
    return hashlib.new(db.hash, b"".join(texts)).digest()

def be8(number):
    return number.to_bytes(8, "big")

def varint(number):
    return bytes([number]) if number < 128 else bytes([number & 127 | 128]) + varint(number >> 7)

def limits(kind):
    """The least and the greatest number of bytes of a type: `u64`, `fixedN` or `vec:LEAST:MOST`."""
    numbers = kind.replace("u64", "fixed8").removeprefix("fixed").removeprefix("vec:").split(":")
    return int(numbers[0]), int(numbers[-1])

def filled(db, operation):
    """An operation of an ordered database, in the fixed encoding with zeros up to the size of all."""
    require(db.encoding == "ordered-variable" or db.encoding == "ordered-fixed" and "vec" not in db.key + db.value)
    size = max(1 + 2 * limits(db.key)[1], 10) + limits(db.value)[1] if db.encoding == "ordered-fixed" else 0
    return operation.ljust(size, b"\0")

class Reader:
    """Takes parts from the front of bytes; each method refuses what is not such a part."""

    def __init__(self, db, data):
        self.db, self.data, self.at = db, data, 0

    def take(self, count):
        require(count <= len(self.data) - self.at)
        self.at += count
        return self.data[self.at - count:self.at]

    def varint(self, most=2**64 - 1):
        number = shift = 0
        while (byte := self.take(1)[0]) > 127 and shift < 63:
            number, shift = number | (byte & 127) << shift, shift + 7
        require((byte or not shift) and (byte == 1 or shift < 63) and number | byte << shift <= most)
        return number | byte << shift

    def option(self, read, *args):
        flag = self.take(1)[0]
        require(flag <= 1)
        return read(*args) if flag else None

    def part(self, kind):
        """A key or a value: as it is written, and as it is compared."""
        start, (least, most) = self.at, limits(kind)
        content = self.take(self.varint(most) if kind.startswith("vec") else most)
        require(least <= len(content) and (most <= 2**32 or kind.startswith("vec")))
        return self.data[start:self.at], content

    def range_proof(self, most):
        """Leaves, inactive peaks, digests, pending and partial slot, operations root."""
        size, leaves, inactive, count = len(h(self.db)), self.varint(2**62), self.varint(), self.varint(most)
        digests = [self.take(size) for _ in range(count)]  # ends where the bytes do
        pending = self.option(self.take, size) if self.db.family == "mmb" else None
        return leaves, inactive, digests, pending, self.option(self.take, size), self.take(size)

    def operation_proof(self):
        """Location, chunk and range proof."""
        return self.varint(2**62), self.take(self.db.chunk_size), self.range_proof(128)

def typed(db, kind, text):
    """A claimed key or value as it is compared; refused where the text is not just one. Vectors may have any length here."""
    written, content = Reader(db, text).part(f"vec:0:{2**64 - 1}" if kind.startswith("vec") else kind)
    require(written == text)
    return content

def peaks(family, n):
    """The peaks over n leaves, from left to right. The node (a, k) covers the 2^k leaves from a on."""
    if family == "mmr":
        heights = [k for k in reversed(range(n.bit_length())) if n >> k & 1]
    else:
        heights = [i + (n + 1 >> i & 1) for i in reversed(range((n + 1).bit_length() - 1))]
    return list(zip(accumulate((2**k for k in heights), initial=0), heights))

def birth(family, a, k):
    """The number of leaves from which on the tree has a node."""
    return a + 2**k if family == "mmr" or k == 0 else a + 3 * 2**(k - 1) - 1

def position(family, a, k):
    n, more = (a, 2 * 2**k - 2) if family == "mmr" or k == 0 else (birth(family, a, k), -1)
    return 2 * n - len(peaks(family, n)) + more

def canonical_root(db, proof, start, operations, chunks):
    """The root to which a range proof leads: steps 3 to 12 of the check of a range."""
    n, i, digests, pending, partial, operations_root = proof
    end, covered = start + len(operations), 8 * db.chunk_size
    require(0 <= start < end <= n)
    require(len(chunks) == (end - 1) // covered - start // covered + 1 and {*map(len, chunks)} == {db.chunk_size})
    chunk_at = dict(enumerate(chunks, start // covered))

    complete, rest = divmod(n, covered)
    graftable = max(0, (n - birth(db.family, 0, covered.bit_length() - 1)) // covered + 1)
    for slot, there, number in (pending, graftable < complete, graftable), (partial, rest > 0, complete):
        require((slot is not None) == there)
        require(not there or number not in chunk_at or h(db, chunk_at[number]) == slot)

    row = peaks(db.family, n)
    require(i <= len(row))
    left, right = sum(a + 2**k <= start for a, k in row), sum(a < end for a, k in row)
    nodes = row[left:right]  # the overlapped peaks, and below the nodes that have to be looked at
    for a, k in nodes:
        if k and a < end and start < a + 2**k:
            nodes += [(a, k - 1), (a + 2**(k - 1), k - 1)]
    siblings = [(a, k) for a, k in nodes if a >= end or a + 2**k <= start]
    before, past = ["fold before"] * (min(i, left) > 0), ["fold past"] * (max(i, right) < len(row))
    sites = before + row[i:left] + row[right:i] + past + sorted(siblings, key=lambda node: position(db.family, *node))
    require(len(sites) == len(digests))
    digest = dict(zip(sites, digests))

    for a, k in [node for node in reversed(nodes) if node not in digest]:
        below = [digest[a, k - 1], digest[a + 2**(k - 1), k - 1]] if k else [operations[a - start]]
        digest[a, k] = h(db, be8(position(db.family, a, k)), *below)
        if 2**k == covered and any(chunk_at[a // covered]):  # where such a node is, its chunk is graftable
            digest[a, k] = h(db, chunk_at[a // covered], digest[a, k])

    items = [digest[site] for site in before + row[left:i]]
    items = [reduce(lambda fold, item: h(db, fold, item), items)] if items else []
    items += [digest[site] for site in row[i:right] + past]
    bagged = reduce(lambda fold, item: h(db, item, fold), reversed(items))
    grafted_root = h(db, b"\0\1" if db.family == "mmr" else b"\1\1", be8(n), be8(i), bagged)
    return h(db, operations_root, grafted_root, pending or b"", be8(rest) + partial if rest else b"")

def is_active(db, root, proof, operation):
    """Whether an operation stands at the proof's own location and is active: steps 4 and 5 of one operation."""
    location, chunk, range_proof = proof
    require(chunk[location % (8 * db.chunk_size) // 8] >> location % 8 & 1)
    return canonical_root(db, range_proof, location, [operation], [chunk]) == root

@answers
def check_range(db, root, proof, start, operations, chunks, most=128):
    """Whether operations stand from a location on, with these chunks; at most so many digests are read."""
    return canonical_root(db, proof.range_proof(most), start, operations, chunks) == root

@answers
def check_operation(db, root, proof, operation, location=None):
    """Whether an operation stands at a location (None: the proof's own) and is active."""
    parts = proof.operation_proof()
    return location in (parts[0], None) and is_active(db, root, parts, operation)

@answers
def check_value(db, root, proof, key, value):
    """Whether a key has a value, both as they are written."""
    typed(db, db.key, key), typed(db, db.value, value)
    parts, next_key = proof.operation_proof(), proof.part(db.key)[0]
    return is_active(db, root, parts, filled(db, b"\xd2" + key + value + next_key))

@answers
def check_absence(db, root, proof, key):
    """Whether a key, as it is written, has no value."""
    q, tag, parts = typed(db, db.key, key), proof.take(1)[0], proof.operation_proof()
    require(tag <= 1)
    if tag == 0:
        (key, k), (value, _), (next_key, x) = proof.part(db.key), proof.part(db.value), proof.part(db.key)
        require(q != k and (k < q < x if k < x else k < q or q < x))
        return is_active(db, root, parts, filled(db, b"\xd2" + key + value + next_key))
    fixed, value = "fixed" in db.encoding, proof.option(proof.part, db.value)
    option = b"\1" + value[0] if value else bytes(1 + fixed * limits(db.value)[1])
    return is_active(db, root, parts, filled(db, b"\xd3" + option + (be8(parts[0]) if fixed else varint(parts[0]))))
