"""Trees, proofs, bitmaps and snapshots as the definitions have them: by recursion over whole lists, over any digest function.

Nothing here is made for speed, and nothing is taken from the sources of the crates. A node is the pair of its first leaf and its
height, a range that of its first location and the one past its last; docs/DEFINITIONS.md and docs/FORMAT.md say the same in words.

Below them each function of CHECKS and LISTS answers a case of the list of `replay` with its name, from its columns, over a digest
function. tools/forgeries.py changes the text of this file to leave out comparisons: each stands where it can be taken out alone.
"""
import collections
import functools
import hashlib

MAX_LEAVES = 2**62


def be8(number):
    return number.to_bytes(8, "big")


def varint(number):
    """A number in groups of seven bits, the low one first."""
    return bytes([number]) if number < 128 else bytes([number % 128 + 128]) + varint(number // 128)


class Digests:
    """A digest function of hashlib."""

    def __init__(self, name):
        self.name, self.size = name, hashlib.new(name).digest_size

    def of(self, *parts):
        return hashlib.new(self.name, b"".join(parts)).digest()

    def filled(self, byte):
        return bytes([byte]) * self.size

    def fold_left(self, items):
        return functools.reduce(self.of, items)

    def fold_right(self, items):
        return functools.reduce(lambda right, left: self.of(left, right), reversed(items))


class Family:
    """The shape of the trees of a family."""

    def __init__(self, name):
        self.name, self.byte = name, ["mmr", "mmb"].index(name)

    def heights(self, leaves):
        count = leaves + self.byte
        digits = [count >> place & 1 for place in range(count.bit_length())]
        if self.name == "mmr":
            return [place for place in reversed(range(len(digits))) if digits[place]]
        return [place + digits[place] for place in reversed(range(len(digits) - 1))]

    def peaks(self, leaves):
        first, peaks = 0, []
        for height in self.heights(leaves):
            peaks.append((first, height))
            first += 2**height
        return peaks

    def size(self, leaves):
        return 2 * leaves - len(self.heights(leaves))

    def birth(self, node):
        """From how many leaves on the tree has a node."""
        first, height = node
        return first + (2**height if self.name == "mmr" or not height else 3 * 2 ** (height - 1) - 1)

    def position(self, node):
        first, height = node
        if not height:
            return self.size(first)
        return self.size(first) + 2 ** (height + 1) - 2 if self.name == "mmr" else self.size(self.birth(node)) - 1

    def nodes(self, leaves):
        """The nodes of a tree, by position."""
        heights = range(leaves.bit_length() + 1)
        nodes = [(first, height) for height in heights for first in range(0, leaves, 2**height)]
        return {self.position(it): it for it in nodes if self.birth(it) <= leaves}


def end_of(node):
    return node[0] + 2 ** node[1]


def halves(node):
    first, height = node
    return (first, height - 1), (first + 2 ** (height - 1), height - 1)


def holds(node, locations):
    return any(node[0] <= it < end_of(node) for it in locations)


def without(node, locations):
    """The greatest nodes inside a node that hold none of some locations."""
    if not holds(node, locations):
        return [node]
    return [it for half in halves(node) for it in without(half, locations)] if node[1] else []


class Tree:
    """A tree over elements, with chunks over its nodes of some height."""

    def __init__(self, digests, family, elements, height=None, chunks=None):
        """The chunks are given by their numbers."""
        self.digests, self.family, self.elements = digests, family, elements
        self.height, self.chunks, self.leaves = height, chunks or {}, len(elements)
        self.node = functools.lru_cache(None)(self.node_anew)

    def node_anew(self, node):
        position, (first, height) = be8(self.family.position(node)), node
        if not height:
            return self.digests.of(position, self.elements[first])
        return self.over(node, *map(self.node, halves(node)))

    def over(self, node, left, right):
        """The digest of a node from those of its halves."""
        inner = self.digests.of(be8(self.family.position(node)), left, right)
        chunk = self.chunks.get(node[0] // 2 ** node[1], b"") if node[1] == self.height else b""
        return self.digests.of(chunk, inner) if any(chunk) else inner

    def root(self, direction, inactive):
        peaks = [self.node(it) for it in self.family.peaks(self.leaves)]
        return root_of(self.digests, self.family, direction, self.leaves, inactive, peaks[:inactive], peaks[inactive:])

    def range_proof(self, direction, inactive, start, end):
        """The digests of the own proof of a range."""
        told = sites(self.family, direction, self.leaves, inactive, range(start, end))
        folds = {"left": self.digests.fold_left, "right": self.digests.fold_right}
        return [folds[way]([self.node(it) for it in nodes]) for way, nodes in told]

    def multi_proof(self, locations):
        peaks = self.family.peaks(self.leaves)
        needed = [it for peak in peaks for it in without(peak, locations)]
        return [self.node(it) for it in sorted(needed, key=self.family.position)]


def root_of(digests, family, direction, leaves, count, inactive, active):
    """The root from the items that are folded from the left, and the others."""
    items = ([digests.fold_left(inactive)] if inactive else []) + active
    fold = digests.fold_right if direction == "backward" else digests.fold_left
    bagged = [fold(items)] if items else []
    byte = bytes([family.byte, direction == "backward"])
    return digests.of(byte, be8(leaves), be8(count), *bagged)


def sites(family, direction, leaves, inactive, locations):
    """What the digests of a range proof are of: nodes that are folded from the left or from the right, in the order of the proof."""
    peaks = family.peaks(leaves)
    before = [it for it in peaks if end_of(it) <= locations.start]
    past = [it for it in peaks if it[0] >= locations.stop]
    fixed = peaks[:inactive] if direction == "backward" else peaks
    told = [("left", [it for it in before if it in fixed])] + [("left", [it]) for it in before if it not in fixed]
    told += [("left", [it]) for it in past if it in fixed] + [("right", [it for it in past if it not in fixed])]
    inside = [it for peak in peaks if peak not in before + past for it in without(peak, locations)]
    told += [("left", [it]) for it in sorted(inside, key=family.position)]
    return [(way, nodes) for way, nodes in told if nodes]


class Check:
    """The check of a range proof: whether its counts fit, the root that it gives, and how many nodes and folds are hashed."""

    def __init__(self, tree, direction, leaves, inactive, proof, start):
        """The tree has the elements that are claimed in the places from `start` on, and its chunks."""
        self.tree, self.hashed, self.root = tree, 0, None
        family, claimed = tree.family, range(start, start + len(tree.elements))
        fits = [leaves <= MAX_LEAVES, claimed.start < claimed.stop, claimed.stop <= leaves, inactive <= len(family.heights(leaves))]
        told = sites(family, direction, leaves, inactive, claimed) if all(fits) else []
        if not all(fits) or len(told) != len(proof):
            self.folds = 0
            return
        self.start, self.given = start, {tuple(nodes): it for (_, nodes), it in zip(told, proof)}
        peaks = family.peaks(leaves)
        parts = [self.items(peaks[:inactive], told), self.items(peaks[inactive:], told)]
        self.folds = sum(max(len(it) - 1, 0) for it in parts) + (all(parts) and 1)
        self.root = root_of(tree.digests, family, direction, leaves, inactive, *parts)

    def items(self, peaks, told):
        """The items that are folded of some peaks: folds that are given stand in the place of the first of their peaks."""
        folds = {nodes[0]: tuple(nodes) for _, nodes in told}
        inner = {it for nodes in folds.values() for it in nodes[1:]}
        return [self.given[folds[it]] if it in folds else self.node(it) for it in peaks if it not in inner]

    def node(self, node):
        if (node,) in self.given:
            return self.given[node,]
        if not node[1]:
            position = be8(self.tree.family.position(node))
            return self.tree.digests.of(position, self.tree.elements[node[0] - self.start])
        self.hashed += 1
        return self.tree.over(node, *map(self.node, halves(node)))


class Snapshot:
    """Operations, a bit for each that says whether it is active, and an inactivity floor, with chunks of some bytes."""

    def __init__(self, digests, family, operations, bits, floor, size):
        self.digests, self.family, self.operations, self.floor, self.size = digests, family, operations, floor, size
        self.leaves, self.width, self.height = len(operations), 8 * size, (8 * size).bit_length() - 1
        self.chunks = chunks_of(bits, size)
        self.slots = slots_of(family, self.leaves, self.width)
        grafted = dict(enumerate(self.chunks[: graftable(family, self.leaves, self.height)]))
        self.plain, self.view = Tree(digests, family, operations), Tree(digests, family, operations, self.height, grafted)
        self.ops_root = self.plain.root("backward", self.inactive(1))
        grafted_root = self.view.root("backward", self.inactive(self.width))
        self.root = canonical(digests, self.leaves % self.width, self.ops_root, grafted_root, *self.slot_digests())

    def inactive(self, width):
        """How many leading peaks end at or before the floor, up to the last that ends on a multiple of some width."""
        ends = [end_of(it) for it in self.family.peaks(self.leaves)]
        return max([count + 1 for count, it in enumerate(ends) if it <= self.floor and it % width == 0], default=0)

    def slot_digests(self):
        """The digests of the pending and of the partial chunk, each where it is there."""
        return [None if it is None else self.digests.of(self.chunks[it]) for it in self.slots]

    def range_proof(self, start, end):
        """The own proof of a range."""
        count = self.inactive(self.width)
        proof = self.view.range_proof("backward", count, start, end)
        return RangeProof(self.leaves, count, proof, *self.slot_digests(), self.ops_root)

    def range_part(self, start, end):
        """The own proof of a range as bytes."""
        return range_part(self.family, *self.range_proof(start, end))

    def operation_proof(self, location):
        return varint(location) + self.chunks[location // self.width] + self.range_part(location, location + 1)


def chunks_of(bits, size):
    """The chunks of digits, the last one filled up with zeros."""
    parts = [bits[it : it + 8 * size] for it in range(0, len(bits), 8 * size)]
    return [int(it[::-1], 2).to_bytes(size, "little") for it in parts]


def graftable(family, leaves, height):
    """How many chunks have all their leaves inside one peak."""
    return sum(2 ** (it - height) for it in family.heights(leaves) if it >= height)


def slots_of(family, leaves, width):
    """The numbers of the pending and of the partial chunk."""
    complete = leaves // width
    pending = complete - 1 if graftable(family, leaves, width.bit_length() - 1) < complete else None
    return pending, complete if leaves % width else None


def canonical(digests, next_bit, ops_root, grafted_root, pending, partial):
    """The canonical root."""
    slots = (pending or b"") + (be8(next_bit) + partial if partial else b"")
    return digests.of(ops_root, grafted_root, slots)


def range_part(family, leaves, inactive, proof, pending, partial, ops_root):
    """A range proof over chunks as bytes."""
    slots = [partial] if family.name == "mmr" else [pending, partial]
    counts = varint(leaves) + varint(inactive) + varint(len(proof))
    return counts + b"".join(proof) + b"".join(b"\1" + it if it else b"\0" for it in slots) + ops_root


RangeProof = collections.namedtuple("RangeProof", "leaves inactive proof pending partial ops_root")


def current_root(digests, family, size, proof, start, operations, chunks):
    """The canonical root that the check of a range gives; none where a part does not fit."""
    width, height = 8 * size, (8 * size).bit_length() - 1
    places = range(start // width, (start + len(operations) - 1) // width + 1)
    if len(chunks) != len(places):
        return None
    if any(len(it) != size for it in chunks):
        return None
    given, (pending, partial) = dict(enumerate(chunks, places.start)), slots_of(family, proof.leaves, width)
    if (pending is None) != (proof.pending is None) or (partial is None) != (proof.partial is None):
        return None
    if pending in given and digests.of(given[pending]) != proof.pending:
        return None
    if partial in given and digests.of(given[partial]) != proof.partial:
        return None
    grafted = {it: given[it] for it in given if it < graftable(family, proof.leaves, height)}
    tree = Tree(digests, family, operations, height, grafted)
    root = Check(tree, "backward", proof.leaves, proof.inactive, proof.proof, start).root
    return root and canonical(digests, proof.leaves % width, proof.ops_root, root, proof.pending, proof.partial)


def is_active(digests, family, location, chunk, proof, operation, root):
    """Whether an operation proof is accepted: the bit of its location is set, and the check of that range gives the root."""
    bit = location % (8 * len(chunk))
    if not chunk[bit // 8] >> bit % 8 & 1:
        return False
    return current_root(digests, family, len(chunk), proof, location, [operation], [chunk]) == root


def excludes(key, start, next_key):
    """Whether the update of a key that names the next one excludes a key: another one of its span, around past the greatest."""
    if key == start:
        return False
    return start <= key < next_key if start < next_key else start <= key or key < next_key


def lengths_of(kind):
    """The least and the greatest number of bytes of a type, without their number where that is written: `u64`, `fixed4`, `vec:0:9`."""
    ends = kind.replace("u64", "fixed8").removeprefix("fixed").removeprefix("vec:").split(":")
    return int(ends[0]), int(ends[-1])


class Types:
    """How an ordered database writes operations, by its encoding and the types of its keys and values."""

    def __init__(self, text):
        encoding, self.key, self.value = text.split("/")
        self.fixed, self.value_size = encoding == "ordered-fixed", lengths_of(self.value)[1]

    def filled(self, operation):
        """An operation with zeros up to the size of all, where they have one."""
        size = max(1 + 2 * lengths_of(self.key)[1], 10) + self.value_size
        return operation.ljust(size, b"\0") if self.fixed else operation

    def update(self, key, value, next_key):
        return self.filled(b"\xd2" + key + value + next_key)

    def commit(self, value, floor):
        none = bytes(1 + self.value_size if self.fixed else 1)
        return self.filled(b"\xd3" + (b"\1" + value if value else none) + (be8(floor) if self.fixed else varint(floor)))


class Bits:
    """A list of bits with a root, with chunks of some bytes."""

    def __init__(self, digests, direction, size, bits):
        self.digests, self.direction, self.bits, self.width = digests, direction, bits, 8 * size
        self.chunks = chunks_of(bits, size)
        self.complete = len(bits) // self.width
        self.tree = Tree(digests, Family("mmr"), self.chunks[: self.complete])
        self.tree_root = self.tree.root(direction, 0)
        self.partial = digests.of(self.chunks[-1]) if len(bits) % self.width else None
        self.root = digests.of(self.tree_root, be8(len(bits)), self.partial) if self.partial else self.tree_root

    def proof(self, bit):
        """The digests of the own proof of a bit."""
        place = bit // self.width
        if place == self.complete:
            return [self.tree_root]
        return self.tree.range_proof(self.direction, 0, place, place + 1) + ([self.partial] if self.partial else [])


MMR, MMB = Family("mmr"), Family("mmb")
# The bytes of a key and of a value of `ordered-fixed/fixed4/u64`.
KEY, VALUE = 4, 8


class Refused(Exception):
    """The code of a refusal."""


def family_of(name):
    return {"mmr": MMR, "mmb": MMB}[name]


def data(text):
    """The bytes of a column; `-` is none."""
    return bytes.fromhex(text.replace("-", ""))


def strings(text, between=",", none="none"):
    """The byte strings of a column; `-` is no bytes."""
    return [] if text == none else [data(it) for it in text.split(between)]


def numbers(text, between=","):
    return [] if text in ("none", "-") else [int(it) for it in text.split(between)]


def told(digests):
    return ",".join(it.hex() if it else "-" for it in digests) or "none"


def verdict(yes):
    return "yes" if yes else "no"


def at(nodes, position):
    """The node at a position."""
    if position not in nodes:
        raise Refused(f"E4({position})")
    return nodes[position]


def element_checks(digests, family, direction, leaves, inactive, proof, location, element, root, _):
    tree = Tree(digests, family_of(family), strings(element))
    check = Check(tree, direction, int(leaves), int(inactive), strings(proof), int(location))
    return f"{verdict(check.root == bytes.fromhex(root))} {check.hashed} {check.folds}"


def plain_operations(digests, family, leaves, inactive, proof, start, operations, root, _):
    tree, root = Tree(digests, family_of(family), strings(operations)), bytes.fromhex(root)
    if not tree.elements:
        empty = (leaves, inactive, proof, start) == ("0", "0", "none", "0")
        return verdict(empty and root == tree.root("backward", 0))
    return verdict(Check(tree, "backward", int(leaves), int(inactive), strings(proof), int(start)).root == root)


def built(digests, family, direction, leaves, location, inactive, nodes):
    family, leaves, location = family_of(family), int(leaves), int(location)
    given = dict(it.split("=") for it in nodes.split("/")) if nodes != "-" else {}
    given = {int(position): bytes.fromhex(it) for position, it in given.items()}
    if int(inactive) > len(family.heights(leaves)):
        raise Refused("E8")
    folds = {"left": digests.fold_left, "right": digests.fold_right}
    sited = sites(family, direction, leaves, int(inactive), range(location, location + 1))
    return told([folds[way]([at(given, family.position(it)) for it in peaks]) for way, peaks in sited])


def mem_init(digests, family, direction, boundary, pinned):
    family, boundary, pinned = family_of(family), int(boundary), strings(pinned)
    if boundary > MAX_LEAVES:
        raise Refused(f"E3({boundary})")
    peaks = family.peaks(boundary)
    if len(pinned) < len(peaks):
        raise Refused(f"E5({family.position(peaks[len(pinned)])})")
    root = root_of(digests, family, direction, boundary, 0, [], pinned[: len(peaks)])
    added = "ok" if boundary < MAX_LEAVES else f"E3({boundary})"
    return f"{family.size(boundary)}:{root.hex()}:{added}"


def verifiers(digests, family, height, start, chunks, graftable, position, left, right):
    family, start = family_of(family), int(start)
    supplied = {start + place: it for place, it in enumerate(strings(chunks)) if start + place < int(graftable)}
    tree = Tree(digests, family, [], int(height), supplied)
    return tree.over(family.nodes(64)[int(position)], bytes.fromhex(left), bytes.fromhex(right)).hex()


class Reader:
    """Bytes that are read from the front, and are a proof over a family with chunks of some bytes."""

    def __init__(self, text, digests, family=MMR, size=1):
        self.left, self.digests, self.family, self.size = data(text), digests, family, size

    def take(self, count):
        if len(self.left) < count:
            raise Refused("C1")
        taken, self.left = self.left[:count], self.left[count:]
        return taken

    def varint(self):
        number, place = 0, 0
        while True:
            byte = self.take(1)[0]
            if place == 9 and byte != 1 or place and not byte:
                raise Refused("C4")
            number += byte % 128 << 7 * place
            place += 1
            if byte < 128:
                return number

    def location(self):
        number = self.varint()
        if number > MAX_LEAVES:
            raise Refused("C6(location|past_the_limit)")
        return number

    def option(self, read, *given):
        byte = self.take(1)[0]
        if byte > 1:
            raise Refused("C2")
        return read(*given) if byte else None

    def pending(self):
        return self.option(self.take, self.digests.size) if self.family is MMB else None

    def end(self):
        if self.left:
            raise Refused(f"C7({len(self.left)})")

    def chunk_size(self):
        if self.size & (self.size - 1) or not 1 <= self.size <= 2**59:
            raise Refused("C6(current_proof|invalid_bitmap_chunk_size)")

    def range_proof(self, most):
        leaves, inactive, count, size = self.location(), self.varint(), self.varint(), self.digests.size
        if count > most:
            raise Refused(f"C5({count})")
        proof = [self.take(size) for _ in range(count)]
        return RangeProof(leaves, inactive, proof, self.pending(), self.option(self.take, size), self.take(size))

    def operation_proof(self, most=128):
        """Location, chunk and range proof."""
        self.chunk_size()
        return self.location(), self.take(self.size), self.range_proof(most)

    def part(self, kind):
        """A key or a value of a type: as it is written, and without its length."""
        before, (least, most) = self.left, lengths_of(kind)
        count = self.varint() if kind.startswith("vec") else most
        if not least <= count <= most:
            raise Refused(f"C5({count})")
        content = self.take(count)
        return before[: len(before) - len(self.left)], content

    def key_proof(self, claim, types, most=128):
        """An operation proof and the next key, or one and the update or the value of a commit, each as it is written."""
        if claim == "value":
            return self.operation_proof(most), [self.part(types.key)]
        tag = self.take(1)[0]
        if tag > 1:
            raise Refused(f"C3({tag})")
        proof = self.operation_proof(most)
        if tag == 0:
            return proof, [self.part(it) for it in (types.key, types.value, types.key)]
        return proof, self.option(self.part, types.value)


def key_proofs(digests, family, claim, reader, most, text):
    read = Reader(text, digests, family_of(family), 1 if reader == "array" else int(reader))
    try:
        read.key_proof(claim, Types("ordered-fixed/fixed4/u64"), int(most))
    except Refused as refused:
        return f"{refused} - {refused}"
    left = len(read.left)
    return f"{text[: len(text) - 2 * left]} {left} {f'C7({left})' if left else 'same'}"


def operation_checks(digests, family, size, leaves, operation, proof, root, _):
    read = Reader(proof, digests, family_of(family), int(size))
    location, chunk, parts = read.operation_proof()
    read.end()
    parts = parts if leaves == "-" else parts._replace(leaves=int(leaves))
    return verdict(is_active(digests, family_of(family), location, chunk, parts, data(operation), data(root)))


def of_client(shows):
    """The list of what a client answers where a function says whether a proof shows a claim: no too where bytes are refused."""
    @functools.wraps(shows)
    def answer(digests, family, size, *columns):
        try:
            return verdict(shows(digests, family_of(family), int(size), *columns))
        except Refused:
            return "no"
    return answer


def shows_operation(digests, family, size, proof, location, operation, root):
    """Whether bytes show an operation at a location, or at the proof's own where that is none."""
    read = Reader(proof, digests, family, size)
    own, chunk, parts = read.operation_proof()
    read.end()
    if location not in (own, None):
        return False
    return is_active(digests, family, own, chunk, parts, data(operation), data(root))


def shows_range(digests, family, size, most, proof, start, operations, chunks, root):
    read = Reader(proof, digests, family, size)
    read.chunk_size()
    parts = read.range_proof(most)
    read.end()
    return current_root(digests, family, size, parts, int(start), strings(operations), strings(chunks)) == data(root)


def claimed(kind, text):
    """A claimed key or value without its length: of bytes that are one whole value. A vector that is claimed may have any length."""
    read = Reader(text, None)
    _, content = read.part(f"vec:0:{2**64 - 1}" if kind.startswith("vec") else kind)
    read.end()
    return content


def shows_value(digests, family, size, kind, proof, key, value, root):
    types, read = Types(kind), Reader(proof, digests, family, size)
    claimed(types.key, key), claimed(types.value, value)
    (location, chunk, parts), shown = read.key_proof("value", types)
    read.end()
    operation = types.update(data(key), data(value), shown[0][0])
    return is_active(digests, family, location, chunk, parts, operation, data(root))


def shows_absence(digests, family, size, kind, proof, key, root):
    types, read = Types(kind), Reader(proof, digests, family, size)
    key = claimed(types.key, key)
    (location, chunk, parts), shown = read.key_proof("absence", types)
    read.end()
    if isinstance(shown, list):
        (start, own_key), (value, _), (next_key, own_next) = shown
        if not excludes(key, own_key, own_next):
            return False
        operation = types.update(start, value, next_key)
    else:
        operation = types.commit(shown and shown[0], location)
    return is_active(digests, family, location, chunk, parts, operation, data(root))


@of_client
def program_checks(digests, family, size, location, operation, proof, root, _):
    return shows_operation(digests, family, size, proof, int(location), operation, root)


@of_client
def ranges_checks(digests, family, size, most, start, operations, chunks, proof, root, _):
    return shows_range(digests, family, size, int(most), proof, start, operations, chunks, root)


@of_client
def both_chunks(digests, family, size, kind, proof, claim, root):
    if kind == "operation":
        return shows_operation(digests, family, size, proof, None, claim, root)
    return shows_range(digests, family, size, 128, proof, *claim.split("/"), root)


@of_client
def key_values(digests, family, size, kind, proof, key, value, root, _):
    return shows_value(digests, family, size, kind, proof, key, value, root)


@of_client
def exclusions(digests, family, size, kind, proof, key, root, _):
    return shows_absence(digests, family, size, kind, proof, key, root)


@of_client
def golden_keys(digests, family, size, root, key, value, proof):
    kind = "ordered-fixed/fixed4/u64"
    if value == "absent":
        return shows_absence(digests, family, size, kind, proof, key, root)
    return shows_value(digests, family, size, kind, proof, key, be8(int(value)).hex(), root)


def slots(digests, family, digest):
    if family == "mmr":
        return "- 0"
    return "00 1" if digest == "-" else f"01{digest} {1 + digests.size}"


def slots_read(digests, family, text):
    read = Reader(text, digests, family_of(family))
    digest = read.pending()
    return f"{digest.hex() if digest else '-'} {len(read.left)}"


def filled(digests, byte):
    return f"{digests.filled(int(byte)).hex()} {digests.size}"


def combined_views(digests, family, size, floor, bits, operations):
    """Both trees read as one have each node of the grafted view."""
    return str(family_of(family).size(len(strings(operations))))


def combined_ranges(digests, family, size, floor, bits, operations, start, most):
    """What is served is the own proof, which is accepted."""
    width, end = 8 * int(size), min(int(start) + int(most), len(bits))
    chunks = chunks_of(bits, int(size))[int(start) // width : -(-end // width)]
    return f"{','.join(map(str, range(int(start), end)))} {told(chunks)} yes"


def each_operation(digests, family, size, floor, bits, operations):
    """The own proof of an operation is accepted where its bit is set."""
    return bits


def each_range(digests, family, size, floor, bits, operations):
    """The own proof of each range is accepted."""
    return str(len(bits) * (len(bits) + 1) // 2)


def bits_after(calls, width):
    """The bits after calls on a bitmap, and how many chunks of them are pruned."""
    bits, pruned = "", 0
    for call in calls.split(","):
        verb, _, rest = call.partition(":")
        if verb == "p":
            bits += rest
        elif verb == "s":
            place, value = rest.split(":")
            bits = bits[: int(place)] + value + bits[int(place) + 1 :]
        elif verb == "x":
            pruned = max(pruned, int(rest) // width)
        elif verb == "r":
            bits = bits[: pruned * width]
        elif verb == "init" and rest == "0:-":
            bits, pruned = "", 0
    return bits, pruned


def kept_nodes(leaves, pruned):
    """The nodes of a bitmap's tree that stand at positions, but for those that are gone with pruned chunks."""
    pins = MMR.peaks(pruned)
    return {position: it for position, it in MMR.nodes(leaves).items() if position >= MMR.size(pruned) or it in pins}


def bitmaps(digests, direction, size, calls, places):
    width = 8 * int(size)
    bits, pruned = bits_after(calls, width)
    whole, left = Bits(digests, direction, int(size), bits), len(bits) - width * pruned
    last = (whole.chunks[-1], (left - 1) % width + 1) if left else (bytes(int(size)), 0)
    tree, kept = whole.tree, kept_nodes(whole.complete, pruned)
    slashed = lambda them: told(them).replace(",", "/").replace("none", "-")
    proved = lambda bit: f"{len(bits)}:{slashed(whole.proof(bit))}:{whole.chunks[bit // width].hex()}"
    proofs = [f"{it}:{proved(it) if it < len(bits) else f'E7({it},{len(bits)})'}" for it in numbers(places)]
    nodes = [f"{it}:{told([tree.node(kept[it]) if it in kept else None])}" for it in range(MMR.size(tree.leaves))]
    state = f"{last[0].hex()} {last[1]} {whole.root.hex()} {pruned}:{slashed([tree.node(it) for it in MMR.peaks(pruned)])}"
    return f"{len(bits)} {width * pruned} {MMR.size(tree.leaves)} {state} {','.join(proofs) or '-'} {','.join(nodes) or '-'}"


def bitmaps_read(digests, direction, size, calls, places):
    width = 8 * int(size)
    bits, pruned = bits_after(calls, width)
    chunks = chunks_of(bits, int(size))
    each = ",".join(f"{it}:{bits[it]}:{chunks[it // width].hex()}" for it in numbers(places))
    return f"{width} {each} {len(bits)} {pruned} {told(chunks[pruned:])}"


def bitmaps_served(digests, direction, size, calls, positions):
    bits, pruned = bits_after(calls, 8 * int(size))
    tree = Bits(digests, direction, int(size), bits).tree
    kept, places = kept_nodes(tree.leaves, pruned), numbers(positions)
    one_by_one = told([tree.node(kept[it]) if it in kept else None for it in places])
    try:
        at_once = told([tree.node(at(kept, it)) for it in places])
    except Refused as refused:
        at_once = str(refused)
    return f"{MMR.size(tree.leaves)} {one_by_one} {at_once}"


# The lists on checks of proofs over chunks, and others.
CHECKS = {it.__name__: it for it in (
    program_checks, operation_checks, both_chunks, ranges_checks, key_values, exclusions, golden_keys,
)}
LISTS = {it.__name__: it for it in (
    element_checks, plain_operations, built, mem_init, verifiers, key_proofs, operation_checks, slots, slots_read,
    filled, combined_views, combined_ranges, each_operation, each_range, bitmaps, bitmaps_read, bitmaps_served,
)}
ANSWERED = CHECKS | LISTS


def answer(digests, name, columns):
    """The answer of a case of a list."""
    try:
        return ANSWERED[name](digests, *columns)
    except Refused as refused:
        return str(refused)
