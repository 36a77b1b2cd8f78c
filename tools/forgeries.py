#!/usr/bin/env python3
"""Leaves out the rules of a check, one at a time, and makes proofs that only a check without the rule accepts.

    tools/forgeries.py

RULES are the comparisons of the check of a proof, as docs/FORMAT.md has them. Each is left out of tools/definitions.py in turn. What is
left must answer the cases of `replay` otherwise: at least three on operations, on ranges and on keys, wherever the rule bears on these.
Otherwise a verifier could lack the rule, agree with every case, and take a forged proof. A line for each rule that shows too little, and
for each case that tools/definitions.py as it is answers otherwise. The last line is 'N passed, M failed', of rules.

`forgeries` makes the cases of the row `one_rule_less`, which tools/cases.py puts into the lines of `replay`. Where the proof could be of
a real snapshot, the root is the snapshot's; otherwise it is the root that the check without the rule would give.
"""
import pathlib
import resource
import sys
import types

import definitions
from definitions import KEY, MAX_LEAVES, MMB, MMR, VALUE, Check, RangeProof, Snapshot, Tree, Types, be8, canonical, graftable
from definitions import end_of, halves, range_part, root_of, slots_of, told, varint

ROW = "one_rule_less"
# Each rule that is left out is shown by so many lines of each kind.
LEAST = 3
# A check that lacks a rule may ask for any amount of memory; it is given so many bytes.
MEMORY = 2**30
FIXED = "ordered-fixed/fixed4/u64"


def operation(number):
    """The update of key 2k to value k, with the next key 2k + 2, of a number k, filled up to the size of a commit."""
    return Types(FIXED).update(key_of(2 * number), number.to_bytes(VALUE, "big"), key_of(2 * number + 2))


def key_of(number):
    return number.to_bytes(KEY, "big")


def snapshot(digests, family, leaves, active, floor=0, size=1, first=0):
    """The snapshot of such operations, of the numbers from `first` on, of which one is active."""
    bits = "".join("01"[it == active] for it in range(leaves))
    return Snapshot(digests, family, [operation(first + it) for it in range(leaves)], bits, floor, size)


def canonical_over(whole, parts, grafted=None):
    """The canonical root over a snapshot's grafted root, or another one, and the other parts of a proof."""
    grafted = grafted or whole.view.root("backward", parts.inactive)
    return canonical(whole.digests, parts.leaves % whole.width, parts.ops_root, grafted, parts.pending, parts.partial)


def claims(label, whole, location, part, root=None, number=None, chunk=None, spelled=None):
    """A case of each kind about one operation: its range proof, or the bytes of one, and the operation's number, its chunk, the root,
    and how the location is written, where these are not the snapshot's own."""
    number, chunk = location if number is None else number, chunk or whole.chunks[location // whole.width]
    part = part if isinstance(part, bytes) else range_part(whole.family, *part)
    heads, root, claimed = (whole.family.name, whole.size), (root or whole.root).hex(), operation(number)
    key, value, next_key = claimed[1:5], claimed[5:13], claimed[13:17]
    proof = (spelled or varint(location)) + chunk + part
    yield "program_checks", *heads, location, claimed.hex(), proof.hex(), root, label
    if spelled is None:
        yield "ranges_checks", *heads, 128, location, claimed.hex(), chunk.hex(), part.hex(), root, label
    yield "key_values", *heads, FIXED, (proof + next_key).hex(), key.hex(), value.hex(), root, label
    shown, between = b"\0" + proof + key + value + next_key, key_of(2 * number + 1)
    yield "exclusions", *heads, FIXED, shown.hex(), between.hex(), root, label


def range_claim(label, whole, start, operations, chunks, parts):
    """A case about a range of a snapshot."""
    columns = (128, start, told(operations), told(chunks), range_part(whole.family, *parts).hex(), whole.root.hex(), label)
    return "ranges_checks", whole.family.name, whole.size, *columns


def own_proofs(digests):
    """The own proofs of active operations, which are accepted; in some the siblings do not stand from left to right."""
    for family, leaves, location in ((MMR, 8, 3), (MMR, 11, 9), (MMB, 18, 9), (MMB, 26, 5), (MMB, 26, 13), (MMB, 40, 5)):
        whole = snapshot(digests, family, leaves, location)
        yield from claims("own", whole, location, whole.range_proof(location, location + 1))


def set_bits(digests):
    """An operation that is not active is said to be: its bit is set in a chunk that is grafted onto no node."""
    for label, family, leaves, active, location in (
        ("bit-set-in-the-pending-chunk", MMB, 10, 3, 5), ("bit-set-in-the-pending-chunk", MMB, 17, 9, 12),
        ("bit-set-in-the-pending-chunk", MMB, 26, 17, 22), ("bit-set-in-the-partial-chunk", MMR, 11, 9, 8),
        ("bit-set-in-the-partial-chunk", MMR, 5, 1, 3), ("bit-set-in-the-partial-chunk", MMB, 21, 17, 18),
    ):
        whole = snapshot(digests, family, leaves, active)
        chunk = bytes([whole.chunks[location // 8][0] | 1 << location % 8])
        yield from claims(label, whole, location, whole.range_proof(location, location + 1), chunk=chunk)
    # a range that touches both
    whole = snapshot(digests, MMB, 18, 9)
    claimed, parts = [operation(it) for it in range(9, 18)], whole.range_proof(9, 18)
    for label, chunks in (("own", "0200"), ("bit-set-in-the-pending-chunk", "0600"), ("bit-set-in-the-partial-chunk", "0201")):
        yield range_claim(label, whole, 9, claimed, [bytes([it]) for it in bytes.fromhex(chunks)], parts)


def clear_bits(digests):
    """The own proof of an operation that is not active."""
    for family, leaves, active, location in ((MMR, 8, 3, 5), (MMR, 11, 9, 8), (MMB, 18, 9, 12)):
        whole = snapshot(digests, family, leaves, active)
        kinds = claims("clear-bit", whole, location, whole.range_proof(location, location + 1))
        yield from (it for it in kinds if it[0] != "ranges_checks")


def other_slots(digests):
    """A slot has no digest where a chunk is pending or partial, or has one where none is."""
    for label, slot, digest, cases in (
        ("pending-slot-left-empty", "pending", None, ((MMB, 16), (MMB, 18), (MMB, 26))),
        ("partial-slot-left-empty", "partial", None, ((MMR, 11), (MMR, 21), (MMB, 21))),
        ("pending-slot-filled", "pending", digests.filled(7), ((MMB, 11), (MMB, 19), (MMB, 21))),
        ("partial-slot-filled", "partial", digests.filled(7), ((MMR, 8), (MMR, 16), (MMB, 24))),
    ):
        for family, leaves in cases:
            whole = snapshot(digests, family, leaves, 2)
            parts = whole.range_proof(2, 3)._replace(**{slot: digest})
            yield from claims(label, whole, 2, parts, canonical_over(whole, parts))


def past_the_leaves(digests):
    """Operations past the last leaf, also where start and count wrap around: no hash has them."""
    for family, leaves, location in ((MMR, 8, 8), (MMR, 16, 16), (MMB, 24, 24), (MMB, 11, 40)):
        whole = snapshot(digests, family, leaves, 2)
        yield from claims("past-the-leaves", whole, location, whole.range_proof(location, location + 1), number=5, chunk=b"\xff")
    for family, count in ((MMR, 1), (MMR, 2), (MMB, 1)):
        whole, start = snapshot(digests, family, 8, 2), 2**64 - count
        operations = [operation(it) for it in range(count)]
        yield range_claim("past-the-last-number", whole, start, operations, [b"\xff"], whole.range_proof(start, start + count))


def split_at(node, place):
    """The greatest nodes inside a node on either side of a place."""
    if place <= node[0] or end_of(node) <= place:
        return [node]
    return [it for half in halves(node) for it in split_at(half, place)]


def no_operations(digests):
    """No operations, with a chunk that is not the snapshot's under a peak that is not opened, or its own under one that is."""
    for family, leaves, start, chunks in ((MMR, 16, 3, [b"\xff"]), (MMB, 19, 12, [b"\xff"]), (MMR, 16, 8, [])):
        whole = snapshot(digests, family, leaves, 2)
        yield range_claim("no-operations", whole, start, [], chunks, whole.range_proof(start, start))
    for family, leaves, start in ((MMR, 16, 3), (MMR, 11, 9), (MMB, 19, 12)):
        whole = snapshot(digests, family, leaves, start)
        peak = next(it for it in family.peaks(leaves) if it[0] < start < end_of(it))
        inside = [whole.view.node(it) for it in sorted(split_at(peak, start), key=family.position)]
        own = whole.range_proof(start, start)
        parts = own._replace(proof=[*own.proof[:-1], *inside])
        yield range_claim("no-operations", whole, start, [], [whole.chunks[start // 8]], parts)


def other_chunks(digests):
    """More chunks or fewer than a range touches, and chunks of another length, where these enter no hash."""
    for label, family, leaves, active, start, end, chunks in (
        ("chunk-more", MMR, 16, 2, 0, 3, ["04", "ff"]), ("chunk-more", MMB, 19, 2, 1, 4, ["04", "ff"]),
        ("chunk-more", MMR, 24, 9, 8, 11, ["02", "ff"]), ("chunk-less", MMR, 16, 2, 6, 11, ["04"]),
        ("chunk-less", MMB, 19, 2, 4, 13, ["04"]), ("chunk-less", MMR, 24, 2, 6, 19, ["04"]),
        ("longer-chunk", MMR, 16, 12, 0, 3, ["0000"]), ("longer-chunk", MMB, 19, 12, 1, 4, ["000000"]),
        ("shorter-chunk", MMR, 16, 12, 6, 14, ["", "10"]),
    ):
        whole = snapshot(digests, family, leaves, active)
        claimed = [operation(it) for it in range(start, end)]
        yield range_claim(label, whole, start, claimed, [bytes.fromhex(it) for it in chunks], whole.range_proof(start, end))


def more_inactive_peaks(digests):
    """More inactive peaks than there are peaks, folded as if all were inactive."""
    for family, leaves, inactive in ((MMR, 11, 4), (MMB, 18, 5), (MMR, 8, 2**64 - 1)):
        whole = snapshot(digests, family, leaves, 2)
        proof = whole.view.range_proof("backward", inactive, 2, 3)
        parts = whole.range_proof(2, 3)._replace(inactive=inactive, proof=proof)
        yield from claims("inactive-peaks-past-the-peaks", whole, 2, parts, canonical_over(whole, parts))


def past_the_limit(digests):
    """A tree over 2^62 + 1 leaves, of which the last one is claimed."""
    for family, inactive in ((MMR, 0), (MMR, 1), (MMB, 0)):
        whole, location, chunk = snapshot(digests, family, 8, 2), MAX_LEAVES, b"\1"
        before = [digests.filled(it) for it in range(len(family.heights(location + 1)) - 1)]
        items = [*before, digests.of(be8(family.position((location, 0))), operation(5))]
        pending, _ = slots_of(family, location + 1, 8)
        slot = None if pending is None else digests.filled(7)
        parts = RangeProof(location + 1, inactive, before, slot, digests.of(chunk), digests.filled(8))
        grafted = root_of(digests, family, "backward", location + 1, inactive, items[:inactive], items[inactive:])
        yield from claims("too-many-leaves", whole, location, parts, canonical_over(whole, parts, grafted), 5, chunk)


def other_digests(digests):
    """A digest more than there are sites, and one less, whose place is taken by zeros."""
    for family, leaves, location in ((MMR, 8, 3), (MMR, 11, 2), (MMB, 18, 4)):
        whole = snapshot(digests, family, leaves, location)
        own = whole.range_proof(location, location + 1)
        yield from claims("digest-more", whole, location, own._replace(proof=[*own.proof, digests.filled(9)]))
        chunk, zeros = whole.chunks[location // 8], [*own.proof[:-1], bytes(digests.size)]
        tree = Tree(digests, family, [operation(location)], 3, {location // 8: chunk} if graftable(family, leaves, 3) else {})
        grafted = Check(tree, "backward", leaves, own.inactive, zeros, location).root
        yield from claims("digest-less", whole, location, own._replace(proof=zeros[:-1]), canonical_over(whole, own, grafted))


def other_varints(digests):
    """Numbers that are spelled in more bytes than they need, or with a tenth byte past 2^64."""
    for family, leaves, location in ((MMR, 8, 3), (MMB, 18, 9)):
        whole = snapshot(digests, family, leaves, location)
        part = whole.range_part(location, location + 1)
        for label, spelled in (
            ("longer-varint", lambda it: bytes([it | 128, 0])), ("longer-varint", lambda it: bytes([it | 128, 128, 0])),
            ("tenth-byte", lambda it: bytes([it | 128]) + b"\x80" * 8 + b"\2"),
        ):
            yield from claims(f"{label}-of-the-location", whole, location, part, spelled=spelled(location))
            for place, field in enumerate(("leaves", "inactive-peaks", "digests")):
                longer = part[:place] + spelled(part[place]) + part[place + 1 :]
                yield from claims(f"{label}-of-the-{field}", whole, location, longer)


def other_flags(digests):
    """A byte other than 00 and 01 before the digest of a slot."""
    for slot, family, leaves, byte in (("partial", MMR, 11, 2), ("pending", MMB, 18, 128), ("partial", MMB, 21, 255)):
        whole = snapshot(digests, family, leaves, 2)
        own = whole.range_proof(2, 3)
        digest = getattr(own, slot)
        part = range_part(family, *own).replace(b"\1" + digest, bytes([byte]) + digest)
        yield from claims("other-flag", whole, 2, part)


def cut_zeros(digests):
    """The bytes are cut short by zeros at their end."""
    for count in (1, 2, 3):
        whole = snapshot(digests, MMR, 8, 2)
        own = whole.range_proof(2, 3)
        parts = own._replace(ops_root=own.ops_root[:-count] + bytes(count))
        root, part = canonical_over(whole, parts), range_part(MMR, *parts)[:-count]
        yield from (it for it in claims("cut-zeros", whole, 2, part, root) if it[0] in ("program_checks", "ranges_checks"))
    for family, first, count in ((MMR, 125, 1), (MMB, 125, 1), (MMR, 2**15 - 3, 2)):
        # the next key of the operation there ends with zeros
        whole = snapshot(digests, family, 8, 2, first=first)
        for name, *columns in claims("cut-zeros", whole, 2, whole.range_proof(2, 3), number=first + 2):
            if name in ("key_values", "exclusions"):
                yield name, *columns[:3], columns[3][: -2 * count], *columns[4:]


def other_bytes(digests):
    """A byte more at the end, and another location."""
    for family, leaves, location in ((MMR, 8, 3), (MMR, 11, 9), (MMB, 18, 9)):
        whole = snapshot(digests, family, leaves, location)
        part = whole.range_part(location, location + 1)
        for name, *columns in claims("byte-more", whole, location, part):
            place = {"program_checks": 4, "ranges_checks": 6}.get(name, 3)
            yield name, *columns[:place], columns[place] + "00", *columns[place + 1 :]
        (name, *columns), *_ = claims("another-location", whole, location, part)
        yield name, *columns[:2], location + 1, *columns[3:]


def other_sizes(digests):
    """Chunks whose size is no power of two."""
    for family, size in ((MMR, 3), (MMR, 5), (MMB, 6)):
        whole = snapshot(digests, family, 7, 2, size=size)
        yield from claims("no-chunk-size", whole, 2, whole.range_proof(2, 3))


def of_one(digests, family, last, floor=0):
    """A snapshot of five operations, of which the last one is active."""
    return Snapshot(digests, family, [*map(operation, range(4)), last], "00001", floor, 1)


def key_value(label, whole, kind, key, value, next_key):
    """A case about the value of a key, by the proof of such an operation."""
    proof = whole.operation_proof(4) + next_key
    return "key_values", whole.family.name, 1, kind, proof.hex(), key.hex(), value.hex(), whole.root.hex(), label


def exclusion(label, whole, kind, tag, shown, key):
    """A case about the absence of a key, by the proof of such an operation and what the proof shows of it."""
    proof = bytes([tag]) + whole.operation_proof(4) + shown
    return "exclusions", whole.family.name, 1, kind, proof.hex(), key.hex(), whole.root.hex(), label


def other_exclusions(digests):
    """The key of the update itself, keys on either side of its span, other tags, and commits that are not at their own floor."""
    for family in (MMR, MMB):
        for start, next_key, keys in ((4, 9, (4, 3, 9, 12)), (9, 4, (9, 4, 6)), (4, 4, (4,))):
            shown = key_of(start) + be8(7) + key_of(next_key)
            whole = of_one(digests, family, Types(FIXED).filled(b"\xd2" + shown))
            for key in keys:
                yield exclusion("own-key" if key == start else "key-out-of-the-span", whole, FIXED, 0, shown, key_of(key))
        for floor, value in ((3, None), (0, be8(7)), (5, be8(7))):
            option = b"\1" + value if value else b"\0"
            whole = of_one(digests, family, Types(FIXED).commit(value, floor), floor)
            yield exclusion("commit-at-another-floor", whole, FIXED, 1, option, key_of(1))
        whole = of_one(digests, family, Types(FIXED).commit(None, 4), 4)
        for tag in (2, 127, 128):
            yield exclusion("other-tag", whole, FIXED, tag, b"\0", key_of(1))
        yield exclusion("other-flag", whole, FIXED, 1, b"\2", key_of(1))


def other_lengths(digests):
    """Keys and values in a proof that are shorter or longer than they may be."""
    kind = "ordered-variable/vec:1:4/vec:2:5"
    write = lambda count, byte=5: bytes([count]) + bytes([byte]) * count
    for family in (MMR, MMB):
        for label, *counts in (
            ("next-key-length", 3, 4, 0), ("next-key-length", 3, 4, 5), ("own-key-length", 0, 4, 3), ("own-key-length", 5, 4, 3),
            ("value-length", 3, 1, 3), ("value-length", 3, 6, 3),
        ):
            update = [write(count, byte) for count, byte in zip(counts, (5, 5, 7))]
            whole = of_one(digests, family, Types(kind).update(*update))
            yield exclusion(label, whole, kind, 0, b"".join(update), write(3, 6))
            if label == "next-key-length":
                yield key_value(label, whole, kind, *update)
        for count in (1, 6):
            whole = of_one(digests, family, Types(kind).commit(write(count), 4), 4)
            yield exclusion("value-length", whole, kind, 1, b"\1" + write(count), write(3, 6))


def any_lengths(digests):
    """What is claimed may have any length: a key is absent that is longer than those of the proof, and a longer value is shown."""
    kind = "ordered-variable/vec:1:4/vec:2:5"
    for family in (MMR, MMB):
        update = b"\3\5\5\5", b"\2\1\1", b"\3\7\7\7"
        whole = of_one(digests, family, Types(kind).update(*update))
        for key in (b"\5" + b"\6" * 5, b"\7" + b"\5" * 7):
            yield exclusion("claimed-length", whole, kind, 0, b"".join(update), key)
        update = b"\5" + b"\5" * 5, b"\6" + b"\1" * 6, b"\3\7\7\7"
        yield key_value("claimed-length", of_one(digests, family, Types(kind).update(*update)), kind, *update)


def not_whole(digests):
    """A claimed key or value that is not one whole of its type: bytes move to the part beside it, and the operation is the same."""
    for family in (MMR, MMB):
        for kind, update in ((FIXED, operation(4)), ("ordered-variable/fixed4/u64", operation(4)[:17])):
            whole = of_one(digests, family, update)
            for label, one, other in (("cut-elsewhere", 6, 13), ("cut-elsewhere", 4, 13), ("longer-key", 6, 14), ("longer-value", 5, 14)):
                # the next key may end with the byte that fills up the operation
                next_key = update[other : other + KEY]
                if len(next_key) == KEY:
                    yield key_value(label, whole, kind, update[1:one], update[one:other], next_key)
            for key in (key_of(9) + b"\0", key_of(9) + bytes(4)):
                yield exclusion("longer-key", whole, kind, 0, update[1:17], key)
        kind = "ordered-variable/fixed4/vec:0:9"
        update = Types(kind).update(key_of(8), b"\3\2\1\0", key_of(10))
        yield key_value("cut-elsewhere", of_one(digests, family, update), kind, update[1:6], update[6:9], key_of(10))


MADE = (
    own_proofs, set_bits, clear_bits, other_slots, past_the_leaves, no_operations, other_chunks, more_inactive_peaks, past_the_limit,
    other_digests, other_varints, other_flags, cut_zeros, other_bytes, other_sizes, other_exclusions, other_lengths, any_lengths,
    not_whole,
)


def forgeries(digests):
    """The cases that these make over a digest function: list and columns."""
    for make in MADE:
        yield from make(digests)


class Rule:
    """What a check compares, the kinds of proofs that it bears on, and how its text in tools/definitions.py is changed."""

    def __init__(self, name, kinds, *changes):
        self.name, self.kinds, self.changes = name, kinds.split(), changes

    def check(self):
        """The definitions without the rule."""
        text = pathlib.Path(definitions.__file__).read_text()
        for old, new in self.changes:
            if text.count(old) != 1:
                raise SystemExit(f"{self.name}: tools/definitions.py has {text.count(old)} times {old!r}")
            text = text.replace(old, new)
        module = types.ModuleType("definitions")
        exec(compile(text, f"definitions without: {self.name}", "exec"), module.__dict__)
        return module


ALL, KEYS = "operations ranges keys", "keys"
RULES = (
    Rule("a chunk's size is a power of two", ALL, ("if self.size & (self.size - 1) or not 1 <= self.size <= 2**59:", "if False:")),
    Rule("the bytes go on to the end of each part", ALL, (
        'if len(self.left) < count:\n            raise Refused("C1")\n        taken, self.left = self.left[:count], self.left[count:]',
        'taken, self.left = self.left[:count].ljust(count, b"\\0"), self.left[count:]',
    )),
    Rule("no bytes are left over", ALL, ("if self.left:", "if False:")),
    Rule("a varint has no byte more than it needs", ALL, (" or place and not byte", "")),
    Rule("a varint is below 2^64", ALL, ("place == 9 and byte != 1 or ", ""), (
        "if byte < 128:\n                return number", "if byte < 128:\n                return number % 2**64",
    )),
    Rule("locations and leaves are at most 2^62", ALL, ("if number > MAX_LEAVES:", "if False:"), ("leaves <= MAX_LEAVES, ", "")),
    Rule("there are at most as many digests as are admitted", "ranges", ("if count > most:", "if False:")),
    Rule("the byte before an option is 00 or 01", ALL, ("if byte > 1:", "if False:")),
    Rule("the location is the one that is asked for", "operations", ("if location not in (own, None):", "if False:")),
    Rule("the operation's bit is set", "operations keys", ("if not chunk[bit // 8] >> bit % 8 & 1:", "if False:")),
    Rule("there is an operation", "ranges", ("claimed.start < claimed.stop, ", "")),
    Rule("the range lies within the leaves", ALL, ("claimed.stop <= leaves, ", "")),
    Rule("the range ends at the last leaf, not one later", ALL, ("claimed.stop <= leaves, ", "claimed.stop <= leaves + 1, ")),
    Rule("the range's end does not wrap around", "ranges", ("claimed.stop <= leaves, ", "claimed.stop % 2**64 <= leaves, ")),
    Rule("there is a chunk for each that is touched", "ranges", ("if len(chunks) != len(places):", "if len(chunks) > len(places):")),
    Rule("there are no more chunks than are touched", "ranges", ("if len(chunks) != len(places):", "if len(chunks) < len(places):")),
    Rule("each chunk has its bytes", "ranges", ("if any(len(it) != size for it in chunks):", "if False:")),
    Rule("a chunk has no bytes more", "ranges", ("len(it) != size for it", "len(it) < size for it")),
    Rule("the pending slot has a digest just where a chunk is pending", ALL, ("(pending is None) != (proof.pending is None) or ", "")),
    Rule("the pending slot is filled where a chunk is pending", ALL, (
        "(pending is None) != (proof.pending is None) or ", "pending is None and proof.pending is not None or ",
    )),
    Rule("the pending slot is empty where no chunk is pending", ALL, (
        "(pending is None) != (proof.pending is None) or ", "pending is not None and proof.pending is None or ",
    )),
    Rule("the partial slot has a digest just where a chunk is partial", ALL, (" or (partial is None) != (proof.partial is None)", "")),
    Rule("the partial slot is filled where a chunk is partial", ALL, (
        " or (partial is None) != (proof.partial is None)", " or partial is None and proof.partial is not None",
    )),
    Rule("the partial slot is empty where no chunk is partial", ALL, (
        " or (partial is None) != (proof.partial is None)", " or partial is not None and proof.partial is None",
    )),
    Rule("the pending chunk has the digest in its slot", ALL, (
        "if pending in given and digests.of(given[pending]) != proof.pending:", "if False:",
    )),
    Rule("the partial chunk has the digest in its slot", ALL, (
        "if partial in given and digests.of(given[partial]) != proof.partial:", "if False:",
    )),
    Rule("there are no more inactive peaks than peaks", ALL, (", inactive <= len(family.heights(leaves))]", "]")),
    Rule("there is a digest for each site", ALL, (
        "len(told) != len(proof)", "len(told) < len(proof)",
    ), ("zip(told, proof)}", "zip(told, [*proof, *[bytes(tree.digests.size)] * len(told)])}")),
    Rule("there are no more digests than sites", ALL, ("len(told) != len(proof)", "len(told) > len(proof)")),
    Rule("siblings ascend by position", ALL, ("sorted(inside, key=family.position)", "sorted(inside)")),
    Rule("an all-zero chunk is not hashed", "ranges", ("if any(chunk) else inner", "if chunk else inner")),
    Rule("the root of an operation is the trusted one", "operations keys", (
        "[operation], [chunk]) == root", "[operation], [chunk]) is not None",
    )),
    Rule("the root of a range is the trusted one", "ranges", (
        "strings(operations), strings(chunks)) == data(root)", "strings(operations), strings(chunks)) is not None",
    )),
    Rule("the tag is 00 or 01", KEYS, ("if tag > 1:", "if False:")),
    Rule("a key or value in a proof is as long as it must be", KEYS, ("if not least <= count <= most:", "if count > most:")),
    Rule("a key or value in a proof is no longer than it may be", KEYS, ("if not least <= count <= most:", "if count < least:")),
    Rule("a claimed key and value are whole", KEYS, ("claimed(types.key, key), claimed(types.value, value)", "pass")),
    Rule("a claimed key is whole", KEYS, ("claimed(types.key, key), claimed(types.value, value)", "claimed(types.value, value)")),
    Rule("a claimed value is whole", KEYS, ("claimed(types.key, key), claimed(types.value, value)", "claimed(types.key, key)")),
    Rule("a claimed key and value may have any length", KEYS, ('f"vec:0:{2**64 - 1}" if kind.startswith("vec") else kind', "kind")),
    Rule("an absent key is whole", KEYS, ("read.end()\n    return content", "return content")),
    Rule("an absent key is not the update's own", KEYS, ("if key == start:", "if False:")),
    Rule("an absent key is in the update's span", KEYS, ("if not excludes(key, own_key, own_next):", "if False:")),
    Rule("an absent key is past the update's own", KEYS, ("start <= key < next_key if", "key < next_key if")),
    Rule("an absent key is before the next one", KEYS, ("start <= key < next_key if", "start <= key if")),
    Rule("an absent key is in the span of the greatest key", KEYS, ("start <= key or key < next_key", "True")),
    Rule("the only key excludes each other one", KEYS, ("if start < next_key else", "if start <= next_key else")),
    Rule("keys compare without their lengths", KEYS, ("key = claimed(types.key, key)", "claimed(types.key, key); key = data(key)"), (
        "if not excludes(key, own_key, own_next):", "if not excludes(key, start, next_key):",
    )),
    Rule("a commit stands at its own floor", KEYS, ("types.commit(shown and shown[0], location)", "types.commit(shown and shown[0], 0)")),
)


def kind_of(name, columns):
    """What a case of a list on checks is about."""
    if name == "ranges_checks" or name == "both_chunks" and columns[2] == "range":
        return "ranges"
    return "operations" if name in ("program_checks", "operation_checks", "both_chunks") else "keys"


def accepts(module, hash, name, columns):
    """Whether a check accepts; one that comes to no answer does not."""
    try:
        return module.answer(module.Digests(hash), name, columns) == "yes"
    except Exception:
        return False


def shown(rule, lines):
    """How many lines of each kind show that a rule is left out, counted up to LEAST."""
    module, counts = rule.check(), dict.fromkeys(rule.kinds, 0)
    for kind, hash, name, columns, out in lines:
        if counts.get(kind, LEAST) < LEAST:
            counts[kind] += accepts(module, hash, name, columns) != (out == "yes")
    return counts


def main():
    # not above, since cases has the names of this file
    from cases import parts_of, replayed

    resource.setrlimit(resource.RLIMIT_AS, (MEMORY, resource.RLIM_INFINITY))
    lines = []
    for line, out in replayed():
        heads, name, columns = parts_of(line)
        if name in definitions.CHECKS:
            hash = heads.get("hash", "sha256")
            lines.append((kind_of(name, columns), hash, name, columns, out))
            if definitions.answer(definitions.Digests(hash), name, columns) != out:
                raise SystemExit(f"not the answer of the definitions: {line[:100]}")
    counts = {rule.name: shown(rule, lines) for rule in RULES}
    failed = [name for name, them in counts.items() if min(them.values()) < LEAST]
    for name in failed:
        print(f"forgeries: without '{name}' differ {', '.join(f'{count} {kind}' for kind, count in counts[name].items())}")
    print(f"{len(RULES) - len(failed)} passed, {len(failed)} failed")
    return int(bool(failed))


if __name__ == "__main__":
    sys.exit(main())
