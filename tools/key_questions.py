"""Ordered databases of each kind of keys and each encoding of values, with the own proofs of their values and absences, and the words that ask
`gawerunoa` about them. All is computed from tools/definitions.py.
"""
import definitions

# the kinds of databases: keys, values and lengths as the program's options, keys and values as tools/definitions.py calls them
KINDS = [
    (["--keys", "one-size", "--values", "variable"], "ordered-variable/fixed4/vec:0:40"),
    (["--keys", "one-size", "--values", "sized"], "ordered-variable/fixed20/fixed8"),
    (["--keys", "one-size", "--values", "fixed"], "ordered-fixed/fixed32/fixed4"),
    (["--keys", "strings", "--values", "variable"], "ordered-variable/vec:0:9/vec:0:40"),
    (["--keys", "strings", "--values", "sized"], "ordered-variable/vec:0:9/fixed32"),
]


class Database:
    """A snapshot of an ordered database of a kind: active updates, a few that are not, and a commit."""

    def __init__(self, dice, digests, family, size, options, kind):
        self.kind, self.types = kind, definitions.Types(kind)
        self.words = ["--family", family.name, "--hash", digests.name, "--chunk", str(size), *options]
        least, most = definitions.lengths_of(self.types.key)
        keys = sorted({dice.randbytes(dice.randint(max(least, 1), most)) for _ in range(dice.randrange(1, 12))})
        self.own = {key: (self.value(dice), keys[(it + 1) % len(keys)]) for it, key in enumerate(keys)}
        old = [(key, self.value(dice), key) for key in dice.sample(keys, len(keys) // 2)]
        new = [(key, *self.own[key]) for key in dice.sample(keys, len(keys))]
        write = lambda key, value, next_key: self.types.update(self.key(key), self.written(self.types.value, value), self.key(next_key))
        operations = [write(*it) for it in [*old, *new]] + [self.types.commit(None, len(old))]
        self.place = {it[0]: len(old) + place for place, it in enumerate(new)}
        bits = "0" * len(old) + "1" * (len(new) + 1)
        self.snapshot = definitions.Snapshot(digests, family, operations, bits, len(old), size)

    @classmethod
    def of_nothing(cls, dice, digests, family, size, options, kind):
        """One whose keys are all deleted: two commits, the last with a value and at its own floor."""
        it = cls(dice, digests, family, size, options, kind)
        value = it.written(it.types.value, it.value(dice))
        operations = [it.types.commit(None, 0), it.types.commit(value, 1)]
        it.own, it.snapshot = {}, definitions.Snapshot(digests, family, operations, "01", 1, size)
        it.proof = b"\1" + it.snapshot.operation_proof(1) + b"\1" + value
        return it

    def value(self, dice):
        return dice.randbytes(dice.randint(*definitions.lengths_of(self.types.value)))

    def written(self, kind, content):
        return (definitions.varint(len(content)) if kind.startswith("vec") else b"") + content

    def key(self, key):
        return self.written(self.types.key, key)

    def value_proof(self, key):
        return self.snapshot.operation_proof(self.place[key]) + self.key(self.own[key][1])

    def absence_proof(self, key):
        """The proof that a key has no value, by the update whose span holds it, or by the commit where there is no key."""
        if not self.own:
            return self.proof
        start = next(it for it, (_, after) in self.own.items() if definitions.excludes(key, it, after))
        value, after = self.own[start]
        update = self.key(start) + self.written(self.types.value, value) + self.key(after)
        return b"\0" + self.snapshot.operation_proof(self.place[start]) + update


def question(database, root, proof, key, value=None):
    """The words that ask whether a key has a value, or whether it has none, and the text of the file `proof`."""
    claim = "absence" if value is None else "value"
    sized = ["--value-size", str(database.types.value_size)] if value is None and "variable" not in database.words else []
    own = [] if value is None else ["--value", value.hex()]
    return ["check", claim, *database.words, *sized, "--root", root, "--key", key.hex(), *own, "--proof", "@-"], f"{proof.hex()}\n"
