"""Checks for a light client of an authenticated database. The client trusts one digest: the canonical root of a snapshot.

Strangers hand it a proof and a claim. Each call answers True or False:

- True means that the claim holds in every snapshot with that root, family, hash function and chunk size; or that two different byte
  strings have one digest, one hashed by the check, the other by the calculation of the root.
- False means nothing more than that this proof does not show the claim.

Every call raises Refused, a ValueError, where an argument can be part of no question (a root with another length than a digest, say),
and MemoryError where memory ran out, which says nothing of the claim. Calls may run side by side in several threads.

Whether the root is recent the caller has to know.
"""

import ctypes
import enum
import pathlib
from collections.abc import Sequence

__all__ = [
    "ANY_LENGTH",
    "Answer",
    "Family",
    "Hash",
    "Refused",
    "Values",
    "build",
    "check_absence",
    "check_operation",
    "check_range",
    "check_value",
]
__version__ = "0.1.0"

ANY_LENGTH = (0, 2**64 - 1)
"""The least and the greatest length of a string that may have any length."""


class Family(enum.IntEnum):
    """The shape of the trees: Merkle mountain ranges or Merkle mountain belts."""

    MMR = 0
    MMB = 1


class Hash(enum.IntEnum):
    """The digest function. Digests of SHA-256 have 32 bytes, those of SHA-512 have 64."""

    SHA256 = 0
    SHA512 = 1


class Values(enum.IntEnum):
    """How a database encodes its values.

    VARIABLE: a value has any length, which is written before it.
    SIZED: all values have 4, 8, 20 or 32 bytes, and an operation is as long as its parts.
    FIXED: as SIZED, but zeros fill up all operations to one size. Such a database has keys of one size.
    """

    VARIABLE = 0
    SIZED = 1
    FIXED = 2


class Answer(enum.IntEnum):
    """What the library answers, by the names of its C header."""

    YES = 1
    NO = 0
    NO_MEMORY = -1
    OTHER_ROOT = -2
    OTHER_FAMILY = -3
    OTHER_HASH = -4
    OTHER_LENGTHS = -5
    OTHER_KEY = -6
    OTHER_VALUE = -7
    OTHER_AGREED = -8
    OTHER_KIND = -9
    OTHER_ENCODING = -10


class Refused(ValueError):
    """An argument can be part of no question. `answer` names what is wrong with it."""

    def __init__(self, answer: Answer):
        super().__init__(_REFUSALS[answer])
        self.answer = answer


def build() -> str:
    """How the library inside was built: its version, and the kit that proved it."""
    return _LIBRARY.gawerunoa_build().decode()


def check_operation(
    proof: bytes, operation: bytes, root: bytes, *, family: Family, hash: Hash, chunk_size: int, location: int
) -> bool:
    """Whether `operation` stands at `location` and is active, by an operation proof.

    `chunk_size` is the number of bytes of a chunk of activity bits. A size that no chunk has gives False, and so do more than 128
    digests in the proof.
    """
    return _ask("operation", _agreed(family, hash, chunk_size), _size(location), *_bytes(proof, operation, root))


def check_range(
    proof: bytes,
    operations: Sequence[bytes],
    chunks: Sequence[bytes],
    root: bytes,
    *,
    family: Family,
    hash: Hash,
    chunk_size: int,
    start: int,
    max_digests: int = 128,
) -> bool:
    """Whether `operations` stand at the locations from `start` on, and `chunks` are all those with an activity bit of one of them.

    `proof` is a range proof. More than `max_digests` digests in it give False.
    """
    agreed = _agreed(family, hash, chunk_size, max_digests=max_digests)
    return _ask("range", agreed, _size(start), *_bytes(proof), *_list(operations), *_list(chunks), *_bytes(root))


def check_value(
    proof: bytes,
    key: bytes,
    value: bytes,
    root: bytes,
    *,
    family: Family,
    hash: Hash,
    chunk_size: int,
    values: Values,
    key_lengths: tuple[int, int] | None = None,
) -> bool:
    """Whether `key` has the value `value`, by a key-value proof.

    Without `key_lengths` all keys have one size: 4, 8, 20 or 32 bytes. With it keys are strings, and it gives the least and the greatest
    length of a key that the proof may name (`ANY_LENGTH`, say); another one gives False.
    """
    agreed = _agreed(family, hash, chunk_size, values, key_lengths, (len(value), len(value)))
    return _ask("value", agreed, *_bytes(proof, key, value, root))


def check_absence(
    proof: bytes,
    key: bytes,
    root: bytes,
    *,
    family: Family,
    hash: Hash,
    chunk_size: int,
    values: Values,
    value_lengths: tuple[int, int] = ANY_LENGTH,
    key_lengths: tuple[int, int] | None = None,
) -> bool:
    """Whether `key` has no value, by an exclusion proof.

    `value_lengths` are the least and the greatest length of a value that the proof may name; where values have one size, both are that
    size. For `key_lengths` see `check_value`.
    """
    agreed = _agreed(family, hash, chunk_size, values, key_lengths, value_lengths)
    return _ask("absence", agreed, *_bytes(proof, key, root))


class _Agreed(ctypes.Structure):
    """What is agreed, as the C header lays it out."""

    _fields_ = [
        *((name, ctypes.c_uint32) for name in ("family", "hash", "keys", "values")),
        *((name, ctypes.c_size_t) for name in ("chunk_size", "min_key_length", "max_key_length")),
        *((name, ctypes.c_size_t) for name in ("min_value_length", "max_value_length", "max_digests")),
    ]


_LIBRARY = ctypes.CDLL(str(pathlib.Path(__file__).with_name("libgawerunoa.so")))
_LIBRARY.gawerunoa_build.restype = ctypes.c_char_p
_ONE_SIZE, _STRINGS = 0, 1
_REFUSALS = {
    Answer.OTHER_ROOT: "the root has another length than a digest of the hash function",
    Answer.OTHER_FAMILY: "there is no such family",
    Answer.OTHER_HASH: "there is no such hash function",
    Answer.OTHER_LENGTHS: "the lengths of a list do not add up to its bytes",
    Answer.OTHER_KEY: "the key has a length that no key of one size has: these have 4, 8, 20 or 32 bytes",
    Answer.OTHER_VALUE: "the value has a size that no value of one size has: these have 4, 8, 20 or 32 bytes, all the same",
    Answer.OTHER_AGREED: "there is not one struct of what is agreed",
    Answer.OTHER_KIND: "there is no such kind of keys",
    Answer.OTHER_ENCODING: "there is no such encoding of values, or none for keys of this kind: fixed values have keys of one size",
}


def _agreed(family, hash, chunk_size, values=Values.VARIABLE, key_lengths=None, value_lengths=ANY_LENGTH, max_digests=0) -> _Agreed:
    """What is agreed. Each number is looked at, since ctypes would cut one that its field does not hold."""
    numbers = [Family(family), Hash(hash), _ONE_SIZE if key_lengths is None else _STRINGS, Values(values)]
    sizes = [chunk_size, *(key_lengths or ANY_LENGTH), *value_lengths, max_digests]
    return _Agreed(*numbers, *(_size(it).value for it in sizes))


def _ask(call: str, agreed: _Agreed, *rest) -> bool:
    """What the library answers. All arguments have their C types, since ctypes would cut a number of 64 bits to an int."""
    function = getattr(_LIBRARY, f"gawerunoa_ask_{call}")
    function.restype = ctypes.c_int32
    answer = Answer(function(ctypes.byref(agreed), ctypes.c_size_t(1), *rest))
    if answer is Answer.NO_MEMORY:
        raise MemoryError("memory ran out during the check")
    if answer < Answer.NO_MEMORY:
        raise Refused(answer)
    return answer is Answer.YES


def _size(number: int) -> ctypes.c_size_t:
    if not 0 <= number < 2**64:
        raise ValueError(f"{number} is no number from 0 to 2^64 - 1")
    return ctypes.c_size_t(number)


def _bytes(*strings: bytes) -> list:
    """A pointer and a length for each."""
    return [word for it in strings for word in (ctypes.c_char_p(it), ctypes.c_size_t(len(it)))]


def _list(strings: Sequence[bytes]) -> list:
    """The strings as one, the length of each, and how many they are."""
    lengths = (ctypes.c_size_t * len(strings))(*map(len, strings))
    return [*_bytes(b"".join(strings)), lengths, ctypes.c_size_t(len(strings))]
