"""Tries the verifier on a forged proof: of eleven operations of an MMR only that of location 9 is active, and that of 8 is said to be.

No node holds the bits of the partial chunk, which are those of the locations 8 to 10: only step 6 of the check sees that they are forged.
Without that step the verifier takes the proof, so nothing else is wrong with it. The last line is 'N passed, M failed'.
"""
import sys
import types
from pathlib import Path

import verifier

DATABASE = ("mmr", "sha256", 1, "ordered-fixed", "fixed4", "u64")
ROOT = bytes.fromhex("709fb96d5be34430285bfe5be1176141bf8250496a146c8e4cd8ad95042ab960")
OPERATIONS = {8: bytes.fromhex("d20000001000000000000000080000001200"), 9: bytes.fromhex("d20000001200000000000000090000001400")}
PEAKS = "1cd8ecbea4077ca128ecd0734686023325f2d5758968a4b08d1bf820992ecfda30b1d663b22b7c48744134ab2aac50eba976e0e1f4d526df3d273ec1a8e1f41b"
SIBLINGS = {
    8: "594e8fd990a4fa585488d0fc9f142b46f2233067e4693eae6ebcb3e2531990a2",
    9: "23cdda44ba2aa1d75d65a7bd84678c1501391a219163c803fe7ec53718246bbe",
}
PARTIAL = "dbc1b4c900ffe48d575b5da5c638040125f65db0fe3e24494b76ea986457d986"
OPERATIONS_ROOT = "afd81011839ead337dd6a52d9820c9db7bef34952f9874825c5e37dda0b42797"
STEP_6 = "require(not there or number not in chunk_at or h(db, chunk_at[number]) == slot)"


def answer(module, location, chunk):
    """What a verifier answers for a location's proof with this chunk. The chunk of the snapshot is 02: location 9 alone is active."""
    proof = bytes([location, chunk, 11, 0, 3]) + bytes.fromhex(f"{PEAKS}{SIBLINGS[location]}01{PARTIAL}{OPERATIONS_ROOT}")
    return module.check_operation(module.Database(*DATABASE), ROOT, proof, OPERATIONS[location], location)


def without(text):
    """The verifier without a part of its text."""
    source = Path(verifier.__file__).read_text()
    assert source.count(text) == 1
    module = types.ModuleType("verifier")
    exec(source.replace(text, "pass"), module.__dict__)
    return module


def main():
    """Compare each answer with the one that is right."""
    tried = {
        "the own proof of location 9": (answer(verifier, 9, 2), True),
        "the own proof of location 8, which is not active": (answer(verifier, 8, 2), False),
        "the proof of location 8 with its bit set": (answer(verifier, 8, 3), False),
        "the same without step 6": (answer(without(STEP_6), 8, 3), True),
    }
    wrong = [name for name, (given, right) in tried.items() if given != right]
    for name in wrong:
        print(f"verifier: {name}: {tried[name][0]}")
    print(f"{len(tried) - len(wrong)} passed, {len(wrong)} failed")
    return int(bool(wrong))


if __name__ == "__main__":
    sys.exit(main())
