"""Checks the demo's proof, and the same with one byte changed: prints yes, then no.

    python3 examples/check.py [LIBRARY [FOLDER]]
"""
import ctypes
import pathlib
import sys

TOP = pathlib.Path(__file__).resolve().parent.parent
LIBRARY = pathlib.Path(sys.argv[1]) if len(sys.argv) > 1 else TOP / "dist/lib/libgawerunoa.so"
FOLDER = pathlib.Path(sys.argv[2]) if len(sys.argv) > 2 else TOP / "examples/data"
MMR, SHA256 = 0, 0

BYTES = [ctypes.c_char_p, ctypes.c_size_t]
check = ctypes.CDLL(str(LIBRARY)).gawerunoa_check_operation
check.restype = ctypes.c_int32
check.argtypes = [ctypes.c_uint32, ctypes.c_uint32, ctypes.c_size_t, ctypes.c_uint64, *BYTES, *BYTES, *BYTES]


def told(proof, operation, root):
    given = [word for it in (proof, operation, root) for word in (it, len(it))]
    return {1: "yes", 0: "no"}.get(check(MMR, SHA256, 1, 3, *given), "refused, or out of memory")


root, operation, proof = (FOLDER.joinpath(f"{name}.bin").read_bytes() for name in ("root", "operation", "proof"))
print(told(proof, operation, root))
changed = bytearray(proof)
changed[len(proof) // 2] ^= 1
print(told(bytes(changed), operation, root))
