"""Reconciles the pass from day 100 to day 101 of the worked example; prints the number and the
instance in hex, or why the call refuses.

  LD_LIBRARY_PATH=PREFIX/lib python3 examples/link/reconcile.py
"""

import ctypes
import sys

VERSION = 0x010000  # major, minor, patch: the calls are declared here as that version has them
LONGEST = 1283


class Answer(ctypes.Structure):
    _fields_ = [
        ("number", ctypes.c_uint32),
        ("file", ctypes.c_uint32),
        ("offset", ctypes.c_uint64),
        ("value", ctypes.c_uint64),
    ]


FILE = [ctypes.c_char_p, ctypes.c_size_t]
DAYS = [ctypes.c_uint16, ctypes.c_uint16]  # a greater number would lose its high bits
OUT = [ctypes.POINTER(ctypes.c_uint8), ctypes.c_size_t]

neulenta = ctypes.CDLL("libneulenta.so.1")
neulenta.neulenta_version.restype = ctypes.c_uint32
neulenta.neulenta_reconcile.restype = Answer
neulenta.neulenta_reconcile.argtypes = FILE + FILE + DAYS + OUT

SCHEMA = bytes.fromhex("534803 534E0102010200 534E01000100000000010000000A 534E010000")
POLICIES = bytes.fromhex(
    "50480064006401 504E000005 5048006500C802 504E000100 504E010000000400000008"
)

if neulenta.neulenta_version() < VERSION:
    sys.exit("the library is older than this program")
out = (ctypes.c_uint8 * LONGEST)()
answer = neulenta.neulenta_reconcile(
    SCHEMA, len(SCHEMA), POLICIES, len(POLICIES), 100, 101, out, LONGEST
)
if answer.number != 0:
    sys.exit(f"number {answer.number}, file {answer.file}, offset {answer.offset}")
print(answer.number, bytes(out[: answer.value]).hex())
