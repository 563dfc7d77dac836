"""Digests and roots of the promises that are tried, worked from docs/FORMATS.md. `python3 promises.py` prints the
constants of src/tests."""
import pathlib
import sys

sys.path.insert(0, str(pathlib.Path(__file__).resolve().parents[3] / "tests"))
from rules import leaves_of, node, root, sha, varint  # noqa: E402


def constant(name, digest):
    print(name, ", ".join(f"0x{byte:02x}" for byte in digest))


def keyless_commit(floor):
    return b"\1\0" + varint(floor)


constant("ONE_TWO_THREE", sha(bytes([1, 2, 3])))
constant("FIRST_TWO", node(*leaves_of([b"\1" * 32, b"\2" * 32])))
LATE = keyless_commit(5)
constant("LATE_LEAF", leaves_of([LATE])[0])
constant("LATE_ROOT", root([LATE]))
constant("THREE", root([keyless_commit(0), b"\0" + b"\1" * 32, keyless_commit(0)]))
