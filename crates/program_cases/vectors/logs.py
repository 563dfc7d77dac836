#!/usr/bin/env python3
"""Roots of logs of test operations, and of what is appended to them, by the rules of docs/FORMATS.md."""
import pathlib
import sys

sys.path.insert(0, str(pathlib.Path(__file__).resolve().parents[3] / "tests"))
from rules import root, sha, varint  # noqa: E402

ONES = bytes([1]) * 32


def commit(tag, metadata, floor):
    return bytes([tag]) + (b"\x00" if metadata is None else b"\x01" + metadata) + varint(floor)


def writes(family, count, seed):
    for i in range(count):
        key = sha(i.to_bytes(8, "big") + seed.to_bytes(8, "big"))
        yield b"\x00" + key if family == "keyless" else b"\x00" + key + sha(key + b"value")


def test_log(family, count, seed):
    """A commit, and test operations with a commit behind each tenth and behind all."""
    tag = 2 if family == "any" else 1
    ops = [commit(tag, None, 0)]
    for i, write in enumerate(writes(family, count, seed)):
        ops.append(write)
        if (i + 1) % 10 == 0:
            ops.append(commit(tag, None, 0))
    return ops + [commit(tag, None if family == "any" else ONES, 0)]


def batch(count, seed):
    """The updates of so many test operations of any or current, and a commit."""
    return list(writes("any", count, seed)) + [commit(2, None, 0)]


if __name__ == "__main__":
    log = test_log("any", 5, 0)
    print("any 5 0", len(log), root(log).hex())
    for connection in (0, 1):
        log += batch(3, 1 + connection)
        print("with batch", connection, len(log), root(log).hex())
    for family in ("immutable", "keyless"):
        log = test_log(family, 12, 42)
        print(family, "12 42", len(log), root(log).hex())
