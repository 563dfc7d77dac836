#!/usr/bin/env python3
"""Roots of logs of the four families by the rules of docs/FORMATS.md, computed apart from the crates.

The tests of ledger_compact, ledger_activity and ledger_examples compare with them. Each line is a name and the
whole root in hexadecimal digits.
"""
import pathlib
import sys

sys.path.insert(0, str(pathlib.Path(__file__).resolve().parents[3] / "tests"))
from rules import root, sha, varint  # noqa: E402

ONES = bytes([1]) * 32


def commit(tag, metadata, floor):
    return bytes([tag]) + (b"\x00" if metadata is None else b"\x01" + metadata) + varint(floor)


def keyed(key, value):
    return b"\x00" + key + value


def any_tests(count, seed):
    """The test operations of any and current: floors one above the place in the list, the last one `count`."""
    ops = []
    for i in range(count):
        key = sha(i.to_bytes(8, "big") + seed.to_bytes(8, "big"))
        ops.append((keyed(key, sha(key + b"value")), None))
        if (i + 1) % 10 == 0:
            ops.append((None, i + 1))
    ops.append((None, count))
    return ops


def added(tests, floor):
    """As they are appended: each commit has the log's floor in place of its own."""
    return [op if op is not None else commit(2, None, floor) for op, _ in tests]


def fixed_tests(family, count, seed, start):
    """The test operations of immutable and keyless: the given floor, and metadata of ones in the last commit."""
    ops = []
    for i in range(count):
        key = sha(i.to_bytes(8, "big") + seed.to_bytes(8, "big"))
        ops.append(keyed(key, sha(key + b"value")) if family == "immutable" else b"\x00" + key)
        if (i + 1) % 10 == 0:
            ops.append(commit(1, None, start))
    ops.append(commit(1, ONES, start))
    return ops


def canonical(ops, bits):
    chunks = []
    for at in range(0, len(bits), 256):
        part = (bits[at:at + 256] + [0] * 256)[:256]
        chunks.append(bytes(int("".join(map(str, part[i:i + 8])), 2) for i in range(0, 256, 8)))
    return sha(b"\x03" + root(ops) + root(chunks))


if __name__ == "__main__":
    one, two = bytes([1]) * 32, bytes([2]) * 32
    print("immutable of three", root([commit(1, None, 0), keyed(one, two), commit(1, None, 1)]).hex())
    print("keyless of three", root([commit(1, None, 0), b"\x00" + one, commit(1, None, 1)]).hex())

    # a commit, two updates of one key, a commit
    key, first, second = bytes([7]) * 32, bytes([8]) * 32, bytes([9]) * 32
    log = [commit(2, None, 0), keyed(key, first), keyed(key, second), commit(2, None, 0)]
    print("canonical", canonical(log, [0, 0, 1, 1]).hex())
    # the same with 300 updates of distinct keys between them
    many = [keyed(i.to_bytes(2, "big") + bytes(30), first) for i in range(300)]
    print("canonical of 304", canonical(log[:3] + many + log[3:], [0, 0, 1] + [1] * 300 + [1]).hex())

    fresh = [commit(2, None, 0)]
    print("any 5 12345", root(fresh + added(any_tests(5, 12345), 0)).hex())
    print("any 20 12345", root(fresh + added(any_tests(20, 12345), 0)).hex())
    print("any 50 12345", root(fresh + added(any_tests(50, 12345), 0)).hex())
    for family, again in (("immutable", 0), ("keyless", 14)):
        log = [commit(1, None, 0)] + fixed_tests(family, 12, 42, 0)
        print(family, len(log), root(log).hex())
        # the next begin at the floor of immutable, and at the last commit of keyless
        log += fixed_tests(family, 15, 99, again)
        print(family, len(log), root(log).hex())
    log = [commit(1, None, 0)] + fixed_tests("immutable", 10000, 1, 0)
    log += fixed_tests("immutable", 10000, 2, 10000)
    print("immutable", len(log), root(log).hex())
