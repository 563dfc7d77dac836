#!/usr/bin/env python3
"""Roots of small lists by the rules of docs/FORMATS.md, computed apart from the crates. The tests compare with them.

Each part of the output is a line: a name, then the last bytes or the whole root in hexadecimal digits.
"""
import pathlib
import sys

sys.path.insert(0, str(pathlib.Path(__file__).resolve().parents[3] / "tests"))
from rules import commit, root, sha, update  # noqa: E402


def toy(data):
    return bytes(30) + (sum(data) % 65536).to_bytes(2, "big")


if __name__ == "__main__":
    for count in (0, 1, 5, 12):
        print("items", count, root([bytes([i]) * 32 for i in range(count)]).hex())
    ones, zeros = bytes([1]) * 32, bytes(32)
    other = b"\x02\x00" + bytes([1]) * 30
    print("toy fresh", root([commit(0)], toy).hex()[-4:])
    for value in (ones, other):
        print("toy log", root([commit(0), update(zeros, value), commit(0)], toy).hex()[-4:])
    print("sha log", root([commit(0), update(zeros, ones), commit(0)]).hex())
