#!/usr/bin/env python3
"""The roots of src/tests/rows.rt and the stream of src/tests/cuts.rt, by the rules of tests/rules.py."""
import pathlib
import sys

sys.path.insert(0, str(pathlib.Path(__file__).resolve().parents[3] / "tests"))
from rules import answer, be64, commit, frame, root, update  # noqa: E402


def key(name):
    return name.encode().ljust(32, b"\0")


def value(balance, nonce):
    return be64(balance) + be64(nonce) + bytes(16)


OPENED = [commit(0), update(key("alice"), value(10, 0)), commit(0)]
# Neither key's old update counts behind the changes, so nothing is copied, and the floor is alice's new place.
PAID = OPENED + [update(key("alice"), value(4, 1)), update(key("bob"), value(6, 0)), commit(3)]

# Two operations of the opened log, and four of the paid one, which is named after the first answer.
STREAM = b"".join(frame(body) for body in (
    answer(OPENED, 1, 0, 2, True), answer(PAID, 2, 2, 2), answer(PAID, 3, 4, 2)))

print("OPENED", root(OPENED).hex())
print("PAID", root(PAID).hex())
print("STREAM", len(STREAM), ", ".join(map(str, STREAM)))
