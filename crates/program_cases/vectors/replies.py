#!/usr/bin/env python3
"""What the tests' links are sent: replies to a request for the target under the number 9, by docs/FORMATS.md."""
import pathlib
import sys

ROOT = pathlib.Path(__file__).resolve().parents[3]
sys.path.insert(0, str(ROOT / "tests"))
sys.path.insert(0, str(ROOT / "crates" / "serve_parts" / "vectors"))
from logs import batch, test_log  # noqa: E402
from rules import be64, commit, frame, root, update, varint  # noqa: E402


def target(ops):
    """The target of a log whose last floor is 0."""
    return frame(b"\3" + be64(9) + root(ops) + varint(0) + varint(len(ops)))


def compact_target(ops):
    return frame(b"\5" + be64(9) + root(ops) + varint(len(ops)))


if __name__ == "__main__":
    log = test_log("any", 5, 0)
    both = b""
    for connection in (0, 1):
        log += batch(3, 1 + connection)
        both += target(log)
    print("two connections", both.hex())
    account = update(b"alice" + bytes(27), be64(100) + be64(7) + bytes(16))
    print("job", target([commit(0), account, commit(0)]).hex())
    print("compact", compact_target(test_log("keyless", 12, 42)).hex())
    print("request", frame(b"\2" + be64(9)).hex(), frame(b"\4" + be64(9)).hex())
