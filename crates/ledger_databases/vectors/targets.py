"""The targets of databases in worked cases. `python3 targets.py` prints them."""
import pathlib
import sys

TOP = pathlib.Path(__file__).resolve().parents[3]
sys.path[:0] = [str(TOP / "tests"), str(TOP / "crates/batch_cases/vectors")]
from appended import floor_of, grown, spelled  # noqa: E402
from rules import root, varint  # noqa: E402


def show(text, ops, floor):
    print(text, floor, len(ops), root(ops).hex())


def any_cases():
    """A fresh log, with a batch that writes 1 to the key of ones, and with one behind it that writes 2 there."""
    fresh = [("commit", None, 0)]
    one = grown(fresh, [(1, 1)])
    two = grown(one, [(1, 2)])
    for text, ops in ("fresh", fresh), ("one write", one), ("two", two):
        show("any " + text, [spelled(op) for op in ops], floor_of(ops))


def immutable_cases():
    """The same, where a key is set, each batch with the floor before it."""
    fresh = [b"\1\0" + varint(0)]
    one = fresh + [b"\0" + b"\1" * 64, b"\1\0" + varint(1)]
    two = one + [b"\0" + b"\1" * 32 + b"\2" * 32, b"\1\0" + varint(3)]
    for text, ops, floor in ("fresh", fresh, 0), ("one write", one, 1), ("two", two, 3):
        show("immutable " + text, ops, floor)


if __name__ == "__main__":
    any_cases()
    immutable_cases()
