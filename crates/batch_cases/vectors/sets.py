"""What batches of sets append in the worked cases of the tests, and the roots after them.
`python3 sets.py` prints them."""
import pathlib
import sys

sys.path.insert(0, str(pathlib.Path(__file__).resolve().parents[3] / "tests"))
from rules import root, varint  # noqa: E402


def batch(sets, metadata=None, floor=0):
    """One set a key, with its last value at the place of its first: Python's dictionaries keep both."""
    return [("set", key, value) for key, value in dict(sets).items()] + [("commit", metadata, floor)]


def spelled(op):
    """The bytes of an operation, whose keys and values are numbers that are repeated 32 times."""
    if op[0] == "set":
        return b"\0" + bytes([op[1]] * 32) + bytes([op[2]] * 32)
    metadata = b"\0" if op[1] is None else b"\1" + bytes([op[1]] * 32)
    return b"\1" + metadata + varint(op[2])


def main():
    log = batch([])
    for text, sets, metadata, floor in [
        ("one set", [(1, 2)], None, 0),
        ("the last of two sets stands at the first's place", [(3, 3), (1, 4), (3, 5)], 7, 1),
    ]:
        log = log + batch(sets, metadata, floor)
        print(f"{text}: size {len(log)}, floor {floor}, root {root([spelled(op) for op in log]).hex()}")
        print("    ", *log)


if __name__ == "__main__":
    main()
