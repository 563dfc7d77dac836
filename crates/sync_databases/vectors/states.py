"""The frame that answers request 1 for the compact state of a fresh log of the family immutable, and the log's root.
`python3 states.py` prints them."""
import pathlib
import sys

sys.path.insert(0, str(pathlib.Path(__file__).resolve().parents[3] / "tests"))
from rules import be64, frame, leaves_of, peaks, root, varint  # noqa: E402

OPS = [b"\1\0" + varint(0)]


def state(number):
    """One leaf, which is its one peak; the commit, which is proved without digests."""
    proved = varint(1) + varint(0) + varint(0)
    return b"\7" + be64(number) + varint(1) + varint(1) + peaks(leaves_of(OPS))[0] + OPS[0] + proved


if __name__ == "__main__":
    print("frame", list(frame(state(1))))
    print("root", list(root(OPS)))
