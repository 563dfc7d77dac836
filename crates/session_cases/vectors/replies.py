"""Replies of a session over the log [CommitFloor(None, 0), Update(32 bytes of 7, 32 bytes of 9), CommitFloor(None, 0)],
worked from docs/FORMATS.md: how long a frame is, and the SHA-256 of the frames that are sent; and over the log of the family keyless of one
commit without metadata, of the reply to a request for the compact target."""
import pathlib
import sys

sys.path.insert(0, str(pathlib.Path(__file__).resolve().parents[3] / "tests"))
from rules import be64, commit, frame, root, sha, update, varint  # noqa: E402

OPS = [commit(0), update(b"\7" * 32, b"\t" * 32), commit(0)]


def target(number):
    return frame(b"\3" + be64(number) + root(OPS) + varint(0) + varint(len(OPS)))


def compact(number, ops):
    return frame(b"\5" + be64(number) + root(ops) + varint(len(ops)))


if __name__ == "__main__":
    print("target", len(target(1)), list(sha(target(1))))
    print("targets 1, 2", list(sha(target(1) + target(2))))
    print("compact", list(sha(compact(1, [b"\1\0\0"]))))
