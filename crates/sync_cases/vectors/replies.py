"""Replies over the log [CommitFloor(None, 0), Update(32 bytes of 7, 32 bytes of 9), CommitFloor(None, 0)],
worked from docs/FORMATS.md: the SHA-256 of each body, and of the target the whole frame."""
import pathlib
import sys

sys.path.insert(0, str(pathlib.Path(__file__).resolve().parents[3] / "tests"))
from rules import answer, be64, commit, frame, root, sha, update, varint  # noqa: E402

OPS = [commit(0), update(b"\7" * 32, b"\t" * 32), commit(0)]


def target(number):
    return b"\3" + be64(number) + root(OPS) + varint(0) + varint(3)


if __name__ == "__main__":
    for asked in [(2, 3, 1, 2, False), (2, 3, 1, 1, True), (3, 2, 0, 2, False)]:
        number, tree, start, count, pinned = asked
        print(asked, list(sha(answer(OPS[:tree], number, start, count, pinned))))
    print("target", list(sha(target(1))))
    print("frames of targets 1, 2, 3", list(sha(b"".join(frame(target(n)) for n in (2, 1, 3)))))
