"""The frames that bring a client the log [CommitFloor(None, 0), Update(32 bytes of 7, 32 bytes of 9),
CommitFloor(None, 0)], worked from docs/FORMATS.md: its target under 1, all its operations under 2; and its root."""
import pathlib
import sys

sys.path.insert(0, str(pathlib.Path(__file__).resolve().parents[3] / "tests"))
from rules import answer, be64, commit, frame, root, update, varint  # noqa: E402

OPS = [commit(0), update(b"\7" * 32, b"\t" * 32), commit(0)]


if __name__ == "__main__":
    print("target", list(frame(b"\3" + be64(1) + root(OPS) + varint(0) + varint(len(OPS)))))
    print("operations", list(frame(answer(OPS, 2, 0, len(OPS), True))))
    print("root", list(root(OPS)))
