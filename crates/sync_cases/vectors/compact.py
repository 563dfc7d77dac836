"""Replies of a server of compact logs over the log [Commit(None, 0), Append(32 bytes of 1), Commit(None, 1)] of the
family keyless, worked from docs/FORMATS.md: the log's root, the SHA-256 of each body, and the replies' frames."""
import pathlib
import sys

sys.path.insert(0, str(pathlib.Path(__file__).resolve().parents[3] / "tests"))
from rules import be64, frame, leaves_of, peaks, proof, root, sha, varint  # noqa: E402

OPS = [b"\1\0" + varint(0), b"\0" + b"\1" * 32, b"\1\0" + varint(1)]


def nodes(digests):
    return varint(len(digests)) + b"".join(digests)


def target(number):
    return b"\5" + be64(number) + root(OPS) + varint(len(OPS))


def state(number):
    leaves, size = leaves_of(OPS), len(OPS)
    proved = varint(size) + varint(0) + nodes(proof(leaves, size - 1, 1))
    return b"\7" + be64(number) + varint(size) + nodes(peaks(leaves)) + OPS[-1] + proved


if __name__ == "__main__":
    for name, value in [("root", root(OPS)), ("target", sha(target(1))), ("state", sha(state(2)))]:
        print(name, ", ".join(f"0x{byte:02x}" for byte in value))
    print("frames", list(frame(target(1)) + frame(state(2))))
