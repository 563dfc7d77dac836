"""What peers answer to `sync`, and the lines that it prints, worked from docs/FORMATS.md: frames as lists of numbers
for src/tests/vectors.rt (which this script writes), and the roots in hexadecimal digits."""
import pathlib
import sys
import textwrap

sys.path.insert(0, str(pathlib.Path(__file__).resolve().parents[3] / "tests"))
from rules import answer, be64, commit, frame, leaves_of, peaks, proof, root, update, varint  # noqa: E402

KEY, VALUE, OTHER = b"\7" * 32, b"\t" * 32, b"\b" * 32


def fixed(floor):
    """A commit of immutable and keyless, without metadata."""
    return b"\1\0" + varint(floor)


ANY = [commit(0), update(KEY, VALUE), commit(1), update(KEY, OTHER), commit(2)]
IMMUTABLE = [fixed(0), b"\0" + KEY + VALUE, fixed(1)]
KEYLESS = [fixed(0), b"\0" + VALUE, fixed(1)]
# its last operation is no commit
NO_LOG = [commit(0), update(KEY, VALUE)]


def full(ops, start):
    """A target from this start on, and its operations."""
    target = b"\3" + be64(1) + root(ops) + varint(start) + varint(len(ops))
    return frame(target) + frame(answer(ops, 2, start, len(ops) - start, True))


def nodes(digests):
    return varint(len(digests)) + b"".join(digests)


def compact(ops, stated):
    """The compact target of a log, and the state of another."""
    leaves, size = leaves_of(stated), len(stated)
    proved = varint(size) + varint(0) + nodes(proof(leaves, size - 1, 1))
    state = b"\7" + be64(2) + varint(size) + nodes(peaks(leaves)) + stated[-1] + proved
    return frame(b"\5" + be64(1) + root(ops) + varint(len(ops))) + frame(state)


def damaged(data, place):
    return data[:place] + bytes([data[place] ^ 1]) + data[place + 1 :]


FRAMES = [
    ("ANY", "A log of the family any from 0 on, whose last floor is 2.", full(ANY, 0)),
    ("ANY_FROM_2", "The same from 2 on.", full(ANY, 2)),
    ("IMMUTABLE", "A log of the family immutable from 1 on.", full(IMMUTABLE, 1)),
    ("KEYLESS", "A log of the family keyless from 1 on.", full(KEYLESS, 1)),
    ("COMPACT_IMMUTABLE", "The same log of immutable without its operations.", compact(IMMUTABLE, IMMUTABLE)),
    ("COMPACT_KEYLESS", "The same log of keyless without its operations.", compact(KEYLESS, KEYLESS)),
    ("NO_LOG", "A list that ends without a commit.", full(NO_LOG, 0)),
    ("OTHER_STATE", "The target of a log, and the state of another.", compact(KEYLESS, IMMUTABLE)),
    ("DAMAGED", "A log with a bit of its last commit's floor turned.", damaged(full(ANY, 0), -3)),
    ("REFUSAL", "A refusal of the first request, with the text `no`.", frame(b"\x08" + be64(1) + b"\3\2no")),
    ("NO_MESSAGE", "A frame that is no message.", frame(b"\xff")),
]

if __name__ == "__main__":
    for name, ops in [("any", ANY), ("immutable", IMMUTABLE), ("keyless", KEYLESS)]:
        print(name, len(ops), root(ops).hex())
    out = ["//! What peers answer, written by vectors/sync.py.", ""]
    for name, text, data in FRAMES:
        listed = textwrap.fill(", ".join(map(str, data)) + ",", 96)
        out += [f"/// {text}", f"pub const {name}: [u8; {len(data)}] = [", textwrap.indent(listed, "    "), "];", ""]
    path = pathlib.Path(__file__).resolve().parents[1] / "src/tests/vectors.rt"
    path.write_text("\n".join(out[:-1]) + "\n")
