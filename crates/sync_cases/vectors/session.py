"""Digests, asks and answers of the worked sessions over keyless logs, worked from docs/FORMATS.md.
`python3 session.py` prints the constants of src/tests/vectors.rt."""
import pathlib
import sys

sys.path.insert(0, str(pathlib.Path(__file__).resolve().parents[3] / "tests"))
from rules import answer, be64, frame, leaves_of, node, peaks, root, root_of, varint  # noqa: E402

COMMIT = b"\1\0" + varint(0)


def append(byte):
    return b"\0" + bytes([byte]) * 32


THREE = [COMMIT, append(1), append(2)]
NINE = [COMMIT] + [append(i) for i in range(1, 9)]


def ask(number, end, start, stop):
    """The frame of an ask, of which the first begins the target."""
    body = b"\0" + be64(number) + varint(end) + varint(start) + be64(stop - start) + bytes([start == 0])
    return frame(body)


def tapes(asked):
    """The frames of these asks (end of the target, start, end), under the numbers from 1 on; and their answers."""
    sent = b"".join(ask(1 + i, end, a, b) for i, (end, a, b) in enumerate(asked))
    given = [frame(answer(NINE[:end], 1 + i, a, b - a, a == 0)) for i, (end, a, b) in enumerate(asked)]
    return sent, b"".join(given)


def constants():
    leaves = leaves_of(THREE)
    yield "ROOT", "The root of the log of three.", root(THREE)
    for i, which in enumerate(["first", "second", "third"]):
        yield f"LEAF_{i}", f"The digest of its {which} leaf.", leaves[i]
    yield "PAIR", "The node over its first two leaves.", node(leaves[0], leaves[1])
    other = [node(leaves[1], leaves[1]), leaves[2]]
    yield "OTHER_ROOT", "Its root where the second leaf stands before itself.", root_of(3, other)
    yield "ROOT_TWO", "The root of its first two operations.", root(THREE[:2])
    yield "ROOT_SIX", "The root of the first six operations of the log of nine.", root(NINE[:6])
    yield "ROOT_NINE", "Its root.", root(NINE)
    one = [(6, 0, 2), (6, 2, 4), (9, 4, 6), (9, 6, 8), (9, 8, 9)]
    sent, given = tapes(one)
    yield "ASKED_ONE", "The asks one at a time, where the end is 6 until the second answer, and 9 from then on.", sent
    yield "GIVEN_ONE", "Their answers.", given
    sent, given = tapes([(6, 0, 2), (6, 2, 4), (6, 4, 6), (9, 6, 8), (9, 8, 9)])
    yield "ASKED_THREE", "The asks three at a time.", sent
    yield "GIVEN_THREE", "Their answers.", given
    sent, given = tapes([(6, 0, 6)])
    yield "ASKED_ALL", "The ask for all six.", sent
    yield "GIVEN_ALL", "Its answer.", given


if __name__ == "__main__":
    assert peaks(leaves_of(THREE))[0] == node(*leaves_of(THREE)[:2])
    print("//! Digests, asks and answers, as vectors/session.py prints them.\n")
    print("use ledger_codec::Digest;")
    for name, words, data in constants():
        of = "Digest" if len(data) == 32 else f"[u8; {len(data)}]"
        print(f"\n/// {words}\npub(super) const {name}: {of} = [")
        for at in range(0, len(data), 16):
            print("    " + " ".join(f"0x{byte:02x}," for byte in data[at : at + 16]))
        print("];")
