"""What batches read and append in worked cases, and the laws of the copies over many logs.
`python3 appended.py` prints the cases, and ends with an error where a law fails."""
import pathlib
import random
import sys

sys.path.insert(0, str(pathlib.Path(__file__).resolve().parents[3] / "tests"))
from rules import commit, root, sha, update, varint  # noqa: E402


def replay(ops):
    """The values of the keys that have one."""
    values = {}
    for op in ops:
        if op[0] == "update":
            values[op[1]] = op[2]
        elif op[0] == "delete":
            values.pop(op[1], None)
    return values


def counting(ops, start=0):
    """The places of the updates that are their keys' last operations."""
    last = {op[1]: place for place, op in enumerate(ops) if op[0] != "commit"}
    return [start + place for place, op in enumerate(ops) if op[0] == "update" and last[op[1]] == place]


def floor_of(ops):
    return [op[2] for op in ops if op[0] == "commit"][-1]


def changes(values, writes):
    """One operation a written key: Python's dictionaries keep the first place of a key and its last value."""
    out = []
    for key, value in dict(writes).items():
        if value is not None:
            out.append(("update", key, value))
        elif key in values:
            out.append(("delete", key))
    return out


def raised(ops, more, metadata=None, start=0):
    """What a batch with these changes appends to the log of these operations, whose first stands at `start`."""
    end, floor = start + len(ops), floor_of(ops)
    old = [place for place in counting(ops + more, start) if floor <= place < end]
    copies = [ops[place - start] for place in old[: len(more)]]
    behind = ops + more + copies
    above = [place for place in counting(behind, start) if floor <= place]
    return more + copies + [("commit", metadata, above[0] if above else start + len(behind))]


def keeps_the_laws(ops, more, start):
    """The copies leave the values as they were; the floor doesn't fall, nor pass the commit or an update that counts
    and that it was below; and there is at most one copy a change."""
    batch = raised(ops, more, None, start)
    whole, floor = ops + batch, batch[-1][2]
    sound = all(floor_of(ops) <= place for place in counting(ops, start))
    return (
        replay(whole) == replay(ops + more)
        and floor_of(ops) <= floor <= start + len(whole) - 1
        and (not sound or all(floor <= place for place in counting(whole, start)))
        and len(batch) - 1 - len(more) <= len(more)
    )


def some_log(draw):
    """Some operations that end with a commit, and their first place."""
    start, ops = draw.randrange(4), []
    for _ in range(draw.randrange(12)):
        key = draw.choice("abcd")
        ops.append(draw.choice([("update", key, draw.randrange(9)), ("update", key, 9), ("delete", key)]))
    least = start + draw.randrange(len(ops) + 1)
    return ops + [("commit", None, least)], start


def laws():
    draw = random.Random(1)
    for _ in range(20000):
        ops, start = some_log(draw)
        writes = [(draw.choice("abcde"), draw.choice([None, 1, 2])) for _ in range(draw.randrange(5))]
        assert keeps_the_laws(ops, changes(replay(ops), writes), start), (ops, writes, start)


def opened(*accounts):
    """A log of a commit, an update for each account, and a commit."""
    return [("commit", None, 0)] + [("update", key, value) for key, value in accounts] + [("commit", None, 0)]


def cases():
    ten = (10, 0)
    three = opened(("a", ten), ("b", ten), ("c", ten))
    yield "a change and a new key move two old accounts", three, [("c", (9, 1)), ("d", (1, 0))]
    yield "a payment to oneself moves one", opened(*((key, ten) for key in "abcd")), [("d", (10, 1))]
    yield "no write moves none, and raises the floor to the first account", opened(("alice", ten)), []
    one = opened(("alice", ten))
    yield "nothing old is left", one, [("alice", (4, 1)), ("bob", (6, 0))]
    yield "the last of three writes stands at the first's place", opened(("a", 1)), [
        ("a", 5), ("b", None), ("a", 2), ("c", None), ("c", 3), ("c", None),
    ]
    yield "a deletion of what is held", opened(("a", 1)), [("a", 1), ("b", None), ("a", None)]


def reads():
    """The value of the key 1 in the tests, 0 where there is none: each level of writes goes over those below."""
    levels = {
        "a log": [{1: 1}],
        "with two writes": [{1: 1}, dict([(1, 5), (1, 2)])],
        "and a deletion": [{1: 1}, dict([(1, 5), (1, 2), (1, 0)])],
        "over two ancestors": [{1: 1}, {1: 0}, {1: 3}],
    }
    for text, below in levels.items():
        yield text, next(level[1] for level in reversed(below) if 1 in level)


def spelled(op):
    """The bytes of an operation, whose keys and values are numbers that are repeated 32 times."""
    if op[0] == "update":
        return update(bytes([op[1]] * 32), bytes([op[2]] * 32))
    if op[0] == "delete":
        return b"\1" + bytes([op[1]] * 32)
    return commit(op[2]) if op[1] is None else b"\2\1" + bytes([op[1]] * 32) + varint(op[2])


def grown(ops, writes, metadata=None):
    """A log with a batch of these writes behind it."""
    return ops + raised(ops, changes(replay(ops), writes), metadata)


def chain():
    """A log of one account, and what it is with each of three batches more behind it: a new key; a deletion of the
    old one, with metadata; and a write of 4, slots for 2, 1 and 2 that put 8, keep 1 and put 9, and unstaged
    writes, which give 3 a value and take that of 4."""
    logs = [opened((1, 1))]
    logs.append(grown(logs[-1], [(2, 2)]))
    logs.append(grown(logs[-1], [(1, None), (5, None)], 7))
    logs.append(grown(logs[-1], [(4, 4), (2, 8), (2, 9), (3, 3), (4, None)]))
    return logs


def canonical(ops):
    """The root that a current log shows: over the operations' root and that of the bits, in chunks of 32 bytes, which
    tell what counts and the last commit."""
    counts = set(counting(ops)) | {max(place for place, op in enumerate(ops) if op[0] == "commit")}
    bits = "".join("1" if place in counts else "0" for place in range(len(ops)))
    bits += "0" * (-len(bits) % 256)
    chunks = [int(bits[at : at + 256], 2).to_bytes(32, "big") for at in range(0, len(bits), 256)]
    return sha(b"\3" + root([spelled(op) for op in ops]) + root(chunks))


def current():
    """A current log of one account, and what it is with a batch behind it whose slots for 1, 2 and 1 put 1, delete and
    put 2; with one that takes the value of 1 behind these; and with this one, of a chain, behind the first."""
    held = opened((1, 1))
    put = grown(held, [(1, 1), (2, None), (1, 2)])
    return [held, put, grown(held, [(1, 1), (2, None), (1, 2), (1, None)]), grown(put, [(1, None)])]


def main():
    for text, value in reads():
        print(text, value)
    for text, ops, writes in cases():
        print(text)
        for place, op in enumerate(raised(ops, changes(replay(ops), writes)), len(ops)):
            print("   ", place, op)
    laws()
    for ops in chain():
        print("a log of", len(ops), "floor", floor_of(ops), "root", root([spelled(op) for op in ops]).hex())
        print("    ", *ops)
    for ops in current():
        print("a current log of", len(ops), "floor", floor_of(ops), "root", canonical(ops).hex())
        print("    ", *ops)
    short = [commit(0), update(b"\1" * 32, b"\2" * 32), commit(0)]
    print("root of a log of one account", root(short).hex())


if __name__ == "__main__":
    main()
