"""Roots, frames and tapes of the worked cases of following a log over a link, worked from docs/FORMATS.md.
`python3 cases.py` prints the constants of src/tests/vectors.rt."""
import pathlib
import sys

sys.path.insert(0, str(pathlib.Path(__file__).resolve().parents[3] / "tests"))
from reference import Log, spelling  # noqa: E402
from rules import answer, be64, commit, frame, heights, leaves_of, node, peaks, root, root_of, varint  # noqa: E402
from rules import update as written  # noqa: E402


def update(key, value):
    return written(bytes([key]) * 32, value)


def account(balance, nonce):
    return be64(balance) + be64(nonce) + bytes(16)


def pushed(size, nodes, leaf):
    """The peaks of a log of this size and these peaks, with one leaf more."""
    trees = list(zip(heights(size), nodes)) + [(0, leaf)]
    while len(trees) > 1 and trees[-1][0] == trees[-2][0]:
        (height, left), (_, right) = trees[-2:]
        trees[-2:] = [(height + 1, node(left, right))]
    return [tree for _, tree in trees]


def ask(number, end, start, most, pinned):
    return b"\0" + be64(number) + varint(end) + varint(start) + be64(most) + bytes([pinned])


def asks(end, ranges):
    """The frames of asks for these ranges, under the numbers from 1 on, of which the first begins the target."""
    return rising([(end, a, b) for a, b in ranges])


def rising(asked):
    """The same, where each ask carries the end of its own target."""
    return b"".join(frame(ask(1 + i, end, a, b - a, i == 0)) for i, (end, a, b) in enumerate(asked))


def opened(accounts):
    """The operations of a log that opens these accounts, each at the key that repeats its byte."""
    return [("commit", 0)] + [("update", bytes([key]) * 32, account) for key, account in accounts.items()] + [("commit", 0)]


def grown(accounts, changed):
    """The spelled operations of such a log with a batch behind it that changes some accounts to these."""
    log = Log(opened(accounts))
    log.append([("update", bytes([key]) * 32, account) for key, account in changed.items()])
    return [spelling(op) for op in log.ops]


# The log of four accounts, what one payment of 1 from the first to the second makes of it, and the log with the same
# two changes and a commit that keeps the floor.
ACCOUNTS = {key: (10 * key, key) for key in (1, 2, 3, 4)}
FOUR = [spelling(op) for op in opened(ACCOUNTS)]
PAID = grown(ACCOUNTS, {1: (9, 2), 2: (21, 2)})
NINE = PAID[:8] + [commit(0)]

# Logs that open with accounts of 10: a payment of the third to a fourth one moves the two that are left, one of the
# fourth to itself moves the first, and an empty block moves none.
TENS = [{key: (10, 0) for key in range(1, count + 1)} for count in range(5)]
TWO_MOVED = grown(TENS[3], {3: (9, 1), 4: (1, 0)})
ONE_MOVED = grown(TENS[4], {4: (10, 1)})
NONE_MOVED = grown(TENS[1], {})

# The log of twelve commits.
TWELVE = [commit(min(i, 5)) for i in range(12)]

# The logs whose third and whose second operation stops a report.
PAIR = [commit(0), update(1, account(10, 1)), update(2, account(20, 2)), commit(0)]
ONES = [commit(0), update(1, b"\1" * 32), update(2, account(20, 2)), commit(0)]

# A log of 300 operations, all but the last one deleting keys.
LONG = [b"\1" + be64(i) + bytes(24) for i in range(299)] + [commit(0)]


def late(start):
    """The root of a log whose nodes are bytes that count up, with a commit at `start`, which is its floor; and after one
    more, whose floor is its own place, since no operation is active."""
    nodes = [bytes([i]) * 32 for i in range(len(heights(start)))]
    nodes = pushed(start, nodes, leaves_of([commit(start)], start)[0])
    first = root_of(start + 1, nodes)
    if start + 1 == 2**62:
        return first, None
    nodes = pushed(start + 1, nodes, leaves_of([commit(start + 1)], start + 1)[0])
    return first, root_of(start + 2, nodes)


def constants():
    yield "ROOT_FOUR", "The root of the log of four accounts.", root(FOUR)
    yield "ROOT_PAID", "Its root after a payment of 1 from the first account to the second.", root(PAID)
    yield "ROOT_NINE", "Its root after the same changes and a commit that keeps the floor.", root(NINE)
    yield "ROOT_TWO_MOVED", "The root of a log of three accounts after the third paid a new one.", root(TWO_MOVED)
    yield "ROOT_ONE_MOVED", "The root of a log of four accounts after the last one paid itself.", root(ONE_MOVED)
    yield "ROOT_NONE_MOVED", "The root of a log of one account after an empty block.", root(NONE_MOVED)
    yield "ROOT_TWELVE", "The root of the log of twelve commits.", root(TWELVE)
    leaves = leaves_of(TWELVE)
    five = peaks(leaves[:5])
    five[1] = bytes([five[1][0] ^ 1]) + five[1][1:]
    rest = list(enumerate(leaves))[5:]
    size = 5
    for _, leaf in rest:
        five = pushed(size, five, leaf)
        size += 1
    yield "ROOT_ALTERED", "Its root where the first byte of the second peak below 5 is another.", root_of(12, five)
    yield "ROOT_CUT", "The root of the first three operations of the log of two accounts.", root(PAIR[:3])
    yield "ROOT_ONES", "The root of the log whose first Update is no account.", root(ONES)
    yield "ROOT_LONG", "The root of the log of 300 operations.", root(LONG)
    yield "ROOT_LAST", "The root of the log that ends at 2^62.", late(2**62 - 1)[0]
    before, end = late(2**62 - 2)
    yield "ROOT_BEFORE", "The root of the log that ends before 2^62.", before
    yield "ROOT_END", "Its root after one more commit.", end
    yield "FIRST", "The framed answer 1 of the log of twelve, from 5 to 8.", frame(answer(TWELVE, 1, 5, 3, True))
    yield "SECOND", "The framed answer 2 of the log of twelve, from 8 to 11.", frame(answer(TWELVE, 2, 8, 3))
    yield "THIRD", "The framed answer 3 of the log of twelve, from 11 to 12.", frame(answer(TWELVE, 3, 11, 1))
    yield "MANY", "The framed answer 1 of the log of twelve, from 5 to 9.", frame(answer(TWELVE, 1, 5, 4, True))
    target = b"\3" + be64(1) + root(TWELVE) + varint(5) + varint(12)
    yield "TARGET", "The framed target of the log of twelve from 5 on, as answer 1.", frame(target)
    short = [(0, 250), (100, 250), (200, 250), (250, 300)]
    yield "ONE_BY_ONE", "The asks of a log of 300, one at a time.", asks(300, short)
    two = [(0, 250), (250, 300), (100, 250), (200, 250)]
    yield "TWO_AT_ONCE", "The asks of a log of 300, two at a time.", asks(300, two)
    last = [(9, 6, 8), (9, 8, 9)]
    yield "RISEN_ONE", "The asks one at a time, where the end is 9 from the second answer on.", rising([(6, 0, 2), (6, 2, 4), (9, 4, 6)] + last)
    yield "RISEN_THREE", "The asks three at a time.", rising([(6, 0, 2), (6, 2, 4), (6, 4, 6)] + last)


if __name__ == "__main__":
    print("//! Roots, frames and tapes in hexadecimal digits, as vectors/cases.py prints them.")
    for name, words, data in constants():
        print(f'\n/// {words}\npub(super) const {name}: &str =\n    "{data.hex()}";')
