#!/usr/bin/env python3
"""What the node prints, worked out without it: dictionaries of wallets, and the logs, bytes and roots of docs/FORMATS.md.
A wallet's value has its coins and points where an account of the program has its balance and nonce.
`python3 node.py > ../stdout` writes the text that the program has to print."""
import pathlib
import sys

sys.path.insert(0, str(pathlib.Path(__file__).resolve().parents[3] / "tests"))
from reference import Log, spelling  # noqa: E402
from rules import root  # noqa: E402

MAX = 2**64 - 1
OPENED = {"a": (100, 0), "b": (50, 3), "s": (20, 0)}
ROUNDS = [[("buy", "a", 40), ("buy", "b", 70), ("redeem", "a", 4)], [("redeem", "a", 1), ("buy", "b", 50)]]
BODY = [("redeem", "b", 8)]
TOO_MUCH = [("buy", "a", 60), ("redeem", "b", 30)]


def written(wallets):
    return [("update", letter.encode() * 32, wallet) for letter, wallet in wallets.items()]


class Ends(Exception):
    """A wallet, and why a batch doesn't settle with it."""


def touched(orders):
    """For each wallet, in the order of first touches, the coins out, the coins in, and what becomes of the points."""
    out = {}
    for kind, customer, count in orders:
        coins_out, coins_in, points = out.setdefault(customer, [0, 0, []])
        out.setdefault("s", [0, 0, []])
        payer, payee = (customer, "s") if kind == "buy" else ("s", customer)
        out[payer][0] += count
        out[payee][1] += count
        out[customer][2].append(count // 10 if kind == "buy" else -count)
    return out


def settled(wallets, orders):
    """The wallets that change, or the first that stands against it. Coins that come in are there only after."""
    after = {}
    for name, (coins_out, coins_in, changes) in touched(orders).items():
        coins, points = wallets[name]
        for change in changes:
            points += change
            if not 0 <= points <= MAX:
                raise Ends(name, "doesn't have the points")
        if coins < coins_out:
            raise Ends(name, "doesn't have the coins")
        after[name] = (coins - coins_out + coins_in, points)
    return {name: wallet for name, wallet in after.items() if wallet != wallets[name]}


def settles(wallets, orders):
    try:
        settled(wallets, orders)
    except Ends:
        return False
    return True


def append(log, wallets, orders):
    changed = settled(wallets, orders)
    log.append(written(changed))
    wallets.update(changed)


def shopping():
    log = Log([("commit", 0), *written(OPENED), ("commit", 0)])
    wallets = dict(OPENED)
    yield f"synced 0 to {len(log.ops)}"
    taken, words = [], []
    for candidates in ROUNDS:
        digits = ""
        for order in candidates:
            good = settles(wallets, taken + [order])
            taken += [order] if good else []
            digits += "1" if good else "0"
        words.append(digits)
    append(log, wallets, taken)
    yield "block 0: of each round " + " ".join(words)
    append(log, wallets, BODY)
    yield "block 1: settled"
    for name, (coins, points) in sorted(wallets.items()):
        yield f"wallet {name}: {coins} coins, {points} points"
    yield f"size {len(log.ops)}"
    yield f"root {root([spelling(op) for op in log.ops]).hex()}"


def too_much():
    try:
        settled(dict(OPENED), TOO_MUCH)
    except Ends as ends:
        name, why = ends.args
        yield f"block 0 isn't settled: {name} {why}"


if __name__ == "__main__":
    print("\n".join([*shopping(), *too_much()]))
