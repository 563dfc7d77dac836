"""A root and inputs of leaves for the promises of following a log, worked from docs/FORMATS.md.
`python3 promises.py` prints the constants of src/tests/vectors.rt."""
import pathlib
import sys

sys.path.insert(0, str(pathlib.Path(__file__).resolve().parents[3] / "tests"))
from rules import be64, commit, root  # noqa: E402
from rules import update as written  # noqa: E402


def update(key, value):
    return written(bytes([key]) * 32, value)


def account(balance, nonce):
    return be64(balance) + be64(nonce) + bytes(16)


# The log of four accounts.
FOUR = [commit(0)] + [update(key, account(10 * key, key)) for key in (1, 2, 3, 4)] + [commit(0)]

# That log with a fifth account behind it.
FIVE = FOUR + [update(5, account(50, 5)), commit(0)]


def account_leaf(at, value):
    """What the leaf of the account with this value at the key of zeros is hashed from."""
    return b"\0" + be64(at) + update(0, value)


def weak(data):
    """30 zero bytes, then the sum of all bytes modulo 65,536."""
    return bytes(30) + (sum(data) % 65536).to_bytes(2, "big")


def constants():
    yield "ROOT_FOUR", "The root of the log of four accounts.", root(FOUR)
    yield "ROOT_FIVE", "The root of that log with a fifth account behind it.", root(FIVE)
    honest, forged = bytes([1] * 32), bytes([2, 0] + [1] * 30)
    assert weak(account_leaf(1, honest)) == weak(account_leaf(1, forged))
    yield "HONEST", "What the leaf of an account at place 1 is hashed from.", account_leaf(1, honest)
    yield "FORGED", "What another one is, whose bytes have the same sum.", account_leaf(1, forged)


if __name__ == "__main__":
    print("//! A root and inputs of leaves in hexadecimal digits, as vectors/promises.py prints them.")
    for name, words, data in constants():
        print(f'\n/// {words}\npub(super) const {name}: &str =\n    "{data.hex()}";')
