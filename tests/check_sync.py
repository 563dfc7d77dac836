#!/usr/bin/env python3
"""Runs the built program's `sync ADDRESS` against a peer over loopback that serves logs of the four families, with their
operations and without, and compares what it prints and its status with what the rules of docs/FORMATS.md give: short
answers, peers that send byte by byte, hang up, refuse, or send what is no answer. Ends with a line 'N passed, M failed'.

    python3 tests/check_sync.py PROGRAM
"""
import pathlib
import random
import socket
import subprocess
import sys
import time

sys.path.insert(0, str(pathlib.Path(__file__).parent))
from checks import Checks, ran  # noqa: E402
from peer import Peer, number_in  # noqa: E402
from rules import answer, be64, commit, frame, leaves_of, peaks, proof, root, update, varint  # noqa: E402

FAMILIES = ("any", "current", "immutable", "keyless")


def log(rng, family, batches):
    """A log of a family, and the floor of its last commit."""
    keyed, ops, floor = family in ("any", "current"), [], 0
    for batch in range(batches + 1):
        for _ in range(rng.randrange(4) if batch else 0):
            key, value = rng.randbytes(32), rng.randbytes(32)
            if family == "keyless":
                ops.append(b"\0" + value)
            else:
                ops.append(b"\1" + key if keyed and rng.random() < 0.2 else update(key, value))
        floor = rng.randrange(floor, len(ops) + 1)
        ops.append(commit(floor) if keyed else b"\1\0" + varint(floor))
    return ops, floor


def nodes(digests):
    return varint(len(digests)) + b"".join(digests)


def state(number, ops):
    leaves, size = leaves_of(ops), len(ops)
    proved = varint(size) + varint(0) + nodes(proof(leaves, size - 1, 1))
    return frame(b"\7" + be64(number) + varint(size) + nodes(peaks(leaves)) + ops[-1] + proved)


def serving(ops, floor, most=2**32):
    """Answers each request over a log, with at most so many operations at a time."""

    def reply(body):
        number = int.from_bytes(body[1:9], "big")
        if body[0] == 0:
            _, at = number_in(body, 9)
            start, at = number_in(body, at)
            wanted, pinned = int.from_bytes(body[at : at + 8], "big"), body[at + 8] != 0
            return frame(answer(ops, number, start, min(wanted, most, len(ops) - start), pinned))
        if body[0] == 2:
            return frame(b"\3" + be64(number) + root(ops) + varint(floor) + varint(len(ops)))
        if body[0] == 4:
            return frame(b"\5" + be64(number) + root(ops) + varint(len(ops)))
        return state(number, ops)

    return reply


class SyncPeer(Peer):
    """The peer of peer.py for requests of every kind, which it hands on as bodies."""

    read = bytes


def lines(family, mode, ops, floor):
    start = f"start {floor}\n" if mode == "full" else ""
    return f"synced {family} {mode}\n{start}size {len(ops)}\nfloor {floor}\nroot {root(ops).hex()}\n"


class Synced(Checks):
    def run(self, name, words, wanted, status):
        """Runs the program, and looks at what it printed and at its status."""
        started = time.monotonic()
        done = subprocess.run([self.program, "sync", *words], capture_output=True, timeout=60)
        spent, printed = time.monotonic() - started, done.stdout.decode()
        good = done.returncode == status and printed == wanted and spent < 30
        self.hold(f"{name}: status {done.returncode} in {spent:.1f} s, wanted {status}\n{printed}wanted\n{wanted}", good)

    def serve(self, name, words, reply, wanted, status, piece=None):
        peer = SyncPeer(reply, piece)
        try:
            self.run(name, [peer.address, *words], wanted, status)
        finally:
            peer.close()
        return peer.requests


def words_of(family, mode):
    return ["--family", family, "--mode", mode]


def check_made(checks, count=200):
    """Logs of each family, in each mode that it has."""
    for seed in range(count):
        rng = random.Random(seed)
        family, mode = rng.choice(FAMILIES), rng.choice(["full", "compact"])
        if family in ("any", "current"):
            mode = "full"
        ops, floor = log(rng, family, rng.randrange(6))
        words = words_of(family, mode) + ["--batch-size", str(rng.randrange(1, 9))]
        words += ["--max-outstanding-requests", str(rng.randrange(1, 9))]
        reply = serving(ops, floor, rng.choice([1, 2, 2**32]))
        requests = checks.serve(f"seed {seed}", words, reply, lines(family, mode, ops, floor), 0, rng.choice([None, 1, 7]))
        first = (b"\2" if mode == "full" else b"\4") + be64(1)
        numbers = [int.from_bytes(body[1:9], "big") for body in requests]
        checks.hold(f"seed {seed}: requests {requests}", requests[0] == first and numbers == list(range(1, len(numbers) + 1)))


def error(number, code, text):
    return frame(b"\10" + be64(number) + bytes([code]) + varint(len(text)) + text)


def behind(first, later):
    """The one answer to the first request, and the other to those behind it."""
    return lambda body: first(body) if body[1:9] == be64(1) else later(body)


def check_refusals(checks):
    """What a peer may do instead of answering: one line, the right status, at once."""
    ops, floor = log(random.Random(1), "any", 4)
    other = log(random.Random(2), "any", 4)
    good = serving(ops, floor)
    cut = [op for op in ops if op[0] != 2]
    cases = [
        ("hangs up", lambda body: (b"", False), "error closed\n", 7),
        ("hangs up inside a frame", lambda body: (good(body)[:20], False), "error closed\n", 7),
        ("hangs up behind the target", behind(good, lambda body: (b"", False)), "error closed\n", 7),
        ("a bad length", lambda body: b"\x80\0", "error closed\n", 7),
        ("too great a length", lambda body: b"\x81\x80\x80\x05", "error closed\n", 7),
        ("garbage", lambda body: b"\5garbage", "error response\n", 7),
        ("another kind", lambda body: frame(b"\5" + body[1:9] + root(ops) + varint(3)), "error unexpected 1\n", 7),
        ("an error", lambda body: error(1, 0, b"no \x00 such"), "error server 0 no ? such\n", 7),
        ("strays", lambda body: frame(b"\2" + be64(7)) * 1025, "error strays\n", 7),
        ("another log's operations", behind(good, serving(*other)), "error proof 2\n", 8),
        ("a list without its commit", serving(cut, 0), "error state\n", 8),
    ]
    for name, reply, line, status in cases:
        checks.serve(name, [], reply, line, status)
    fixed, floor = log(random.Random(3), "keyless", 4)
    changed = fixed[:-1] + [b"\1\0" + varint(0 if floor else 1)]
    stale = behind(serving(fixed, floor), lambda body: error(2, 3, b"stale"))
    compact = words_of("keyless", "compact")
    checks.serve("another state", compact, behind(serving(fixed, floor), serving(changed, 0)), "error state\n", 8)
    checks.serve("a stale target", compact, stale, "error server 3 stale\n", 7)


def check_dials(checks):
    """Addresses that nobody listens at, and words that are no form: nothing is dialed."""
    closed = socket.create_server(("127.0.0.1", 0))
    address = "127.0.0.1:%d" % closed.getsockname()[1]
    closed.close()
    for where in (address, "127.0.0.1", "nowhere", "", "127.0.0.1:70000", "no.such.host.invalid:8080"):
        checks.run(f"dial {where!r}", [where], "error dial\n", 6)
    for words in (["--mode", "compact"], ["--batch-size", "0"], ["--family"], ["--max-outstanding-requests", "65"]):
        requests = checks.serve(f"words {words}", words, lambda body: b"", "error usage\n", 2)
        checks.hold(f"words {words} asked", not requests)
    checks.run("no address", [], "error usage\n", 2)


FUNCTIONS = (check_refusals, check_dials, check_made)

if __name__ == "__main__":
    sys.exit(ran(Synced(sys.argv[1]), "syncing", FUNCTIONS))
