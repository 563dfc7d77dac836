#!/usr/bin/env python3
"""Runs the built program's `follow ADDRESS` against a serving peer (peer.py) over loopback, and compares what it
prints, its status and its requests with the reference in reference.py: logs that grow, later targets, short answers,
and peers that send byte by byte, hang up, refuse, or send what is no answer. Ends with a line 'N passed, M failed'.

    python3 tests/check_follow.py PROGRAM
"""
import pathlib
import random
import socket
import subprocess
import sys
import time

sys.path.insert(0, str(pathlib.Path(__file__).parent))
from checks import Checks, ran  # noqa: E402
from peer import Peer, honest  # noqa: E402
from reference import follow, spelling  # noqa: E402
from rules import be64, frame, root, varint  # noqa: E402

NAMES = [name.encode().ljust(32, b"\0") for name in ("alice", "bob", "carol", "dave")]


def log(rng, batches):
    """A log of accounts whose floor may rise, and its sizes behind its commits."""
    ops, sizes, floor = [("commit", 0)], [1], 0
    for _ in range(batches):
        for _ in range(rng.randrange(4)):
            key = rng.choice(NAMES)
            ops.append(("delete", key) if rng.random() < 0.2 else ("update", key, (rng.randrange(30), rng.randrange(2))))
        if rng.random() < 0.5:
            floor = rng.randrange(floor, len(ops) + 1)
        ops.append(("commit", floor))
        sizes.append(len(ops))
    return ops, sizes


def target(word, ops, start, end):
    return f"{word} {root([spelling(op) for op in ops[:end]]).hex()} {start} {end}"


def made_job(rng):
    """A job over a log, with what of the log it names; now and then a target is stale, or a line is out of place."""
    ops, sizes = log(rng, rng.randrange(1, 9))
    ends = sorted(rng.sample(sizes, rng.randrange(1, len(sizes) + 1)))[:9]
    if rng.random() < 0.15 and len(ends) > 1:
        rng.shuffle(ends)
    lines = [target("target" if i == 0 else "update", ops, 0, end) for i, end in enumerate(ends)]
    if rng.random() < 0.6:
        lines.append(f"limits {rng.randrange(1, 6)} {rng.randrange(1, 5)}")
    for _ in range(rng.randrange(3)):
        lines.append(rng.choice(["body", "rounds\nround"]))
        for _ in range(rng.randrange(3)):
            payer, payee = rng.sample(["alice", "bob", "carol", "dave"], 2)
            lines.append(f"pay {payer} {payee} {rng.randrange(6)} {rng.randrange(2)}")
    if rng.random() < 0.1:
        odd = ["open alice 1 0", lines[0], f"update {'0' * 64} 3 3", f"target {'0' * 63} 0 3", "update 0 1"]
        lines.insert(rng.randrange(len(lines) + 1), rng.choice(odd))
    return ops, "\n".join(lines) + "\n"


class Followed(Checks):
    def run(self, name, address, job, allowed, status):
        """Runs the program, and looks at what it printed and at its status."""
        started = time.monotonic()
        done = subprocess.run([self.program, "follow", address], input=job.encode(), capture_output=True, timeout=60)
        printed, spent = done.stdout.decode(), time.monotonic() - started
        good = done.returncode == status and printed in allowed and spent < 30
        wanted = f"wanted {status}\n{printed}wanted one of\n{''.join(allowed)}"
        self.hold(f"{name}: status {done.returncode} in {spent:.1f} s, {wanted}", good)

    def serve(self, name, job, reply, allowed, status, piece=None):
        peer = Peer(reply, piece)
        try:
            self.run(name, peer.address, job, allowed, status)
        finally:
            peer.close()
        return peer.requests


def served_log():
    """The log of one account, and a job over it."""
    ops = [("commit", 0), ("update", NAMES[0], (10, 0)), ("commit", 0)]
    return ops, target("target", ops, 0, 3) + "\nbody\npay alice bob 6 0\n"


def check_served(checks):
    """A job over a served log prints what `local` prints over the same one; and a peer's bytes come as they please."""
    ops, job = served_log()
    spelled = [spelling(op) for op in ops]
    first = pathlib.Path(__file__).parent.parent / "examples" / "first.out"
    allowed, status = follow(job.encode(), ops)
    checks.hold("the reference of follow isn't that of local", allowed == [first.read_text()] and status == 0)
    for piece in (None, 1, 7):
        requests = checks.serve(f"pieces of {piece}", job, honest(spelled), allowed, 0, piece)
        asked = [(r.number, r.end, r.start, r.most, r.pinned) for r in requests]
        checks.hold(f"requests {asked}", asked == [(1, 3, 0, 3, True)])


def check_updates(checks):
    """A log that grows from 6 to 9 while it is fetched: what is asked for which end."""
    ops = [("commit", 0)] + [("update", name, (10, 0)) for name in NAMES] + [("commit", 0)]
    ops += [("update", NAMES[0], (9, 1)), ("update", NAMES[1], (11, 0)), ("commit", 0)]
    spelled = [spelling(op) for op in ops]
    head = target("target", ops, 0, 6) + "\n"
    job = head + target("update", ops, 0, 9) + "\n"
    # The later target is taken after the first answer: of what is asked from then on it has the end.
    for outstanding, ends in ((1, [6, 9, 9, 9, 9]), (3, [6, 6, 6, 9, 9])):
        text = job + f"limits 2 {outstanding}\n"
        allowed, status = follow(text.encode(), ops)
        requests = checks.serve(f"{outstanding} at once", text, honest(spelled), allowed, status)
        asked = [(r.start, r.end) for r in requests]
        checks.hold(f"asked {asked}", asked == list(zip([0, 2, 4, 6, 8], ends)))
    stale = head + target("update", ops, 0, 6) + "\nlimits 2 1\n"
    checks.serve("a stale target", stale, honest(spelled), ["error update 0 6\n"], 8)
    whole = head + target("update", ops, 0, 6) + "\n"
    checks.serve("a part that is whole at once", whole, honest(spelled), *follow(whole.encode(), ops))


def error(number, code, text):
    return frame(b"\10" + be64(number) + bytes([code]) + varint(len(text)) + text)


def check_refusals(checks):
    """What a peer may do instead of answering: one line, the right status, at once."""
    ops, job = served_log()
    spelled = [spelling(op) for op in ops]
    good = honest(spelled)
    other = honest([spelled[0], spelling(("update", NAMES[0], (11, 0))), spelled[2]])
    cases = [
        ("hangs up", lambda r: (b"", False), "error closed\n", 7),
        ("hangs up inside a frame", lambda r: (good(r)[:20], False), "error closed\n", 7),
        ("a bad length", lambda r: b"\x80\0", "error closed\n", 7),
        ("too great a length", lambda r: b"\x81\x80\x80\x05", "error closed\n", 7),
        ("no message", lambda r: b"\1\x09", "error response\n", 7),
        ("another kind", lambda r: frame(b"\2" + be64(1)), "error unexpected 1\n", 7),
        ("an error", lambda r: error(1, 3, b"no \x00 such"), "error server 3 no ? such\n", 7),
        ("strays", lambda r: frame(b"\2" + be64(7)) * 1025, "error strays\n", 7),
        ("another log", other, "error proof 1\n", 8),
        ("an answer under two numbers", lambda r: frame(b"\2" + be64(9)) + good(r), None, None),
    ]
    for name, reply, line, status in cases:
        allowed, status = ([line], status) if line else follow(job.encode(), ops)
        checks.serve(name, job, reply, allowed, status)
    cut = target("target", ops, 0, 2) + "\n"
    checks.serve("a part that is no log", cut, good, ["error log 1\n"], 8)
    closed = socket.create_server(("127.0.0.1", 0))
    address = "127.0.0.1:%d" % closed.getsockname()[1]
    closed.close()
    for address in (address, "127.0.0.1", "nowhere", "", "127.0.0.1:70000", "no.such.host.invalid:8080"):
        checks.run(f"dial {address!r}", address, job, ["error dial\n"], 6)


def check_unread(checks):
    """A job that offends isn't followed: nobody is dialed."""
    for job in ("", "body\n", "open alice 1 0\n", f"target {'0' * 64} 3 3\n", "limits 1 1\n" * 2):
        allowed, status = follow(job.encode(), [])
        requests = checks.serve(f"job {job!r}", job, lambda r: b"", allowed, status)
        checks.hold(f"job {job!r} asked", not requests)


def check_made(checks, count=200):
    """Made jobs over logs that a peer serves whole or in short answers."""
    for seed in range(count):
        rng = random.Random(seed)
        ops, job = made_job(rng)
        most = rng.choice([1, 2, 2**32, 2**32])
        checks.serve(f"seed {seed}", job, honest([spelling(op) for op in ops], most), *follow(job.encode(), ops, most))


FUNCTIONS = (check_served, check_updates, check_refusals, check_unread, check_made)

if __name__ == "__main__":
    sys.exit(ran(Followed(sys.argv[1]), "following", FUNCTIONS))
