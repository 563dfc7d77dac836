#!/usr/bin/env python3
"""Feeds a following program mutated frames for as long as it is told to: a peer over loopback serves a log, spoils one
of its answers (bits turned, bytes cut, doubled, put in, frames of other answers put before it), and hangs up behind it.
Whatever the bytes are, the program ends at once, with the report that the log's own bytes give or with one line that
says what offends and that line's status: no crash, no hang, no other report. Each session follows from the seed and
its number. Ends with a line 'N passed, M failed'.

    python3 tests/fuzz_frames.py PROGRAM [SECONDS [SEED]]
"""
import pathlib
import random
import re
import subprocess
import sys

sys.path.insert(0, str(pathlib.Path(__file__).parent))
from check_follow import log, target  # noqa: E402
from checks import Checks, fuzzed, ran  # noqa: E402
from peer import Peer, honest  # noqa: E402
from reference import follow, spelling  # noqa: E402
from rules import be64, frame  # noqa: E402

# What may be said of bytes that offend, and the status that each comes with.
OFFENCES = [
    (7, rb"error (network|closed|response|strays)\n"),
    (7, rb"error unexpected [1-9][0-9]*\n"),
    (7, rb"error server [0-9]+ [ -~]*\n"),
    (8, rb"error proof [1-9][0-9]*\n"),
]


def turn_bits(rng, data, _):
    data = bytearray(data)
    for _ in range(rng.choice([1, 1, 1, 2, 8])):
        data[rng.randrange(len(data))] ^= 1 << rng.randrange(8)
    return bytes(data)


def cut(rng, data, _):
    """A stretch of bytes taken out, or all behind a place."""
    start = rng.randrange(len(data))
    return data[:start] + data[start + rng.choice([1, 2, 8, 32, len(data)]) :]


def put_in(rng, data, _):
    start = rng.randrange(len(data) + 1)
    return data[:start] + bytes(rng.choice([0, 1, 127, 128, 255]) for _ in range(rng.randrange(1, 12))) + data[start:]


def double(rng, data, _):
    start, end = sorted(rng.randrange(len(data) + 1) for _ in range(2))
    return data[:end] + data[start:end] + data[end:]


def put_before(rng, data, number):
    """A frame of another kind, or of another number, before the answer."""
    kind, other = bytes([rng.randrange(12)]), be64(rng.choice([0, 1, number, number + 1, 2**64 - 1]))
    return frame(kind + other + bytes(rng.randrange(40)))[: rng.choice([None, None, 5])] + data


MUTATIONS = [turn_bits, turn_bits, cut, put_in, double, put_before]


def spoiling(rng, good, place):
    """Answers as `good` does, but for the answer at this place, which is spoiled, and the last one."""
    count = 0

    def reply(request):
        nonlocal count
        count += 1
        data = good(request)
        return data if count < place else (rng.choice(MUTATIONS)(rng, data, request.number), False)

    return reply


def complaint(program, seed, number):
    """What is wrong with the end of the session of this number, or None."""
    rng = random.Random(f"{seed} {number}")
    ops, sizes = log(rng, rng.randrange(1, 9))
    ends = sorted(rng.sample(sizes, rng.randrange(1, min(3, len(sizes)) + 1)))
    lines = [target("target" if i == 0 else "update", ops, 0, end) for i, end in enumerate(ends)]
    lines += [f"limits {rng.randrange(1, 6)} {rng.randrange(1, 5)}", "body", "pay alice bob 1 0"]
    job = ("\n".join(lines) + "\n").encode()
    peer = Peer(spoiling(rng, honest([spelling(op) for op in ops]), rng.randrange(1, 5)))
    try:
        ran = subprocess.run([program, "follow", peer.address], input=job, capture_output=True, timeout=20)
        told = ran.returncode, ran.stdout
    except subprocess.TimeoutExpired:
        told = "hang", b""
    finally:
        peer.close()
    texts, status = follow(job, ops)
    is_right = told[0] == status and told[1].decode(errors="replace") in texts
    if is_right or any(told[0] == s and re.fullmatch(line, told[1]) for s, line in OFFENCES):
        return None
    return f"status {told[0]}, {told[1][:200]!r}"


def main(program, seconds=20, seed=0):
    program = str(pathlib.Path(program).resolve())
    return ran(Checks(), "fuzzing", [
        lambda checks: fuzzed(checks, float(seconds), seed, lambda *place: complaint(program, *place)),
    ])


if __name__ == "__main__":
    sys.exit(main(*sys.argv[1:]))
