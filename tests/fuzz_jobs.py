#!/usr/bin/env python3
"""Feeds the built program mutated jobs for as long as it is told to, of `local` and of `follow` with an address that
nobody can dial, and compares what it prints and its status with the reference in reference.py: no crash, no hang, no
answer that the reading doesn't allow. Each job follows from the seed and its number, and one that fails is kept in a
file. Ends with a line 'N passed, M failed'.

    python3 tests/fuzz_jobs.py PROGRAM [SECONDS [SEED]]
"""
import pathlib
import random
import subprocess
import sys
import tempfile
import time

sys.path.insert(0, str(pathlib.Path(__file__).parent))
from check_examples import made_job  # noqa: E402
from check_follow import made_job as made_follow  # noqa: E402
from checks import Checks, fuzzed, ran  # noqa: E402
from reference import Offence, local, parse  # noqa: E402

EXAMPLES = [p.read_bytes() for p in sorted((pathlib.Path(__file__).parent.parent / "examples").glob("*.job"))]
NUMBERS = [0, 1, 2, 9, 10, 63, 64, 65, 2**31, 2**32, 2**62, 2**63 - 1, 2**63, 2**64 - 1, 2**64, 10**40]
PIECES = [b" ", b"\n", b"\r", b"\t", b"\0", b"#", b"-", b"+", b"0", b"00", b"0x", b"\xff", b"\xc3\xa9"]
WORDS = [b"open", b"limits", b"body", b"rounds", b"round", b"pay", b"follow", b"Open", b"bodyy", b"target", b"update"]


def swap_field(rng, text):
    """One field of one line replaced by a number at a border, a word of the form, or a long or odd key."""
    lines = text.split(b"\n")
    at = rng.randrange(len(lines))
    fields = lines[at].split(b" ")
    fields[rng.randrange(len(fields))] = rng.choice([
        str(rng.choice(NUMBERS)).encode(), rng.choice(WORDS), b"0x" + b"aF" * rng.choice([31, 32, 33]),
        rng.choice([b"k", b"K", b"_", b"a-b"]) * rng.choice([1, 31, 32, 33]), b"",
    ])
    lines[at] = b" ".join(fields)
    return b"\n".join(lines)


def swap_number(rng, text):
    """One number of one line replaced by another, mostly of 64 bits."""
    fields = text.split(b" ")
    places = [at for at, field in enumerate(fields) if field.split(b"\n")[0].isdigit()]
    if not places:
        return text
    at = rng.choice(places)
    _, *rest = fields[at].split(b"\n", 1)
    fields[at] = b"\n".join([str(rng.choice(NUMBERS[:-2])).encode(), *rest])
    return b" ".join(fields)


def move_line(rng, text):
    """One line dropped, doubled or put elsewhere."""
    lines = text.split(b"\n")
    line = lines.pop(rng.randrange(len(lines)))
    for _ in range(rng.randrange(3)):
        lines.insert(rng.randrange(len(lines) + 1), line)
    return b"\n".join(lines)


def cut(rng, text):
    """A stretch of bytes taken out."""
    start = rng.randrange(len(text) + 1)
    return text[:start] + text[start + rng.randrange(1, 9):]


def put(rng, text):
    """A few bytes put in."""
    at = rng.randrange(len(text) + 1)
    return text[:at] + rng.choice(PIECES) * rng.choice([1, 1, 1, 2, 300]) + text[at:]


def turn(rng, text):
    """One byte turned into another."""
    if not text:
        return text
    at = rng.randrange(len(text))
    return text[:at] + bytes([rng.randrange(256)]) + text[at + 1:]


def mutated(seed, number):
    """The words and the job of this number."""
    rng = random.Random(f"{seed} {number}")
    if rng.random() < 0.3:
        words, text = ["follow", "nowhere"], made_follow(rng)[1].encode()
    else:
        words, text = ["local"], rng.choice(EXAMPLES) if rng.random() < 0.2 else made_job(rng.randrange(2**32))
    changes = [swap_number] if rng.random() < 0.5 else [swap_field, swap_field, move_line, cut, put, turn]
    for _ in range(rng.choice([0, 1, 1, 1, 2, 3, 8])):
        text = rng.choice(changes)(rng, text)
    return words, text


def answer(words, job):
    """The texts of which one is printed, and the status."""
    if words == ["local"]:
        return local(job)
    try:
        parse(job, "follow")
    except Offence as offence:
        return [f"error job line {offence.args[0]}\n"], 3
    return ["error dial\n"], 6


def offence(program, words, job):
    """What is wrong with the program's answer to a job, or None."""
    try:
        run = subprocess.run([program, *words], input=job, capture_output=True, timeout=60)
    except subprocess.TimeoutExpired:
        return "no answer within a minute"
    allowed, status = answer(words, job)
    if run.returncode != status or run.stdout.decode(errors="replace") not in allowed or run.stderr:
        return f"status {run.returncode}, wanted {status}\n{run.stdout!r}\n{run.stderr!r}\nwanted one of {allowed!r}"
    return None


def complaint(program, seed, number):
    """What is wrong with the answer to the job of this number, which is kept then, or None."""
    words, job = mutated(seed, number)
    wrong = offence(program, words, job)
    if wrong is None:
        return None
    kept = pathlib.Path(tempfile.gettempdir()) / f"job-{seed}-{number}"
    kept.write_bytes(job)
    return f"{words[0]} over {kept}: {wrong}"


def main(program, seconds=10, seed=None):
    seed = seed if seed is not None else str(time.time_ns())
    print(f"seed {seed}")
    return ran(Checks(), "fuzzing", [
        lambda checks: fuzzed(checks, float(seconds), seed, lambda *place: complaint(program, *place)),
    ])


if __name__ == "__main__":
    sys.exit(main(*sys.argv[1:]))
