#!/usr/bin/env python3
"""Measures `local` over two made jobs: ACCOUNTS `open` lines and one body of PAYMENTS payments, and a fifth of the
accounts and one block of rounds of PAYMENTS candidates, a thousand a round, of which every seventh is dropped; and
`generate` by as many workers as --workers says, against one.

    python3 bench/local.py [--accounts N] [--payments N] [--against COMMAND] [--times N] [--workers N] [--instructions]

Runs crates/ledger_main/out/ledger_main, which `rt ci` leaves there. With --against it runs another program in turn
with it, as `local` or as the words behind its path say, compares what both print, and prints the ratios of the
medians. Of a job with blocks the lines above the size and the root are compared: a plain program that copies no old
account behind a block's changes and keeps the floor has another log, and the same accounts. With --instructions each
job is also run once under valgrind's callgrind, whose count doesn't waver with what else the machine does. The last
line says how long hashing alone takes by Python's hashlib: two compressions a leaf and a node.
"""
import argparse
import hashlib
import pathlib
import re
import resource
import shlex
import statistics
import subprocess
import tempfile
import time

PROGRAM = pathlib.Path(__file__).parent.parent / "crates" / "ledger_main" / "out" / "ledger_main"


def payments_among(accounts, payments, spare):
    """Payments in turn; from the second turn on every `spare`-th has a nonce that its payer refuses."""
    nonces = [0] * accounts
    for i in range(payments):
        payer = i % accounts
        odd = spare is not None and i >= accounts and i % spare == 0
        yield f"pay k{payer} k{(i * 7 + 1) % accounts} 1 {nonces[payer] + odd}"
        nonces[payer] += not odd


def body(accounts, payments):
    lines = [f"open k{i} 1000000 0" for i in range(accounts)]
    lines.append("body")
    lines += payments_among(accounts, payments, None)
    return ("\n".join(lines) + "\n").encode()


def rounds(accounts, payments):
    accounts = max(1, accounts // 5)
    lines = [f"open k{i} 1000000 0" for i in range(accounts)]
    lines.append("rounds")
    for i, line in enumerate(payments_among(accounts, payments, 7)):
        if i % 1000 == 0:
            lines.append("round")
        lines.append(line)
    return ("\n".join(lines) + "\n").encode()


def run(command, path):
    """The time by the clock and the user time that a command takes over a job, and what it prints."""
    with open(path, "rb") as source:
        before, start = resource.getrusage(resource.RUSAGE_CHILDREN).ru_utime, time.perf_counter()
        done = subprocess.run(command, stdin=source, capture_output=True, check=True)
        spent = time.perf_counter() - start
        return (spent, resource.getrusage(resource.RUSAGE_CHILDREN).ru_utime - before), done.stdout


def counted(command, path):
    """How many millions of instructions a command takes over a job."""
    words = ["valgrind", "--tool=callgrind", "--callgrind-out-file=/dev/null", *command]
    with open(path, "rb") as source:
        done = subprocess.run(words, stdin=source, capture_output=True, check=True)
    return int(re.search(rb"Collected\s*:\s*(\d+)", done.stderr)[1]) / 1e6


def hashing(leaves):
    start = time.perf_counter()
    for i in range(2 * leaves):
        hashlib.sha256(b"\0" * 65).digest()
    return time.perf_counter() - start


def settled(report):
    """The lines of a report above those on the log that the blocks made."""
    return report.partition(b"\nsize ")[0]


def told(what, unit, digits, figures):
    line = f"    {what}: {figures[0]:.{digits}f} {unit}"
    if len(figures) > 1:
        line += f", against {figures[1]:.{digits}f} {unit}, ratio {figures[0] / figures[1]:.2f}"
    print(line)


def compare(name, job, words, others, given, part=lambda report: report):
    """Runs a job in turn by the program, with these words, and by the other command, and prints the medians. What is
    printed has to be the same, or against another command this part of it."""
    with tempfile.NamedTemporaryFile(suffix=".job") as file:
        file.write(job)
        file.flush()
        commands = [[str(PROGRAM), *words]] + ([others] if others else [])
        spent, printed = [[] for _ in commands], set()
        for _ in range(given.times):
            for command, times in zip(commands, spent):
                taken, report = run(command, file.name)
                times.append(taken)
                printed.add(part(report) if others else report)
        assert len(printed) == 1, "the programs print different reports"
        print(f"{name}:")
        for place, what in enumerate(("by the clock", "user time")):
            told(what, "s", 3, [statistics.median(taken[place] for taken in times) for times in spent])
        if given.instructions:
            told("instructions", "million", 0, [counted(command, file.name) for command in commands])


def options_of(times):
    """What every measure of this kind may be told."""
    options = argparse.ArgumentParser()
    options.add_argument("--times", type=int, default=times)
    options.add_argument("--instructions", action="store_true")
    options.add_argument("--against", type=words_of)
    return options


def words_of(text):
    words = shlex.split(text)
    return words if len(words) > 1 else [*words, "local"]


def main():
    options = options_of(5)
    options.add_argument("--accounts", type=int, default=100_000)
    options.add_argument("--payments", type=int, default=100_000)
    options.add_argument("--workers", type=int, default=4)
    given = options.parse_args()
    compare("a body", body(given.accounts, given.payments), ["local"], given.against, given, settled)
    compare("rounds", rounds(given.accounts, given.payments), ["local"], given.against, given, settled)
    sizes = ["generate", "1", str(min(20_000, max(2, given.accounts // 5))), str(min(100_000, given.payments))]
    many = [*sizes, "--workers", str(given.workers)]
    compare(f"`{' '.join(many)}` against one worker", b"", many, [str(PROGRAM), *sizes], given)
    leaves = 2 * given.accounts
    print(f"hashing {leaves} leaves and their nodes by hashlib: {hashing(leaves):.3f} s")


if __name__ == "__main__":
    main()
