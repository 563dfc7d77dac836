#!/usr/bin/env python3
"""Times a log: appends of operations in batches, proofs of ranges after, additions of one operation, and prunes.

    python3 bench/log.py [--program PROGRAM] [--operations N] [--batch N] [--ranges N] [--span N] [--against PROGRAM]
                         [--times N]

Runs crates/bench_log/out/bench_log, which `rt ci` leaves there, or another PROGRAM, for a quarter, a half and the
whole of the operations without proofs, so that the time an append must not grow, and then for the whole with the
proofs. With --against it runs another program on the same words in turn with it, compares what both print, and prints
the ratio of the medians. A line says how long hashing alone takes by Python's hashlib: two compressions a leaf and a
node. Then come additions of one operation each, and prunes of ten operations each, at a hundredth, a tenth and the
whole of the operations: what one costs must not grow either.
"""
import argparse
import hashlib
import pathlib
import statistics
import subprocess
import time

PROGRAM = pathlib.Path(__file__).parent.parent / "crates" / "bench_log" / "out" / "bench_log"


def run(program, words):
    start = time.perf_counter()
    done = subprocess.run([program, *map(str, words)], capture_output=True, check=True)
    return time.perf_counter() - start, done.stdout


def measure(words, given):
    ours, theirs = [], []
    for _ in range(given.times):
        spent, printed = run(given.program, words)
        ours.append(spent)
        if given.against:
            spent, other = run(given.against, words)
            theirs.append(spent)
            assert printed == other, "the two programs print different lines"
    ratio = f", against {statistics.median(theirs):.3f} s, ratio {statistics.median(ours) / statistics.median(theirs):.2f}" if theirs else ""
    return statistics.median(ours), ratio


def hashing(leaves):
    start = time.perf_counter()
    for _ in range(2 * leaves):
        hashlib.sha256(b"\0" * 74).digest()
    return time.perf_counter() - start


def small_steps(given):
    for operations in (given.operations // 100, given.operations // 10, given.operations):
        spent, _ = measure((operations, 1, 0, 0), given)
        print(f"{operations} additions of 1: {spent:.3f} s, {spent / operations * 1e9:.0f} ns each")
    for operations in (given.operations // 100, given.operations // 10, given.operations):
        steps = operations // 10
        filled, _ = measure((operations, given.batch, 0, 0), given)
        spent, _ = measure((operations, given.batch, 0, 0, steps), given)
        print(f"{steps} prunes of 10 among {operations}: {spent - filled:.3f} s, {(spent - filled) / steps * 1e9:.0f} ns each")


def main():
    options = argparse.ArgumentParser()
    options.add_argument("--program", default=PROGRAM)
    options.add_argument("--operations", type=int, default=1_000_000)
    options.add_argument("--batch", type=int, default=1_000)
    options.add_argument("--ranges", type=int, default=1_000)
    options.add_argument("--span", type=int, default=100)
    options.add_argument("--times", type=int, default=3)
    options.add_argument("--against")
    given = options.parse_args()
    for operations in (given.operations // 4, given.operations // 2, given.operations):
        spent, ratio = measure((operations, given.batch, 0, given.span), given)
        print(f"{operations} appends by {given.batch}: {spent:.3f} s, {spent / operations * 1e9:.0f} ns each{ratio}")
    whole, ratio = measure((given.operations, given.batch, given.ranges, given.span), given)
    print(f"and {given.ranges} ranges of {given.span}: {whole:.3f} s, {(whole - spent) / given.ranges * 1e6:.0f} us each{ratio}")
    print(f"hashing {given.operations} leaves and their nodes by hashlib: {hashing(given.operations):.3f} s")
    small_steps(given)


if __name__ == "__main__":
    main()
