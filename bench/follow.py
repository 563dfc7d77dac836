#!/usr/bin/env python3
"""Times following a log over a link: a job of ACCOUNTS `open` lines and no block, whose log `local` serves, fetches
answer by answer and checks against its root; and `follow` over a socket, from a peer in Python whose log has as many
operations, to its last root, and to its first with eight later targets, which are taken on the way to the same root.

    python3 bench/follow.py [--accounts N] [--batch N] [--outstanding N] [--against COMMAND] [--times N] [--instructions]

Runs crates/ledger_main/out/ledger_main, which `rt ci` leaves there. --against and --instructions are those of
bench/local.py, for the first job. The last line says how long hashing alone takes by Python's hashlib: two
compressions a leaf and a node.
"""
import pathlib
import resource
import statistics
import subprocess
import sys

import local

sys.path.insert(0, str(pathlib.Path(__file__).parent.parent / "tests"))
from peer import Indexed, Peer  # noqa: E402
from rules import be64, commit, update  # noqa: E402

# Later targets that are named.
UPDATES = 8


def job(accounts, batch, outstanding):
    lines = [f"open k{i} 1000000 0" for i in range(accounts)]
    lines.append(f"limits {batch} {outstanding}")
    return ("\n".join(lines) + "\n").encode()


def growing(accounts):
    """A log of accounts with nine commits, and its sizes behind them."""
    ops, sizes = [commit(0)], []
    for part in range(UPDATES + 1):
        for i in range(accounts // (UPDATES + 1)):
            key = f"k{part}-{i}".encode().ljust(32, b"\0")
            ops.append(update(key, be64(1_000_000) + be64(0) + bytes(16)))
        ops.append(commit(0))
        sizes.append(len(ops))
    return ops, sizes


def timed(address, job):
    """The user time that the program takes, and what it prints."""
    before = resource.getrusage(resource.RUSAGE_CHILDREN).ru_utime
    done = subprocess.run([local.PROGRAM, "follow", address], input=job.encode(), capture_output=True, check=True)
    return resource.getrusage(resource.RUSAGE_CHILDREN).ru_utime - before, done.stdout


def over_a_socket(given):
    ops, sizes = growing(given.accounts)
    log = Indexed(ops)
    lines = [f"{log.root(size).hex()} 0 {size}" for size in sizes]
    limits = f"limits {given.batch} {given.outstanding}\n"
    once = f"target {lines[-1]}\n" + limits
    later = f"target {lines[0]}\n" + "".join(f"update {line}\n" for line in lines[1:]) + limits
    peer = Peer(log.reply)
    try:
        spent, printed = {once: [], later: []}, set()
        for _ in range(given.times):
            for job in (once, later):
                time, report = timed(peer.address, job)
                spent[job].append(time)
                printed.add(report)
    finally:
        peer.close()
    assert len(printed) == 1, "with later targets another report is printed"
    print(f"over a socket: {statistics.median(spent[once]):.3f} s of user time")
    print(f"over a socket, with {UPDATES} later targets: {statistics.median(spent[later]):.3f} s of user time")


def main():
    options = local.options_of(3)
    options.add_argument("--accounts", type=int, default=1_000_000)
    options.add_argument("--batch", type=int, default=100)
    options.add_argument("--outstanding", type=int, default=16)
    given = options.parse_args()
    local.compare("following", job(given.accounts, given.batch, given.outstanding), ["local"], given.against, given)
    over_a_socket(given)
    print(f"hashing {given.accounts} leaves and their nodes by hashlib: {local.hashing(given.accounts):.3f} s")


if __name__ == "__main__":
    main()
