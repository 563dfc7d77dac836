#!/usr/bin/env python3
"""Times a whole sync on this machine: `serve` with test operations in one process, and `sync` of them in another.

    python3 bench/sync.py [--operations N] [--batch N] [--outstanding N] [--family F] [--mode M] [--times N]

Runs crates/ledger_main/out/ledger_main, which `rt ci` leaves there. Prints the seconds and the memory of the client,
and compares the size that it prints with that of the test operations: one of each, a commit behind each tenth, one
behind the last, and the commit that the log begins with.
"""
import argparse
import os
import socket
import statistics
import subprocess
import sys
import time

import local


def free_port():
    """A port that nobody listens at just now."""
    with socket.create_server(("127.0.0.1", 0)) as listener:
        return listener.getsockname()[1]


def timed(words):
    """The seconds from start to end, the greatest memory in megabytes, and what is printed."""
    started = time.monotonic()
    client = subprocess.Popen(words, stdout=subprocess.PIPE)
    printed = client.stdout.read().decode()
    _, status, used = os.wait4(client.pid, 0)
    if status:
        sys.exit(f"sync ended with status {os.waitstatus_to_exitcode(status)}: {printed}")
    return time.monotonic() - started, used.ru_maxrss / 1024, printed


def main():
    options = argparse.ArgumentParser()
    options.add_argument("--operations", type=int, default=1_000_000)
    options.add_argument("--batch", type=int, default=1000)
    options.add_argument("--outstanding", type=int, default=16)
    options.add_argument("--family", default="any")
    options.add_argument("--mode", default="full")
    options.add_argument("--times", type=int, default=3)
    given = options.parse_args()
    kind = ["--family", given.family, "--mode", given.mode]
    spent, memory = [], []
    for _ in range(given.times):
        port = free_port()
        server = subprocess.Popen(
            [local.PROGRAM, "serve", "--port", str(port), "--initial-ops", str(given.operations), *kind],
            stdout=subprocess.PIPE,
        )
        if server.stdout.readline() != b"listening\n":
            sys.exit("the server doesn't listen")
        limits = ["--batch-size", str(given.batch), "--max-outstanding-requests", str(given.outstanding)]
        limits = [] if given.mode == "compact" else limits
        seconds, most, printed = timed([local.PROGRAM, "sync", f"127.0.0.1:{port}", *kind, *limits])
        size = given.operations + given.operations // 10 + 2
        if f"size {size}\n" not in printed:
            sys.exit(f"size {size} isn't among what sync printed:\n{printed}")
        if server.wait(60) or server.stdout.read() != b"sessions 1\n":
            sys.exit("the server doesn't end with its session")
        spent.append(seconds)
        memory.append(most)
    print(f"sync of {size} operations ({given.family}, {given.mode}): {statistics.median(spent):.2f} s, ", end="")
    print(f"{max(memory):.0f} MB at most")


if __name__ == "__main__":
    main()
