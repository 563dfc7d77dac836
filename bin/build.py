#!/usr/bin/env python3
"""Proves the program's crates and builds the program, as many crates side by side as there are processors and memory.

    bin/ledger build

A crate is begun once those that it stands on are done, of several the one with the longest chain of crates above it.
Prints a line as each crate ends, with what was done of the whole. What is proved already isn't proved again. Ends
with status 0 once the program is built, else with what the crate that failed says.
"""
import os
import pathlib
import subprocess
import sys
import tempfile
import time

TOP = pathlib.Path(__file__).resolve().parent.parent
PROGRAM = "ledger_main"
# What one check needs of memory at most.
GIGABYTES = 5


def stands_on():
    """Each crate of the repository with the crates of it that it stands on."""
    lines = [line.split("#")[0].strip() for line in (TOP / "crates.txt").read_text().splitlines()]
    given = {line.split(":")[0].split()[0]: line.split(":")[1].split() for line in lines if line}
    return {name: [low for low in lows if low in given] for name, lows in given.items()}


def below(crates, name):
    found = {name}
    for low in crates[name]:
        found |= below(crates, low)
    return found


def heights(crates, wanted):
    """How many crates stand one above another from each of these on."""
    above = {name: [high for high in wanted if name in crates[high]] for name in wanted}

    def height(name):
        return 1 + max((height(high) for high in above[name]), default=0)

    return {name: height(name) for name in wanted}


def side_by_side():
    pages = os.sysconf("SC_PHYS_PAGES") * os.sysconf("SC_PAGE_SIZE") // 2**30
    return max(1, min(os.cpu_count() or 1, pages // GIGABYTES))


def begin(name, alone):
    """The check and build of a crate, which may use all cores where no other is under way."""
    command = ["rt", "run", "--", "local"] if name == PROGRAM else ["rt", "lib"]
    if not alone:
        command[2:2] = ["--jobs", "1"]
    said = tempfile.TemporaryFile()
    folder = TOP / "crates" / name
    return subprocess.Popen(command, cwd=folder, stdin=subprocess.DEVNULL, stdout=said, stderr=said), said


def main():
    crates = stands_on()
    wanted = below(crates, PROGRAM)
    height = heights(crates, wanted)
    most = side_by_side()
    print(f"{len(wanted)} crates to prove, {most} side by side", flush=True)
    started, done, running = time.monotonic(), set(), {}
    while len(done) < len(wanted):
        ready = [name for name in wanted - done - set(running) if done.issuperset(crates[name])]
        ready.sort(key=lambda name: (-height[name], name))
        alone = len(ready) == 1 and not running
        for name in ready[: most - len(running)]:
            running[name] = begin(name, alone)
        time.sleep(0.2)
        for name, (child, said) in list(running.items()):
            if child.poll() is None:
                continue
            del running[name]
            if child.returncode != 0:
                return failed(name, said, running)
            done.add(name)
            spent = time.monotonic() - started
            print(f"{len(done)} of {len(wanted)}: {name} ({spent // 60:.0f} min {spent % 60:.0f} s)", flush=True)
    print("built crates/ledger_main/out/ledger_main")
    return 0


def failed(name, said, running):
    for child, _ in running.values():
        child.terminate()
        child.wait()
    said.seek(0)
    sys.stderr.buffer.write(said.read())
    print(f"{name} failed", file=sys.stderr)
    return 1


if __name__ == "__main__":
    sys.exit(main())
