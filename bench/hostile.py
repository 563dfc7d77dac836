#!/usr/bin/env python3
"""What a hostile job costs: time against a harmless job of the same shape, and memory a byte of its text.

    python3 bench/hostile.py [--program PROGRAM] [--payments N] [--bytes N] [--against PROGRAM] [--times N]

Runs crates/ledger_main/out/ledger_main, which `rt ci` leaves there, or another PROGRAM, as bin/ledger runs it. GNU
time tells its time and its peak of resident memory. Two kinds of jobs:

- keys chosen so that they collide in a table that hashes by std's fast hasher with its fixed seed: their bytes 8 to
  15 are its multiplier, which brings every one of them to one state. A body and rounds of payments among them are
  timed against the same payments among other keys of that length.
- texts of which little or nothing is kept, and right jobs of many lines: their peak of resident memory, less that of
  the empty job, a byte of the text. With --against another program runs the right jobs too, and the ratio of the
  peaks is printed.
"""
import argparse
import os
import pathlib
import statistics
import subprocess
import tempfile

PROGRAM = pathlib.Path(__file__).parent.parent / "crates" / "ledger_main" / "out" / "ledger_main"
MULTIPLIER = 0x9E3779B97F4A7C15
# As bin/ledger sets it.
SETTINGS = {"MALLOC_MMAP_THRESHOLD_": "131072"}


def chosen_key(number):
    return "0x" + (number.to_bytes(8, "big") + MULTIPLIER.to_bytes(8, "little") + bytes(16)).hex()


def other_key(number):
    return "0x" + (number.to_bytes(8, "big") + bytes(23) + b"\1").hex()


def payments(key, count, kind):
    """Payments of nothing from key to key: each touches one key more."""
    lines = [kind] + (["round"] if kind == "rounds" else [])
    lines += [f"pay {key(i)} {key(i + 1)} 0 0" for i in range(count)]
    return ("\n".join(lines) + "\n").encode()


def opens(count):
    return "".join(f"open k{i} 1000000 0\n" for i in range(count)).encode()


def paid(count, kind):
    """As many accounts as payments between them, in a block of this kind."""
    lines = [f"open k{i} 1000000 0\n" for i in range(count)] + [f"{kind}\n"] + ["round\n"] * (kind == "rounds")
    lines += [f"pay k{i} k{(i * 7 + 1) % count} 1 0\n" for i in range(count)]
    return "".join(lines).encode()


def run(program, job):
    """Seconds of user time and the peak of resident memory in bytes, as GNU time tells them. A child of this process
    would be told to have held at its peak what this process held when it started the child."""
    with tempfile.TemporaryFile() as file:
        file.write(job)
        file.seek(0)
        words = ["/usr/bin/time", "-f", "%U %M", program, "local"]
        settings = {**os.environ, **SETTINGS}
        done = subprocess.run(words, stdin=file, stdout=subprocess.DEVNULL, stderr=subprocess.PIPE, env=settings)
    seconds, kilobytes = done.stderr.splitlines()[-1].split()
    return float(seconds), int(kilobytes) * 1024


def timed(program, job, times):
    return statistics.median(run(program, job)[0] for _ in range(times))


def show_keys(given):
    for kind in ("body", "rounds"):
        chosen = timed(given.program, payments(chosen_key, given.payments, kind), given.times)
        other = timed(given.program, payments(other_key, given.payments, kind), given.times)
        print(f"{kind} of {given.payments} payments: chosen keys {chosen:.2f} s, others {other:.2f} s, ratio {chosen / max(other, 0.01):.2f}")


def show_texts(given):
    least = run(given.program, b"")[1]
    texts = {
        "line feeds": b"\n",
        "comments": b"#\n",
        "spaces in one line": b" ",
        "fields of one line": b"a ",
        "bodies": b"body\n",
    }
    for name, piece in texts.items():
        text = piece * (given.bytes // len(piece))
        if piece == b" " or piece == b"a ":
            text += b"\n"
        peak = run(given.program, text)[1] - least
        print(f"{len(text)} bytes of {name}: {peak / len(text):.1f} bytes a byte")
    jobs = {
        "1000000 open lines": opens(1_000_000),
        "100000 open lines and payments": paid(100_000, "body"),
        "100000 open lines and candidates": paid(100_000, "rounds"),
    }
    for name, job in jobs.items():
        peak = run(given.program, job)[1]
        line = f"{name}: {peak >> 20} MB, {(peak - least) / len(job):.1f} bytes a byte"
        if given.against:
            line += f", ratio {peak / run(given.against, job)[1]:.2f}"
        print(line)


def main():
    options = argparse.ArgumentParser()
    options.add_argument("--program", default=PROGRAM)
    options.add_argument("--payments", type=int, default=20_000)
    options.add_argument("--bytes", type=int, default=8_000_000)
    options.add_argument("--times", type=int, default=3)
    options.add_argument("--against")
    given = options.parse_args()
    show_keys(given)
    show_texts(given)


if __name__ == "__main__":
    main()
