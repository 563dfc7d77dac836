#!/usr/bin/env python3
"""Runs the built program with the Nth request for memory refused, for N from 1 until none is refused, on each job of
examples/ and on made ones. Each run ends, at once, and either prints all that it prints with ample memory, or ends with
status 11 and a front of the report behind it or the whole line `error memory`. Ends with a line 'N passed, M failed'.

    python3 tests/refused_growths.py PROGRAM

It takes a C compiler: a library of a dozen lines counts the calls of malloc, which is all that the program asks.
"""
import os
import pathlib
import subprocess
import sys
import tempfile

sys.path.insert(0, str(pathlib.Path(__file__).parent))
from check_examples import made_job  # noqa: E402
from checks import Checks, ran  # noqa: E402
from reference import local  # noqa: E402

COUNTING = r"""
#include <fcntl.h>
#include <stdlib.h>
#include <unistd.h>

extern void *__libc_malloc(size_t size);
static long refused;
static long calls;

__attribute__((constructor)) static void begin(void) {
    const char *number = getenv("REFUSED_GROWTH");
    refused = number ? atol(number) : 0;
    calls = 0;
}

void *malloc(size_t size) {
    if (++calls != refused)
        return __libc_malloc(size);
    const char *mark = getenv("REFUSED_MARK");
    if (mark)
        close(open(mark, O_CREAT | O_WRONLY, 0600));
    return NULL;
}
"""
MEMORY = (11, b"error memory\n")


def library(folder):
    """The library that refuses, built in the folder."""
    source, built = folder / "refuse.c", folder / "refuse.so"
    source.write_text(COUNTING)
    subprocess.run([os.environ.get("CC", "cc"), "-O1", "-shared", "-fPIC", "-o", built, source], check=True)
    return built


def run(program, job, built, number, mark):
    """The status and the output with the Nth request refused, and whether there was such a request."""
    mark.unlink(missing_ok=True)
    known = {"LD_PRELOAD": str(built), "REFUSED_GROWTH": str(number), "REFUSED_MARK": str(mark)}
    ran = subprocess.run([program, "local"], input=job, capture_output=True, timeout=60, env={**os.environ, **known})
    return (ran.returncode, ran.stdout), mark.exists()


def is_allowed(told, ample, is_refused):
    """Whether this answer may come: one that comes with ample memory, and where memory was refused what says so too."""
    status, out = told
    texts = [text.encode() for text in ample[0]]
    if status == ample[1] and out in texts:
        return True
    is_front = status == 11 and ample[1] == 0 and any(text.startswith(out) for text in texts) and len(out) > 0
    return is_refused and (told == MEMORY or is_front)


def jobs():
    folder = pathlib.Path(__file__).parent.parent / "examples"
    for path in sorted(folder.glob("*.job")):
        yield path.name, path.read_bytes()
    for seed in range(6):
        yield f"made job {seed}", made_job(seed)


def check_jobs(checks):
    """Refuses each request of each job in turn, until none was refused."""
    with tempfile.TemporaryDirectory() as room:
        built, mark = library(pathlib.Path(room)), pathlib.Path(room) / "refused"
        for name, job in jobs():
            ample, number, is_refused = local(job), 0, True
            while is_refused:
                number += 1
                told, is_refused = run(checks.program, job, built, number, mark)
                what = f"{name}, request {number} refused: status {told[0]}, {told[1][:80]!r}"
                checks.hold(what, is_allowed(told, ample, is_refused))


if __name__ == "__main__":
    sys.exit(ran(Checks(os.path.abspath(sys.argv[1])), "refusing", [check_jobs]))
