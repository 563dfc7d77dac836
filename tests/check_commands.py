#!/usr/bin/env python3
"""Runs the commands that README.md and docs/ name, but for the merge gate's own: `bin/ledger` with the program built,
in a copy where it isn't, and its build over an `rt` that only notes its calls; and the programs of bench/, for small
work. Expects the programs that `rt ci` leaves. Ends with a line 'N passed, M failed'.

    python3 tests/check_commands.py
"""
import os
import pathlib
import shutil
import subprocess
import sys
import tempfile

from check_docs import TOP, Checks

FIRST = "examples/first.job"
SERVED = "examples/served.job"
# What is run of bench/, with work that takes no time.
BENCHES = {
    "bench/local.py": ["--accounts", "100", "--payments", "100", "--times", "1"],
    "bench/follow.py": ["--accounts", "1000", "--times", "1"],
    "bench/log.py": ["--operations", "4000", "--ranges", "10", "--times", "1"],
    "bench/hostile.py": ["--payments", "100", "--bytes", "1000", "--times", "1"],
    "bench/sync.py": ["--operations", "1000", "--times", "1"],
    "bench/serve.py": ["--operations", "1000", "--seconds", "0.2", "--sessions", "1", "2"],
}
# Notes its folder and its words, and leaves a program.
NOTING = """#!/bin/sh
echo "$(basename "$PWD") $*" >> "$NOTES"
mkdir -p out && echo '#!/bin/sh' > out/ledger_main && chmod +x out/ledger_main
"""


def run(command, folder=TOP, job=None, **more):
    source = open(folder / job, "rb") if job else subprocess.DEVNULL
    return subprocess.run(command, cwd=folder, stdin=source, capture_output=True, text=True, **more)


def copy_to(folder):
    """The repository without what was built."""
    shutil.copytree(TOP, folder, ignore=shutil.ignore_patterns("out", ".git"))


def check_built(checks):
    done = run(["bin/ledger", "local"], job=FIRST)
    checks.hold(done.returncode == 0, f"bin/ledger local: status {done.returncode}\n{done.stderr}")
    checks.hold(done.stdout == (TOP / "examples/first.out").read_text(), f"bin/ledger local printed\n{done.stdout}")
    done = run(["bin/ledger", "nothing"])
    checks.hold((done.returncode, done.stdout) == (2, "error usage\n"), f"bin/ledger nothing printed\n{done.stdout}")
    done = run(["bin/ledger", "help"])
    checks.hold(done.returncode == 0 and done.stdout.startswith("bin/ledger local"), "bin/ledger help doesn't help")


def check_session(checks):
    """A server in one process, `sync` and `follow` in others, as README.md shows them."""
    root = (TOP / "examples/served.out").read_text().split()[-1]
    with open(TOP / SERVED, "rb") as job:
        words = ["bin/ledger", "serve", "--source", "job", "--connections", "2"]
        server = subprocess.Popen(words, cwd=TOP, stdin=job, stdout=subprocess.PIPE, text=True)
    checks.hold(server.stdout.readline() == "listening\n", "bin/ledger serve doesn't listen")
    done = run(["bin/ledger", "sync", "127.0.0.1:8080"])
    printed = f"synced any full\nstart 0\nsize 3\nfloor 0\nroot {root}\n"
    checks.hold((done.returncode, done.stdout) == (0, printed), f"bin/ledger sync printed\n{done.stdout}")
    follow_job = f"target {root} 0 3\nbody\npay alice bob 6 0\n"
    words = ["bin/ledger", "follow", "127.0.0.1:8080"]
    done = subprocess.run(words, cwd=TOP, input=follow_job, capture_output=True, text=True)
    checks.hold(done.stdout == (TOP / "examples/first.out").read_text(), f"bin/ledger follow.job printed\n{done.stdout}")
    checks.hold(server.stdout.read() == "sessions 2\n" and server.wait(30) == 0, "bin/ledger serve doesn't end")


def check_unbuilt(checks):
    """Without the program the same comes out, with one line that says so."""
    with tempfile.TemporaryDirectory() as place:
        folder = pathlib.Path(place) / "copy"
        copy_to(folder)
        done = run(["bin/ledger", "local"], folder, FIRST)
        checks.hold(done.returncode == 0, f"not built: status {done.returncode}\n{done.stderr}")
        checks.hold(done.stdout == (TOP / "examples/first.out").read_text(), f"not built, it printed\n{done.stdout}")
        lines = done.stderr.splitlines()
        checks.hold(len(lines) == 1 and "bin/ledger build" in lines[0], f"not built, it said\n{done.stderr}")
        done = run(["bin/ledger", "local"], folder, "examples/refused.job")
        checks.hold(done.returncode == 9, f"not built: status {done.returncode} of a refused job")
        checks.hold(done.stdout == (TOP / "examples/refused.out").read_text(), f"not built, it printed\n{done.stdout}")


def check_build(checks):
    """The build makes each crate that the program stands on, once, behind those that it stands on."""
    with tempfile.TemporaryDirectory() as place:
        folder, notes = pathlib.Path(place) / "copy", pathlib.Path(place) / "notes"
        copy_to(folder)
        (pathlib.Path(place) / "rt").write_text(NOTING)
        (pathlib.Path(place) / "rt").chmod(0o755)
        told = dict(os.environ, PATH=f"{place}:{os.environ['PATH']}", NOTES=str(notes))
        done = run(["bin/ledger", "build"], folder, env=told)
        checks.hold(done.returncode == 0, f"bin/ledger build: status {done.returncode}\n{done.stderr}")
        begun = [line.split()[0] for line in notes.read_text().splitlines()]
        lines = [line for line in (TOP / "crates.txt").read_text().splitlines() if line and not line.startswith("#")]
        stands_on = {line.split(":")[0]: line.split(":")[1].split() for line in lines}
        checks.hold(len(begun) == len(set(begun)) and begun[-1] == "ledger_main", f"bin/ledger build made {begun}")
        for at, crate in enumerate(begun):
            lower = {low for low in stands_on[crate] if low in stands_on}
            checks.hold(lower <= set(begun[:at]), f"bin/ledger build made {crate} before what it stands on")
        checks.hold(f"{len(begun)} of {len(begun)}: ledger_main" in done.stdout, "bin/ledger build doesn't show how far it is")


def check_benches(checks):
    for script, words in BENCHES.items():
        done = run([sys.executable, script, *words])
        checks.hold(done.returncode == 0, f"{script}: status {done.returncode}\n{done.stderr}")


def check_plots(checks):
    """The pictures of docs/ are those of bench/figures.json, and small work can be measured and drawn."""
    with tempfile.TemporaryDirectory() as place:
        done = run([sys.executable, "bench/plot.py", "--to", place])
        checks.hold(done.returncode == 0, f"bench/plot.py: status {done.returncode}\n{done.stderr}")
        for drawn in pathlib.Path(place).iterdir():
            kept = TOP / "docs" / drawn.name
            checks.hold(kept.exists() and kept.read_text() == drawn.read_text(), f"docs/{drawn.name} isn't what was measured")
        figures = str(pathlib.Path(place) / "figures.json")
        small = ["--measure", "--largest", "16000", "--times", "1", "--figures", figures, "--to", place]
        done = run([sys.executable, "bench/plot.py", *small])
        checks.hold(done.returncode == 0, f"bench/plot.py --measure: status {done.returncode}\n{done.stderr}")


def main():
    checks = Checks()
    for check in (check_built, check_session, check_unbuilt, check_build, check_benches, check_plots):
        check(checks)
    checks.hold(run(["rt", "version"]).returncode == 0, "rt version fails")
    print(f"{checks.passed} passed, {checks.failed} failed")
    return 1 if checks.failed else 0


if __name__ == "__main__":
    sys.exit(main())
