#!/usr/bin/env python3
"""Makes a repository of one's own in an empty folder, as README.md says: `bin/ledger take ../mine ledger_log` copies
crates to it, `rt new crates/mine start_io` makes a crate, which is listed in crates.txt, and `rt try` runs it, without
proofs. Its program is the one of README.md; what it prints is compared with tests/rules.py. Ends with a line
'N passed, M failed'.

    python3 tests/own_repository.py
"""
import pathlib
import shutil
import subprocess
import sys
import tempfile
import time

from check_docs import TOP, Checks, fences
from rules import commit, root, update

LINE = "mine: ledger_codec ledger_merkle ledger_log hex\n"


def program():
    """The program that README.md shows."""
    return next(block for block in fences((TOP / "README.md").read_text(), "rust") if "fn main" in block)


def run(command, folder):
    done = subprocess.run(command, cwd=folder, stdin=subprocess.DEVNULL, capture_output=True, text=True)
    return done.returncode, done.stdout, done.stderr


def check_repository(checks, mine):
    """Takes, makes, lists and runs; and takes once more what is there."""
    for _ in range(2):
        status, printed, said = run([TOP / "bin/ledger", "take", mine, "ledger_log"], TOP)
        checks.hold(status == 0, f"bin/ledger take: status {status}\n{said}")
        checks.hold(printed.split() == ["ledger_codec", "ledger_merkle", "ledger_log"], f"it took\n{printed}")
    listed = (mine / "crates.txt").read_text()
    checks.hold(len(listed.splitlines()) == 3, f"crates.txt has other lines:\n{listed}")
    status, _, said = run(["rt", "new", "crates/mine", "start_io"], mine)
    checks.hold(status == 0, f"rt new crates/mine start_io: status {status}\n{said}")
    for left in ("src", "stdin", "stdout", "proofs", "specs"):
        path = mine / "crates/mine" / left
        shutil.rmtree(path) if path.is_dir() else path.unlink(missing_ok=True)
    (mine / "crates/mine/src").mkdir()
    (mine / "crates/mine/src/main.rt").write_text(program())
    (mine / "crates.txt").write_text(listed + LINE)
    status, printed, said = run(["rt", "try"], mine / "crates/mine")
    checks.hold(status == 0, f"rt try: status {status}\n{said}")
    wanted = root([commit(0), update(b"\1" * 32, b"\2" * 32), commit(0)]).hex()
    checks.hold(printed == f"3 operations, root {wanted}\n", f"the program printed\n{printed}\ninstead of the root {wanted}")


def main():
    checks, started = Checks(), time.monotonic()
    with tempfile.TemporaryDirectory() as place:
        check_repository(checks, pathlib.Path(place) / "mine")
    print(f"a repository of one's own took {time.monotonic() - started:.0f} s")
    print(f"{checks.passed} passed, {checks.failed} failed")
    return 1 if checks.failed else 0


if __name__ == "__main__":
    sys.exit(main())
