"""Counts what holds, and tells what doesn't. The scripts that run the built program have their checks by it."""
import time


class Checks:
    def __init__(self, program=None):
        self.program, self.passed, self.failed = program, 0, 0

    def hold(self, name, holds):
        self.passed += bool(holds)
        self.failed += not holds
        if not holds:
            print(name)


def fuzzed(checks, seconds, seed, complaint):
    """Tries one number behind the other for so many seconds; `complaint` says what is wrong with one, or None."""
    number, end = 0, time.monotonic() + seconds
    while time.monotonic() < end:
        wrong = complaint(seed, number)
        checks.hold(f"seed {seed}, number {number}: {wrong}", wrong is None)
        number += 1


def ran(checks, what, functions):
    """Runs these functions over the checks, and prints the time and the last line. 1 where a check failed."""
    started = time.monotonic()
    for function in functions:
        function(checks)
    print(f"{what} took {time.monotonic() - started:.0f} s")
    print(f"{checks.passed} passed, {checks.failed} failed")
    return 1 if checks.failed else 0
