#!/usr/bin/env python3
"""Runs the built program over the examples, over jobs whose logs are written out here, over made jobs and with words
that are no form of it, and compares what it prints and its status with the reference in reference.py. Ends with a line
'N passed, M failed'.

    python3 tests/check_examples.py PROGRAM
"""
import pathlib
import random
import subprocess
import sys
import time

sys.path.insert(0, str(pathlib.Path(__file__).parent))
from reference import key_of, local, spelling  # noqa: E402
from rules import root  # noqa: E402

ROOT = pathlib.Path(__file__).parent.parent
FORMS = [["local"]] + [["local", "--workers", n] for n in ("1", "3", "64")]
OTHERS = [[], ["Local"], ["local", "local"], ["--help"], [""], ["local", "--workers"], ["local", "--workers", "0"],
          ["local", "--workers", "65"], ["local", "--workers", "03"], ["local", "--worker", "3"], ["--workers", "3", "local"],
          ["local", "--workers", "2", "--workers", "2"], ["follow", "--workers", "2"], ["follow", "x", "--workers", "0"]]
WORKED = [
    ("two are copied", "abc", "body\npay c d 1 0\n",
     ["block 0 body", "account a 10 0", "account b 10 0", "account c 9 1", "account d 1 0"],
     ["c 9 1", "d 1 0", "a 10 0", "b 10 0", 5]),
    ("one is copied", "abcd", "body\npay d d 3 0\n",
     ["block 0 body", "account a 10 0", "account b 10 0", "account c 10 0", "account d 10 1"],
     ["d 10 1", "a 10 0", 2]),
    ("none is to be copied", "ab", "body\nrounds\n",
     ["block 0 body", "block 1 rounds", "account a 10 0", "account b 10 0"], [1, 1]),
    ("none is left", "ab", "body\npay a b 1 0\n",
     ["block 0 body", "account a 9 1", "account b 11 0"], ["a 9 1", "b 11 0", 4]),
    ("a copy is copied", "abc", "".join(f"body\npay c c 0 {nonce}\n" for nonce in range(3)),
     ["block 0 body", "block 1 body", "block 2 body", "account a 10 0", "account b 10 0", "account c 10 3"],
     ["c 10 1", "a 10 0", 2, "c 10 2", "b 10 0", 6, "c 10 3", "a 10 0", 9]),
]
NAMES = ["a", "b", "c", "d-1", "e_2", "f" * 32, "0x" + "1f" * 32, "0x" + "00" * 32]


def payment(rng, nonces):
    payer = rng.choice(NAMES)
    nonce = nonces.get(payer, 0) if rng.random() < 0.8 else rng.randrange(3)
    nonces[payer] = nonce + 1
    amount = rng.choice([0, 1, 2, 5, 9, 2**63, 2**64 - 1] if rng.random() < 0.1 else [0, 1, 2, 3])
    return f"pay {payer} {rng.choice(NAMES)} {amount} {nonce}"


def made_job(seed):
    """A job of a few accounts and blocks, at times with a line out of its place or out of form."""
    rng = random.Random(seed)
    lines, nonces = [], {}
    for name in rng.sample(NAMES, rng.randrange(1, 7)):
        lines.append(f"open {name} {rng.choice([0, 4, 20, 2**64 - 1])} {rng.randrange(2)}")
    if rng.random() < 0.3:
        lines.insert(0, "limits 7 3")
    for _ in range(rng.randrange(4)):
        if rng.random() < 0.4:
            lines.append("body")
            lines += [payment(rng, nonces) for _ in range(rng.randrange(3))]
        else:
            lines.append("rounds")
            for _ in range(rng.randrange(3)):
                lines.append("round")
                lines += [payment(rng, nonces) for _ in range(rng.randrange(5))]
    if rng.random() < 0.3:
        odd = ["", "# note", "open a 1 0", "round", "pay a b 1", "open a 007 0", "limits 0 1", "body ", " body"]
        lines.insert(rng.randrange(len(lines) + 1), rng.choice(odd))
    return ("\n".join(lines) + rng.choice(["", "\n"])).encode()


def written_out():
    """Jobs over accounts of 10, each with what it prints: the report of the log that is written out here, with `name
    balance nonce` for each Update that its blocks append, and a floor for each commit."""
    for name, names, blocks, lines, appended in WORKED:
        served = [("commit", 0)] + [("update", key_of(letter.encode()), (10, 0)) for letter in names] + [("commit", 0)]
        ops = served + [commit_or_update(op) for op in appended]
        log = [f"size {len(ops)}", f"root {root([spelling(op) for op in ops]).hex()}", ""]
        job = "".join(f"open {letter} 10 0\n" for letter in names) + blocks
        yield name, job.encode(), "\n".join([f"synced 0 {len(served)}", *lines, *log])


def commit_or_update(op):
    if isinstance(op, int):
        return "commit", op
    name, balance, nonce = op.split()
    return "update", key_of(name.encode()), (int(balance), int(nonce))


def answer(words, job):
    """The texts of which one is printed, and the status."""
    return local(job) if words in FORMS else (["error usage\n"], 2)


def main(program):
    cases = [(p.name, ["local"], p.read_bytes()) for p in sorted((ROOT / "examples").glob("*.job"))]
    cases += [(f"seed {seed}", FORMS[seed % 5 % 4], made_job(seed)) for seed in range(300)]
    cases += [(f"words {words}", words, b"") for words in OTHERS]
    stored = {p.name: p.with_suffix(".out").read_text() for p in (ROOT / "examples").glob("*.job")}
    for name, job, printed in written_out():
        cases.append((name, ["local"], job))
        stored[name] = printed
    failed, started = 0, time.monotonic()
    for name, words, job in cases:
        run = subprocess.run([program, *words], input=job, capture_output=True, timeout=60)
        allowed, status = answer(words, job)
        printed = run.stdout.decode()
        good = run.returncode == status and printed in allowed and printed == stored.get(name, printed)
        if not good:
            failed += 1
            print(f"{name}: status {run.returncode}, wanted {status}\n{printed}wanted one of\n{''.join(allowed)}")
    print(f"the comparison took {time.monotonic() - started:.0f} s")
    print(f"{len(cases) - failed} passed, {failed} failed")
    return 1 if failed else 0


if __name__ == "__main__":
    sys.exit(main(sys.argv[1]))
