#!/usr/bin/env python3
"""Has each request for memory of a single call refused in turn, for the calls of CALLS, and compares what stands with
what docs/REFUSALS.md promises of the call: each refusal is told as want of memory, no value is changed beyond what the
page says, and but for `run` the call made once more, with ample memory, answers as if the refused one hadn't been
made. The known answers come from rules.py and reference.py. Ends with a line 'N passed, M failed'.

    python3 tests/refused_calls.py

The calls are made by the program in refused_calls/, over crates that `bin/ledger take` copies into a temporary folder;
`rt try` builds it without proofs, and runs it with the request of one number refused. So that it is built once, each
call is made behind so many other requests, from none to one below that number.
"""
import pathlib
import subprocess
import sys
import tempfile

TOP = pathlib.Path(__file__).resolve().parent.parent
sys.path[:0] = [str(TOP / "tests"), str(TOP / "crates/batch_cases/vectors")]
from appended import raised  # noqa: E402
from checks import Checks, ran  # noqa: E402
from reference import follow, local, spelling  # noqa: E402
from rules import answer, frame, root  # noqa: E402

# The calls, and for each more requests than it makes itself, with what it is given and what is compared behind it.
CALLS = {
    "Plan::new": 30,
    "Plan::settle": 30,
    "Selection::touch": 30,
    "Selection::register": 30,
    "Selection::apply": 30,
    "Log::append_batch": 40,
    "SharedLog::append": 50,
    "SharedLog::serve": 40,
    "Unmerkleized::merkleize": 60,
    "apply": 40,
    "Machine::submit": 20,
    "Machine::feed": 20,
    "Machine::next_answer": 20,
    "Collector::accept": 40,
    "follow": 100,
    "run": 130,
}
CRATES = [
    "ledger_codec", "ledger_merkle", "ledger_log", "ledger_strategy", "ledger_transfers", "ledger_managed", "ledger_job",
    "ledger_settling", "ledger_batches", "sync_net", "sync_server", "sync_client", "sync_shared", "ledger_program",
    "follow_cases",
]
# The request that is refused.
REFUSED = max(CALLS.values())
JOB = """open alice 10 0
open carol 7 3
limits 2 2
body
pay alice bob 6 0
rounds
round
pay bob carol 1 0
pay alice bob 5 1
"""
# The log of two accounts between commits, and what it is grown by.
FOUR = [("commit", 0), ("update", b"\1" * 32, (10, 1)), ("update", b"\2" * 32, (20, 2)), ("commit", 0)]
PAID = ("update", b"\1" * 32, (9, 2))
SIX = [*FOUR, PAID, ("commit", 0)]
MANY = [*FOUR, *(("update", bytes([number]) * 32, (7, 0)) for number in range(10, 30)), ("commit", 0)]


def array(data):
    return "[" + ", ".join(map(str, data)) + "]"


def paid(four, six):
    """The size and the root of the report where the six are followed from the four, and the first account pays."""
    one, two = ("0x" + key.hex() for key in (b"\1" * 32, b"\2" * 32))
    lines = [f"target {four.hex()} 0 4", f"update {six.hex()} 0 6", "limits 2 2", "body", f"pay {one} {two} 3 2", ""]
    (text, *_), _ = follow("\n".join(lines).encode(), SIX)
    told = dict(line.split() for line in text.splitlines()[-2:])
    return int(told["size"]), bytes.fromhex(told["root"])


def sealed():
    """The four with a batch behind them that writes what the first account is left."""
    told = [("commit", None, op[1]) if op[0] == "commit" else op for op in FOUR]
    more = raised(told, [PAID])
    return FOUR + [("commit", op[2]) if op[0] == "commit" else op for op in more]


def vectors():
    """The known answers, as a module of the program."""
    four, six, many = ([spelling(op) for op in ops] for ops in (FOUR, SIX, MANY))
    size, end = paid(root(four), root(six))
    bodies = {"FIRST_FOUR": answer(six, 1, 0, 4, pinned=True), "LAST_TWO": answer(six, 2, 4, 2)}
    bodies["REPLY"] = frame(answer(six, 1, 0, 6, pinned=True))
    (report, *_), _ = local(JOB.encode())
    whole = [spelling(op) for op in sealed()]
    roots = {"FOUR": root(four), "SIX": root(six), "MANY": root(many), "PAID": end, "SEALED": root(whole)}
    lines = ["//! The known answers.\n\nuse ledger_codec::Digest;\n", f"pub const SIZE_OF_PAID: u64 = {size};"]
    lines += [f"pub const SIZE_OF_SEALED: u64 = {len(whole)};"]
    lines += [f"pub const ROOT_OF_{name}: Digest = {array(digest)};" for name, digest in roots.items()]
    lines += [f"pub const {name}: [u8; {len(body)}] = {array(body)};" for name, body in bodies.items()]
    for name, text in [("JOB", JOB), ("REPORT", report)]:
        lines += [f"pub const {name}: &str = \"{text}\";".replace("\n", "\\n")]
    return "\n".join(lines) + "\n"


def write_program(mine):
    """A repository of the crates that the program stands on, and the program. Its folder."""
    subprocess.run([TOP / "bin/ledger", "take", mine, *CRATES], check=True, stdout=subprocess.DEVNULL)
    with open(mine / "crates.txt", "a") as listed:
        listed.write(f"refused_calls: {' '.join(CRATES)}\n")
    sources = mine / "crates/refused_calls/src"
    sources.mkdir(parents=True)
    for path in sorted((TOP / "tests/refused_calls").glob("*.txt")):
        (sources / path.with_suffix(".rt").name).write_text(path.read_text())
    (sources / "vectors.rt").write_text(vectors())
    return sources.parent


def ends_of(crate, cases):
    """What the program said of each call, behind the fewest requests first; and what rt said."""
    for number, (call, reach) in enumerate(CALLS.items()):
        for before in range(REFUSED - reach, REFUSED + 1):
            (cases / f"{number:02}-{before:03}").write_text(f"{call} {before}\n")
    # The checked build alone tells: --steps 1 leaves the interpreter out.
    command = ["rt", "try", "--steps", "1", "--fail-alloc", str(REFUSED), "--cases", str(cases)]
    done = subprocess.run(command, cwd=crate, stdin=subprocess.DEVNULL, capture_output=True, text=True)
    told, name = {path.name: "no answer" for path in cases.iterdir()}, None
    for line in done.stdout.splitlines():
        if line.startswith("== "):
            name = line[3:]
        elif name is not None:
            told[name], name = line, None
    ends = [[told[key] for key in sorted(told) if key.startswith(f"{number:02}-")] for number in range(len(CALLS))]
    return ends, done.stdout + done.stderr


def check_calls(checks):
    """Each call is whole where its requests are met, and each of them was refused in turn, to an end as promised."""
    with tempfile.TemporaryDirectory() as room:
        cases = pathlib.Path(room) / "cases"
        cases.mkdir()
        ends, said = ends_of(write_program(pathlib.Path(room) / "mine"), cases)
    if not any("whole" in told for told in ends):
        checks.hold(f"the program was not built:\n{said[-2000:]}", False)
        return
    for (call, reach), told in zip(CALLS.items(), ends):
        checks.hold(f"{call} isn't whole behind the fewest requests, but: {told[0]}", told[0] == "whole")
        checks.hold(f"{call} is reached behind the most requests: {told[-1]}", told[-1] == "outside")
        checks.hold(f"{call} is never refused", "refused" in told)
        for place, end in enumerate(told):
            what = f"{call} behind {REFUSED - reach + place} requests: {end}"
            checks.hold(what, end in ("whole", "refused", "outside"))
        print(f"{call}: refused at {told.count('refused')} requests")


if __name__ == "__main__":
    sys.exit(ran(Checks(), "refusing", [check_calls]))
