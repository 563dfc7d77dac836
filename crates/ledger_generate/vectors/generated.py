"""What `generate` prints, worked out by itself: the text of the job that three numbers make (docs/FORMATS.md), read and
settled by tests/reference.py.

    python3 crates/ledger_generate/vectors/generated.py SEED ACCOUNTS TRANSFERS [job|accounts]
"""
import pathlib
import sys

sys.path.insert(0, str(pathlib.Path(__file__).resolve().parents[3] / "tests"))
from reference import local  # noqa: E402


def job(seed, accounts, transfers):
    """The job's text."""
    shift = seed % 1_000_000
    lines = [f"open g{i} {10 * (transfers // accounts + 1)} 0" for i in range(accounts)] + ["body"]
    for t in range(transfers):
        payer = t % accounts
        payee = (payer + 1 + (shift + t) % (accounts - 1)) % accounts
        lines.append(f"pay g{payer} g{payee} {1 + (shift + t) % 10} {t // accounts}")
    return "\n".join(lines) + "\n"


def generated(seed, accounts, transfers, rest="lines"):
    """The three lines, or the report's accounts, or the job."""
    text = job(seed, accounts, transfers)
    if rest == "job":
        return text
    allowed, status = local(text.encode())
    assert status == 0, allowed
    lines = allowed[0].splitlines(keepends=True)
    if rest == "accounts":
        return "".join(line for line in lines if line.startswith("account "))
    return f"generated {accounts} {transfers}\n" + "".join(lines[-2:])


if __name__ == "__main__":
    sys.stdout.write(generated(*map(int, sys.argv[1:4]), *sys.argv[4:]))
