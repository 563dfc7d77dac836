#!/usr/bin/env python3
"""What `local` prints for a job, and `follow` for one over a log that a peer serves, worked out independently of the
program: dictionaries and the rules of docs/FORMATS.md. Prints what `local` does, the report or the error line (of
several offending keys the one that is touched first), and ends with the status.

    python3 tests/reference.py < JOB
"""
import re
import sys

from rules import be64, commit, root, update

MAX = 2**64 - 1
NAME = re.compile(rb"[a-z0-9_-]{1,32}\Z")
HEX = re.compile(rb"0x[0-9a-fA-F]{64}\Z")
ROOT = re.compile(rb"[0-9a-fA-F]{64}\Z")
NUMBER = re.compile(rb"(0|[1-9][0-9]*)\Z")


def key_of(field):
    if NAME.match(field):
        return field.ljust(32, b"\0")
    if HEX.match(field):
        return bytes.fromhex(field[2:].decode())
    raise ValueError


def number_of(field):
    if not NUMBER.match(field) or int(field) > MAX:
        raise ValueError
    return int(field)


def key_text(key):
    name = key.split(b"\0")[0]
    if NAME.match(name) and name.ljust(32, b"\0") == key:
        return name.decode()
    return "0x" + key.hex()


class Offence(Exception):
    pass


class Job:
    def __init__(self):
        self.opens, self.target, self.updates, self.limits, self.blocks = [], None, [], None, []


def target_of(fields):
    """A root, a start and an end."""
    root, start, end = fields
    start, end = number_of(start), number_of(end)
    if not ROOT.match(root) or not start < end <= 2**62:
        raise ValueError
    return bytes.fromhex(root.decode()), start, end


def head_line(job, kind, word, fields):
    """A line that stands before any block."""
    if word == b"open" and kind == "local":
        key, balance, nonce = fields
        job.opens.append((key_of(key), number_of(balance), number_of(nonce)))
    elif word == b"target" and kind == "follow" and job.target is None:
        job.target = target_of(fields)
    elif word == b"update" and job.target is not None and len(job.updates) < 8:
        job.updates.append(target_of(fields))
    elif word == b"limits" and job.limits is None:
        batch, outstanding = (number_of(field) for field in fields)
        if batch == 0 or not 1 <= outstanding <= 64:
            raise ValueError
        job.limits = (batch, outstanding)
    else:
        raise ValueError


def block_line(job, word, fields):
    if word in (b"body", b"rounds") and not fields:
        job.blocks.append((word.decode(), []))
    elif word == b"round" and not fields and job.blocks[-1][0] == "rounds":
        job.blocks[-1][1].append([])
    elif word == b"pay":
        payer, payee, amount, nonce = fields
        kind, content = job.blocks[-1]
        place = content if kind == "body" else content[-1]
        place.append((key_of(payer), key_of(payee), number_of(amount), number_of(nonce)))
    else:
        raise ValueError


def parse(text, kind="local"):
    """The job of `local` or `follow` that a text spells."""
    lines = text.split(b"\n")
    if lines[-1] == b"":
        lines.pop()
    job = Job()
    for at, line in enumerate(lines, 1):
        if line == b"" or line.startswith(b"#"):
            continue
        word, *fields = line.split(b" ")
        try:
            if word in (b"open", b"target", b"update", b"limits"):
                if job.blocks:
                    raise ValueError
                head_line(job, kind, word, fields)
            else:
                block_line(job, word, fields)
        except (ValueError, IndexError):
            raise Offence(at)
    if kind == "follow" and job.target is None:
        raise Offence(len(lines) + 1)
    return job


def value(account):
    return be64(account[0]) + be64(account[1]) + bytes(16)


def spelling(op):
    if op[0] == "update":
        return update(op[1], value(op[2]))
    if op[0] == "delete":
        return b"\1" + op[1]
    return commit(op[1])


class Log:
    """A log's operations from a place on, with what they leave: each key's account, the place among them of its last
    operation, and the floor."""

    def __init__(self, ops, start=0):
        self.start, self.ops, self.accounts, self.last, self.floor = start, [], {}, {}, None
        for op in ops:
            self.put(op)

    def put(self, op):
        if op[0] == "commit":
            self.floor = op[1]
        else:
            self.last[op[1]] = len(self.ops)
            self.accounts.pop(op[1], None)
        if op[0] == "update":
            self.accounts[op[1]] = op[2]
        self.ops.append(op)

    def active(self, at, end):
        """The first place from `at` on with an Update that is its key's last operation, else the end."""
        while at < end and (self.ops[at][0] != "update" or self.last[self.ops[at][1]] != at):
            at += 1
        return at

    def append(self, changes):
        """A batch: its changes, for each of them a copy of an old active operation from the floor on while there is
        one, and a commit whose floor is the first active operation's place, else its own. A copied operation isn't
        active any more, so one walk finds them all, and the next batch's goes on where it ended."""
        old, at = len(self.ops), self.floor - self.start
        for op in changes:
            self.put(op)
        for _ in changes:
            at = self.active(at, old)
            if at < old:
                self.put(self.ops[at])
        self.put(("commit", self.start + self.active(at, len(self.ops))))


class Sums:
    """What a list of payments does to each key, in order of first touch."""

    def __init__(self):
        self.debits, self.credits, self.nonces = {}, {}, {}

    def touch(self, key):
        self.debits.setdefault(key, 0)
        self.credits.setdefault(key, 0)
        self.nonces.setdefault(key, [])

    def add(self, payment):
        payer, payee, amount, nonce = payment
        self.touch(payer)
        self.debits[payer] += amount
        self.nonces[payer].append(nonce)
        if amount:
            self.touch(payee)
            self.credits[payee] += amount


def after(accounts, sums, key):
    """The key's account after the sums, or the word of its first offence."""
    balance, nonce = accounts.get(key, (0, 0))
    for n in sums.nonces[key]:
        if n != nonce or n == MAX:
            return "refused"
        nonce += 1
    if sums.debits[key] > balance:
        return "insufficient"
    balance += sums.credits[key] - sums.debits[key]
    return "overflow" if balance > MAX else (balance, nonce)


def offences(accounts, sums):
    kinds = (("insufficient", sums.debits), ("overflow", sums.credits))
    found = [(word, key) for word, kept in kinds for key, total in kept.items() if total > MAX]
    if found:
        return found
    ends = ((after(accounts, sums, key), key) for key in sums.debits)
    return [(end, key) for end, key in ends if isinstance(end, str)]


def settled(accounts, payments):
    sums = Sums()
    for payment in payments:
        sums.add(payment)
    return sums, offences(accounts, sums)


def changes(accounts, sums):
    """One operation for each key whose account changes, in order of first touch."""
    ends = ((key, after(accounts, sums, key)) for key in sums.debits)
    changed = [(key, end) for key, end in ends if end != accounts.get(key, (0, 0))]
    return [("delete", key) if end == (0, 0) else ("update", key, end) for key, end in changed]


def choose(accounts, rounds):
    taken, verdicts = [], []
    for candidates in rounds:
        verdicts.append("")
        for payment in candidates:
            good = not settled(accounts, taken + [payment])[1]
            if good:
                taken.append(payment)
            verdicts[-1] += "1" if good else "0"
    return taken, verdicts


def report(ops, start, end, blocks):
    """The texts of which one is printed, and the status, where the operations of a log from `start` to `end` were
    fetched and these blocks are settled on them. Where several keys of a body offend, any of them may be named; else
    there is one text."""
    before, ops = ops[:start], ops[start:end]
    if ops[-1][0] != "commit" or not start <= ops[-1][1] < end:
        return [f"error log {end - 1}\n"], 8
    out, log = [f"synced {start} {end}"], Log(ops, start)
    for place, (kind, content) in enumerate(blocks):
        if kind == "body":
            sums, found = settled(log.accounts, content)
            if found:
                return [f"error {word} {place} {key_text(key)}\n" for word, key in found], 9
            out.append(f"block {place} body")
        else:
            taken, verdicts = choose(log.accounts, content)
            sums, _ = settled(log.accounts, taken)
            out.append(f"block {place} rounds" + "".join(" " + (v or "-") for v in verdicts))
        log.append(changes(log.accounts, sums))
    for key, (balance, nonce) in sorted(log.accounts.items()):
        out.append(f"account {key_text(key)} {balance} {nonce}")
    ops = before + log.ops
    out += [f"size {len(ops)}", f"root {root([spelling(op) for op in ops]).hex()}"]
    return ["\n".join(out) + "\n"], 0


def served(job):
    """The log that a job serves."""
    return [("commit", 0)] + [("update", k, (b, n)) for k, b, n in job.opens] + [("commit", 0)]


def local(text):
    """What `local` prints: the texts of which one is printed, and the status."""
    try:
        job = parse(text)
    except Offence as offence:
        return [f"error job line {offence.args[0]}\n"], 3
    ops = served(job)
    return report(ops, 0, len(ops), job.blocks)


class Stale(Exception):
    pass


def synced(job, most):
    """The end of the target that is synced over a peer which answers each ask in turn, with at most so many
    operations."""
    (_, start, end), (batch, outstanding) = job.target, job.limits or (50, 1)
    low, fresh, kept, rests, pending, updates = start, start, 0, [], [], list(job.updates)
    while True:
        while len(pending) < outstanding and (rests or fresh < end):
            if not rests:
                rests.append((fresh, min(fresh + batch, end)))
                fresh = rests[0][1]
            pending.append(rests.pop(0))
        first, behind = pending.pop(0)
        count = min(most, behind - first)
        kept += count
        if first + count < behind:
            rests.append((first + count, behind))
        if kept == end - start:
            return end
        if updates:
            _, later, last = updates.pop(0)
            if later < low or last <= end:
                raise Stale(later, last)
            low, end = later, last


def follow(text, ops, most=2**32):
    """What `follow` prints over such a peer, whose log has these operations and the roots that the job names."""
    try:
        job = parse(text, "follow")
    except Offence as offence:
        return [f"error job line {offence.args[0]}\n"], 3
    try:
        end = synced(job, most)
    except Stale as stale:
        return [f"error update {stale.args[0]} {stale.args[1]}\n"], 8
    return report(ops, job.target[1], end, job.blocks)


if __name__ == "__main__":
    allowed, status = local(sys.stdin.buffer.read())
    sys.stdout.write(allowed[0])
    sys.exit(status)
