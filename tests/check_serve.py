#!/usr/bin/env python3
"""Runs the built program's `serve` and `generate`, with `sync` and `follow` as clients over loopback, and compares what they
print and their statuses with an independent reading: test logs of the four families, full and compact; a job's log that
`follow` settles on; logs that grow while seven clients sync at once; clients that send byte by byte, hang up, or send
what is no message. Ends with a line 'N passed, M failed'.

    python3 tests/check_serve.py PROGRAM
"""
import pathlib
import socket
import subprocess
import sys
import threading
import time

HERE = pathlib.Path(__file__).resolve().parent
sys.path.insert(0, str(HERE))
sys.path += [str(HERE.parent / "crates" / crate / "vectors") for crate in ("ledger_examples", "ledger_generate")]
from checks import Checks, ran  # noqa: E402
from families import added, any_tests, commit, fixed_tests  # noqa: E402
from generated import generated  # noqa: E402
from peer import number_in  # noqa: E402
from reference import follow, local, parse, served, spelling  # noqa: E402
from rules import be64, frame, root, varint  # noqa: E402

KEYED = ("any", "current")


def test_log(family, count, seed):
    """The spelled operations of a fresh log with so many test operations added."""
    if family in KEYED:
        return [commit(2, None, 0)] + added(any_tests(count, seed), 0)
    return [commit(1, None, 0)] + fixed_tests(family, count, seed, 0)


def grown(ops, count, seed):
    """The log with one batch more: the updates of so many test operations, and a commit."""
    updates = [op for op, _ in any_tests(count, seed % 2**64) if op is not None]
    return ops + updates + [commit(2, None, 0)]


def synced_text(family, mode, ops):
    start = "start 0\n" if mode == "full" else ""
    return f"synced {family} {mode}\n{start}size {len(ops)}\nfloor 0\nroot {root(ops).hex()}\n"


def free_port():
    with socket.create_server(("127.0.0.1", 0)) as listener:
        return listener.getsockname()[1]


class Server:
    """`serve` with these options, on a port of its own."""

    def __init__(self, program, options, job=""):
        self.port = free_port()
        self.address = f"127.0.0.1:{self.port}"
        words = [program, "serve", "--port", str(self.port), *options]
        self.process = subprocess.Popen(words, stdin=subprocess.PIPE, stdout=subprocess.PIPE)
        self.process.stdin.write(job.encode())
        self.process.stdin.close()
        self.first = self.process.stdout.readline().decode()

    def ended(self):
        """What it printed, and its status."""
        rest = self.process.stdout.read().decode()
        return self.first + rest, self.process.wait(30)

    def connect(self):
        connection = socket.create_connection(("127.0.0.1", self.port), timeout=30)
        connection.setsockopt(socket.IPPROTO_TCP, socket.TCP_NODELAY, 1)
        return connection


class Served(Checks):
    def run(self, words, job=""):
        """What the program prints, and its status."""
        started = time.monotonic()
        done = subprocess.run([self.program, *words], input=job.encode(), capture_output=True, timeout=120)
        self.hold(f"{words} took {time.monotonic() - started:.0f} s", time.monotonic() - started < 60)
        return done.stdout.decode(), done.returncode

    def same(self, name, got, wanted):
        self.hold(f"{name}: got {got}, wanted {wanted}", got == wanted)

    def serve(self, options, job=""):
        return Server(self.program, options, job)


def whole_frame(connection, held=b""):
    """The next frame's body, and the bytes behind it; None where the peer hung up."""
    while True:
        if held:
            length, at = number_in(held + b"\0", 0)
            if len(held) >= at + length and (held[at - 1] < 128 if at else False):
                return held[at : at + length], held[at + length :]
        data = connection.recv(65536)
        if not data:
            return None, held
        held += data


def check_families(checks):
    """Test logs of every family, full and compact, fetched in requests of some sizes."""
    for family in ("any", "current", "immutable", "keyless"):
        for count, seed, batch, outstanding in ((50, 0, 25, 1), (0, 3, 50, 1), (123, 2**64 - 1, 7, 5)):
            server = checks.serve(["--family", family, "--initial-ops", str(count), "--seed", str(seed)])
            words = ["sync", server.address, "--family", family, "--batch-size", str(batch)]
            words += ["--max-outstanding-requests", str(outstanding)]
            wanted = synced_text(family, "full", test_log(family, count, seed))
            checks.same(f"sync {family} {count}", checks.run(words), (wanted, 0))
            checks.same(f"serve {family} {count}", server.ended(), ("listening\nsessions 1\n", 0))
    for family in ("immutable", "keyless"):
        for storage in ([], ["--storage", "full"], ["--storage", "compact"]):
            server = checks.serve(["--mode", "compact", "--family", family, "--initial-ops", "37", *storage])
            words = ["sync", server.address, "--mode", "compact", "--family", family]
            wanted = synced_text(family, "compact", test_log(family, 37, 0))
            checks.same(f"sync compact {family} {storage}", checks.run(words), (wanted, 0))
            checks.same(f"serve compact {family}", server.ended(), ("listening\nsessions 1\n", 0))


def check_row(checks):
    """The defaults, and 50 operations in requests of 25."""
    server = checks.serve(["--initial-ops", "50"])
    printed, status = checks.run(["sync", server.address, "--batch-size", "25"])
    checks.hold(f"size 57: {printed}", status == 0 and "size 57\n" in printed)
    checks.same("its sessions", server.ended(), ("listening\nsessions 1\n", 0))
    checks.same("compact any", checks.run(["sync", "127.0.0.1:1", "--mode", "compact"]), ("error usage\n", 2))


def check_job(checks):
    """A job's log is served, and `follow` settles the job's blocks on it as `local` does."""
    opens = "open alice 10 0\nopen bob 5 3\nopen alice 12 1\n"
    blocks = "body\npay alice bob 6 1\nrounds\nround\npay bob carol 2 3\npay bob carol 50 4\n"
    ops = served(parse(opens.encode()))
    line = f"target {root([spelling(op) for op in ops]).hex()} 0 {len(ops)}\n"
    for connections in (1, 3):
        server = checks.serve(["--source", "job", "--connections", str(connections)], opens)
        allowed, status = local((opens + blocks).encode())
        for _ in range(connections):
            printed, found = checks.run(["follow", server.address], line + blocks)
            checks.hold(f"follow printed {printed}", printed in allowed and found == status)
        checks.same("serve job", server.ended(), (f"listening\nsessions {connections}\n", 0))
    for job, line in (("body\n", "error job line 1\n"), ("open alice 1 0\n\npay a b 1 0\n", "error job line 3\n")):
        checks.same(f"job {job!r}", checks.run(["serve", "--source", "job"], job), (line, 3))


def check_growing(checks):
    """Seven clients at once, before each of whose sessions a batch is appended: each syncs to a log of the history."""
    options = ["--family", "any", "--initial-ops", "300", "--connections", "7", "--ops-per-connection", "9"]
    server = checks.serve(options)
    logs = [test_log("any", 300, 0)]
    for i in range(7):
        logs.append(grown(logs[-1], 9, 1 + i))
    allowed = [synced_text("any", "full", ops) for ops in logs[1:]]
    found = [None] * 7

    def client(i):
        found[i] = checks.run(["sync", server.address, "--batch-size", "100"])

    threads = [threading.Thread(target=client, args=(i,)) for i in range(7)]
    for thread in threads:
        thread.start()
    for thread in threads:
        thread.join()
    for printed, status in found:
        checks.hold(f"a client of seven: {printed}", printed in allowed and status == 0)
    checks.hold("the last log was synced", any(printed == allowed[-1] for printed, _ in found))
    checks.same("seven sessions", server.ended(), ("listening\nsessions 7\n", 0))


def target_request(number):
    return frame(b"\2" + be64(number))


def check_clients(checks):
    """Clients that nobody here wrote: byte by byte, garbage, an early end; a session's end doesn't touch the others."""
    ops = test_log("any", 20, 12345)
    reply = b"\3" + be64(7) + root(ops) + varint(0) + varint(len(ops))
    server = checks.serve(["--initial-ops", "20", "--seed", "12345", "--connections", "5"])
    with server.connect() as slow:
        for byte in target_request(7):
            slow.sendall(bytes([byte]))
            time.sleep(0.002)
        checks.same("byte by byte", whole_frame(slow)[0], reply)
    with server.connect() as odd:
        # No message, which gets no reply, then a request.
        odd.sendall(frame(b"\x09") + frame(b"") + target_request(7))
        checks.same("behind no message", whole_frame(odd)[0], reply)
    with server.connect() as broken:
        broken.sendall(b"\x80\0")
        checks.same("a bad length", whole_frame(broken)[0], None)
    with server.connect() as cut:
        cut.sendall(target_request(7)[:4])
    with server.connect() as two:
        two.sendall(target_request(7) + target_request(8))
        first, rest = whole_frame(two)
        checks.same("two at once", (first, whole_frame(two, rest)[0]), (reply, reply.replace(be64(7), be64(8), 1)))
    checks.same("five sessions", server.ended(), ("listening\nsessions 5\n", 0))


def check_words(checks):
    """Words that are no form, and a port that is taken."""
    for text in (
        "serve --port 0", "serve --port 70000", "serve --connections 9", "serve --connections 0", "serve --mode compact",
        "serve --storage full", "serve --initial-ops 1000001", "serve --ops-per-connection 10", "serve --seed -1",
        "serve --ops-per-connection 1 --family keyless", "serve --ops-per-connection 1 --connections 8", "serve x",
        "serve --source job --family current", "serve --port 8080 --port 8081", "serve --seed", "sync",
        "sync a:1 --batch-size 0", "sync a:1 --max-outstanding-requests 65", "sync a:1 --family none", "sync a:1 b:1",
        "generate", "generate 1 1 1", "generate 1 2 0", "generate 1 20001 1", "generate 1 2 100001", "generate 1 2 3 4",
        "generate 01 2 3", "generate 1 2 3 --workers 0", "local --workers 65", "local --workers", "local --workers 2 3",
    ):
        checks.same(text, checks.run(text.split()), ("error usage\n", 2))
    with socket.create_server(("127.0.0.1", 0)) as taken:
        port = str(taken.getsockname()[1])
        checks.same("a port that is taken", checks.run(["serve", "--port", port]), ("error dial\n", 6))


def check_generate(checks):
    """Generated jobs, with and without workers: the size and the root of `local` over the same job."""
    for sizes in ((7, 4, 6), (2**64 - 1, 2, 1), (999_999, 5, 333), (12, 300, 1000)):
        wanted = generated(*sizes)
        words = ["generate", *map(str, sizes)]
        for more in ([], ["--workers", "1"], ["--workers", "4"], ["--workers", "64"]):
            checks.same(f"{words} {more}", checks.run(words + more), (wanted, 0))
    job = generated(5, 40, 200, "job")
    allowed, status = local(job.encode())
    for more in ([], ["--workers", "1"], ["--workers", "3"], ["--workers", "64"]):
        printed, found = checks.run(["local", *more], job)
        checks.hold(f"local {more}", printed in allowed and found == status)


FUNCTIONS = (check_words, check_row, check_families, check_job, check_growing, check_clients, check_generate)

if __name__ == "__main__":
    sys.exit(ran(Served(sys.argv[1]), "serving", FUNCTIONS))
