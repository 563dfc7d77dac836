#!/usr/bin/env python3
"""Times how many requests a second `serve` answers over loopback, by one session and by several at once.

    python3 bench/serve.py [--operations N] [--seconds S] [--sessions 1 2 4 8] [--program PROGRAM]

Runs crates/ledger_main/out/ledger_main, which `rt ci` leaves there. Each session is a client in a process of its own,
which asks for 100 operations of a log of N test operations, from the front on and again, and reads each answer whole
before it asks for the next. Prints, for each number of sessions, the requests a second of all of them together, and
their ratio to one session's.
"""
import argparse
import multiprocessing
import pathlib
import socket
import subprocess
import sys
import time

import local

sys.path.insert(0, str(pathlib.Path(__file__).parent.parent / "tests"))
from peer import number_in  # noqa: E402
from rules import be64, frame, varint  # noqa: E402

BATCH = 100


def request(number, size, start):
    return frame(b"\0" + be64(number) + varint(size) + varint(start) + be64(BATCH) + b"\0")


class Client:
    """A connection that reads frames."""

    def __init__(self, port):
        self.socket, self.held = socket.create_connection(("127.0.0.1", port)), b""
        self.socket.setsockopt(socket.IPPROTO_TCP, socket.TCP_NODELAY, 1)

    def answer(self, asked):
        self.socket.sendall(asked)
        while True:
            if len(self.held) >= 5:
                length, at = number_in(self.held, 0)
                if len(self.held) >= at + length:
                    body, self.held = self.held[at : at + length], self.held[at + length :]
                    return body
            more = self.socket.recv(1 << 16)
            if not more:
                raise EOFError("the session ended")
            self.held += more

    def close(self):
        self.socket.close()


def session(port, size, seconds, ready, go, answered):
    """Asks for so many seconds, and tells how many answers came."""
    client, count = Client(port), 0
    ready.release()
    go.wait()
    end = time.perf_counter() + seconds
    while time.perf_counter() < end:
        body = client.answer(request(count + 1, size, count * BATCH % (size - BATCH)))
        if body[0] != 1:
            raise ValueError(f"answered with tag {body[0]}")
        count += 1
    client.close()
    answered.put(count)


def free_port():
    with socket.socket() as bound:
        bound.bind(("127.0.0.1", 0))
        return bound.getsockname()[1]


def rate(program, operations, sessions, seconds):
    """The requests a second of so many sessions at once."""
    port = free_port()
    words = [program, "serve", "--port", str(port), "--initial-ops", str(operations), "--connections", str(sessions)]
    server = subprocess.Popen(words, stdout=subprocess.PIPE, text=True)
    if server.stdout.readline() != "listening\n":
        raise ValueError("the server doesn't listen")
    size = 1 + operations + operations // 10 + 1
    ready, go, answered = multiprocessing.Semaphore(0), multiprocessing.Event(), multiprocessing.Queue()
    clients = [multiprocessing.Process(target=session, args=(port, size, seconds, ready, go, answered)) for _ in range(sessions)]
    for client in clients:
        client.start()
    for _ in clients:
        ready.acquire()
    go.set()
    total = sum(answered.get() for _ in clients)
    for client in clients:
        client.join()
    if server.stdout.readline() != f"sessions {sessions}\n" or server.wait() != 0:
        raise ValueError("the server doesn't end as it should")
    return total / seconds


def main():
    parser = argparse.ArgumentParser()
    parser.add_argument("--operations", type=int, default=10_000)
    parser.add_argument("--seconds", type=float, default=3)
    parser.add_argument("--sessions", type=int, nargs="+", default=[1, 2, 4, 8])
    parser.add_argument("--program", default=str(local.PROGRAM))
    given = parser.parse_args()
    one = None
    for sessions in given.sessions:
        found = rate(given.program, given.operations, sessions, given.seconds)
        one = one or found
        print(f"{sessions} sessions: {found:.0f} requests a second, {found / one:.2f} of one")


if __name__ == "__main__":
    main()
