"""A peer that serves a log over TCP, written apart from the crates: reads frames, and answers operations requests by
the rules of docs/FORMATS.md, or does what a test asks of it instead.
"""
import socket
import threading

from rules import answer, be64, frame, heights, leaves_of, node, root_of, varint


def number_in(data, at):
    """The varint at a place, and the place behind it."""
    number = shift = 0
    while True:
        byte = data[at]
        number |= (byte & 127) << shift
        at, shift = at + 1, shift + 7
        if byte < 128:
            return number, at


class Request:
    """An operations request: number, size of the tree, first location, count, whether pinned nodes are wanted."""

    def __init__(self, body):
        if body[0] != 0:
            raise ValueError("no operations request")
        self.number = int.from_bytes(body[1:9], "big")
        self.end, at = number_in(body, 9)
        self.start, at = number_in(body, at)
        self.most, self.pinned = int.from_bytes(body[at : at + 8], "big"), body[at + 8] != 0
        if len(body) != at + 9:
            raise ValueError("bytes behind a request")


def honest(spelled, most=2**32):
    """Answers with the log's own operations, at most so many at a time."""
    return lambda r: frame(answer(spelled[: r.end], r.number, r.start, min(r.most, most, r.end - r.start), r.pinned))


class Indexed:
    """A long log whose perfect subtrees are all kept, so that each root and answer costs a few digests."""

    def __init__(self, spelled):
        self.spelled, self.levels = spelled, [leaves_of(spelled)]
        while len(self.levels[-1]) > 1:
            below = self.levels[-1]
            self.levels.append([node(below[i], below[i + 1]) for i in range(0, len(below) - 1, 2)])

    def trees(self, size):
        at = 0
        for height in heights(size):
            yield height, at
            at += 2**height

    def peaks(self, size):
        return [self.levels[height][at >> height] for height, at in self.trees(size)]

    def root(self, size):
        return root_of(size, self.peaks(size))

    def proof(self, height, at, start, end):
        if at + 2**height <= start or end <= at:
            return [self.levels[height][at >> height]]
        if height == 0 or start <= at and at + 2**height <= end:
            return []
        half = 2 ** (height - 1)
        return self.proof(height - 1, at, start, end) + self.proof(height - 1, at + half, start, end)

    def reply(self, r):
        end = min(r.end, r.start + r.most)
        digests = [digest for height, at in self.trees(r.end) for digest in self.proof(height, at, r.start, end)]
        body = b"\1" + be64(r.number) + varint(r.end) + varint(0) + varint(len(digests)) + b"".join(digests)
        body += varint(end - r.start) + b"".join(self.spelled[r.start : end])
        nodes = self.peaks(r.start)
        return frame(body + (b"\1" + varint(len(nodes)) + b"".join(nodes) if r.pinned else b"\0"))


class Peer:
    """Serves one connection after another. `reply` makes the bytes that go out for a request, in pieces of `piece`
    bytes where that is given; where it gives None as well the peer hangs up behind them. Requests are read by `read`."""

    read = Request

    def __init__(self, reply, piece=None):
        self.reply, self.piece, self.requests = reply, piece, []
        self.listener = socket.create_server(("127.0.0.1", 0))
        self.address = "127.0.0.1:%d" % self.listener.getsockname()[1]
        self.thread = threading.Thread(target=self.serve, daemon=True)
        self.thread.start()

    def serve(self):
        while True:
            try:
                connection, _ = self.listener.accept()
            except OSError:
                return
            with connection:
                try:
                    self.session(connection)
                except OSError:
                    pass

    def session(self, connection):
        connection.setsockopt(socket.IPPROTO_TCP, socket.TCP_NODELAY, 1)
        held = b""
        while True:
            data = connection.recv(65536)
            if not data:
                return
            held += data
            while held:
                length, at = number_in(held + b"\0", 0)
                if len(held) < at + length:
                    break
                request, held = self.read(held[at : at + length]), held[at + length :]
                self.requests.append(request)
                out = self.reply(request)
                data, goes_on = out if isinstance(out, tuple) else (out, True)
                self.send(connection, data)
                if not goes_on:
                    return

    def send(self, connection, data):
        if not self.piece:
            return connection.sendall(data)
        for at in range(0, len(data), self.piece):
            connection.sendall(data[at : at + self.piece])

    def close(self):
        # Wakes the accept that waits.
        self.listener.shutdown(socket.SHUT_RDWR)
        self.listener.close()
        self.thread.join(5)
