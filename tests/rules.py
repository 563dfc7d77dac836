"""The bytes and Merkle rules of docs/FORMATS.md, written apart from the crates. The scripts that work out expected
values use them; the hash is a parameter where a toy one is tried too.
"""
import hashlib


def sha(data):
    return hashlib.sha256(data).digest()


def be64(number):
    return number.to_bytes(8, "big")


def varint(number):
    out = b""
    while number >= 128:
        out += bytes([number % 128 + 128])
        number //= 128
    return out + bytes([number])


def frame(body):
    return varint(len(body)) + body


def commit(floor):
    """A commit of the families any and current, without metadata."""
    return b"\2\0" + varint(floor)


def update(key, value):
    return b"\0" + key + value


def leaves_of(items, start=0, h=sha):
    return [h(b"\0" + be64(start + i) + item) for i, item in enumerate(items)]


def node(left, right, h=sha):
    return h(b"\1" + left + right)


def subtree(leaves, height, at, h=sha):
    if height == 0:
        return leaves[at]
    half = 2 ** (height - 1)
    return node(subtree(leaves, height - 1, at, h), subtree(leaves, height - 1, at + half, h), h)


def heights(size):
    """The heights of the perfect subtrees of so many leaves, greatest first."""
    return [height for height in reversed(range(63)) if size >> height & 1]


def peaks(leaves, h=sha):
    at, out = 0, []
    for height in heights(len(leaves)):
        out.append(subtree(leaves, height, at, h))
        at += 2**height
    return out


def root_of(size, nodes, h=sha):
    return h(b"\2" + be64(size) + b"".join(nodes))


def root(items, h=sha):
    return root_of(len(items), peaks(leaves_of(items, 0, h), h), h)


def proof(leaves, start, count):
    """The digests of the subtrees outside the range, in the order of the walk from left to right."""
    out = []

    def walk(height, at):
        if at + 2**height <= start or start + count <= at:
            out.append(subtree(leaves, height, at))
        elif height > 0:
            walk(height - 1, at)
            walk(height - 1, at + 2 ** (height - 1))

    at = 0
    for height in heights(len(leaves)):
        walk(height, at)
        at += 2**height
    return out


def answer(ops, number, start, count, pinned=False):
    """The body of an answer with these operations of a log, under this number."""
    leaves = leaves_of(ops)
    digests = proof(leaves, start, count)
    body = b"\1" + be64(number) + varint(len(ops)) + varint(0) + varint(len(digests)) + b"".join(digests)
    body += varint(count) + b"".join(ops[start : start + count])
    if not pinned:
        return body + b"\0"
    nodes = peaks(leaves[:start])
    return body + b"\1" + varint(len(nodes)) + b"".join(nodes)
