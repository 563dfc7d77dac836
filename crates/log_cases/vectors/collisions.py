"""The inputs that two parts of one root hand out under the weak digest: 30 zero bytes, then the sum of all bytes modulo
65,536. Prints the constants of src/binding_tests.rt. It walks from the root down, where the crate walks from the
first leaf on."""


def digest(data):
    return bytes(30) + (sum(data) % 65536).to_bytes(2, "big")


def leaf(at, item):
    return b"\0" + at.to_bytes(8, "big") + item


def node(left, right):
    return b"\1" + left + right


def item(*first):
    return bytes(first) + bytes(32 - len(first))


def last(*ends):
    return bytes(32 - len(ends)) + bytes(ends)


def rust(name, data):
    print(f"const {name}: [u8; {len(data)}] = {list(data)};")


# the leaves at place 1 differ: 2, 0 against 1, 1
rust("LEAF", leaf(1, item(2, 0)))
rust("OTHER_LEAF", leaf(1, item(1, 1)))
# the peak before place 1 differs, and the node over it and the leaf has one digest
second = digest(leaf(1, item(7)))
rust("NODE", node(last(0, 2), second))
rust("OTHER_NODE", node(last(1, 1), second))
# the peak before place 2 differs, and stays a peak: the root has one digest
third = digest(leaf(2, item(7)))
rust("ROOT", b"\2" + (3).to_bytes(8, "big") + last(0, 2) + third)
rust("OTHER_ROOT", b"\2" + (3).to_bytes(8, "big") + last(1, 1) + third)
