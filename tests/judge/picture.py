"""Pictures as trees of nodes, and their files.

    Node            a row and what hangs below it; some and every add an edge
    copy            the same tree of new nodes
    nodes           a node and all below it
    encode, decode  the file of a picture, and the tree of a file
    encode_book     the file of a book
    encode_defined  the file of a book of definitions
"""

NAMES, ROLES = 64, 32
EXISTS, FORALL = 1, 2
ROW_HEAD, END = b"\x10\0\x15", b"\x2f\0\0"
CARD_TAG, DEFINITION_TAG = b"\x51", b"\x61"
ROW_BYTES = 24


class Node:
    """Sets of names are numbers, as in the file; an edge is kind, role and node."""

    def __init__(self, wanted=(), excluded=(), impossible=False):
        self.wanted = sum(1 << name for name in wanted)
        self.excluded = sum(1 << name for name in excluded)
        self.impossible = impossible
        self.edges = []

    def some(self, role, node):
        self.edges.append((EXISTS, role, node))
        return self

    def every(self, role, node):
        self.edges.append((FORALL, role, node))
        return self


def copy(node):
    same = Node(impossible=node.impossible)
    same.wanted, same.excluded = node.wanted, node.excluded
    same.edges = [(kind, role, copy(below)) for kind, role, below in node.edges]
    return same


def nodes(node):
    yield node
    for _, _, below in node.edges:
        yield from nodes(below)


def row_field(parent, kind, role, node):
    return (ROW_HEAD + parent.to_bytes(2, "big") + bytes([kind, role, node.impossible])
            + node.wanted.to_bytes(8, "big") + node.excluded.to_bytes(8, "big"))


def encode(rng, root):
    """Rows come in any order that has parents first."""
    ready, rows = [(0, 0, 0, root)], []
    while ready:
        row = ready.pop(rng.randrange(len(ready)))
        ready += [(len(rows), *edge) for edge in row[3].edges]
        rows.append(row_field(*row))
    return b"".join(rows) + END


def decode_row(field, made):
    """The node of a row, below an earlier one."""
    value = field[len(ROW_HEAD):]
    parent, kind, role = int.from_bytes(value[0:2], "big"), value[2], value[3]
    node = Node(impossible=value[4] != 0)
    node.wanted, node.excluded = int.from_bytes(value[5:13], "big"), int.from_bytes(value[13:21], "big")
    if made:
        made[parent].edges.append((kind, role, node))
    return node


def decode(picture):
    """The tree of a file that has the form of a picture; whether it is one is for the library to say."""
    fields = [picture[at: at + ROW_BYTES] for at in range(0, len(picture) - len(END), ROW_BYTES)]
    if not fields or b"".join(fields) + END != picture or any(field[:3] != ROW_HEAD for field in fields):
        raise ValueError(f"not in the form of a picture: {picture.hex()}")
    made = []
    for field in fields:
        made.append(decode_row(field, made))
    return made[0]


def encode_fields(tag, values):
    return b"".join(tag + len(value).to_bytes(2, "big") + value for value in values) + END


def encode_book(pictures):
    return encode_fields(CARD_TAG, pictures)


def encode_defined(rng, definitions):
    """Roots by name, in any order."""
    values = [bytes([name]) + encode(rng, root) for name, root in definitions.items()]
    return encode_fields(DEFINITION_TAG, rng.sample(values, len(values)))
