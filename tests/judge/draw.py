"""Draws books of random pictures that have to do with each other.

A book has two families. Each begins with a random picture, and every further member is made from an earlier one:

    weaken      something is left out: a name, a mark, a subtree, or all that a row says
    strengthen  something is added
    reword      the same is said in other words

Leaving out makes a picture that subsumes the one it was made from, since nothing stands below a negation but names.
In a book with one role one picture is another: its merged table is too large, so that every run has some such.
"""

import collections

from picture import EXISTS, FORALL, NAMES, ROLES, Node, copy, nodes

FAMILIES, MEMBERS = 2, 16  # 32 pictures
MAX_ROWS, MAX_DEPTH = 40, 8
LEVELS, BRANCHES = 4, 3
SIZES = [  # names, roles, rows; by one role much is passed on, and some more merged tables become too large
    (2, 1, 10), (3, 2, 12), (4, 2, 16), (6, 3, 20), (12, 5, 30), (NAMES, 1, 30), (NAMES, ROLES, MAX_ROWS)]

DEFINED = 3  # names, at most

Vocabulary = collections.namedtuple("Vocabulary", "names roles")


def draw_node(rng, vocabulary, contradicting):
    """A contradiction is a mark, or a name both wanted and excluded."""
    share = min(0.4, 2 / len(vocabulary.names))
    drawn = {name: rng.random() / share for name in vocabulary.names}
    node = Node([name for name, at in drawn.items() if at < 0.75],
                [name for name, at in drawn.items() if 0.75 <= at < 1])
    if rng.random() < contradicting:
        node.impossible = rng.random() < 0.5
        node.excluded |= node.wanted
    return node


def add_edge(rng, vocabulary, node):
    """The node at the new edge. Below a value restriction a contradiction does not make all impossible."""
    kind = EXISTS if rng.random() < 0.6 else FORALL
    below = draw_node(rng, vocabulary, 0.003 if kind == EXISTS else 0.06)
    node.edges.append((kind, rng.choice(vocabulary.roles), below))
    return below


def draw_picture(rng, vocabulary, rows):
    """Late rows are likelier to get successors than early ones: the tree is deeper."""
    root = draw_node(rng, vocabulary, 0)
    depths = [(root, 0)]
    for _ in range(rng.randrange(rows // 2, rows)):
        inner = [(node, depth) for node, depth in depths if depth < MAX_DEPTH]
        node, depth = max(rng.sample(list(enumerate(inner)), min(2, len(inner))))[1]
        depths.append((add_edge(rng, vocabulary, node), depth + 1))
    return root


def draw_large(rng, vocabulary):
    """Each level has three successors, and says the next level of all. Merged, it has 1 + 4 + 16 + 64 + 256 rows."""
    role = rng.choice(vocabulary.roles)
    root = level = draw_node(rng, vocabulary, 0)
    for _ in range(LEVELS):
        for _ in range(BRANCHES):
            level.some(role, draw_node(rng, vocabulary, 0))
        below = draw_node(rng, vocabulary, 0)
        level.every(role, below)
        level = below
    return root


def drop_name(rng, names):
    """A set without one of its names."""
    return names & ~(1 << rng.choice([name for name in range(NAMES) if names >> name & 1]))


def empty(node):
    node.wanted, node.excluded, node.impossible, node.edges = 0, 0, False, []


def weaken(rng, root, _):
    node = rng.choice(list(nodes(root)))
    said = [part for part in ("wanted", "excluded", "impossible", "edges") if getattr(node, part)]
    part = rng.choice(said or ["nothing"])
    if node is not root and rng.random() < 0.1:
        empty(node)
    elif part == "edges":
        node.edges.pop(rng.randrange(len(node.edges)))
    elif part == "impossible":
        node.impossible = False
    elif part != "nothing":
        setattr(node, part, drop_name(rng, getattr(node, part)))


def strengthen(rng, root, vocabulary):
    node = rng.choice(list(nodes(root)))
    name = 1 << rng.choice(vocabulary.names)
    if rng.random() < 0.4:
        add_edge(rng, vocabulary, node)
    elif node.wanted & name or (rng.random() < 0.8 and not node.excluded & name):
        node.wanted |= name
    else:
        node.excluded |= name


def merge(node, other):
    """The node says also what the other says."""
    other = copy(other)
    node.wanted |= other.wanted
    node.excluded |= other.excluded
    node.impossible |= other.impossible
    node.edges += other.edges


def split(rng, node, number):
    """One value restriction becomes two, which share what the one said."""
    kind, role, below = node.edges[number]
    other, taken = copy(below), rng.getrandbits(NAMES)
    other.wanted, other.excluded = below.wanted & taken, below.excluded & taken
    below.wanted, below.excluded = below.wanted & ~taken, below.excluded & ~taken
    cut = rng.randint(0, len(below.edges))
    other.edges, below.edges = other.edges[:cut], below.edges[cut:]
    node.edges.append((kind, role, other))


def repeat(rng, node, number, vocabulary):
    """An existential restriction is said again, with something left out."""
    kind, role, below = node.edges[number]
    again = copy(below)
    weaken(rng, again, vocabulary)
    node.edges.append((kind, role, again))


def pass_on(node, number):
    """A value restriction is said also of the successors that there are by its role."""
    _, role, below = node.edges[number]
    for kind, other_role, other in node.edges:
        if (kind, other_role) == (EXISTS, role):
            merge(other, below)


def reword(rng, root, vocabulary):
    inner = [node for node in nodes(root) if node.edges]
    if not inner:
        root.every(rng.choice(vocabulary.roles), Node())
        return
    node = rng.choice(inner)
    number = rng.randrange(len(node.edges))
    if node.edges[number][0] == EXISTS:
        repeat(rng, node, number, vocabulary)
    elif rng.random() < 0.5:
        pass_on(node, number)
    else:
        split(rng, node, number)
    rng.shuffle(node.edges)


def depth(node):
    return max((1 + depth(below) for _, _, below in node.edges), default=0)


def derive(rng, root, vocabulary):
    """What has become too large is weakened instead."""
    changed = copy(root)
    change = rng.choice([weaken, weaken, weaken, strengthen, reword, reword])
    for _ in range(rng.randint(1, 3)):
        change(rng, changed, vocabulary)
    if len(list(nodes(changed))) > MAX_ROWS or depth(changed) > MAX_DEPTH:
        changed = copy(root)
        weaken(rng, changed, vocabulary)
    return changed


def draw_family(rng, vocabulary, rows):
    family = [draw_picture(rng, vocabulary, rows)]
    while len(family) < MEMBERS:
        family.append(derive(rng, rng.choice(family), vocabulary))
    return family


def draw_book(rng, number):
    """The roots of 32 pictures, in any order; books in turn have the sizes in turn."""
    names, roles, rows = SIZES[number % len(SIZES)]
    vocabulary = Vocabulary(rng.sample(range(NAMES), names), rng.sample(range(ROLES), roles))
    roots = [root for _ in range(FAMILIES) for root in draw_family(rng, vocabulary, rows)]
    if roles == 1:
        roots[-1] = draw_large(rng, vocabulary)
    rng.shuffle(roots)
    return roots


def draw_definition(rng, vocabulary, defined):
    """A root with a few successors, so that unfolding adds an edge at most."""
    root = draw_node(rng, vocabulary, 0.02)
    for _ in range(rng.randrange(3)):
        add_edge(rng, vocabulary, root)
    exclude_none(root, defined)
    return root


def exclude_none(root, names):
    """No row excludes any of these names."""
    for node in nodes(root):
        node.excluded &= ~sum(1 << name for name in names)


def draw_definitions(rng, roots):
    """Definitions, by name, of some of the names that the pictures want; these then exclude none of them.

    Each mentions names of its own and those that are defined after it, so that there is no ring.
    """
    rows = [node for root in roots for node in nodes(root)]
    wanted = [name for name in range(NAMES) if any(node.wanted >> name & 1 for node in rows)]
    roles = sorted({role for node in rows for _, role, _ in node.edges}) or [0]
    defined = rng.sample(wanted, min(DEFINED, len(wanted)))
    plain = rng.sample([name for name in range(NAMES) if name not in defined], 3)
    for root in roots:
        exclude_none(root, defined)
    return {name: draw_definition(rng, Vocabulary(plain + defined[place + 1:], roles), defined)
            for place, name in enumerate(defined)}
