"""What the answer is known of: so that the judge is judged before it judges.

PAIRS are pictures of paper 01 and like them. Each is: what it is about, first and second picture, whether the second
subsumes the first, and the first the second. Role 8 is r and role 9 is s, as there. SPOILT are taxonomies that must
not be read.
"""

import random

import compare
import fact
import turned
from library import NO, YES
from picture import Node

R, S = 8, 9


def wants(*names):
    return Node(names)


def impossible():
    return Node(impossible=True)


PAIRS = [
    ("a successor with both names, and one with each (K7)",
     Node().some(R, wants(3, 5)), Node().some(R, wants(3)).some(R, wants(5)), YES, NO),
    ("a value restriction holds of a successor (K4)",
     Node().every(R, wants(3)).some(R, wants(5)), Node().some(R, wants(3, 5)), YES, NO),
    ("a value restriction passed on says the same (K4)",
     Node().every(R, wants(3)).some(R, wants(5)), Node().every(R, wants(3)).some(R, wants(3, 5)), YES, YES),
    ("two value restrictions by one role are one (K3)",
     Node().every(R, wants(3)).every(R, wants(5)), Node().every(R, wants(3, 5)), YES, YES),
    ("not so by two roles",
     Node().every(R, wants(3)).every(S, wants(5)), Node().every(R, wants(3, 5)), NO, NO),
    ("a contradiction is below everything (K2)",
     Node([3], [3]), wants(5).some(R, Node([4], [6])), YES, NO),
    ("what says nothing is above everything (K1)",
     wants(5).some(R, Node([4], [6])), Node(), YES, NO),
    ("a value restriction to nothing said says nothing (K5)",
     Node().every(R, Node()), Node(), YES, YES),
    ("no successor at all is below any value restriction (K8)",
     Node().every(R, impossible()), Node().every(R, wants(5)), YES, NO),
    ("but not below a successor (K8)",
     Node().every(R, impossible()), Node().some(R, Node()), NO, NO),
    ("no successor and a successor are a contradiction (K6)",
     Node().every(R, impossible()).some(R, Node()), impossible(), YES, YES),
    ("a successor of which nothing is said says something",
     Node().some(R, Node()), Node(), YES, NO),
    ("a name that is not mentioned is not excluded",
     wants(3), Node([3], [5]), NO, YES),
    ("a value restriction to a successor, passed on (K12)",
     Node().every(R, Node().some(S, wants(1))).some(R, wants(2)), Node().some(R, wants(2).some(S, wants(1))), YES, NO),
]

BELT, FRONT, NEVER, ABOVE = 5, 6, 7, 8

DEFINITIONS = {
    BELT: wants(3).some(R, wants(4)),
    FRONT: wants(BELT, 10).every(S, wants(BELT)),
    NEVER: impossible(),
    ABOVE: Node(),
}

DEFINED_PAIRS = [
    ("a name and what it stands for",
     wants(BELT), wants(3).some(R, wants(4)), YES, YES),
    ("a part of what it stands for is above it",
     wants(BELT), Node().some(R, Node()), YES, NO),
    ("a name that another stands for",
     wants(FRONT), wants(BELT), YES, NO),
    ("and what that one stands for, of a successor",
     wants(FRONT).some(S, Node()), Node().some(S, wants(3)), YES, NO),
    ("a name of a successor",
     Node().some(S, wants(BELT)), Node().some(S, Node().some(R, wants(4))), YES, NO),
    ("a name with something more",
     wants(BELT, 12), wants(3, 12).some(R, wants(4, 9)), NO, YES),
    ("a name for a contradiction",
     wants(NEVER), impossible(), YES, YES),
    ("a name for what says nothing",
     wants(ABOVE), Node(), YES, YES),
    ("two names that share what they stand for",
     wants(FRONT, BELT), wants(FRONT), YES, YES),
]

TAXONOMY = f"""{fact.HEADING}

"TOP" {{0:}} {{2: "C0" "n3"}}
("C0"="C1") {{1: "TOP"}} {{1: "BOTTOM"}}
"n3" {{1: "TOP"}} {{1: "BOTTOM"}}
"BOTTOM" {{2: "C0" "n3"}} {{0:}}
"""

SPOILT = [
    ("a class is missing", TAXONOMY.replace('("C0"="C1")', '"C0"')),
    ("a group above is missing", TAXONOMY.replace('"n3" {', '"n4" {')),
    ("BOTTOM is missing", TAXONOMY.partition('"BOTTOM" {2')[0]),
    ("a count is wrong", TAXONOMY.replace('{2: "C0" "n3"} {0:}', '{3: "C0" "n3"} {0:}')),
    ("a line is cut", TAXONOMY.replace('{1: "BOTTOM"}', "{1:")),
    ("there is no heading", TAXONOMY.replace("entry", "")),
    ("nothing is there", ""),
]


def is_read(text):
    try:
        fact.Order(text, ["C0", "C1"])
    except fact.Unreadable:
        return False
    return True


def compare_spoilt(tally):
    tally.check("A whole taxonomy.", {"is read": is_read(TAXONOMY), "ought": True})
    for what, text in SPOILT:
        tally.check(f"A taxonomy where {what}.", {"is read": is_read(text), "ought": False})


def known_answers(pairs):
    """Pictures 2n and 2n + 1 of the known book are those of pair n."""
    known = {}
    for place, (_, _, _, forth, back) in enumerate(pairs):
        first, second = 2 * place, 2 * place + 1
        known.update({(first, second): forth, (second, first): back})
    return known


def compare_known(tally, library):
    """Known answers against those of both; and wrong ones are reported."""
    turned.turn_said()
    compare_pairs(tally, library, PAIRS, {})
    compare_pairs(tally, library, DEFINED_PAIRS, DEFINITIONS)
    turned.turn_shares(tally)


def compare_pairs(tally, library, pairs, definitions):
    roots = [root for _, first, second, *_ in pairs for root in (first, second)]
    book = compare.Book(random.Random(0), roots, library, "BOOKS=0", definitions)
    order = book.order()
    answers, known = compare.verdicts(library, book), known_answers(pairs)
    for pair, answer in known.items():
        about, judged = pairs[pair[0] // 2][0], compare.words(compare.is_below(order, *pair))
        tally.check(f"Known, {about}:", {"known": answer, **compare.both(answers[pair], judged)}, book, pair)
    turned.turn_verdicts(tally, order, book, answers, known)
    turned.turn_cards(tally, order, book, compare.found_cards(library, book))
    turned.turn_tables(tally, book, known)
    turned.turn_common(tally, library, book, known)
