"""Compares what the library says of a book with what FaCT++ says of it.

    compare_pairs    verdicts: whether one picture subsumes another, for all ordered pairs
    compare_cases    found_cards: the most specific cards for each picture in a book of the others
    compare_written  normal tables and common_pictures, which go to FaCT++ too

What the library says is asked before, so that other answers can be compared too.
"""

import fact
import krss
import picture
from library import NO, REFUSED, YES

MAX_CARDS, NO_CARD = 32, "no card"
RELATED, ANY = 8, 4  # common pictures of each book: of pairs that are below a third picture, and of any


class Book:
    """Pictures as trees, as files and as KRSS; those are taken of which the merged table is not too large.

    The definitions are trees by name. From now on the library's calls are made under them.
    """

    def __init__(self, rng, roots, library, origin, definitions):
        self.roots = roots
        self.definitions = definitions
        library.definitions = picture.encode_defined(rng, definitions)
        self.files = [picture.encode(rng, root) for root in roots]
        self.texts = [krss.concept(root) for root in roots]
        self.normal = [library.normalize(file) for file in self.files]
        self.numbers = range(len(roots))
        self.taken = [number for number in self.numbers if self.normal[number][0] != REFUSED]
        self.origin = origin

    def order(self):
        """What FaCT++ says of the pictures."""
        return fact.classify(self.classes(), self.definitions)

    def classes(self):
        return {class_name(number): root for number, root in enumerate(self.roots)}

    def show(self, numbers):
        for number in numbers:
            print(f"  {class_name(number)}: {self.texts[number]}\n    {self.files[number].hex()}")
        for name, root in self.definitions.items():
            print(f"  n{name} is {krss.concept(root)}")
        print(f"  to run it again: make judge {self.origin}")


def class_name(number):
    return f"C{number}"


def normal_name(number):
    return f"N{number}"


def common_name(first, second):
    return f"L{first}_{second}"


def words(truth):
    return YES if truth else NO


def both(library, judge):
    return {"library": library, fact.PROGRAM: judge}


def is_below(order, first, second):
    return order.below(class_name(first), class_name(second))


def verdicts(library, book):
    """The library's answer for each ordered pair."""
    return {(first, second): library.subsumes(book.files[first], book.files[second])
            for first in book.numbers for second in book.numbers}


def is_trivial(order, book, first, second):
    """A yes tells little of the same picture, of an impossible first one, and of a second one that says nothing."""
    return (book.texts[first] == book.texts[second] or order.impossible(class_name(first))
            or order.says_nothing(class_name(second)))


def compare_pairs(tally, order, book, answers):
    for pair, answer in answers.items():
        refused = any(number not in book.taken for number in pair)
        yes = is_below(order, *pair)
        tally.counts["pairs"] += 1
        tally.counts["refused"] += refused
        tally.counts["yes"] += yes and not refused
        tally.counts["telling"] += yes and not refused and not is_trivial(order, book, *pair)
        said = both(answer, REFUSED if refused else words(yes))
        tally.check("Does the second subsume the first?", said, book, pair)


def most_specific(order, case, cards):
    """Those that subsume the case; without those that subsume another of them that does not subsume them in return."""
    above = [card for card in cards if is_below(order, case, card)]
    return [card for card in above
            if not any(is_below(order, other, card) and not is_below(order, card, other) for other in above)]


def others(book, case):
    return [number for number in book.taken if number != case]


def found_cards(library, book):
    """The library's answer for each case, and the cards that it finds."""
    found = {}
    for case in book.taken:
        cards = others(book, case)
        answer, places = library.most_specific(book.files[case], [book.files[card] for card in cards])
        at_place = cards + [NO_CARD] * (MAX_CARDS - len(cards))
        found[case] = answer, [at_place[place] for place in places]
    return found


def compare_cases(tally, order, book, answers):
    for case, (answer, found) in answers.items():
        cards = others(book, case)
        expected = most_specific(order, case, cards)
        doubted = [card for card in cards if (card in found) != (card in expected)]
        tally.counts["cases"] += 1
        tally.check("Which other pictures are the most specific that subsume the first?",
                    both((answer, found), (YES, expected)), book, (case, *doubted))


def pairs_to_join(rng, order, book):
    """Pairs for common pictures: some that are both below a third picture which says something, and some others."""
    pairs = [(first, second) for first in book.taken for second in book.taken if first < second]
    telling = [number for number in book.taken if not order.says_nothing(class_name(number))]
    related = [(first, second) for first, second in pairs
               if any(is_below(order, first, third) and is_below(order, second, third)
                      for third in telling if third not in (first, second))]
    return rng.sample(related, min(RELATED, len(related))) + rng.sample(pairs, min(ANY, len(pairs)))


def common_pictures(library, book, pairs):
    """The library's answer for each pair, and the file of the common picture."""
    return {pair: library.lcs(*(book.files[number] for number in pair)) for pair in pairs}


def normal_trees(tally, book):
    """The trees of the normal tables."""
    found = {}
    for number in book.taken:
        answer, table = book.normal[number]
        if answer == YES:
            found[number] = picture.decode(table)
        else:
            tally.check("Is there a normal table?", both(answer, YES), book, (number,))
    return found


def common_trees(tally, book, answers):
    """The trees of the common pictures that are not refused."""
    found = {}
    for pair, (answer, common) in answers.items():
        tally.counts["joined"] += 1
        if answer == YES:
            found[pair] = picture.decode(common)
        elif answer == REFUSED:
            tally.counts["not joined"] += 1
        else:
            tally.check("Is there a common picture?", both(answer, YES), book, pair)
    return found


def compare_common(tally, order, book, pair, common):
    """It subsumes both, and each drawn picture that subsumes both subsumes it."""
    name = common_name(*pair)
    says = f"the common picture of the first two, {krss.concept(common)}"
    tally.counts["common"] += 1
    for number in book.numbers:
        if number in pair:
            below = order.below(class_name(number), name)
            tally.check(f"Is the last below {says}?", both(YES, words(below)), book, (*pair, number))
        if all(is_below(order, one, number) for one in pair):
            above = order.below(name, class_name(number))
            tally.check(f"Does the last subsume {says}?", both(YES, words(above)), book, (*pair, number))


def compare_normal(tally, order, book, number, table):
    same = order.same(class_name(number), normal_name(number))
    tally.counts["normal"] += 1
    tally.check(f"Is it equivalent to its normal table {krss.concept(table)}?", both(YES, words(same)), book, (number,))


def compare_written(tally, book, answers):
    """A second file for FaCT++, with what the library wrote beside the drawn pictures."""
    tables, common = normal_trees(tally, book), common_trees(tally, book, answers)
    written = {normal_name(number): table for number, table in tables.items()}
    written.update({common_name(*pair): root for pair, root in common.items()})
    wider = fact.classify({**book.classes(), **written}, book.definitions)
    for number, table in tables.items():
        compare_normal(tally, wider, book, number, table)
    for pair, root in common.items():
        compare_common(tally, wider, book, pair, root)
