"""Wrong answers on a known book, each of which has to be reported: so that the judge is known to be able to fail.

    turn_verdicts  yes for no, no for yes, and a refusal for either or the other way round
    turn_cards     a card left out or too many, and an answer other than yes
    turn_tables    the normal table of another picture, and an answer other than yes
    turn_common    a common picture that says too much or too little, and an answer other than yes
    turn_shares    counts of books that were not worth comparing
    turn_said      one of three who say something else

Known is a dictionary: of each two pictures of the book, which stand in one pair, it has the answers both ways.
"""

import collections
import copy
import sys

import compare
import shares
from library import NO, REFUSED, YES
from tally import Tally


def reported(comparison, *given, shown=0):
    """What a comparison reports: of each difference the numbers of its pictures."""
    tally = Tally(shown)
    comparison(tally, *given)
    return tally.differences


def ought(tally, what, expected, found):
    tally.check(f"{what}:", {"reported": found, "ought": expected})


def right(tally, what, comparison, *given):
    """Of the library's own answers nothing is reported; what is, is shown."""
    ought(tally, what, [], reported(comparison, *given, shown=3))


def turn_verdicts(tally, order, book, answers, known):
    right(tally, "The verdicts", compare.compare_pairs, order, book, answers)
    for pair in known:
        for turned in [answer for answer in (YES, NO, REFUSED) if answer != answers[pair]]:
            said = reported(compare.compare_pairs, order, book, {**answers, pair: turned})
            ought(tally, f"A verdict turned, {turned}", [pair], said)
    refused = copy.copy(book)
    refused.taken = [number for number in book.taken if number != 0]
    said = reported(compare.compare_pairs, order, refused, answers)
    ought(tally, "Verdicts for a refusal", [pair for pair in answers if 0 in pair], said)


def turn_cards(tally, order, book, answers):
    right(tally, "The cards", compare.compare_cases, order, book, answers)
    for case, (answer, found) in answers.items():
        cards = compare.others(book, case)
        for turned in [*cards, compare.NO_CARD]:
            wrong = [card for card in [*cards, compare.NO_CARD] if (card in found) != (card == turned)]
            doubted = (case, turned) if turned in cards else (case,)
            said = reported(compare.compare_cases, order, book, {case: (answer, wrong)})
            ought(tally, "A card turned", [doubted], said)
        said = reported(compare.compare_cases, order, book, {case: (NO, found)})
        ought(tally, "No for cards", [(case,)], said)


def turn_tables(tally, book, known):
    """Those of two pictures are exchanged: which is right if they have the same instances."""
    wrong, other = copy.copy(book), dict(known.keys())
    wrong.normal = [book.normal[other[number]] for number in book.numbers]
    differ = sorted({(number,) for pair, answer in known.items() if answer == NO for number in pair})
    ought(tally, "Normal tables exchanged", differ, reported(compare.compare_written, wrong, {}))
    wrong.normal = [(NO, table) for _, table in book.normal]
    ought(tally, "No for normal tables", [(number,) for number in book.numbers], reported(compare.normal_trees, wrong))


def joined(book, files):
    """The pairs whose common pictures are reported, if they are these files."""
    answers = {pair: (YES, file) for pair, file in files.items()}
    return list(dict.fromkeys(numbers[:2] for numbers in reported(compare.compare_written, book, answers)))


def turn_common(tally, library, book, known):
    """Where the first is below the second, they have the second in common, and the first with itself the first."""
    below = [pair for pair, answer in known.items() if answer == YES]
    strictly = [(first, second) for first, second in below if known[second, first] == NO]
    answers = compare.common_pictures(library, book, below)
    right(tally, "Normal tables and common pictures", compare.compare_written, book, answers)
    ought(tally, "Common pictures refused", [], [pair for pair, (answer, _) in answers.items() if answer == REFUSED])
    much = {pair: book.files[first] for first, second in below for pair in ((first, second), (second, first))}
    either = [pair for first, second in strictly for pair in ((first, second), (second, first))]
    ought(tally, "Too much in common", either, joined(book, much))
    little = {(first, first): book.files[second] for first, second in below}
    ought(tally, "Too little in common", [(first, first) for first, _ in strictly], joined(book, little))
    wrong = {pair: (NO, file) for pair, (_, file) in answers.items()}
    ought(tally, "No for common pictures", below, reported(compare.common_trees, book, wrong))


COUNTS = {"yes": 30, "telling": 10, "pairs": 100, "refused": 5, "joined": 20, "not joined": 1}
WRONG_COUNTS = [{"telling": 9}, {"refused": 0}, {"refused": 6}, {"not joined": 2}]


def turn_shares(tally):
    right(tally, "Good shares", shares.compare_shares, collections.Counter(COUNTS))
    for wrong in WRONG_COUNTS:
        found = reported(shares.compare_shares, collections.Counter({**COUNTS, **wrong}))
        ought(tally, f"A share with {wrong}", [()], found)


def turn_said():
    """Where a difference does not count, nothing else can be told: that ends the run."""
    for one in range(3):
        if reported(Tally.check, "One of three", {**dict.fromkeys(range(3), YES), one: NO}) != [()]:
            sys.exit("A difference is not counted.")
