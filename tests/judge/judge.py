#!/usr/bin/env python3
"""Compares the library with FaCT++, a reasoner from outside, on random books of pictures.

    tests/judge/judge.py SHARED [--books N] [--seed N] [--first N]

SHARED is the shared library. Of each book, all ordered pairs are compared, the most specific cards, the normal tables
and some common pictures (compare.py), of some books also under definitions. Prints each difference with its pictures and how to run it again, up to ten,
then a line of counts, and last 'FaCT++ as a judge: P passed, F failed'; exits 1 if F is not 0. A failure is also what
is known and found otherwise (known.py), a wrong answer that is not reported (turned.py), and books that were not worth
comparing (shares.py).
"""

import argparse
import random
import signal
import sys
import time

sys.dont_write_bytecode = True  # nothing is left in the folder

import compare
import draw
import fact
import known
import shares
from library import Library
from tally import Tally

ENOUGH_BOOKS = 20  # for the shares to be asked
DEFINED_EACH = 3  # of so many books one is compared under definitions too


def arguments():
    parser = argparse.ArgumentParser(description="Compares the library with FaCT++ on random books of pictures.")
    parser.add_argument("shared", help="the shared library")
    parser.add_argument("--books", type=int, default=42, help="how many books")
    parser.add_argument("--seed", type=int, default=1, help="what they are drawn from")
    parser.add_argument("--first", type=int, default=0, help="number of the first book")
    return parser.parse_args()


def judge_book(tally, library, seed, number, origin):
    """Draws a book and compares; and some once more, under definitions of some of the names."""
    rng = random.Random(f"{seed} {number}")
    roots = draw.draw_book(rng, number)
    judge_roots(tally, rng, compare.Book(rng, roots, library, origin, {}), library)
    if number % DEFINED_EACH == 0:
        tally.counts["defined books"] += 1
        definitions = draw.draw_definitions(rng, roots)
        judge_roots(tally, rng, compare.Book(rng, roots, library, origin, definitions), library)


def judge_roots(tally, rng, book, library):
    order = book.order()
    compare.compare_pairs(tally, order, book, compare.verdicts(library, book))
    compare.compare_cases(tally, order, book, compare.found_cards(library, book))
    pairs = compare.pairs_to_join(rng, order, book)
    compare.compare_written(tally, book, compare.common_pictures(library, book, pairs))


def judge(tally, given):
    library = Library(given.shared)
    known.compare_spoilt(tally)
    known.compare_known(tally, library)
    for number in range(given.first, given.first + given.books):
        origin = f"SEED={given.seed} FIRST={number} BOOKS=1"
        try:
            judge_book(tally, library, given.seed, number, origin)
        except fact.Unreadable as unreadable:
            raise fact.Unreadable(f"{unreadable}\nto run it again: make judge {origin}") from unreadable
    if given.books >= ENOUGH_BOOKS:
        shares.compare_shares(tally, tally.counts)


def summary(tally, books, seconds):
    """Prints the counts and the last line; gives the number of failures."""
    counts, failed = tally.counts, len(tally.differences)
    print(f"{books} books, {counts['defined books']} under definitions too: {counts['pairs']} pairs, {counts['yes']} yes, {counts['telling']} of these not trivial, "
          f"{counts['refused']} refused; {counts['cases']} cases, {counts['normal']} normal tables, "
          f"{counts['common']} common pictures; {failed} differ; {seconds:.1f} s")
    print(f"FaCT++ as a judge: {counts['checks'] - failed} passed, {failed} failed")
    return failed


def main():
    given = arguments()
    signal.signal(signal.SIGTERM, lambda *_: sys.exit(1))  # so that FaCT++'s folder is removed then too
    started = time.monotonic()
    tally = Tally(shown=10)
    try:
        judge(tally, given)
    except fact.Unreadable as unreadable:
        print(unreadable)
        tally.check("FaCT++'s order of the classes.", {"read": False, "ought": True})
    return summary(tally, given.books, time.monotonic() - started) != 0


if __name__ == "__main__":
    sys.exit(main())
