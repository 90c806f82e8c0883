"""Counts what is compared, and says where answers differ."""

import collections


class Tally:
    """The first differences are printed, as many as shall be shown; the numbers of the pictures of each are kept."""

    def __init__(self, shown):
        self.counts = collections.Counter()
        self.differences = []
        self.shown = shown

    def check(self, what, said, book=None, numbers=()):
        """All have to say the same; what each says is given by its name. Pictures are those of the book."""
        self.counts["checks"] += 1
        one, *others = said.values()
        if all(other == one for other in others):
            return
        self.differences.append(numbers)
        if len(self.differences) <= self.shown:
            print(what, "; ".join(f"{who}: {answer}" for who, answer in said.items()))
            if book:
                book.show(numbers)
