"""The calls of the shared library, on pictures as bytes.

An answer is YES or NO; or REFUSED, where a merged table or an unfolded picture has too many rows, or the latter is too
deep, or, of two pictures that are not refused by themselves, the common picture has too many; or else words that say
what is wrong. The calls are made under the definitions that were set last; at first there are none.
"""

import ctypes

import picture

PICTURE_BYTES, WORK_BYTES, EVIDENCE_BYTES = 6147, 12294, 46595  # the least that the calls take
INPUTS = {"normalize": 1, "subsumes": 2, "verify": 3, "lcs": 2, "most_specific": 2}
LENT = {"normalize": 1, "subsumes": 2, "verify": 1, "lcs": 2, "most_specific": 1}
MERGED, COMMON, UNFOLDED, DEPTH = 14, 15, 29, 30  # the questions that ask whether there are too many rows or edges
YES, NO, REFUSED = "yes", "no", "refused"


def outcome(word, too_many=(MERGED, UNFOLDED, DEPTH)):
    question = word >> 48 & 0xFF
    if word >> 56 == 0:
        return REFUSED if question in too_many else f"refused by question {question}"
    return {1: YES, 2: NO}.get(word >> 56, f"the word {word:#x}")


def value(word):
    return word & 0xFFFFFFFF


class Library:
    def __init__(self, path):
        loaded = ctypes.CDLL(path)
        self.functions = {}
        for name, inputs in INPUTS.items():
            function = loaded["zuvaropy_" + name]
            function.restype = ctypes.c_uint64
            function.argtypes = [ctypes.c_char_p, ctypes.c_size_t] * (1 + inputs + LENT[name])
            self.functions[name] = function
        self.work = ctypes.create_string_buffer(WORK_BYTES)
        self.evidence = ctypes.create_string_buffer(EVIDENCE_BYTES)
        self.table = ctypes.create_string_buffer(PICTURE_BYTES)
        self.definitions = picture.END

    def call(self, name, *given):
        """The word of a call, given all its buffers but the definitions."""
        return self.functions[name](self.definitions, len(self.definitions), *given)

    def subsumes(self, first, second):
        """Does the second subsume the first? The evidence has to be taken for the same answer."""
        given = first, len(first), second, len(second)
        word = self.call("subsumes", *given, self.work, WORK_BYTES, self.evidence, EVIDENCE_BYTES)
        answer = outcome(word)
        if answer not in (YES, NO):
            return answer
        checked = self.call("verify", *given, self.evidence, value(word), self.work, WORK_BYTES)
        return answer if outcome(checked) == answer else f"{answer}, and its evidence: {outcome(checked)}"

    def normalize(self, given):
        """The answer, and the normal table."""
        word = self.call("normalize", given, len(given), self.table, PICTURE_BYTES)
        return outcome(word), self.table.raw[:value(word)]

    def lcs(self, first, second):
        """The answer, and the common picture."""
        word = self.call("lcs", first, len(first), second, len(second), self.work, WORK_BYTES,
                         self.table, PICTURE_BYTES)
        return outcome(word, (COMMON,)), self.table.raw[:value(word)]

    def most_specific(self, case, cards):
        """The answer, and the numbers of the cards found."""
        book = picture.encode_book(cards)
        word = self.call("most_specific", case, len(case), book, len(book), self.work, WORK_BYTES)
        return outcome(word), [card for card in range(32) if word >> card & 1]
