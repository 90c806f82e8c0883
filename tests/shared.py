#!/usr/bin/env python3
"""Makes every call of the shared library on the samples, and compares with what the examples print of them.

    tests/shared.py SHARED

The last line is 'shared library from Python: P passed, F failed'; exits 1 if F is not 0.
"""

import ctypes
import pathlib
import re
import sys

SAMPLES = pathlib.Path(__file__).parent.parent / "samples"
INPUTS = ["buffer", "first picture", "second picture", "evidence", "book", "card", "definitions book", "definition"]
KINDS = {"some": 1, "all": 2}
PICTURE_BYTES, WORK_BYTES, EVIDENCE_BYTES = 6147, 12294, 46595  # the least that the calls take
END = b"\x2f\0\0"
YES, NO = 1, 2


def answer(outcome, value=0):
    return outcome << 56 | value


def refusal(line):
    """The word of '[stopped at FILE: ]refused QUESTION, INPUT[ NUMBER][, row ROW, byte BYTE]: ..'; None of others."""
    found = re.match(r"(?:stopped at \S+: )?refused (\d+), ([a-z ]+?)(?: (\d+))?(?:, row (\d+), byte (\d+))?: ", line)
    if not found:
        return None
    question, which, *numbers = found.groups()
    number, row, byte = (int(number or 0) for number in numbers)
    return int(question) << 48 | INPUTS.index(which) << 40 | number << 32 | row << 16 | byte


def name_set(row, what):
    found = re.search(what + r"((?: \d+)+)", row)
    return sum(1 << int(name) for name in found[1].split()) if found else 0


def row_field(row):
    """A row as the examples print it, as the field of a picture."""
    edge = re.search(r"(some|all) (\d+) below row (\d+)", row)
    kind, role, parent = (KINDS[edge[1]], int(edge[2]), int(edge[3])) if edge else (0, 0, 0)
    return (b"\x10\0\x15" + parent.to_bytes(2, "big") + bytes([kind, role, "impossible" in row])
            + name_set(row, "wanted").to_bytes(8, "big") + name_set(row, "excluded").to_bytes(8, "big"))


def picture(rows):
    return b"".join(map(row_field, rows)) + END


def map_file(rows):
    images = b"".join(int(row.split()[-1]).to_bytes(2, "big") for row in rows)
    return b"\x41" + len(images).to_bytes(2, "big") + images + END


def printed(example):
    """What an example prints: of each call the names of its files, the rest of the line, and the lines below it."""
    for part in re.split(r"\n(?! )", (SAMPLES / (example + ".stdout")).read_text().rstrip("\n")):
        first, *below = part.split("\n")
        names, said = first.split(": ", 1)
        files = [(SAMPLES / pathlib.Path(name).name).read_bytes() for name in names.split()]
        yield first, files, said, [line for line in below if not line.startswith("  checked")]


class Library:
    def __init__(self, path):
        self.library = ctypes.CDLL(path)

    def call(self, name, inputs, *rooms, definitions=END):
        """The answer word, and the buffers that were lent for writing. All calls but one are made under definitions."""
        lent = [ctypes.create_string_buffer(room) for room in rooms]
        inputs = inputs if name == "validate" else [definitions, *inputs]
        function = getattr(self.library, "zuvaropy_" + name)
        function.restype = ctypes.c_uint64
        function.argtypes = [ctypes.c_char_p, ctypes.c_size_t] * (len(inputs) + len(lent))
        buffers = [(given, len(given)) for given in inputs + lent]
        return function(*[part for buffer in buffers for part in buffer]), *(buffer.raw for buffer in lent)


class Checks:
    def __init__(self):
        self.passed = self.failed = 0

    def same(self, what, got, wanted):
        if got == wanted:
            self.passed += 1
        else:
            self.failed += 1
            print(f"tests/shared.py: {what}: got {got!r}, not {wanted!r}")


def padded(content, room):
    return content.ljust(room, b"\0")


def check_validate(library, checks):
    for what, files, said, _ in printed("validate"):
        wanted = refusal(said)
        if wanted is None:
            wanted = answer(YES, int(re.search(r"of (\d+) row", said)[1]))
        checks.same(what, library.call("validate", files), (wanted,))


def folded(library, call, files, rooms):
    """The word and the last lent buffer; a third file and those after it are taken with the picture of those before."""
    word, *lent = library.call(call, files[:2], *rooms)
    for file in files[2:]:
        if word >> 56:
            word, *lent = library.call(call, [lent[-1][: word & 0xFFFFFFFF], file], *rooms)
    return word, lent[-1]


def check_table(library, checks, call, *rooms):
    """A call that writes a picture into the last of the lent buffers."""
    for what, files, said, rows in printed(call):
        word, written = folded(library, call, files, rooms)
        table = b"" if refusal(said) is not None else picture(rows)
        checks.same(what, word, refusal(said) if not table else answer(YES, len(table)))
        checks.same(what + ", table", written, padded(table, PICTURE_BYTES))


def check_subsumes(library, checks):
    for what, files, said, rows in printed("subsumes"):
        word, _, evidence = library.call("subsumes", files, WORK_BYTES, EVIDENCE_BYTES)
        if refusal(said) is not None:
            checks.same(what, word, refusal(said))
            continue
        individuals = re.search(r"of (\d+) individual", said)
        wanted = answer(NO, int(individuals[1]) * 14 + 3) if individuals else answer(YES, len(map_file(rows)))
        checks.same(what, word, wanted)
        if not individuals:
            checks.same(what + ", map", evidence, padded(map_file(rows), EVIDENCE_BYTES))
        taken, _ = library.call("verify", files + [evidence[: word & 0xFFFFFFFF]], WORK_BYTES)
        checks.same(what + ", checked", taken, answer(word >> 56))


def check_verify(library, checks):
    for what, files, said, _ in printed("verify"):
        wanted = {"map taken": answer(YES), "refutation taken": answer(NO)}.get(said, refusal(said))
        checks.same(what, library.call("verify", files, WORK_BYTES)[0], wanted)


def check_most_specific(library, checks):
    for what, files, said, _ in printed("most_specific"):
        wanted = refusal(said)
        if wanted is None:
            wanted = answer(YES, sum(1 << int(card) for card in re.findall(r"\d+", said)))
        checks.same(what, library.call("most_specific", files, WORK_BYTES), (wanted, bytes(WORK_BYTES)))


def check_definitions(library, checks):
    """The lookups in what the example with definitions prints."""
    lookup = re.compile(r"(\S+\.pic) (\S+\.book)(?: (\S+\.defs))?: (.+)")
    found = [lookup.fullmatch(line) for line in (SAMPLES / "definitions.stdout").read_text().splitlines()]
    for what, (*names, definitions, said) in [(line[0], line.groups()) for line in found if line]:
        files = [(SAMPLES / name).read_bytes() for name in names]
        under = (SAMPLES / definitions).read_bytes() if definitions else END
        wanted = refusal(said)
        if wanted is None:
            wanted = answer(YES, sum(1 << int(card) for card in re.findall(r"\d+", said)))
        word, _ = library.call("most_specific", files, WORK_BYTES, definitions=under)
        checks.same(what, word, wanted)
    checks.same("lookups under definitions", sum(bool(line) for line in found) > 7, True)


def main():
    library = Library(sys.argv[1])
    checks = Checks()
    check_validate(library, checks)
    check_table(library, checks, "normalize", PICTURE_BYTES)
    check_table(library, checks, "lcs", WORK_BYTES, PICTURE_BYTES)
    check_subsumes(library, checks)
    check_verify(library, checks)
    check_most_specific(library, checks)
    check_definitions(library, checks)
    print(f"shared library from Python: {checks.passed} passed, {checks.failed} failed")
    return checks.failed != 0


if __name__ == "__main__":
    sys.exit(main())
