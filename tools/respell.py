#!/usr/bin/env python3
"""Spells the repository's own definitions, fields and lemmas in snake case, after /opt/rattle/port/port.py ran.

usage: python3 tools/respell.py [--list]    at the top of the repository, once

A name is turned if a file of specs/, or a lemma file of proofs/ (not one of a function's own proof), declares it, begins
with a small letter and has a dash or a capital. It is turned in .antt files, in the clauses and ghost lines of .rt files,
in must-fail edits of those, and in comments where the file's code has it. --list writes nothing and prints the names.
"""

import os
import re
import sys

NAME = r"[^\s(){}.;,@\"«»]+"
WORD = re.compile(NAME)
OWN_PROOF = {"Proof.antt", "Invariants.antt", "Answers.antt"}
DECLARED = re.compile(rf"(?m)^(?:abbrev |unfoldable |opaque |inline )*(?:pub )?(?:abbrev |unfoldable )?«?({NAME})»?(?: \{{[^{{}}\n]*\}})* :(?!:)")
FIELD = re.compile(rf"(?m)^ +(?:abbrev |unfoldable )*(?:pub )?({NAME})(?: \([^\n]*?\)| \{{[^\n]*?\}})* :(?!:)")
RUST = re.compile(r"\b(?:fn|const|static|struct|enum|mod|type|trait) (\w+)")
# Names that would fall together with another, and what they are called instead.
OTHER = {
    "bit-and": "bit_of_and",
    "bit-or": "bit_of_or",
    "fitsIn": "fits_into",
    "keyBelow": "below_key",
    "kind-of": "kind_of_it",
    "nextPlace": "place_after",
    "partLength": "part_length_of",
    "passedOver": "is_passed_over",
    "result-size": "size_of_result",
    "topBelow": "below_top",
    "validate-word": "validate_word_is",
    "work-size": "size_of_work",
}
# Spellings that stay: a word that a file of code has for itself.
STAY = set()


def snake(name):
    name = re.sub(r"(?<=[a-z0-9])(?=[A-Z])", "_", name)
    return name.replace("-", "_").lower()


def files(top, *ends):
    for folder, dirs, names in os.walk(top):
        dirs[:] = sorted(d for d in dirs if d not in ("out", ".git"))
        for it in sorted(names):
            if it.endswith(ends):
                yield os.path.join(folder, it)


def code(text):
    return re.sub(r'"(?:[^"\\\n]|\\.)*"|(?<![^\s(){}.;,@"«»])--[^\n]*', " ", text)


def is_lemma_file(path):
    parts = path.split(os.sep)
    # a lemma file may be called as a function's own proof is, but stands right in proofs/
    return (parts[-1] not in OWN_PROOF or parts[-2] in ("specs", "proofs")) and ("specs" in parts or "proofs" in parts)


def names():
    top, fields = {}, {}
    for path in files("crates", ".antt"):
        if not is_lemma_file(path):
            continue
        with open(path, encoding="utf-8") as f:
            text = code(f.read())
        for it in DECLARED.findall(text):
            top.setdefault(it, set()).add(path)
        for it in FIELD.findall(text):
            fields.setdefault(it, set()).add(path)
    turned = lambda it: it[0].islower() and snake(it) != it and it not in STAY
    return {it for it in top if turned(it)}, {it for it in fields if turned(it)}, top, fields


def turning(olds, declared):
    """The new spellings. Where one with a dash and one with a capital would fall together, the first ends in _is."""
    capital = {snake(it) for it in olds if "-" not in it}
    table = {}
    for old in sorted(olds):
        new = OTHER.get(old, snake(old))
        if old not in OTHER and "-" in old and new in capital:
            new += "_is"
        table[old] = new
    return table


def antt(text, table):
    """Turns each word of the code, and each word of a comment that the code has."""
    has = set(WORD.findall(code(text))) & set(table)
    turn = lambda it: table[it[0]] if it[0] in has else it[0]
    kept = re.compile(rf'"(?:[^"\\\n]|\\.)*"|{NAME}')
    return kept.sub(turn, text)


CLAUSE = re.compile(r"(?:requires|ensures)\s*\*?\s*(?:\w+\s*)?\{|ghost\b[^;{]*\{|ghost use\b")


def end_of(text, at):
    """Where the braces that open before `at` close."""
    depth = 1
    while depth:
        depth += {"{": 1, "}": -1}.get(text[at], 0)
        at += 1
    return at


def rt(text, table):
    out, at = [], 0
    while it := CLAUSE.search(text, at):
        stop = text.index(";", it.end()) if it[0] == "ghost use" else end_of(text, it.end())
        out += [text[at : it.end()], antt(text[it.end() : stop], table)]
        at = stop
    return "".join(out) + text[at:]


def edit(text, table):
    """An edit of a clause, a definition or a proof; one of code has none of these words."""
    lines = text.split("\n")
    antt_file = False
    for i, line in enumerate(lines):
        if line.startswith("file: "):
            antt_file = line.endswith(".antt")
        elif antt_file and line.startswith(("old: ", "new: ")):
            lines[i] = line[:5] + antt(line[5:], table)
    return "\n".join(lines)


def main(argv):
    top, fields, all_top, all_fields = names()
    table = turning(top | fields, set(all_top) | set(all_fields))
    back = {}
    for old, new in table.items():
        back.setdefault(new, set()).add(old)
    rust = set()
    for path in files("crates", ".rt"):
        with open(path, encoding="utf-8") as f:
            rust.update(RUST.findall(f.read()))
    if argv == ["--list"]:
        print(len(top), "definitions and lemmas,", len(fields), "fields")
        for new, olds in sorted(back.items()):
            if len(olds) > 1 or new in all_top or new in all_fields:
                print("together:", new, sorted(olds), "declared" if new in all_top or new in all_fields else "")
        for path in files("crates", ".antt", ".rt"):
            with open(path, encoding="utf-8") as f:
                text = code(f.read())
                text = re.sub(r"(?m)^(pub )?use [\w.]+", "use", text)
                words = set(re.findall(rf"(?<![^\s(){{}};,@\"«»]){NAME}", text))
            for old in sorted(words & set(table)):
                if table[old] in words:
                    print("meets:", path, old, table[old])
        for old in sorted(table):
            if table[old] in rust:
                print("rust:", old, table[old])
        for path in files("crates", *OWN_PROOF):
            with open(path, encoding="utf-8") as f:
                for it in sorted(set(re.findall(rf"\.({NAME})", code(f.read()))) & set(table)):
                    print("dotted:", path, it)
        return 0
    for path in files("crates", ".antt", ".rt", ".edit"):
        with open(path, encoding="utf-8") as f:
            text = f.read()
        turned = {"antt": antt, "rt": rt, "edit": edit}[path.rsplit(".", 1)[1]](text, table)
        if turned != text:
            with open(path, "w", encoding="utf-8") as f:
                f.write(turned)
    return 0


if __name__ == "__main__":
    raise SystemExit(main(sys.argv[1:]))
