#!/usr/bin/env python3
"""Binds what an answer of a proof file reads more than once, two or more places back, by a `let` of the thing's name.

    tools/shorten.py FILE ..        as: tools/shorten.py crates/book_tables/proofs/subsumers/test_cards/Proof.antt

`c .before .before .kind .result` used twice becomes `let kind = c .before .before .kind in` and `kind .result`. A thing
whose name the answer uses for something else is left. tools/renumber.py moves such a `let` with the code.
"""
import collections
import re
import sys

PATH = re.compile(r'(?<![\w·.-])c((?: \.before){2,}) \.([\w·-]+)(?![\w·-])')


def named(thing, body):
    """Whether the name stands in an answer by itself, not as a field that is read."""
    return re.search(rf'(?<![\w·.-]){re.escape(thing)}(?![\w·-])', body)


def shortened(part):
    """A clause of an answer with its `let`s; any other part as it is."""
    head = re.match(r'\S+ (?:t )?c(?: κs)? =\s*', part)
    if not head:
        return part
    body, lets = part[head.end():].rstrip('\n'), []
    uses = collections.Counter(PATH.findall(body))
    for (way, thing), count in sorted(uses.items(), key=lambda use: -len(use[0][0])):
        if count < 2 or named(thing, body):
            continue
        body = re.sub(rf'(?<![\w·.-])c{re.escape(way)} \.{re.escape(thing)}(?![\w·-])', thing, body)
        lets.append(f'    let {thing} = c{way} .{thing} in\n')
    return head[0].rstrip() + '\n' + ''.join(lets) + '    ' + body + '\n\n' if lets else part


def main():
    for path in sys.argv[1:]:
        with open(path, encoding='utf8') as f:
            parts = re.split(r'(?m)^(?=\S)', f.read())
        with open(path, 'w', encoding='utf8') as f:
            f.write(''.join(map(shortened, parts)))


if __name__ == '__main__':
    main()
