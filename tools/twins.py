#!/usr/bin/env python3
"""Lists pairs of functions whose bodies read alike, for whoever looks for one function in two places.

    tools/twins.py [LEAST]

Each line: how alike (1 is token for token), the two functions, and how many tokens the first has. LEAST is 0.78 if it
is not given. Comments do not count, nor do functions of fewer than 14 tokens.
"""
import difflib
import glob
import itertools
import os
import re
import sys

ROOT = os.path.dirname(os.path.dirname(os.path.abspath(__file__)))
FEWEST = 14


def body(text, start):
    """The block of a function, by braces; clauses end in a line of their own."""
    at = re.compile(r'^\s*\{$|\) \{$|> \{$|\w \{$', re.M).search(text, start)
    if not at:
        return ''
    begin = text.index('{', at.end() - 1)
    depth = 0
    for end in range(begin, len(text)):
        depth += {'{': 1, '}': -1}.get(text[end], 0)
        if depth == 0:
            return text[begin:end + 1]
    return ''


def functions():
    for path in sorted(glob.glob(f'{ROOT}/crates/*/src/**/*.rt', recursive=True)):
        with open(path, encoding='utf8') as f:
            text = re.sub(r'//[^\n]*', '', f.read())
        for name in re.finditer(r'\bfn (\w+)', text):
            tokens = re.findall(r'\w+|[^\s\w]', body(text, name.start()))
            if len(tokens) >= FEWEST:
                yield f"{os.path.relpath(path, ROOT).split('/')[1]}::{name[1]}", tokens


def main():
    least = float(sys.argv[1]) if len(sys.argv) > 1 else 0.78
    pairs = []
    for (one, a), (other, b) in itertools.combinations(functions(), 2):
        if min(len(a), len(b)) * 5 < max(len(a), len(b)) * 4:
            continue
        like = difflib.SequenceMatcher(None, a, b, autojunk=False).ratio()
        if like >= least:
            pairs.append((like, one, other, len(a)))
    for like, one, other, size in sorted(pairs, reverse=True):
        print(f'{like:.2f} {one} {other} {size}')


if __name__ == '__main__':
    main()
