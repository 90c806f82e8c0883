#!/usr/bin/env python3
"""Counts the lines of definitions in the files of docs/ARCHITECTURE.md's reading order, and writes the numbers there;
and copies the definitions of its section on the order of the questions from the files named there.

    tools/reading.py [--check]

Comments, imports and blank lines do not count. With --check nothing is written: the lines that would change are
printed, and the exit status is 1 if there is one.
"""
import difflib
import os
import re
import sys

ROOT = os.path.dirname(os.path.dirname(os.path.abspath(__file__)))
PAGE = f'{ROOT}/docs/ARCHITECTURE.md'
counts = []


def lines(crate, name):
    with open(f'{ROOT}/crates/{crate}/specs/{name}.antt', encoding='utf8') as f:
        counts.append(sum(1 for line in f if line.strip() and not line.strip().startswith(('--', 'use '))))
    return counts[-1]


def part(crate, names):
    return f'{crate}: ' + ', '.join(f'{name} {lines(crate, name)}' for name in re.findall(r'([A-Z]\w*) \d+', names))


def row(line):
    """A row of the table: its number, files with their lines, and what they say."""
    return line.group(1) + '; '.join(part(*of.split(': ')) for of in line.group(2).split('; ')) + line.group(3)


def copied(group):
    """A file's name and its definitions, each as it stands in the file, to the next blank line."""
    place, names = group.group(1), re.findall(r'(?m)^[a-z ]* (\w+) :', group.group(2))
    with open(f'{ROOT}/crates/{place}.antt', encoding='utf8') as f:
        text = f.read()
    found = [re.search(rf'(?m)^[a-z ]* {name} :(?:.+\n)+', text).group() for name in names]
    return f'-- {place}\n' + '\n'.join(found) + group.group(3)


with open(PAGE, encoding='utf8') as f:
    page = f.read()
before, title, rest = page.partition('## Reading order')
order, rule, after = rest.partition('\n## ')
order = re.sub(r'(?m)^(\| \d+ \| )([^|]*)( \| .*)$', row, order)
order = re.sub(r'[\d,]+ files, [\d,]+ lines', f'{len(counts)} files, {sum(counts):,} lines', order)
screen, fence, after = after.partition('\n```\n\n')
screen = re.sub(r'(?ms)^-- (\w+/specs/\w+)\n(.*?)(\n(?=-- )|\Z)', copied, screen + '\n')
counted = before + title + order + rule + screen.rstrip('\n') + fence + after
if '--check' in sys.argv:
    for line in difflib.unified_diff(page.split('\n'), counted.split('\n'), PAGE, 'as it is', n=0, lineterm=''):
        print(line)
    sys.exit(page != counted or not counts)
with open(PAGE, 'w', encoding='utf8') as f:
    f.write(counted)
print(f'{len(counts)} files, {sum(counts)} lines')
