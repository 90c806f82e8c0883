#!/usr/bin/env python3
"""Writes the `use` lines of a crate's definition and law files (specs/*.antt, proofs/*.antt) from the names in them.

    tools/uses.py CRATE [FILE ..]

The lines stand after the opening comment. A name is taken from the crate's own files, else from what the repository's files
import from the libraries, else from the crates below (crates.txt has to list each that is named then). A local variable that
has the name of a public definition is taken for it, unless a `let`, a `λ` or a signature in the file binds it. Files that use
a module under another name are left alone.
"""
import glob
import os
import re
import subprocess
import sys

ROOT = subprocess.run(['git', 'rev-parse', '--show-toplevel'], capture_output=True, text=True, check=True).stdout.strip()
WORD = re.compile(r'[^\s(){},;."]+')
PUBLIC = re.compile(r'^\s*(?:(?:abbrev|unfoldable)\s+)*pub\s+(?!mod\b)(?:(record|data)\s+)?([^\s(){}:]+)')
DECLARED = re.compile(r'^\s*(?:(?:abbrev|unfoldable)\s+)*(?:pub\s+)?(?:(?:record|data)\s+)?([^\s(){}:]+)(?:\s+\{[^}]*\})?\s*(?:\([^)]*\)\s*)*:')
LIBRARY = re.compile(r'use ((?:mathlib|Prim|native|lib|borrow)\.[\w.·]+)\.\{(.*)\}')
OPERATORS = '≡ ⊎ ↔ && || + * - / % ^ < ≤ ++ ∷ ∙'.split()


def read(path):
    with open(path, encoding='utf8') as f:
        return f.read()


def parts(path):
    """The opening comment and the declarations, both as lines."""
    lines = read(path).split('\n')
    start = next((i for i, l in enumerate(lines) if not l.startswith('--')), len(lines))
    body = [l for l in lines[start:] if not l.startswith('use ')]
    while body and not body[0].strip():
        body.pop(0)
    return lines[:start], body


def public(body):
    """The public names of a file: declarations, and constructors of `data`; not fields of records."""
    names, inside = [], None
    for line in body:
        if not line.strip() or line.strip().startswith('--'):
            continue
        indent = len(line) - len(line.lstrip())
        if inside and indent > inside[1]:
            if inside[0] == 'data' and ':' in line:
                names += line.split(':')[0].split()
            continue
        inside = None
        found = PUBLIC.match(line)
        if found:
            names.append(found.group(2))
            if found.group(1):
                inside = (found.group(1), indent)
    return names


def words(body):
    """Every name that stands in the declarations, fields of records apart."""
    seen = set()
    for line in body:
        if line.strip().startswith('--'):
            continue
        line = re.sub(r'(?<!\w)\.[^\W\d][\w-]*', ' ', line)   # a field is read
        line = re.sub(r'(?<=[{;])\s*[\w-]+ = ', ' ', line)    # a field is given
        line = re.sub(r'^\s+[\w-]+ = (?=.*[;{]$)', ' ', line)
        seen.update(WORD.findall(line))
    return seen | {f'_{o}_' for o in OPERATORS if o in seen}


def bound(name, text):
    n = re.escape(name)
    return re.match('[a-z]', name) and re.search(
        rf'let {n}(?![\w-])|let \([^)]*(?<![\w-]){n}(?![\w-])[^)]*\) =|λ [^.]*(?<![\w-]){n}(?![\w-])[^.]*\.'
        rf'|\((?:[\w′ ]* )?{n}(?: [\w′ ]*)? : ', text)


def files(crate):
    """Each file of a crate with the part (specs or proofs) and the module it is."""
    for part in ('specs', 'proofs'):
        for path in sorted(glob.glob(f'{ROOT}/crates/{crate}/{part}/*.antt')):
            module = os.path.basename(path)[:-5]
            if module != 'Lib':
                yield path, part, module


def crates_below(crate):
    """Every crate that a crate stands on, and those that they stand on, the highest first."""
    lines = [line.split('#')[0].partition(':') for line in read(f'{ROOT}/crates.txt').split('\n')]
    listed = {name: below.split() for name, colon, below in lines if colon}
    below, left = set(), [crate]
    while left:
        more = set(listed.get(left.pop(), [])) - below
        below |= more
        left += more
    return [name for name in reversed(listed) if name in below]


def library_names():
    names = {}
    for path in glob.glob(f'{ROOT}/crates/*/*/*.antt'):
        for line in read(path).split('\n'):
            found = LIBRARY.match(line)
            for name in found.group(2).split(',') if found else []:
                names.setdefault(name.strip(), found.group(1))
    return names


def main():
    crate, only = sys.argv[1], {os.path.abspath(f) for f in sys.argv[2:]}
    own, below = {}, {}
    for path, part, module in files(crate):
        for name in public(parts(path)[1]):
            own.setdefault(name, []).append(f'Rattle·{crate}·{part}.{part}.{module}')
    for lower in crates_below(crate):
        for path, part, module in files(lower):
            for name in public(parts(path)[1]):
                below.setdefault(name, f'Rattle·{lower}.{part}.{module}')
    library = library_names()

    def rank(module):
        # libraries, crates below, definitions, laws
        return (module.startswith('Rattle'), f'Rattle·{crate}·' in module, '·proofs.' in module, module)

    for path, part, _ in files(crate):
        if only and path not in only or re.search(r'^use \S+ as ', read(path), re.M):
            continue
        head, body = parts(path)
        text = '\n'.join(body)
        here = set(public(body)) | {m.group(1) for m in map(DECLARED.match, body) if m}
        before = dict((n.strip(), m) for m, ns in re.findall(r'^use (\S+)\.\{(.*)\}', read(path), re.M) for n in ns.split(','))
        imports = {}
        for name in sorted(words(body)):
            if name in here or name not in before and bound(name, text):
                continue
            choices = [m for m in own.get(name, []) if part == 'proofs' or '·specs.' in m]
            module = before.get(name) if before.get(name) in choices else choices[0] if choices else library.get(name) or below.get(name)
            if module:
                imports.setdefault(module, []).append(name)
        uses = [f"use {m}.{{{', '.join(imports[m])}}}" for m in sorted(imports, key=rank)]
        with open(path, 'w', encoding='utf8') as f:
            f.write('\n'.join(head + uses + [''] + body).rstrip('\n') + '\n')


main()
