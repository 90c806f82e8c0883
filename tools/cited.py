#!/usr/bin/env python3
"""Checks that what README.md and docs/*.md cite is there: paths, and names between backticks. docs/PORT.md and
docs/DESIGN-PASS.md say what was there before, and are left out.

    tools/cited.py [DOCUMENT ..]

A name is there if it stands in a file of the folders below that git tracks, or is part of such a file's name. A path
may leave out crates/ and the ending of a module; a part in capitals stands for any. Names that are listed after a path
and a colon, or before a path in brackets, are declared in that file. In docs/CLAIMS.md names after a crate and a colon
are its must-fail edits, and every edit has a row. Prints a line for each that is not there, with the number of its
paragraph's first line, and last the counts; exits 1 if one is missing.
"""
import functools
import glob
import os
import re
import subprocess
import sys

ROOT = os.path.dirname(os.path.dirname(os.path.abspath(__file__)))
FOLDERS = ['crates', 'include', 'tests', 'tools', 'examples', 'bench', 'samples', 'package']
CLAIMS = 'docs/CLAIMS.md'
FORMER = {'docs/PORT.md', 'docs/DESIGN-PASS.md'}   # say what was there before
MADE = {'build', 'target'}                 # folders that make writes
KIT = {'cond', 'packet'}                   # the toolchain's, and not used here
LAW = re.compile(r"[^\W\d](?:[\w'′]|-(?=\w))*")
WORD = re.compile(r'[^\W\d]\w*')
SPAN = re.compile(r'`([^`]+)`')
PATH = re.compile(r'(?<![\w/.$~=-])[\w.-]+/(?:[\w.*/-]|\{[\w,]+\})*')
MODULE = r'((?:\w+/)+(?:specs|proofs|src)/[\w+/]+(?:\.rt)?)'
AFTER = re.compile(MODULE + r': ((?:`[^`]+`(?: \([^()]*\))?(?:, | and | \.\. |: )?)+)')
BEFORE = re.compile(r'((?:`[^`]+`(?:, | and )?)+) \(' + MODULE)
EDITS = re.compile(r'(?<![\w/])(\w+): ((?:`\w+`(?:, )?)+)')
DECLARED = re.compile(r'(?m)^ *(?!--)((?:[^\s:=({]+ )+)(?:[({].*[)}] )?:|\b(?:data|record|fn|struct|enum) ([\w-]+)')


def files():
    """The files of the folders that git tracks; where it cannot say, all but what Python keeps."""
    asked = subprocess.run(f"git ls-files -z {' '.join(FOLDERS)}", shell=True, capture_output=True, text=True)
    walks = [] if asked.stdout else [walk for folder in FOLDERS for walk in os.walk(folder)]
    walked = ['Makefile'] + [f'{where}/{name}' for where, _, of in walks if '__pycache__' not in where for name in of]
    return [path for path in asked.stdout.split('\0') + walked if os.path.isfile(path)]


def read(path):
    with open(path, encoding='utf8', errors='ignore') as f:
        return f.read()


def names():
    """Every name that stands in the folders; in definitions and laws a hyphen is part of it."""
    found = set(KIT)
    for path in files():
        text = path + '\n' + read(path)
        found.update(LAW.findall(text))
        if not path.endswith('.antt'):
            found.update(WORD.findall(text))
    return found


def matches(path):
    """The files and folders that a path may stand for."""
    tops, endings = ('', 'crates/', 'crates/*/'), ('', '.antt', '.rt')
    return [file for top in tops for ending in endings for file in glob.glob(f'{top}{path}{ending}')]


@functools.cache
def declared(path):
    """Definitions, laws, types, fields and cases of a module; functions and types of a source file."""
    lines = [' '.join(of) for file in matches(path) if os.path.isfile(file) for of in DECLARED.findall(read(file))]
    return set(' '.join(lines).split())


def paths_in(text):
    for path in PATH.findall(text):
        before, brace, rest = path.rstrip('.,').partition('{')
        inside, _, after = rest.partition('}')
        yield from [before + part + after for part in inside.split(',')] if brace else [before]


def missing_path(path, tops):
    """Whether this is a path of the repository, and there is no such file or folder."""
    parts = [part for part in path.split('/') if part]
    known = parts[0] in tops or len(parts) > 1 and parts[1] in ('src', 'specs', 'proofs', 'must-fail')
    if not known or parts[0] in MADE or any(re.fullmatch('[A-Z]+', part) for part in parts):
        return False
    return not matches(path)


def paragraphs(text):
    """Paragraphs, list items and rows, each in one line and with the number of its first line; no code."""
    text, number = re.sub(r'(?ms)^```.*?^```', lambda m: '\n' * m[0].count('\n'), text), 1
    for part in re.split(r'\n(?=\n|\||\s*- |\s*\d+\. )', text):
        yield number + len(part) - len(part.lstrip('\n')), ' '.join(part.split())
        number += part.count('\n') + 1


def listed(text):
    """The names that a paragraph says are of a file, with the file."""
    lists = AFTER.findall(text) + [(path, words) for words, path in BEFORE.findall(text)]
    for path, words in lists:
        for span in SPAN.findall(re.sub(r'\([^()]*\)', '', words)):
            yield span.rpartition('::')[2], path


def cited(text, there, tops):
    """What a paragraph cites, each with whether it is there."""
    for path in paths_in(text):
        yield path, not missing_path(path, tops)
    for word in [word for span in SPAN.findall(text) if not PATH.search(span) for word in LAW.findall(span)]:
        yield word, word in there or re.fullmatch('[A-Z]+', word)
    for name, path in listed(text):
        yield f'{name} of {path}', name in declared(path)


def edits():
    """The must-fail edits that the claims name, each with whether it is there, and the other way round."""
    rows = [(f'crates/{crate}', SPAN.findall(words)) for crate, words in EDITS.findall(read(CLAIMS))]
    named = [f'{crate}/must-fail/{edit}.edit' for crate, of in rows if os.path.isdir(crate) for edit in of]
    there = glob.glob('crates/*/must-fail/*.edit')
    return [(f'{edit} is not there', edit in there) for edit in named] + \
           [(f'{edit} has no row', edit in named) for edit in there]


def main():
    documents = [os.path.relpath(d, ROOT) for d in sys.argv[1:]]
    os.chdir(ROOT)
    tops = set(os.listdir('.')) | set(os.listdir('crates')) | {'specs', 'proofs', 'src', 'must-fail'}
    documents, there, told = documents or ['README.md', *sorted(set(glob.glob('docs/*.md')) - FORMER)], names(), []
    for document in documents:
        for number, text in paragraphs(read(document)):
            told += [(f'{document}:{number}: {what} is not there', good) for what, good in cited(text, there, tops)]
    if CLAIMS in documents:
        told += [(f'{CLAIMS}: {what}', good) for what, good in edits()]
    missing = [line for line, good in told if not good]
    print(*missing, f'cited: {len(told) - len(missing)} passed, {len(missing)} failed', sep='\n')
    sys.exit(bool(missing))


main()
