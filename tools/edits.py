#!/usr/bin/env python3
"""Tries must-fail edits of the crates that are named, and of no crate below them.

    tools/edits.py CRATE[/EDIT] ..

The crates have to be proved (`rt check`). Prints a line for each edit: whether it was refused, how long that took, and
by which statement first, as tools/refusals.py does (! if it is not the one that the edit names). Exits 1 if one is not
refused, or marked.
"""
import concurrent.futures
import os
import shutil
import subprocess
import sys
import tempfile
import time

from check_times import OWN, ROOT, check_words
from refusals import refusal


def edited(crate, edit, folder):
    """Copies the crate with the edit made; false if a text to be replaced does not stand there once."""
    for part in ('src', 'specs', 'proofs'):
        if os.path.isdir(f'{ROOT}/crates/{crate}/{part}'):
            shutil.copytree(f'{ROOT}/crates/{crate}/{part}', f'{folder}/{part}')
    with open(f'{ROOT}/crates/{crate}/must-fail/{edit}.edit', encoding='utf8') as f:
        lines = f.read().split('\n')
    name = old = None
    for line in lines:
        if line.startswith('file: '):
            name = line[len('file: '):]
        elif line.startswith('old: '):
            old = line[len('old: '):]
        elif line.startswith('new:'):
            with open(f'{folder}/{name}', encoding='utf8') as f:
                text = f.read()
            if text.count(old) != 1:
                return False
            with open(f'{folder}/{name}', 'w', encoding='utf8') as f:
                f.write(text.replace(old, line[len('new:'):].removeprefix(' ')))
    return True


def tried(item):
    crate, edit = item
    with tempfile.TemporaryDirectory() as folder:
        if not edited(crate, edit, folder):
            return False, f'! {crate}/{edit}: a text to be replaced does not stand there once'
        began = time.time()
        run = subprocess.run([f'{OWN}/bin/rattle', 'check', *check_words(crate, f'{folder}/src')], stdout=subprocess.PIPE,
                             stderr=subprocess.STDOUT, text=True)
        fits, line = refusal(crate, edit, run.stdout)
    refused = run.returncode == 1 and 'logic=not-proved' in run.stdout
    told = f'{" " if fits else "!"} {"refused" if refused else "NOT REFUSED"}, {time.time() - began:.0f} s: {line}'
    return refused and fits, told


def items(words):
    for word in words:
        crate, _, edit = word.partition('/')
        for file in [f'{edit}.edit'] if edit else sorted(os.listdir(f'{ROOT}/crates/{crate}/must-fail')):
            yield crate, file.removesuffix('.edit')


with concurrent.futures.ThreadPoolExecutor(2) as pool:
    good = True
    for fits, line in pool.map(tried, items(sys.argv[1:])):
        good = good and fits
        print(line, flush=True)
sys.exit(0 if good else 1)
