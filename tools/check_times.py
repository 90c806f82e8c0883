#!/usr/bin/env python3
"""Says how many seconds each law file and each function of a crate takes to check.

    tools/check_times.py CRATE [MOST]

A check with a fresh incremental folder writes each module as it is done; the times of these files are what is printed, the
MOST largest of them (30). The crates below have to be proved (`rt check`). Run it while nothing else runs.
"""
import collections
import os
import re
import subprocess
import sys
import tempfile
import time

ROOT = subprocess.run(['git', 'rev-parse', '--show-toplevel'], capture_output=True, text=True, check=True).stdout.strip()
KIT = os.path.dirname(os.path.dirname(os.path.realpath(subprocess.run(
    ['sh', '-c', 'command -v rt'], capture_output=True, text=True, check=True).stdout.strip())))
OWN = f'{KIT}/on/{os.uname().machine}'


def crates_below(crate):
    with open(f'{ROOT}/crates.txt', encoding='utf8') as f:
        lines = [line.split('#')[0] for line in f]
    return next(line.partition(':')[2].split() for line in lines if line.partition(':')[0].strip() == crate)


def library(name):
    own = f'{ROOT}/target/rlib/{name}.rlib'
    return own if os.path.isdir(own) else f'{OWN}/rlib/{name}.rlib'


def check_words(crate, source):
    """What `rattle check` is called with, for a crate whose source folder is given."""
    main = next(f for f in (f'{source}/lib.rt', f'{source}/main.rt') if os.path.exists(f))
    words = ['--crate-name', crate, main]
    for name in ['std'] + crates_below(crate):
        words += ['--extern', f'{name}={library(name)}']
    return words + ['-L', f'dependency={ROOT}/target/rlib', '-L', f'dependency={OWN}/rlib', '--antt-project',
                    f'{KIT}/logic/antt-project.json', '--logic-built', f'{OWN}/logic-built']


def check(crate, folder):
    """The time at which the check began, and when it wrote each module."""
    began = time.time()
    words = check_words(crate, f'{ROOT}/crates/{crate}/src')
    subprocess.run([f'{OWN}/bin/rattle', 'check', *words, '--incremental', folder], capture_output=True, check=True)
    written = []
    for where, _, names in os.walk(folder):
        written += [(os.stat(f'{where}/{n}').st_mtime, n) for n in names if n.endswith('.oantt') and n.startswith('Rattle·')]
    return began, sorted(written)


def subject(module):
    """The law file or the function that a module belongs to."""
    parts = re.sub(r'^Rattle·[^.]*\.?(specs|proofs)?\.?', '', re.sub(r'(\.decls)?\.oantt$', '', module)).split('.')
    while len(parts) > 1 and parts[-1][:1].isupper() and not parts[-2][:1].isupper():
        parts.pop()
    return '.'.join(parts)


def main():
    crate, most = sys.argv[1], int(sys.argv[2]) if len(sys.argv) > 2 else 30
    with tempfile.TemporaryDirectory() as folder:
        began, written = check(crate, folder)
    spent, last = collections.Counter(), written[0][0]
    for at, module in written[1:]:
        spent[subject(module)] += at - last
        last = at
    print(f'{crate}: {last - began:.1f} s, of them {written[0][0] - began:.1f} s before the first module')
    for name, seconds in spent.most_common(most):
        print(f'  {seconds:6.2f}  {name}')


if __name__ == '__main__':
    main()
