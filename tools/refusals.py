#!/usr/bin/env python3
"""Says by which statement each must-fail edit is refused first, from what `rt ci` or `rt must-fail` printed.

    tools/refusals.py LOG [CRATE[/EDIT] ..]

An edit names the fact that it makes false in a line of its own, `false: MODULE: STATEMENT`. What stands there is

    case       an equation without variables: both sides compute, so it is true or false
    contract   `returns`, what a function promises of its answer
    law, need  any other. A proof of it can fail for its text's sake while it holds, so the line says when it is false:
               `false: MODULE: STATEMENT: WHEN`

That a contract is false, or when a law is, no script can tell: the line is there to be read beside the edit. Where the
proof of a statement that still holds no longer fits, and rt meets it before the false one, a line `first: MODULE:
STATEMENT` names it; the crate is then checked here with the edit made, and the false one has to fail too.

Marked with ! are edits whose first error is in another statement than the one named, in a law or need with no `WHEN`,
or about a proof file that does not fit any more, and edits that were not tried. The exit status is 1 if there is one.
"""
import os
import re
import shutil
import subprocess
import sys
import tempfile

ROOT = os.path.dirname(os.path.dirname(os.path.abspath(__file__)))
TRIED = re.compile(r'^rt: must-fail (\w+)/(\w+)[.]edit: refused, as it must be: (.*)', re.M)
FIRST = re.compile(r'(?:\S*/)?((?:proofs|specs)/\S+?):\d+:\d+: error: (?:`([^`]+)(?:`: |`?$))?(.*)')
# of a goal that has no answer of its own
UNANSWERED = re.compile(r'note: (?:\S*/)?(src/\S+?):(\d+):\d+: (.*?) \(`([^`]+)`\)')
# what is said where an edit changes the code's shape and the proof's text no longer fits it
UNFIT = re.compile('that can be named from here|not in scope|was not admitted|has no field|expected type `goal[.]')
# rt cuts what it prints of a refusal
CUT = 155
# a function's own proof; a lemma file may be called so too, but stands right in proofs/
OWN_PROOF = re.compile(r'proofs/.+/(Answers|Invariants)[.]antt$')


def claim(crate, edit):
    """The fact that an edit names, and when it is false."""
    with open(f'{ROOT}/crates/{crate}/must-fail/{edit}.edit', encoding='utf8') as f:
        named = next((line[len('false: '):].strip() for line in f if line.startswith('false: ')), '')
    module, statement, when = (named.split(': ', 2) + ['', ''])[:3]
    return f'{module}: {statement}', when


def met_before(crate, edit):
    """The statement that rt meets before the false one, if the edit names one."""
    with open(f'{ROOT}/crates/{crate}/must-fail/{edit}.edit', encoding='utf8') as f:
        return next((line[len('first: '):].strip() for line in f if line.startswith('first: ')), '')


def function(crate, path, line):
    """The function whose code stands at a line of the source."""
    with open(f'{ROOT}/crates/{crate}/{path}', encoding='utf8') as f:
        lines = f.read().split('\n')
    # rt names the line where a function's attributes begin
    while lines[line - 1].lstrip().startswith('#['):
        line += 1
    before = lines[:line + 12]
    names = [(n, it[1]) for n, text in enumerate(before, 1) if (it := re.match(r'\s*(?:pub )?(?:extern "C" )?fn (\w+)', text))]
    return next((name for n, name in reversed(names) if n <= line), names[0][1] if names else '')


def kind(crate, path, statement):
    """What kind of statement that is: case, contract, law or need."""
    if path.startswith('src/') or OWN_PROOF.match(path):
        return 'contract' if re.search(r'(^|-)returns(-|$)', statement) else 'need'
    with open(f'{ROOT}/crates/{crate}/{path}', encoding='utf8') as f:
        name = re.escape(statement)
        said = re.search(rf'^ *(?:pub )?{name} : (.*?)^ *(?:unfolding|{name}) ', f.read(), re.M | re.S)
    return 'law' if not said or re.search(r'[({][^(){}]* : |→ ⊥', said[1]) else 'case'


def edited(crate, edit, folder):
    """Copies the crates with the edit made."""
    shutil.copy(f'{ROOT}/crates.txt', folder)
    shutil.copytree(f'{ROOT}/crates', f'{folder}/crates', ignore=shutil.ignore_patterns('out'))
    with open(f'{ROOT}/crates/{crate}/must-fail/{edit}.edit', encoding='utf8') as f:
        lines = [line.partition(': ') for line in f.read().split('\n')]
    path = old = None
    for word, _, text in lines:
        if word == 'file':
            path = f'{folder}/crates/{crate}/{text}'
        elif word == 'old':
            old = text
        elif word == 'new':
            with open(path, encoding='utf8') as f:
                now = f.read().replace(old, text)
            with open(path, 'w', encoding='utf8') as f:
                f.write(now)


def fails_too(crate, edit, named):
    """Whether the named fact is among all that a check of the edited crate refuses."""
    with tempfile.TemporaryDirectory() as folder:
        edited(crate, edit, folder)
        run = subprocess.run(['rt', 'check'], cwd=f'{folder}/crates/{crate}', stdout=subprocess.PIPE,
                             stderr=subprocess.STDOUT, text=True)
    met = [met for line in run.stdout.split('\n') if (met := refused(crate, line.strip()))]
    return any(f'{place}: {statement}' == named and not UNFIT.search(message) for place, statement, _, message in met)


def refused(crate, said):
    """Where a refusal is, of what statement, of what kind that is, and the message."""
    if first := FIRST.match(said):
        path, statement, message = first[1], first[2] or 'text', first[3]
        place = path.split('/')[-2 if OWN_PROOF.match(path) else -1].removesuffix('.antt')
    elif first := UNANSWERED.match(said):
        path, statement, message = first[1], first[4], first[3]
        place = function(crate, path, int(first[2]))
    else:
        return None
    return place, statement, kind(crate, path, statement), message


def refusal(crate, edit, said):
    """Whether an edit is refused by the fact that it names, and a line about it."""
    met = refused(crate, said)
    if not met:
        return False, f'{crate}/{edit}: no error that names a fact: {said[:160]}'
    place, statement, what, message = met
    named, when = claim(crate, edit)
    before = met_before(crate, edit)
    cut = not message and len(said) >= CUT and (before or named).startswith(f'{place}: {statement}')
    fits = (cut or f'{place}: {statement}' == (before or named)) and not UNFIT.search(message)
    if before:
        fits = fits and fails_too(crate, edit, named)
    else:
        fits = fits and bool(when or what in ('case', 'contract'))
    told = f'{crate}/{edit}: {what} {place}: {statement}'
    return fits, told + ('' if fits else f' (named: {named}): {message[:160]}')


def main():
    with open(sys.argv[1], encoding='utf8') as f:
        tried = {f'{crate}/{edit}': said for crate, edit, said in TRIED.findall(f.read())}
    crates = sorted(os.listdir(f'{ROOT}/crates'))
    words = sys.argv[2:] or [crate for crate in crates if os.path.isdir(f'{ROOT}/crates/{crate}/must-fail')]
    told = []
    for word in words:
        crate, _, one = word.partition('/')
        files = [one] if one else sorted(os.listdir(f'{ROOT}/crates/{crate}/must-fail'))
        for edit in [file.removesuffix('.edit') for file in files]:
            said = tried.get(f'{crate}/{edit}')
            told.append(refusal(crate, edit, said) if said else (False, f'{crate}/{edit}: not tried, or not refused'))
            print(' ' if told[-1][0] else '!', told[-1][1])
    marked = sum(not fits for fits, _ in told)
    print(f'{len(told)} edits, {marked} marked')
    sys.exit(1 if marked else 0)


if __name__ == '__main__':
    main()
