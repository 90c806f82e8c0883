#!/usr/bin/env python3
"""Repairs proof files after a call, or other code without a loop, was put into a function or taken out of it.

    tools/renumber.py CRATE [MODULE/FUNCTION ..] [--from REV]

Of all functions of a crate, or of those named; a cycle of calls is named by the folder of its proof, as
grow/+graft+graft_row. The places of the code as it stands (`rt dev CRATE --generated`) are set against those of the
code that the file was written for: the code of the last run, else that of REV (HEAD). In each file that does not fit,
- every path `c .before .. .THING`, bare or bound by a `let`, is counted anew and has the thing's new name,
- needs get their new names (`cast-t9`, `returns-2`), new ones the answer `search needs`, and those that are gone go,
- the arguments of `Inv-..` and `μ-..`, the parts `w .0`, `w .1` in `⊎-elim (λ w. ..) (λ w. ..) (c .. .came)`, the
  claims of a cycle, the parameters in its measures, and `use` lines follow.
What is left to do by hand is printed: a path whose place is gone, a choice between two equal places, another local in
the place of an argument, a loop more or less, and which needs are new, for `search needs` may not close them. A measure
of a cycle names parameters by position: where nothing else shows that the parameters have changed, the file is left,
with a note if the last run saw others. The crates below have to be proved; where one of them has changed too, so that
REV's code does not fit it, run this once before the change: it keeps the places in target/renumber. Exits 2 if a
function that is named has no proof file.
"""
import difflib
import glob
import json
import os
import re
import shutil
import subprocess
import sys
import tempfile

from check_times import OWN, ROOT, check_words

PATH = re.compile(r'(?<![\w·.-])c((?: \.before)*)(?: \.([\w·-]+))?(?![\w·-])')
FAR = 16
CALLED = re.compile(r'(pos = |vAt |vLit |Row\.get )(\d+)')


def read(path):
    with open(path, encoding='utf8') as f:
        return f.read()


def plain(text):
    """A text without line breaks and what they bring with them, to be compared."""
    return re.sub(r',? ?\)', ')', re.sub(r'\( ', '(', ' '.join(text.split())))


def any_of(names):
    return '|'.join(map(re.escape, sorted(names, key=len, reverse=True)))


def word(names):
    """A name that stands by itself, and is not read as a field."""
    return re.compile(rf'(?<![\w·.-])({any_of(names)})(?![\w·-])')


def listed(needs):
    """A need in the list at the end of a proof; in a cycle it takes `t`."""
    return rf'\s+(?:\((?:{any_of(needs)}) t\)|(?:{any_of(needs)})(?![\w·-]))'


# The places of a function, from its generated Lts file.

def signature(text, parameters):
    """What a step does with which parameters and numbers: its other locals are counted, and so say nothing."""
    names = {str(i + 1): name for i, name in enumerate(parameters)}
    return [a + (b if a == 'vLit ' else names.get(b, '')) for a, b in CALLED.findall(text)]


def closing(text, at):
    """Where a bracket that opens at a position is closed, past it."""
    depth = 0
    for i in range(at, len(text)):
        depth += (text[i] in '({') - (text[i] in ')}')
        if depth == 0:
            return i + 1
    return len(text)


def ways(text):
    """Of a branch that has joined again, what each of its two ways went through; '=' for what a variable is by then."""
    result, at = [], text.find('(')
    while at >= 0 and len(result) < 2:
        end = closing(text, at)
        inner, parts, depth = text[at + 1:end - 1], [''], 0
        for letter in inner:
            depth += (letter in '({') - (letter in ')}')
            parts = parts + [''] if letter == '×' and depth == 0 else parts[:-1] + [parts[-1] + letter]
        owns = [re.match(r'\(?(?:\S+ : )?(\S+)·own', part.strip()) for part in parts]
        result.append([own[1] if own else '=' for own in owns])
        at = text.find('(', end)
    return result


def places(lts):
    """The places and needs of an Lts file in order; parameters; how many arguments each loop has, how many claims."""
    text = read(lts)
    found = {'items': [], 'before': {}, 'fields': {}, 'at': {}, 'came': {}, 'args': [], 'loops': {}, 'claims': 0}
    own, steps = {}, {}
    for part in text.split('\n\n'):
        step = re.match(r'\s+abbrev (s\d+) :', part)
        of = re.search(r'(?m)^ +(?:pub record|abbrev pub) (\S+)·own :', part)
        record = re.match(r'\s+pub record (\S+) : Type 0 where', part)
        need = re.match(r'\s+abbrev pub Need-(\S+) :', part)
        loop = re.match(r'abbrev pub InvT-(\S+) :', part)
        if step:
            steps[step[1]] = part
        elif of:
            own[of[1]] = part
        elif re.search(r'(?m)^ +pub record Args :', part):
            found['args'] = re.findall(r'(?m)^ +pub (\S+) :', part)
        elif record:
            fields = dict(re.findall(r'(?m)^ +pub (\S+) : (\S+)', part))
            found['before'][record[1]] = fields.pop('before', None)
            found['fields'][record[1]] = list(fields)
            text = own.get(record[1], '')
            if 'pub came :' in text:
                found['came'][record[1]] = ways(text.partition('pub came :')[2])
            called = signature(re.sub(r'\(m\d+ .*', '', text, flags=re.S), found['args'])
            found['items'].append(['place', record[1], re.sub(r'\d+$', '', record[1]), called])
        elif need:
            found['at'][need[1]] = re.search(r'\(c : (\S+?)\)', part)[1]
            stem = re.sub(r'(-t|-if|^loop|)\d+$', r'\1', re.sub(r'-\d+$', '', need[1]))
            asks = steps.get((re.search(r'\b(s\d+) \.asks', part) or [''])[0].partition(' ')[0], '')
            found['items'].append(['need', need[1], stem, signature(asks, found['args'])])
        elif loop:
            found['loops'][loop[1]] = part.count('→')
        elif part.startswith('abbrev pub Claims :'):
            found['claims'] = len(re.findall(r'Kinds\.(?:In|Out)\b', part))
    return found


def chain(table, name):
    """A place, that of a need if one is named, and those on the way to it, nearest first."""
    way, place = [], table['at'].get(name, name)
    while place:
        way.append(place)
        place = table['before'].get(place)
    return way


def aligned(old, new, late):
    """Which place or need of the new code is which of the old; of equal ones the later or the earlier."""
    a, b = (old, new) if late else (old[::-1], new[::-1])
    best = [[0] * (len(b) + 1) for _ in range(len(a) + 1)]

    def value(i, j):
        x, y = a[i], b[j]
        return 0 if x[0] != y[0] or x[2] != y[2] else 3 if x[3] == y[3] else 2

    for i in range(len(a) - 1, -1, -1):
        for j in range(len(b) - 1, -1, -1):
            same = value(i, j)
            best[i][j] = max(best[i + 1][j], best[i][j + 1], best[i + 1][j + 1] + same if same else 0)
    pairs, i, j = {}, 0, 0
    while i < len(a) and j < len(b):
        if best[i][j] == best[i][j + 1]:
            j += 1
        elif best[i][j] == best[i + 1][j]:
            i += 1
        else:
            pairs[a[i][0], a[i][1]] = b[j][1]
            i, j = i + 1, j + 1
    return pairs


# What the code says: places of all functions, and the lines that a check prints for a function without a file.

def proof_files(folder):
    """The functions and cycles that have a proof file, by their folders."""
    files = glob.glob(f'{folder}/proofs/**/Proof.antt', recursive=True)
    return sorted(os.path.relpath(os.path.dirname(f), f'{folder}/proofs') for f in files)


def stub(crate, folder, function):
    """In the place of a proof: nothing is proved when places are asked for."""
    inner = '' if os.path.basename(function).startswith('+') else '.Statement'
    name = re.search(r'(?m)^pub (\S+-spec) :', read(f'{folder}/proofs/{function}/Proof.antt'))[1]
    module = f"Rattle·{crate}·proofs.proofs.{function.replace('/', '.')}{inner}"
    return f'use {module}.{{statement}}\n\npub {name} : {{M : Type 1}} → statement M\n{name} = ?\n'


def bare_crate(crate, source, folder):
    """Copies a crate with its proofs replaced by stubs; gives them."""
    for part in ('src', 'specs'):
        if os.path.isdir(f'{source}/{part}'):
            shutil.copytree(f'{source}/{part}', f'{folder}/{part}')
    stubs = {f: stub(crate, source, f) for f in proof_files(source)}
    for function in stubs:
        put_stub(folder, function, stubs)
    return stubs


def put_stub(folder, function, stubs):
    os.makedirs(f'{folder}/proofs/{function}', exist_ok=True)
    with open(f'{folder}/proofs/{function}/Proof.antt', 'w', encoding='utf8') as f:
        f.write(stubs[function])


def checked(crate, folder, *words):
    run = subprocess.run([f'{OWN}/bin/rattle', 'check', *check_words(crate, f'{folder}/src'), *words],
                         stdout=subprocess.PIPE, stderr=subprocess.STDOUT, text=True)
    return run.stdout


def code_places(crate, source):
    """For each function with a proof file its places, by the member of the cycle ('' outside a cycle)."""
    with tempfile.TemporaryDirectory() as folder:
        stubs = bare_crate(crate, source, folder)
        said = checked(crate, folder, '--generated', f'{folder}/out')
        tables = {}
        for function in stubs:
            base = f'{folder}/out/Rattle·{crate}·proofs/proofs/{function}'
            files = glob.glob(glob.escape(base) + '/Lts*.antt')
            tables[function] = {os.path.basename(f)[3:-5].lstrip('-'): places(f) for f in files}
        if not any(tables.values()):
            print(re.sub(r'(?s)(.{600}).*', r'\1 ..', said), file=sys.stderr)
        return tables


def committed_places(crate, revision):
    with tempfile.TemporaryDirectory() as folder:
        pack = ['git', '-C', ROOT, 'archive', revision, f'crates/{crate}']
        packed = subprocess.run(pack, stdout=subprocess.PIPE, check=True).stdout
        subprocess.run(['tar', 'x', '-C', folder], input=packed, check=True)
        return code_places(crate, f'{folder}/crates/{crate}')


def printed(crate, functions):
    """The file that a check prints for each function, as if it had none."""
    texts = {}
    with tempfile.TemporaryDirectory() as folder:
        stubs, left = bare_crate(crate, f'{ROOT}/crates/{crate}', folder), set(functions)
        for function in left:
            shutil.rmtree(f'{folder}/proofs/{function}')
        while left:
            said = checked(crate, folder, '--allow-holes')
            more = {os.path.relpath(os.path.dirname(p), f'{folder}/proofs'): re.sub(r'(?m)^    ', '', body)
                    for p, body in re.findall(r'(?m)^help: write (\S+) with these lines.*\n((?:    .*\n| *\n)+)', said)}
            if not left & set(more):
                break
            for function in left & set(more):
                put_stub(folder, function, stubs)
            left -= set(more)
            texts.update(more)
    return texts


# A proof file: its parts begin at the margin.

def parts_of(text):
    return [p for p in re.split(r'(?m)^(?=[^\s)])', text) if p.strip()]


def declared(part):
    """The name that a part gives the type of."""
    found = re.match(r'(?:(?:abbrev|pub|unfoldable) )*(\S+) :(?=\s)', part)
    return found and found[1]


class Names:
    """How the file names the members of a cycle; outside a cycle there is one, ''."""
    def __init__(self, text):
        self.lts = {n: f for f, n in re.findall(r'(?m)^use \S+\.Lts-(\S+) as (\S+)-lts$', text)}

    def member(self, part):
        """The member and the need or the place that a part's type is about; the member by its file."""
        need = re.match(r'\S+ :\s+(?:\(t : ℕ\) →\s+)?(?:tie|(\S+)-lts)\.Need-(\S+)', part)
        place = re.match(r'(?:abbrev )?\S+ :\s+(?:\(t : ℕ\)\s+)?\(c : (?:tie|(\S+)-lts)\.([^\s)]+)', part)
        found = need or place
        return found and ('need' if need else 'place', self.lts.get(found[1], ''), found[2])

    def prefix(self, member):
        return next((n + '-' for n, f in self.lts.items() if f == member), '')


def answers(text):
    """Each part with what it answers: its kind, member and need or place; None where it has no paths."""
    names, current, result = Names(text), None, []
    for part in parts_of(text):
        if declared(part):
            current = names.member(part)
        result.append((part, current if not part.startswith(('use ', '--')) else None))
    return result


def halves(part):
    """What stands before the paths of a part, and the rest."""
    found = re.match(r'(?:abbrev )?\S+ :\s+(?:\(t : ℕ\)\s+)?\(c : [^)]*\)|\S+ (?:t )?c\b[^=]*=', part)
    return (found[0], part[found.end():]) if found else (part, '')


def argument(path):
    """Whether `c` is an argument, as in `is-row c .0`: a field after it is then one of what is made of it."""
    before = re.search(r'(\S+)\s+$', path.string[:path.start()])
    return bool(before and re.search(r'[\w·)-]$', before[1]) and before[1] not in ('in', 'at', 'rw', 'simp', 'cc'))


def heads(text):
    """The arguments of each loop's invariant and measure."""
    found = re.findall(r'(?m)^((?:\S+-)?(?:Inv|μ)-\S+) (.*) =(?=\s)', text)
    return {n: a.split() for n, a in found if a != 'κs a'}


def claimed(text, prefix):
    """Where the tuple of a member's claims stands, without its brackets; 0, 0 if the file has no name for it."""
    found = re.search(rf'(?m)^{re.escape(prefix)}claims t =\s+(?=\()', text)
    return (found.end() + 1, closing(text, found.end()) - 1) if found else (0, 0)


def fits(text, tables):
    """Whether needs, paths, arguments of invariants and claims of a file are those of the code."""
    names = Names(text)
    needs = {(n[1], n[2]) for n in map(names.member, parts_of(text)) if n and n[0] == 'need'}
    if needs != {(m, n) for m in tables for n in tables[m]['at']}:
        return False
    for part, of in answers(text):
        if not of:
            continue
        table = tables.get(of[1], {'at': {}, 'before': {}, 'fields': {}})
        way = chain(table, of[2])
        for path in PATH.finditer(halves(part)[1]):
            at, thing = path[1].count('.before'), path[2]
            missing = at >= len(way) or thing and thing not in table['fields'].get(way[at], [])
            if missing and not argument(path):
                return False
    for member, table in tables.items():
        for loop, arity in table['loops'].items():
            arguments = heads(text).get(f'{names.prefix(member)}Inv-{loop}')
            if arguments is None or len(arguments) != arity:
                return False
        start, end = claimed(text, names.prefix(member))
        if end and len(plain(text[start:end]).rstrip(', ').split(',')) != table['claims']:
            return False
    return True


class Move:
    """What of a member's old places and needs is what of its new ones."""
    def __init__(self, old, new):
        self.old, self.new = old, new
        self.to = aligned(old['items'], new['items'], True)
        other = aligned(old['items'], new['items'], False)
        self.unsure = {k for k in self.to if other.get(k) != self.to[k]}
        things = {}
        for place in old['fields']:
            if len(old['fields'][place]) == 1 and self.place(place):
                things.setdefault(old['fields'][place][0], {})[place] = new['fields'][self.place(place)]
        for of in things.values():   # a test's ways and their end are of one test
            if any(now != list(of.values())[0] for now in of.values()):
                self.unsure |= {('place', place) for place in of}

    def place(self, place):
        return self.to.get(('place', place))

    def thing(self, place, thing):
        was, now = self.old['fields'][place], self.new['fields'][self.place(place)]
        if thing in now and len(now) > 1:
            return thing
        return now[was.index(thing)] if thing in was and len(was) == len(now) else None

    def ways(self, place):
        """The ways to a place where a branch has joined: the old ones by their new names, and the new ones."""
        old = [['=' if p == '=' else self.place(p) for p in way] for way in self.old['came'].get(place, [])]
        return old, self.new['came'].get(self.place(place), [])


def with_way(function, old, new, say):
    """A function of one of two ways, `(λ w. ..)`, whose parts `w .0`, `w .1` are counted anew."""
    variable = re.match(r'\(λ (\S+)\.', function)
    if not variable:
        say('the ways of `.came` have changed')
        return function

    def part(p):
        at = int(p[1] or 0)
        if at < len(old) and (p[1] is None) == (len(old) == 1):
            nth = old[:at].count(old[at])
            found = [i for i, name in enumerate(new) if name == old[at]]
            if old[at] and nth < len(found):
                return variable[1] + (f' .{found[nth]}' if len(new) > 1 else '')
        say(f'`{p[0]}` of `.came` has no part any more')
        return p[0]

    start, name = variable.end(), re.escape(variable[1])
    return function[:start] + re.sub(rf'(?<![\w·.-]){name}(?: \.(\d+))?(?![\w·-])', part, function[start:])


def bracketed(body, start):
    """Where the bracketed arguments after a position stand; those in braces are left out."""
    spans = []
    while re.match(r'\s*[({]', body[start:]):
        start += re.match(r'\s*', body[start:]).end()
        if body[start] == '(':
            spans.append((start, closing(body, start)))
        start = closing(body, start)
    return spans


def with_ways(body, move, old_way, say):
    """An answer in which what came to a branch's end is counted anew."""
    for use in reversed(list(re.finditer(r'\.came\b', body))):
        bound = re.search(r'([^\s(]+) $', body[:use.start()])
        path = re.search(PATH.pattern + r' $', body[:use.start()]) or \
            bound and re.search(rf'let {re.escape(bound[1])} = {PATH.pattern} in', body)
        at = path[1].count('.before') if path else len(old_way)
        old, new = move.ways(old_way[at]) if at < len(old_way) else ([], [])
        if path and old == new:
            continue
        elims = [bracketed(body, m.end())[:3] for m in re.finditer('⊎-elim', body[:use.start()])]
        spans = next((e for e in elims if len(e) == 3 and e[2][0] < use.start() < e[2][1]), None)
        if not spans or len(old) != 2 or len(new) != 2:
            say(f"`{bound[1] if bound else 'c'} .came`: the ways to it have changed")
            continue
        for (start, end), was, now in list(zip(spans, old, new))[::-1]:
            body = body[:start] + with_way(body[start:end], was, now, say) + body[end:]
    return body


def moved(body, move, old_way, new_way, say):
    """An answer with its paths counted anew."""
    body = with_ways(body, move, old_way, say)
    lets = dict(re.findall(r'let (\S+) = c(?: \.before)* \.(\S+) in', body))
    renamed = {}

    def path(p):
        if argument(p) and p[0] != 'c':
            return path(PATH.match('c')) + p[0][1:]
        at = p[1].count('.before')
        place = old_way[at] if at < len(old_way) else None
        now = move.place(place)
        thing = p[2] and now and move.thing(place, p[2])
        if now not in new_way or p[2] and not thing:
            say(f'`{p[0]}` has no place any more ({place})')
            return p[0]
        if ('place', place) in move.unsure:
            say(f'`{p[0]}` ({place}) was taken for {now}; there is another like it')
        if thing and thing != p[2] and lets.get(p[2]) == p[2]:
            renamed[p[2]] = thing
        result = 'c' + ' .before' * new_way.index(now) + (f' .{thing}' if thing else '')
        return f'({result})' if p[0] == 'c' and result != 'c' else result

    body = PATH.sub(path, body).replace('(c)', 'c')
    taken = set(word(renamed.values()).findall(body)) - set(renamed) if renamed else set()
    if renamed and not taken:
        body = word(renamed).sub(lambda m: renamed[m[1]], body)
    return body


class Printed:
    """The lines that the check prints for a file: types, clauses, `use` lines, each member's needs in order."""
    def __init__(self, text, kept):
        aliases = dict(re.findall(r'(?m)^use (\S+) as (\S+)$', kept))
        self.uses = re.findall(r'(?m)^use .*', text)
        for module, alias in re.findall(r'(?m)^use (\S+) as (\S+)$', text):
            if aliases.get(module, alias) != alias:
                text = re.sub(rf'(?<![\w·.-]){re.escape(alias)}(?=\.\w)', aliases[module], text)
        self.types, self.clauses, self.needs, names = {}, {}, {}, Names(text)
        for part in parts_of(text):
            name = declared(part)
            if name:
                self.types[name] = part
                of = names.member(part)
                if of and of[0] == 'need':
                    self.needs.setdefault(of[1], []).append(name)
            else:
                self.clauses[part.split()[0]] = part
        self.arguments = heads(text)

    def claims(self, member):
        """The tuple of a member's claims, as its needs have it."""
        found = re.search(r'\.Need-\S+ \((.*)\) \(\S+-at t\)', plain(self.types[self.needs[member][0]]))
        return found and found[1]


def with_arguments(text, name, new, say):
    """The clause of an invariant or measure, with the arguments that the code gives it."""
    found = re.search(rf'(?m)^{re.escape(name)} (.*) =(?=\s)((?:.*\n)(?:\s.*\n|\n)*)', text)
    old, result = found[1].split(), []
    for _, a, b, c, d in difflib.SequenceMatcher(None, old, new, autojunk=False).get_opcodes():
        if b - a == d - c:
            pairs = [(n, m) for n, m in zip(old[a:b], new[c:d]) if n != m and word([n]).search(found[2])]
            if pairs:
                say(f"{name}: a name is kept: {', '.join(f'{n} for {m}' for n, m in pairs)}")
            result += old[a:b]
            continue
        used = [n for n in old[a:b] if word([n]).search(found[2])]
        if used:
            say(f"{name}: {' '.join(used)} is now {' '.join(new[c:d]) or 'gone'}")
        shadows = [n for n in new[c:d] if word([n]).search(found[2])]
        if shadows:
            say(f"{name}: the new argument {' '.join(shadows)} hides what its body names")
        result += new[c:d]
    return text[:found.start(1)] + ' '.join(result) + text[found.end(1):]


def with_parameters(text, name, old, new, say):
    """The measure of a member of a cycle, which names parameters by their position."""
    def path(p):
        was = old[p[0].count('.1')] if p[0].count('.1') < len(old) else None
        if was in new:
            return 'a' + ' .1' * new.index(was) + ' .0'
        say(f'{name}: `{p[0]}` is no parameter any more')
        return p[0]

    return re.sub(rf'(?m)^{re.escape(name)} κs a =.*\n(?:\s.*\n)*',
                  lambda m: re.sub(r'(?<![\w·.-])a((?: \.1)*) \.0(?![\w·-])', path, m[0]), text)


def with_uses(text, lines, dropped):
    """`use` lines for what the repaired text names, and none for callees that it does not name any more."""
    body = '\n'.join(line for line in text.split('\n') if not line.startswith('use '))
    have = re.findall(r'(?m)^use .*', text)
    previous = None
    for line in ['use borrow.Author.Needs.{needs}'] + lines:
        alias = re.match(r'use \S+\.Reads as (\S+)$', line)
        wanted = word([alias[1]]).search(body) if alias else line.endswith('.{needs}') and 'search needs' in body
        if line in have:
            previous = line
        elif wanted and not any(line.partition(' as ')[0] == h.partition(' as ')[0] for h in have):
            after = previous or next((h for h in reversed(have) if not h.startswith('use Rattle')), have[-1])
            text = text.replace(f'\n{after}\n', f'\n{after}\n{line}\n', 1)
            have.insert(have.index(after) + 1, line)
            previous = line
    for line in have if dropped else []:
        alias = re.match(r'use \S+\.Reads as (\S+)$', line)
        unused = alias and line not in lines and not word([alias[1]]).search(body)
        if unused or line == 'use borrow.Author.Needs.{needs}' and not word(['needs']).search(body):
            text = text.replace(line + '\n', '', 1)
    return text


def renamings(moves, names, say):
    """The needs that have another name now, and those that are gone."""
    renamed, gone = {}, set()
    for member, move in moves.items():
        prefix = names.prefix(member)
        for need in move.old['at']:
            now = move.to.get(('need', need))
            if now is None:
                gone.add(prefix + need)
            elif now != need:
                renamed[prefix + need] = prefix + now
            if now and ('need', need) in move.unsure:
                say(f'need {prefix}{need} was taken for {prefix}{now}; there is another like it')
    return renamed, gone


def with_place(part, of, move, say):
    """A need's type or answer, or a helper over a place, for the place that it is at now."""
    (head, body), (kind, _, name) = halves(part), of
    now = move.to.get((kind, name))
    if now is None:
        say(f'its place {name} is gone')
        return part
    mark = 'Need-' if kind == 'need' else '.'
    return head.replace(mark + name, mark + now) + moved(body, move, chain(move.old, name), chain(move.new, now), say)


def far(text, names, moves, say):
    """Says which answers `search needs` are further from the entry than they were, and than the search may look."""
    for member, move in moves.items():
        prefix = names.prefix(member)
        old = {move.to.get(('need', need)): len(chain(move.old, need)) for need in move.old['at']}
        for need in move.new['at']:
            way = len(chain(move.new, need))
            found = re.search(rf'(?m)^{re.escape(prefix + need)} (?:t )?c(?: κs)? = search needs$', text)
            if found and way > max(FAR, old.get(need, way)):
                say(f'{prefix}{need}: if `search needs` fails now, bind the entry before it: '
                    f'`let start = c .before .. in`, {way - 1} times')


def repaired(text, old, new, lines, say):
    """A proof file as the code wants it."""
    names, show = Names(text), Printed(lines, text)
    if set(old) != set(new) or set(heads(text)) != set(show.arguments):
        say('functions of the cycle, or loops, have changed: left as it is')
        return text
    moves = {m: Move(old[m], new[m]) for m in new}
    renamed, gone = renamings(moves, names, say)
    result = []
    for part, of in answers(text):
        if of and of[0] == 'need' and names.prefix(of[1]) + of[2] in gone:
            answer = halves(part)[1].strip()
            if answer not in ('', 'search needs'):
                say(f'need {names.prefix(of[1])}{of[2]} is gone; its answer was: {answer}')
            continue
        if gone and re.match(r'\S+-spec\b', part):
            part = re.sub(listed(gone), '', part)
        if of:
            part = with_place(part, of, moves[of[1]], lambda t, n=declared(part) or part.split()[0]: say(f'{n}: {t}'))
        if renamed and not part.startswith(('use ', '--')):
            part = word(renamed).sub(lambda m: renamed[m[1]], part)
        result.append(part)
    text = ''.join(result)
    far(text, names, moves, say)
    for member in show.needs:
        text = with_order(with_needs(text, member, names, show, say), member, names, show)
    return with_rest(text, names, show, moves, bool(gone), say)


def with_needs(text, member, names, show, say):
    """New needs, each after the need that stands before it in the code."""
    prefix, needs = names.prefix(member), show.needs[member]
    parts, claims = parts_of(text), f'({show.claims(member)})'
    short = f'({prefix}claims t)' if f'\nabbrev {prefix}claims :' in text else claims
    have = [n for n in map(declared, parts) if n in needs]
    for at, need in enumerate(needs):
        if need in have:
            continue
        clause = ' '.join(show.clauses[need].split()).rpartition(' = ')[0]
        here = [i for i, part in enumerate(parts) if at and needs[at - 1] in (declared(part), part.split(' ')[0])]
        first = next((i for i, part in enumerate(parts) if declared(part) in have), len(parts) - 2)
        where = here[-1] + 1 if here else first
        parts[where:where] = [plain(show.types[need]).replace(claims, short) + '\n', f'{clause} = search needs\n\n']
        say(f'need {need} is new: search needs')
    return ''.join(parts)


def with_order(text, member, names, show):
    """The list of a member's needs at the end of the proof, in the order of the code."""
    needs = show.needs[member]
    last = re.search(r'(?m)^pub \S+-spec :', text).start()
    found = re.search(f'(?:{listed(needs)})+', text[last:])
    if word(needs).findall(found[0]) == needs:
        return text
    space = re.match(r'\s+', found[0])[0]
    order = ''.join(space + (f'({n} t)' if names.prefix(member) else n) for n in needs)
    return text[:last + found.start()] + order + text[last + found.end():]


def with_rest(text, names, show, moves, dropped, say):
    """Invariants, measures, claims and `use` lines."""
    for name, arguments in show.arguments.items():
        text = with_arguments(text, name, arguments, say)
    for member, move in moves.items():
        prefix = names.prefix(member)
        if not prefix:
            continue
        if move.old['args'] != move.new['args']:
            text = with_parameters(text, 'μ-' + prefix[:-1], move.old['args'], move.new['args'], say)
        claims = show.claims(member)
        start, end = claimed(text, prefix)
        if end and plain(text[start:end]).rstrip(', ') != claims:
            text = text[:start] + claims + text[end:]
        for name in (f'μ-{prefix[:-1]}', prefix + 'at', prefix + 'below'):
            for kept in parts_of(text):
                new = show.types[name] if declared(kept) == name else \
                    show.clauses[name].rstrip('\n') + '\n\n' if kept.startswith(name + ' t ') else kept
                if plain(kept) != plain(new):
                    text = text.replace(kept, new, 1)
    return with_uses(text, show.uses, dropped)


def main():
    words = sys.argv[1:]
    revision = words.pop(words.index('--from') + 1) if '--from' in words else 'HEAD'
    crate, *wanted = [w for w in words if w != '--from']
    source, kept = f'{ROOT}/crates/{crate}', f'{ROOT}/target/renumber/{crate}.json'
    unknown = set(wanted) - set(proof_files(source))
    if unknown:
        print(f"{crate}: no proof file of {' '.join(sorted(unknown))}", file=sys.stderr)
        sys.exit(2)
    new = code_places(crate, source)
    if not any(new.values()):
        sys.exit(f'{crate}: no places')
    stored = json.loads(read(kept)) if os.path.exists(kept) else {}
    last = {} if '--from' in words else stored
    files = {f: read(f'{source}/proofs/{f}/Proof.antt') for f in new if not wanted or f in wanted}
    todo = [f for f in files if new[f] and not fits(files[f], new[f])]
    olds = [last] if all(fits(files[f], last.get(f, {})) for f in todo) else [last, committed_places(crate, revision)]
    lines = printed(crate, todo) if todo else {}
    for function in todo:
        said, text = [], files[function]
        old = next((o[function] for o in olds if o.get(function) and fits(text, o[function])), None)
        if not old:
            said.append(f'left as it is: it fits neither the code of the last run nor that of {revision}')
        elif function not in lines:
            said.append('left as it is: the check prints no lines for it')
        else:
            text = repaired(text, old, new[function], lines[function], said.append)
        print(function, *dict.fromkeys(said), sep='\n  ')
        if text == files[function]:
            new[function] = {}   # it is still of the old code
            continue
        with open(f'{source}/proofs/{function}/Proof.antt', 'w', encoding='utf8') as f:
            f.write(text)
    for function, member in [(f, m) for f in files if f not in todo for m in new[f] if m]:
        if last.get(function, {}).get(member, new[function][member])['args'] != new[function][member]['args']:
            print(f'{function}\n  parameters of {member} have changed: its measure names them by position')
    os.makedirs(os.path.dirname(kept), exist_ok=True)
    with open(kept, 'w', encoding='utf8') as f:
        json.dump({**stored, **{function: new[function] for function in files if new[function]}}, f)
    print(f'{crate}: {len(files)} proof files, {len(todo)} did not fit the code')


if __name__ == '__main__':
    main()
