#!/usr/bin/env python3
"""Turns a Proof.antt of an older Rattle into Invariants.antt and Answers.antt.

usage: python3 tools/answers.py NAMES CRATE [FUNCTION..]     in the crate's folder

NAMES is the names.json that `rt check --generated DIR --old-names` writes. A goal that was left to the search alone gets no
answer. What it cannot turn stands behind a line that begins `-- LEFT`. The old file is that of the commit in which
port.py ran (docs/PORT.md, line 2); with a FUNCTION named, its files are made again from it.
"""

import json
import os
import re
import subprocess
import sys

N = r"[^\s(){}.;,@\"«»]+"
PATH = re.compile(rf"(?<![^\s(){{}};,@\"«»])([^\s(){{}}.;,@\"«»\d][^\s(){{}}.;,@\"«»]*)((?:\.{N})*)")
SPACED = re.compile(rf"(?<=[\w)']) (\.(?:{N}))(?=[\s).])")


def alike(name):
    return re.sub("[-_]", "", name.replace("overflow-", "").replace("overflow_", "")).lower()


class Place:
    def __init__(self, row, arm, typed):
        self.name, self.parent, (self.old, self.new), self.fn, self.more = row
        self.arm, self.typed = arm, typed


class Entry:
    def __init__(self, of, fn):
        self.of, self.fn, self.cycle = of, fn, fn is not None
        arms = of.get("arms") or [None] * len(of["places"])
        self.places = {}
        for row, arm, typed in zip(of["places"], arms, of["typed"] or [[]] * len(arms)):
            self.places[row[0]] = Place(row, arm, typed)
        self.needs = {}
        for (old, new), (at, _) in zip(of["needs"], of["asked_at"]):
            self.needs.setdefault(alike(old), (new, at))
        self.loops = of.get("loops") or []

    def need(self, name):
        name = re.sub("^slice[-_]bounds-", "part-", name)
        return self.needs.get(alike(name))

    def loop(self, name):
        for i, ((old, new), variables) in enumerate(self.loops):
            if alike(old) == alike(name):
                return new, variables, self.of["changed"][i]
        return None


class Turn:
    """Turns the terms of one answer."""

    def __init__(self, entry, place, head, left):
        self.entry, self.left = entry, left
        self.env = {head: ("place", place)}

    def fields(self, place, fields):
        """What a path from a place is now: (kind, place, text). A step is found by its name, at the place or before it."""
        while fields and fields[0] == "before":
            fields = fields[1:]
        if not fields:
            return "place", place, "c"
        first, rest = fields[0], fields[1:]
        for name in (first, re.sub(r"\d+$", "", first), re.sub(r"_is$", "", first)):
            at = place
            while at is not None:
                p = self.entry.places[at]
                if p.old and alike(name) == alike(p.old):
                    break
                at = p.parent
            if at is not None:
                first = name
                break
        if at is None:
            if first == "pre":
                first = "requires"
            if first == "requires" and self.entry.cycle:
                if rest[:1] == ["0"]:
                    return "plain", place, "MEASURE"
                if rest[:1] == ["1"]:
                    rest = rest[1:]
            # no parameter is called `result` any more
            if first == "args" and rest[:1] == ["result"]:
                rest = ["res", *rest[1:]]
            if first == "args" and not rest:
                return "args", place, "c.args"
            return "plain", place, ".".join(["c", first, *rest])
        if p.arm:
            new, count, parts = p.arm
            for to, old, way in parts:
                if alike(old) == alike(first) and [alike(w) for w in way] == [alike(r) for r in rest[: len(way)]]:
                    tail = rest[len(way) :]
                    return ("plain" if way else "step"), at, ".".join(["c", new, to, *tail])
            for to, old, way in parts:
                if rest and alike(old) == alike(first) and rest == way[: len(rest)]:
                    return "prefix", at, [first, *rest]
            return "step", at, ".".join(["c", p.new or new, *rest])
        if not rest:
            return "step", at, f"c.{p.new}"
        return "plain", at, self.step(at, f"c.{p.new}", rest)

    def step(self, place, text, rest):
        p = self.entry.places[place]
        if rest and rest[0] == "inv":
            rest = ["invariant", *rest[1:]]
        if rest == ["taken"]:
            rest = ["true"]
        if rest and rest[0] in ("new", "auto") and p.fn and p.fn in self.entry.of["params"]:
            params = self.entry.of["params"][p.fn]
            i, rest2 = 0, rest[1:]
            while rest2 and rest2[0] == "1":
                i, rest2 = i + 1, rest2[1:]
            if rest2 and rest2[0] == "0":
                rest2 = rest2[1:]
            if i < len(params):
                rest = [rest[0], params[i], *rest2]
        return ".".join([text, *rest])

    def path(self, head, fields):
        kind = self.env.get(head)
        fields = [f.strip("«»") for f in fields]
        if kind is None:
            return None
        if kind[0] == "place":
            return self.fields(kind[1], fields)
        if kind[0] == "prefix":
            return self.fields(kind[1], kind[2] + fields)
        if kind[0] == "args":
            if fields[:1] == ["result"]:
                fields = ["res", *fields[1:]]
            return "plain", kind[1], ".".join([head, *fields])
        if kind[0] == "step":
            if not fields:
                return "step", kind[1], head
            return "plain", kind[1], self.step(kind[1], head, fields)

    def term(self, text):
        out, at = [], 0
        text = re.sub(r"\.«(\w+)»", r".\1", SPACED.sub(r"\1", text))
        # a test of `!x` says now what `x` is
        text = re.sub(rf"not-(?:true|false) (?:_|{N}(?:\.{N})*) ({N}(?:\.{N})*\.(?:true|false))", r"\1", text)
        while it := PATH.search(text, at):
            head, fields = it[1], [f for f in it[2].split(".") if f]
            out.append(text[at : it.start()])
            at = it.end()
            if head == "let":
                bind = re.match(rf"\s+({N})(\s*:[^=]*?)?\s*=\s*({N}(?:\.{N})*)\s+in(?=\s)\s*", text[at:])
                if bind:
                    path = bind[3].split(".")
                    found = self.path(path[0], path[1:])
                    if found and found[0] in ("place", "prefix"):
                        self.env[bind[1]] = found
                        at += bind.end()
                        continue
                    if found and found[0] in ("step", "args"):
                        self.env[bind[1]] = (found[0], found[1])
                    elif bind[1] in self.env:
                        del self.env[bind[1]]
                    new = found[2] if found else bind[3]
                    out.append(f"let {bind[1]}{self.term(bind[2]) if bind[2] else ''} = {new} in")
                    at += re.match(rf"\s+{re.escape(bind[1])}(?:\s*:[^=]*?)?\s*=\s*{N}(?:\.{N})*\s+in", text[at:]).end()
                    continue
            found = self.path(head, fields)
            if found is None or not fields and re.match(r"\s*=\s", text[at:]):
                out.append(it[0])
            elif found[0] == "bad":
                self.left.append(f"{it[0]}")
                out.append(it[0])
            else:
                if found[0] in ("place", "prefix"):
                    self.left.append(f"{it[0]} is a {found[0]}")
                out.append(found[2] if found[0] != "prefix" else it[0])
        text = "".join(out) + text[at:]
        # the measure's equation is among the facts that omega reads
        return text.replace("(arith, MEASURE)", "arith").replace(", MEASURE", "")


def declarations(text):
    """The comment and use lines at the head, and the declarations: (signature, unfolding lines, equations)."""
    text = re.sub(r"(?m)^((?:pub )?use [^\n{]*\{)([^}]*)\}", lambda m: m[1] + " ".join(m[2].split()).rstrip(", ") + "}", text)
    lines = text.rstrip("\n").split("\n")
    head, uses, rest = [], [], []
    i = 0
    while i < len(lines) and (lines[i].startswith(("--", "use ", "pub use ")) or not lines[i].strip()):
        (head if lines[i].startswith("--") else uses).append(lines[i])
        i += 1
    # comments just above the first declaration are its own
    chunks, comment = [], []
    for line in lines[i:]:
        if not line.strip():
            continue
        if line.startswith("--"):
            comment.append(line)
            continue
        top = not line[0].isspace()
        starts = top and re.match(rf"(?:abbrev |unfoldable )*(?:pub )?(?:abbrev |unfoldable )?({N})((?: \{{[^{{}}]*\}})*) :(?!:)", line)
        if starts and not line.startswith(("use ", "unfolding ")):
            chunks.append([starts[1], comment, [line]])
            comment = []
        else:
            if not chunks:
                chunks.append(["?", comment, []])
                comment = []
            chunks[-1][2].extend(comment)
            comment = []
            chunks[-1][2].append(line)
    return head, [u for u in uses if u.strip()], chunks


def split(lines):
    """The signature's lines, the unfolding lines, and the equations' text."""
    sig, unfolding, body = [lines[0]], [], []
    for line in lines[1:]:
        if line.startswith("unfolding "):
            unfolding.append(line)
        elif not body and not unfolding and line[0].isspace():
            sig.append(line)
        else:
            body.append(line)
    return " ".join(s.strip() for s in sig), unfolding, "\n".join(body)


def equation(name, body):
    return re.match(rf"{re.escape(name)}((?:\s+(?!=\s){N})*)\s+=\s*", body)


class Helper:
    """A lemma or a value over a place: what is known there stands in each answer that cites it."""

    def __init__(self, name, kind, unfolding, body, cycle):
        binder = re.match(rf"\(({N}) : ({N})\.({N})[^()]*(?:\([^()]*\)[^()]*)*\)\s*", kind)
        self.name, self.unfolding, self.place, self.cycle = name, unfolding, binder[3], cycle
        self.type = re.sub(r"^→\s*", "", kind[binder.end() :])
        self.is_place = re.match(rf"{re.escape(binder[2])}\.", self.type) is not None
        eq = equation(name, body)
        self.param, *self.more = eq[1].split()[cycle:]
        self.body = body[eq.end() :].strip()


def argument(text, at):
    """Where the argument that begins after `at` ends."""
    while text[at].isspace():
        at += 1
    start = at
    if text[at] == "(":
        depth = 0
        while True:
            depth += {"(": 1, ")": -1}.get(text[at], 0)
            at += 1
            if depth == 0:
                return start, at
    it = PATH.match(text, at)
    return (start, it.end()) if it and it[0] not in ("=", ":", "λ", "×", "→") else None


def without_places(text, helpers):
    """Drops the helpers that only lead back: `(entry c).args` is `c.args`, since a step is found by its name."""
    names = [h.name for h in helpers.values() if h.is_place]
    if names:
        text = re.sub(rf"(?<=[\s(])\(({N}(?:\.{N})*)\)", r"\1", text)
    for name in names:
        text = re.sub(rf"\({re.escape(name)} ((?!=){N}(?:\.{N})*)\)", r"\1", text)
    for name in names:
        text = re.sub(rf"(?<![^\s(){{}};,]){re.escape(name)} ((?!=){N}(?:\.{N})*)", r"\1", text)
    return text


def with_helpers(term, helpers, turner, done):
    """The term with the helpers' applications as names, and the lets that they need."""
    lets = []
    for _ in range(4):
        term = without_places(term, helpers)
    found = True
    at = 0
    while it := PATH.search(term, at):
        h = helpers.get(it[1])
        at = it.end()
        if not h or h.is_place:
            continue
        span = argument(term, it.end())
        if not span:
            continue
        if h.name not in done:
            done.append(h.name)
            body = h.body if not h.more else "λ " + " ".join(h.more) + ". " + h.body
            kind = h.type
            inner, k_lets = with_helpers(body, helpers, turner, done)
            kind, k2 = with_helpers(kind, helpers, turner, done)
            lets += k_lets + k2 + [(h, kind, inner)]
        term = term[: it.start()] + h.name + it[2] + term[span[1] :]
        at = it.start() + len(h.name)
    return term, lets


def whole(term, helpers, entry, place, head, left):
    """An answer's term, turned, behind the lets of its helpers."""
    done = []
    term, lets = with_helpers(term, helpers, None, done)
    out, unfolding = [], []
    for h, kind, body in lets:
        of = Turn(entry, place, h.param, left)
        kind = re.sub(r"\s+", " ", of.term(kind))
        body = Turn(entry, place, h.param, left).term(body)
        out.append(f"let {h.name} : {kind} = {body} in")
        unfolding += h.unfolding
    return "\n    ".join(out + [Turn(entry, place, head, left).term(term)]), unfolding


def turn(text, entries, crate, place):
    """entries has, for each name of a module of places, the function's names; of a function in no cycle it is `tie`."""
    cycle = "tie" not in entries
    for entry in entries.values():
        for old, new in entry.of.get("args") or []:
            if old.startswith(".args "):
                text = re.sub(rf"{re.escape(old.split()[1])}(?![^\s(){{}}.;,@\"«»])", new.split()[1], text)
    head, uses, chunks = declarations(text)
    invariants, answers, said = [], [], []
    helpers = {}
    params = {}
    for entry in entries.values():
        for fn, names in entry.of["params"].items():
            params[fn.split("::")[-1]] = names
    for name, comment, lines in chunks:
        sig, unfolding, body = split(lines)
        kind = sig.split(" : ", 1)[1] if " : " in sig else ""
        kind = re.sub(r"^\(t : ℕ\) (→ )?(?=\(\w+ : )", "", kind)
        if (it := re.match(rf"\({N} : ({N})\.(?:{N})[^()]*(?:\([^()]*\)[^()]*)*\)", kind)) and it[1] in entries and equation(name, body):
            helpers[name] = Helper(name, kind, unfolding, body, cycle)
    for name, comment, lines in chunks:
        sig, unfolding, body = split(lines)
        kind = sig.split(" : ", 1)[1] if " : " in sig else ""
        it = re.match(rf"(?:\(t : ℕ\) → )?({N})\.(Need-)?({N})", kind)
        if cycle and kind.startswith("Measures "):
            eq = equation(name, body)
            k, fn = re.search(rf"({N})-kinds\.ps", kind)[1], None
            fn = next(e.fn for a, e in entries.items() if a == k + "-lts")
            var = eq[1].split()[1]
            count = lambda m: "l." + params[fn][len(re.findall(r"\.1", m[0]))]
            term = re.sub(rf"(?<![\w.]){var}(?:\.1)*\.0(?!\.)", count, body[eq.end() :])
            invariants += comment + [f"abbrev pub decreases-{fn} : goal.decreases-{fn}", f"decreases-{fn} l = {term.strip()}", ""]
        elif it and it[1] in entries and (it[2] or it[3].startswith(("invariant-", "decreases-"))):
            what = it[3]
            entry = entries[it[1]]
            stem = entry.of["stem"]
            if it[2]:
                found = entry.need(what)
                if not found:
                    said.append(f"no goal for {what}")
                    continue
                new, at = found
                eq = equation(name, body)
                if not eq:
                    answers += comment + [f"-- LEFT {name}: its equation"] + ["-- " + l for l in lines] + [""]
                    continue
                first = eq[1].split()[:1]
                bound = [b for b in eq[1].split()[cycle:] if b != "κs"]
                arg = " ".join((first if cycle else []) + ["c"] + bound[1:])
                term = body[eq.end() :]
                if term.strip() in ("search rules", "omega arith"):
                    continue
                left = []
                now, more = whole(term, helpers, entry, at, bound[0], left)
                new = stem + new
                unfolding = unfolding + [u for u in more if u not in unfolding]
                answers += comment + [f"-- LEFT {l}" for l in left]
                sep = "\n    " if "\n" in now.strip() or now.strip().startswith("let ") else " "
                answers += [f"pub {new} : goal.{new}", *unfolding, f"{new} {arg} ={sep}{now.strip()}", ""]
            else:
                word, loop = what.split("-", 1)
                found = entry.loop(loop)
                if not found:
                    said.append(f"no loop for {what}")
                    answers += ["-- LEFT " + what] + ["-- " + l for l in lines] + [""]
                    continue
                new, variables, changed = found
                eq = equation(name, body)
                bound = eq[1].split()
                new = stem + new
                order = [("initial." if c else "") + v for v, c in zip(variables, changed)] + [v for v, c in zip(variables, changed) if c]
                if len(order) != len(bound):
                    said.append(f"{what}: {bound} against {order}")
                table = dict(zip(bound, order))
                def sub(m):
                    if m[1] in table:
                        return "l." + table[m[1]] + m[2]
                    return m[0]
                term = PATH.sub(sub, SPACED.sub(r"\1", body[eq.end() :]))
                sep = "\n    " if "\n" in term.strip() else " "
                invariants += comment + [f"abbrev pub {word}-{new} : goal.{word}-{new}", *unfolding, f"{word}-{new} l ={sep}{term.strip()}", ""]
        elif it and it[1] == "statement" or "statement M" in kind or name.endswith(("-spec", "_spec")):
            continue
        elif cycle and (kind.startswith("ℕ → In ") or kind.startswith("ℕ → ") and ".Claims" in kind or name.startswith("+")):
            continue
        elif name in helpers:
            continue
        else:
            if re.search(rf"(?:{'|'.join(map(re.escape, entries))})\.", "\n".join(lines)):
                answers += ["-- LEFT a helper of places"]
            answers += comment + lines + [""]
    keep = [u for u in uses if not re.search(r"\.(Statement|Tie|Lts\S*|Reads|Kinds)(\.|\s|$)|\.\{statement\}|borrow\.Fn\.(Kinds|PlainCycle)", u)]
    out = {}
    path = ".".join(place)
    if invariants:
        out["Invariants.antt"] = head + keep + [f"use Rattle.{crate}.proofs.{path}.Given as goal", ""] + invariants
        head = []
    if answers:
        out["Answers.antt"] = head + keep + [f"use Rattle.{crate}.proofs.{path}.Goals as goal", ""] + answers
    return {k: "\n".join(v).rstrip("\n") + "\n" for k, v in out.items()}, said


def main(argv):
    names, crate, *only = argv
    with open(names) as f:
        listed = json.load(f)
    begun = open(os.path.join(os.path.dirname(os.path.abspath(__file__)), "../docs/PORT.md")).read().split()[1]
    olds = subprocess.run(["git", "ls-tree", "-r", "-z", "--name-only", begun, "proofs"], capture_output=True, text=True, check=True).stdout.split("\0")
    for file in olds:
        folder = os.path.dirname(file)
        if not file.endswith("Proof.antt") or only and folder.split(os.sep)[-1] not in only:
            continue
        if not only and not os.path.exists(file) and "REDO" not in os.environ:
            continue
        place = folder.split(os.sep)[1:]
        key = f"Rattle-{crate}-proofs." + ".".join(place) + ".Lts"
        entries = {"tie": key} if key in listed else {}
        if place[-1].startswith("+"):
            for it in listed:
                if it.startswith(key + "-"):
                    entries[it[len(key) + 1 :].replace("_", "-") + "-lts"] = it
        if not entries:
            print("no names for", folder)
            continue
        text = subprocess.run(["git", "show", f"{begun}:./{file}"], capture_output=True, text=True, check=True).stdout
        out, said = turn(text, {a: Entry(listed[k], None if a == "tie" else k.split(".Lts-")[1]) for a, k in entries.items()}, crate, place)
        for it in ("Proof.antt", "Answers.antt", "Invariants.antt"):
            if os.path.exists(os.path.join(folder, it)):
                os.remove(os.path.join(folder, it))
        for it, now in out.items():
            os.makedirs(folder, exist_ok=True)
            with open(os.path.join(folder, it), "w", encoding="utf-8") as f:
                f.write(now)
        for line in said:
            print(folder + ": " + line)
        if not out and os.path.isdir(folder) and not os.listdir(folder):
            os.removedirs(folder)


if __name__ == "__main__":
    main(sys.argv[1:])
