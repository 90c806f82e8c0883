"""Runs FaCT++ on classes and reads the order that it finds among them.

FaCT++ writes the file Taxonomy.log with a line for each group of classes that have the same instances, the groups
directly above and those directly below, each by the first name of its group:

    ("BOTTOM"="C4"="C2") {3: "C0" "n3" "n5"} {0:}

Whatever does not look so is an error, and so is a class that is not there: only what was read is an answer.
"""

import pathlib
import re
import subprocess
import tempfile

import krss

PROGRAM = "FaCT++"
TIMEOUT = 300  # seconds, for one file
CONFIGURATION = "[LeveLogger]\nfile = reasoner.log\nallowedLevel = 0\n[Tuning]\n[Query]\nTBox = classes.krss\n"
TOP, BOTTOM = "TOP", "BOTTOM"
HEADING = '"entry" {n: parent_1 ... parent_n} {m: child_1 child_m}'
NAMED = r'"[^"]*"'
GROUP = re.compile(rf'({NAMED}|\({NAMED}(?:={NAMED})+\)) \{{(\d+):((?: {NAMED})*)\}} \{{(\d+):((?: {NAMED})*)\}}')


class Unreadable(Exception):
    """FaCT++ failed, or what it wrote is no taxonomy of the classes; says what it printed."""


def names_in(text):
    return re.findall(r'"([^"]*)"', text)


def groups(text):
    """Of each group its names and those above it."""
    _, heading, entries = text.partition(HEADING + "\n")
    if not heading:
        raise Unreadable(f"no heading in the taxonomy:\n{text}")
    for line in filter(None, map(str.strip, entries.split("\n"))):
        found = GROUP.fullmatch(line)
        if not found:
            raise Unreadable(f"no line of a taxonomy: {line}")
        above, below = names_in(found[3]), names_in(found[5])
        if (len(above), len(below)) != (int(found[2]), int(found[4])):
            raise Unreadable(f"not so many as the line says: {line}")
        yield names_in(found[1]), above


class Order:
    """Which class is below which: every instance of the one is one of the other."""

    def __init__(self, text, classes):
        self.group, self.parents, self.reached = {}, {}, {}
        for members, above in groups(text):
            self.group.update(dict.fromkeys(members, members[0]))
            self.parents[members[0]] = above
        missing = {*classes, TOP, BOTTOM}.union(*self.parents.values()) - self.group.keys()
        if missing:
            raise Unreadable(f"not in the taxonomy: {' '.join(sorted(missing))}\n{text}")

    def above(self, group):
        """The group and all that lines upward from it reach."""
        if group not in self.reached:
            higher = [self.above(self.group[parent]) for parent in self.parents[group]]
            self.reached[group] = {group}.union(*higher)
        return self.reached[group]

    def impossible(self, name):
        return self.group[name] == self.group[BOTTOM]

    def says_nothing(self, name):
        return self.group[name] == self.group[TOP]

    def same(self, name, other):
        return self.group[name] == self.group[other]

    def below(self, name, other):
        """Lines upward from BOTTOM reach all."""
        return self.group[other] in self.above(self.group[name])


def run(folder):
    """Runs FaCT++ in a folder that has its files."""
    try:
        done = subprocess.run([PROGRAM, "classes.conf"], cwd=folder, stdout=subprocess.PIPE, stderr=subprocess.STDOUT,
                              timeout=TIMEOUT, check=False)
    except (OSError, subprocess.TimeoutExpired) as failure:
        raise Unreadable(str(failure)) from failure
    printed = done.stdout.decode(errors="replace")
    if done.returncode != 0:
        raise Unreadable(f"{PROGRAM} ended by status {done.returncode} and printed:\n{printed}")
    taxonomy = pathlib.Path(folder, "Taxonomy.log")
    if not taxonomy.is_file():
        raise Unreadable(f"{PROGRAM} wrote no taxonomy and printed:\n{printed}")
    return taxonomy.read_text()


def classify(classes, definitions):
    """The order of classes, given by the roots of their pictures, under definitions of names, given likewise."""
    with tempfile.TemporaryDirectory(prefix="zuvaropy-judge-") as folder:
        pathlib.Path(folder, "classes.krss").write_text(krss.tbox(classes, definitions))
        pathlib.Path(folder, "classes.conf").write_text(CONFIGURATION)
        return Order(run(folder), classes)
