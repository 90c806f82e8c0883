#!/usr/bin/env python3
"""Lists, for each need of a function's proof, the places on the way to it: how many '.before' lead to which record.

    tools/places.py CRATE FUNCTION      as: tools/places.py picture field/row_field
    tools/places.py CRATE CYCLE FUNCTION    of a function in a cycle of calls, CYCLE being the folder of its proof
"""
import os
import re
import subprocess
import sys
import tempfile

crate, function = sys.argv[1:3]
out = tempfile.mkdtemp()
subprocess.run(["rt", "dev", crate, "--generated", out], capture_output=True)
lts = "Lts-" + sys.argv[3] if len(sys.argv) > 3 else "Lts"
with open(os.path.join(out, f"Rattle·{crate}·proofs/proofs/{function}/{lts}.antt")) as f:
    text = f.read()
before = {}
place = None
for line in text.split("\n"):
    record = re.match(r"^ +pub record ((?:Start|After|Then|Else|At|In|Joined|Left)[^· ]*) :", line)
    if record:
        place = record[1]
        before.setdefault(place, None)
    field = re.match(r"^ +pub before : (\S+)", line)
    if field and place:
        before[place] = field[1]
for need, place in re.findall(r"^ +(Need-\S+) =\s*\n?\s*\(c : (\S+?)\)", text, re.M):
    chain = []
    while place:
        chain.append(f"{len(chain)}:{place}")
        place = before.get(place)
    print(need, ":", " < ".join(chain))
