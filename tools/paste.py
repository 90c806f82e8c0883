#!/usr/bin/env python3
"""Writes the proof files that a check prints for functions that have none yet.

    tools/paste.py CRATE

Existing files stay as they are; move one away to have it printed anew.
"""
import os
import re
import subprocess
import sys

run = subprocess.run(["rt", "dev", sys.argv[1]], capture_output=True, text=True, env=dict(os.environ, RT_CUT="0"))
lines = (run.stdout + run.stderr).split("\n")
i = 0
while i < len(lines):
    found = re.match(r"help: write (\S+) with these lines", lines[i])
    i += 1
    if not found:
        continue
    body = []
    while i < len(lines) and (lines[i].startswith("    ") or not lines[i].strip()):
        body.append(lines[i][4:])
        i += 1
    path = found[1]
    if not os.path.exists(path):
        os.makedirs(os.path.dirname(path), exist_ok=True)
        with open(path, "w") as f:
            f.write("\n".join(body).rstrip() + "\n")
        print("wrote", path)
