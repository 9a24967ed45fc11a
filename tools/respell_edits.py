#!/usr/bin/env python3
"""Brings the must-fail edits of specs/ to today's spelling, by tools/respelled.tsv and the spellings of port.py. It was run once."""
import os
import re
import sys

TOOLS = os.path.dirname(os.path.abspath(__file__))
ROOT = os.path.join(TOOLS, "..", "crates")
WORD = re.compile(r'[^\s(){}.;,@"«»]+')
table = dict(line.rstrip("\n").split("\t") for line in open(os.path.join(TOOLS, "respelled.tsv"), encoding="utf-8"))
# names that port.py had turned before
for name in "allOf andThen answerOf anyOf chosenOf codeOf countOf entryOf formOf linesFrom numberOf orElse pageOf partOf passedAt placeOf putOver rowAt sameRows sumTo vectorsOf wordOf bytesOf".split():
    table[name] = re.sub(r"[A-Z]", lambda m: "_" + m[0].lower(), name)


def turned(text):
    text = re.sub(r" \.(?=[a-z0-9])", ".", text)
    text = re.sub(r"\((\w+\.\w+)\)", r"\1", text)
    text = re.sub(r"_([^\w\s]+)_", "◌\\1◌", text)
    return WORD.sub(lambda m: table.get(m[0], m[0]), text)


for crate in sorted(os.listdir(ROOT)):
    folder = os.path.join(ROOT, crate, "must-fail")
    for name in sorted(os.listdir(folder)) if os.path.isdir(folder) else []:
        path = os.path.join(folder, name)
        lines = open(path, encoding="utf-8").read().split("\n")
        file = None
        for k, line in enumerate(lines):
            if line.startswith("file: "):
                file = line[6:].strip()
            elif file and file.startswith("specs/") and line.startswith(("old: ", "new: ")):
                lines[k] = line[:5] + turned(line[5:])
        with open(path, "w", encoding="utf-8") as f:
            f.write("\n".join(lines))
