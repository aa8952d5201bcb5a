#!/usr/bin/env python3
"""use: without_contracts.py FILE..: leaves out of these .rt files what is stated and not run, for prototypes: the clauses of functions,
`ghost` items and models. What is left compiles where nothing in other crates speaks of it."""
import re
import sys
from pathlib import Path

CLAUSE = re.compile(r"^[ \t]*(?:ensures|requires)\b[^\n{]*\{", re.M)
GHOST = re.compile(r"^[ \t]*ghost \w+ ?[=:] ?\{", re.M)
GHOST_USE = re.compile(r"^[ \t]*ghost use [^;]*;\n", re.M)
MODEL = re.compile(r"^impl(?:<[^>]*>)? Model for [^{]*\{\s*\}\n|^use std::marker::Model;\n", re.M)


def behind_braces(text, at):
    """The place behind the brace that closes the one that opens there."""
    open_braces = 0
    for place in range(at, len(text)):
        open_braces += {"{": 1, "}": -1}.get(text[place], 0)
        if not open_braces:
            return place + 1
    return len(text)


def without(text, pattern, behind):
    """The text without what begins so, up to the brace that closes, with these marks behind it and the end of the line."""
    kept, at = [], 0
    while found := pattern.search(text, at):
        kept.append(text[at : found.start()])
        at = behind_braces(text, found.end() - 1)
        while text[at : at + 1] and text[at] in behind:
            at += 1
        at += text[at : at + 1] == "\n"
    return "".join(kept) + text[at:]


for name in sys.argv[1:]:
    file = Path(name)
    text = without(file.read_text(), CLAUSE, " \t")
    text = without(GHOST_USE.sub("", text), GHOST, ";, \t")
    file.write_text(MODEL.sub("", text))
