#!/usr/bin/env python3
"""Respells the repository's own definitions and lemmas: words in snake case, as tools/respell.tsv lists them.

usage: python3 tools/respell.py        at the top, once, on a tree that port.py has turned
Functions of src/, strings, inputs and outputs keep their names. It was run once, for the port; docs/PORT.md says on which commit.
"""
import pathlib
import re

TOKEN = re.compile(r"[A-Za-z_][\w'\-]*")
TABLE = dict(line.split("\t") for line in pathlib.Path("tools/respell.tsv").read_text().splitlines())
# words that are also names of src/: respelled in specs and proofs alone
PROOF_WORDS = {"head_at", "no_move", "out_of_range"}
# the test of a range had fallen together with the function that makes it
RANGE_TEST = ("in_range", "is_in_range")


def respelled(path, text):
    code = path.suffix in (".rt", ".edit")
    table = {a: b for a, b in TABLE.items() if not (code and a in PROOF_WORDS)}
    range_test = path.parts[1] == "script_syntax"

    def line_of(line):
        def turn(m):
            word = m[0]
            if m.start() >= 2 and line[m.start() - 2 : m.start()] == "c." and word == "add-move":
                return word
            if range_test and word == RANGE_TEST[0] and (not code or "ghost use" in line or "ensures" in line):
                return RANGE_TEST[1]
            return table.get(word, word)

        return TOKEN.sub(turn, line)

    return "\n".join(line_of(line) for line in text.split("\n"))


def main():
    for path in sorted(pathlib.Path("crates").rglob("*")):
        if path.suffix in (".antt", ".rt", ".edit") and "out" not in path.parts:
            text = path.read_text()
            new = respelled(path, text)
            if new != text:
                path.write_text(new)


main()
