#!/usr/bin/env python3
"""Spells this repository's own definitions and lemmas as Rattle's style asks: words in snake case, types and facts in upper camel case.

usage: python3 tools/spell.py        at the top of the repository, once

The rows of tools/spelling.tsv are an old spelling, a tab and the new one. Whole words turn, in specs/ and proofs/, in the clauses of src/, and in code
spans of comments and of the pages in docs/ and README.md. A name that Rattle makes, behind `goal.`, `c.`, `w.`, `l.` or `g.`, stays.
"""

import os
import re

WORD = r"[^\s(){}.;,@\"«»`]+"
SPAN = re.compile(r"`[^`\n]+`")
MADE = re.compile(r"(?:^|[^\w.'-])(?:goal|c|w|l|g)\.$")


def rows():
    with open(os.path.join(os.path.dirname(__file__), "spelling.tsv"), encoding="utf-8") as f:
        return dict(line.rstrip("\n").split("\t") for line in f)


def turned(code, table, words=WORD):
    out, last = [], 0
    for m in re.finditer(words, code):
        if m[0] in table and not MADE.search(code[max(0, m.start() - 6) : m.start()]):
            out += [code[last : m.start()], table[m[0]]]
            last = m.end()
    return "".join(out + [code[last:]])


def spans(text, table):
    return SPAN.sub(lambda m: turned(m[0], table), text)


def antt(text, table):
    lines = []
    for line in text.split("\n"):
        at = re.search(r"(?:^|\s)--(?=\s|$|-)", line)
        cut = at.start() if at else len(line)
        lines.append(turned(line[:cut], table) + spans(line[cut:], table))
    return "\n".join(lines)


# A name of a clause has a dash, as no word of Rust has, or stands in a `ghost` item or a clause.
def rust(text, table):
    lines = []
    for line in text.split("\n"):
        at = re.search(r"(?:^|\s)//", line)
        cut = at.start() if at else len(line)
        code = line[:cut]
        if re.match(r"\s*(?:ghost|requires|ensures)\b", code):
            code = turned(code, table)
        lines.append(code + spans(line[cut:], table))
    return "\n".join(lines)


def main():
    table = rows()
    for folder, dirs, files in os.walk("."):
        dirs[:] = sorted(d for d in dirs if d not in ("out", "target", ".git", "tools", "__pycache__"))
        for name in files:
            how = {".antt": antt, ".rt": rust, ".md": spans}.get(os.path.splitext(name)[1])
            if how is None:
                continue
            path = os.path.join(folder, name)
            with open(path, encoding="utf-8") as f:
                old = f.read()
            new = how(old, table)
            if new != old:
                with open(path, "w", encoding="utf-8") as f:
                    f.write(new)


main()
