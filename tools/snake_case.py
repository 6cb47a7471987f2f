#!/usr/bin/env python3
"""Spells the repository's own definitions and lemmas in snake case, as today's Rattle spells words: `startsOf` is `starts_of`.

usage: tools/snake_case.py          at the top of the repository, once, after port.py

In .antt files each part of a name that begins in lower case and has a capital is respelled (types, modules and variants begin with a
capital, and stay). In .rt and .edit files and in the pages, only the names that the .antt files declare. Texts in quotes stay. Where two
names would fall together, the lemma's name keeps a dash (APART). It changes no name of src/: those are in snake case already.
"""
import glob
import re
import sys

# Lemmas that port.py wrote with `_`, whose name a definition now takes: they get their dash back.
APART = {"address_read", "field_in", "first_by", "from_entries", "gap_here", "kind_fits", "of_number", "only_one", "plain_step"}
PART = re.compile(r"[a-z][a-z0-9]*(?:[A-Z][a-z0-9]*)+")
NAME = re.compile(r"[^\s(){}.;,:@\"«»\[\]\\`|!?*&<>=/+]+")
DECLARED = re.compile(r"^\s*(?:(?:pub|abbrev|unfoldable|opaque|record|data)\s+)*([^\s(){}.;,@\"\[\]]+)\s*:(?!:)")


def snake(part):
    return re.sub(r"[A-Z]", lambda m: "_" + m[0].lower(), part)


def respelled(name, known):
    parts = name.split("-")
    if known is not None and not any(p in known for p in parts):
        return name
    return "-".join(snake(p) if PART.fullmatch(p) and (known is None or p in known) else p for p in parts)


def turned(text, known, apart):
    """The text with its names respelled, but for what stands in quotes."""
    def each(m):
        n = m[0]
        if n in apart:
            return n.replace("_", "-")
        return respelled(n, known)
    out = []
    for k, piece in enumerate(re.split(r'("(?:[^"\\\n]|\\.)*")', text)):
        out.append(piece if k % 2 else NAME.sub(each, piece))
    return "".join(out)


def main():
    antt = sorted(glob.glob("crates/*/specs/**/*.antt", recursive=True) + glob.glob("crates/*/proofs/**/*.antt", recursive=True))
    text = {p: open(p, encoding="utf-8").read() for p in antt}
    known, declared = set(), {}
    for p, t in text.items():
        for line in t.split("\n"):
            if m := DECLARED.match(line):
                declared.setdefault(m[1], p)
                known |= {q for q in m[1].split("-") if PART.fullmatch(q)}
    fall = {}
    for n in declared:
        fall.setdefault(n.replace("_", "-") if n in APART else respelled(n, None), set()).add(n)
    for n, of in sorted(fall.items()):
        if len(of) > 1:
            print("fall together:", n, sorted(of))
    pages = sorted(glob.glob("README.md") + glob.glob("docs/*.md") + glob.glob("tests/**/*.md", recursive=True))
    for p in antt + sorted(glob.glob("crates/*/src/**/*.rt", recursive=True) + glob.glob("crates/*/must-fail/*.edit")) + pages:
        t = text.get(p) or open(p, encoding="utf-8").read()
        code = p.endswith(".antt")
        n = turned(t, None if code else known, APART if code else set())
        if n != t:
            with open(p, "w", encoding="utf-8") as f:
                f.write(n)


main()
