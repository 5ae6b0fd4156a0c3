#!/usr/bin/env python3
"""Brings the names of this repository's own definitions and lemmas to the spelling that today's Rattle uses, after port.py.

usage: python3 tools/spell_names.py [TOP]

A name that joins words by hyphens becomes snake case, or camel case where it begins with a capital: few-legs -> few_legs,
Flagged-to -> FlaggedTo. Names of std and of Rattle's own (goals, steps, loops) keep theirs, and so do comments, strings and code.
It reads specs/, proofs/, the clauses of src/, the must-fail edits, and what stands between backticks in pages."""

import os
import re
import sys

TOP = sys.argv[1] if len(sys.argv) > 1 else "."
MADE = ("Answers.antt", "Invariants.antt", "Choices.antt")
TOKEN = re.compile(r"[A-Za-z_◌][A-Za-z0-9_'◌→?-]*")
STD = re.compile(r"use (?:Rattle\.std|mathlib|borrow|Prim|lib)\S*\.\{([^}]*)\}")
APART = {"getD-put": "get_or_put"}


def files():
    for folder, dirs, names in os.walk(os.path.join(TOP, "crates")):
        dirs[:] = sorted(d for d in dirs if d != "out")
        for n in sorted(names):
            if n.endswith((".rt", ".antt", ".edit")):
                yield os.path.join(folder, n)
    for n in sorted(os.listdir(os.path.join(TOP, "docs"))):
        if n.endswith(".md"):
            yield os.path.join(TOP, "docs", n)
    yield os.path.join(TOP, "README.md")
    notes = os.path.join(TOP, "unfinished", "docs")
    for n in sorted(os.listdir(notes)) if os.path.isdir(notes) else []:
        if n.endswith(".md"):
            yield os.path.join(notes, n)


def made(path):
    """Whether the file answers goals of Rattle's own."""
    return "/proofs/" in path and os.path.basename(path) in MADE


def of_std(text):
    out = set()
    for m in STD.finditer(text):
        for n in m[1].split(","):
            out.update(w.strip() for w in n.split(" as "))
    return out


def plain(path, text):
    """The pieces of text that may be respelled, as (start, end)."""
    if path.endswith(".antt"):
        skip = re.compile(r"--[^\n]*")
    elif path.endswith(".rt"):
        skip = re.compile(r'//[^\n]*|b?"(?:\\.|[^"\\\n])*"')
    elif path.endswith(".md"):
        return [m.span() for m in re.finditer(r"`[^`\n]*`", text)]
    else:
        skip = re.compile(r"(?!)")
    out, at = [], 0
    for m in skip.finditer(text):
        out.append((at, m.start()))
        at = m.end()
    return out + [(at, len(text))]


def spelled(n):
    if n in APART:
        return APART[n]
    if n[0].isupper():
        return "".join(w[:1].upper() + w[1:] for w in n.split("-"))
    return n.replace("-", "_")


def main():
    own = set()
    for p in files():
        if p.endswith(".antt") and not made(p):
            text = open(p, encoding="utf-8").read()
            std = of_std(text)
            for a, b in plain(p, text):
                own.update(m[0] for m in TOKEN.finditer(text[a:b]) if "-" in m[0] and m[0] not in std)
    for p in files():
        text = open(p, encoding="utf-8").read()
        std = of_std(text)

        def turn(m):
            return spelled(m[0]) if m[0] in own and m[0] not in std else m[0]

        out, at = "", 0
        for a, b in plain(p, text):
            out += text[at:a] + TOKEN.sub(turn, text[a:b])
            at = b
        out += text[at:]
        if out != text:
            open(p, "w", encoding="utf-8").write(out)
    for n in sorted(own):
        print(n, spelled(n))


if __name__ == "__main__":
    main()
