#!/usr/bin/env python3
"""Counts places in src/ that an older form of Rattle may have left: usage: tools/count_places.py [--list] [COMMIT]

Reads crates/*/src/*.rt of the commit, or of the tree as it stands. --list prints each place under its count.
Counting is by text alone; which place is worth a change is for a reader to say."""

import collections
import re
import subprocess
import sys

GREPS = [
    ("1 a refusal handed on by a match", r"Err\((refusal|e)\) => Err\("),
    ("1 an Option in place of a Result", r"Option<Refusal>|if let Some\(refusal\)"),
    ("1 a match that only maps or tests an Option or a Result", r"^\s+(None|Err\(_\)|_) => (None|false|Err\()|Some\((\w+)\) => Some\(\3\.|Some\((\w+)\) => \4 =="),
    ("1 unreachable()", r"\bunreachable\(\)"),
    ("1 an enum of the repository's own", r"^\s*(pub(\(crate\))? )?enum \w+"),
    ("3 a for over a range", r"^\s+for \w+ in [^{]*\.\."),
    ("3 a while or a loop", r"^\s+(while|loop)\b"),
    ("3 a count by hand", r"\+= 1;|saturating_add\(1\)|= \w+ \+ 1;"),
    ("4 a conversion by as", r"\bas (u8|u16|u32|u64|usize)\b"),
    ("4 a function that names, compares or tests", r"\bfn (named|letter|initial|number|figure|compare|is_same|is_goal|names|is_before)\("),
    ("4 a number or a text written outside a Display", r"write_(refusal|plan)\("),
    ("6 an array of fixed size", r"\[[^\]\[]*; (256|512|32)\]"),
    ("6 an index kept for later", r"\b(rest|at|from|best|used|count|points|lines): (usize|u32)"),
    ("7 a parameter or a value that is a function", r"\bimpl Fn|\bdyn |: fn\(|: Fn(Once|Mut)?\("),
]


def sources(commit):
    if commit:
        names = subprocess.check_output(["git", "ls-tree", "-r", "--name-only", commit, "crates"], text=True).split("\n")
        names = [n for n in names if re.fullmatch(r"crates/\w+/src/\w+\.rt", n)]
        return {n: subprocess.check_output(["git", "show", f"{commit}:{n}"], text=True) for n in names}
    names = subprocess.check_output(["git", "ls-files", "crates"], text=True).split("\n")
    return {n: open(n).read() for n in names if re.fullmatch(r"crates/\w+/src/\w+\.rt", n)}


def closing(text, start):
    deep = 0
    for k in range(start, len(text)):
        deep += (text[k] in "{(") - (text[k] in "})")
        if not deep:
            return k
    return len(text) - 1


# Each function: its file, its name, its parameters, its clauses and its body.
def functions(files):
    for name, text in sorted(files.items()):
        text = re.sub(r"//[^\n]*", "", text)
        for m in re.finditer(r"\bfn (\w+)(<[^(]*>)?\(", text):
            end = closing(text, m.end() - 1)
            params = [p.strip() for p in re.split(r",(?![^<\[(]*[>\])])", text[m.end():end]) if p.strip()]
            rest = text[end + 1:]
            clauses, at = [], 0
            while True:
                c = re.compile(r"\s*(->\s*[^{;]*?)?\s*(requires|ensures)\*?\s*(\w+)?\s*\{").match(rest, at)
                if not c:
                    break
                stop = closing(rest, c.end() - 1)
                clauses.append((c[2], " ".join(rest[c.end():stop].split())))
                at = stop + 1
            b = re.compile(r"[^{;]*([{;])").match(rest, at)
            body = rest[b.end() - 1:closing(rest, b.end() - 1) + 1] if b and b[1] == "{" else ""
            yield name, m[1], params, clauses, body


KEEP = set("if else match for in while let mut return Some None Ok Err true false loop fn impl self Self as break".split())


def shape(body):
    return tuple(t if t in KEEP or not re.match(r"\w", t) else "x" for t in re.findall(r"\w+|[^\w\s]", body))


def main():
    args = [a for a in sys.argv[1:] if a != "--list"]
    show = "--list" in sys.argv
    files = sources(args[0] if args else None)
    for what, pattern in GREPS:
        found = [f"{n}:{i}: {line.strip()}" for n, t in sorted(files.items()) for i, line in enumerate(t.split("\n"), 1) if re.search(pattern, line)]
        print(f"{len(found):4} {what}")
        if show:
            print("".join(f"       {f}\n" for f in found), end="")
    fns = [f for f in functions(files) if "/tests.rt" not in f[0] and "/sessions.rt" not in f[0]]
    groups = collections.defaultdict(list)
    for name, fn, params, clauses, body in fns:
        if len(shape(body)) >= 12:
            groups[shape(body)].append(f"{name} {fn}")
    twins = [g for g in groups.values() if len(g) > 1]
    print(f"{sum(map(len, twins)):4} 2 a function whose body has the shape of another's, in {len(twins)} groups")
    if show:
        print("".join("       " + ", ".join(g) + "\n" for g in twins), end="")
    facts = collections.defaultdict(set)
    pairs = collections.defaultdict(set)
    for name, fn, params, clauses, body in fns:
        for kind, text in clauses:
            if kind == "requires":
                facts[re.sub(r"\.(old|now|entry)\b", "", text)].add(f"{name} {fn}")
        for i, p in enumerate(params):
            for q in params[i + 1:]:
                if "self" not in p and "self" not in q:
                    pairs[(p, q)].add(f"{name} {fn}")
    facts = {f: s for f, s in facts.items() if len(s) >= 3}
    print(f"{sum(map(len, facts.values())):4} 5 a requires that stands in three functions or more, {len(facts)} facts")
    if show:
        print("".join(f"       {f}: {', '.join(sorted(s))}\n" for f, s in sorted(facts.items())), end="")
    pairs = {p: s for p, s in pairs.items() if len(s) >= 3}
    print(f"{len(pairs):4} 5 a pair of parameters that three functions or more have, in {len(set().union(*pairs.values()) if pairs else [])} functions")
    if show:
        print("".join(f"       {p[0]} + {p[1]}: {', '.join(sorted(s))}\n" for p, s in sorted(pairs.items())), end="")


main()
