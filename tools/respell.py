#!/usr/bin/env python3
"""Spell the repository's own words of specs/ and proofs/ as today's Rattle does: words in snake case, types in camel case.

Run once, at the top, after port.py. Names of src/, strings, inputs and outputs stay. The names that Rattle makes for
goals and steps, and those of its library, stay too.
"""
import glob
import os
import re
import sys

WORD = r"[^\s(){}\[\];,.:⟦⟧‹›λ∷⌜⌝\"`]+"
TOKEN = re.compile(WORD + r"(?::" + WORD + r")*")

# Names that would fall together with a tactic, a Rattle name of the same file, or one another.
OTHERWISE = {
    "first_of": "first_among",  # the tactic `first_of`
    "by_Row": "by_row",
    "cases_Bool": "cases_bool",
}

# Names that are bound in a term, and so have no signature of their own.
BOUND = """
worst-from Settle-wrong Seek-wrong Worst-wrong Tie-wrong Shorten-wrong Lengthen-wrong Untie-wrong Found-nothing
worst-vector drawn-pins after-pins Looked-for old-values old-times s-zero s-one pins-at zero-time Settle-told at-e at-r
seen-work left-work held-work shape-too pin-by spare-line seen-times left-times held-times Searched-looks at-q
is-v is-t lawful-long Turns-to after-0 after-1 Seek-told so-many Decides-at as-told is-told Best-at is-left yes-b no-40
no-41 now-is same-marks lawful-short room-v room-t open-end is-worst not-forgotten none-wrong undecided-inputs one-output
same-ceilings with-0 with-1
""".split()


def antt_files():
    return sorted(f for part in ("specs", "proofs") for f in glob.glob(f"crates/*/{part}/**/*.antt", recursive=True))


def own_names(files):
    groups = r"(?:\s*(?:\{[^}]*\}|\([^)]*\)))*"
    heads = [
        r"^(?:(?:abbrev|unfoldable|pub|data|record|mutual)\s+)*(%s)%s\s*:(?=\s)" % (WORD, groups),
        r"^\s+(?:pub\s+)?(%s)\s*:(?=\s)" % WORD,
        r"^\s*\|\s*(%s)\s*:(?=\s)" % WORD,
    ]
    defined, goals = set(BOUND), set()
    for name in files:
        text = open(name).read()
        for head in heads:
            defined |= {m.group(1) for m in re.finditer(head, text, re.M)}
        goals |= set(re.findall(r"goal\.(%s)" % WORD, text))
    return {n for n in defined if "-" in n and not n.startswith("-")} - goals


def respelled(name):
    parts = name.split("-")
    if name[0].isupper():
        return "".join(p[0].upper() + p[1:] for p in parts)
    return "_".join(parts)


def apply(text, table):
    return TOKEN.sub(lambda m: table.get(m.group(0), m.group(0)), text)


def apply_to_source(text, table):
    """All of a .rt file but its strings."""
    pieces = re.split(r'(b?"(?:[^"\\]|\\.)*")', text)
    return "".join(p if i % 2 else apply(p, table) for i, p in enumerate(pieces))


def main():
    files = antt_files()
    table = {n: respelled(n) for n in own_names(files)}
    table.update(OTHERWISE)
    spelled = {}
    for old, new in table.items():
        spelled.setdefault(new, []).append(old)
    for new, olds in sorted(spelled.items()):
        if len(olds) > 1:
            print("fall together:", new, olds)
    words = set()
    for name in files:
        words |= set(TOKEN.findall(open(name).read()))
    for old, new in sorted(table.items()):
        if new in words:
            print("stands already:", old, "->", new)
    if "--try" in sys.argv:
        print(len(table), "names")
        return
    for name in files + sorted(glob.glob("crates/*/must-fail/*.edit")):
        text = open(name).read()
        new = apply(text, table)
        if new != text:
            open(name, "w").write(new)
    for name in sorted(glob.glob("crates/*/src/**/*.rt", recursive=True)):
        text = open(name).read()
        new = apply_to_source(text, table)
        if new != text:
            open(name, "w").write(new)
    for name in sorted(glob.glob("docs/*.md")) + ["README.md"]:
        text = open(name).read()
        new = re.sub(r"`[^`\n]*`", lambda m: apply(m.group(0), table), text)
        if new != text:
            open(name, "w").write(new)


main()
