#!/usr/bin/env python3
"""Bring the names of goals, steps and places in proofs/ to those that Rattle makes today.

usage: tools/regoal.py CRATE..     (each crate's source has to be read without errors)

Rattle's names keep the spelling of the source now (`is_star-requires`, once `is-star-requires`). For each function, a
name in its files that is a new name but for `_` and `-` becomes that name.
"""
import json
import os
import re
import subprocess
import sys

WORD = re.compile(r"[^\s(){}\[\];,.:⟦⟧‹›λ∷⌜⌝\"`]+")


def strings(value, found):
    if isinstance(value, str):
        found.add(value)
    elif isinstance(value, list):
        for v in value:
            strings(v, found)
    elif isinstance(value, dict):
        for v in value.values():
            strings(v, found)


def made_names(entry):
    found = set()
    for pair in entry["needs"] + entry["asked_at"] + entry["loops"]:
        strings(pair[1], found)
    for place in entry["places"]:
        if place[2]:
            found.add(place[2][1])
    for part in ("arms", "asked", "clauses", "places_by_name", "settled", "typed", "changed"):
        strings(entry.get(part), found)
    return {n for n in found if n}


def folder_of(crate, module):
    # Rattle-names-proofs.is_cell_word.Lts
    path = re.sub(r"\.Lts(-\w+)?$", "", module.split("-proofs.", 1)[1])
    return os.path.join("crates", crate, "proofs", *path.split("."))


def key_of(name):
    return name.replace("_", "-").lower()


def with_case(like, name):
    return (name[0].upper() if like[0].isupper() else name[0].lower()) + name[1:]


def piece_of(piece, table):
    whole = {with_case(piece, n) for n in table.get(key_of(piece), set())}
    if len(whole) == 1:
        return next(iter(whole))
    side, _, rest = piece.partition("-")
    for made in ("if-" + rest, rest):
        whole = table.get(key_of(made), set())
        if len(whole) == 1:
            return side + "-" + next(iter(whole))[len(made) - len(rest):]
    return piece


def way_of(word, table):
    """A way into a join: the places on it, each with a small letter, joined by `+` and `-via-`."""
    pieces = re.split(r"(\+|-via-)", word)
    return "".join(p if i % 2 else piece_of(p, table) for i, p in enumerate(pieces))


def main():
    for crate in sys.argv[1:]:
        said = f"/tmp/regoal-{crate}"
        subprocess.run(["rm", "-rf", said])
        run = subprocess.run(["rt", "check", "--generated", said, "--old-names"], cwd=f"crates/{crate}", capture_output=True, text=True)
        if not os.path.exists(f"{said}/names.json"):
            print(crate, "gave no names:", run.stdout[-600:], run.stderr[-600:])
            continue
        made = {}
        for module, entry in json.load(open(f"{said}/names.json")).items():
            if "-proofs." in module:
                here = made.setdefault(folder_of(crate, module), set())
                here |= made_names(entry)
                here |= {entry["stem"] + n for n in made_names(entry)}
        for folder, names in made.items():
            if not os.path.isdir(folder):
                continue
            table = {}
            for n in names:
                table.setdefault(key_of(n), set()).add(n)
            for part in ("Answers", "Invariants", "Proof"):
                path = os.path.join(folder, part + ".antt")
                if not os.path.exists(path):
                    continue
                text = open(path).read()

                def turned(m):
                    word = m.group(0)
                    if word in names or "-" not in word:
                        return word
                    whole = {n for n in table.get(key_of(word), set())}
                    if len(whole) > 1:
                        whole = {n for n in whole if n[0].isupper() == word[0].isupper()}
                    if len(whole) == 1:
                        return with_case(word, next(iter(whole)))
                    if len(whole) > 1:
                        print("two names:", path, word, sorted(whole))
                    elif "+" in word or "-via-" in word:
                        return way_of(word, table)
                    return word

                new = WORD.sub(turned, text)
                if new != text:
                    open(path, "w").write(new)
                left = sorted(g for g in set(re.findall(r"goal\.(%s)" % WORD.pattern, new)) if g not in names)
                if left and part != "Invariants":
                    print("left:", path, left)


main()
