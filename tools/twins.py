#!/usr/bin/env python3
"""Pairs of functions in crates/*/src whose bodies are alike but for names, types and numbers.

usage: tools/twins.py [LEAST [SHORT]]
    LEAST: how alike two bodies have to be, from 0 to 1 (0.8 where it is left out)
    SHORT: bodies with fewer tokens are passed over (12 where it is left out)
"""
import difflib
import glob
import re
import sys

KEYWORDS = set("as break continue else enum false fn for if impl in let loop match mut pub ref return self struct true while".split())
TOKEN = re.compile(r"b?\"[^\"]*\"|b?'[^']+'|[A-Za-z_][A-Za-z0-9_]*|[0-9][0-9_a-fx]*|[^\sA-Za-z0-9_]")


def shape(body):
    """The body's tokens, each name, number and text by its kind alone."""
    tokens = []
    for token in TOKEN.findall(re.sub(r"//[^\n]*", "", body)):
        if token in KEYWORDS or not (token[0].isalnum() or token[0] in "_\"'"):
            tokens.append(token)
        elif token[0].isdigit():
            tokens.append("0")
        elif token[-1] in "\"'":
            tokens.append("text")
        else:
            tokens.append("name")
    return tokens


def functions(path):
    """The functions of a file: name, shape of the body."""
    text = open(path, encoding="utf-8").read()
    for found in re.finditer(r"^( *)(?:pub(?:\([a-z]+\))? )?(?:const )?fn ([a-z_0-9]+)", text, re.M):
        indent = found.group(1)
        end = re.compile(rf"^{indent}\}}$", re.M).search(text, found.end())
        start = re.compile(rf"(^{indent}\{{$|\) \{{$|> \{{$|[a-z0-9>\]] \{{$)", re.M).search(text, found.end())
        if end and start and start.end() < end.start():
            yield found.group(2), shape(text[start.end():end.start()])


def main():
    least = float(sys.argv[1]) if len(sys.argv) > 1 else 0.8
    short = int(sys.argv[2]) if len(sys.argv) > 2 else 12
    every = [(path.removeprefix("crates/"), name, body)
             for path in sorted(glob.glob("crates/*/src/*.rt"))
             for name, body in functions(path) if len(body) >= short]
    pairs = 0
    for i, (path, name, body) in enumerate(every):
        for other_path, other_name, other in every[i + 1:]:
            alike = difflib.SequenceMatcher(None, body, other, autojunk=False).ratio()
            if alike >= least:
                pairs += 1
                print(f"{alike:.2f}  {path}:{name} ~ {other_path}:{other_name}  ({len(body)} and {len(other)} tokens)")
    print(f"{pairs} pairs of {len(every)} functions")


if __name__ == "__main__":
    main()
