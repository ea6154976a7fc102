#!/usr/bin/env python3
"""How long the program takes, sheet by sheet.

    bench/bench.py                the sheets that this script makes: five families, 8 to 24 inputs
    bench/bench.py FOLDER         every *.sheet of a folder
    bench/bench.py --write FOLDER only write the sheets that this script makes
    options: --limit S            seconds of CPU for one run (default 60)
             --program PATH       another program that reads a sheet and prints its answer

Builds the program first (rt run, in crates/kofunbi). A time is the least user time of three runs, of one where a run takes over a
second; '-' is over the limit. Growth is the factor by which an input more lengthens the time, from one size of a family
to the next; it is left out below 20 ms, where the clock is too coarse.
"""
import os
import random
import re
import resource
import subprocess
import sys
import tempfile
import time

ROOT = os.path.dirname(os.path.dirname(os.path.abspath(__file__)))


class Sheet:
    """Lines of a sheet; each call answers the name of the line that it adds."""

    DELAYS = {"not": 1, "and": 3, "or": 3, "nand": 2, "nor": 2, "xor": 4, "xnor": 4, "*maj": 5, "*mux": 4}

    def __init__(self):
        self.text, self.cells = [], 0

    def input(self, name, delay=0):
        self.text.append("(input %s %d)\n" % (name, delay))
        return name

    def cell(self, word, *pins, delay=None):
        self.cells += 1
        name = "c%d" % self.cells
        delay = self.DELAYS[word] if delay is None else delay
        self.text.append("(line %s (%s %d %s))\n" % (name, word, delay, " ".join(pins)))
        return name


def numbers(sheet, bits):
    a = [sheet.input("a%d" % i) for i in range(bits)]
    b = [sheet.input("b%d" % i) for i in range(bits)]
    return a, b


def ripple(inputs):
    """An adder whose carry goes through every bit."""
    s = Sheet()
    a, b = numbers(s, inputs // 2)
    carry = s.cell("and", a[0], b[0])
    s.cell("xor", a[0], b[0])
    for x, y in zip(a[1:], b[1:]):
        p = s.cell("xor", x, y)
        s.cell("xor", p, carry)
        carry = s.cell("or", s.cell("and", x, y), s.cell("and", p, carry))
    return s


def skip(inputs):
    """An adder whose carry skips a block of two bits that only pass it on: its longest path is false."""
    s = Sheet()
    a, b = numbers(s, (inputs - 1) // 2)
    carry = s.input("c0")
    for low in range(0, len(a), 2):
        through, into = [], carry
        for x, y in zip(a[low:low + 2], b[low:low + 2]):
            p = s.cell("xor", x, y)
            through.append(p)
            s.cell("xor", p, carry)
            carry = s.cell("or", s.cell("and", x, y), s.cell("and", p, carry))
        if len(through) == 2:
            carry = s.cell("*mux", s.cell("and", *through), carry, into)
    return s


def parity(inputs):
    """A tree of exclusive ors."""
    s = Sheet()
    pins = [s.input("i%d" % i, i % 3) for i in range(inputs)]
    while len(pins) > 1:
        pins = [s.cell("xor", *pins[i:i + 2]) if i + 1 < len(pins) else pins[i] for i in range(0, len(pins), 2)]
    return s


def multiplier(inputs):
    """An array of partial products, added row by row."""
    s = Sheet()
    a, b = numbers(s, inputs // 2)
    row = [s.cell("and", x, b[0]) for x in a]
    for y in b[1:]:
        products, carry, out = [s.cell("and", x, y) for x in a], None, []
        for i, product in enumerate(products):
            pins = [product] + ([row[i + 1]] if i + 1 < len(row) else []) + ([carry] if carry else [])
            if len(pins) == 1:
                out.append(product)
                carry = None
            else:
                out.append(s.cell("xor", *pins))
                carry = s.cell("and" if len(pins) == 2 else "*maj", *pins)
        row = out + ([carry] if carry else [])
    return s


def tangle(inputs):
    """A random network: each cell takes two or three of the last lines."""
    s, r = Sheet(), random.Random(inputs)
    lines = [s.input("i%d" % i, r.randint(0, 3)) for i in range(inputs)]
    for _ in range(5 * inputs):
        word = r.choice(["and", "or", "nand", "nor", "xor", "*mux", "*maj"])
        count = 3 if word.startswith("*") else r.randint(2, 3)
        lines.append(s.cell(word, *r.sample(lines[-(inputs + 8):], count), delay=r.randint(1, 9)))
    return s


FAMILIES = [
    ("ripple", ripple, [8, 12, 16, 20, 24]),
    ("skip", skip, [9, 13, 17, 21, 23]),
    ("parity", parity, [8, 12, 16, 20, 24]),
    ("multiplier", multiplier, [8, 12, 16, 20, 24]),
    ("tangle", tangle, [8, 12, 16, 20, 24]),
]


def write_own(folder):
    for name, make, sizes in FAMILIES:
        for size in sizes:
            with open(os.path.join(folder, "%s-%02d.sheet" % (name, size)), "w") as f:
                f.write("".join(make(size).text))


def once(command, path, limit):
    """The user time of a run, and whether it ended well and in time."""
    def cap():
        resource.setrlimit(resource.RLIMIT_CPU, (int(limit) + 1, int(limit) + 2))
    with open(path, "rb") as sheet:
        run = subprocess.Popen(command, stdin=sheet, stdout=subprocess.DEVNULL, preexec_fn=cap)
        _, status, use = os.wait4(run.pid, 0)
        run.returncode = status
    return use.ru_utime, status == 0 and use.ru_utime <= limit


def least(command, path, limit):
    best = None
    for _ in range(3):
        used, well = once(command, path, limit)
        if not well:
            return None
        best = used if best is None else min(best, used)
        if best > 1:
            break
    return best


def size_of(path):
    with open(path, "rb") as f:
        text = f.read()
    forms = len(re.findall(rb"(?m)^\((?:input|line) ", text))
    inputs = len(re.findall(rb"(?m)^\(input ", text))
    return inputs, inputs + text.count(b"(") - forms, forms - inputs


def measure(folder, command, limit):
    print("| sheet | inputs | lines | line forms | time, s | growth for each input |")
    print("|---|---|---|---|---|---|")
    before = None
    for name in sorted(n for n in os.listdir(folder) if n.endswith(".sheet")):
        path = os.path.join(folder, name)
        inputs, lines, forms = size_of(path)
        used = least(command, path, limit)
        family = name.rsplit("-", 1)[0]
        growth = ""
        if before and before[0] == family and used and before[2] > 0.02 and inputs > before[1]:
            growth = "%.2f" % ((used / before[2]) ** (1 / (inputs - before[1])))
        print("| %s | %d | %d | %d | %s | %s |" % (name[:-6], inputs, lines, forms, "-" if used is None else "%.2f" % used, growth), flush=True)
        before = (family, inputs, used) if used else None


def option(words, name, otherwise):
    if name in words:
        at = words.index(name)
        value = words[at + 1]
        del words[at:at + 2]
        return value
    return otherwise


def main():
    words = sys.argv[1:]
    limit = float(option(words, "--limit", "60"))
    program = option(words, "--program", None)
    target = option(words, "--write", None)
    if target:
        os.makedirs(target, exist_ok=True)
        write_own(target)
        return
    if program is None:
        crate = os.path.join(ROOT, "crates", "kofunbi")
        subprocess.run(["rt", "run"], cwd=crate, check=True, stdin=subprocess.DEVNULL, stdout=subprocess.DEVNULL)
        program = os.path.join(crate, "out", "kofunbi")
    if words:
        measure(words[0], [program], limit)
        return
    with tempfile.TemporaryDirectory() as folder:
        write_own(folder)
        measure(folder, [program], limit)


main()
