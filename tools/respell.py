#!/usr/bin/env python3
"""Brings the repository's own definitions and lemmas to the library's spelling: snake case, and a dash only between two names.

usage: python3 tools/respell.py [--dry]     once, at the top, right after the kit's port.py

A name counts as the repository's own where a file of specs/ or a shared file of proofs/ defines it. Answers and walks
(proofs/F/Proof.antt) only follow. A dash stays where it joins names of definitions, as in `count-relabel`; every other one
becomes `_`, as in `sum_test`. Functions of src/, exported names, strings, inputs and outputs are left alone.
"""

import pathlib
import re
import sys

WORD = r"[\w'\u2032-]"
MADE = ("Proof.antt", "Answers.antt", "Invariants.antt")
LINE = re.compile(rf"^\s*(?:abbrev |unfoldable |pub |data )*({WORD}+) (?:(?:\([^)]*\)|\{{[^}}]*\}}) )*:(?: |$)")
CASE = re.compile(rf"^\s*(?:abbrev |unfoldable |pub )*({WORD}+) .*:(?: |$)")
RECORD = re.compile(rf"^\s*(?:pub )?record ({WORD}+)")
# where two of them would fall together
CHOSEN = {"behind-it": "behind_it_lem", "toCome": "still_to_come", "goesOn": "goes_on_at"}
LIBRARY = "length map take drop reverse sum min max set replicate cond append count eqb leb ltb not and or sizes dists labels".split()


def files():
    for f in sorted(pathlib.Path("crates").rglob("*.antt")):
        if "out" not in f.parts:
            yield f


def own_names():
    """All names that shared files define, and those among them that specs/ defines."""
    names, words = set(), set(LIBRARY)
    for f in files():
        if f.name in MADE:
            continue
        for line in f.read_text().split("\n"):
            found = LINE.match(line) or CASE.match(line) or RECORD.match(line)
            if found and not line.strip().startswith("--"):
                names.add(found.group(1))
                if "specs" in f.parts and "-" not in found.group(1):
                    words.add(snake(found.group(1)))
    return names, words


def snake(name):
    if re.match(r"[A-Z]", name) or not re.match(r"[a-z]", name):
        return name
    return re.sub(r"(?<=[a-z0-9])([A-Z])(?=[a-z])", lambda m: "_" + m.group(1).lower(), name)


def respelled(name, words):
    """Each dash stays that has a name of specs/ or of the library on both sides, the longest names first."""
    parts = [snake(p) for p in name.split("-")]
    if len(parts) == 1:
        return parts[0]

    def known(i, j):
        return "_".join(parts[i:j]) in words or (j == i + 1 and re.match(r"[A-Z]", parts[i]))

    out = parts[0]
    start = 0
    for k in range(1, len(parts)):
        left = known(start, k)
        right = any(known(k, j) for j in range(len(parts), k, -1))
        if left and right:
            out += "-" + parts[k]
            start = k
        else:
            out += "_" + parts[k]
    return out


def plan():
    names, words = own_names()
    turn = {n: CHOSEN.get(n) or respelled(n, words) for n in names if "-" in n or snake(n) != n}
    return {n: m for n, m in turn.items() if n != m}


def outside_strings(text, change):
    return "".join(p if p.startswith('"') else change(p) for p in re.split(r'("(?:[^"\\\n]|\\.)*")', text))


def main():
    turn = plan()
    pattern = re.compile(rf"(?<!{WORD})(?:" + "|".join(re.escape(n) for n in sorted(turn, key=len, reverse=True)) + rf")(?!{WORD})")
    change = lambda text: pattern.sub(lambda m: turn[m.group(0)], text)
    # names that fall together, and names of the library that an own one hides
    every = set()
    for f in list(files()) + sorted(pathlib.Path("crates").glob("*/src/**/*.rt")):
        every |= set(re.findall(rf"{WORD}+", f.read_text()))
    met = {}
    for n, m in sorted(turn.items()):
        if m in every or m in met:
            print(f"falls together: {n} -> {m}" + (f" and {met[m]}" if m in met else ""))
        met[m] = n
    for f in files():
        for line in f.read_text().split("\n"):
            found = re.match(r"\s*(?:pub )?use (?!Rattle\.(?!std))([\w.]+)\.\{(.*)\}", line)
            for n in re.split(r", ", found.group(2)) if found else ():
                if n.split(" as ")[0] in turn:
                    print(f"the library's: {n} in {f}")
    if "--dry" in sys.argv:
        for n, m in sorted(turn.items()):
            print(n, m)
        return
    for f in files():
        f.write_text(change(f.read_text()))
    for f in sorted(pathlib.Path("crates").glob("*/src/**/*.rt")):
        f.write_text(outside_strings(f.read_text(), change))
    for f in sorted(pathlib.Path("crates").glob("*/must-fail/*.edit")):
        f.write_text(outside_strings(f.read_text(), change))
    for f in [pathlib.Path("README.md"), *sorted(pathlib.Path("docs").rglob("*.md"))]:
        f.write_text(re.sub(r"`[^`\n]+`", lambda m: change(m.group(0)), f.read_text()))


main()
