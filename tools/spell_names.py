#!/usr/bin/env python3
"""Brings the repository's own definitions and lemmas to snake case, as PORTING.md's part 3 spells them.

usage: tools/spell_names.py [--list] [FOLDER]

Run once, right after the kit's port.py, at the top of a checkout (or with FOLDER). A name part such as `checksumOf` in a .antt file, or
in a .rt file, becomes `checksum_of`; parts that begin with a capital (types, facts, variants) stay, and so do strings. The edits of must-fail/ and
mutants/ and the pages of docs/ follow for the names that the .antt files have. --list prints the names and those that fall together.
"""

import glob
import os
import re
import sys

# A part that begins in lower case and has a capital behind a small letter; one behind '_' is a fact's, and stays.
PART = re.compile(r"(?<![A-Za-z0-9_'])[a-z][a-z0-9_]*[a-z0-9][A-Z][A-Za-z0-9_]*")
KEPT = {"getD", "is_IsWord", "sliceOwns"}  # names of the older library, which a proof still cites
# Lemmas whose names would fall together with a definition's new name.
LEMMAS = [
    ("crates/command/proofs/LaidOut.antt", "laid_out"),
    ("crates/command/proofs/build_pwm/", "laid_out"),
    ("crates/command/proofs/build_command/", "laid_out"),
    ("crates/osp/proofs/given/", "laid_out"),
    ("crates/capture/proofs/Taken.antt", "left_over"),
    ("crates/capture/proofs/States.antt", "left_by"),
    ("crates/capture/proofs/state/is_left/", "left_by"),
    ("crates/reader/proofs/", "told_in"),
]
STRING = re.compile(r'b?"(?:\\.|[^"\\])*"', re.S)


def spelled(name):
    s = re.sub(r"([a-z0-9])([A-Z])", r"\1_\2", name)
    s = re.sub(r"([A-Z])([A-Z][a-z])", r"\1_\2", s)
    return s.lower()


def read(path):
    with open(path, encoding="utf-8") as f:
        return f.read()


def files(*patterns):
    out = []
    for p in patterns:
        out += glob.glob(p, recursive=True)
    return sorted(p for p in out if "/out/" not in p)


def outside_strings(text, turn):
    out, at = [], 0
    for m in STRING.finditer(text):
        out += [turn(text[at : m.start()]), m.group(0)]
        at = m.end()
    return "".join(out + [turn(text[at:])])


def main(argv):
    listing = "--list" in argv
    rest = [a for a in argv if a != "--list"]
    if rest:
        os.chdir(rest[0])
    antt = files("crates/*/specs/**/*.antt", "crates/*/proofs/**/*.antt")
    code = files("crates/*/src/**/*.rt")
    names = set()
    for p in antt:
        names |= set(PART.findall(read(p)))
    for p in code:
        outside_strings(read(p), lambda t: names.update(PART.findall(t)) or t)
    table = {n: spelled(n) for n in names - KEPT}
    if listing:
        words = set()
        for p in antt + code:
            words |= set(re.findall(r"[A-Za-z_][A-Za-z0-9_']*", read(p)))
        seen = {}
        for n in sorted(table):
            seen.setdefault(table[n], []).append(n)
            print(n, table[n], "STANDS ALREADY" if table[n] in words else "", sep="\t")
        for new, old in seen.items():
            if len(old) > 1:
                print("FALL TOGETHER", new, old)
        return 0
    for place, name in LEMMAS:
        if name not in table.values():  # it has run already
            continue
        for p in antt:
            if p.startswith(place):
                old = read(p)
                new = re.sub(rf"(?<![A-Za-z0-9_.'-]){name}(?![A-Za-z0-9_'-])", name + "_lem", old)
                if new != old:
                    with open(p, "w", encoding="utf-8") as f:
                        f.write(new)
    turn = lambda t: PART.sub(lambda m: table.get(m.group(0), m.group(0)), t)
    for p in antt + files("crates/*/must-fail/*.edit", "crates/*/mutants/*.edit", "docs/**/*.md", "README.md"):
        old = read(p)
        new = turn(old)
        if new != old:
            with open(p, "w", encoding="utf-8") as f:
                f.write(new)
    for p in code:
        old = read(p)
        new = outside_strings(old, turn)
        if new != old:
            with open(p, "w", encoding="utf-8") as f:
                f.write(new)
    return 0


if __name__ == "__main__":
    raise SystemExit(main(sys.argv[1:]))
