#!/usr/bin/env python3
"""Respells the repository's own definitions, lemmas, record fields and local names, once, after the kit's port.py.

usage: python3 tools/respell.py [FOLDER]      FOLDER has crates/; without it the current one

It reads specs/ and proofs/ for the names, and turns them there and in the clauses of src/. A name of words joined by
dashes gets underscores, or upper camel case where it names a fact or a type. Names that the check makes (goals, steps,
invariants) keep their dashes, and so do names of the library, none of which is one of ours. A name cited through the
alias of a module (`laws.one-record`) is left, and mended by hand.
"""

import glob
import os
import re
import sys

# Names that would fall together with another, a function's or a module's, and one in camel case, with the words chosen instead.
CHOSEN = {
    "Set-up": "WasSetUp",
    "first-maps": "first_maps_lem",
    "one-record": "one_record_lem",
    "record-bytes": "record_bytes_lem",
    "entriesOf": "entries_of",
}
NAME = r"[A-Za-z][\w'-]*"
TOKEN = re.compile(r"(?<![\w'.-])" + NAME)
SHOWN = re.compile(r"(?<=\.)" + NAME)
QUALIFIED = re.compile(r"(Rattle\.(?:[\w'-]+\.)+)(" + NAME + ")")
TOP = re.compile(r"^ *(?:abbrev pub |abbrev |unfoldable pub |unfoldable |pub )?(" + NAME + r") :", re.M)
TYPE = re.compile(r"^pub (?:record|data) (" + NAME + ")", re.M)
RECORD = re.compile(r"^pub record [^\n]*where\n((?:(?: +[^\n]*)?\n)+)", re.M)
FIELD = re.compile(r"^ +pub (" + NAME + r") :", re.M)
GOAL = re.compile(r"^(?:abbrev pub |pub )?(" + NAME + r") : goal\.", re.M)
BOUND = re.compile(r"(?:\blet\s+|;\s+)(" + NAME + r")\s+(?::|=)|\((" + NAME + r"(?: " + NAME + r")*) :|\{(" + NAME + r"(?: " + NAME + r")*) :|λ \(?(" + NAME + r"(?:,? " + NAME + r")*)\)?\.")


def respelled(name):
    if name in CHOSEN:
        return CHOSEN[name]
    words = name.split("-")
    if name[0].isupper():
        return "".join(w[:1].upper() + w[1:] for w in words)
    return "_".join(words)


def texts(folder, ending):
    found = glob.glob(os.path.join(folder, "crates", "*", "**", "*" + ending), recursive=True)
    return sorted(f for f in found if "/out/" not in f)


def read(path):
    with open(path, encoding="utf-8") as f:
        return f.read()


def defined(paths):
    names = set()
    for path in paths:
        text = read(path)
        goals = set(GOAL.findall(text))
        names |= {n for n in TOP.findall(text) + TYPE.findall(text) if ("-" in n or n in CHOSEN) and n not in goals}
    return names


def fields(paths):
    return {n for path in paths for block in RECORD.findall(read(path)) for n in FIELD.findall(block) if "-" in n}


def local(text):
    names = set()
    for groups in BOUND.findall(text):
        for group in groups:
            names |= {w for w in re.findall(NAME, group) if "-" in w}
    return names - set(GOAL.findall(text))


def turn(text, names, shown):
    text = TOKEN.sub(lambda m: respelled(m.group(0)) if m.group(0) in names else m.group(0), text)
    text = QUALIFIED.sub(lambda m: m.group(1) + (respelled(m.group(2)) if m.group(2) in names else m.group(2)), text)
    return SHOWN.sub(lambda m: respelled(m.group(0)) if m.group(0) in shown else m.group(0), text)


def main(argv):
    folder = argv[0] if argv else "."
    proofs = texts(folder, ".antt")
    names = defined(proofs)
    shown = fields(proofs)
    for path in proofs:
        text = read(path)
        new = turn(text, names | local(text), shown)
        if new != text:
            with open(path, "w", encoding="utf-8") as f:
                f.write(new)
    for path in texts(folder, ".rt"):
        text = read(path)
        new = turn(text, names, shown)
        if new != text:
            with open(path, "w", encoding="utf-8") as f:
                f.write(new)
    print(f"{len(names)} names, {len(shown)} fields")


if __name__ == "__main__":
    main(sys.argv[1:])
