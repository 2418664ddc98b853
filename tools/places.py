#!/usr/bin/env python3
"""Lists the places in crates/*/src that a reader looks at when the forms of the code are gone through.

    python3 tools/places.py [FOLDER] [POINT..]     FOLDER is the top of a checkout, . if left out

Each line is FILE:LINE and what stands there; each point ends with a count. Tests count too.
The points: enums, codes, flags, twins, types, loops, impls, turns, clauses, groups, buffers, index, switches, proofs.
"""
import collections
import glob
import os
import re
import sys

WORD = re.compile(r"[A-Za-z_][A-Za-z_0-9]*|\d[\d_]*|\S")
KEPT = set("fn self mut let if else match for in while return Some None Ok Err true false as pub impl struct enum".split())


def sources(top):
    return sorted(f for f in glob.glob(os.path.join(top, "crates/*/src/*.rt")))


def functions(lines):
    """Each function's first line, head, clauses and body, by the layout that the formatter gives."""
    at = 0
    while at < len(lines):
        if not re.match(r"\s*(pub(\([a-z]+\))? )?fn ", lines[at]):
            at += 1
            continue
        start, depth, end = at, len(lines[at]) - len(lines[at].lstrip()), at
        close = " " * depth + "}"
        while end < len(lines) and lines[end] != close and not (end == at and lines[end].rstrip().endswith(";")):
            if lines[end].rstrip().endswith(";") and re.match(r" {%d}(requires|ensures)" % (depth + 4), lines[end]):
                break
            end += 1
        text = [l.strip() for l in lines[start : end + 1]]
        clauses = [l for l in text if re.match(r"(requires|ensures)\b", l)]
        head = " ".join(l for l in text[: next((i for i, l in enumerate(text) if re.match(r"(requires|ensures)\b|\{$", l)), 1)])
        opened = text.index("{") if "{" in text else 0
        yield start, head, clauses, text[opened + 1 : -1]
        at = end + 1


def shape(body):
    return " ".join(w if w in KEPT or not (w[0].isalnum() or w[0] == "_") else ("N" if w[0].isdigit() else "I") for w in WORD.findall(" ".join(body)))


def each(top):
    for file in sources(top):
        lines = open(file).read().split("\n")
        yield os.path.relpath(file, top), lines


def grep(top, pattern, keep=lambda l: True):
    for file, lines in each(top):
        for n, line in enumerate(lines, 1):
            if re.search(pattern, line) and not line.strip().startswith("//") and keep(line):
                yield f"{file}:{n}", line.strip()


def enums(top):
    for file, lines in each(top):
        text = "\n".join(lines)
        for m in re.finditer(r"^(?:pub(?:\(super\))? )?enum (\w+)[^{]*\{\n(.*?)^\}", text, re.S | re.M):
            body = re.sub(r"//.*", "", m.group(2))
            variants = re.findall(r"^    (\w+)(\(|\s\{)?", body, re.M)
            loads = sum(1 for v in variants if v[1])
            note = "2 variants, like Option" if len(variants) == 2 and loads == 1 else "2 variants, like Result" if len(variants) == 2 and loads == 2 else f"{len(variants)} variants, {loads} with values"
            yield f"{file}:{text[: m.start()].count(chr(10)) + 1}", f"{m.group(1)}: {note}"


def codes(top):
    for file, lines in each(top):
        for start, head, clauses, body in functions(lines):
            numbers = [l for l in body if re.search(r"=>\s*\d+,$|^\d+ => ", l)]
            if len(numbers) >= 2 or (len(body) == 1 and re.fullmatch(r"\d+", body[0])):
                yield f"{file}:{start + 1}", head[:90]


def flags(top):
    yield from grep(top, r"\b\w+: bool\b")


def twins(top):
    seen = collections.defaultdict(list)
    for file, lines in each(top):
        for start, head, clauses, body in functions(lines):
            if body and (len(body) >= 2 or len(body[0]) > 30):
                seen[shape(body)].append((f"{file}:{start + 1}", head[:70]))
    for key, all_of in sorted(seen.items(), key=lambda kv: kv[1]):
        if len(all_of) > 1:
            yield " = ".join(p for p, _ in all_of), all_of[0][1]


def types(top):
    seen = collections.defaultdict(list)
    for file, lines in each(top):
        text = "\n".join(lines)
        for m in re.finditer(r"^(?:pub(?:\(super\))? )?(?:struct|enum) (\w+)[^{;]*\{\n(.*?)^\}", text, re.S | re.M):
            body = re.sub(r"//.*|ghost .*|pub(\(\w+\))? ", "", m.group(2))
            seen[re.sub(r"\s+", " ", body).strip()].append((f"{file}:{text[: m.start()].count(chr(10)) + 1}", m.group(1)))
    for key, all_of in sorted(seen.items(), key=lambda kv: kv[1]):
        if len(all_of) > 1:
            yield " = ".join(p for p, _ in all_of), all_of[0][1]


def loops(top):
    yield from grep(top, r"^\s*('\w+: )?(while|for|loop)\b.*\{$", lambda l: " for " not in l or re.match(r"\s*for", l))


def impls(top):
    yield from grep(top, r"^impl(<[^>]*>)? [\w:]*(PartialEq|Eq|PartialOrd|Ord|Clone|Copy|Debug|Display|From|TryFrom|Default|Hash)\b")


def turns(top):
    for file, lines in each(top):
        for start, head, clauses, body in functions(lines):
            if re.search(r"fn (\w*_of|of|write|told_of|words_of|place_code|named|fresh|number|state|answer|\w*_words|\w*_told)\(", head):
                yield f"{file}:{start + 1}", head[:100]


def clauses(top):
    seen = collections.defaultdict(list)
    for file, lines in each(top):
        crate = file.split("/")[1]
        for start, head, all_of, body in functions(lines):
            for c in {re.sub(r"^requires (\w+ )?", "", c).rstrip(";") for c in all_of if c.startswith("requires")}:
                seen[crate, re.sub(r"\.(old|now)\b", "", c)].append(start + 1)
    for (crate, c), where in sorted(seen.items()):
        if len(where) >= 3:
            yield f"{crate} x{len(where)}", c


def groups(top):
    seen = collections.Counter()
    for file, lines in each(top):
        crate = file.split("/")[1]
        for start, head, _, _ in functions(lines):
            m = re.search(r"fn \w+(?:<.*?>)?\((.*)\)", head)
            names = [p.split(":")[0].strip() for p in (m.group(1).split(",") if m else []) if ":" in p]
            for a in range(len(names)):
                for b in range(a + 1, len(names)):
                    seen[crate, names[a], names[b]] += 1
    for (crate, a, b), n in sorted(seen.items()):
        if n >= 3:
            yield f"{crate} x{n}", f"{a}, {b}"


def buffers(top):
    yield from grep(top, r"^\s*(pub(\(\w+\))? )?\w+: \[.*; \w+\],")


def index(top):
    yield from grep(top, r"\[[^\]]*[*%+][^\]]*\]|\.\.\w+ \* |\[\w+ \* ")


def switches(top):
    yield from grep(top, r"match (way|self|sought|outcome|\*self|self\.0) \{|if (brief|aside|older|!older)\b|\bfn\(|dyn |impl Fn|: Fn")


def proofs(top):
    for file in sorted(glob.glob(os.path.join(top, "crates/*/proofs/**/*.antt"), recursive=True)):
        yield os.path.relpath(file, top), f"{sum(1 for _ in open(file))} lines"


POINTS = {f.__name__: f for f in (enums, codes, flags, twins, types, loops, impls, turns, clauses, groups, buffers, index, switches, proofs)}

if __name__ == "__main__":
    args = sys.argv[1:]
    top = args.pop(0) if args and os.path.isdir(args[0]) else "."
    for name in args or [p for p in POINTS if p != "proofs"]:
        found = list(POINTS[name](top))
        print(f"== {name}")
        for place, what in found:
            print(f"{place}\t{what}")
        print(f"{name}: {len(found)}")
