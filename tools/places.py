#!/usr/bin/env python3
"""Finds the places in src/ that docs/DESIGN-PASS.md counts.

usage: python3 tools/places.py POINT [TOP]

POINT is 1 to 8 as in that page, TOP the top of a checkout (here: `.`). Each place is printed with its file and line, then how
many there are. A place that is printed is one to be judged, and not always one to be changed.
"""

import collections
import difflib
import glob
import os
import re
import sys

POINT = sys.argv[1]
TOP = sys.argv[2] if len(sys.argv) > 2 else "."

FILES = sorted(glob.glob(os.path.join(TOP, "crates/*/src/**/*.rt"), recursive=True))

# words of the language stay as they are when two bodies are compared
WORDS = set(
    "fn let mut if else match for in while loop return self Self Ok Err Some None true false as bool u8 u32 u64 usize".split()
)


def short(path):
    return os.path.relpath(path, TOP)


def code(line):
    return line.split("//")[0]


def lines_with(pattern, but=None):
    found = []
    for path in FILES:
        for number, line in enumerate(open(path), 1):
            text = code(line)
            if text.startswith("ghost use"):
                continue
            if re.search(pattern, text) and not (but and re.search(but, text)):
                found.append(f"{short(path)}:{number}: {line.strip()}")
    return found


def functions():
    """Each function with its parameters, its clauses and its body."""
    for path in FILES:
        text = open(path).read()
        for start in re.finditer(r"^( *)(?:pub(?:\(crate\))? )?fn (\w+)", text, re.M):
            indent = start.group(1)
            end = re.search(rf"^{indent}}}$|^{indent}\{{\}}$|;$", text[start.end():], re.M)
            whole = text[start.start(): start.end() + (end.end() if end else 0)]
            head, brace, body = whole.partition(f"\n{indent}{{")
            if not brace:
                head, brace, body = whole.partition(" {\n")
            yield short(path), text.count("\n", 0, start.start()) + 1, start.group(2), head, body


def shape(body):
    body = "\n".join(code(l) for l in body.split("\n"))
    tokens = re.findall(r"[A-Za-z_]\w*|\d\w*|[^\s\w]", body)
    return [t if t in WORDS or not re.match(r"\w", t) else "n" if t[0].isdigit() else "x" for t in tokens]


def twins():
    """Two functions of a crate whose bodies have one shape, but for a word in ten; and one that only calls a private one of its file."""
    found = []
    everything = [(p, n, f, shape(b)) for p, n, f, h, b in functions()]
    private = {(p, f) for p, n, f, h, b in functions() if not h.strip().startswith("pub")}
    for p, n, f, h, b in functions():
        call = re.fullmatch(r"(?:self\.)?(\w+)\((?:self, )?([\w, ]*)\);?", b.strip(" {}\n"))
        if call and h.strip().startswith("pub") and (p, call.group(1)) in private:
            found.append(f"{p}:{n}: {f} only calls {call.group(1)}")
    for i, (p, n, f, s) in enumerate(everything):
        for q, m, g, t in everything[i + 1:]:
            if p.split("/")[1] != q.split("/")[1] or len(s) < 12 or abs(len(s) - len(t)) > len(s) // 8:
                continue
            if difflib.SequenceMatcher(None, s, t, autojunk=False).ratio() >= 0.9:
                found.append(f"{p}:{n}: {f} and {q}:{m}: {g}")
    return found


def repeats():
    """Facts that stand in the clauses of three functions or more, and pairs of parameters that three or more have."""
    facts = collections.defaultdict(list)
    pairs = collections.defaultdict(list)
    for p, n, f, head, body in functions():
        for clause in re.findall(r"(?:requires|ensures) *\w* *\{(.*?)\}\s*(?=requires|ensures|$)", head, re.S):
            for fact in re.split(r"\) × \(|→", clause):
                fact = re.sub(r"\s+", " ", fact).strip(" ()")
                if "result" not in fact and len(fact) > 4:
                    facts[fact].append(f)
        names = re.findall(r"(\w+): (&mut |&)?([\w\[<>\]]+)", head.split("->")[0].split("ensures")[0].split("requires")[0])
        typed = sorted({f"{a}: {b}{c}" for a, b, c in names if a != "rt" and not a[0].isupper()})
        for i, x in enumerate(typed):
            for y in typed[i + 1:]:
                pairs[x, y].append(f)
    found = [f"{len(v)} functions: {k}" for k, v in sorted(facts.items()) if len(set(v)) >= 3]
    found += [f"{len(v)} functions: {x}, {y}" for (x, y), v in sorted(pairs.items()) if len(set(v)) >= 3]
    return found


def proofs():
    found = []
    for path in sorted(glob.glob(os.path.join(TOP, "crates/*/proofs/**/*.antt"), recursive=True)):
        found.append(f"{short(path)}: {sum(1 for _ in open(path))} lines")
    return found


PLACES = {
    "1": lambda: lines_with(r"^\s*(pub )?enum ")
    + lines_with(r"\(.*, bool\)")
    + lines_with(r"\b(state|mode|nat|status|kind|code|number): u(8|32|64)\b|fn number\b"),
    "2": twins,
    "3": lambda: lines_with(r"\bfor \w.* in |\bfor \(|\bwhile |\bloop \{|\+= (1|count)\b", r"impl|ghost"),
    "4": lambda: lines_with(r"matches!\(|\bmatch (res|result|outcome|answer)\b|fn (from_\w+|to_\w+|of_word|image|word|number|eq|cmp|fmt)\b|fn push_\w+")
    + lines_with(r"#\[derive\(", r"PartialEq|\(Drop\)"),
    "5": repeats,
    "6": lambda: lines_with(r"Vec<|\[[a-z]\w*; *\w+\]|= \[.*; [0-9A-Z_]+\]|vec_len \w+ ≡ vec_len|enum Operands"),
    "7": lambda: lines_with(r"\bmatch (self\.machine\.state|instruction|\(.*state.*\))|self\.(put|leave|drive|enter|change)\(|= self\.context\(\)"),
    "8": proofs,
}

places = PLACES[POINT]()
for place in places:
    print(place)
print(f"point {POINT}: {len(places)} places")
