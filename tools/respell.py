#!/usr/bin/env python3
"""Brings the repository's own definitions, lemmas and record fields to today's spelling.

usage: python3 tools/respell.py          at the top of the repository, once, right after port.py

Functions, lemmas, fields of records and ghost members go to snake case (`flatOf` is `flat_of`, `address-group` is `address_group`); types, facts and
modules are in camel case already. A dash stays only where it joins the names of two definitions. Names are taken from specs/ and from
the lemma files of proofs/; they are respelled in the proofs, the clauses of src/, the must-fail edits, README.md and docs/. Functions
of src/, strings, inputs and outputs keep their names.
"""

import glob
import re
import sys

# a dash stays where it joins two definitions
JOINED = {
    # two lemmas whose names port.py already turned, and which would fall together with functions
    "room_after": "room_after_lem",
    "round_trip": "round_trip_lem",
    "getD-page-words": "get_or-page_words",
    "length-page-words": "length-page_words",
    "after-append": "after-append",
    "spaced-append": "spaced-append",
    "worth-append": "worth-append",
    "worth-front": "worth-front",
    "front-append": "front-append",
    "front-digits": "front-digits",
    "pack-front": "pack-front",
}
TOKEN = re.compile(r"[^\s(){}\[\].,;:«»`\"|/\\⌜⌝◌]+")
HEAD = re.compile(r"^(\s*)((?:(?:pub|abbrev|unfoldable|record|data) )*)([^\s:(]+)(?: [({].*)? :(?: |$)")


def snake(name):
    name = re.sub(r"(?<=[a-z0-9])([A-Z])", lambda m: "_" + m.group(1).lower(), name)
    return name.replace("-", "_")


def own():
    """The names that are defined in specs/ and in the lemma files, functions, lemmas and fields, and the ghost members of src/."""
    found = set()
    for path in glob.glob("crates/*/specs/**/*.antt", recursive=True) + glob.glob("crates/*/proofs/*.antt"):
        with open(path, encoding="utf-8") as file:
            for line in file:
                head = HEAD.match(line)
                if not head or line.lstrip().startswith(("use ", "--")):
                    continue
                indent, marks, name = head.groups()
                if not indent or "pub" in marks or "abbrev" in marks or "unfoldable" in marks:
                    found.add(name)
    for path in glob.glob("crates/*/src/**/*.rt", recursive=True):
        with open(path, encoding="utf-8") as file:
            found.update(re.findall(r"^ *(?:pub )?ghost (\w+)(?::| =)", file.read(), re.M))
    return found


def main():
    table = {}
    names = own()
    functions = {snake(n) for n in names if "-" not in n and n not in JOINED}
    for name in names:
        if re.search(r"[⌜⌝◌]", name) or name[0].isupper():
            continue
        new = JOINED.get(name, snake(name))
        if name not in JOINED and "-" in name and new in functions:
            new += "_lem"
        if new != name:
            table[name] = new
    back = {}
    for old, new in table.items():
        back.setdefault(new, set()).add(old)
    for new, olds in sorted(back.items()):
        if len(olds) > 1 or (new in names and new not in table):
            sys.exit(f"{new} would stand for {sorted(olds)}")
    files = [p for pattern in ("crates/*/src/**/*.rt", "crates/*/specs/**/*.antt", "crates/*/proofs/**/*.antt", "crates/*/must-fail/*.edit") for p in glob.glob(pattern, recursive=True)]
    files += ["README.md"] + [p for p in glob.glob("docs/*.md") if not p.endswith("PORT.md")]
    changed = 0
    for path in sorted(files):
        with open(path, encoding="utf-8") as file:
            text = file.read()
        for clash in sorted(set(TOKEN.findall(text)) & set(back)):
            if back[clash] & set(TOKEN.findall(text)):
                print(f"look: {path}: {clash} is there beside {sorted(back[clash])}")
        new = TOKEN.sub(lambda m: table.get(m.group(0), m.group(0)), text)
        if new != text:
            changed += 1
            if "--dry" not in sys.argv:
                with open(path, "w", encoding="utf-8") as file:
                    file.write(new)
    print(f"{len(table)} names, {changed} files")
    if "--table" in sys.argv:
        for old, new in sorted(table.items()):
            print(f"{old} {new}")


if __name__ == "__main__":
    main()
