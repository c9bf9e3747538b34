#!/usr/bin/env python3
"""Brings the repository's own definitions and lemmas to the spelling of today's Rattle, once, after port.py.

usage: python3 tools/respell.py [--list]

Words are in snake case. A dash stays between a definition's name and what follows it (sweep_from-add). A lemma whose plain form is
the name of something else gets _lem. Only tokens of .antt files and of .rt files are changed, comments with them; the folders
proofs/F/ of functions follow what they cite. --list prints the old and the new names and writes nothing.
"""

import collections
import os
import re
import sys

TOP = os.path.join(os.path.dirname(os.path.realpath(__file__)), "..", "crates")
TOKEN = re.compile(r"[A-Za-z_][A-Za-z0-9_']*(?:-[A-Za-z0-9_']+)*")
DECLARED = re.compile(r"^\s*(?:(?:abbrev|unfoldable|pub|record|data)\s+)*([a-z][A-Za-z0-9_']*(?:-[A-Za-z0-9_']+)*)\s*:\s")
FUNCTION = re.compile(r"\bfn ([a-z0-9_]+)")
# lemmas that port.py gave the name which a definition gets here
LEMMAS = ("all_held", "goes_on", "passes_of", "two_bytes", "went_on")


def files():
    for folder, dirs, names in os.walk(TOP):
        dirs[:] = sorted(d for d in dirs if d not in ("out", "must-fail"))
        for name in sorted(names):
            if name.endswith((".antt", ".rt")):
                yield os.path.join(folder, name)


def of_function(path):
    parts = os.path.relpath(path, TOP).split(os.sep)
    return len(parts) > 3 and parts[1] == "proofs"


def snake(name):
    return re.sub(r"(?<=[a-z0-9])([A-Z])", lambda m: "_" + m.group(1).lower(), name)


def main():
    texts = {p: open(p, encoding="utf-8").read() for p in files()}
    declared, tokens = collections.Counter(), collections.Counter()
    for path, text in texts.items():
        for line in text.split("\n"):
            tokens.update(TOKEN.findall(line))
            if path.endswith(".antt") and not of_function(path):
                m = DECLARED.match(line)
                if m and not line.strip().startswith(("--", "use ")):
                    declared[m.group(1)] += 1
    # the words that begin a lemma's name: definitions, whose dash stays
    definitions = {n for n in declared if re.search("[a-z0-9][A-Z]", n) and "-" not in n}
    table, lemmas = {n: n + "_lem" for n in LEMMAS}, set(LEMMAS)
    for name in declared:
        if "-" in name and name.split("-")[0] not in definitions and not re.search("[a-z0-9][A-Z]", name):
            table[name] = name.replace("-", "_")
            lemmas.add(name)
        elif snake(name) != name:
            table[name] = snake(name)
    made = collections.Counter(table.values())
    for name in lemmas - set(LEMMAS):
        if made[table[name]] > 1 or tokens[table[name]]:
            table[name] += "_lem"
    for old, new in sorted(table.items()):
        if "--list" in sys.argv:
            note = " (two)" if list(table.values()).count(new) > 1 else " (taken)" if tokens[new] and old not in lemmas else ""
            print(old, new + note)
    if "--list" in sys.argv:
        return
    functions = {f for t in texts.values() for f in FUNCTION.findall(t)}
    steps = {f.replace("_", "-") for f in functions}
    for path, text in texts.items():

        def turn(m):
            name = m.group(0)
            # the step of a call in a function's proof is no lemma
            if of_function(path) and name in steps and text[m.start() - 1 : m.start()] == ".":
                return name
            return table.get(name, name)

        changed = TOKEN.sub(turn, text)
        if changed != text:
            with open(path, "w", encoding="utf-8") as f:
                f.write(changed)


if __name__ == "__main__":
    main()
