#!/usr/bin/env python3
"""Brings the must-fail edits whose old text no longer stands to the spelling that port.py and respell.py gave the files.

usage: python3 tools/edits.py LANDED

LANDED is the commit before the port. The line of the old text there and the line that stands for it now give the words that were
respelled; the new text gets the same words. What is left is printed.
"""

import difflib
import glob
import os
import re
import subprocess
import sys

TOP = os.path.join(os.path.dirname(os.path.realpath(__file__)), "..")
TOKEN = re.compile(r"[A-Za-z_][\w'′]*(?:-[\w'′]+)*|\s+|[^\w\s]")


def tight(text):
    """A projection is written tight."""
    text = re.sub(r"\(([\w\u2080-\u2089]+) \.(\w+)\)", r"\1.\2", text)
    text = re.sub(r"((?:admitResult|checkResult|jobResult|spanOf)(?: (?!≡)[\w(][\w.)]*)+) \.(\w+)", r"(\1).\2", text)
    text = re.sub(r"\((\([^()]*\)\.\w+)\)", r"\1", text)
    return re.sub(r"(?<=[\w)]) \.(?=[A-Za-z0-9])", ".", text)


def words(text):
    return [t for t in TOKEN.findall(text) if not t.isspace()]


def table_of(old_lines, new_lines):
    table = {}
    for a, b in zip(old_lines, new_lines):
        x, y = words(tight(a)), words(tight(b))
        for tag, i, j, k, l in difflib.SequenceMatcher(None, x, y, False).get_opcodes():
            if tag == "replace" and j - i == l - k:
                for p, q in zip(x[i:j], y[k:l]):
                    if re.match(r"[A-Za-z_]", p) and re.match(r"[A-Za-z_]", q):
                        table.setdefault(p, {}).setdefault(q, 0)
                        table[p][q] += 1
    return {p: max(q, key=q.get) for p, q in table.items()}


def show(commit, path):
    done = subprocess.run(["git", "show", f"{commit}:{path}"], cwd=TOP, capture_output=True, text=True)
    return done.stdout if done.returncode == 0 else None


def main():
    landed = sys.argv[1]
    for path in sorted(glob.glob(os.path.join(TOP, "crates/*/must-fail/*.edit"))):
        crate = os.path.relpath(path, TOP).split("/must-fail/")[0]
        lines = open(path, encoding="utf-8").read().split("\n")
        file, texts, out, bad = None, {}, [], []
        for n, line in enumerate(lines):
            if line.startswith("file: "):
                file = line[6:].strip()
                now = os.path.join(TOP, crate, file)
                texts.setdefault(file, open(now, encoding="utf-8").read() if os.path.exists(now) else "")
            elif line.startswith("old: "):
                old = line[5:]
            elif line.startswith("new:"):
                new = line[5:]
                if texts[file].count(old) != 1:
                    was = show(landed, f"{crate}/{file}") or ""
                    # (the words come from the file as it stands, without what earlier pairs made of it)
                    a, b = was.split("\n"), open(os.path.join(TOP, crate, file), encoding="utf-8").read().split("\n")
                    a = [l for l in a if not l.startswith("use ")]
                    b = [l for l in b if not l.startswith("use ")]
                    table = table_of(a, b) if len(a) == len(b) else {}
                    turn = lambda t: re.sub(r"[A-Za-z_][\w'′]*(?:-[\w'′]+)*", lambda m: table.get(m.group(0), m.group(0)), tight(t))
                    if texts[file].count(turn(old)) == 1:
                        old, new = turn(old), turn(new)
                        out[-1] = "old: " + old
                        line = "new: " + new
                    else:
                        bad.append((old, turn(old), len(a), len(b)))
                texts[file] = texts[file].replace(old, new)
            out.append(line)
        if bad:
            print(os.path.relpath(path, TOP), file, bad)
        if out != lines:
            with open(path, "w", encoding="utf-8") as f:
                f.write("\n".join(out))


if __name__ == "__main__":
    main()
