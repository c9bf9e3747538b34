#!/usr/bin/env python3
"""Turns the hand-written proofs of a crate's functions (proofs/F/Proof.antt) to Invariants.antt and Answers.antt.

usage: python3 tools/answers.py NAMES.json crates/NAME ..

NAMES.json is what `rt check --generated FOLDER --old-names` writes in the crate's folder. A goal is found by its old name, a step by
its old name, and the steps on the way to it ('before') are dropped. What has no new name is printed.
"""

import json
import os
import re
import sys

TOKEN = r"[A-Za-z_₀-₉][A-Za-z0-9_'₀-₉]*(?:-[A-Za-z0-9_'₀-₉]+)*"


def plain(name):
    return name.replace("-", "_")


def split_items(text):
    """The arguments of tie.spec."""
    items, depth, word = [], 0, ""
    for ch in text:
        if ch in "([{":
            depth += 1
        if ch in ")]}":
            depth -= 1
            if depth < 0:
                break
        if ch in " \n" and depth == 0:
            if word:
                items.append(word)
            word = ""
        else:
            word += ch
    if word:
        items.append(word)
    return items


class Proof:
    def __init__(self, crate, folder, names, params):
        self.crate, self.folder, self.names = crate, folder, names
        self.said = []
        self.params = params
        # the parameters of the function that a step calls
        self.called = {p[2][1]: names["params"].get(p[3], []) for p in names["places"] if p[3]}
        self.goals = {plain(a): b for a, b in names["needs"]}
        self.steps = {}
        self.negated = {p[2][1] for p in names["places"] if p[4] and p[2][1].startswith("if-not-")}
        for place, parent, (old, new), callee, args in names["places"]:
            # a name of Rattle's own for a value that a call gave back is cited nowhere
            if old and not (callee is None and re.fullmatch(re.escape(old) + r"-\d+", new)):
                self.steps.setdefault(plain(old), new)
        # what an arm of a match binds or knows, by the old step and its fields
        self.arms = {}
        for row in names["arms"]:
            if row:
                for field, step, path in row[2]:
                    if path:
                        self.arms.setdefault((plain(step), *path), f"{row[0]}.{field}")
        self.typed = {}
        for row in names["typed"]:
            for var, step in row:
                self.typed.setdefault(plain(step), var)

    def goal(self, name):
        old = plain(name)
        for cut in (old, re.sub("^overflow_", "", old)):
            if cut in self.goals:
                return self.goals[cut]
        self.said.append(f"no goal {name}; there are {sorted(self.goals.items())}")
        return None

    def body(self, text):
        text = re.sub(r"\.before\b", "", text)

        def known(m):
            step = plain(m.group(2))
            return f"c.type_inv.{self.typed[step]}" if step in self.typed else m.group(0)

        text = re.sub(r"\b([a-z]\w*)\.((?:shared|mut|slice|array)[a-z_-]*known\d*)\.given", known, text)
        for (step, *path), new in self.arms.items():
            at = step.replace("_", "[-_]") + "".join(r"\." + p for p in path)
            text = re.sub(r"\." + at + r"(?![\w-])", "." + new.replace("\\", ""), text)

        if "result" in self.steps:
            text = re.sub(r"\.result(?=\.(?:ensures|result)\b)", "." + self.steps["result"], text)
        if "well_formed" not in self.steps:
            text = text.replace(".well-formed", ".well_formed")
        for n, name in enumerate(self.params, 1):
            text = re.sub(rf"\bargs\.t{n}\b", f"args.{name}", text)

        same = re.findall(r"\blet (\w+) = [\w.-]+\.args in", text) or ["args"]

        def step(m):
            name = plain(m.group(1))
            for shorter in (name.removesuffix("_lem"), name.rstrip("0123456789")):
                if name not in self.steps and shorter in self.steps:
                    name = shorter
            if re.search(r"\b(?:args|new|ranges|type_inv|auto|branch|" + "|".join(same) + ")$", m.string[: m.start()]):
                return m.group(0)
            if name in self.steps and name not in ("args", "now", "requires", "ensures", "result", "new"):
                return "." + self.steps[name]
            return m.group(0)

        text = re.sub(r"\.(" + TOKEN + ")", step, text)
        # the test of `if !x` says what x is
        def lent(m):
            params = self.called.get(m.group(1), [])
            at = m.group(2).count("1")
            return f".{m.group(1)}.new.{params[at]}" if at < len(params) else m.group(0)

        arms = sorted({r[0] for r in self.names["arms"] if r and r[0].startswith("in-")})
        if len(arms) == 1:
            text = re.sub(r"\.in-\w+\.keys\d+", ".in_default.not-" + arms[0][3:], text)
        text = re.sub(r"\.([\w-]+)\.new\.((?:1\.)*0)\b", lent, text)
        test = r"(\w+\.if-not-[\w-]+\.(?:true|false))"
        text = re.sub(r"\bnot-(?:true|false) (?:_|[\w.-]+) " + test, r"<\1>", text)
        text = re.sub(r"(?<![<\w])" + test, lambda m: f"(ap not {m.group(1)})" if m.group(1).split(".")[1] in self.negated else m.group(0), text)
        return re.sub("<" + test + ">", r"\1", text)

    def invariant(self, text):
        """The new text of an invariant or measure."""
        head, _, body = text.partition("=")
        words = head.split()
        which, params = words[0], words[1:]
        kind, _, loop = which.partition("-")
        for i, ((old, new), vars_) in enumerate(self.names["loops"]):
            if plain(old) == plain(loop):
                break
        else:
            self.said.append(f"no loop {which}")
            return None
        changed = self.names["changed"][i]
        places = ["l.initial." + v if c else "l." + v for v, c in zip(vars_, changed)]
        places += ["l." + v for v, c in zip(vars_, changed) if c]
        if len(places) != len(params):
            self.said.append(f"{which} has {len(params)} parameters: {params}, expected {places}")
            return None
        table = dict(zip(params, places))
        body = re.sub(r"(?<![.\w'])" + TOKEN, lambda m: table.get(m.group(0), m.group(0)), body)
        word = f"{kind}-{new}"
        return f"abbrev pub {word} : goal.{word}\n{word} l ={body}"

    def turn(self):
        path = os.path.join(self.folder, "Proof.antt")
        text = open(path, encoding="utf-8").read()
        blocks = re.split(r"\n\n+", text.strip("\n"))
        head = blocks[0].split("\n")
        comment = [l for l in head if l.startswith("--")]
        uses = [l for l in head if l.startswith("use ") and not re.search(r"(Statement\.\{statement\}|\.Tie as tie|\.Lts\b.*)$", l)]
        rest = "\n".join(l for l in head if not l.startswith(("--", "use ")))
        if rest.strip():
            blocks.insert(1, rest)
        me = next(l for l in head if l.endswith(".Tie as tie"))[4:].split(".Tie")[0]
        invariants, answers, other = [], [], []
        spec = None
        for block in blocks[1:]:
            lines = block.split("\n")
            note = []
            while lines and lines[0].startswith("--"):
                note.append(lines.pop(0))
            first = lines[0] if lines else ""
            code = "\n".join(lines)
            m = re.match(r"abbrev (?:pub )?(?:invariant|decreases)-\S+ :", first)
            if m:
                new = self.invariant("\n".join(lines[1:]))
                invariants.append("\n".join(note + ([new] if new else ["-- BY HAND"] + ["-- " + l for l in lines])))
                continue
            if "tie.close" in code or re.match(r"pub \S+_spec :", first):
                spec = code
                continue
            m = re.match(r"(\S+) : tie\.Need-(\S+)(.*)$", first)
            if m:
                new = self.goal(m.group(2))
                unfolding = [l for l in lines[1:] if l.startswith("unfolding ")]
                code = "\n".join(l for l in lines[1:] if not l.startswith("unfolding "))
                lhs, _, body = code.partition("=")
                binders = lhs.split()[1:]
                if not binders or binders[0] != "c" and binders[0] != "_":
                    self.said.append(f"binders {lhs}")
                if re.fullmatch(r"\s*search rules\s*", body) and not unfolding:
                    continue
                if new is None:
                    other.append("-- BY HAND: " + m.group(2) + "\n" + self.body(block))
                    continue
                answers.append("\n".join(note + [f"pub {new} : goal.{new}"] + unfolding + [f"{new} {binders[0] if binders else 'c'} ={self.body(body)}"]))
                continue
            other.append(self.body(block))
        if spec and "tie.spec" in spec:
            inner = spec[spec.index("tie.spec") + 8 :]
            items = split_items(inner)
            items = [i for i in items if not re.match(r"(invariant|decreases)-", i)]
            inline = [(n, i) for n, i in enumerate(items) if i.startswith("(λ") and not re.fullmatch(r"\(λ c( κs)?\. search rules\)", i, re.S)]
            for n, item in inline:
                if len(items) == len(self.names["needs"]):
                    new = self.names["needs"][n][1]
                    m = re.match(r"\(λ c(?: κs)?\.\s*(.*)\)$", item, re.S)
                    answers.append(f"pub {new} : goal.{new}\n{new} c = {self.body(m.group(1))}")
                else:
                    self.said.append(f"inline answer {n} of {len(items)} ({len(self.names['needs'])} goals): {self.body(item)}")
        elif spec:
            self.said.append("spec: " + spec)
        os.remove(path)
        if invariants:
            with open(os.path.join(self.folder, "Invariants.antt"), "w", encoding="utf-8") as f:
                f.write("\n".join(uses + [f"use {me}.Given as goal"]) + "\n\n" + "\n\n".join(invariants) + "\n")
        whole = "\n".join(other + answers)
        for word, module in (("ap", "mathlib.Core.Path"), ("not", "mathlib.Core.Bool")):
            if "(ap not " in whole and not any(re.search(r"[{ ]" + word + r"[,}]", u) for u in uses):
                uses.append(f"use {module}.{{{word}}}")
        if answers or other:
            with open(os.path.join(self.folder, "Answers.antt"), "w", encoding="utf-8") as f:
                f.write("\n".join(comment + uses + [f"use {me}.Goals as goal"]) + "\n\n" + "\n\n".join(other + answers) + "\n")


def parameters(crate, name):
    """The names of a function's parameters."""
    for folder, _, found in os.walk(os.path.join(crate, "src")):
        for file in found:
            text = open(os.path.join(folder, file), encoding="utf-8").read()
            m = re.search(rf"\bfn {name}\(([^)]*)\)", text)
            if m:
                return re.findall(r"(?:^|,)\s*(?:mut )?(\w+):", m.group(1))
    return []


def main():
    with open(sys.argv[1], encoding="utf-8") as f:
        names = json.load(f)
    for crate in sys.argv[2:]:
        name = os.path.basename(crate)
        for folder, _, found in sorted(os.walk(os.path.join(crate, "proofs"))):
            if "Proof.antt" not in found:
                continue
            where = os.path.relpath(folder, os.path.join(crate, "proofs")).replace(os.sep, ".")
            key = f"Rattle-{name}-proofs.{where}.Lts"
            if key not in names:
                print(f"{key}: not among the names")
                continue
            proof = Proof(name, folder, names[key], parameters(crate, os.path.basename(folder)))
            proof.turn()
            for line in proof.said:
                print(f"{name}/{where}: {line}")


if __name__ == "__main__":
    main()
