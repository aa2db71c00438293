#!/usr/bin/env python3
"""Brings this repository's own definitions and lemmas to Rattle's spelling of names.

usage: tools/respell.py          at the top of the repository, once, after the toolchain's own porting script

A type or a fact is written in camel case, a word in snake case.
A lemma on a word of the library that is named by its left side keeps the dash behind that word; any other is in snake case.
Names of goals, of functions in src/, strings and comments in src/ stay as they are. In specs/ and proofs/ comments name definitions, and follow them; so do the names between backticks in README.md and docs/.
It prints each renaming, and stops before it writes anything if two names would fall together.
"""
import collections
import os
import re
import sys

SIGNATURE = re.compile(r"^(\s*)((?:abbrev |unfoldable |pub )*)(data |record )?([^\s(){};,.=|λ]+)((?: [^:]*)?) : (.*)$")
TOKEN = re.compile(r"[^\s(){}\[\];,.\"`|]+")
# Imports whose plain spelling is another name of the repository already.
CHOSEN = {"Input-line": "InputVariant", "Gate-line": "GateVariant"}
STD_WORDS = "length take drop map set replicate get_or sum reverse insert slice_get".split()


def files(root, ends):
    for folder, dirs, names in os.walk(root):
        dirs[:] = sorted(d for d in dirs if d != "out")
        for name in sorted(names):
            if name.endswith(ends):
                yield os.path.join(folder, name)


def is_type(result):
    return result.rstrip().endswith(("Type 0", "Type 0 where"))


def collect(root):
    kinds = collections.defaultdict(set)
    for path in files(root, ".rt"):
        with open(path, encoding="utf-8") as f:
            for line in f:
                if line.lstrip().startswith("ghost use "):
                    for alias in re.findall(r" as ([^\s,;}]+)", line):
                        kinds[alias].add("alias")
    for path in files(root, ".antt"):
        with open(path, encoding="utf-8") as f:
            for line in f:
                code = line.split("--")[0]
                found = SIGNATURE.match(code)
                if found:
                    space, marks, sort, name, between, result = found.groups()
                    if name in ("use", "let", "in", "elim", "module") or "=" in between or result.startswith("goal."):
                        continue
                    if sort or (is_type(result) and "→ Type 0 →" not in result):
                        kinds[name].add("type")
                    elif "abbrev" in marks or "unfoldable" in marks:
                        kinds[name].add("word")
                    elif space and not re.search(r"≡|≤|<|⊥|¬|↔", result):
                        kinds[name].add("word")
                    else:
                        kinds[name].add("lemma")
                elif re.match(r"\s*use ", code):
                    for alias in re.findall(r" as ([^\s,;}]+)", code):
                        kinds[alias].add("alias")
    return kinds


def camel(name):
    return "".join(part[:1].upper() + part[1:] for part in re.split(r"[-_]", name))


def snake(name):
    return name.replace("-", "_")


def lemma(name, words):
    """`length-take`, `length-first_marks`: a word of the library at a word; any other lemma in snake case."""
    for first in STD_WORDS:
        if name.startswith(first + "-") and snake(name[len(first) + 1 :]) in words:
            return first + "-" + snake(name[len(first) + 1 :])
    return snake(name)


def renamings(kinds):
    words = set(STD_WORDS) | {"append"} | {snake(n) for n, k in kinds.items() if "word" in k}
    to = {}
    for name, sorts in kinds.items():
        if re.search(r"◌", name):
            continue
        if name in CHOSEN:
            new = CHOSEN[name]
        elif "type" in sorts or (name[0].isupper() and "-" in name):
            new = camel(name)
        elif sorts == {"lemma"}:
            new = lemma(name, words)
        else:
            new = snake(name)
        if new != name:
            to[name] = new
    return to


def turn(text, to):
    return TOKEN.sub(lambda m: to.get(m.group(), m.group()), text)


def turn_source(text, to):
    """Clauses of a source file: no comment and no string."""
    out = []
    for line in text.split("\n"):
        parts = re.split(r"(b?\"(?:[^\"\\]|\\.)*\"|//.*$)", line)
        out.append("".join(p if i % 2 else turn(p, to) for i, p in enumerate(parts)))
    return "\n".join(out)


def main():
    root = "crates"
    kinds = collect(root)
    to = renamings(kinds)
    new = collections.defaultdict(set)
    for name in kinds:
        new[to.get(name, name)].add(name)
    clashes = {n: sorted(olds) for n, olds in new.items() if len(olds) > 1}
    for n, olds in sorted(clashes.items()):
        print(f"falls together: {', '.join(olds)} -> {n}", file=sys.stderr)
    if clashes:
        return 1
    for path in files(root, (".antt", ".rt")):
        with open(path, encoding="utf-8") as f:
            old = f.read()
        text = turn_source(old, to) if path.endswith(".rt") else turn(old, to)
        if text != old:
            with open(path, "w", encoding="utf-8") as f:
                f.write(text)
    for path in ["README.md"] + list(files("docs", ".md")):
        with open(path, encoding="utf-8") as f:
            old = f.read()
        text = re.sub(r"`[^`\n]*`", lambda m: turn(m.group(), to), old)
        if text != old:
            with open(path, "w", encoding="utf-8") as f:
                f.write(text)
    for name in sorted(to):
        print(f"{name} -> {to[name]}")
    return 0


if __name__ == "__main__":
    raise SystemExit(main())
