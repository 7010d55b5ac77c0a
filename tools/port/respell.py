#!/usr/bin/env python3
"""Brings the repository's own definitions and lemmas to today's spelling: words in snake case, types and facts in camel case.

usage: python3 tools/port/respell.py [ROOT]      run once, right after the kit's script port.py

A definition, constructor, field or lemma `fooBar` or `foo-bar` becomes `foo_bar`. In a lemma a dash stays only between two names of
definitions, as in `walk-part`. A type `Foo-bar` becomes `FooBar`. Names that Rattle makes, names of the library and names from src/
stay; a lemma that would have the name of a function of src/ gets `_lem`, and a definition may have it. It stops without a change where a new name is already in use.
"""

import os
import re
import sys

IDENT = r"[^\s(){}\[\];,.:=|\"`]+"
TOKEN = re.compile(IDENT)
KEYWORDS = {"let", "in", "where", "pub", "abbrev", "data", "record", "use", "module", "elim", "as", "unfolding", "unfoldable", "open", "mutual", "_", "λ"}
DECL = re.compile(r"^\s*((?:(?:abbrev|pub|unfoldable|data|record|let)\s+)*)(" + IDENT + r"(?:\s+" + IDENT + r")*)\s*(?:[({].*)?:\s")
USE = re.compile(r"^\s*(?:ghost )?use ([^\s{;]+?)\.?\{(.*)\}", re.S)
MADE = re.compile(r"^(returns|loop|invariant|decreases|then|else|in|if)-|-requires$|^(returns|inv)$")
# library words that may stand beside a dash
WORDS = {"length", "append", "take", "drop", "set", "map", "reverse", "get_or", "slice_get", "slice_set", "replicate"}
# a line of the grammar, which the first script took for a type; a law that would have the name of what it is about
FIXED = {"Expr-line": "expr_line", "stored-in": "stored_in_lem"}


def files(root, ends):
    for folder, dirs, names in os.walk(os.path.join(root, "crates")):
        dirs[:] = sorted(d for d in dirs if d != "out")
        for n in sorted(names):
            if n.endswith(ends):
                yield os.path.join(folder, n)


def read(path):
    with open(path, encoding="utf-8") as f:
        return f.read()


def snake(word):
    word = re.sub(r"getD", "get_or", word)
    return re.sub(r"(?<=[a-z0-9'])([A-Z])", lambda m: "_" + m.group(1).lower(), word)


def main():
    root = sys.argv[1] if len(sys.argv) > 1 else "."
    crates = set(os.listdir(os.path.join(root, "crates")))
    antt = {p: read(p) for p in files(root, (".antt",))}
    rt = {p: read(p) for p in files(root, (".rt",))}
    own, defined, lemmas, made, library, used = set(), set(), set(), set(), set(), set()
    for path, text in antt.items():
        place = path.split(os.sep + "crates" + os.sep)[1].split(os.sep)
        answers = place[1] == "proofs" and len(place) > 3
        for line in text.split("\n"):
            if line.strip().startswith("--"):
                continue
            m = DECL.match(line)
            if not m:
                continue
            names = [n for n in m.group(2).split() if n not in KEYWORDS]
            if re.search(r":\s*goal\.", line):
                made.update(names)
                continue
            if answers:
                names = [n for n in names if not MADE.search(n)]
            own.update(names)
            (defined if place[1] == "specs" else lemmas).update(names)
            if "abbrev" in m.group(1) or "data" in m.group(1):
                defined.update(names)
    for text in list(antt.values()) + list(rt.values()):
        used.update(TOKEN.findall(text))
        for line in text.split("\n"):
            m = USE.match(line)
            if not m:
                continue
            parts = m.group(1).split(".")
            mine = parts[0] == "Rattle" and len(parts) > 1 and parts[1] in crates
            for item in m.group(2).split(","):
                words = item.split()
                if len(words) == 3 and words[1] == "as":
                    own.add(words[2])
                if words and (not mine or "Goals" in parts or "declared" in parts):
                    library.add(words[0])
    own -= made
    own -= library
    known = {snake(n) for n in defined if "-" not in n and len(n) > 3} | WORDS
    functions = {n for text in rt.values() for n in re.findall(r"\bfn (\w+)", text)}
    new = {}
    for name in sorted(own):
        if name in FIXED:
            to = FIXED[name]
        elif name[0].isupper():
            parts = name.split("-")
            to = parts[0] + "".join(p[:1].upper() + p[1:] for p in parts[1:])
        else:
            parts = [snake(p) for p in name.split("-")]
            to, left = parts[0], parts[0]
            for part in parts[1:]:
                dash = name not in defined and left in known and part in known
                to += ("-" if dash else "_") + part
                left = part if dash else left + "_" + part
        if "-" in name and to in functions:
            to += "_lem"
        if to != name:
            new[name] = to
    back = {}
    clash = []
    for name, to in new.items():
        if (to in used and to not in functions) or to in back:
            clash.append((name, to, back.get(to, "in use")))
        back[to] = name
    if clash:
        for c in clash:
            print("falls together: %s -> %s (%s)" % c)
        raise SystemExit(2)

    def turn(m):
        return new.get(m.group(0), m.group(0))

    for path, text in {**antt, **rt}.items():
        out = TOKEN.sub(turn, text)
        if out != text:
            with open(path, "w", encoding="utf-8") as f:
                f.write(out)
    for name, to in new.items():
        print(name, to)


main()
