#!/usr/bin/env python3
"""In the answers below proofs/F/, gives names that Rattle makes today's spelling: a name of the source keeps its underscores.

usage: python3 tools/port/goal_names.py [ROOT]      run once, after respell.py
"""

import os
import re
import sys


def main():
    root = os.path.join(sys.argv[1] if len(sys.argv) > 1 else ".", "crates")
    words = {"in_ok", "in_err", "in_default", "from_residual"}
    for folder, dirs, names in os.walk(root):
        dirs[:] = [d for d in dirs if d != "out"]
        for n in names:
            if n.endswith(".rt"):
                text = re.sub(r"//.*", "", open(os.path.join(folder, n), encoding="utf-8").read())
                words |= {w for w in re.findall(r"\b[A-Za-z][A-Za-z0-9]*(?:_[A-Za-z0-9]+)+\b", text)}
    turned = [(re.compile(r"(?<![\w'])" + re.escape(w.replace("_", "-")) + r"(?![\w'])"), w) for w in sorted(words, key=len, reverse=True)]
    for folder, dirs, names in os.walk(root):
        dirs[:] = [d for d in dirs if d != "out"]
        parts = os.path.relpath(folder, root).split(os.sep)
        if len(parts) < 3 or parts[1] != "proofs":
            continue
        for n in sorted(names):
            if not n.endswith(".antt"):
                continue
            path = os.path.join(folder, n)
            text = open(path, encoding="utf-8").read()
            out = []
            for line in text.split("\n"):
                if not (line.startswith("use ") and ".Goals" not in line and ".Given" not in line):
                    for pattern, w in turned:
                        line = pattern.sub(w, line)
                out.append(line)
            new = "\n".join(out)
            if new != text:
                open(path, "w", encoding="utf-8").write(new)
                print(path)


main()
