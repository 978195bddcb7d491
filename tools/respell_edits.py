#!/usr/bin/env python3
"""Spells the names in must-fail/*.edit as tools/respell.py spelled them in the crates, and drops the brackets and spaces that today's clauses have no more.

    python3 tools/respell_edits.py OLDER NEWER

OLDER is a checkout of the commit in the first line of docs/PORT.md, NEWER the one to mend. It then names each edit whose text does not stand once in its file.
"""
import os
import re
import sys

sys.dont_write_bytecode = True
WORD = r"[^\s(){}.;,@\"«»:\[\]|`]+"
HUMP = re.compile(r"(?<=[a-z0-9])[A-Z]")


def snake(name):
    parts = name.split("-")
    return "-".join(p if p[0:1].isupper() else HUMP.sub(lambda m: "_" + m.group(0).lower(), p) for p in parts)


def table(root):
    names = set()
    for folder, dirs, files in os.walk(os.path.join(root, "crates")):
        for name in files:
            if name.endswith(".antt"):
                with open(os.path.join(folder, name), encoding="utf-8") as f:
                    names.update(re.findall(WORD, re.sub(r"--[^\n]*", "", f.read())))
    return {n: snake(n) for n in names if not n[0].isdigit() and snake(n) != n}


def tight(text):
    """A projection is written tight, and `now x` is `x.now`."""
    text = re.sub(r"(?<=[\w)'₀-₉]) \.(?=[a-zA-Z0-9])", ".", text)
    text = re.sub(r"\(([\w.'₀-₉]+)\)(?=[\s),]|$)", r"\1", text)
    return text.replace("⌜ ", "").replace(" ⌝", "")


def main():
    older, newer = sys.argv[1:3]
    rows = table(older) | {"getD": "get_or"}
    left = 0
    for crate in sorted(os.listdir(os.path.join(newer, "crates"))):
        folder = os.path.join(newer, "crates", crate, "must-fail")
        for name in sorted(os.listdir(folder)) if os.path.isdir(folder) else []:
            path = os.path.join(folder, name)
            with open(path, encoding="utf-8") as f:
                lines = f.read().split("\n")
            file = next(l[6:].strip() for l in lines if l.startswith("file: "))
            with open(os.path.join(newer, "crates", crate, file), encoding="utf-8") as f:
                text = f.read()
            out = []
            for line in lines:
                if line.startswith(("old: ", "new: ")):
                    said = line[5:]
                    respelled = re.sub(WORD if file.endswith(".antt") else r"[\w'-]+", lambda m: rows.get(m.group(0), m.group(0)), said)
                    said = respelled if text.count(said) != 1 or line.startswith("new: ") else said
                    if file.endswith(".antt") and (line.startswith("new: ") or text.count(said) != 1):
                        said = tight(said)
                    line = line[:5] + said
                out.append(line)
            if out != lines:
                with open(path, "w", encoding="utf-8") as f:
                    f.write("\n".join(out))
            for line in out:
                if line.startswith("old: ") and text.count(line[5:]) != 1:
                    left += 1
                    print(f"{crate}/{name}: {file}: {text.count(line[5:])} times: {line[5:]}")
    print(f"{left} left")


main()
