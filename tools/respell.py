#!/usr/bin/env python3
"""Spells the repository's own definitions, fields and lemmas in snake case, as the library's words are: `fieldAt` becomes `field_at`, `cutAt-climb` becomes
`cut_at-climb`. A type keeps its capital, and so do functions of src/, exported names, strings, inputs and outputs.

    python3 tools/respell.py [FOLDER]

It was run once, right after the kit's port.py, at the top of the checkout that port.py had turned. It changes whole words in .antt files, in clauses,
`ghost use` lines and comments of .rt files and in code spans of pages. It stops, with nothing written, where two names of one file would fall together.
"""
import os
import re
import sys

WORD = r"[^\s(){}.;,@\"«»:\[\]|`]+"
HUMP = re.compile(r"(?<=[a-z0-9])[A-Z]")

# A lemma that had the name which its definition takes now.
LEMMAS = {"same_flag": "same_flag_lem"}
# A lemma of one file that had the name of a definition which the file cites.
IN_FILE = {
    "crates/plain_lists/proofs/Same.antt": {"list_at": "list_at_lem"},
    "crates/fold_write/proofs/Answer.antt": {"no_room": "no_room_lem"},
    "crates/fold_write/proofs/emit_in/Proof.antt": {"no_room": "no_room_lem"},
}


def snake(name):
    """A dash joins two names; the parts that are types stay."""
    parts = name.split("-")
    return "-".join(p if p[0:1].isupper() else HUMP.sub(lambda m: "_" + m.group(0).lower(), p) for p in parts)


def files(root, endings):
    for folder, dirs, names in os.walk(root):
        dirs[:] = sorted(d for d in dirs if d not in ("out", ".git", "target", "src") or (d == "src" and "crates" in folder))
        for name in sorted(names):
            if name.endswith(endings):
                yield os.path.join(folder, name)


def without_comments(text):
    return re.sub(r"--[^\n]*", "", text)


def table(root):
    names = set()
    for path in files(os.path.join(root, "crates"), (".antt",)):
        with open(path, encoding="utf-8") as f:
            names.update(re.findall(WORD, without_comments(f.read())))
    return {n: snake(n) for n in names if not n[0].isdigit() and snake(n) != n}


def turned(text, rows, pattern):
    return pattern.sub(lambda m: rows.get(m.group(0), m.group(0)), text)


def main():
    root = sys.argv[1] if len(sys.argv) > 1 else "."
    rows = table(root)
    writes, clashes = {}, []
    for path in files(root, (".antt", ".rt", ".md")):
        local = os.path.relpath(path, root)
        if local.startswith(("docs/src", "docs/PORT")):
            continue
        with open(path, encoding="utf-8") as f:
            text = f.read()
        mine = dict(rows)
        if local.endswith(".antt"):
            mine.update(LEMMAS)
            mine.update(IN_FILE.get(local, {}))
            words = set(re.findall(rf"(?<![^\s(){{}};,@«»]){WORD}", without_comments(text)))
            clashes += [f"{local}: {o} and {n}" for o, n in mine.items() if o in words and n in words and n not in mine]
        if local.endswith(".md"):
            new = re.sub(r"`[^`\n]+`", lambda m: turned(m.group(0), mine, re.compile(r"[\w'′-]+")), text)
        else:
            new = turned(text, mine, re.compile(WORD if local.endswith(".antt") else r"[\w'-]+"))
        if new != text:
            writes[path] = new
    if clashes:
        sys.exit("\n".join(clashes))
    for path, new in writes.items():
        with open(path, "w", encoding="utf-8") as f:
            f.write(new)
    print(f"{len(rows)} names, {len(writes)} files")


main()
