#!/usr/bin/env python3
"""Counts the places in src/ that docs/DESIGN-PASS.md speaks of: old forms that today's Rattle has a better one for.

    python3 tools/places.py [--list POINT] [COMMIT]

Counts in the checkout, or as COMMIT has it; `--list POINT` prints the places of a point (as 3, or 1b), one a line. It goes by text, so a row is where to
look: whether a place is one is said on the page.
"""
import re
import subprocess
import sys

NUMBER = r"(?:u8|u16|u32|u64|usize)"
SLICE = r"&(?:'a )?(?:mut )?\[\w+\]"
NOTHING = {"None", "Nothing", "Stops", "Unknown", "NoDate", "Refused", "TooLarge", "Absent", "Empty"}
SIZES = {"few", "some", "more", "many", "short"}
KINDS = {"sort", "kind", "operator", "which", "code", "why", "reason"}
COUNTS = {"n", "m", "k", "count", "used", "length", "size", "rules", "listed", "boxes", "span_count", "rules_left"}


def sources(commit):
    """Each .rt file below crates/*/src with its text."""
    if commit:
        names = subprocess.run(["git", "ls-tree", "-r", "--name-only", commit, "crates"], capture_output=True, text=True, check=True).stdout.split("\n")
    else:
        names = subprocess.run(["git", "ls-files", "crates"], capture_output=True, text=True, check=True).stdout.split("\n")
    for name in names:
        if not re.match(r"crates/\w+/src/.*\.rt$", name):
            continue
        if commit:
            text = subprocess.run(["git", "show", commit + ":" + name], capture_output=True, text=True, check=True).stdout
        else:
            text = open(name).read()
        yield name, text


def code(text):
    """The text without comments and without clauses, each line kept."""
    lines = []
    for line in text.split("\n"):
        line = re.sub(r"//.*", "", line)
        lines.append(line)
    return "\n".join(lines)


def functions(text):
    """Each function: its line, its name, its parameters as (name, type), the lines of its `requires`."""
    for m in re.finditer(r"\bfn (\w+)(?:<[^>]*>)?\(", text):
        depth, at = 1, m.end()
        while depth:
            depth += {"(": 1, ")": -1}.get(text[at], 0)
            at += 1
        body = text.find("\n{", at)
        inner = text.find("\n    {", at)
        end = min(x for x in (body, inner, len(text)) if x > 0)
        parameters = re.findall(r"(?:mut )?(\w+): ([^,()]+|\([^)]*\))", text[m.end():at - 1])
        yield text.count("\n", 0, m.start()) + 1, m.group(1), parameters, re.findall(r"requires[^{]*\{(.*?)\}\n", text[at:end] + "\n", re.S)


def places(commit):
    found = {}
    runs, facts = {}, {}
    impls = {}

    def note(point, name, line, what):
        found.setdefault(point, []).append(f"{name}:{line}: {what}")

    for name, raw in sources(commit):
        text = code(raw)
        for m in re.finditer(r"\benum (\w+)[^{]*\{(.*?)\n\}", text, re.S):
            variants = re.findall(r"^    (\w+)", m.group(2), re.M)
            if NOTHING & set(variants):
                note("1a", name, text.count("\n", 0, m.start()) + 1, f"enum {m.group(1)}: {', '.join(variants)}")
        for m in re.finditer(r"\b(\w+): " + NUMBER + r"\b", text):
            if m.group(1) in KINDS:
                note("1b", name, text.count("\n", 0, m.start()) + 1, m.group(0))
        for m in re.finditer(r"^\s*(?:'\w+: )?while .*", text, re.M):
            note("3", name, text.count("\n", 0, m.start() + 1) + 1, m.group(0).strip())
        for m in re.finditer(r"\b(?:casts::)?(u\d+|usize)_to_(u\d+|usize)\(", text):
            if not re.search(r"\bfn $", text[:m.start()]):
                note("4", name, text.count("\n", 0, m.start()) + 1, m.group(0) + "..)")
        for m in re.finditer(r"^impl (?:\w+ for )?(\w+).*?\{(.*?)\n\}", text, re.S | re.M):
            for f in re.findall(r"\bfn (\w+)", m.group(2)):
                impls.setdefault((name, f), []).append(m.group(1))
        for m in re.finditer(r"\bmatch (\*?\w+) \{\s*\n\s*0(?: \||\.\.| =>)", text):
            note("7", name, text.count("\n", 0, m.start()) + 1, m.group(0).split("{")[0].strip())
        for line, function, parameters, requires in functions(text):
            if SIZES & set(function.split("_")):
                note("2", name, line, "fn " + function)
            names = [p for p, _ in parameters]
            for i in range(len(parameters) - 1):
                if re.fullmatch(SLICE, parameters[i][1].strip()) and re.fullmatch(NUMBER, parameters[i + 1][1].strip()) and parameters[i + 1][0] in COUNTS:
                    note("6", name, line, f"fn {function}: {parameters[i][0]}, {parameters[i + 1][0]}")
            for i in range(len(names)):
                for j in range(i + 3, len(names) + 1):
                    runs.setdefault(tuple(names[i:j]), []).append(f"{name}:{line}: fn {function}")
            for fact in requires:
                facts.setdefault(" ".join(fact.split()), []).append(f"{name}:{line}: fn {function}")
            if "plain" in names:
                note("7", name, line, f"fn {function}: a flag for the engine")
    for (name, f), types in sorted(impls.items()):
        if len(types) > 1:
            note("2", name, 0, f"fn {f} in the impls of {', '.join(types)}")
    kept = {r: w for r, w in runs.items() if len(w) >= 3}
    longest = [r for r in kept if not any(r != q and " ".join(r) in " ".join(q) and len(kept[q]) == len(kept[r]) for q in kept)]
    functions_with = sorted({w for r in longest for w in kept[r]})
    found["5a"] = functions_with
    found["5b"] = [f"{len(w)} times: {fact[:150]}" for fact, w in sorted(facts.items(), key=lambda x: -len(x[1])) if len(w) >= 3]
    return found


TITLES = {
    "1a": "enums with a variant for nothing or for a refusal",
    "1b": "kinds, sorts and refusals declared as numbers",
    "2": "functions named by a size, and methods that stand in several impls of a file",
    "3": "`while` loops",
    "4": "calls that take a number from one type to another",
    "5a": "functions with three parameters in a row that two others have in a row too",
    "5b": "facts that stand in the `requires` of three functions or more",
    "6": "a slice with its length beside it",
    "7": "switches by number, flags for an engine",
}


def main(words):
    point = None
    if words[:1] == ["--list"]:
        point, words = words[1], words[2:]
    found = places(words[0] if words else None)
    if point:
        print("\n".join(found.get(point, [])))
        return
    for p, title in TITLES.items():
        print(f"{p:3} {len(found.get(p, [])):4}  {title}")


main(sys.argv[1:])
