"""Makes docs/DEFINITION.md, the definition as one document for people without a prover, from the spec files of `definition` and `grid`.

    python3 docs/definition.py            # writes it
    python3 docs/definition.py --check    # changes nothing; exit status 1 where it is stale

A chapter is a file: its comments as text, its code in blocks, its `use` lines as links. Refused, with exit status 1 and one line: a
spec file that is neither a chapter nor excepted, a chapter that rests on a later one, a library's word that the notation doesn't explain.
"""

from __future__ import annotations

import re
import sys
from itertools import groupby
from pathlib import Path
from typing import Iterator, NamedTuple

ROOT = Path(__file__).resolve().parent.parent
DOCUMENT = ROOT / "docs" / "DEFINITION.md"
TITLES = {  # the chapters in their order: no file stands before one that it rests on
    "definition/specs/Field": "Fields of bits",
    "grid/specs/Group": "Points, boxes and groups",
    "grid/specs/Cut": "Ranges, cuts and runs",
    "definition/specs/Rule": "Rules",
    "definition/specs/Sheet": "The packed sheet",
    "definition/specs/Range": "From items to ranges",
    "definition/specs/Stop": "Rules that stop the fold",
    "definition/specs/Point": "From rules to lists at points",
    "definition/specs/Lists": "Lists too long or too many",
    "definition/specs/Overlap": "Days typed twice",
    "definition/specs/Day": "From a list to a day",
    "definition/specs/Group": "From points to rules",
    "definition/specs/Box": "The number of boxes",
    "definition/specs/Fold": "The fold, and writing back",
    "definition/specs/Saying": "What rules say",
    "definition/specs/Text": "Texts",
    "definition/specs/Line": "The line of rules",
    "definition/specs/Show": "The line of a sheet",
    "definition/specs/Date": "Dates and their weeks",
    "definition/specs/Lookup": "The state lookup",
    "definition/specs/Forms": "The two forms, and what a caller calls",
    "definition/specs/Worked": "Worked days",
    "definition/specs/WorkedOverlaps": "Worked overlaps",
    "definition/specs/WorkedLines": "Worked lines",
    "definition/specs/WorkedDates": "Worked dates",
    "definition/specs/WorkedReasons": "Worked reasons",
    "definition/specs/WorkedForms": "Worked forms",
    "definition/specs/WorkedCounts": "Worked counts",
    "definition/specs/WorkedLists": "Worked lists",
    "definition/specs/OverBoxes": "What computes: no promise speaks of it",
}
CRATES = ("definition", "grid")
EXCEPTED = {"definition/specs/Lib", "grid/specs/Lib"}  # lists of modules
USE = re.compile(r"use (?:Rattle\.(\w+)\.specs\.(\w+)|.+?)(?:\.\{(.*)\}| as \w+)")
QUOTATION = re.compile(r'"(?:`[^`]*`|[^"`])*"')

INTRODUCTION = """# The definition

Made by `python3 docs/definition.py` from `crates/definition/specs/` and `crates/grid/specs/`. What is to change is changed there.

Here stands, in full, what is right. Everything promised of the software (docs/PROMISES.md) is an equation to these definitions: for every number of a form, byte
string, date and buffer, the answer and the bytes written are those of the entries in [Forms]: `fold` and `write_back` ([Fold]), `show_line` ([Show]), `lookup`
([Lookup]) and `convert`, in the form that the caller names. That these equations hold is proved, and checked by machine. That the definitions say what was
wanted, no machine can check: a person has to read them. This document is for that person, and asks for nothing but reading.

The definitions were written from two papers: 01, the fold, and 02, the requests after it (M-100 and so on). The papers' words stand in quotation marks beside
what was made of them; `..` stands for words left out.

In short: a **sheet** is bytes that hold **rules**, in one of two **forms**, which differ in how wide some fields are. A rule has an operator (Normal,
Additional or Fallback), a **state** (Open, Closed or Unknown, and the number of a comment), **items** that choose years, months, weeks and weekdays, and
**spans** of time. A rule that can't be folded exactly is a **stopper**: the rules before the first one are **drained**, those from it on are **left**. A
**point** is a weekday, a week, a month and a year; a **box** is all points that some weekdays, weeks, months and years make together. The drained rules give
each point a **list** of rules, and a list makes a **day**: states with their spans. Points of the same day are gathered in **groups**, each over a box, and
each group is written as rules again. These, and behind them the rules left as they were, are the **fold**. The **line** is a sheet as text; the **lookup**
tells the state at a date and minute; the **conversion** moves a sheet to the other form. What can't be answered is **refused**, by a code and a place.

No definition uses a name of a later chapter. [grid's Group] and [grid's Cut] hold general words; how groups are made (`agree` and what follows) is first used in
[Day], and may be left until then. A name that stands in two chapters means in each the chapter's own, else that of a chapter it rests on; `state.f` is the f of
[Lookup]. After [Forms] come tables of worked cases, which are proved of the definition, and last what computes, of which no promise speaks.

## How to read the notation

| written | read |
|---|---|
| `f : T`, below it `f x = e` | f is of type T, and is defined by this equation; several equations are cases, of which exactly one fits |
| `abbrev`, `unfoldable`, `pub` | how the prover and other files may use the name; they change nothing of what it means |
| `A → B → C`, `f x y`, `f x` | a function of an A and a B that gives a C; its value for x and y; for x alone, the function of y that is left |
| `λ x y. e` | the function that takes x and y to e |
| `Type 0`, `{A : Type 0} →`, `(s : Span) →` | the type of types; for every type A, which isn't written where the function is used; for every span s |
| `A × B`, `(x, y)`, `p.0`, `p.1` | the pairs of an A and a B; a pair; its first part; its second. `p.1.0` is the first part of the second part |
| `data T where`, below it `c : A → T` | a type by its cases: each value of T is made by exactly one of the words listed, here `c x` from an x of A |
| `record R where`, `record { f = e; g = d }`, `r.f` | a type of values with named fields; a value by its fields; the field f of r |
| `elim e [ c x ↦ a \\| d ↦ b ]`, `let x = e in b` | by cases: a where e is `c x`, b where e is d; b, where x is e |
| `module _ (x : A) where` | each definition indented below takes x first; among themselves they leave it out |
| `infixr 20 ◌then◌` | `then` is written between its arguments; `a then b then c` is `a then (b then c)` |
| `a ≡ b` | the statement that a and b are equal. A statement is a type, so `×` between two says that both hold |
| what binds | strongest first: `r.f`; `f x`; `^`; `*` `/` `%`; `∷`; `+` `-` `++`; `&&`; `\\|\\|`; `then`; `≡`; `×`; `→` |

| numbers and tests | read |
|---|---|
| `ℕ`, `zero`, `suc n`, `0x1F` | the numbers from 0 on, as large as one likes; 0; n + 1; a number in hexadecimal |
| `a + b`, `a * b`, `a ^ b`, `a - b` | sum; product; a to the power of b; difference, which is 0 where b is above a |
| `a / b`, `a % b` | quotient without remainder; remainder. No divisor here is 0 |
| `Bool`, `true`, `false`, `a && b`, `a \\|\\| b`, `not a` | the two answers of a test; both; one at least; the other answer |
| `eqb a b`, `ltb a b`, `leb a b`, `cond t a b` | tests of two numbers: equal; a below b; a not above b. And a where the test t is true, b where it is false |
| `same_list`, `same_pair`, `same_option`, `same_flag` | equality as a test: of lists, pairs and options by tests of their parts, and of Bools |

| lists, options, texts | read |
|---|---|
| `List A`, `[]`, `x ∷ xs`, `xs ++ ys` | lists of A; the empty one; x, then the list xs; one list behind the other |
| `length xs`, `take n xs`, `drop n xs`, `get_or xs n d` | how many; the first n, or all there are; the list without these; the one at place n, from 0, or d where there is none |
| `map f xs`, `flat_map f xs`, `sum h xs` | f of each; f of each, a list, joined one behind the other; the sum of h of each |
| `every t xs`, `any_of t xs`, `count t xs`, `keep t xs` | do all pass the test t; does one at least; how many do; those that do, in order |
| `any_pair t xs`, `first_index t xs` | does one element pass the test t with a later one; `some` index of the first that passes a test, from 0, or `none` |
| `distinct same xs`, `filled xs` | each element once, of those that the test `same` finds equal the last; has the list an element |
| `from s n`, `replicate n x` | the n numbers from s on; n times x |
| `Option A`, `none`, `some x`, `map f o` | an A or nothing; nothing; the value x; f of the value, if there is one |
| `only_if t x`, `first_of h xs` | `some x` if t is true, else `none`; the first `some` among h of each, else `none` |
| `String`, `"ab"`, `[]ˢ`, `c ∷ˢ s`, `code c` | texts; a text; the empty one; the character c, then the text s; the number of c in ASCII |
"""


class Chapter(NamedTuple):
    path: str
    header: list[str]
    rests_on: list[str]
    words: list[str]  # of libraries
    body: list[str]


def read_chapter(path: str) -> Chapter:
    lines = (ROOT / "crates" / f"{path}.antt").read_text(encoding="utf-8").splitlines()
    places = [place for place, line in enumerate(lines) if line.startswith("use ")]
    uses = [USE.fullmatch(lines[place]).groups() for place in places]
    rests_on = [f"{crate}/specs/{name}" for crate, name, _ in uses if crate in CRATES]
    words = [word.split(" as ")[-1].strip("◌") for crate, _, names in uses if crate not in CRATES and names for word in names.split(", ")]
    return Chapter(path, lines[: places[0]], rests_on, words, lines[places[-1] + 1 :])


def label(path: str) -> str:
    crate, _, name = path.split("/")
    return f"[{name}]" if crate == "definition" else f"[{crate}'s {name}]"


def prose(comment: list[str]) -> str:
    """A comment's text: a block where all of it is one quotation; else its quotations in italics."""
    text = "\n".join(line.strip().removeprefix("--").strip() for line in comment)
    if QUOTATION.fullmatch(text):
        return "> " + text.replace("\n", "\n> ")
    return QUOTATION.sub(r"*\g<0>*", text)


def sort_of(line: str) -> str:
    text = line.strip()
    return "heading" if text.startswith("-- ## ") else "prose" if text.startswith("--") else "code"


def pieces(number: int, chapter: Chapter) -> Iterator[str]:
    yield prose(chapter.header)
    if below := ", ".join(map(label, chapter.rests_on)):
        yield f"Rests on: {below}."
    headings = 0
    for sort, group in groupby(chapter.body, sort_of):
        lines = list(group)
        if sort == "heading":
            headings += 1
            yield f"### {number}.{headings} {lines[0].removeprefix('-- ## ')}"
        elif sort == "prose":
            yield prose(lines)
        elif code := "\n".join(lines).strip("\n"):
            yield f"```\n{code}\n```"


def document(chapters: list[Chapter]) -> str:
    contents, body, anchors = [], [], []
    for number, chapter in enumerate(chapters, 1):
        path = chapter.path
        heading = f"{number}. {TITLES[path]} ({path}.antt)"
        contents.append(f"{number}. {TITLES[path]}: {label(path)}")
        anchors.append(f"{label(path)}: #" + re.sub(r"[^\w\- ]", "", heading.lower()).replace(" ", "-"))
        body += [f"## {heading}", *pieces(number, chapter)]
    return "\n\n".join([INTRODUCTION.strip(), "## Contents", "\n".join(contents), *body, "\n".join(anchors)]) + "\n"


def complaints(chapters: list[Chapter]) -> Iterator[str]:
    files = {f"{crate}/specs/{file.stem}" for crate in CRATES for file in ROOT.glob(f"crates/{crate}/specs/*.antt")}
    yield from (f"{path}.antt is neither a chapter nor excepted" for path in sorted(files - set(TITLES) - EXCEPTED))
    explained = set(re.split(r"[\s(){},;]+", " ".join(re.findall(r"`([^`]+)`", INTRODUCTION.replace("\\|", "|")))))
    earlier: set[str] = set()
    for chapter in chapters:
        path = chapter.path
        yield from (f"{path}.antt stands before {other}.antt, which it rests on" for other in chapter.rests_on if other not in earlier)
        yield from (f"the notation doesn't explain `{word}`, of {path}.antt" for word in chapter.words if word not in explained)
        earlier.add(path)


def main() -> int:
    chapters = [read_chapter(path) for path in TITLES]
    if found := "; ".join(complaints(chapters)):
        print(f"docs/definition.py: {found}")
        return 1
    made = document(chapters)
    if "--check" not in sys.argv[1:]:
        DOCUMENT.write_text(made, encoding="utf-8")
        print(f"docs/DEFINITION.md: {len(chapters)} chapters")
        return 0
    current = DOCUMENT.exists() and DOCUMENT.read_text(encoding="utf-8") == made
    print("docs/DEFINITION.md is what the spec files say" if current else "docs/DEFINITION.md is stale: python3 docs/definition.py makes it anew")
    return 0 if current else 1


if __name__ == "__main__":
    sys.exit(main())
