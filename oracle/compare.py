"""The reference held against the Rust oracle: `compare.py --seed N --count N [--form N] [--any|--days|--halves] [--large|--lists]`.

Generated sheets go to both; counts are printed and, where the two differ, the smallest inputs. Exit status 1 on any
difference. Why a fold stopped isn't compared: the Rust tells no reason. Nor is a sheet that code 11 refuses, for ranges that
overlap: the Rust folds it. The sheets stay inside the Rust's domain, but with `--any`. `--days` compares days of lists in place
of folds. `--halves` takes drained rules alone, and the Rust, whose years and weeks don't wrap, gets those that do as their two
halves. With `--form 2` both read and write sheets of form 2: to the Rust a comment is a text, whatever its length. With `--large`
the sheets have many rules and boxes; there code 13 is compared too, by the counts of the Rust's own result. With `--lists` they
have many lists; there codes 6 and 14 are compared too, by the Rust's own lists after each rule. Rests on the built oracle
(oracle/target/release/oracle), on `generate` and on `reference`.
"""

from __future__ import annotations

import argparse
import subprocess
import sys
from collections import Counter
from functools import partial
from multiprocessing import Pool
from pathlib import Path
from random import Random
from typing import Iterator, NamedTuple

from generate import add_sorts, sheets
from reference.check import check_boxes_against_points, check_other_form
from reference.counts import MOST_ITEMS, MOST_RULES, PAST_COUNTS
from reference.day import day_of, rules_of_day
from reference.fold import AMPLE_ROOM, fold
from reference.lists import DIFFERENT_LIMIT, LIST_LIMIT, LIST_TOO_LONG, TOO_MANY_LISTS
from reference.overlap import RANGES_SHARE
from reference.points import DIMENSIONS, TOO_MANY_BOXES, drained_of, ranges_of
from reference.sheet import (
    FORMS, PADDING, PAST_ITS_LIMIT, PAST_THE_END, UNLAWFUL, Refusal, Week, Year, read_sheet, write_sheet,
)

ORACLE = Path(__file__).parent / "target" / "release" / "oracle"
WORKERS, CHUNK, SHOWN = 2, 500, 5
POINT_CHECK_EVERY = 50  # the literal check costs several folds
UNREADABLE = "outside unreadable"
BEFORE_LISTS = (PAST_THE_END, UNLAWFUL, PADDING, PAST_ITS_LIMIT, RANGES_SHARE, TOO_MANY_BOXES)  # refused before any list is judged
_, WEEKS, _, YEARS = DIMENSIONS


class Difference(NamedTuple):
    sheet: bytes
    reference: str
    oracle: str


def oracle_lines(form: int, given: list[bytes], mode: list[str]) -> list[str]:
    """One line of the oracle for each sheet; `crashed` for one that it doesn't survive."""
    text = "".join(sheet.hex() + "\n" for sheet in given)
    done = subprocess.run([ORACLE, "--form", str(form), *mode], input=text, capture_output=True, text=True)
    if done.returncode == 0:
        return done.stdout.splitlines()
    if len(given) == 1:
        return ["crashed"]
    return [line for sheet in given for line in oracle_lines(form, [sheet], mode)]


def fold_line(form: int, sheet: bytes) -> str:
    """The fold as the oracle prints it, or `refused CODE PLACE`."""
    answer, result = fold(form, sheet, AMPLE_ROOM)
    if answer.code:
        return f"refused {answer.code} {answer.place}"
    return f"{answer.drained} {answer.emitted} {answer.left} {result.hex().upper()}"


def day_line(form: int, sheet: bytes) -> str:
    """The day of the list of all rules, days and operators put aside, or `refused CODE PLACE`."""
    try:
        rules, _ = read_sheet(form, sheet)
    except Refusal as refusal:
        return f"refused {refusal.code} {refusal.place}"
    return write_sheet(form, rules_of_day(day_of(rules))).hex().upper()


def drained_alone(form: int, sheet: bytes) -> bytes:
    """The sheet without the rules left; a refused sheet as it is."""
    try:
        return write_sheet(form, drained_of(read_sheet(form, sheet)[0]))
    except Refusal:
        return sheet


def in_halves(form: int, sheet: bytes) -> bytes:
    """The sheet with each range of years or weeks as the parts that it is split into; a refused sheet as it is."""
    try:
        rules, _ = read_sheet(form, sheet)
    except Refusal:
        return sheet
    return write_sheet(form, [
        rule._replace(
            years=tuple(Year(start, after - 1, 1) for start, after in ranges_of(rule, YEARS) if rule.years),
            weeks=tuple(Week(start, after - 1, 1) for start, after in ranges_of(rule, WEEKS) if rule.weeks),
        )
        for rule in rules
    ])


def is_past_counts(theirs: str) -> bool:
    """Whether the oracle's result has more rules or items than form 1 can count: then it prints its counts alone."""
    match theirs.split():
        case [_, emitted, left, "items", most]:
            return int(emitted) + int(left) > MOST_RULES or int(most) > MOST_ITEMS
    return False


def code_of(line: str) -> int:
    """The code by which the reference refuses, 0 where it folds."""
    return int(line.split()[1]) if line.startswith("refused") else 0


def refused_by_lists(lists: str) -> str:
    """What the oracle's lists after each rule ask for: the first refusal by 6 or 14, 6 first at the same rule, or none."""
    for index, standing in enumerate(filter(None, lists.split(","))):
        different, longest = map(int, standing.split())
        if longest > LIST_LIMIT:
            return f"refused {LIST_TOO_LONG} {index}"
        if different > DIFFERENT_LIMIT:
            return f"refused {TOO_MANY_LISTS} {index}"
    return ""


def judged_by_lists(sheet: bytes, ours: str, lists: str) -> tuple[str, Difference | None] | None:
    """What the sheet counts as where 6 or 14 is given or wanted, and the difference, if there is one."""
    code = code_of(ours)
    if code in BEFORE_LISTS or lists.startswith("outside"):
        return None
    wanted, given = refused_by_lists(lists), ours if code in (LIST_TOO_LONG, TOO_MANY_LISTS) else ""
    if wanted == given:
        return (f"refused by the Rust's lists too: code {code}", None) if given else None
    return "differing by the Rust's lists", Difference(sheet, ours, wanted or "lists that are not refused")


def verdict(sheet: bytes, ours: str, theirs: str, lists: str | None = None) -> tuple[str, Difference | None]:
    """What the sheet counts as, and the difference, if there is one."""
    judged = lists is not None and judged_by_lists(sheet, ours, lists)
    if judged:
        return judged
    if ours == f"refused {PAST_COUNTS} 0" and not theirs.startswith("outside"):
        return "past the counts of form 1", None if is_past_counts(theirs) else Difference(sheet, ours, theirs)
    if ours.startswith("refused"):
        code = code_of(ours)
        answered = code in (PAST_THE_END, UNLAWFUL, PADDING) and not theirs.startswith("outside")
        return f"refused by the reference: code {code}", Difference(sheet, ours, theirs) if answered else None
    if theirs.startswith("outside") and theirs != UNREADABLE:
        return theirs, None
    if ours == theirs:
        return "compared and equal", None
    return "compared and differing", Difference(sheet, ours, theirs)


class Work(NamedTuple):
    """Which sheets are compared, and how."""

    form: int
    seed: int
    mode: str
    sort: str | None


def lines_of_both(work: Work, numbers: range) -> Iterator[tuple[bytes, str, str, str | None]]:
    """Each sheet, the reference's line and the oracle's, and its lists where sheets of many lists are compared."""
    form, mode = work.form, work.mode
    given = list(sheets(form, work.seed, numbers, mode in ("folds", "days"), work.sort))
    theirs = given
    if mode == "halves":
        given = [drained_alone(form, sheet) for sheet in given]
        theirs = [in_halves(form, sheet) for sheet in given]
    line, options = (day_line, ["--days"]) if mode == "days" else (fold_line, [])
    lists = oracle_lines(form, theirs, ["--lists"]) if work.sort == "lists" and mode != "days" else [None] * len(given)
    return zip(given, map(partial(line, form), given), oracle_lines(form, theirs, options), lists, strict=True)


def compare_chunk(work: Work, numbers: range) -> tuple[Counter, list[Difference]]:
    counts: Counter = Counter()
    differences = []
    for number, (sheet, ours, theirs, lists) in zip(numbers, lines_of_both(work, numbers)):
        name, difference = verdict(sheet, ours, theirs, lists)
        counts[name] += 1
        if difference:
            differences.append(difference)
        if work.mode != "days" and number % POINT_CHECK_EVERY == 0 and not ours.startswith("refused"):
            check_boxes_against_points(drained_of(read_sheet(work.form, sheet)[0]), Random(number))
            check_other_form(work.form, sheet)
            counts["checked at points and in the other form too"] += 1
    return counts, differences


def report(count: int, counts: Counter, differences: list[Difference]) -> None:
    print(f"{count:>9} sheets")
    for name, number in sorted(counts.items()):
        print(f"{number:>9} {name}")
    print(f"{len(differences):>9} differences")
    for difference in sorted(differences, key=lambda found: (len(found.sheet), found.sheet))[:SHOWN]:
        print(f"sheet     {difference.sheet.hex().upper()}")
        print(f"reference {difference.reference}\noracle    {difference.oracle}")


def main() -> int:
    parser = argparse.ArgumentParser(description="Compare the reference with the Rust oracle on generated sheets.")
    parser.add_argument("--seed", type=int, required=True)
    parser.add_argument("--count", type=int, required=True)
    parser.add_argument("--form", type=int, choices=FORMS, default=1)
    modes = parser.add_mutually_exclusive_group()
    modes.add_argument("--any", dest="mode", action="store_const", const="any", help="outside sheets and damaged ones too")
    modes.add_argument("--days", dest="mode", action="store_const", const="days", help="days of lists in place of folds")
    modes.add_argument("--halves", dest="mode", action="store_const", const="halves", help="ranges that wrap as halves")
    parser.set_defaults(mode="folds")
    add_sorts(parser)
    arguments = parser.parse_args()
    chunks = [range(start, min(start + CHUNK, arguments.count)) for start in range(0, arguments.count, CHUNK)]
    counts: Counter = Counter()
    differences: list[Difference] = []
    with Pool(WORKERS) as pool:
        work = Work(arguments.form, arguments.seed, arguments.mode, arguments.sort)
        for chunk_counts, chunk_differences in pool.imap_unordered(partial(compare_chunk, work), chunks):
            counts += chunk_counts
            differences += chunk_differences
    report(arguments.count, counts, differences)
    return 1 if differences else 0


if __name__ == "__main__":
    sys.exit(main())
