"""The stored answers: `python3 oracle/answers.py --seed N` writes crates/replay/data/{fold,lookup,back,line,convert,read}.txt.

All answers are the reference's. Folds inside the Rust's domain are held against the built oracle while the files are
made. A case is a line, its fields separated by a space, bytes in upper-case hex and `-` for none; lines that start with
`#` are remarks. Sheets of form 1 come first, then those of form 2, then those that are no sheets of the form said and forms that
are none. Rests on `reference`, on `cases`, `line_cases`, `overlap_cases`, `why_cases`, `convert_cases`, `large_cases` and
`list_cases` for the sheets and on `remarks` for what is told of a file in front, where the oracle is asked.
"""

from __future__ import annotations

import argparse
from itertools import islice
from pathlib import Path
from random import Random
from typing import Callable, Iterable

import large_cases
import list_cases
from cases import (
    EVERY_SORT, FEWER, Given, damaged, each_refused_sort, generated, is_small, largest, named_dates, named_sheets,
    new_year_dates, other_forms, refused_sort, sample_date, sheets_of_lists, twice_refused,
)
from convert_cases import long_comments, moved_here, refused_before_12
from large_cases import fold_rooms, large_sheets
from line_cases import each_reason, flipped_lines, long_line, named_lines, with_a_line, without_a_line
from list_cases import generated_lists, is_refused_by_lists, is_short_fold, list_sheets
from overlap_cases import each_overlap, refused_by_overlaps_too
from reference.convert import convert
from reference.fold import Folded, Written, fold, write_back
from reference.large import check_large
from reference.line import line
from reference.lookup import lookup
from reference.many_lists import check_many_lists
from reference.sheet import FORMS, Rule, read_sheet, write_sheet
from reference.worked import EXAMPLES, FOLDS, NUMBERED_WEEKS, OVERLAPS, ROOM, check_worked
from remarks import counts_remark, held_against_oracle, reasons_remark, sheets_in, sorts_remarks
from why_cases import each_why

DATA = Path(__file__).parent.parent / "crates" / "replay" / "data"
SEEDS = {1: "{}", 2: "{}/form 2"}  # so that form 2 has other rules than form 1

Entry = Callable[[int, bytes, int], tuple[Folded | Written, bytes]]  # one that writes: form, sheet and room
Date = tuple[int, int, int, int]


# Lines


def hexed(given: bytes) -> str:
    return given.hex().upper() or "-"


def written_case(entry: Entry, given: Given, room: int) -> str:
    answer, result = entry(*given, room)
    return " ".join(map(str, (given.form, hexed(given.sheet), room, *answer, hexed(result))))


def lookup_case(given: Given, date: Date) -> str:
    return " ".join(map(str, (given.form, hexed(given.sheet), *date, *lookup(*given, *date))))


def read_case(given: Given) -> str:
    code, place, _ = refused_sort(given)
    return f"{given.form} {hexed(given.sheet)} {code} {place} {0 if code else len(read_sheet(*given)[0])}"


def in_each_room(entry: Entry, given: Given) -> list[str]:
    """In ample room, exactly full, a byte short and without room."""
    needed = entry(*given, ROOM)[0].bytes
    return [written_case(entry, given, room) for room in dict.fromkeys((ROOM, needed, max(needed - 1, 0), 0))]


def in_some_room(entry: Entry, given: Given, random: Random) -> str:
    return written_case(entry, given, some_room(random, entry(*given, ROOM)[0].bytes))


def some_room(random: Random, needed: int) -> int:
    """Mostly ample, at times just enough, just short or none at all."""
    return random.choices((ROOM, needed, max(needed - 1, 0), needed + 1, 0), (80, 6, 8, 3, 3))[0]


def telling_dates(given: Given, random: Random) -> Iterable[Date]:
    """Of some dates one for each different answer."""
    dates = [sample_date(random) for _ in range(30)]
    return {lookup(*given, *date): date for date in dates}.values()


def in_form(form: int, sheets: Iterable[list[Rule]]) -> Iterable[Given]:
    return (Given(form, write_sheet(form, rules)) for rules in sheets)


def named_in_form(form: int, *named: dict[str, bytes]) -> Iterable[tuple[str, Given]]:
    return ((name, Given(form, sheet)) for sheets in named for name, sheet in sheets.items())


def some(sheets: Iterable[Given], wanted: int, form: int) -> Iterable[Given]:
    return islice(sheets, wanted // FEWER[form])


def for_other_entries(form: int) -> dict[str, bytes]:
    return large_cases.for_other_entries(form) | list_cases.for_other_entries(form)


def large_lines(entry: Entry, form: int) -> list[str]:
    """Sheets that are large or have many lists in a buffer that is exactly full, and in one that is a byte short."""
    lines = []
    for name, given in named_in_form(form, for_other_entries(form)):
        needed = entry(*given, ROOM)[0].bytes
        lines += [f"# {name}", *(written_case(entry, given, room) for room in dict.fromkeys((needed, max(needed - 1, 0))))]
    return lines


# The six lists in one form, each made of remarks and cases


def fold_lines(form: int, seed: str) -> list[str]:
    random = Random(f"{seed}/rooms of folds")
    lines = []
    for name, given in named_in_form(form, named_sheets(form), twice_refused(form), refused_by_overlaps_too(form)):
        lines += [f"# {name}", *in_each_room(fold, given)]
    lines += ["# the largest of many"]
    lines += [written_case(fold, given, ROOM) for given in largest(form, seed)]
    lines += ["# each sort of refusal in reading"]
    lines += [written_case(fold, given, ROOM) for given in each_refused_sort(form, seed, 1)]
    lines += ["# generated, inside the Rust's domain and then anywhere"]
    for inside, wanted in ((True, 1200), (False, 600)):
        sheets = some(generated(form, f"{seed}/folds", inside), wanted, form)
        lines += [in_some_room(fold, given, random) for given in sheets]
    met = set(sheets_in(lines))
    lines += ["# without day items, so that the fold is the day of one list"]
    lists = dict.fromkeys(sheets_of_lists(form, seed))
    lines += [in_some_room(fold, given, random) for given in lists if given not in met]
    for name, sheets in (each_overlap() | each_why()).items():
        lines += [f"# {name}" + ", some of them" * (FEWER[form] > 1)]
        lines += [written_case(fold, given, ROOM) for given in in_form(form, sheets[:: FEWER[form]])]
    for name, given in named_in_form(form, large_sheets(form), list_sheets(form)):
        needed = fold(*given, ROOM)[0].bytes
        rooms = dict.fromkeys((*fold_rooms(name), needed, max(needed - 1, 0)))
        lines += [f"# {name}", *(written_case(fold, given, room) for room in rooms)]
    for name, is_kept in {"folded": is_short_fold, "refused by 6 and 14": is_refused_by_lists}.items():
        lines += [f"# generated, of many lists, {name}"]
        lines += [written_case(fold, given, ROOM) for given in some(generated_lists(form, seed, is_kept), 16, form)]
    return lines


def lookup_lines(form: int, seed: str) -> list[str]:
    random, fewer = Random(f"{seed}/dates"), FEWER[form]
    lines = []
    for name, given in named_in_form(form, named_sheets(form), twice_refused(form), refused_by_overlaps_too(form)):
        dates = ((2000, 2, 29, 720), (1900, 2, 29, 720), (2027, 1, 1, 600))
        lines += [f"# {name}", *(lookup_case(given, date) for date in dates)]
    lines += ["# dates, and numbers that are no dates"]
    example, weeks = Given(form, EXAMPLES[form]), Given(form, write_sheet(form, FOLDS["P6"][0]))
    lines += [lookup_case(given, date) for date in named_dates()[::fewer] for given in (example, weeks)]
    lines += ["# weeks whose comment is their number, around new years"]
    numbered = Given(form, write_sheet(form, NUMBERED_WEEKS))
    lines += [lookup_case(numbered, date) for date in new_year_dates()[::fewer]]
    lines += ["# each sort of refusal in reading"]
    lines += [lookup_case(given, sample_date(random)) for given in each_refused_sort(form, seed, 1)]
    lines += ["# generated, answered and then anyhow"]
    answered = generated(form, f"{seed}/lookups", False, lambda given: lookup(*given, 2024, 2, 29, 600).code == 0)
    small = some(filter(is_small, answered), 400, form)
    lines += [lookup_case(given, date) for given in small for date in telling_dates(given, random)]
    anyhow = generated(form, f"{seed}/any lookup", False)
    lines += [lookup_case(given, sample_date(random)) for given in some(anyhow, 500, form)]
    for cases, sheets in ((large_cases, large_cases.for_other_entries(form)), (list_cases, list_cases.for_lookups(form))):
        for name, given in named_in_form(form, sheets):
            lines += [f"# {name}", *(lookup_case(given, date) for date in cases.DATES)]
    return lines


def back_lines(form: int, seed: str) -> list[str]:
    random = Random(f"{seed}/rooms of write-backs")
    lines = []
    for name, given in named_in_form(form, named_sheets(form), twice_refused(form)):
        length = len(given.sheet)
        rooms = dict.fromkeys((ROOM, length, max(length - 1, 0), 0))
        lines += [f"# {name}", *(written_case(write_back, given, room) for room in rooms)]
    lines += ["# each sort of refusal in reading"]
    lines += [written_case(write_back, given, ROOM) for given in each_refused_sort(form, seed, 1)]
    lines += ["# generated"]
    sheets = some(generated(form, f"{seed}/backs", False), 400, form)
    lines += [written_case(write_back, given, some_room(random, len(given.sheet))) for given in sheets]
    return lines + large_lines(write_back, form)


def line_lines(form: int, seed: str) -> list[str]:
    random = Random(f"{seed}/lines")
    named = {name: write_sheet(form, rules) for name, rules in named_lines(form).items()}
    lines = []
    for name, given in named_in_form(form, named_sheets(form) | twice_refused(form) | named):
        needed = line(*given, ROOM)[0].bytes
        rooms = dict.fromkeys((ROOM, needed + 1, needed, max(needed - 1, 0), 0))
        lines += [f"# {name}", *(written_case(line, given, room) for room in rooms)]
    longest, needed = long_line(form), line(*long_line(form), ROOM)[0].bytes
    lines += ["# the longest, exactly full and a byte short"]
    lines += [written_case(line, longest, room) for room in (needed, needed - 1)]
    lines += ["# each reason against a line, at each of three rules"]
    lines += [written_case(line, given, ROOM) for given in in_form(form, each_reason())]
    lines += ["# each sort of refusal in reading"]
    lines += [written_case(line, given, ROOM) for given in each_refused_sort(form, seed, 1)]
    generated_ones = {
        "generated, with a line": some(in_form(form, with_a_line(form, random)), 900, form),
        "generated, with reasons against a line": some(in_form(form, without_a_line(form, random)), 500, form),
        "generated with a line, one bit flipped": some(flipped_lines(form, random), 400, form),
        "generated anyhow": some(generated(form, f"{seed}/any line", False), 300, form),
    }
    for name, sheets in generated_ones.items():
        lines += [f"# {name}", *(in_some_room(line, given, random) for given in sheets)]
    return lines + large_lines(line, form)


def convert_lines(form: int, seed: str) -> list[str]:
    random = Random(f"{seed}/rooms of conversions")
    lines = []
    for name, given in named_in_form(form, named_sheets(form), twice_refused(form), refused_before_12() if form == 2 else {}):
        lines += [f"# {name}", *in_each_room(convert, given)]
    for name, sheets in (long_comments() if form == 2 else {}).items():
        lines += [f"# {name}", *(written_case(convert, given, room) for given in in_form(form, sheets) for room in (ROOM, 0))]
    lines += ["# each sort of refusal in reading"]
    lines += [written_case(convert, given, ROOM) for given in each_refused_sort(form, seed, 1)]
    lines += ["# generated, moved here from the other form and then anyhow"]
    for sheets in (moved_here(form, f"{seed}/moved"), generated(form, f"{seed}/conversions", False)):
        lines += [in_some_room(convert, given, random) for given in islice(sheets, 200)]
    return lines + large_lines(convert, form)


def read_lines(form: int, seed: str) -> list[str]:
    lines = []
    for name, given in named_in_form(form, named_sheets(form), twice_refused(form)):
        lines += [f"# {name}", read_case(given)]
    short = {"P9": OVERLAPS["P9"][0], "a rule with every sort of item": EVERY_SORT}
    written = {name: write_sheet(form, rules) for name, rules in short.items()}
    for name, given in named_in_form(form, {"the example": EXAMPLES[form]} | written):
        lines += [f"# every truncation and every flipped bit of {name}", *map(read_case, damaged(given))]
    lines += ["# each sort of refusal in reading", *map(read_case, each_refused_sort(form, seed, 5))]
    lines += ["# generated", *map(read_case, some(generated(form, f"{seed}/reads", False), 400, form))]
    for name, given in named_in_form(form, for_other_entries(form)):
        lines += [f"# {name}", read_case(given)]
    return lines


# Cases of a sheet in another form than it was written in, or in none


def written_anyhow(entry: Entry) -> Callable[[Given], list[str]]:
    return lambda given: [written_case(entry, given, room) for room in (ROOM, 0)]


def looked_up_anyhow(given: Given) -> list[str]:
    return [lookup_case(given, date) for date in ((2000, 2, 29, 720), (1900, 2, 29, 720))]


def read_anyhow(given: Given) -> list[str]:
    """No sheet is read in a form that is none."""
    return [read_case(given)] if given.form in FORMS else []


# The files


def write_list(name: str, seed: int, layout: str, remarks: list[str], lines: list[str]) -> None:
    head = [f"# made by: python3 oracle/answers.py --seed {seed}", f"# {layout}", *remarks]
    (DATA / name).write_text("\n".join(head + lines) + "\n")
    print(f"{name}: {sum(not line.startswith('#') for line in lines)} answers")


WRITTEN = "FORM SHEET ROOM CODE BYTES PLACE RESULT"
# Each file with its layout, its list in one form, and its cases of a sheet that is given anyhow.
LISTS = {
    "fold.txt": ("FORM SHEET ROOM CODE DRAINED EMITTED LEFT BYTES PLACE WHY RESULT", fold_lines, written_anyhow(fold)),
    "lookup.txt": ("FORM SHEET YEAR MONTH DAY MINUTE CODE KIND COMMENT PLACE", lookup_lines, looked_up_anyhow),
    "back.txt": (WRITTEN, back_lines, written_anyhow(write_back)),
    "line.txt": (WRITTEN, line_lines, written_anyhow(line)),
    "convert.txt": (WRITTEN, convert_lines, written_anyhow(convert)),
    "read.txt": ("FORM SHEET CODE PLACE RULES", read_lines, read_anyhow),
}


def main() -> None:
    parser = argparse.ArgumentParser(description="Write the stored answers.")
    parser.add_argument("--seed", type=int, required=True)
    seed = parser.parse_args().seed
    check_worked()
    check_large()
    check_many_lists()
    DATA.mkdir(parents=True, exist_ok=True)
    for name, (layout, lines_in, anyhow) in LISTS.items():
        lines = [line for form in FORMS for line in lines_in(form, SEEDS[form].format(seed))]
        lines += ["# no sheets of the form said, and forms that are none"]
        lines += [line for given in other_forms() for line in anyhow(given)]
        remarks = [counts_remark(lines, layout, field) for field in ("FORM", "CODE")] + sorts_remarks(lines)
        if name == "fold.txt":
            remarks += [held_against_oracle(lines), counts_remark(lines, layout, "WHY")]
        if name == "line.txt":
            remarks.append(reasons_remark(lines))
        write_list(name, seed, layout, remarks, lines)


if __name__ == "__main__":
    main()
