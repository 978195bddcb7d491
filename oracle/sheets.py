"""Makes crates/replay/data/{readings,write_backs,lines,conversions,folds,lookups}: the stored answers as records, and more.

    python3 oracle/sheets.py

First come the answers of crates/replay/data/{read,back,line,convert,fold,lookup}.txt, as they stand there. Then, answered by
the reference, every truncation and every flipped bit of small sheets: for each field that a sheet of a form can have, the
shortest accepted ones of read.txt that have it. Each of these is read, written back to a buffer one byte longer than itself,
and moved to the other form, to a buffer one byte longer than that. Likewise of the shortest ones of line.txt that have a
line, each written as a line to a buffer one byte longer than that.

A record is the form in eight bytes, two numbers of three bytes each, the sheet, and what is told of it; of every number the
high byte comes first. So the program that replays them takes no text apart. The two numbers are the sheet's length, and the
length of the sheet and of what is told.

    a reading      CODE PLACE RULES END, and the place of each rule's first bit in three bytes
    a write-back   CODE BYTES PLACE ROOM, and the bytes that stand at the front of the buffer
    a line         the same
    a conversion   the same
    a fold         CODE DRAINED EMITTED LEFT BYTES PLACE WHY ROOM, and the bytes that stand at the front of the buffer
    a lookup       YEAR MONTH DAY MINUTE in eight bytes each, CODE KIND COMMENT PLACE

END is the place of the first bit after the rules, 0 where the sheet is refused; ROOM is the buffer's length. Rests on
`answers`, `remarks` and `cases` for the sheets and on `reference`.
"""

from __future__ import annotations

from functools import partial
from typing import Callable, Iterable

from answers import DATA, Entry, read_case, written_case
from cases import Given, all_fields, damaged, is_accepted
from generate import fields_met
from reference.convert import convert
from reference.fold import Folded, Written, write_back
from reference.line import line
from reference.sheet import read_sheet
from reference.worked import ROOM
from remarks import in_forms

SHEETS_FOR_A_FIELD = {1: 2, 2: 1}  # by form
SIZE_LIMIT = 65536  # the program's buffer for what follows a record's three numbers
LONG = 8  # bytes of a number that an entry takes


def numbers(values: Iterable[int], width: int = 3) -> bytes:
    return b"".join(value.to_bytes(width, "big") for value in values)


def record(given: Given, told: bytes) -> bytes:
    body = given.sheet + told
    assert len(body) <= SIZE_LIMIT, len(body)
    return numbers((given.form,), LONG) + numbers((len(given.sheet), len(body))) + body


def unhexed(text: str) -> bytes:
    return bytes.fromhex("" if text == "-" else text)


def parted(case: str) -> tuple[Given, list[str]]:
    """The sheet of a case in its form, and what is told of it."""
    form, sheet, *told = case.split()
    return Given(int(form), unhexed(sheet)), told


def cases_in(name: str) -> list[str]:
    return [line for line in (DATA / name).read_text().splitlines() if not line.startswith("#")]


def small_sheets(form: int, accepted: Iterable[Given]) -> list[Given]:
    """For each field the shortest sheets that have it, each sheet once."""
    by_length = sorted(accepted, key=lambda given: len(given.sheet))
    fields = {given: {field for field, _ in fields_met(*given)} for given in by_length}
    chosen: dict[Given, None] = {}
    for field in all_fields(form):
        having = [given for given in fields if field in fields[given]]
        chosen |= dict.fromkeys(having[: SHEETS_FOR_A_FIELD[form]])
    return list(chosen)


def damaged_sheets(name: str, kept: Callable[[Given], bool]) -> list[Given]:
    """Every truncation and every flipped bit of the small sheets among those of a file that are kept, each once."""
    small = (small_sheets(form, filter(kept, sheets)) for form, sheets in in_forms(cases_in(name)).items())
    return list(dict.fromkeys(case for sheets in small for given in sheets for case in damaged(given)))


def has_a_line(given: Given) -> bool:
    return line(*given, ROOM)[0].code == 0


def with_a_byte_to_spare(entry: Entry, given: Given) -> str:
    return written_case(entry, given, entry(*given, ROOM)[0].bytes + 1)


def reading(case: str) -> bytes:
    given, answer = parted(case)
    code, place, rules = map(int, answer)
    begins, end = [], 0
    if code == 0:
        *begins, end = read_sheet(*given)[1]
    assert len(begins) == rules, case
    return record(given, numbers((code, place, rules, end, *begins)))


def written(answer_of: type[Folded | Written], case: str) -> bytes:
    """A fold, a write-back, a line or a conversion: the room stands first in the case and last in the record."""
    given, (room, *told, stands) = parted(case)
    answer, result = answer_of(*map(int, told)), unhexed(stands)
    assert len(result) == answer.bytes, case
    return record(given, numbers((*answer, int(room))) + result)


def lookup(case: str) -> bytes:
    given, told = parted(case)
    date, answer = map(int, told[:4]), map(int, told[4:])
    return record(given, numbers(date, LONG) + numbers(answer))


def write_records(name: str, records: Iterable[bytes]) -> None:
    given = list(records)
    (DATA / name).write_bytes(b"".join(given))
    print(f"{name}: {len(given)} answers")


def main() -> None:
    sheets, with_line = damaged_sheets("read.txt", is_accepted), damaged_sheets("line.txt", has_a_line)
    read = cases_in("read.txt") + [read_case(given) for given in sheets]
    back = cases_in("back.txt") + [written_case(write_back, given, len(given.sheet) + 1) for given in sheets]
    lines = cases_in("line.txt") + [with_a_byte_to_spare(line, given) for given in with_line]
    converted = cases_in("convert.txt") + [with_a_byte_to_spare(convert, given) for given in sheets]
    write_records("readings", map(reading, read))
    write_records("write_backs", map(partial(written, Written), back))
    write_records("lines", map(partial(written, Written), lines))
    write_records("conversions", map(partial(written, Written), converted))
    write_records("folds", map(partial(written, Folded), cases_in("fold.txt")))
    write_records("lookups", map(lookup, cases_in("lookup.txt")))


if __name__ == "__main__":
    main()
