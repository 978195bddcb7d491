"""The sheets and dates of the stored answers: named ones, damaged ones, short ones of the generator, and lists of a day.

What is made for a form is written in it, and each case says in which form a sheet is given: at times in another one than it was
written in, or in none. Rests on `generate` and on `reference`, whose worked days stand among the named sheets.
"""

from __future__ import annotations

from itertools import count, islice
from math import prod
from random import Random
from typing import Callable, Iterator, NamedTuple

from generate import MANY_RULES, fields_met, flip, overwrite, sheet_number, stop_by_span
from reference.build import ITEM_OF_SORT, boxes_rule, fixed, hours, interval, many, plain_rule, weekdays
from reference.fold import fold
from reference.lists import LIST_LIMIT
from reference.points import DIMENSIONS, Dimension, cuts_of, drained_of, shape_of
from reference.sheet import (
    ADDITIONAL, DAY_ITEMS, EVENT, EVENT_OFFSET, FIXED_MINUTES, ITEM_FIELDS, ITEM_LIMIT, KIND, NORMAL, NO_REPEATS, OPEN_END,
    OPERATOR, PADDING, PAST_THE_END, REPEATS, REPEATS_FLAG, TIME_TAG, DatedRange, Field, Holiday, Months,
    MonthsOfYear, Refusal, Rule, Span, Time, Week, Year, layout_of, read_sheet, write_sheet,
)
from reference.worked import (
    COMMENTS, EMPTY, EXAMPLES, FOLDS, LONG_FOLDS, LOOKUPS, MISREAD, NO_FORMS, OVERLAPS, ROOM, RUNS, lunch_off,
)
from stock import MINUTES, YEAR_VALUES, Stock

SHORT = {1: 120, 2: 140}  # by form, bytes of a sheet that is stored among many
LAST_NUMBER = 2**64 - 1
SEARCHED = 2000
SMALL = 1024  # boxes
FEWER = {1: 1, 2: 4}  # form 2 has one for so many of form 1's generated sheets, dates, overlaps and reasons

# One rule with every sort of item and time, short enough to store all its flips and truncations.
EVERY_SORT = [
    plain_rule(
        comment=2, years=(Year(2000, 2001, 1),), monthdays=(Months(11, 2), MonthsOfYear(1, 12, 2024), DatedRange(7)),
        weeks=(Week(50, 53, 1),), weekdays=(weekdays(4, 0), Holiday(1, -1)),
        spans=(fixed(600, 1080, 1, 90), Span(Time(1, 2, -30), Time(0, 0, 1440), 0, NO_REPEATS)),
    )
]


class Given(NamedTuple):
    """A sheet, and the form in which the caller says that it is."""

    form: int
    sheet: bytes


def all_fields(form: int) -> list[Field]:
    layout = layout_of(form)
    return list(dict.fromkeys([
        *layout.head, layout.rule_count, OPERATOR, KIND, layout.comment, *layout.item_counts,
        *(tag for tag, _ in DAY_ITEMS if tag), *(field for fields in ITEM_FIELDS.values() for field in fields),
        TIME_TAG, FIXED_MINUTES, EVENT, EVENT_OFFSET, OPEN_END, REPEATS_FLAG, REPEATS,
    ]))


def lawless_values(field: Field) -> list[int]:
    """The unlawful values next to the lawful ones, and the farthest ones; none for offsets, lawful throughout."""
    patterns = range(2**field.width) if field.lowest >= 0 else range(0)
    edges = dict.fromkeys((field.lowest - 1, field.highest + 1, 0, 2**field.width - 1))
    return [value for value in edges if value in patterns and not field.lowest <= value <= field.highest]


Sort = tuple[int, str]  # a code of reading, and the sort of field or bit at its place


def refused_sorts(form: int) -> list[Sort]:
    return [
        *((PAST_THE_END, field.name) for field in all_fields(form)),
        *((field.refused_by, field.name) for field in all_fields(form) if lawless_values(field)),
        *((PADDING, f"padding bit {bit}") for bit in range(1, 8)),
        (PADDING, "bytes after the padding"),
    ]


# Named sheets


def named_sheets(form: int) -> dict[str, bytes]:
    """The document's own cases, and sheets at the limits and one past them; 64 rules and 1,024 boxes once were limits."""
    named = {"the example": EXAMPLES[form], "no bytes": b"", "every sort of item": write_sheet(form, EVERY_SORT)}
    named |= {name: write_sheet(form, rules) for name, rules in (worked_rules() | at_the_limits()).items()}
    return named | (form_2_alone() if form == 2 else {})


def worked_rules() -> dict[str, list[Rule]]:
    return {name: given for name, (given, _) in (FOLDS | RUNS | OVERLAPS).items()}


def at_the_limits() -> dict[str, list[Rule]]:
    named = {}
    for above in (0, 1):
        rules = [plain_rule(comment=place) for place in range(MANY_RULES + above)]
        named[f"{len(rules)} rules"] = rules
        for sort in ITEM_OF_SORT:
            items = many(sort, ITEM_LIMIT + above)
            named[f"{len(items)} {sort}"] = [plain_rule(**{sort: items})]
    named["1024 boxes, no two alike"] = boxes_all_different(comments=False)
    named["1024 boxes, no two alike, longer than 65536 bytes"] = boxes_all_different(comments=True)
    return named


def form_2_alone() -> dict[str, bytes]:
    """Comments on both sides of 65,535, in rules drained and left, and heads of all values."""
    commented = {f"comment {comment}": lunch_off(comment) for comment in COMMENTS}
    commented |= {name: given for name, (given, _) in LONG_FOLDS.items()}
    sheets = {name: write_sheet(2, rules) for name, rules in commented.items()}
    sheets |= {f"head {head}": overwrite(EXAMPLES[2], 0, 4, head) for head in range(2**4)}
    sheets |= {"a head and half a byte of the count": EMPTY[2][:1], "all but the last bits of the count": EMPTY[2][:-1]}
    return sheets


def other_forms() -> list[Given]:
    """Bytes that are no sheet of the form said, and sheets and other bytes in forms that are none."""
    misread = [Given(form, sheet) for form, sheet, _ in MISREAD.values()]
    sheets = (*EXAMPLES.values(), *EMPTY.values(), b"", EXAMPLES[1][:-1], write_sheet(1, boxes_all_different(comments=False)))
    return misread + [Given(form, sheet) for form in NO_FORMS for sheet in sheets]


def boxes_all_different(comments: bool) -> list[Rule]:
    """Weeks, months and years cut into 8, 8 and 16, and for each bit of an interval's number a rule where it is set."""
    numbered = [(dimension, bit) for dimension, bits in zip(DIMENSIONS[1:], (3, 3, 4)) for bit in range(bits)]
    bits_of = {dimension: sum(other == dimension for other, _ in numbered) for dimension in DIMENSIONS}
    return [
        plain_rule(
            operator=ADDITIONAL, comment=place if comments else 0, spans=(hours(2 * place, 2 * place + 1),),
            **{dimension.items: tuple(intervals_with_bit(dimension, bits_of[dimension], bit))},
        )
        for place, (dimension, bit) in enumerate(numbered)
    ]


def intervals_with_bit(dimension: Dimension, bits: int, bit: int) -> Iterator[tuple]:
    """Single values from the lowest on, and the rest as the last interval: those whose number has the bit."""
    return (interval(dimension, 2**bits, number) for number in range(2**bits) if number >> bit & 1)


def twice_refused(form: int) -> dict[str, bytes]:
    """Sheets for which two codes hold, so that the order of refusals shows. Those of 1,152 boxes once were too many."""
    boxes, entries = boxes_rule((1, 9, 8, 16)), [plain_rule(operator=ADDITIONAL)] * 33
    stopper, early = plain_rule(spans=(fixed(1080, 1441),)), Year(1899, 2000, 1)
    folded = {
        "1152 boxes, and 6": write_sheet(form, [boxes, *entries]), "1152 boxes, and 9": write_sheet(form, [boxes, stopper]),
        "6 before 9": write_sheet(form, [*entries, stopper]),
    }
    return {
        **folded,
        **{f"3, then {name}": sheet + b"\0" for name, sheet in folded.items()},
        **{f"1, then {name}": sheet[:-1] for name, sheet in folded.items()},
        "4 before 2": write_sheet(form, [plain_rule(years=(early,) * 17)]),
        "2 before 4": write_sheet(form, [plain_rule(kind=3, years=(early,) * 17)]),
        "2 before 1": write_sheet(form, [plain_rule(years=(early,))])[:-1],
        "2 before 3": write_sheet(form, [plain_rule(years=(early,))]) + b"\0",
    }


# Sheets of the generator


def generated(form: int, seed: str, inside: bool, keep: Callable[[Given], bool] = lambda given: True) -> Iterator[Given]:
    """Short sheets that are to be kept, without end."""
    for number in count():
        given = Given(form, sheet_number(form, seed, number, inside))
        if len(given.sheet) <= SHORT[form] and keep(given):
            yield given


def largest(form: int, seed: str) -> list[Given]:
    """Of many sheets the few longest, and the few of which most rules come out."""
    numbers = range(SEARCHED // FEWER[form])
    sheets = [Given(form, sheet_number(form, f"{seed}/large", number, True)) for number in numbers]
    most = sorted(sheets, key=lambda given: fold(*given, ROOM)[0].emitted)[-5:]
    return list(dict.fromkeys(most + sorted(sheets, key=lambda given: len(given.sheet))[-3:]))


# Lists of a day


def sheets_of_lists(form: int, seed: str) -> Iterator[Given]:
    """The rules of named sheets, of short ones and of random stocks, each as one list."""
    random = Random(f"days {seed}")
    named = (Given(form, sheet) for sheet in named_sheets(form).values())
    sheets = (*filter(is_accepted, named), *islice(generated(form, f"{seed}/days", True), 700 // FEWER[form]))
    stocks = (rules_of_stock(random, form) for _ in range(600 // FEWER[form]))
    for rules in (*(read_sheet(*given)[0] for given in sheets), *stocks):
        yield Given(form, write_sheet(form, as_one_list(rules)))


def rules_of_stock(random: Random, form: int) -> list[Rule]:
    """Rules of one stock; at times one has a span that may reach tomorrow."""
    stock = Stock(random, inside=True, form=form)
    rules = stock.rules()
    if random.random() < 0.3:
        place = random.randrange(len(rules))
        rules[place] = stop_by_span(rules[place], stock)
    return rules


def as_one_list(rules: list[Rule]) -> list[Rule]:
    """The rules without day items, the first Normal and the others Additional: if all drain, they are the list of every point."""
    return [
        rule._replace(operator=ADDITIONAL if place else NORMAL, years=(), monthdays=(), weeks=(), weekdays=())
        for place, rule in enumerate(rules[:LIST_LIMIT])
    ]


# Refused readings


def refused_sort(given: Given) -> tuple[int, int, str]:
    """Code and place of reading, and the sort of field or bit at the place; code 0 where it is accepted."""
    try:
        read_sheet(*given)
    except Refusal as refusal:
        at_a_field = refusal.code != PADDING
        return refusal.code, refusal.place, fields_met(*given)[-1][0].name if at_a_field else padding_sort(refusal.place)
    return 0, 0, "accepted"


def padding_sort(place: int) -> str:
    """Padding never begins a byte, and what follows it always does."""
    return f"padding bit {place % 8}" if place % 8 else "bytes after the padding"


def is_accepted(given: Given) -> bool:
    return refused_sort(given)[0] == 0


def is_small(given: Given) -> bool:
    """Whether an accepted sheet has 1,024 boxes at most. Larger ones are named in `large_cases`, where none is by chance."""
    return prod(shape_of(cuts_of(drained_of(read_sheet(*given)[0])))) <= SMALL


def damaged(given: Given) -> Iterator[Given]:
    """Every truncation and every single flipped bit."""
    form, sheet = given
    yield from (Given(form, sheet[:size]) for size in range(len(sheet)))
    yield from (Given(form, flip(sheet, bit)) for bit in range(8 * len(sheet)))


def spoiled(given: Given) -> Iterator[tuple[Sort, bytes]]:
    """Every truncation of a sound sheet, every field set to unlawful values, every wrong end, each with its sort."""
    fields, sheet = fields_met(*given), given.sheet
    for size in range(len(sheet)):
        cut = next(field for field, place in fields if place + field.width > 8 * size)
        yield (PAST_THE_END, cut.name), sheet[:size]
    for field, place in fields:
        for value in lawless_values(field):
            yield (field.refused_by, field.name), overwrite(sheet, place, field.width, value)
    last, place = fields[-1]
    for bit in range(place + last.width, 8 * len(sheet)):
        yield (PADDING, padding_sort(bit)), flip(sheet, bit)
    yield (PADDING, padding_sort(8 * len(sheet))), sheet + b"\0"


def each_refused_sort(form: int, seed: str, quota: int) -> list[Given]:
    """For each code and each sort of place in reading so many sheets, no two of them from the same one."""
    random = Random(f"{seed}/which of a sort")
    sound = generated(form, f"{seed}/refused", False, is_accepted)
    found: dict[Sort, list[bytes]] = {sort: [] for sort in refused_sorts(form)}
    while any(len(cases) < quota for cases in found.values()):
        of_sheet: dict[Sort, list[bytes]] = {}
        for sort, case in spoiled(next(sound)):
            of_sheet.setdefault(sort, []).append(case)
        for sort, cases in of_sheet.items():
            if len(found[sort]) < quota:
                found[sort].append(random.choice(cases))
    return [Given(form, case) for cases in found.values() for case in cases]


# Dates


def named_dates() -> list[tuple[int, int, int, int]]:
    """Ends of months and years, leap days, and numbers that are no date or minute."""
    ends = [(year, month, day, 720) for year in (1900, 1999, 2000, 2024, 2100, 9999) for month, day in (
        (1, 1), (1, 7), (1, 8), (2, 28), (2, 29), (2, 30), (3, 1), (4, 30), (4, 31), (12, 9), (12, 10), (12, 30), (12, 31))]
    none = [(1899, 12, 31, 0), (10000, 1, 1, 0), (0, 1, 1, 0), (2000, 0, 1, 0), (2000, 13, 1, 0), (2000, 1, 0, 0),
            (2000, 1, 32, 0), (2000, 1, 1, 1440), (2000, 1, 1, 1439), (2000, 1, 1, 0)]
    large = [tuple(number if place == part else 1 for place in range(4)) for part in range(4)
             for number in (2**16, 2**31, 2**32 + 1, LAST_NUMBER)]
    far = [(2000 + 2**32, 1, 1, 0), (2000, 1 + 2**32, 1, 0), (2000, 1, 1 + 2**32, 0), (2000, 1, 1, 2**32),
           (LAST_NUMBER,) * 4, (2000 + 2**16, 1, 1, 0), (2000, 1 + 2**8, 1, 0), (2000, 1, 1 + 2**8, 0)]
    return [date for date, _ in LOOKUPS] + ends + none + large + far


def new_year_dates() -> list[tuple[int, int, int, int]]:
    """The days from 28 December to 4 January, from years of every length and first weekday, and both ends of the calendar."""
    days = ((12, 28), (12, 29), (12, 30), (12, 31), (1, 1), (1, 2), (1, 3), (1, 4))
    return [(year, month, day, 720) for year in (1900, 1901, *range(2000, 2029), 2100, 2101, 9999) for month, day in days]


def sample_date(random: Random) -> tuple[int, int, int, int]:
    """Mostly a date of the generator's years, near the start or end of the year or anywhere, at a span's edge."""
    year = random.choice(YEAR_VALUES) if random.random() < 0.8 else random.randint(1890, 10010)
    month, day = random.choice((
        (1, random.randint(1, 31)), (12, random.randint(1, 31)), (2, random.randint(27, 30)),
        (random.randint(1, 12), random.randint(1, 31)), (random.randint(0, 13), random.randint(0, 32)),
    ))
    return year, month, day, max(0, random.choice(MINUTES[:-1]) - random.getrandbits(1))
