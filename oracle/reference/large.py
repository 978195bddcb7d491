"""Sheets at the limits of document 02's M-107, and what is worked by hand of them: 256 rules, 4,096 boxes, the counts of form 1.

Rests on `build` for the rules, on `counts` for the code and on `fold`; `check_large` holds the fold against them.
"""

from __future__ import annotations

from itertools import product

from .build import boxes_rule, fixed, interval, plain_rule, singles, weekdays
from .counts import PAST_COUNTS
from .fold import AMPLE_ROOM, BUFFER_TOO_SHORT, fold
from .lists import LIST_TOO_LONG
from .overlap import RANGES_SHARE
from .points import DIMENSIONS, TOO_MANY_BOXES, Dimension
from .sheet import ADDITIONAL, CLOSED, FALLBACK, FORMS, ITEM_LIMIT, UNKNOWN, Months, Rule, Span, Year, write_sheet

Shape = tuple[int, int, int, int]  # intervals of weekdays, weeks, months and years
Days = dict[str, tuple]  # a rule's items by their sort
OVER_BOXES, SHARING = boxes_rule((4, 8, 8, 17)), plain_rule(weekdays=(weekdays(0, 2), weekdays(1, 3)))
STOPPER, WHY_FALLBACK = plain_rule(operator=FALLBACK), 1


# Many rules in a sheet, and many items in the result


def numbered_rules(count: int) -> list[Rule]:
    """So many rules, each of which replaces the one before."""
    return [plain_rule(comment=number) for number in range(count)]


def years_apart(count: int, first: int = 1901, **parts) -> list[Rule]:
    """Rules that name so many years, no two of them neighbours, sixteen to a rule, all with the same hours: folded, one rule."""
    years = [Year(year, year, 1) for year in range(first, first + 2 * count, 2)]
    return [plain_rule(years=tuple(years[at : at + ITEM_LIMIT]), **parts) for at in range(0, count, ITEM_LIMIT)]


# Many rules in the result


def own_span(number: int) -> Span:
    """Of each number another one, no two of which touch."""
    return fixed(24 * number, 24 * number + 20)


def with_own_states(days: list[Days]) -> list[Rule]:
    """Additional rules on these days, each with a comment and a span of its own."""
    return [
        plain_rule(operator=ADDITIONAL, comment=1 + number, spans=(own_span(number),), **items)
        for number, items in enumerate(days)
    ]


def each_interval(shape: Shape) -> list[Days]:
    """Dimension after dimension, each of its intervals: so no two boxes have the same list."""
    return [
        {dimension.items: (interval(dimension, count, number),)}
        for dimension, count in zip(DIMENSIONS, shape) for number in range(count)
    ]


def each_odd_choice(shape: Shape) -> list[Days]:
    """For each bit of an interval's number and each choice of dimensions, odd in count, the boxes where just these have the bit set.

    Of two boxes that differ in one dimension alone, some bit is set in an odd count of dimensions for one, and for the other it is
    not: the two are not alike, and so no group grows. Boxes that differ in more dimensions may share a list."""
    bits = range(max(count - 1 for count in shape).bit_length())
    choices = [choice for choice in product((0, 1), repeat=len(shape)) if sum(choice) % 2]
    return [days for bit, choice in product(bits, choices) if (days := days_with(shape, bit, choice)) is not None]


def days_with(shape: Shape, bit: int, choice: tuple[int, ...]) -> Days | None:
    """In each dimension the intervals whose number has the bit as chosen; none where a dimension has no such interval."""
    days: Days = {}
    for dimension, count, wanted in zip(DIMENSIONS, shape, choice):
        numbers = [number for number in range(count) if number >> bit & 1 == wanted]
        if not numbers:
            return None
        if len(numbers) < count:
            days[dimension.items] = tuple(interval(dimension, count, number) for number in numbers)
    return days


def fewer_by(less: int, rules: list[Rule], cut: tuple[Dimension, ...] = DIMENSIONS[1:]) -> list[Rule]:
    """The first box, by the dimensions that are cut, is closed at the hours of so many of the last rules, so that its group has so
    many rules less."""
    first_box = {each.items: singles(each.items, [each.lowest]) for each in cut}
    hours = tuple(span for rule in rules[-less:] for span in rule.spans)
    return [*rules, plain_rule(kind=CLOSED, spans=hours, **first_box)]


def many_groups() -> list[Rule]:
    """2,560 groups of 510 lists: 24 rules for each box of nine of the ten months' intervals, 20 for those of the last, and in each
    box on average two of the sixteen that tell it from others. Together 65,536 rules."""
    but_the_last = {"monthdays": (Months(1, 9),)}
    return with_own_states(each_odd_choice((1, 16, 10, 16)) + [but_the_last] * 4 + [{}] * 20)


# What comes out

ALL_WEEKS_CUT = [plain_rule(weeks=singles("weeks", range(first, last, 2))) for first, last in ((2, 34), (34, 54))]

# Name: the rules that go in; code, drained and place.
LARGE_RUNS: dict[str, tuple[list[Rule], tuple[int, int, int]]] = {
    "128 rules": (numbered_rules(128), (0, 128, 0)),
    "256 rules": (numbered_rules(256), (0, 256, 0)),
    "255 rules and one left": ([*numbered_rules(255), STOPPER], (0, 255, 0)),
    "one rule and 255 left": ([plain_rule(), STOPPER, *numbered_rules(254)], (0, 1, 0)),
    "4096 boxes": ([boxes_rule((4, 8, 8, 16))], (0, 1, 0)),
    "4096 boxes in years": ([*years_apart(2047), plain_rule(years=(Year(9999, 9999, 1),), comment=1)], (PAST_COUNTS, 0, 0)),
    "4081 boxes": ([boxes_rule((7, 1, 11, 1)), *ALL_WEEKS_CUT], (0, 3, 0)),
    "4352 boxes": ([OVER_BOXES], (TOO_MANY_BOXES, 0, 4352)),
    "4452 boxes": ([boxes_rule((7, 1, 12, 1)), *ALL_WEEKS_CUT], (TOO_MANY_BOXES, 0, 4452)),
    "4097 boxes in years": (years_apart(2048), (TOO_MANY_BOXES, 0, 4097)),
    "4352 boxes, and ranges that share": ([OVER_BOXES, SHARING], (RANGES_SHARE, 0, 1)),
}

# Name: the rules that go in; drained, emitted and left. Form 1 can count what comes of these, and not what comes of the next.
COUNTED: dict[str, tuple[list[Rule], tuple[int, int, int]]] = {
    "1023 years": (years_apart(1023), (64, 1, 0)),
    "1023 years, and a rule left": ([*years_apart(1023), STOPPER], (64, 1, 1)),
    "65535 rules": (fewer_by(1, many_groups()), (41, 65535, 0)),
    "65534 rules, and a rule left": ([*fewer_by(2, many_groups()), STOPPER], (41, 65534, 1)),
}
NOT_COUNTED: dict[str, tuple[list[Rule], tuple[int, int, int]]] = {
    "1024 years": (years_apart(1024), (64, 1, 0)),
    "1024 years, and a rule left": ([*years_apart(1024), STOPPER], (64, 1, 1)),
    "1024 years in the last rule": ([*years_apart(16, first=5001, comment=1), *years_apart(1024, kind=UNKNOWN)], (65, 2, 0)),
    "65536 rules": (many_groups(), (40, 65536, 0)),
    "65535 rules, and a rule left": ([*fewer_by(1, many_groups()), STOPPER], (41, 65535, 1)),
}

# Name: rules of which more comes than form 1 can count, but for a refusal that is given before; its code and place.
BEFORE_13: dict[str, tuple[list[Rule], int, int]] = {
    "5 before 13": (years_apart(2048), TOO_MANY_BOXES, 4097),
    "6 before 13": (years_apart(1024) + [plain_rule(operator=ADDITIONAL)] * 33, LIST_TOO_LONG, 95),
    "11 before 13": ([*years_apart(1024), SHARING], RANGES_SHARE, 64),
}


def check_large() -> None:
    """Raises an assertion at the first case that comes out otherwise."""
    for form in FORMS:
        for name, (rules, (code, drained, place)) in LARGE_RUNS.items():
            wanted = (0, len(rules), 0) if (form, code) == (2, PAST_COUNTS) else (code, drained, place)
            answer, _ = fold(form, write_sheet(form, rules), AMPLE_ROOM)
            assert (answer.code, answer.drained, answer.place) == wanted, name
        for name, (rules, counts) in (COUNTED | NOT_COUNTED).items():
            refused = form == 1 and name in NOT_COUNTED
            answer, result = fold(form, write_sheet(form, rules), AMPLE_ROOM)
            done = (0, *counts, len(result), 0, WHY_FALLBACK * counts[-1])
            assert answer == ((PAST_COUNTS, 0, 0, 0, 0, 0, 0) if refused else done), name
        check_order(form)


def check_order(form: int) -> None:
    """13 is given before 7, in a buffer of no bytes and in one that is a byte too short, and after 5, 6 and 11."""
    past, counted = write_sheet(form, years_apart(1024)), write_sheet(form, years_apart(1023))
    needed = fold(form, past, AMPLE_ROOM)[0].bytes
    for room in (0, max(needed - 1, 0)):
        assert fold(form, past, room)[0].code == (PAST_COUNTS if form == 1 else BUFFER_TOO_SHORT), room
        assert fold(form, counted, 0)[0].code == BUFFER_TOO_SHORT
    for name, (rules, code, place) in BEFORE_13.items():
        answer, _ = fold(form, write_sheet(form, rules), 0)
        assert (answer.code, answer.place) == (code, place), name
