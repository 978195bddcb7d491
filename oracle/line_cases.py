"""The sheets of the stored lines: worked ones, every edge of the notation, each reason against a line, generated ones.

Most are rules, to be written in either form. Rests on `generate` for damage and on `reference`, whose worked lines stand
among the named sheets.
"""

from __future__ import annotations

from itertools import product
from random import Random
from typing import Callable, Iterator

from cases import SHORT, Given
from generate import MANY_RULES, flip
from reference.build import ITEM_OF_SORT, fixed, plain_rule, weekdays
from reference.sheet import (
    ADDITIONAL, ALL_NTH, CLOSED, FALLBACK, ITEM_LIMIT, NO_REPEATS, NORMAL, OPEN, UNKNOWN,
    DatedRange, Holiday, Months, MonthsOfYear, Rule, Span, Time, Week, Weekdays, Year, write_sheet,
)
from reference.worked import LINES, NO_LINES, additional

# Where a number gains a digit, and the ends of its range.
STEPS = (1, 2, 9, 10, 99, 100, 255, 256, 999, 1000, 9999, 10000, 65535)
WEEK_STEPS = STEPS[:7]
COMMENTS = {
    1: (0, 1, 9, 10, 99, 100, 255, 256, 999, 1000, 9999, 10000, 65535),
    2: (0, 1, 9, 10, 65535, 65536, 99999, 100000, 999999, 1000000, 9999999, 10000000, 2**24 - 1),
}
MINUTES = (0, 1, 9, 10, 59, 60, 61, 599, 600, 1199, 1200, 1439, 1440, 1441, 2399, 2400, 2879, 2880)
YEARS = (1900, 1901, 1999, 2000, 2009, 2020, 2024, 8999, 9000, 9998, 9999)
SUNRISE = Time(1, 0, 0)

# For each reason a part of a rule, and items of that part that a line can't say.
UNSAID: dict[str, tuple[str, tuple]] = {
    "a dated month range": ("monthdays", (MonthsOfYear(1, 12, 2024), MonthsOfYear(5, 5, 1900))),
    "a monthday reference": ("monthdays", (DatedRange(0), DatedRange(2**32 - 1))),
    "a holiday": ("weekdays", (Holiday(0, 0), Holiday(1, -1))),
    "a weekday offset": ("weekdays", tuple(Weekdays(0, 4, offset, ALL_NTH, ALL_NTH) for offset in (1, -1, 256, -(2**15)))),
    "an unset nth bit": ("weekdays", tuple(
        Weekdays(2, 2, 0, ALL_NTH ^ bits >> 5, ALL_NTH ^ bits & ALL_NTH) for bits in (1 << bit for bit in range(10))
    )),
    "a variable time": ("spans", tuple(
        Span(start, end, 0, NO_REPEATS)
        for start, end in ((SUNRISE, Time(0, 0, 1440)), (Time(0, 0, 600), Time(1, 3, -30)), (SUNRISE, Time(1, 3, 0)))
    )),
    "repeats": ("spans", tuple(fixed(600, 1080, 0, minutes) for minutes in (0, 1, 4095))),
}


# Named sheets


def named_lines(form: int) -> dict[str, list[Rule]]:
    named = {name: rules for name, (rules, _) in (LINES | NO_LINES).items()}
    return named | edges(form) | limits()


def edges(form: int) -> dict[str, list[Rule]]:
    """Every value of each sort of item, alone and beside others, every way in which parts stand side by side."""
    days = {
        "weekdays": (weekdays(0, 6),), "weeks": (Week(1, 53, 1),), "monthdays": (Months(1, 12),),
        "years": (Year(1900, 9999, 1),),
    }
    return {
        "every two weekdays": over("weekdays", [weekdays(*ends) for ends in product(range(7), repeat=2)]),
        "every two months": over("monthdays", [Months(*ends) for ends in product(range(1, 13), repeat=2)]),
        "every week alone": over("weeks", [Week(week, week, 1) for week in range(1, 54)]),
        "every week with the one before": over("weeks", [Week(week, (week + 51) % 53 + 1, 1) for week in range(1, 54)]),
        "steps of weeks": over("weeks", [Week(8, end, step) for step in WEEK_STEPS for end in (8, 12, 4)]),
        "two years": over("years", [Year(start, end, 1) for start, end in product(YEARS[::2], repeat=2)]),
        "steps of years": over("years", [Year(2020, end, step) for step in STEPS for end in (2020, 2021, 1900)]),
        "every hour": over("spans", [fixed(60 * hour, 60 * hour + 59 * (hour < 48)) for hour in range(49)]),
        "every minute of an hour": over("spans", [fixed(minute, 2880 - minute, minute % 2) for minute in range(60)]),
        "comments of each kind": [
            plain_rule(kind=kind, comment=comment) for kind in (OPEN, CLOSED, UNKNOWN) for comment in COMMENTS[form]
        ],
        "every operator, kind and comment": [plain_rule()] + [
            plain_rule(operator=operator, kind=kind, comment=comment)
            for operator in (NORMAL, ADDITIONAL, FALLBACK) for kind in (OPEN, CLOSED, UNKNOWN) for comment in (0, 7)
        ],
        "every choice of parts": [
            plain_rule(**{sort: items for sort, items in days.items() if sort in chosen})
            for chosen in ([sort for bit, sort in enumerate(days) if choice >> bit & 1] for choice in range(2**4))
        ],
    }


def over(sort: str, items: list) -> list[Rule]:
    """The items as one sort of as few rules as hold them."""
    return [plain_rule(**{sort: tuple(items[at : at + ITEM_LIMIT])}) for at in range(0, len(items), ITEM_LIMIT)]


def limits() -> dict[str, list[Rule]]:
    items = {sort: (item,) * ITEM_LIMIT for sort, item in ITEM_OF_SORT.items()}
    rules = [plain_rule(operator=place % 3, comment=place) for place in range(MANY_RULES)]
    return {
        "16 items of each sort": [plain_rule(**items)],
        "64 rules of each operator": rules,
        "a holiday in the last of 64 rules": rules[:-1] + [plain_rule(weekdays=items["weekdays"][1:] + (Holiday(0, 0),))],
    }


def long_line(form: int) -> Given:
    """64 rules of 16 years, weeks and spans, as long as they can be written; with months and weekdays, or more rules, no record
    holds it."""
    rule = plain_rule(
        operator=FALLBACK, kind=UNKNOWN, comment=COMMENTS[form][-1], years=(Year(1900, 9999, 65535),) * ITEM_LIMIT,
        weeks=(Week(52, 2, 255),) * ITEM_LIMIT, spans=(fixed(2879, 2880, 1),) * ITEM_LIMIT,
    )
    return Given(form, write_sheet(form, [rule._replace(operator=NORMAL)] + [rule] * (MANY_RULES - 1)))


# Each reason against a line


def spoilt(rule: Rule, sort: str, item: tuple, place: int) -> Rule:
    """The rule with one more item at a place, in exchange for the last one where there are sixteen."""
    items = getattr(rule, sort)[: ITEM_LIMIT - 1]
    return rule._replace(**{sort: items[:place] + (item,) + items[place:]})


def each_reason() -> Iterator[list[Rule]]:
    """Each item that a line can't say in the first, the second and the third of three rules, and each other reason."""
    first = plain_rule(weekdays=(weekdays(0, 0), weekdays(3, 4)), monthdays=(Months(1, 1), Months(3, 4)))
    rules = [first, additional(kind=CLOSED), plain_rule(operator=FALLBACK, comment=1)]
    for sort, items in UNSAID.values():
        for item, index in product(items, range(3)):
            yield replaced(rules, index, spoilt(rules[index], sort, item, index))
    for index in range(3):
        yield replaced(rules, index, rules[index]._replace(spans=()))
    for operator in (ADDITIONAL, FALLBACK):
        not_normal = [first._replace(operator=operator), *rules[1:]]
        yield not_normal
        yield replaced(not_normal, 2, rules[2]._replace(spans=()))


def replaced(rules: list[Rule], index: int, rule: Rule) -> list[Rule]:
    return rules[:index] + [rule] + rules[index + 1 :]


# Generated sheets


def with_a_line(form: int, random: Random) -> Iterator[list[Rule]]:
    """Short sheets that have a line, without end."""
    while True:
        length = random.choices((1, 2, 3, 5, 8), (20, 30, 25, 15, 10))[0]
        first, *others = [telling_rule(form, random) for _ in range(length)]
        rules = [first._replace(operator=NORMAL), *others]
        if len(write_sheet(form, rules)) <= SHORT[form]:
            yield rules


def telling_rule(form: int, random: Random) -> Rule:
    def ends(values) -> list[int]:
        """At times the same twice."""
        start = random.choice(values)
        return [start, start if random.random() < 0.25 else random.choice(values)]

    def step(values: tuple[int, ...]) -> int:
        return random.choice(values) if random.random() < 0.3 else 1

    def some(item: Callable, fewest: int = 0) -> tuple:
        return tuple(item() for _ in range(random.choices((fewest, 1, 2, 3), (45, 30, 20, 5))[0]))

    years = random.choice((YEARS, range(1900, 10000)))
    minutes = random.choice((MINUTES, range(2881)))
    return Rule(
        random.choice((NORMAL, ADDITIONAL, FALLBACK)), random.choice((OPEN, CLOSED, UNKNOWN)),
        random.choice((0, 0, 1, random.choice(COMMENTS[form]), random.randint(0, COMMENTS[form][-1]))),
        some(lambda: Year(*ends(years), step(STEPS))), some(lambda: Months(*ends(range(1, 13)))),
        some(lambda: Week(*ends(range(1, 54)), step(WEEK_STEPS))), some(lambda: weekdays(*ends(range(7)))),
        some(lambda: fixed(*ends(minutes), random.getrandbits(1)), fewest=1),
    )


def without_a_line(form: int, random: Random) -> Iterator[list[Rule]]:
    """Such sheets with one or two reasons against a line, anywhere."""
    for rules in with_a_line(form, random):
        for _ in range(random.choice((1, 1, 2))):
            rules = anyhow_spoilt(rules, random)
        yield rules


def anyhow_spoilt(rules: list[Rule], random: Random) -> list[Rule]:
    index = random.randrange(len(rules))
    reason = random.choice((*UNSAID, "0 spans", "the first operator"))
    if reason == "0 spans":
        return replaced(rules, index, rules[index]._replace(spans=()))
    if reason == "the first operator":
        return replaced(rules, 0, rules[0]._replace(operator=random.choice((ADDITIONAL, FALLBACK))))
    sort, items = UNSAID[reason]
    place = random.randint(0, len(getattr(rules[index], sort)))
    return replaced(rules, index, spoilt(rules[index], sort, random.choice(items), place))


def flipped_lines(form: int, random: Random) -> Iterator[Given]:
    """Sheets that had a line, one bit flipped: some still have one."""
    for rules in with_a_line(form, random):
        sheet = write_sheet(form, rules)
        yield Given(form, flip(sheet, random.randrange(8 * len(sheet))))
