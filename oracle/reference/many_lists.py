"""Sheets at the limit of document 02's M-108, and what is worked by hand of them: 512 lists that differ, one more, and lists that
come and go.

`LIST_RUNS` tells code, drained and place of a fold, how many lists differ at most after a rule, and how many there are in all;
`IN_ORDER` which of two refusals is given. Rests on `build` and `large` for the rules and on `lists`; `check_many_lists` holds the
fold and the lookup against them.
"""

from __future__ import annotations

from itertools import cycle, islice

from .build import DIMENSION_OF_SORT, ITEM_OF_ENDS, fixed, plain_rule, singles, weekdays
from .counts import PAST_COUNTS
from .fold import AMPLE_ROOM, BUFFER_TOO_SHORT, fold
from .large import SHARING, STOPPER, Days, Shape, years_apart
from .lists import LIST_TOO_LONG, TOO_MANY_LISTS, different_lists
from .lookup import NO_SUCH_DATE, lookup
from .overlap import RANGES_SHARE
from .points import DIMENSIONS, TOO_MANY_BOXES, cuts_of, drained_of, draw_rule, empty_lists
from .sheet import ADDITIONAL, CLOSED, FORMS, ITEM_LIMIT, MIDNIGHT, NORMAL, Months, Rule, Week, Year, write_sheet
from .why import NOTHING

EVERYWHERE, REPLACING = plain_rule(operator=ADDITIONAL), plain_rule()


# Many lists at once


def from_value_on(sort: str, value: int, **parts) -> Rule:
    return plain_rule(operator=ADDITIONAL, **{sort: (ITEM_OF_ENDS[sort](value, DIMENSION_OF_SORT[sort].upper - 1),)}, **parts)


def climbing(shape: Shape, **parts) -> list[Rule]:
    """For each interval of each dimension but the first a rule from there on. Each box has a list of its own, the first box the
    empty one, and no list that was made goes."""
    return [
        from_value_on(dimension.items, dimension.lowest + number, **parts)
        for dimension, count in zip(DIMENSIONS, shape) for number in range(1, count)
    ]


CLIMB_512, CLIMB_513 = climbing((1, 8, 8, 8)), climbing((3, 19, 3, 3))  # by their boxes
LAST_OF_513 = from_value_on("weeks", 19, weekdays=(weekdays(2, 6),), monthdays=(Months(3, 12),), years=(Year(1902, 9999, 1),))


def where_no_day_is() -> list[Rule]:
    """513 boxes of January in the weeks 20 to 38, which no calendar day has, and a list for each."""
    january, weeks = (Months(1, 1),), (Week(20, 38, 1),)
    base = plain_rule(operator=ADDITIONAL, monthdays=january, weeks=weeks)
    climbed = [rule._replace(monthdays=january, weeks=weeks) for rule in climbing((3, 1, 1, 9))]
    return [base, *(base._replace(weeks=(Week(week, 38, 1),)) for week in range(21, 39)), *climbed]


def crossed_years(count: int, crossing: int) -> list[Rule]:
    """Years apart, sixteen to a rule; then so many rules without spans, each over a year of each of sixteen such rules. All years
    have the same day, and where two rules cross, a list of their own."""
    rows = years_apart(count)
    squares = [rows[at : at + ITEM_LIMIT] for at in range(0, len(rows), ITEM_LIMIT)]
    columns = [column for square in squares for column in zip(*(rule.years for rule in square))]
    return rows + [plain_rule(operator=ADDITIONAL, years=column, spans=()) for column in columns[:crossing]]


# Lists that come and go


def in_rounds(rounds: int, rules: list[Rule], replacing: Rule = REPLACING) -> list[Rule]:
    """So often a rule that replaces lists, and these rules upon it."""
    return [replacing, *rules] * rounds


HALVES: list[Days] = [
    {"weekdays": (weekdays(0, 3),)}, {"weeks": (Week(1, 26, 1),)}, {"monthdays": (Months(1, 6),)},
    {"years": (Year(1900, 1999, 1),)},
]


def halving(count: int) -> list[Rule]:
    """So many rules over the half of one dimension after the other: sixteen boxes, of which each rule covers eight."""
    return [plain_rule(operator=ADDITIONAL, **days) for days in islice(cycle(HALVES), count)]


# In weekdays and years, so that each box of eight weeks', months' and years' intervals becomes eight boxes.
CUTTING_BY_8 = plain_rule(weekdays=singles("weekdays", (0, 2)), years=singles("years", range(1909, 1917, 2)))


def over_all_day(rules: list[Rule]) -> list[Rule]:
    """The rules with a comment each, over all hours: of each list the last entry shows."""
    return [rule._replace(comment=1 + index, spans=(fixed(0, MIDNIGHT),)) for index, rule in enumerate(rules)]


def halves_in_turn(rounds: int) -> list[Rule]:
    """Lists of 64 boxes each on Mo-Th and on Fr-Su, replaced in one half after the other, while those of the other half stay."""
    halves = [{"weekdays": (weekdays(0, 3),)}, {"weekdays": (weekdays(4, 6),)}]
    in_turn = [in_rounds(1, climbing((1, 4, 4, 4), **half), plain_rule(**half)) for half in islice(cycle(halves), rounds)]
    return over_all_day([rule for one in in_turn for rule in one])


# What comes of them

# Name: the rules that go in; code, drained and place; how many lists differ at most after a rule, and how many there are in all.
LIST_RUNS: dict[str, tuple[list[Rule], tuple[int, int, int], tuple[int, int]]] = {
    "512 lists": ([EVERYWHERE, *CLIMB_512], (0, 22, 0), (512, 512)),
    "512 lists and the empty one": (CLIMB_513, (0, 24, 0), (512, 512)),
    "513 lists": ([EVERYWHERE, *CLIMB_513], (TOO_MANY_LISTS, 0, 24), (513, 513)),
    "513 lists, the empty one filled last": ([*CLIMB_513, EVERYWHERE], (TOO_MANY_LISTS, 0, 24), (513, 1025)),
    "513 lists, then all replaced": ([EVERYWHERE, *CLIMB_513, REPLACING], (TOO_MANY_LISTS, 0, 24), (513, 514)),
    "513 lists by rules left": ([EVERYWHERE, *CLIMB_512, STOPPER, *CLIMB_513], (0, 22, 0), (512, 512)),
    "1025 lists after a rule": (
        [*climbing((1, 19, 3, 9)), plain_rule(operator=ADDITIONAL, weekdays=(weekdays(0, 2),))],
        (TOO_MANY_LISTS, 0, 28), (1025, 1025),
    ),
    "513 lists of rules without spans": (
        [EVERYWHERE._replace(spans=()), *climbing((3, 19, 3, 3), spans=())], (TOO_MANY_LISTS, 0, 24), (513, 513),
    ),
    "513 lists of Normal Closed rules": (
        [rule._replace(operator=NORMAL, kind=CLOSED) for rule in (EVERYWHERE, *CLIMB_513)], (TOO_MANY_LISTS, 0, 24), (513, 513),
    ),
    "513 lists where no day is": (where_no_day_is(), (TOO_MANY_LISTS, 0, 28), (513, 513)),
    "512 lists where no day is": (where_no_day_is()[1:], (0, 28, 0), (512, 512)),
    "512 lists of one day": (crossed_years(512, 31), (0, 63, 0), (512, 528)),
    "512 lists, all lengthened ten times": ([EVERYWHERE, *CLIMB_512, *[EVERYWHERE] * 10], (0, 32, 0), (512, 512 * 11)),
    "512 lists, all replaced ten times": (in_rounds(11, CLIMB_512), (0, 242, 0), (512, 512 * 11)),
    "512 lists over 4096 boxes, all replaced ten times": (
        [CUTTING_BY_8, *in_rounds(11, CLIMB_512)], (0, 243, 0), (512, 1 + 512 * 11),
    ),
    "512 lists, all replaced, then 513": (
        in_rounds(3, CLIMB_512) + in_rounds(1, CLIMB_513), (TOO_MANY_LISTS, 0, 90), (513, 3 * 512 + 513),
    ),
    "256 rules over 16 boxes": (in_rounds(8, halving(31)), (0, 256, 0), (16, 8 * (1 + 15 + 27 * 8))),
    "lists replaced in one half after the other": (halves_in_turn(25), (0, 250, 0), (2 * 64, 25 * 64)),
}

# Name: rules for which two refusals hold, and the code and place that are given; 13 in form 1 alone.
IN_ORDER: dict[str, tuple[list[Rule], int, int]] = {
    "6 and 14 at one rule": ([*CLIMB_513, *[LAST_OF_513] * 8, EVERYWHERE], LIST_TOO_LONG, 32),
    "14 where a list has 32 entries": ([*CLIMB_513, *[LAST_OF_513] * 7, EVERYWHERE], TOO_MANY_LISTS, 31),
    "6 a rule before 14": ([*CLIMB_513, *[LAST_OF_513] * 9, EVERYWHERE], LIST_TOO_LONG, 32),
    "14 a rule before 6": ([*CLIMB_513, *[LAST_OF_513] * 7, EVERYWHERE, LAST_OF_513], TOO_MANY_LISTS, 31),
    "14 long before 6": ([EVERYWHERE, *CLIMB_513, *[LAST_OF_513] * 9], TOO_MANY_LISTS, 24),
    "6 long before 14": ([*[EVERYWHERE] * 33, *CLIMB_513], LIST_TOO_LONG, 32),
    "6 of 512 lists": ([EVERYWHERE, *CLIMB_512, *[EVERYWHERE] * 11], LIST_TOO_LONG, 32),
    "5 before 14": ([EVERYWHERE, *CLIMB_513, plain_rule(years=singles("years", range(2000, 2032, 2)))], TOO_MANY_BOXES, 5985),
    "11 before 14": ([EVERYWHERE, *CLIMB_513, SHARING], RANGES_SHARE, 25),
    "14 before 13": (crossed_years(1024, 30), TOO_MANY_LISTS, 93),
    "13 of 512 lists": (crossed_years(1024, 29), PAST_COUNTS, 0),
}


def check_many_lists() -> None:
    """Raises an assertion at the first case that comes out otherwise."""
    for name, (rules, numbers, counts) in LIST_RUNS.items():
        assert counts_of(drained_of(rules)) == counts, name
        for form in FORMS:
            answer, _ = fold(form, write_sheet(form, rules), AMPLE_ROOM)
            assert (answer.code, answer.drained, answer.place) == numbers, name
            if answer.code:
                check_refused(form, name, rules, answer.code, answer.place)
    for name, (rules, code, place) in IN_ORDER.items():
        for form in FORMS:
            if code != PAST_COUNTS:
                check_refused(form, name, rules, code, place)
            else:
                assert fold(form, write_sheet(form, rules), 0)[0].code == (PAST_COUNTS if form == 1 else BUFFER_TOO_SHORT), name


def check_refused(form: int, name: str, rules: list[Rule], code: int, place: int) -> None:
    """Without room too, and where a rule is left; a lookup is refused alike, unless there is no such date."""
    for given in (rules, [*rules, STOPPER]):
        sheet = write_sheet(form, given)
        assert fold(form, sheet, 0) == ((code, 0, 0, 0, 0, place, NOTHING), b""), name
        assert lookup(form, sheet, 2026, 1, 6, 660) == (code, 0, 0, place), name
        assert lookup(form, sheet, 1900, 2, 29, 660) == (NO_SUCH_DATE, 0, 0, 0), name


def counts_of(drained: list[Rule]) -> tuple[int, int]:
    """How many lists differ at most after a rule, and how many there are in all."""
    cuts = cuts_of(drained)
    lists, most, met = empty_lists(cuts), 0, set()
    for index, rule in enumerate(drained):
        lists = draw_rule(lists, index, rule, cuts)
        most, met = max(most, len(different_lists(lists))), met | different_lists(lists)
    return most, len(met)
