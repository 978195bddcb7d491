"""The sheets of the stored folds and lookups in which ranges of one selector share values, or only touch (document 02, M-101).

Rests on `line_cases` for rules put in place of others and on `reference`, whose worked overlaps stand among the named sheets.
"""

from __future__ import annotations

from itertools import product

from line_cases import replaced
from reference.build import DIMENSION_OF_SORT, ITEM_OF_ENDS, ITEM_OF_SORT, boxes_rule, fixed, hours, many, plain_rule, weekdays
from reference.points import Dimension
from reference.sheet import (
    ADDITIONAL, CLOSED, FALLBACK, ITEM_LIMIT, NORMAL, OPEN, UNKNOWN, Months, Rule, Week, Year, write_sheet,
)
from reference.worked import LATE, OPEN_ENDED, SHARING_WEEKDAYS, WEEKS_BY_2, additional

Ends = tuple[tuple[int, int], ...]  # of the items of one selector
SHARING = plain_rule(weekdays=SHARING_WEEKDAYS)
BOXES, ENTRIES = boxes_rule((1, 9, 8, 16)), [additional()] * 33
STOPPER = plain_rule(spans=(LATE,))


# Items that share a value, and items that don't


def sharing(dimension: Dimension) -> dict[str, Ends]:
    low, high = dimension.lowest, dimension.upper - 1
    first, second, third, fourth = range(low + 1, low + 5)
    return {
        "one value twice": ((second, second), (second, second)),
        "one range twice": ((first, third), (first, third)),
        "the end of one and the start of the other": ((first, second), (second, third)),
        "one inside the other": ((first, fourth), (second, third)),
        "the same start": ((first, second), (first, fourth)),
        "the same end": ((first, third), (second, third)),
        "the whole beside one value": ((low, high), (third, third)),
        "the whole twice": ((low, high), (low, high)),
        "the whole as a wrap beside one value": ((third, second), (fourth, fourth)),
        "a wrap's end": ((high, first), (first, second)),
        "a wrap's start": ((fourth, low), (third, fourth)),
        "a wrap's lowest value": ((fourth, first), (low, low)),
        "a wrap's highest value": ((fourth, first), (high, high)),
        "a wrap and what reaches over its gap": ((fourth, first), (first, fourth)),
        "two wraps": ((high, low), (fourth, first)),
        "the first and the third": ((first, second), (third, third), (second, second)),
        "the last two of four": ((low, low), (first, first), (fourth, fourth), (fourth, high)),
    }


def touching(dimension: Dimension) -> dict[str, Ends]:
    low, high = dimension.lowest, dimension.upper - 1
    first, second, third, fourth = range(low + 1, low + 5)
    return {
        "one next to the other": ((first, second), (third, fourth)),
        "a value between them": ((first, first), (third, third)),
        "a wrap and its gap": ((fourth, first), (second, third)),
        "a wrap of the bounds alone": ((high, low), (first, high - 1)),
        "lowest and highest": ((low, low), (high, high)),
        "the whole as a wrap, alone": ((third, second),),
        "three in a row": ((low, first), (third, fourth), (second, second)),
    }


def with_ends(rule: Rule, sort: str, ends: Ends) -> Rule:
    return rule._replace(**{sort: tuple(ITEM_OF_ENDS[sort](*pair) for pair in ends)})


def in_both_orders(named: dict[str, Ends], sort: str) -> list[list[Rule]]:
    orders = dict.fromkeys(order for ends in named.values() for order in (ends, ends[::-1]))
    return [[with_ends(additional(spans=(OPEN_ENDED,)), sort, ends)] for ends in orders]


# Where the rule that overlaps stands, and what else it holds


def at_each_place(sort: str) -> list[list[Rule]]:
    """In each of three rules, in two of them, in one that is left and in one behind it."""
    shared = many(sort, 1) * 2
    others = {other: (item,) for other, item in ITEM_OF_SORT.items() if other != sort}
    sound = [plain_rule(comment=comment, **{sort: many(sort, 2)}, **others) for comment in (1, 2, 3)]
    rule = sound[0]._replace(**{sort: shared})
    return [
        *(replaced(sound, place, rule) for place in range(3)),
        [sound[0], rule, rule],
        [rule, sound[0], rule],
        *([sound[0], left, sound[1]] for left in (rule._replace(operator=FALLBACK), rule._replace(spans=(LATE,)))),
        [sound[0], STOPPER, rule],
        [sound[0], rule, STOPPER],
    ]


def of_each_state() -> list[list[Rule]]:
    """Every operator that drains, kind and sort of spans, none among them."""
    spans = ((), (hours(10, 18),), (OPEN_ENDED, fixed(0, 1440, 0, 60)))
    return [
        [additional(), SHARING._replace(operator=operator, kind=kind, comment=comment, spans=some)]
        for operator, kind, comment, some in product((NORMAL, ADDITIONAL), (OPEN, CLOSED, UNKNOWN), (0, 7), spans)
    ]


def at_the_limit() -> list[list[Rule]]:
    """As many items as a selector has room or values for, the last one grown into the first, and sixteen in a rule left."""
    rules = []
    for sort, dimension in DIMENSION_OF_SORT.items():
        count = min(ITEM_LIMIT, dimension.upper - dimension.lowest)
        items = many(sort, count)
        back_to_first = items[-1]._replace(end=items[0].start)
        rules += [[plain_rule(**{sort: some})] for some in (items, items[::-1], (*items[:-1], back_to_first))]
        rules.append([plain_rule(operator=FALLBACK, **{sort: many(sort, ITEM_LIMIT)})])
    return rules


def no_overlaps() -> list[list[Rule]]:
    """What may be shared: minutes, the same numbers in two selectors, the days of two rules."""
    same_numbers = {"weekdays": (weekdays(1, 2),), "monthdays": (Months(1, 2),), "weeks": (Week(1, 2, 1),)}
    return [
        [plain_rule(spans=(hours(10, 12), hours(11, 13), hours(10, 12)))],
        [plain_rule(**same_numbers)],
        [plain_rule(**same_numbers), additional(**same_numbers, comment=1)],
        [plain_rule(years=(Year(2000, 2010, 1),)), additional(years=(Year(2010, 2020, 1),)), plain_rule(kind=CLOSED)],
        [plain_rule(weeks=(WEEKS_BY_2, WEEKS_BY_2)), SHARING],
    ]


def each_overlap() -> dict[str, list[list[Rule]]]:
    """The sheets of the stored folds, by a name that says what they hold."""
    named = {}
    for sort, dimension in DIMENSION_OF_SORT.items():
        named[f"{sort} that share a value"] = in_both_orders(sharing(dimension), sort)
        named[f"{sort} that only touch"] = in_both_orders(touching(dimension), sort)
        named[f"{sort} that share, at each place of a sheet and in rules left"] = at_each_place(sort)
    named["weekdays that share, of each state"] = of_each_state()
    named["as many items as can be"] = at_the_limit()
    named["minutes, numbers and days that may be shared"] = no_overlaps()
    return named


# Two codes at once


def refused_by_overlaps_too(form: int) -> dict[str, bytes]:
    """Sheets for which 11 and another code hold, so that the order of refusals shows. Those of 1,152 boxes once were too many."""
    folded = {
        "11, with 1152 boxes": [BOXES, SHARING], "11, in the rule of 1152 boxes": [BOXES._replace(weekdays=SHARING_WEEKDAYS)],
        "11 before 6": [*ENTRIES, SHARING], "11 in the first rule, before 6": [SHARING, *ENTRIES],
        "11 before 9": [SHARING, STOPPER], "11 before 6 and 9, with 1152 boxes": [BOXES, *ENTRIES, SHARING, STOPPER],
        "1152 boxes where a rule left overlaps": [BOXES, STOPPER, SHARING],
        "6 where a rule left overlaps": [*ENTRIES, STOPPER, SHARING],
        "9 where a rule left overlaps": [plain_rule(), STOPPER, SHARING],
    }
    sheets = {name: write_sheet(form, rules) for name, rules in folded.items()}
    spoilt = write_sheet(form, [SHARING])
    return {**sheets, "3, then 11": spoilt + b"\0", "1, then 11": spoilt[:-1]}
