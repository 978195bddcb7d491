"""Short ways to write rules down, for the worked days and the generator.

Rests on `sheet` for the values and on `points` for the dimensions.
"""

from __future__ import annotations

from itertools import cycle, islice
from typing import Iterable

from .points import DIMENSIONS, Dimension
from .sheet import ALL_NTH, NORMAL, NO_REPEATS, OPEN, Months, Rule, Span, Time, Week, Weekdays, Year


def fixed(start: int, end: int, open_end: int = 0, repeats: int = NO_REPEATS) -> Span:
    return Span(Time(0, 0, start), Time(0, 0, end), open_end, repeats)


def hours(start: int, end: int, open_end: int = 0) -> Span:
    return fixed(60 * start, 60 * end, open_end)


def weekdays(start: int, end: int) -> Weekdays:
    return Weekdays(start, end, 0, ALL_NTH, ALL_NTH)


# For each sort of days' items the one that drains and has these ends.
ITEM_OF_ENDS = {
    "years": lambda start, end: Year(start, end, 1),
    "monthdays": Months,
    "weeks": lambda start, end: Week(start, end, 1),
    "weekdays": weekdays,
}
DIMENSION_OF_SORT = {dimension.items: dimension for dimension in DIMENSIONS}

# For each sort of items in a rule one that drains.
ITEM_OF_SORT = {
    "years": Year(2000, 2001, 1),
    "monthdays": Months(11, 2),
    "weeks": Week(50, 52, 1),
    "weekdays": weekdays(4, 0),
    "spans": hours(10, 18),
}


def plain_rule(**parts) -> Rule:
    """A Normal Open rule over all days, 10:00-18:00, but for the parts given."""
    return Rule(NORMAL, OPEN, 0, (), (), (), (), (ITEM_OF_SORT["spans"],))._replace(**parts)


def alternating(dimension: Dimension, intervals: int) -> list[int]:
    """Single values, no two of them neighbours, that cut a dimension into so many intervals."""
    first = dimension.lowest + intervals % 2
    return list(range(first, first + intervals // 2 * 2, 2))


def interval(dimension: Dimension, count: int, number: int):
    """The item of one of so many intervals: single values from the lowest on, and the rest as the last."""
    start = dimension.lowest + number
    return ITEM_OF_ENDS[dimension.items](start, dimension.upper - 1 if number == count - 1 else start)


def singles(sort: str, values: Iterable[int]) -> tuple:
    """A day's item for each of the values."""
    return tuple(ITEM_OF_ENDS[sort](value, value) for value in values)


def boxes_rule(shape: tuple[int, int, int, int], **parts) -> Rule:
    """One rule whose ranges make so many intervals of weekdays, weeks, months and years."""
    days = {
        dimension.items: singles(dimension.items, alternating(dimension, intervals))
        for dimension, intervals in zip(DIMENSIONS, shape)
    }
    return plain_rule(**days, **parts)


def many(sort: str, count: int) -> tuple:
    """So many items of a sort; days' items have one value each, from the lowest on, and begin anew after the highest."""
    if sort == "spans":
        return (ITEM_OF_SORT[sort],) * count
    values = range(DIMENSION_OF_SORT[sort].lowest, DIMENSION_OF_SORT[sort].upper)
    return singles(sort, islice(cycle(values), count))
