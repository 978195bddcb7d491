"""From points to rules: classes of days, the growing of a group from its first point, its rules.

Computed over boxes, in which the day is one and the same; a set of intervals stands for the set of all their values.
Rests on `points` for dimensions and cuts, on `day` for days.
"""

from __future__ import annotations

from itertools import product
from math import prod
from typing import Iterator, Sequence

from .day import Day, rules_of_day
from .points import DIMENSIONS, Dimension, Range, shape_of
from .sheet import ALL_NTH, OPEN, UNKNOWN, Months, Rule, Week, Weekdays, Year

CLASSES = 5
Sets = list[list[int]]  # in each dimension the numbers of the chosen intervals, rising


def folded_rules(days: list[Day], cuts: list[list[int]]) -> list[Rule]:
    """The rules of all groups, for the days of all boxes."""
    return [rule for day, sets in groups_of(days, shape_of(cuts)) for rule in rules_of_group(day, sets, cuts)]


def class_of(day: Day) -> int | None:
    """The first class that the day matches; an earlier one takes it before a later one looks."""
    if not day:
        return None
    kinds = [entry.state.kind for entry in day]
    if kinds[0] == OPEN:
        return 0 if set(kinds) == {OPEN} else 1
    if kinds[0] == UNKNOWN:
        return 2 if set(kinds) == {UNKNOWN} else 3
    return 4


def groups_of(days: list[Day], shape: list[int]) -> Iterator[tuple[Day, Sets]]:
    """Class after class: grow the first box that matches, empty what was grown, go on.

    Boxes only become empty, so within a class the first match never moves back: one pass finds each in turn.
    """
    days = list(days)
    classes = [class_of(day) for day in days]
    for wanted in range(CLASSES):
        for first in range(len(days)):
            if classes[first] == wanted and days[first]:
                day, sets = days[first], grow(days, shape, first)
                for box in product(*sets):
                    days[number_of(box, shape)] = ()
                yield day, sets


def number_of(box: Sequence[int], shape: list[int]) -> int:
    number = 0
    for interval, intervals in zip(box, shape):
        number = number * intervals + interval
    return number


def grow(days: list[Day], shape: list[int], first: int) -> Sets:
    """Years with the same day as the first box, months good for all those years, weeks for all those, then weekdays."""
    place = [first // prod(shape[dimension + 1 :]) % shape[dimension] for dimension in range(len(shape))]
    sets = [[interval] for interval in place]
    for dimension in reversed(range(len(shape))):
        sets[dimension] = [
            interval
            for interval in range(shape[dimension])
            if all(
                days[number_of(box, shape)] == days[first]
                for box in product(*sets[:dimension], [interval], *sets[dimension + 1 :])
            )
        ]
    return sets


def rules_of_group(day: Day, sets: Sets, cuts: list[list[int]]) -> list[Rule]:
    weekdays, weeks, months, years = (
        runs(chosen, values, dimension) for chosen, values, dimension in zip(sets, cuts, DIMENSIONS)
    )
    return rules_of_day(
        day,
        years=tuple(Year(start, end, 1) for start, end in years),
        months=tuple(Months(start, end) for start, end in months),
        weeks=tuple(Week(start, end, 1) for start, end in weeks),
        weekdays=tuple(Weekdays(start, end, 0, ALL_NTH, ALL_NTH) for start, end in weekdays),
    )


def runs(chosen: list[int], cuts: list[int], dimension: Dimension) -> list[Range]:
    """The maximal runs of values, first and last included; none for a full dimension."""
    joined: list[Range] = []
    for interval in chosen:
        start, end = cuts[interval], cuts[interval + 1] - 1
        if joined and joined[-1][1] == start - 1:
            joined[-1] = (joined[-1][0], end)
        else:
            joined.append((start, end))
    return [] if joined == [(dimension.lowest, dimension.upper - 1)] else joined
