"""From rules to points: ranges, draining, the count of boxes (code 5), the list at each point.

A list is a tuple of indexes of drained rules. `list_at` says it literally, for one point; `draw_rule` computes it rule after
rule, once for each box between cuts, where no range begins or ends; how lists are judged stands in `lists`. Rests on `sheet`
for the rules and on `why` for those that stop.
"""

from __future__ import annotations

from itertools import product
from math import prod
from typing import NamedTuple

from .sheet import CLOSED, NORMAL, Refusal, Rule
from .why import stops

BOX_LIMIT = 4096  # document 02's, M-107
TOO_MANY_BOXES = 5

Range = tuple[int, int]  # start, and the end excluded
Point = tuple[int, int, int, int]  # weekday, week, month, year
List = tuple[int, ...]


class Dimension(NamedTuple):
    """`upper` is the unreachable value above the highest; `items` names the rule's part that speaks of the dimension."""

    lowest: int
    upper: int
    items: str


DIMENSIONS = (
    Dimension(0, 7, "weekdays"),
    Dimension(1, 54, "weeks"),
    Dimension(1, 13, "monthdays"),
    Dimension(1900, 10000, "years"),
)


# Ranges


def split(start: int, end: int, dimension: Dimension) -> list[Range]:
    after = end + 1
    if start >= after:
        return [(dimension.lowest, after), (start, dimension.upper)]
    return [(start, after)]


def ranges_of(rule: Rule, dimension: Dimension) -> list[Range]:
    """The ranges of a drained rule in one dimension; no items mean the whole dimension."""
    items = getattr(rule, dimension.items)
    if not items:
        return [(dimension.lowest, dimension.upper)]
    return [part for item in items for part in split(item.start, item.end, dimension)]


# Draining


def drained_of(rules: list[Rule]) -> list[Rule]:
    """The rules before the first stopper."""
    first_stopper = next((index for index, rule in enumerate(rules) if stops(rule)), len(rules))
    return rules[:first_stopper]


def replaces(rule: Rule) -> bool:
    return rule.operator == NORMAL and rule.kind != CLOSED


def times_covered(ranges: list[Range], value: int) -> int:
    return sum(start <= value < end for start, end in ranges)


def list_at(drained: list[Rule], point: Point) -> List:
    """The list at a point after all drained rules, said literally."""
    entries: List = ()
    for index, rule in enumerate(drained):
        combinations = prod(
            times_covered(ranges_of(rule, dimension), value) for dimension, value in zip(DIMENSIONS, point)
        )
        if combinations:
            entries = (index,) if replaces(rule) else entries + (index,) * combinations
    return entries


# Boxes


def cuts_of(drained: list[Rule]) -> list[list[int]]:
    """In each dimension both bounds and all starts and ends of the drained rules' ranges, rising."""
    return [
        sorted(
            {dimension.lowest, dimension.upper}
            | {bound for rule in drained for part in ranges_of(rule, dimension) for bound in part}
        )
        for dimension in DIMENSIONS
    ]


def shape_of(cuts: list[list[int]]) -> list[int]:
    """The number of intervals in each dimension."""
    return [len(values) - 1 for values in cuts]


def check_boxes(cuts: list[list[int]]) -> None:
    boxes = prod(shape_of(cuts))
    if boxes > BOX_LIMIT:
        raise Refusal(TOO_MANY_BOXES, boxes)


def empty_lists(cuts: list[list[int]]) -> list[List]:
    """The list of each box before any rule."""
    return [()] * prod(shape_of(cuts))


def draw_rule(lists: list[List], index: int, rule: Rule, cuts: list[list[int]]) -> list[List]:
    """The list of each box after one more rule, boxes in the order of their first points."""
    drawn = list(lists)
    for box, combinations in boxes_covered(rule, cuts, shape_of(cuts)):
        drawn[box] = (index,) if replaces(rule) else lists[box] + (index,) * combinations
    return drawn


def boxes_covered(rule: Rule, cuts: list[list[int]], shape: list[int]):
    """Each box that the rule covers, by its number, and in how many combinations of ranges."""
    covered = [(0, 1)]
    for dimension, starts, intervals in zip(DIMENSIONS, cuts, shape):
        ranges = ranges_of(rule, dimension)
        times = [times_covered(ranges, start) for start in starts[:-1]]
        covered = [
            (box * intervals + interval, combinations * times[interval])
            for (box, combinations), interval in product(covered, range(intervals))
            if times[interval]
        ]
    return covered
