"""Planners typing the same days twice: a drained rule two of whose ranges share a value (code 11).

Document 02, M-101: "Two ranges of one selector that share a value in a drained rule are refused; ranges that only touch are
fine, and rules left may overlap. .. Refusals: 11, place the first such rule's index; after 8, before 5."

A selector is one of the four sorts of days' items; spans may share minutes. An item is one range, also where it wraps, so its
two parts are one set of values. Rests on `sheet` for the rules and on `points` for the values of a range.
"""

from __future__ import annotations

from functools import lru_cache
from itertools import combinations

from .points import DIMENSIONS, Dimension, split
from .sheet import Refusal, Rule

RANGES_SHARE = 11


def check_overlaps(drained: list[Rule]) -> None:
    """Refuses the first drained rule that overlaps."""
    for index, rule in enumerate(drained):
        if overlaps(rule):
            raise Refusal(RANGES_SHARE, index)


def overlaps(rule: Rule) -> bool:
    return any(share_a_value(getattr(rule, dimension.items), dimension) for dimension in DIMENSIONS)


def share_a_value(items: tuple, dimension: Dimension) -> bool:
    """Whether two items of one selector have a value in common."""
    sets = [values_of(item.start, item.end, dimension) for item in items]
    return any(not first.isdisjoint(second) for first, second in combinations(sets, 2))


@lru_cache(maxsize=64)  # rules of one sheet often name the same years again
def values_of(start: int, end: int, dimension: Dimension) -> frozenset[int]:
    return frozenset().union(*(range(*part) for part in split(start, end, dimension)))
