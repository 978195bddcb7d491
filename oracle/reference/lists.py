"""Room for lists used again: the lists of all points, judged after each drained rule (codes 6 and 14).

Document 02, M-108: "The limit is 512 distinct non-empty lists over all points, counted after each drained rule; two lists are
equal when the same rule indexes stand in them in the same order. .. Refusals: 14, when the count passes 512 after a drained
rule; place that rule's index. 6 and 14 are judged rule by rule, 6 first at the same rule; the first met is given, in the old
place of 6."

Points of one box have the same list, so that the lists of boxes are those of all points, also of points that no calendar day
has. Rests on `points` for them.
"""

from __future__ import annotations

from .points import List, draw_rule, empty_lists
from .sheet import Refusal, Rule

LIST_LIMIT, DIFFERENT_LIMIT = 32, 512  # entries of a list, and lists that differ
LIST_TOO_LONG, TOO_MANY_LISTS = 6, 14


def lists_of_boxes(drained: list[Rule], cuts: list[list[int]]) -> list[List]:
    """The list of each box after all drained rules, boxes in the order of their first points, or the first rule's refusal."""
    lists = empty_lists(cuts)
    for index, rule in enumerate(drained):
        lists = draw_rule(lists, index, rule, cuts)
        check_lists(index, lists)
    return lists


def check_lists(index: int, lists: list[List]) -> None:
    """Refuses the rule after which these lists stand, if one of them is too long or too many of them differ."""
    different = different_lists(lists)
    if any(len(entries) > LIST_LIMIT for entries in different):
        raise Refusal(LIST_TOO_LONG, index)
    if len(different) > DIFFERENT_LIMIT:
        raise Refusal(TOO_MANY_LISTS, index)


def different_lists(lists: list[List]) -> set[List]:
    """Each list once, the empty one aside."""
    return set(lists) - {()}
