"""The computation over boxes held against the literal reading, at sampled points, and one form against the other.

Checked for the drained rules of an accepted fold: the list of a point's box is the list said literally for that point, and
no rule stands in it twice, since no ranges overlap (document 02, M-101); after some rule the lists that differ (M-108) are those
said literally for the first points of all boxes; the folded rules say at the point exactly its day; the day of simple spans
shows at a minute the last span that covers it; and cuts beyond those needed change nothing. Checked for an accepted sheet whose comments fit the other form (M-106): moved there and back it is the same, its fold moved there is
the fold of what it was moved to, unless form 1 can't count it (M-107), and its line stays. Rests on the other modules.
"""

from __future__ import annotations

from bisect import bisect_right
from itertools import product
from math import prod
from random import Random

from .convert import COMMENT_TOO_LONG, OTHER_FORM, convert
from .counts import PAST_COUNTS
from .day import Day, PLAIN_CLOSED, StatedSpan, day_of, flatten, is_simple
from .fold import AMPLE_ROOM, days_of_lists, fold, fold_drained
from .groups import folded_rules, number_of
from .line import line
from .lists import different_lists, lists_of_boxes
from .lookup import last_covering
from .points import DIMENSIONS, Dimension, Point, cuts_of, list_at, shape_of
from .sheet import MIDNIGHT, PAST_ITS_LIMIT, Rule

POINTS, MINUTES, EXTRA_CUTS = 40, 5, 2
SAID_LITERALLY = 20000  # rules at points, at most


def check_other_form(form: int, sheet: bytes) -> None:
    """Raises an assertion at the first disagreement; a fold past a sheet's limits can't be moved."""
    other, (answer, moved) = OTHER_FORM[form], convert(form, sheet, AMPLE_ROOM)
    if answer.code == COMMENT_TOO_LONG:
        return
    assert convert(other, moved, AMPLE_ROOM)[1] == sheet, ("back", moved)
    assert line(other, moved, AMPLE_ROOM) == line(form, sheet, AMPLE_ROOM), ("line", moved)
    (ours, folded), (theirs, folded_there) = fold(form, sheet, AMPLE_ROOM), fold(other, moved, AMPLE_ROOM)
    if PAST_COUNTS in (ours.code, theirs.code):  # of form 1 alone, where form 2 folds
        assert {ours.code, theirs.code} == {0, PAST_COUNTS}, ("13", moved)
        return
    assert ours._replace(bytes=0) == theirs._replace(bytes=0), ("numbers", moved)
    answer, folded_moved = convert(form, folded, AMPLE_ROOM)
    assert answer.code == PAST_ITS_LIMIT or folded_moved == folded_there, ("fold", moved)


def check_boxes_against_points(drained: list[Rule], random: Random) -> None:
    """Raises an assertion at the first disagreement."""
    cuts = cuts_of(drained)
    lists = lists_of_boxes(drained, cuts)
    folded = fold_drained(drained)
    for _ in range(POINTS):
        point = tuple(map(sample_value, DIMENSIONS, cuts, [random] * len(DIMENSIONS)))
        entries = list_at(drained, point)
        rules = [drained[index] for index in entries]
        said = [folded[index] for index in list_at(folded, point)]
        day = day_of(rules)
        assert lists[box_of(point, cuts)] == entries, ("list", point)
        assert len(set(entries)) == len(entries), ("twice", point)
        assert [(rule.kind, rule.comment, rule.spans) for rule in said] == [(*state, spans) for state, spans in day], point
        check_minutes(flatten(rules), day, random)
    check_lists_against_points(drained[: random.randint(0, len(drained))], cuts)
    finer = [
        sorted({*values, *(random.randrange(dimension.lowest, dimension.upper) for _ in range(EXTRA_CUTS))})
        for values, dimension in zip(cuts, DIMENSIONS)
    ]
    assert folded_rules(days_of_lists(drained, lists_of_boxes(drained, finer)), finer) == folded, ("cuts", finer)


def check_lists_against_points(first: list[Rule], cuts: list[list[int]]) -> None:
    """Of the first rules, unless these and the boxes are too many to be said literally."""
    if len(first) * prod(shape_of(cuts)) <= SAID_LITERALLY:
        said = [list_at(first, point) for point in product(*(values[:-1] for values in cuts))]
        assert different_lists(lists_of_boxes(first, cuts)) == different_lists(said), ("lists", len(first))


def check_minutes(spans: list[StatedSpan], day: Day, random: Random) -> None:
    if not all(is_simple(span) for _, span in spans):
        return
    for minute in random.sample(range(MIDNIGHT), MINUTES):
        shown = [state for state, runs in day for run in runs if run.start.minutes <= minute < run.end.minutes]
        assert (shown or [PLAIN_CLOSED]) == [last_covering(spans, minute)], ("minute", minute, spans)


def sample_value(dimension: Dimension, cuts: list[int], random: Random) -> int:
    """A value at a cut, just before one, or anywhere: disagreements would stand at the edges."""
    cut = random.choice(cuts)
    value = random.choice((cut, cut - 1, random.randrange(dimension.lowest, dimension.upper)))
    return min(max(value, dimension.lowest), dimension.upper - 1)


def box_of(point: Point, cuts: list[list[int]]) -> int:
    return number_of([bisect_right(values, value) - 1 for values, value in zip(cuts, point)], shape_of(cuts))
