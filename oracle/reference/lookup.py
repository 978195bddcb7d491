"""The state lookup: kind and comment at a date and minute.

Dates and their ISO weeks (document 02, M-104) are those of the standard library's Gregorian calendar. Rests on `sheet`, `points`, `overlap`,
`lists` and `day`.
"""

from __future__ import annotations

from datetime import MAXYEAR, date
from typing import NamedTuple

from .day import PLAIN_CLOSED, State, StatedSpan, flatten, is_simple
from .lists import lists_of_boxes
from .overlap import check_overlaps
from .points import Point, check_boxes, cuts_of, drained_of, list_at
from .sheet import MIDNIGHT, Refusal, read_sheet

FIRST_YEAR = 1900
NO_SUCH_DATE, NOT_ANSWERABLE = 8, 9


class Found(NamedTuple):
    code: int
    kind: int
    comment: int
    place: int


def lookup(form: int, sheet: bytes, year: int, month: int, day: int, minute: int) -> Found:
    try:
        return Found(0, *state_at(form, sheet, year, month, day, minute), 0)
    except Refusal as refusal:
        return Found(refusal.code, 0, 0, refusal.place)


def state_at(form: int, sheet: bytes, year: int, month: int, day: int, minute: int) -> State:
    rules, _ = read_sheet(form, sheet)
    point = point_of(year, month, day)
    if point is None or not minute < MIDNIGHT:
        raise Refusal(NO_SUCH_DATE, 0)
    drained = drained_of(rules)
    check_overlaps(drained)
    cuts = cuts_of(drained)
    check_boxes(cuts)
    lists_of_boxes(drained, cuts)  # for its refusals, which any point's list may cause
    spans = flatten(drained[index] for index in list_at(drained, point))
    if len(drained) < len(rules) or not all(is_simple(span) for _, span in spans):
        raise Refusal(NOT_ANSWERABLE, 0)
    return last_covering(spans, minute)


def last_covering(spans: list[StatedSpan], minute: int) -> State:
    covering = [state for state, span in spans if span.start.minutes <= minute < span.end.minutes]
    return covering[-1] if covering else PLAIN_CLOSED


def point_of(year: int, month: int, day: int) -> Point | None:
    """The point of a date, its week by ISO 8601 and its year that of the calendar, or none where there is no such date."""
    if not FIRST_YEAR <= year <= MAXYEAR:
        return None
    try:
        found = date(year, month, day)
    except (ValueError, OverflowError):
        return None
    return found.weekday(), found.isocalendar().week, month, year
