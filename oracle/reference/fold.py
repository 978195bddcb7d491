"""The fold and the write-back: the numbers of the answer, the refusals in their order, the bytes.

The last number, why the fold stopped, is document 02's (M-105), and so are the refusal of overlaps (M-101), the form that the
caller says and "a fold keeps" (M-106), what form 1 can't count (M-107), and how many lists may differ (M-108). Rests on `sheet`,
`points`, `overlap`, `lists`, `why`, `day`, `groups` and `counts`.
"""

from __future__ import annotations

from functools import partial
from typing import Callable, NamedTuple

from .counts import check_counts
from .day import Day, day_of
from .groups import folded_rules
from .lists import lists_of_boxes
from .overlap import check_overlaps
from .points import List, check_boxes, cuts_of, drained_of
from .sheet import Refusal, Rule, pack_rules, read_sheet, rules_bits, unpack, write_sheet
from .why import NOTHING, why_stopped

BUFFER_TOO_SHORT = 7
AMPLE_ROOM = 2**32  # for any result


class Folded(NamedTuple):
    code: int
    drained: int
    emitted: int
    left: int
    bytes: int
    place: int
    why: int


class Written(NamedTuple):
    code: int
    bytes: int
    place: int


def fold(form: int, sheet: bytes, room: int) -> tuple[Folded, bytes]:
    """The seven numbers, and the bytes that then stand at the front of a buffer of `room` bytes."""
    try:
        rules, places = read_sheet(form, sheet)
        drained = drained_of(rules)
        emitted = fold_drained(drained)
        left = rules[len(drained) :]
        check_counts(form, emitted + left)
        copied = unpack(sheet, places[len(drained)], places[-1])
        folded = pack_rules(form, len(emitted) + len(left), rules_bits(form, emitted) + copied)
        result = checked_room(folded, room)
    except Refusal as refusal:
        return Folded(refusal.code, 0, 0, 0, 0, refusal.place, NOTHING), b""
    return Folded(0, len(drained), len(emitted), len(left), len(result), 0, why_stopped(left)), result


def write_back(form: int, sheet: bytes, room: int) -> tuple[Written, bytes]:
    """A sheet read and written again."""
    return written(partial(write_sheet, form), form, sheet, room)


def written(write: Callable[[list[Rule]], bytes], form: int, sheet: bytes, room: int) -> tuple[Written, bytes]:
    """The three numbers of an entry that writes a sheet or text, and its bytes; what writes the rules may refuse them."""
    try:
        rules, _ = read_sheet(form, sheet)
        result = checked_room(write(rules), room)
    except Refusal as refusal:
        return Written(refusal.code, 0, refusal.place), b""
    return Written(0, len(result), 0), result


def checked_room(result: bytes, room: int) -> bytes:
    if room < len(result):
        raise Refusal(BUFFER_TOO_SHORT, len(result))
    return result


def fold_drained(drained: list[Rule]) -> list[Rule]:
    """The folded rules; overlaps are judged before boxes, and boxes before any list is."""
    check_overlaps(drained)
    cuts = cuts_of(drained)
    check_boxes(cuts)
    return folded_rules(days_of_lists(drained, lists_of_boxes(drained, cuts)), cuts)


def days_of_lists(drained: list[Rule], lists: list[List]) -> list[Day]:
    """The day of each list, made once for each different one."""
    made = {entries: day_of(drained[index] for index in entries) for entries in set(lists)}
    return [made[entries] for entries in lists]
