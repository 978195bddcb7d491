"""A sheet moved to the other form.

Document 02, M-106: "Stored sheets move to form 2 and back, each giving the original bytes when returned." And: "12, going back,
exactly when a comment is above 65,535; place the first such rule's index; after 3, before 7."

Every rule of the sheet is looked at, drained or not. Rests on `sheet`, and on `fold` for the numbers of the answer.
"""

from __future__ import annotations

from functools import partial

from .fold import Written, written
from .sheet import Refusal, Rule, layout_of, write_sheet

COMMENT_TOO_LONG = 12
OTHER_FORM = {1: 2, 2: 1}


def convert(form: int, sheet: bytes, room: int) -> tuple[Written, bytes]:
    """The three numbers, and the bytes of the other form that then stand at the front of a buffer of `room` bytes."""
    return written(partial(in_other_form, form), form, sheet, room)


def in_other_form(form: int, rules: list[Rule]) -> bytes:
    other = OTHER_FORM[form]
    for index, rule in enumerate(rules):
        if rule.comment > layout_of(other).comment.highest:
            raise Refusal(COMMENT_TOO_LONG, index)
    return write_sheet(other, rules)
