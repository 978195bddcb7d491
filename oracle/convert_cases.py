"""The sheets of the stored conversions (document 02, M-106): comments on both sides of 65,535, and sheets that come back.

Rests on `cases` for generated sheets, on `line_cases` for rules put in place of others and on `reference`.
"""

from __future__ import annotations

from itertools import product
from typing import Iterator

from cases import Given, generated, is_accepted
from line_cases import replaced
from reference.build import plain_rule
from reference.convert import OTHER_FORM, convert
from reference.sheet import FALLBACK, Rule, write_sheet
from reference.worked import LATE, ROOM, additional, weekdays

TOO_LONG, LONGEST_OF_FORM_1 = (65536, 65537, 2**17 - 1, 2**23, 2**24 - 1), 65535
DRAINED = [plain_rule(comment=LONGEST_OF_FORM_1), additional(comment=1), plain_rule(weekdays=(weekdays(0, 4),))]
LEFT_FROM_THE_SECOND = [DRAINED[0], plain_rule(spans=(LATE,)), plain_rule(operator=FALLBACK, comment=LONGEST_OF_FORM_1)]


def long_comments() -> dict[str, list[list[Rule]]]:
    """The sheets of form 2 that 12 refuses, and those that it nearly does, by a name that says which."""
    places = list(product((DRAINED, LEFT_FROM_THE_SECOND), range(3)))
    return {
        "no comment above 65535": [DRAINED, LEFT_FROM_THE_SECOND],
        "one comment above 65535, at each rule, drained and left": [
            replaced(rules, place, rules[place]._replace(comment=comment))
            for (rules, place), comment in product(places, TOO_LONG)
        ],
        "two comments above 65535": [
            [rule._replace(comment=comment) for rule, comment in zip(DRAINED, comments)]
            for comments in ((2**24 - 1, 65536, 0), (0, 65536, 2**24 - 1), (65536, 65535, 65536))
        ],
    }


def refused_before_12() -> dict[str, bytes]:
    """Sheets of form 2 with such a comment that are refused by another code, so that the order of refusals shows."""
    sheet = write_sheet(2, [plain_rule(comment=65536)])
    return {
        "3, then 12": sheet + b"\0", "1, then 12": sheet[:-1],
        "2, then 12": write_sheet(2, [plain_rule(comment=65536), plain_rule(kind=3)]),
        "4, then 12": write_sheet(2, [plain_rule(comment=65536, spans=plain_rule().spans * 17)]),
        "2 at the head, then 12": b"\x10" + sheet[1:],
    }


def moved_here(form: int, seed: str) -> Iterator[Given]:
    """Sheets of the other form that were moved to this one, without end."""
    other = OTHER_FORM[form]
    for given in generated(other, seed, False, is_accepted):
        answer, moved = convert(*given, ROOM)
        if answer.code == 0:
            yield Given(form, moved)
