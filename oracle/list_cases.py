"""The sheets of the stored answers at the limit of document 02's M-108, past it, and with lists that come and go.

Rests on `cases` and `generate` for generated sheets and on `reference`, whose worked sheets stand among these.
"""

from __future__ import annotations

from itertools import count
from typing import Callable, Iterator

import large_cases
from cases import Given
from generate import sheet_number
from reference.fold import fold
from reference.large import STOPPER, each_interval, each_odd_choice, fewer_by, with_own_states
from reference.lists import LIST_TOO_LONG, TOO_MANY_LISTS
from reference.many_lists import CLIMB_512, EVERYWHERE, IN_ORDER, LIST_RUNS, over_all_day
from reference.points import DIMENSIONS
from reference.sheet import Rule, write_sheet

WORKED = {name: given for name, (given, *_) in (LIST_RUNS | IN_ORDER).items()}
# Those that are written back, read, moved and written as lines too, which 14 never refuses. The last has a line.
OTHER_ENTRIES = ("512 lists", "513 lists", "4096 lists", "14 before 13", "513 lists of Normal Closed rules")
DATES = (*large_cases.DATES, (2026, 11, 20, 720))  # the last on a Friday
SHORT, SHORT_FOLDED = 1500, 8000  # bytes of a sheet that is looked up or refused, and of one that is folded, or of its result
LOOKED_UP = "lists replaced in one half after the other"  # also, since its days differ


def list_sheets(form: int) -> dict[str, bytes]:
    """All of them, by a name that says what they hold."""
    sheets = {name: write_sheet(form, rules) for name, rules in (WORKED | days_that_differ() | once_folded()).items()}
    past = sheets["513 lists"]
    return sheets | {"3, then 14": past + b"\0", "1, then 14": past[:-1]}


def days_that_differ() -> dict[str, list[Rule]]:
    """Sheets whose result tells one list from another."""
    apart = each_odd_choice((1, 8, 8, 16))
    return {
        "512 lists, of which the last entry shows": over_all_day([EVERYWHERE, *CLIMB_512]),
        "512 lists, no two alike": with_own_states(each_interval((1, 8, 8, 8))[:-1]),
        "1024 groups of 249 lists": with_own_states(apart),
        "1024 groups of 250 lists, longer than 65536 bytes": with_own_states(apart + [{}] * 4),
        "1024 groups of 250 lists, and a rule left": [*with_own_states(apart + [{}]), STOPPER],
    }


def once_folded() -> dict[str, list[Rule]]:
    """Sheets that were folded while there was no limit: a list for each of 4,096 boxes."""
    apart = with_own_states(each_interval((4, 8, 8, 16)) + [{}] * 12)
    one_less, two_less = (fewer_by(less, apart, DIMENSIONS) for less in (1, 2))
    return {
        "4096 lists": apart, "4096 lists, and a rule for one box": one_less,
        "4096 lists, a rule for one box, and one left": [*one_less, STOPPER],
        "4096 lists, another rule for one box, and one left": [*two_less, STOPPER],
    }


def for_other_entries(form: int) -> dict[str, bytes]:
    return {name: sheet for name, sheet in list_sheets(form).items() if name in OTHER_ENTRIES}


def for_lookups(form: int) -> dict[str, bytes]:
    return {name: sheet for name, sheet in list_sheets(form).items() if len(sheet) <= SHORT or name == LOOKED_UP}


def generated_lists(form: int, seed: str, is_kept: Callable[[Given], bool]) -> Iterator[Given]:
    """Sheets of the generator that have many lists and are to be kept, without end."""
    sheets = (Given(form, sheet_number(form, f"{seed}/lists", number, True, "lists")) for number in count())
    return filter(is_kept, sheets)


def is_short_fold(given: Given) -> bool:
    return len(given.sheet) <= SHORT_FOLDED and 0 < fold(*given, SHORT_FOLDED)[0].bytes


def is_refused_by_lists(given: Given) -> bool:
    return len(given.sheet) <= SHORT and fold(*given, 0)[0].code in (LIST_TOO_LONG, TOO_MANY_LISTS)
