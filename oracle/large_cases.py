"""The sheets of the stored answers at the limits of document 02's M-107, one past them, and at what form 1 can count.

Results of 65,535 rules have more than a megabyte, for which no record has room: of these folds the answers in 65,536 bytes and in
none are stored, and the results themselves are held against the Rust in scale/ (`counted.rs`). Rests on `reference`.
"""

from __future__ import annotations

from reference.build import plain_rule
from reference.large import BEFORE_13, COUNTED, LARGE_RUNS, NOT_COUNTED, OVER_BOXES, SHARING, STOPPER, numbered_rules, years_apart
from reference.sheet import ADDITIONAL, Rule, write_sheet
from reference.worked import LATE, ROOM

ENTRIES = [plain_rule(operator=ADDITIONAL)] * 33
WORKED = {name: given for name, (given, *_) in (LARGE_RUNS | COUNTED | NOT_COUNTED | BEFORE_13).items()}
# What 1,024 years would take in form 1, if they could be counted, and a byte less: 13 is given all the same.
ROOMS_FOR_1024_YEARS = (5647, 5646)
OTHER_ENTRIES = ("256 rules", "257 rules", "4096 boxes", "4352 boxes", "1024 years", "65536 rules")
DATES = ((2000, 2, 29, 720), (1900, 2, 29, 720), (1901, 1, 1, 30), (3947, 12, 31, 1079))


def large_sheets(form: int) -> dict[str, bytes]:
    """All of them, by a name that says what they hold."""
    sheets = {name: write_sheet(form, rules) for name, rules in (WORKED | refused()).items()}
    past = write_sheet(form, years_apart(1024))
    return sheets | {"3, then 13": past + b"\0", "1, then 13": past[:-1]}


def refused() -> dict[str, list[Rule]]:
    """Sheets that have too many rules or boxes, and another reason besides."""
    late = plain_rule(spans=(LATE,))
    return {
        "257 rules": numbered_rules(257), "257 rules, the last of which stops": [*numbered_rules(256), STOPPER],
        "5 before 6": [OVER_BOXES, *ENTRIES], "5 before 9": [OVER_BOXES, late],
        "11 before 5": [OVER_BOXES, SHARING], "11 before 5, 6 and 9": [OVER_BOXES, *ENTRIES, SHARING, late],
        "5 where a rule left overlaps": [OVER_BOXES, late, SHARING],
    }


def for_other_entries(form: int) -> dict[str, bytes]:
    """Those that are looked up, written back, read, moved and written as lines too."""
    return {name: sheet for name, sheet in large_sheets(form).items() if name in OTHER_ENTRIES}


def fold_rooms(name: str) -> tuple[int, ...]:
    """Buffers other than those that are exactly full or a byte short."""
    return (ROOM, 0) + (ROOMS_FOR_1024_YEARS if name.startswith("1024 years") else ())
