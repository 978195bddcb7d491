"""One line of text: an accepted sheet in the notation of the public OpenStreetMap opening_hours specification.

Document 02, M-100: "days in the order years, months, week numbers, weekdays; two-digit hours, minutes and weeks, the
weeks after `week `; `,` between items, one space between parts; then the spans, each as start, `-`, end, and `+` if
`open_end`; then kind, then comment; `; ` before a Normal rule, `, ` before an Additional one, ` || ` before a Fallback;
`off` for Closed, `unknown` for Unknown, and `open` only where an Open rule has a comment; a comment number n as `"n"`, 0
not written. Nothing stands before the first rule, and no rules give an empty line. Equal ends of a day item with step 1
are written once, a span's never; any other step follows both ends after `/`." And: "Refusals: 10, exactly when the sheet
holds a dated month range, a monthday reference, a holiday, a weekday offset or unset nth bit, a variable time, repeats, a
rule with 0 spans, or a first rule that isn't Normal; place is the first such rule's index; after 3, before 7."

Every rule of the sheet is looked at, drained or not. Rests on `sheet`, and on `fold` for the numbers of the answer.
"""

from __future__ import annotations

from .fold import Written, written
from .sheet import (
    ADDITIONAL, ALL_NTH, CLOSED, FALLBACK, NORMAL, NO_REPEATS, OPEN, UNKNOWN,
    DatedRange, Holiday, MonthsOfYear, Refusal, Rule, Span, Time, Weekdays,
)

NO_LINE = 10
BEFORE_RULE = {NORMAL: "; ", ADDITIONAL: ", ", FALLBACK: " || "}
KINDS = {OPEN: "open", CLOSED: "off", UNKNOWN: "unknown"}
MONTHS = ("Jan", "Feb", "Mar", "Apr", "May", "Jun", "Jul", "Aug", "Sep", "Oct", "Nov", "Dec")
WEEKDAYS = ("Mo", "Tu", "We", "Th", "Fr", "Sa", "Su")


def line(form: int, sheet: bytes, room: int) -> tuple[Written, bytes]:
    """The three numbers, and the text that then stands at the front of a buffer of `room` bytes."""
    return written(text_of_rules, form, sheet, room)


def text_of_rules(rules: list[Rule]) -> bytes:
    for index, rule in enumerate(rules):
        if reasons_against(rule, is_first=index == 0):
            raise Refusal(NO_LINE, index)
    texts = [BEFORE_RULE[rule.operator] * (index > 0) + rule_text(rule) for index, rule in enumerate(rules)]
    return "".join(texts).encode("ascii")


# What a line can't say


def reasons_against(rule: Rule, is_first: bool) -> list[str]:
    """All reasons for which a sheet with this rule has no line, in the document's order."""
    held = {
        "a dated month range": any(isinstance(item, MonthsOfYear) for item in rule.monthdays),
        "a monthday reference": any(isinstance(item, DatedRange) for item in rule.monthdays),
        "a holiday": any(isinstance(item, Holiday) for item in rule.weekdays),
        "a weekday offset": any(isinstance(item, Weekdays) and item.offset != 0 for item in rule.weekdays),
        "an unset nth bit": any(isinstance(item, Weekdays) and item[3:] != (ALL_NTH, ALL_NTH) for item in rule.weekdays),
        "a variable time": any(time.tag == 1 for span in rule.spans for time in (span.start, span.end)),
        "repeats": any(span.repeats != NO_REPEATS for span in rule.spans),
        "0 spans": not rule.spans,
        "a first rule that isn't Normal": is_first and rule.operator != NORMAL,
    }
    return [reason for reason, holds in held.items() if holds]


# The text of a rule


def rule_text(rule: Rule) -> str:
    weeks = items_text(item_text(f"{item.start:02}", f"{item.end:02}", item.step) for item in rule.weeks)
    parts = (
        items_text(item_text(f"{item.start:04}", f"{item.end:04}", item.step) for item in rule.years),
        items_text(item_text(MONTHS[item.start - 1], MONTHS[item.end - 1]) for item in rule.monthdays),
        weeks and "week " + weeks,
        items_text(item_text(WEEKDAYS[item.start], WEEKDAYS[item.end]) for item in rule.weekdays),
        items_text(map(span_text, rule.spans)),
        KINDS[rule.kind] if rule.kind != OPEN or rule.comment else "",
        f'"{rule.comment}"' if rule.comment else "",
    )
    return " ".join(filter(None, parts))


def items_text(texts) -> str:
    return ",".join(texts)


def item_text(start: str, end: str, step: int = 1) -> str:
    """A day item; months and weekdays have no step, which is as a step of 1."""
    if step != 1:
        return f"{start}-{end}/{step}"
    return start if start == end else f"{start}-{end}"


def span_text(span: Span) -> str:
    return f"{time_text(span.start)}-{time_text(span.end)}" + "+" * span.open_end


def time_text(time: Time) -> str:
    """Hours go to 48, and don't begin again at midnight."""
    return f"{time.minutes // 60:02}:{time.minutes % 60:02}"
