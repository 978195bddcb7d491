"""Why the fold stopped: the reasons for which a rule can't be drained.

Document 02, M-105: "The tests for a stopper say only yes or no. They shall say why: 1 Fallback, 2 time, 3 year step, 4
monthday, 5 week step, 6 holiday, 7 weekday offset, 8 nth; 0 if nothing stopped. The number given is the first that applies
in the order 1 to 8."

What stops is document 01's: "Fallback; a step other than 1; a monthday of tag 1 or 2; a holiday; a weekday offset other than
0 or any nth bit 0; a span that may reach tomorrow." A reason is asked of all items of its sort, whichever stands first.
Offset and nth are a weekday's: a holiday has no nth bits, and with an offset it is a holiday still. Rests on `sheet`.
"""

from __future__ import annotations

from typing import Callable

from .sheet import ALL_NTH, FALLBACK, MIDNIGHT, Holiday, Months, Rule, Span, Weekdays

NOTHING = 0

# A reason's number is its place here, from 1 on.
REASONS: dict[str, Callable[[Rule], bool]] = {
    "Fallback": lambda rule: rule.operator == FALLBACK,
    "time": lambda rule: any(map(may_reach_tomorrow, rule.spans)),
    "year step": lambda rule: any(item.step != 1 for item in rule.years),
    "monthday": lambda rule: not all(isinstance(item, Months) for item in rule.monthdays),
    "week step": lambda rule: any(item.step != 1 for item in rule.weeks),
    "holiday": lambda rule: any(isinstance(item, Holiday) for item in rule.weekdays),
    "weekday offset": lambda rule: any(item.offset != 0 for item in ranges_of_weekdays(rule)),
    "nth": lambda rule: any(
        bits != ALL_NTH for item in ranges_of_weekdays(rule) for bits in (item.nth_from_start, item.nth_from_end)
    ),
}


def reasons_of(rule: Rule) -> list[int]:
    """All reasons that apply to a rule, rising."""
    return [number for number, applies in enumerate(REASONS.values(), 1) if applies(rule)]


def reason_of(rule: Rule) -> int:
    return next(iter(reasons_of(rule)), NOTHING)


def stops(rule: Rule) -> bool:
    return reason_of(rule) != NOTHING


def why_stopped(left: list[Rule]) -> int:
    """The reason of the first rule left, whatever the others hold."""
    return reason_of(left[0]) if left else NOTHING


def may_reach_tomorrow(span: Span) -> bool:
    if span.end.tag == 1:
        return True
    if span.start.tag == 1:
        return span.end.minutes != MIDNIGHT
    return not span.start.minutes < span.end.minutes <= MIDNIGHT


def ranges_of_weekdays(rule: Rule) -> list[Weekdays]:
    return [item for item in rule.weekdays if isinstance(item, Weekdays)]
