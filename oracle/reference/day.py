"""From a list to a day: painting, groups, and their order.

A day is a tuple of entries, each a state with its spans. Rests on `sheet` for rules and spans.
"""

from __future__ import annotations

from itertools import groupby
from operator import itemgetter
from typing import Iterable, NamedTuple

from .sheet import ADDITIONAL, CLOSED, MIDNIGHT, NO_REPEATS, NORMAL, OPEN, UNKNOWN, Rule, Span, Time


class State(NamedTuple):
    kind: int
    comment: int


class Entry(NamedTuple):
    state: State
    spans: tuple[Span, ...]


Day = tuple[Entry, ...]
StatedSpan = tuple[State, Span]

PLAIN_CLOSED = State(CLOSED, 0)
# Painted order: Open plain, Open commented, Unknown plain, Unknown commented, Closed commented.
PAINTED_ORDER = ((OPEN, False), (OPEN, True), (UNKNOWN, False), (UNKNOWN, True), (CLOSED, True))


def day_of(rules: Iterable[Rule]) -> Day:
    """The day of a list, whose entries are the rules given, in its order."""
    painting, groups = part(flatten(rules))
    return tuple(painted_entries(painting)) + tuple(
        Entry(state, tuple(sorted(spans))) for state, spans in groups
    )


def flatten(rules: Iterable[Rule]) -> list[StatedSpan]:
    return [(State(rule.kind, rule.comment), span) for rule in rules for span in rule.spans]


def is_simple(span: Span) -> bool:
    return (
        span.start.tag == 0
        and span.end.tag == 0
        and span.start.minutes < span.end.minutes <= MIDNIGHT
        and not span.open_end
        and span.repeats == NO_REPEATS
    )


def part(spans: list[StatedSpan]) -> tuple[list[StatedSpan], list[tuple[State, list[Span]]]]:
    """The spans that paint, in order, and the groups of those that don't."""
    first = next((place for place, (_, span) in enumerate(spans) if not is_simple(span)), len(spans))
    runs = [(state, [span for _, span in run]) for state, run in groupby(spans[first:], itemgetter(0))]
    if not runs:
        return spans, []
    (state, first_run), *later = runs
    painting = spans[:first] + [(state, span) for span in first_run if is_simple(span)]
    return painting, [(state, [span for span in first_run if not is_simple(span)]), *later]


def painted_entries(painting: list[StatedSpan]) -> list[Entry]:
    """The painted states, each once with all its maximal runs rising, by class and then by first minute."""
    minutes: list[State] = [PLAIN_CLOSED] * MIDNIGHT
    for state, span in painting:
        start, end = span.start.minutes, span.end.minutes
        minutes[start:end] = [state] * (end - start)
    runs: dict[State, list[Span]] = {}
    start = 0
    for state, run in groupby(minutes):
        end = start + len(list(run))
        runs.setdefault(state, []).append(Span(Time(0, 0, start), Time(0, 0, end), 0, NO_REPEATS))
        start = end
    runs.pop(PLAIN_CLOSED, None)
    # `runs` stands by first minute, and sorting keeps that order inside a class.
    return [Entry(state, tuple(runs[state])) for state in sorted(runs, key=painted_class)]


def painted_class(state: State) -> int:
    return PAINTED_ORDER.index((state.kind, state.comment != 0))


def rules_of_day(day: Day, years=(), months=(), weeks=(), weekdays=()) -> list[Rule]:
    """The day's entries as rules over the given items, first Normal, others Additional."""
    return [
        Rule(ADDITIONAL if place else NORMAL, *entry.state, years, months, weeks, weekdays, entry.spans)
        for place, entry in enumerate(day)
    ]
