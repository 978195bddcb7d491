"""The sheets of the stored folds that tell why they stopped: each reason alone and each two together, at each place.

Rests on `line_cases` for items of which some are a line's reasons as well, and on `reference`.
"""

from __future__ import annotations

from itertools import combinations, product
from typing import Iterator

from line_cases import UNSAID, replaced, spoilt
from reference.build import ITEM_OF_SORT, fixed, plain_rule
from reference.sheet import FALLBACK, NO_REPEATS, Rule, Span, Time, Week, Year
from reference.why import REASONS
from reference.worked import additional, variable_to

SUNSET = Time(1, 3, -30)

# For each reason but Fallback a part of a rule, and items of that part that stop.
STOPPING: dict[str, tuple[str, tuple]] = {
    "time": ("spans", (
        fixed(1080, 1441), fixed(0, 2880), fixed(1080, 1080), fixed(1080, 1079), fixed(1440, 1440), fixed(600, 1441, 1, 60),
        variable_to(1439), variable_to(1441), Span(Time(0, 0, 600), SUNSET, 0, NO_REPEATS), Span(SUNSET, SUNSET, 0, NO_REPEATS),
    )),
    "year step": ("years", tuple(Year(2000, 9999, step) for step in (2, 3, 256, 257, 65535))),
    "monthday": ("monthdays", UNSAID["a dated month range"][1] + UNSAID["a monthday reference"][1]),
    "week step": ("weeks", tuple(Week(1, 53, step) for step in (2, 3, 16, 17, 255))),
    "holiday": UNSAID["a holiday"],
    "weekday offset": UNSAID["a weekday offset"],
    "nth": UNSAID["an unset nth bit"],
}

# Rules that drain, with an item of each sort, so that one that stops can stand before and behind it.
DRAINING = [
    plain_rule(comment=comment, **{sort: (item,) for sort, item in ITEM_OF_SORT.items()}) for comment in (1, 2, 3)
]


def stopping(rule: Rule, reason: str, item: tuple | None, in_front: bool) -> Rule:
    """The rule with one more item that stops, in front of its items or behind them; without an item, as a Fallback."""
    if item is None:
        return rule._replace(operator=FALLBACK)
    sort, _ = STOPPING[reason]
    return spoilt(rule, sort, item, 0 if in_front else len(getattr(rule, sort)))


def items_of(reason: str) -> tuple:
    return STOPPING[reason][1] if reason in STOPPING else (None,)


def one_that_stops(reason: str, rule: Rule) -> Rule:
    return stopping(rule, reason, items_of(reason)[0], in_front=True)


def at_each_place(rules_that_stop: list[Rule], reasons: tuple[str, ...]) -> Iterator[list[Rule]]:
    """One that stops in the first, the middle and the last of three rules, then before two that stop for other reasons."""
    others = [reason for reason in REASONS if reason not in reasons]
    behind = [one_that_stops(reason, additional()) for reason in (others[0], others[-1])]
    for rule in dict.fromkeys(rules_that_stop):
        yield from (replaced(DRAINING, place, rule) for place in range(len(DRAINING)))
        yield [rule, *behind]
        yield [DRAINING[0], rule, *reversed(behind)]


def alone(reason: str) -> list[Rule]:
    """Every item of the reason, in front of an item that drains and behind it."""
    return [stopping(DRAINING[0], reason, item, in_front) for item, in_front in product(items_of(reason), (True, False))]


def together(reasons: tuple[str, str]) -> list[Rule]:
    """Both reasons in one rule, either of them in front; those that one item can have, in one item too."""
    rules = [one_that_stops(second, one_that_stops(first, DRAINING[0])) for first, second in (reasons, reversed(reasons))]
    if reasons == ("weekday offset", "nth"):
        (offset, *_), (nth, *_) = map(items_of, reasons)
        rules.append(DRAINING[0]._replace(weekdays=(nth._replace(offset=offset.offset),)))
    return rules


def each_why() -> dict[str, list[list[Rule]]]:
    """The sheets of each reason and of each two, by a name that says which."""
    places = "first, in the middle and last, before other reasons"
    singles = {f"{reason} alone, {places}": at_each_place(alone(reason), (reason,)) for reason in REASONS}
    pairs = {
        f"{first} and {second}, {places}": at_each_place(together((first, second)), (first, second))
        for first, second in combinations(REASONS, 2)
    }
    return {name: list(sheets) for name, sheets in (singles | pairs).items()}
