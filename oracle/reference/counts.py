"""What the counts of form 1 can carry of a fold (code 13).

Document 02, M-107: "A fold written as form 1 may now need more rules or ranges than its counts can carry; form 2 always can. ..
Refusals: 13, form 1 only, exactly when the result has more than 65,535 rules or a rule with more than 1,023 items of a sort;
place 0; after 9, before 7."

The result is all that is written, folded rules and rules left. Rests on `sheet` for the rules.
"""

from __future__ import annotations

from .sheet import Refusal, Rule

PAST_COUNTS = 13
MOST_RULES, MOST_ITEMS = 65535, 1023  # of form 1


def check_counts(form: int, result: list[Rule]) -> None:
    """Refuses a result of form 1 that has more of something than can be counted there."""
    if form == 1 and (len(result) > MOST_RULES or any(most_items(rule) > MOST_ITEMS for rule in result)):
        raise Refusal(PAST_COUNTS, 0)


def most_items(rule: Rule) -> int:
    """Of the five sorts the count of the one that has most."""
    return max(map(len, (rule.years, rule.monthdays, rule.weeks, rule.weekdays, rule.spans)))
