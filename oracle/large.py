"""The generator's large sheets (document 02, M-107): 65 to 256 rules, 1,025 to 4,096 boxes and some more, folds at form 1's
counts.

Each recipe makes one sheet that is given in a form, like those of `generate`, which takes these where large sheets are wanted.
Rests on `stock` and on `reference`.
"""

from __future__ import annotations

from math import prod
from random import Random

from reference.build import boxes_rule, plain_rule
from reference.large import STOPPER, Shape, each_interval, each_odd_choice, many_groups, with_own_states, years_apart
from reference.points import DIMENSIONS
from reference.sheet import ADDITIONAL, NORMAL, RULE_LIMIT, Rule, write_sheet
from stock import Stock

FEWEST_RULES, FEWEST_BOXES, MOST_BOXES = 65, 1025, 4500
MOST_INTERVALS = (7, 33, 12, 33)  # that a rule of sixteen single values makes in each dimension


def many_rules(random: Random, inside: bool, form: int) -> bytes:
    """Rules of one stock; without `inside` at times one more than there may be."""
    stock = Stock(random, inside, form)
    count = random.choice((FEWEST_RULES, RULE_LIMIT, RULE_LIMIT + (not inside), random.randint(FEWEST_RULES, RULE_LIMIT)))
    return write_sheet(form, some_left(random, [stock.rule() for _ in range(count)]))


def many_boxes(random: Random, inside: bool, form: int) -> bytes:
    """A rule that cuts them, and some over a part of its items."""
    return write_sheet(form, some_left(random, over_boxes(random, Stock(random, inside, form), random.randint(0, 8))))


def many_rules_over_many_boxes(random: Random, inside: bool, form: int) -> bytes:
    """Mostly rules that replace, so that no list grows too long."""
    stock = Stock(random, inside, form)
    rules = over_boxes(random, stock, random.randint(FEWEST_RULES, RULE_LIMIT - 1))
    return write_sheet(form, [rule if random.random() < 0.3 else rule._replace(operator=NORMAL) for rule in rules])


def over_boxes(random: Random, stock: Stock, more: int) -> list[Rule]:
    whole = boxes_rule(some_shape(random), kind=random.randrange(3), spans=tuple(random.choices(stock.spans, k=2)))
    return [whole] + [stock.rule()._replace(**some_days(random, whole)) for _ in range(more)]


def some_shape(random: Random) -> Shape:
    while True:
        shape = tuple(random.randint(1, most) for most in MOST_INTERVALS)
        if FEWEST_BOXES <= prod(shape) <= MOST_BOXES:
            return random.choice((shape, (4, 8, 8, 16))) if random.random() < 0.2 else shape


def some_days(random: Random, rule: Rule) -> dict[str, tuple]:
    """Some of the rule's items in each dimension, all values where it is none."""
    sorts = [dimension.items for dimension in DIMENSIONS]
    return {sort: tuple(item for item in getattr(rule, sort) if random.random() < 0.6) for sort in sorts}


def many_years(random: Random, inside: bool, form: int) -> bytes:
    """About as many separate years of one day as form 1 can count, in any order of rules, and a few rules beside them."""
    stock, count = Stock(random, inside, form), random.choice((1023, 1024, random.randint(1000, 1100)))
    rules = years_apart(count, kind=random.choice((0, 2)), comment=random.choice(stock.comments))
    random.shuffle(rules)
    beside = [plain_rule(operator=ADDITIONAL, weekdays=stock.some("weekdays"), kind=1, comment=random.randrange(2))]
    return write_sheet(form, some_left(random, rules + beside * random.choice((0, 0, 1))))


def groups_of_few_lists(random: Random, inside: bool, form: int) -> bytes:
    """A group for each of many boxes, at times with more rules than form 1 can count, or by more lists than there may be."""
    shape = random.choice(((1, 8, 8, 16), (4, 8, 8, 8), (7, 6, 6, 6)))
    days = random.choice((each_odd_choice, each_odd_choice, each_interval))(shape)
    rules = many_groups() if random.random() < 0.4 else with_own_states(days + [{}] * random.randint(0, 4))
    return write_sheet(form, some_left(random, rules))


def some_left(random: Random, rules: list[Rule]) -> list[Rule]:
    """The rules, at times with a stopper in place of the last one or of any."""
    place = random.choice((-1, random.randrange(len(rules))))
    return rules if random.random() < 0.7 else [*rules[:place], STOPPER, *rules[place:][1:]]


LARGE = {many_rules: 30, many_boxes: 40, many_rules_over_many_boxes: 12, many_years: 16, groups_of_few_lists: 2}
