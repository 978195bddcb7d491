"""The generator's sheets of many lists (document 02, M-108): 400 to 600 that differ at once, some with lists of about 32 entries
too, and lists that come and go while few stand.

Each recipe makes one sheet that is given in a form, like those of `generate`, which takes these where many lists are wanted. No
ranges of one selector share a value. Rests on `stock` and on `reference`.
"""

from __future__ import annotations

from functools import partial
from itertools import product
from math import prod
from random import Random

from large import some_left
from reference.build import ITEM_OF_ENDS, plain_rule
from reference.large import Days, Shape, years_apart
from reference.lists import DIFFERENT_LIMIT, LIST_LIMIT, different_lists
from reference.points import DIMENSIONS, Dimension, List, draw_rule, empty_lists
from reference.sheet import ADDITIONAL, ITEM_LIMIT, NORMAL, OPEN, RULE_LIMIT, UNKNOWN, Rule, write_sheet
from stock import Stock

FEWEST_LISTS, MOST_LISTS = 400, 600
LONGEST_CLIMB = LIST_LIMIT - 1  # rules, so that one more everywhere makes no list too long


# Many lists at once


def climbs() -> list[Shape]:
    """The shapes of 400 to 600 boxes that so many rules cut, each of which cuts one dimension once."""
    ranges = [range(1, min(each.upper - each.lowest, LONGEST_CLIMB) + 1) for each in DIMENSIONS]
    return [
        shape for shape in product(*ranges)
        if sum(shape) - len(shape) <= LONGEST_CLIMB and FEWEST_LISTS <= prod(shape) <= MOST_LISTS
    ]


CLIMBS = climbs()
HIGHER_CLIMBS = [shape for shape in CLIMBS if prod(shape) > DIFFERENT_LIMIT]
AT_THE_LIMIT = [shape for shape in CLIMBS if prod(shape) in (DIFFERENT_LIMIT, DIFFERENT_LIMIT + 1)]


def climbing(random: Random, stock: Stock, shape: Shape, to_the_last: bool = False) -> list[Rule]:
    """For each cut of a dimension a rule on one side of it, in any order: no two boxes have the same list. If it goes to the last,
    each rule covers the last box."""
    rules = []
    for dimension, count in zip(DIMENSIONS, shape):
        for cut in random.sample(range(dimension.lowest + 1, dimension.upper), count - 1):
            sides = ((cut, dimension.upper - 1), (dimension.lowest, cut - 1))
            ends = sides[0] if to_the_last else random.choice(sides)
            rules.append(appending(stock, {dimension.items: (ITEM_OF_ENDS[dimension.items](*ends),)}))
    random.shuffle(rules)
    return rules


def appending(stock: Stock, days: Days) -> Rule:
    return plain_rule(operator=ADDITIONAL, **said_by(stock), **days)


def said_by(stock: Stock) -> Days:
    """Kind, comment and spans of a rule of the stock."""
    rule = stock.rule()
    return {"kind": rule.kind, "comment": rule.comment, "spans": rule.spans}


def many_lists(random: Random, inside: bool, form: int) -> bytes:
    """About 512 lists, often with some rule that adds a few, or one that fills the empty list."""
    stock = Stock(random, inside, form)
    rules = climbing(random, stock, random.choice(random.choice((CLIMBS, AT_THE_LIMIT))))
    for _ in range(random.choice((0, 0, 1, 2, 3))):
        more = random.choice((appending(stock, {}), stock.rule(), stock.rule()._replace(operator=ADDITIONAL)))
        rules.insert(random.randint(0, len(rules)), more)
    return write_sheet(form, some_left(random, rules))


def long_lists(random: Random, inside: bool, form: int) -> bytes:
    """About 512 lists of which the last box's has an entry for each rule: 6 comes at the 33rd rule, 14 mostly at the last one that
    climbs, before it, there or behind it."""
    stock = Stock(random, inside, form)
    *climb, last = climbing(random, stock, random.choice(HIGHER_CLIMBS), to_the_last=True)
    before, behind = max(0, LIST_LIMIT + random.randint(-2, 1) - len(climb)), random.randint(0, 3)
    everywhere = [appending(stock, {}) for _ in range(before + behind)]
    rules = climb + everywhere[:before]
    random.shuffle(rules)
    return write_sheet(form, [*rules, last, *everywhere[before:]])


def crossed_years(random: Random, inside: bool, form: int) -> bytes:
    """Single years, each in one to four of many rules, so that about each has a list of its own."""
    stock = Stock(random, inside, form)
    years = [rule.years for rule in years_apart(random.randint(480, 620))]
    flat, count = [year for row in years for year in row], random.randint(40, 120)
    rows = [appending(stock, {"years": tuple(random.sample(flat, ITEM_LIMIT))}) for _ in range(count)]
    return write_sheet(form, some_left(random, [appending(stock, {"years": row}) for row in years] + rows))


# Lists that come and go

FEW_BOXES: list[Shape] = [(2, 2, 2, 2), (1, 16, 1, 1), (2, 1, 4, 2)]
SOME_BOXES: list[Shape] = [(4, 4, 8, 8), (7, 1, 12, 12), (1, 32, 1, 32)]
MANY_BOXES: list[Shape] = [(4, 8, 8, 16), (7, 12, 12, 4), (2, 32, 2, 32), (1, 53, 1, 77)]


def some_cuts(random: Random, shape: Shape) -> list[list[int]]:
    return [
        [each.lowest, *sorted(random.sample(range(each.lowest + 1, each.upper), count - 1)), each.upper]
        for each, count in zip(DIMENSIONS, shape)
    ]


def some_intervals(random: Random, dimension: Dimension, cuts: list[int]) -> tuple:
    """Some of the intervals between the cuts, none for all of them."""
    share = random.choice((0.5, 0.7, 0.9))
    numbers = [number for number in range(len(cuts) - 1) if random.random() < share]
    chosen = sorted(random.sample(numbers, min(len(numbers), ITEM_LIMIT)))
    return tuple(ITEM_OF_ENDS[dimension.items](cuts[number], cuts[number + 1] - 1) for number in chosen)


def over_intervals(random: Random, stock: Stock, cuts: list[list[int]]) -> Rule:
    """A rule over some intervals of each dimension, mostly one that appends."""
    days = {each.items: some_intervals(random, each, values) for each, values in zip(DIMENSIONS, cuts)}
    return appending(stock, days)._replace(operator=random.choices((ADDITIONAL, NORMAL), (90, 10))[0])


def replacing(random: Random, stock: Stock, days: Days) -> Rule:
    return plain_rule(operator=NORMAL, **said_by(stock) | {"kind": random.choice((OPEN, UNKNOWN))}, **days)


def churning(random: Random, inside: bool, form: int, shapes: list[Shape]) -> bytes:
    """Rules over the boxes of a shape: where too many lists would stand, or one be too long, a rule that replaces those of some
    intervals of a dimension, or all. Mostly 512 may stand, so that nothing is refused."""
    stock, cuts = Stock(random, inside, form), some_cuts(random, random.choice(shapes))
    most = random.choices((DIFFERENT_LIMIT, DIFFERENT_LIMIT + 1, MOST_LISTS, 100), (60, 10, 10, 20))[0]
    rules, lists = [], empty_lists(cuts)
    for index in range(random.choice((80, RULE_LIMIT, RULE_LIMIT))):
        dimension, values = random.choice(list(zip(DIMENSIONS, cuts)))
        some = {dimension.items: some_intervals(random, dimension, values)}
        for rule in (over_intervals(random, stock, cuts), replacing(random, stock, some), replacing(random, stock, {})):
            drawn = draw_rule(lists, index, rule, cuts)
            if stands_in(most, drawn):
                break
        rules.append(rule)
        lists = drawn
    return write_sheet(form, some_left(random, rules))


def stands_in(most: int, lists: list[List]) -> bool:
    """Whether at most so many lists differ, and none is too long."""
    different = different_lists(lists)
    return len(different) <= most and max(map(len, different), default=0) <= LIST_LIMIT


MANY_LISTS = {
    many_lists: 30, long_lists: 20, crossed_years: 8, partial(churning, shapes=FEW_BOXES): 25,
    partial(churning, shapes=SOME_BOXES): 12, partial(churning, shapes=MANY_BOXES): 5,
}
