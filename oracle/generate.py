"""A seeded generator of packed sheets: `python3 oracle/generate.py --seed N --count N [--form N] [--inside] [--large|--lists]`
prints hex lines.

Sheet number i of a seed depends on nothing but the seed, i, the form and the options. Ranges of one selector share values in few
sheets, and often in rules left. `--inside` stays where the Rust's constructors take the values as they are: year and week
ranges that rise, and steps that they keep. `--large` makes sheets of many rules and boxes alone, `--lists` those of many lists.
Rests on `stock`, `large`, `many_lists`, `reference.sheet`, `reference.build` and `reference.overlap`.
"""

from __future__ import annotations

import argparse
from random import Random
from typing import Iterator

from large import LARGE
from many_lists import MANY_LISTS
from reference.build import ITEM_OF_SORT, boxes_rule, fixed, many
from reference.overlap import overlaps
from reference.sheet import (
    ADDITIONAL, ALL_NTH, FALLBACK, FORMS, ITEM_LIMIT, NO_REPEATS, Cursor, DatedRange, Field, Holiday, MonthsOfYear,
    Refusal, Rule, Span, Time, Week, Weekdays, Year, bits_at, layout_of, pack_rules, read_from, write_sheet,
)
from stock import MINUTES, YEAR_VALUES, Stock

MANY_RULES = 64


# Stoppers: each makes a draining rule into one that stops.


def stop_by_operator(rule: Rule, stock: Stock) -> Rule:
    return rule._replace(operator=FALLBACK)


def stop_by_year_step(rule: Rule, stock: Stock) -> Rule:
    start, step = stock.random.randint(1900, 9000), stock.random.choice((2, 3, 400))
    end = start + stock.random.randint(step, 900) if stock.inside else stock.random.randint(1900, 9999)
    return rule._replace(years=rule.years + (Year(start, end, step),))


def stop_by_week_step(rule: Rule, stock: Stock) -> Rule:
    start, step = stock.random.randint(1, 40), stock.random.choice((2, 3, 10))
    end = start + stock.random.randint(step, 13) if stock.inside else stock.random.randint(1, 53)
    return rule._replace(weeks=rule.weeks + (Week(start, end, step),))


def stop_by_monthday(rule: Rule, stock: Stock) -> Rule:
    of_year = MonthsOfYear(*stock.ends(range(1, 13)), stock.random.choice(YEAR_VALUES))
    item = stock.random.choice((of_year, DatedRange(stock.random.choice((0, 1, 2**32 - 1)))))
    return rule._replace(monthdays=(item,) + rule.monthdays)


def stop_by_weekday(rule: Rule, stock: Stock) -> Rule:
    random = stock.random
    start, end = stock.ends(range(7))
    one_missing = ALL_NTH ^ (1 << random.randrange(5))
    item = random.choice((
        Holiday(random.getrandbits(1), random.choice((0, 1, -1, -32768, 32767))),
        Weekdays(start, end, random.choice((1, -1, 32767, -32768)), ALL_NTH, ALL_NTH),
        Weekdays(start, end, 0, one_missing, ALL_NTH),
        Weekdays(start, end, 0, ALL_NTH, random.choice((0, one_missing))),
    ))
    return rule._replace(weekdays=rule.weekdays + (item,))


def stop_by_span(rule: Rule, stock: Stock) -> Rule:
    random, midnight = stock.random, Time(0, 0, 1440)
    minute = random.choice(MINUTES)
    span = random.choice((
        fixed(minute, random.choice((1441, 1500, 2880))), fixed(minute, minute), fixed(1440, random.choice(MINUTES)),
        fixed(720, 600, 1), fixed(2880, 2880), fixed(0, 1441, 0, 60),
        Span(stock.variable_time(), Time(0, 0, random.choice((0, 1439, 1441, 2880))), 0, NO_REPEATS),
        Span(Time(0, 0, minute), stock.variable_time(), random.getrandbits(1), stock.some_repeats()),
        Span(stock.variable_time(), stock.variable_time(), 0, NO_REPEATS), Span(midnight, midnight, 1, 0),
    ))
    place = random.randint(0, len(rule.spans))
    return rule._replace(spans=rule.spans[:place] + (span,) + rule.spans[place:])


STOPPERS = (
    stop_by_operator, stop_by_year_step, stop_by_week_step, stop_by_monthday, stop_by_weekday, stop_by_span, stop_by_span,
)


# Recipes: each makes one sheet that is given in a form.


def draining(random: Random, inside: bool, form: int) -> bytes:
    return write_sheet(form, Stock(random, inside, form).rules())


def stopped(random: Random, inside: bool, form: int) -> bytes:
    """Stoppers first, in the middle, last, or at several places; often the rules left overlap."""
    stock = Stock(random, inside, form)
    rules = stock.rules()
    last = len(rules) - 1
    places = random.choice(([0], [len(rules) // 2], [last], [0, last], [random.randrange(len(rules))]))
    if random.random() < 0.5:
        stock.overlapping = True
        rules[places[0] :] = [stock.rule() for _ in rules[places[0] :]]
    for place in places:
        rules[place] = random.choice(STOPPERS)(rules[place], stock)
    return write_sheet(form, rules)


def boxes_at_the_limit(random: Random, inside: bool, form: int) -> bytes:
    stock = Stock(random, inside, form)
    shape = random.choice(((1, 8, 8, 16), (4, 4, 8, 8), (2, 16, 4, 8), (7, 3, 12, 4), (5, 5, 5, 8)))
    if not inside and random.random() < 0.5:
        shape = random.choice(((1, 9, 8, 16), (1, 32, 1, 33), (5, 5, 5, 9), (7, 7, 7, 3)))
    rules = [boxes_rule(shape, kind=random.randrange(3), spans=tuple(random.choices(stock.spans, k=2)))]
    for _ in range(random.randint(0, 5)):
        kept = [tuple(item for item in items if random.random() < 0.6) for items in rules[0][3:7]]
        rules.append(stock.rule()._replace(**dict(zip(Rule._fields[3:7], kept))))
    return write_sheet(form, rules)


def lists_at_the_limit(random: Random, inside: bool, form: int) -> bytes:
    """Lists of about 32 entries, at all points or, since the last rules keep their days, at some only."""
    stock = Stock(random, inside, form)
    length = 32 if inside else random.choice((31, 32, 33, 34))
    everywhere = length if random.random() < 0.5 else length - random.randint(1, 8)
    rules = [stock.rule()._replace(operator=ADDITIONAL) for _ in range(length)]
    rules[:everywhere] = [rule._replace(years=(), monthdays=(), weeks=(), weekdays=()) for rule in rules[:everywhere]]
    return write_sheet(form, rules)


def counts_at_the_limit(random: Random, inside: bool, form: int) -> bytes:
    """16 items of one sort, or 64 rules, as many as were once the most; without `inside` at times one more. So many months or
    weekdays overlap: mostly their rule is left."""
    stock = Stock(random, inside, form)
    above = 0 if inside else random.getrandbits(1)
    if random.random() < 0.2:
        return write_sheet(form, [stock.rule() for _ in range(MANY_RULES + above)])
    sort = random.choice(list(ITEM_OF_SORT))
    rules = stock.rules()
    place = random.randrange(len(rules))
    rules[place] = rules[place]._replace(**{sort: many(sort, ITEM_LIMIT + above)})
    if overlaps(rules[place]) and random.random() < 0.8:
        rules[place] = stop_by_operator(rules[place], stock)
    return write_sheet(form, rules)


def truncated(random: Random, inside: bool, form: int) -> bytes:
    sheet = stopped(random, inside, form)
    return sheet[: random.randrange(len(sheet))]


def flipped(random: Random, inside: bool, form: int) -> bytes:
    sheet = stopped(random, inside, form)
    return flip(sheet, random.randrange(8 * len(sheet)))


def flip(sheet: bytes, bit: int) -> bytes:
    return sheet[: bit // 8] + bytes([sheet[bit // 8] ^ (0x80 >> bit % 8)]) + sheet[bit // 8 + 1 :]


def ended_wrong(random: Random, inside: bool, form: int) -> bytes:
    """A bit set in the last byte, often padding, and at times bytes that follow."""
    sheet = draining(random, inside, form)
    if random.random() < 0.6:
        sheet = flip(sheet, 8 * len(sheet) - 1 - random.randrange(8))
    return sheet + bytes(random.randrange(3)) + random.choice((b"", b"\x01", b"\x80"))


def unlawful(random: Random, inside: bool, form: int) -> bytes:
    """One field of a sheet, of whatever sort, set to its highest or lowest pattern."""
    sheet = stopped(random, inside, form)
    field, place = random.choice(fields_met(form, sheet))
    return overwrite(sheet, place, field.width, random.choice((0, 2**field.width - 1)))


def fields_met(form: int, sheet: bytes) -> list[tuple[Field, int]]:
    """Every field met in reading, with its place; the last is the refused one, where 1, 2 or 4 refuses."""
    cursor = Cursor(sheet)
    try:
        read_from(layout_of(form), cursor)
    except Refusal:
        pass
    return cursor.met


def overwrite(sheet: bytes, place: int, width: int, value: int) -> bytes:
    after = 8 * len(sheet) - place - width
    number = int.from_bytes(sheet, "big") ^ ((bits_at(sheet, place, place + width) ^ value) << after)
    return number.to_bytes(len(sheet), "big")


def noise(random: Random, inside: bool, form: int) -> bytes:
    return pack_rules(form, random.randrange(3), "") + random.randbytes(random.randrange(40))


def wrong_head(random: Random, inside: bool, form: int) -> bytes:
    """A head that is another one, of a form that has one."""
    (head,) = layout_of(form).head
    others = [value for value in range(2**head.width) if value != head.lowest]
    return overwrite(draining(random, inside, form), 0, head.width, random.choice(others))


def of_another_form(random: Random, inside: bool, form: int) -> bytes:
    other = random.choice([other for other in FORMS if other != form])
    return draining(random, inside, other)


ACCEPTED = {draining: 70, stopped: 22, boxes_at_the_limit: 2, lists_at_the_limit: 3, counts_at_the_limit: 3}
DAMAGED = {truncated: 15, flipped: 20, ended_wrong: 8, unlawful: 12, noise: 5}
ANY = {1: ACCEPTED | DAMAGED, 2: ACCEPTED | DAMAGED | {wrong_head: 5, of_another_form: 5}}


SORTS = {"large": LARGE, "lists": MANY_LISTS}  # of sheets that come where they are asked for alone


def sheet_number(form: int, seed: int | str, number: int, inside: bool, sort: str | None = None) -> bytes:
    random = Random(f"{seed}/{number}")
    recipes = SORTS[sort] if sort else ACCEPTED if inside else ANY[form]
    return random.choices(tuple(recipes), tuple(recipes.values()))[0](random, inside, form)


def sheets(form: int, seed: int | str, numbers: range, inside: bool, sort: str | None) -> Iterator[bytes]:
    return (sheet_number(form, seed, number, inside, sort) for number in numbers)


def add_sorts(parser: argparse.ArgumentParser) -> None:
    sorts = parser.add_mutually_exclusive_group()
    sorts.add_argument("--large", dest="sort", action="store_const", const="large", help="sheets of many rules and boxes alone")
    sorts.add_argument("--lists", dest="sort", action="store_const", const="lists", help="sheets of many lists alone")


def main() -> None:
    parser = argparse.ArgumentParser(description="Print packed sheets in hex, a line each.")
    parser.add_argument("--seed", type=int, required=True)
    parser.add_argument("--count", type=int, required=True)
    parser.add_argument("--form", type=int, choices=FORMS, default=1)
    parser.add_argument("--inside", action="store_true", help="stay inside the Rust's domain")
    add_sorts(parser)
    arguments = parser.parse_args()
    for sheet in sheets(arguments.form, arguments.seed, range(arguments.count), arguments.inside, arguments.sort):
        print(sheet.hex().upper())


if __name__ == "__main__":
    main()
