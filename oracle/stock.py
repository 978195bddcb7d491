"""What the generator's rules are put together from: a small stock of ranges and spans, made for each sheet.

So ranges meet and wrap, days repeat and groups grow. In few stocks ranges of one selector share values. Comments are those of a
form. Rests on `reference.sheet`, `reference.build` and `reference.overlap`.
"""

from __future__ import annotations

from itertools import pairwise
from random import Random

from reference.build import DIMENSION_OF_SORT, ITEM_OF_ENDS, fixed
from reference.overlap import share_a_value
from reference.sheet import ADDITIONAL, CLOSED, NORMAL, NO_REPEATS, OPEN, UNKNOWN, Rule, Span, Time

WEEK_VALUES = (1, 2, 3, 10, 11, 26, 27, 50, 51, 52, 53)
YEAR_VALUES = (1900, 1901, 1999, 2000, 2001, 2002, 2003, 2024, 2026, 9998, 9999)
MINUTES = (0, 1, 480, 599, 600, 660, 720, 780, 1080, 1439, 1440)
# By form. In form 2 some are the same in their last sixteen bits.
COMMENTS = {1: (0, 0, 0, 0, 1, 1, 2, 65535), 2: (0, 0, 0, 1, 65535, 65536, 65537, 2**24 - 1)}
BUSY_COMMENTS = {1: (0, 1, 2, 3, 4), 2: (0, 1, 2, 65536, 65537)}
OFFSETS = (0, 0, 30, -30, -1, 32767, -32768)
OVERLAPPING = 0.04  # of the stocks


class Stock:
    """The ranges and spans from which one sheet's rules are put together."""

    def __init__(self, random: Random, inside: bool, form: int):
        self.random = random
        self.inside = inside
        years, weeks = random.choice((YEAR_VALUES, range(1900, 10000))), random.choice((WEEK_VALUES, range(1, 54)))
        self.overlapping = random.random() < OVERLAPPING
        self.days = {
            "years": self.ranges("years", years, rising=inside), "monthdays": self.ranges("monthdays", range(1, 13)),
            "weeks": self.ranges("weeks", weeks, rising=inside), "weekdays": self.ranges("weekdays", range(7)),
        }
        self.comments = COMMENTS[form]
        self.spans = [self.draining_span() for _ in range(random.randint(1, 5))]
        if random.random() < 0.4:
            self.spans += [self.sibling(random.choice(self.spans)) for _ in range(random.randint(1, 3))]
        if random.random() < 0.2:  # many states painted one over the other
            self.comments = BUSY_COMMENTS[form]
            self.spans = [fixed(*sorted(random.sample(MINUTES, 2))) for _ in range(8)] + self.spans[:1]

    def variety(self) -> int:
        return self.random.choices((0, 1, 2, 3), (20, 30, 30, 20))[0]

    def ranges(self, sort: str, values, rising: bool = False) -> list:
        """A few items of a sort, as they come or one next to the other."""
        count = self.variety()
        as_they_come = [self.ends(values, rising) for _ in range(count)]
        chosen = as_they_come if self.random.random() < 0.4 else self.neighbours(values, count, rising)
        return [ITEM_OF_ENDS[sort](*ends) for ends in chosen]

    def neighbours(self, values, count: int, rising: bool) -> list[tuple[int, int]]:
        """Ends of ranges that only touch; at times one more that wraps from the last to the first."""
        cuts = sorted(self.random.sample(values, count + 1))
        wraps = not rising and cuts[0] > values[0] and self.random.random() < 0.35
        between = [(start, after - 1) for start, after in pairwise(cuts)]
        return [*between, (cuts[-1], cuts[0] - 1)] if wraps else between

    def ends(self, values, rising: bool = False) -> list[int]:
        ends = self.random.choices(values, k=2)
        return sorted(ends) if rising else ends

    def draining_span(self) -> Span:
        random = self.random
        start, end = sorted(random.sample(MINUTES, 2) if random.random() < 0.7 else random.sample(range(1441), 2))
        shape = random.choices(("simple", "open_end", "repeats", "both", "variable"), (60, 12, 8, 4, 10))[0]
        if shape == "variable":
            return Span(self.variable_time(), Time(0, 0, 1440), random.getrandbits(1), self.some_repeats())
        open_end = int(shape in ("open_end", "both"))
        return fixed(start, end, open_end, random.choice((0, 1, 30, 4095)) if shape in ("repeats", "both") else NO_REPEATS)

    def sibling(self, span: Span) -> Span:
        """A span that differs only in the later parts of the order of spans."""
        start = span.start if span.start.tag == 0 else span.start._replace(minutes=self.random.choice(OFFSETS))
        return span._replace(start=start, open_end=self.random.getrandbits(1), repeats=self.some_repeats())

    def variable_time(self) -> Time:
        return Time(1, self.random.randrange(4), self.random.choice(OFFSETS))

    def some_repeats(self) -> int:
        return self.random.choice((NO_REPEATS, NO_REPEATS, 0, 1, 90))

    def some(self, sort: str) -> tuple:
        """A few items of a sort; where the stock overlaps, as they come and at times the same one twice."""
        if not self.days[sort] or self.random.random() < 0.25:
            return ()
        chosen = tuple(self.random.choices(self.days[sort], k=self.random.choices((1, 2, 3), (40, 35, 25))[0]))
        return chosen if self.overlapping else without_overlaps(sort, chosen)

    def rule(self) -> Rule:
        """A rule that drains."""
        spans = self.random.choices(self.spans, k=self.random.choices((0, 1, 2, 3, 4), (4, 50, 30, 12, 4))[0])
        return Rule(
            self.random.choices((NORMAL, ADDITIONAL), (55, 45))[0],
            self.random.choices((OPEN, CLOSED, UNKNOWN), (50, 25, 25))[0],
            self.random.choice(self.comments),
            *map(self.some, self.days), tuple(spans),
        )

    def rules(self) -> list[Rule]:
        return [self.rule() for _ in range(self.random.choices((1, 2, 4, 7, 12, 20), (6, 14, 30, 30, 15, 5))[0])]


def without_overlaps(sort: str, items: tuple) -> tuple:
    """The items but for those that share a value with one kept before them."""
    kept: tuple = ()
    for item in items:
        if not share_a_value((*kept, item), DIMENSION_OF_SORT[sort]):
            kept += (item,)
    return kept
