"""The packed sheet: what a rule holds, how a sheet is read or refused (codes 1 to 4), how it is written.

Document 02, M-106: "Form 2 of the packed sheet starts with the four bits 0010, then a rule count of 24 bits; comments have 24
bits and the five counts 12 each; the rest is as in form 1. The caller says which form is meant". And: "Refusals: 2 with place 0,
before all others, where the caller's form is neither 1 nor 2, and in its usual turn where form 2's first four bits aren't 0010".

Each item's layout stands here once, as a row of fields, and so does what a form decides, as a `Layout`; reading and writing both
walk them. `form` is always the number that the caller says. Rests on nothing else.
"""

from __future__ import annotations

from typing import NamedTuple

NORMAL, ADDITIONAL, FALLBACK = 0, 1, 2
OPEN, CLOSED, UNKNOWN = 0, 1, 2
RULE_LIMIT, ITEM_LIMIT = 256, 16  # the first is document 02's, M-107
NO_REPEATS = -1  # below every number of minutes, so that the order of tuples is the order of spans
ALL_NTH = 0b11111
MIDNIGHT = 1440  # minutes of 24:00

PAST_THE_END, UNLAWFUL, PADDING, PAST_ITS_LIMIT = 1, 2, 3, 4


class Refusal(Exception):
    """A code of the table other than 0, with its place."""

    def __init__(self, code: int, place: int):
        super().__init__(code, place)
        self.code = code
        self.place = place


class Field(NamedTuple):
    """Bits of the sheet that hold one number; a lowest value below 0 means two's complement."""

    name: str
    width: int
    lowest: int
    highest: int
    refused_by: int = UNLAWFUL


class Layout(NamedTuple):
    """The fields of which a form decides the width, or whether they are there at all."""

    head: tuple[Field, ...]
    rule_count: Field
    comment: Field
    item_counts: tuple[Field, ...]


class Year(NamedTuple):
    start: int
    end: int
    step: int


class Months(NamedTuple):
    start: int
    end: int


class MonthsOfYear(NamedTuple):
    start: int
    end: int
    year: int


class DatedRange(NamedTuple):
    reference: int


class Week(NamedTuple):
    start: int
    end: int
    step: int


class Weekdays(NamedTuple):
    start: int
    end: int
    offset: int
    nth_from_start: int
    nth_from_end: int


class Holiday(NamedTuple):
    kind: int
    offset: int


class Time(NamedTuple):
    """A fixed time has tag 0, event 0 and its minutes; a variable one tag 1, its event and its offset in minutes.

    So the order of tuples is the order of times: fixed before variable, variable ones by event, then offset.
    """

    tag: int
    event: int
    minutes: int


class Span(NamedTuple):
    start: Time
    end: Time
    open_end: int
    repeats: int


class Rule(NamedTuple):
    operator: int
    kind: int
    comment: int
    years: tuple
    monthdays: tuple
    weeks: tuple
    weekdays: tuple
    spans: tuple


def whole(name: str, width: int) -> Field:
    """A field for which every value of its width is lawful."""
    return Field(name, width, 0, 2**width - 1)


def signed(name: str) -> Field:
    return Field(name, 16, -(2**15), 2**15 - 1)


def layout(head: tuple[Field, ...], rule_count: int, comment: int, item_count: int) -> Layout:
    """The layout of a form whose fields have these widths."""
    sorts = ("years", "monthdays", "weeks", "weekdays", "spans")
    return Layout(
        head, Field("rule count", rule_count, 0, RULE_LIMIT, PAST_ITS_LIMIT), whole("comment", comment),
        tuple(Field(f"count of {sort}", item_count, 0, ITEM_LIMIT, PAST_ITS_LIMIT) for sort in sorts),
    )


LAYOUTS = {
    1: layout(head=(), rule_count=16, comment=16, item_count=10),
    2: layout(head=(Field("head", 4, 0b0010, 0b0010),), rule_count=24, comment=24, item_count=12),
}
FORMS = tuple(LAYOUTS)
OPERATOR, KIND = Field("operator", 2, 0, 2), Field("kind", 2, 0, 2)
MONTH_ENDS = (Field("month start", 4, 1, 12), Field("month end", 4, 1, 12))
ITEM_FIELDS = {
    Year: (Field("year start", 14, 1900, 9999), Field("year end", 14, 1900, 9999), Field("year step", 16, 1, 2**16 - 1)),
    Months: MONTH_ENDS,
    MonthsOfYear: MONTH_ENDS + (Field("month's year", 14, 1900, 9999),),
    DatedRange: (whole("reference", 32),),
    Week: (Field("week start", 6, 1, 53), Field("week end", 6, 1, 53), Field("week step", 8, 1, 2**8 - 1)),
    Weekdays: (
        Field("weekday start", 3, 0, 6), Field("weekday end", 3, 0, 6), signed("weekday offset"),
        whole("nth from start", 5), whole("nth from end", 5),
    ),
    Holiday: (whole("holiday kind", 1), signed("holiday offset")),
}
# The four sorts of days' items: the tag's field, if the sort has one, and the item that stands for each tag.
DAY_ITEMS = (
    (None, (Year,)),
    (Field("monthday tag", 2, 0, 2), (Months, MonthsOfYear, DatedRange)),
    (None, (Week,)),
    (whole("weekday tag", 1), (Weekdays, Holiday)),
)
TIME_TAG = whole("time tag", 1)
FIXED_MINUTES = Field("fixed time", 12, 0, 2880)
EVENT, EVENT_OFFSET = whole("event", 2), signed("event offset")
OPEN_END, REPEATS_FLAG, REPEATS = whole("open_end", 1), whole("repeats flag", 1), whole("repeats minutes", 12)


class Cursor:
    """A sheet and a bit position in it; `met` keeps each field with its place, for those who ask what stands where."""

    def __init__(self, sheet: bytes):
        self.sheet = sheet
        self.place = 0
        self.met: list[tuple[Field, int]] = []

    def take(self, field: Field) -> int:
        place, after = self.place, self.place + field.width
        self.met.append((field, place))
        if after > 8 * len(self.sheet):
            raise Refusal(PAST_THE_END, place)
        value = bits_at(self.sheet, place, after)
        if field.lowest < 0 and value > field.highest:
            value -= 2**field.width
        if not field.lowest <= value <= field.highest:
            raise Refusal(field.refused_by, place)
        self.place = after
        return value


def bits_at(sheet: bytes, place: int, after: int) -> int:
    """The bits from `place` up to `after`, most significant first, as one number."""
    last_byte = (after + 7) // 8
    window = int.from_bytes(sheet[place // 8 : last_byte], "big")
    return (window >> (8 * last_byte - after)) & ((1 << (after - place)) - 1)


def layout_of(form: int) -> Layout:
    if form not in LAYOUTS:
        raise Refusal(UNLAWFUL, 0)
    return LAYOUTS[form]


# Reading


def read_sheet(form: int, sheet: bytes) -> tuple[list[Rule], list[int]]:
    """The rules, and the place of each rule's first bit followed by that of the first bit after the rules."""
    return read_from(layout_of(form), Cursor(sheet))


def read_from(layout: Layout, cursor: Cursor) -> tuple[list[Rule], list[int]]:
    for field in layout.head:
        cursor.take(field)
    rules, places = [], []
    for _ in range(cursor.take(layout.rule_count)):
        places.append(cursor.place)
        rules.append(read_rule(layout, cursor))
    places.append(cursor.place)
    check_padding(cursor.sheet, cursor.place)
    return rules, places


def read_rule(layout: Layout, cursor: Cursor) -> Rule:
    title = [cursor.take(field) for field in (OPERATOR, KIND, layout.comment)]
    *day_counts, span_count = [cursor.take(field) for field in layout.item_counts]
    items = [
        tuple(read_day_item(cursor, *sort) for _ in range(count)) for count, sort in zip(day_counts, DAY_ITEMS)
    ]
    return Rule(*title, *items, tuple(read_span(cursor) for _ in range(span_count)))


def read_day_item(cursor: Cursor, tag_field: Field | None, types: tuple) -> tuple:
    item_type = types[cursor.take(tag_field) if tag_field else 0]
    return item_type(*[cursor.take(field) for field in ITEM_FIELDS[item_type]])


def read_span(cursor: Cursor) -> Span:
    start, end = read_time(cursor), read_time(cursor)
    open_end = cursor.take(OPEN_END)
    return Span(start, end, open_end, cursor.take(REPEATS) if cursor.take(REPEATS_FLAG) else NO_REPEATS)


def read_time(cursor: Cursor) -> Time:
    if cursor.take(TIME_TAG) == 0:
        return Time(0, 0, cursor.take(FIXED_MINUTES))
    event = cursor.take(EVENT)
    return Time(1, event, cursor.take(EVENT_OFFSET))


def check_padding(sheet: bytes, place: int) -> None:
    """Zero bits to the byte's end, then nothing."""
    after_padding = (place + 7) // 8 * 8
    for bit in range(place, after_padding):
        if bits_at(sheet, bit, bit + 1):
            raise Refusal(PADDING, bit)
    if after_padding < 8 * len(sheet):
        raise Refusal(PADDING, after_padding)


# Writing: bits are a text of digits until the whole sheet is packed. No limit is looked at here.


def write_sheet(form: int, rules: list[Rule]) -> bytes:
    return pack_rules(form, len(rules), rules_bits(form, rules))


def pack_rules(form: int, count: int, bits: str) -> bytes:
    """The sheet of so many rules that have these bits."""
    layout = layout_of(form)
    head = "".join(field_bits(field, field.lowest) for field in layout.head)
    return pack(head + field_bits(layout.rule_count, count) + bits)


def pack(bits: str) -> bytes:
    size = (len(bits) + 7) // 8
    return int(bits.ljust(8 * size, "0"), 2).to_bytes(size, "big")


def unpack(sheet: bytes, place: int, after: int) -> str:
    """The bits from `place` up to `after` as digits."""
    return format(bits_at(sheet, place, after), f"0{after - place}b") if place < after else ""


def field_bits(field: Field, value: int) -> str:
    if not min(field.lowest, 0) <= value < 2**field.width:
        raise ValueError(f"{field.name} {value} has no room in its {field.width} bits")
    return format(value % 2**field.width, f"0{field.width}b")


def rules_bits(form: int, rules: list[Rule]) -> str:
    layout = layout_of(form)
    return "".join(rule_bits(layout, rule) for rule in rules)


def rule_bits(layout: Layout, rule: Rule) -> str:
    items = (rule.years, rule.monthdays, rule.weeks, rule.weekdays)
    parts = [field_bits(field, value) for field, value in zip((OPERATOR, KIND, layout.comment), rule)]
    parts += [field_bits(field, len(sort)) for field, sort in zip(layout.item_counts, (*items, rule.spans))]
    parts += [day_item_bits(item, *sort) for sort_items, sort in zip(items, DAY_ITEMS) for item in sort_items]
    return "".join(parts) + "".join(map(span_bits, rule.spans))


def day_item_bits(item: tuple, tag_field: Field | None, types: tuple) -> str:
    tag = field_bits(tag_field, types.index(type(item))) if tag_field else ""
    return tag + "".join(map(field_bits, ITEM_FIELDS[type(item)], item))


def span_bits(span: Span) -> str:
    repeats = "0" if span.repeats == NO_REPEATS else "1" + field_bits(REPEATS, span.repeats)
    return time_bits(span.start) + time_bits(span.end) + field_bits(OPEN_END, span.open_end) + repeats


def time_bits(time: Time) -> str:
    if time.tag == 0:
        return "0" + field_bits(FIXED_MINUTES, time.minutes)
    return "1" + field_bits(EVENT, time.event) + field_bits(EVENT_OFFSET, time.minutes)
