"""The worked days of document 01, and the cases it says to run, as rules that go in and what comes out.

`FOLDS` holds those whose folded rules the document tells; `RUNS` those of which it tells only code and place, or what
drains, by the limits of 02's M-107. `OVERLAPS` holds P9 as 02's M-101 has it and what is worked by hand from its words, `LINES`
and `NO_LINES` are worked from those on the line (M-100), `WHYS` from those on why the fold stopped (M-105), `EMPTY`,
`LONG_FOLDS`, `COMMENTS`, `MISREAD` and `NO_FORMS` from those on the two forms (M-106). Rests on `build`; `check_worked` holds all
entries against them, in both forms where a case is rules of either.
"""

from __future__ import annotations

from .build import boxes_rule, fixed, hours, plain_rule, weekdays
from .convert import COMMENT_TOO_LONG, OTHER_FORM, convert
from .fold import BUFFER_TOO_SHORT, fold, write_back
from .line import NO_LINE, line
from .lookup import lookup
from .overlap import RANGES_SHARE
from .sheet import (
    ADDITIONAL, ALL_NTH, CLOSED, FALLBACK, FORMS, NO_REPEATS, OPEN, PAST_ITS_LIMIT, PAST_THE_END, UNKNOWN, UNLAWFUL, DatedRange,
    Holiday, Months, MonthsOfYear, Rule, Span, Time, Week, Weekdays, Year, write_sheet,
)
from .why import NOTHING

MO, TU, WE, TH, FR, SA, SU = range(7)
ROOM = 65536
# In form 2 all but the span are whole digits: the head 2, the rule count 000001, operator and kind 0, then six of the comment and
# three of each count.
EXAMPLES = {1: bytes.fromhex("00010000000000000000040005A000"), 2: bytes.fromhex("200000100000000000000000000010001680")}
EMPTY = {1: bytes.fromhex("0000"), 2: bytes.fromhex("20000000")}
OPEN_ENDED = hours(10, 12, open_end=1)


def additional(**parts) -> Rule:
    return plain_rule(operator=ADDITIONAL, **parts)


def variable_to(minutes: int) -> Span:
    return Span(Time(1, 0, -30), Time(0, 0, minutes), 0, NO_REPEATS)


TUESDAY_IN_JANUARY = {"weekdays": (weekdays(TU, TU),), "monthdays": (Months(1, 1),)}
SHARING_WEEKDAYS = (weekdays(MO, WE), weekdays(TU, TH))
LEFT_OVERLAPPING = [
    plain_rule(weeks=(Week(1, 3, 2),), weekdays=SHARING_WEEKDAYS), plain_rule(weekdays=(weekdays(MO, MO),) * 2),
]

# Name: the rules that go in, the rules that come out, those left among them last.
FOLDS: dict[str, tuple[list[Rule], list[Rule]]] = {
    "P1": ([], []),
    "P2": (
        [
            plain_rule(weekdays=(weekdays(MO, FR),)),
            plain_rule(kind=CLOSED, weekdays=(weekdays(TU, TU),), spans=(hours(12, 13),)),
        ],
        [
            plain_rule(weekdays=(weekdays(MO, MO), weekdays(WE, FR))),
            plain_rule(weekdays=(weekdays(TU, TU),), spans=(hours(10, 12), hours(13, 18))),
        ],
    ),
    "P4": (
        [plain_rule(weekdays=(weekdays(FR, MO),))],
        [plain_rule(weekdays=(weekdays(MO, MO), weekdays(FR, SU)))],
    ),
    "P5": ([plain_rule(weekdays=(weekdays(FR, TH),))], [plain_rule()]),
    "P6": ([plain_rule(weeks=(Week(50, 2, 1),))], [plain_rule(weeks=(Week(1, 2, 1), Week(50, 53, 1)))]),
    "P7": ([plain_rule(weeks=(Week(53, 53, 1),))], [plain_rule(weeks=(Week(53, 53, 1),))]),
    "P10": (
        [
            plain_rule(spans=(hours(8, 18),)),
            additional(kind=UNKNOWN, spans=(hours(10, 11, open_end=1),)),
            additional(kind=UNKNOWN, spans=(hours(12, 13),)),
        ],
        [
            plain_rule(spans=(hours(8, 12), hours(13, 18))),
            additional(kind=UNKNOWN, spans=(hours(12, 13),)),
            additional(kind=UNKNOWN, spans=(hours(10, 11, open_end=1),)),
        ],
    ),
    "P11": ([plain_rule(kind=CLOSED, spans=(hours(0, 24),))], []),
    # Years grow first: Monday in both years is one group, and Tuesday of 2000 another.
    "growing order": (
        [
            plain_rule(weekdays=(weekdays(MO, MO),), years=(Year(2000, 2001, 1),)),
            plain_rule(weekdays=(weekdays(TU, TU),), years=(Year(2000, 2000, 1),)),
        ],
        [
            plain_rule(weekdays=(weekdays(MO, MO),), years=(Year(2000, 2001, 1),)),
            plain_rule(weekdays=(weekdays(TU, TU),), years=(Year(2000, 2000, 1),)),
        ],
    ),
    # Each of four rules pushes its span once.
    "four pushes": (
        [additional(**TUESDAY_IN_JANUARY, spans=(OPEN_ENDED,))] * 4,
        [plain_rule(**TUESDAY_IN_JANUARY, spans=(OPEN_ENDED,) * 4)],
    ),
    "32 entries on Tuesday in January": (
        [additional(spans=())] * 31 + [additional(**TUESDAY_IN_JANUARY)],
        [plain_rule(**TUESDAY_IN_JANUARY)],
    ),
    # Ranges that only touch are no overlap, nor are the halves of one that wraps.
    "touching": (
        [additional(weekdays=(weekdays(MO, WE), weekdays(TH, FR)), spans=(OPEN_ENDED,))],
        [plain_rule(weekdays=(weekdays(MO, FR),), spans=(OPEN_ENDED,))],
    ),
    "a wrap touches": (
        [plain_rule(weekdays=(weekdays(FR, MO), weekdays(TU, WE)))],
        [plain_rule(weekdays=(weekdays(MO, WE), weekdays(FR, SU)))],
    ),
    "rules left may overlap": ([plain_rule(), *LEFT_OVERLAPPING], [plain_rule(), *LEFT_OVERLAPPING]),
    "a rule left": (
        [plain_rule(weekdays=(weekdays(FR, TH),)), plain_rule(spans=(fixed(1080, 1441),))],
        [plain_rule(), plain_rule(spans=(fixed(1080, 1441),))],
    ),
}


def lunch_off(comment: int) -> list[Rule]:
    """A day that is closed from 12:00 to 13:00, which the fold would drop if the comment were 0."""
    return [plain_rule(), plain_rule(kind=CLOSED, comment=comment, spans=(hours(12, 13),))]


def lunch_off_folded(comment: int) -> list[Rule]:
    return [
        plain_rule(spans=(hours(10, 12), hours(13, 18))), additional(kind=CLOSED, comment=comment, spans=(hours(12, 13),)),
    ]


# Of form 2 alone: the last sixteen bits of two comments are the same, and the states are not.
LONG_FOLDS: dict[str, tuple[list[Rule], list[Rule]]] = {
    "comments 1 and 65537": (
        [plain_rule(comment=1, spans=(hours(10, 14),)), additional(comment=65537, spans=(hours(14, 18),))],
        [plain_rule(comment=1, spans=(hours(10, 14),)), additional(comment=65537, spans=(hours(14, 18),))],
    ),
    "65536 is not 0": (
        [plain_rule(comment=65536, spans=(hours(10, 14),)), additional(spans=(hours(14, 18),))],
        [plain_rule(spans=(hours(14, 18),)), additional(comment=65536, spans=(hours(10, 14),))],
    ),
    "a long comment in a rule left": (
        [plain_rule(), plain_rule(operator=FALLBACK, comment=2**24 - 1)],
        [plain_rule(), plain_rule(operator=FALLBACK, comment=2**24 - 1)],
    ),
}

# Name: the rules that go in; code, drained and place.
RUNS: dict[str, tuple[list[Rule], tuple[int, int, int]]] = {
    "to 24:00": ([plain_rule(spans=(fixed(1080, 1440),))], (0, 1, 0)),
    "to 24:01": ([plain_rule(spans=(fixed(1080, 1441),))], (0, 0, 0)),
    "variable to 24:00": ([plain_rule(spans=(variable_to(1440),))], (0, 1, 0)),
    "variable to 23:59": ([plain_rule(spans=(variable_to(1439),))], (0, 0, 0)),
    "18:00-18:00": ([plain_rule(spans=(hours(18, 18),))], (0, 0, 0)),
    "1024 boxes": ([boxes_rule((1, 8, 8, 16))], (0, 1, 0)),
    "1152 boxes": ([boxes_rule((1, 9, 8, 16))], (0, 1, 0)),
    "32 entries": ([additional()] * 32, (0, 32, 0)),
    "33 entries": ([additional()] * 33, (6, 0, 32)),
    "33 entries after rules that replace": ([plain_rule(spans=())] * 4 + [additional(spans=())] * 32, (6, 0, 35)),
}

# Name: rules whose fold is refused since ranges of one selector share a value, and the first such rule's index.
OVERLAPS: dict[str, tuple[list[Rule], int]] = {
    "P9": ([additional(weekdays=SHARING_WEEKDAYS, spans=(OPEN_ENDED,))], 0),
    "a wrap shares": ([plain_rule(weekdays=(weekdays(FR, MO), weekdays(MO, TU)))], 0),
    "two wraps share": ([plain_rule(), plain_rule(weeks=(Week(50, 2, 1), Week(53, 1, 1)))], 1),
    "a whole dimension beside an item": ([plain_rule(monthdays=(Months(1, 12), Months(3, 3)))], 0),
    "equal years": ([plain_rule(kind=CLOSED, years=(Year(2026, 2026, 1),) * 2, spans=())], 0),
    "beside 1089 boxes": ([boxes_rule((3, 11, 11, 3), spans=()), plain_rule(monthdays=(Months(1, 1),) * 2, spans=())], 1),
    "the first of two": (
        [plain_rule(), plain_rule(monthdays=(Months(1, 3), Months(3, 3))), plain_rule(weekdays=SHARING_WEEKDAYS)], 1,
    ),
}

LATE, YEARS_BY_2, WEEKS_BY_2 = fixed(1080, 1441), Year(2000, 2010, 2), Week(1, 53, 2)
OFFSET, LAST_OF_MONTH = Weekdays(MO, MO, 1, ALL_NTH, ALL_NTH), Weekdays(MO, MO, 0, ALL_NTH, 0b00001)
EVERY_REASON = plain_rule(
    operator=FALLBACK, years=(YEARS_BY_2,), monthdays=(DatedRange(1),), weeks=(WEEKS_BY_2,),
    weekdays=(LAST_OF_MONTH, OFFSET, Holiday(0, 0)), spans=(LATE,),
)

# Name: the rules that go in, and why their fold stopped.
WHYS: dict[str, tuple[list[Rule], int]] = {
    "nothing": ([plain_rule(weekdays=(weekdays(FR, MO),))], 0),
    "Fallback": ([plain_rule(operator=FALLBACK)], 1),
    "time": ([plain_rule(spans=(LATE,))], 2),
    "year step": ([plain_rule(years=(YEARS_BY_2,))], 3),
    "monthday of a year": ([plain_rule(monthdays=(MonthsOfYear(1, 2, 2026),))], 4),
    "monthday by reference": ([plain_rule(monthdays=(DatedRange(0),))], 4),
    "week step": ([plain_rule(weeks=(WEEKS_BY_2,))], 5),
    "holiday": ([plain_rule(weekdays=(Holiday(1, 0),))], 6),
    "weekday offset": ([plain_rule(weekdays=(OFFSET,))], 7),
    "nth": ([plain_rule(weekdays=(LAST_OF_MONTH,))], 8),
    "Fallback before all": ([EVERY_REASON], 1),
    "time before all others": ([EVERY_REASON._replace(operator=ADDITIONAL)], 2),
    "time before years": ([plain_rule(years=(YEARS_BY_2,), spans=(hours(10, 18), LATE))], 2),
    "years before monthdays": ([plain_rule(years=(YEARS_BY_2,), monthdays=(DatedRange(0),))], 3),
    "monthdays before weeks": ([plain_rule(monthdays=(Months(1, 2), DatedRange(0)), weeks=(WEEKS_BY_2,))], 4),
    "weeks before weekdays": ([plain_rule(weeks=(Week(1, 2, 1), WEEKS_BY_2), weekdays=(Holiday(0, 0),))], 5),
    "a holiday behind an nth bit": ([plain_rule(weekdays=(LAST_OF_MONTH, Holiday(0, 0)))], 6),
    "a holiday behind an offset": ([plain_rule(weekdays=(OFFSET, Holiday(0, 0)))], 6),
    "a holiday with an offset": ([plain_rule(weekdays=(Holiday(0, -1),))], 6),
    "an offset behind an nth bit": ([plain_rule(weekdays=(LAST_OF_MONTH, OFFSET))], 7),
    "an offset and an nth bit of one item": ([plain_rule(weekdays=(LAST_OF_MONTH._replace(offset=-1),))], 7),
    "the first rule left": ([plain_rule(), plain_rule(weekdays=(LAST_OF_MONTH,)), EVERY_REASON], 8),
    "the first rule left, the last plain": ([plain_rule(weeks=(WEEKS_BY_2,)), plain_rule()], 5),
    "1152 boxes": ([boxes_rule((1, 9, 8, 16)), EVERY_REASON], 1),
    "refused": ([boxes_rule((4, 8, 8, 17)), EVERY_REASON], 0),
}

# A date at noon, and the code of its lookup in the example sheet, which is Open all day.
LOOKUPS = (((2000, 2, 29, 720), 0), ((1900, 2, 29, 720), 8))

# Rules whose comment is the number of their week, and the ISO weeks of days around new years.
NUMBERED_WEEKS = [plain_rule(comment=week, weeks=(Week(week, week, 1),)) for week in (1, 2, 51, 52, 53)]
ISO_WEEKS = (
    ((2026, 12, 31), 53), ((2027, 1, 1), 53), ((2024, 12, 29), 52), ((2024, 12, 30), 1), ((2020, 12, 31), 53), ((2021, 1, 3), 53),
    ((2021, 1, 4), 1), ((2023, 1, 1), 52), ((2005, 1, 1), 53), ((1900, 1, 1), 1), ((9999, 12, 31), 52),
)

# Name: rules, and their line.
LINES: dict[str, tuple[list[Rule], str]] = {
    "no rules": (FOLDS["P1"][0], ""),
    "P2": (FOLDS["P2"][0], "Mo-Fr 10:00-18:00; Tu 12:00-13:00 off"),
    "P2 folded": (FOLDS["P2"][1], "Mo,We-Fr 10:00-18:00; Tu 10:00-12:00,13:00-18:00"),
    "P4": (FOLDS["P4"][0], "Fr-Mo 10:00-18:00"),
    "P6": (FOLDS["P6"][0], "week 50-02 10:00-18:00"),
    "P6 folded": (FOLDS["P6"][1], "week 01-02,50-53 10:00-18:00"),
    "P7": (FOLDS["P7"][0], "week 53 10:00-18:00"),
    "P10": (FOLDS["P10"][0], "08:00-18:00, 10:00-11:00+ unknown, 12:00-13:00 unknown"),
    "a rule left": (FOLDS["a rule left"][0], "Fr-Th 10:00-18:00; 18:00-24:01"),
    "18:00-18:00": (RUNS["18:00-18:00"][0], "18:00-18:00"),
    "to 48:00": ([plain_rule(spans=(hours(24, 48), hours(48, 48, open_end=1)))], "24:00-48:00,48:00-48:00+"),
    "equal ends and steps": (
        [plain_rule(years=(Year(2020, 2020, 1), Year(2020, 2020, 2)), weeks=(Week(9, 9, 10), Week(9, 9, 1)))],
        "2020,2020-2020/2 week 09-09/10,09 10:00-18:00",
    ),
    "each kind with a comment": (
        [plain_rule(comment=1), plain_rule(kind=CLOSED, comment=20), plain_rule(kind=UNKNOWN, comment=65535)],
        '10:00-18:00 open "1"; 10:00-18:00 off "20"; 10:00-18:00 unknown "65535"',
    ),
    "every part": (
        [
            plain_rule(
                comment=1, years=(Year(2024, 1900, 100),), monthdays=(Months(11, 2),), weeks=(Week(52, 52, 1),),
                weekdays=(weekdays(SA, SA),), spans=(fixed(1, 1439), hours(48, 48, open_end=1)),
            ),
            plain_rule(operator=FALLBACK, years=(Year(1900, 9999, 1),), weekdays=(weekdays(MO, SU),), spans=(fixed(1, 2),)),
        ],
        '2024-1900/100 Nov-Feb week 52 Sa 00:01-23:59,48:00-48:00+ open "1" || 1900-9999 Mo-Su 00:01-00:02',
    ),
    "every operator": (
        [
            plain_rule(
                comment=10, years=(Year(2024, 9999, 65535),), monthdays=(Months(11, 1),), weekdays=(weekdays(TH, SA),),
                spans=(hours(18, 20),),
            ),
            additional(years=(Year(8870, 8870, 1),), weeks=(Week(3, 15, 1),), spans=(hours(1, 9),)),
            plain_rule(operator=FALLBACK, kind=UNKNOWN, comment=9167, weekdays=(weekdays(SA, MO),), spans=(hours(0, 9),)),
        ],
        '2024-9999/65535 Nov-Jan Th-Sa 18:00-20:00 open "10", 8870 week 03-15 01:00-09:00'
        ' || Sa-Mo 00:00-09:00 unknown "9167"',
    ),
}

# Name: rules that have no line, and the index of the first that is against it.
NO_LINES: dict[str, tuple[list[Rule], int]] = {
    "P9": (OVERLAPS["P9"][0], 0),
    "no spans, third": ([plain_rule(), plain_rule(), plain_rule(spans=())], 2),
    "variable, then no spans": ([plain_rule(), plain_rule(spans=(variable_to(1440),)), plain_rule(spans=())], 1),
    "first not Normal, then a holiday": ([additional(), plain_rule(weekdays=(Holiday(0, 0),))], 0),
    "repeats of 0 minutes": ([plain_rule(), additional(spans=(fixed(600, 1080, repeats=0),))], 1),
}


# A comment of the second of two rules, and the code and place of that sheet's way back to form 1.
COMMENTS = {65535: (0, 0), 65536: (COMMENT_TOO_LONG, 1), 65537: (COMMENT_TOO_LONG, 1), 2**24 - 1: (COMMENT_TOO_LONG, 1)}

# Name: a form, bytes that are no sheet of it, and the refusal's code and place.
MISREAD: dict[str, tuple[int, bytes, tuple[int, int]]] = {
    "form 1 read as form 2": (2, EXAMPLES[1], (UNLAWFUL, 0)),
    "form 2 read as form 1": (1, EXAMPLES[2], (PAST_ITS_LIMIT, 0)),
    "form 1 without rules read as form 2": (2, EMPTY[1], (UNLAWFUL, 0)),
    "form 2 without rules read as form 1": (1, EMPTY[2], (PAST_ITS_LIMIT, 0)),
    "no bytes read as form 2": (2, b"", (PAST_THE_END, 0)),
    "a head alone": (2, bytes.fromhex("20"), (PAST_THE_END, 4)),
    "another head alone": (2, bytes.fromhex("30"), (UNLAWFUL, 0)),
    "65 rules of form 2, most of their bits missing": (2, bytes.fromhex("20000410"), (PAST_THE_END, 32)),
    "another head, then 65 rules": (2, bytes.fromhex("A0000410"), (UNLAWFUL, 0)),
    "17 years of form 2": (2, bytes.fromhex("2000001000000001100000000000000000"), (PAST_ITS_LIMIT, 56)),
    "256 rules of form 2, most of their bits missing": (2, bytes.fromhex("20001000"), (PAST_THE_END, 32)),
    "257 rules of form 2": (2, bytes.fromhex("20001010"), (PAST_ITS_LIMIT, 4)),
    "257 rules": (1, bytes.fromhex("0101"), (PAST_ITS_LIMIT, 0)),
}
NO_FORMS = (0, 3, 2**32 + 1, 2**64 - 1)


def check_worked() -> None:
    """Raises an assertion at the first case that comes out otherwise."""
    for form in FORMS:
        check_folds(form)
        check_lookups(form)
        check_lines(form)
        check_moved(form)
    check_long_comments()
    check_misread()


def check_folds(form: int) -> None:
    for name, (given, wanted) in (FOLDS if form == 1 else FOLDS | LONG_FOLDS).items():
        answer, result = fold(form, write_sheet(form, given), ROOM)
        assert (answer.code, result) == (0, write_sheet(form, wanted)), name
    for name, (given, wanted) in RUNS.items():
        answer, _ = fold(form, write_sheet(form, given), ROOM)
        assert (answer.code, answer.drained, answer.place) == wanted, name
    for name, (given, place) in OVERLAPS.items():
        assert fold(form, write_sheet(form, given), ROOM) == ((RANGES_SHARE, 0, 0, 0, 0, place, NOTHING), b""), name
    answer, result = fold(form, EXAMPLES[form], ROOM)
    assert (answer, result) == ((0, 1, 1, 0, len(EXAMPLES[form]), 0, 0), EXAMPLES[form])
    for name, (given, why) in WHYS.items():
        answer, _ = fold(form, write_sheet(form, given), ROOM)
        short, _ = fold(form, write_sheet(form, given), 0)
        assert (answer.why, short.why) == (why, NOTHING), name


def check_lookups(form: int) -> None:
    for name, (given, place) in OVERLAPS.items():
        assert lookup(form, write_sheet(form, given), 2026, 1, 6, 660) == (RANGES_SHARE, 0, 0, place), name
    for date, code in LOOKUPS:
        assert lookup(form, EXAMPLES[form], *date) == (code, 0, 0, 0), date
    for date, week in ISO_WEEKS:
        assert lookup(form, write_sheet(form, NUMBERED_WEEKS), *date, 720) == (0, OPEN, week, 0), date


def check_lines(form: int) -> None:
    for name, (given, wanted) in LINES.items():
        assert line(form, write_sheet(form, given), ROOM) == ((0, len(wanted), 0), wanted.encode()), name
    for name, (given, place) in NO_LINES.items():
        assert line(form, write_sheet(form, given), ROOM) == ((NO_LINE, 0, place), b""), name


def check_moved(form: int) -> None:
    """Sheets without long comments go to the other form and come back."""
    other = OTHER_FORM[form]
    for sheets in (EXAMPLES, EMPTY, {either: write_sheet(either, FOLDS["P2"][0]) for either in FORMS}):
        needed = len(sheets[other])
        assert convert(form, sheets[form], needed) == ((0, needed, 0), sheets[other])
        assert convert(form, sheets[form], needed - 1) == ((BUFFER_TOO_SHORT, 0, needed), b"")
        assert write_back(form, sheets[form], ROOM) == ((0, len(sheets[form]), 0), sheets[form])


def check_long_comments() -> None:
    for comment, (code, place) in COMMENTS.items():
        sheet, text = write_sheet(2, lunch_off(comment)), f'10:00-18:00; 12:00-13:00 off "{comment}"'
        assert fold(2, sheet, ROOM)[1] == write_sheet(2, lunch_off_folded(comment)), comment
        assert lookup(2, sheet, 2000, 2, 29, 720) == (0, CLOSED, comment, 0), comment
        assert line(2, sheet, ROOM) == ((0, len(text), 0), text.encode()), comment
        answer, _ = convert(2, sheet, ROOM)
        assert (answer.code, answer.place) == (code, place), comment
    left, _ = convert(2, write_sheet(2, LONG_FOLDS["a long comment in a rule left"][0]), 0)
    assert left == (COMMENT_TOO_LONG, 0, 1)


def check_misread() -> None:
    """A form that is none is refused before a bad sheet and a bad date."""
    no_forms = {f"form {form}": (form, EXAMPLES[1], (UNLAWFUL, 0)) for form in NO_FORMS}
    for name, (form, sheet, (code, place)) in (MISREAD | no_forms).items():
        assert fold(form, sheet, ROOM) == ((code, 0, 0, 0, 0, place, NOTHING), b""), name
        assert lookup(form, sheet, 1900, 2, 29, 720) == (code, 0, 0, place), name
        for entry in (write_back, line, convert):
            assert entry(form, sheet, 0) == ((code, 0, place), b""), name
    for form in NO_FORMS:
        assert fold(form, b"", 0)[0].code == UNLAWFUL, form
