"""Makes crates/replay/data/{dates,years}: what Python's calendar says of dates from 1900 to 9999.

    python3 oracle/dates.py [--seed N]

The weekday and the ISO week come from `datetime`. The records are those of `sheets`, in form 1 and with no sheet:

    a date   YEAR MONTH DAY in eight bytes each, WEEKDAY (Monday 0) WEEK, 9 and 99 where there is no such date
    a year   YEAR DIGEST in eight bytes each

The digest is of the weekdays and weeks of all the year's days: with each day it is taken 500 times, 8 * WEEK + WEEKDAY is
added, and the remainder by the largest prime below 10 ** 16 is kept. Rests on `sheets`.
"""
import argparse
import datetime
import random

from cases import Given
from sheets import LONG, numbers, record, write_records

FIRST, LAST = 1900, 9999
PRIME = 10**16 - 63
NO_SHEET = Given(1, b"")


def date_record(year, month, day):
    try:
        date = datetime.date(year, month, day)
    except ValueError:
        date = None
    if date is None or not FIRST <= year <= LAST:
        weekday, week = 9, 99
    else:
        weekday, week = date.weekday(), date.isocalendar().week
    return record(NO_SHEET, numbers((year, month, day), LONG) + numbers((weekday, week)))


def year_record(year):
    digest = 0
    for day in range(datetime.date(year, 1, 1).toordinal(), datetime.date(year, 12, 31).toordinal() + 1):
        date = datetime.date.fromordinal(day)
        digest = (digest * 500 + 8 * date.isocalendar().week + date.weekday()) % PRIME
    return record(NO_SHEET, numbers((year, digest), LONG))


def around_months(year):
    """The days around both ends of each month."""
    for month in range(1, 13):
        for day in (0, 1, 28, 29, 30, 31, 32):
            yield year, month, day


def dates(seed):
    # both ends, and the year on each side of them
    for year in (FIRST - 1, FIRST, LAST, LAST + 1):
        yield from around_months(year)
    # every century
    for century in range(FIRST, LAST + 1, 100):
        for year in (century - 1, century):
            yield year, 12, 31
            yield year, 2, 29
        yield century, 1, 1
        yield century, 2, 28
        yield century, 3, 1
    for century in (2000, 2100, 2400):
        yield from around_months(century)
    # every leap boundary
    for year in range(FIRST, LAST + 1, 4):
        yield year, 2, 29
        yield year, 12, 31
        yield year + 1, 1, 1
    # numbers that a narrower field would take for others
    yield from ((2026, 0, 1), (2026, 13, 1), (2026, 257, 1), (2026, 1, 257), (2026, 65537, 1), (2026, 1, 65537))
    yield from ((67562, 1, 1), (0, 0, 0), (99999, 99999, 99999))
    # a sample
    some = random.Random(seed)
    first, last = datetime.date(FIRST, 1, 1).toordinal(), datetime.date(LAST, 12, 31).toordinal()
    for _ in range(2000):
        date = datetime.date.fromordinal(some.randint(first, last))
        yield date.year, date.month, date.day


def main():
    parser = argparse.ArgumentParser()
    parser.add_argument("--seed", type=int, default=1)
    seed = parser.parse_args().seed
    write_records("dates", (date_record(*date) for date in dates(seed)))
    write_records("years", map(year_record, range(FIRST, LAST + 1)))


if __name__ == "__main__":
    main()
