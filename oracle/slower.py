"""Two archives held against each other by time: `python3 oracle/slower.py BEFORE AFTER`, each what `bench --random SEED COUNT` printed.

Prints how many sheets take more than 1.2 times as long as before, the ten that got slowest, and the ratios of all sheets and
of each sort: the median, and that of the total times. A file may hold several runs of one archive, one after the other: of
each sheet the best time counts, so that a busy moment in one run shows no sheet as slower. Both archives must have been given
the same sheets and answer alike. Exit status 1 where a sheet is slower, 2 where the files don't fit.
"""

from __future__ import annotations

import argparse
import sys
from pathlib import Path
from statistics import median
from typing import NamedTuple

SLOWER = 1.2  # times as long as before
SHOWN = 10


class Sheet(NamedTuple):
    """What a line says before its time."""

    number: int
    sort: str
    form: int
    code: int
    emitted: int
    length: int

    def __str__(self) -> str:
        return f"sheet {self.number}, {self.sort}, form {self.form}, code {self.code}, {self.emitted} rules emitted"


class Compared(NamedTuple):
    sheet: Sheet
    before: int
    after: int

    @property
    def ratio(self) -> float:
        return self.after / self.before


def read_times(path: Path) -> dict[Sheet, int]:
    """The best time of each sheet, in nanoseconds."""
    times: dict[Sheet, int] = {}

    for line in path.read_text().splitlines():
        if line.startswith("#"):
            continue
        number, sort, *numbers, time = line.split()
        sheet = Sheet(int(number), sort, *map(int, numbers))
        times[sheet] = min(int(time), times.get(sheet, int(time)))
    return times


def compare(before: dict[Sheet, int], after: dict[Sheet, int]) -> list[Compared]:
    """All sheets, those first that got slowest."""
    compared = [Compared(sheet, before[sheet], after[sheet]) for sheet in before]
    return sorted(compared, key=lambda one: (-one.ratio, one.sheet))


def print_ratios(name: str, compared: list[Compared]) -> None:
    total = sum(one.after for one in compared) / sum(one.before for one in compared)
    print(f"{name}: {len(compared)} sheets, after : before median {median(one.ratio for one in compared):.3f}, of the totals {total:.3f}")


def main() -> int:
    parser = argparse.ArgumentParser(description=__doc__, formatter_class=argparse.RawDescriptionHelpFormatter)
    parser.add_argument("before", type=Path)
    parser.add_argument("after", type=Path)
    arguments = parser.parse_args()
    before, after = read_times(arguments.before), read_times(arguments.after)
    if not before or before.keys() != after.keys():
        first = min(before.keys() ^ after.keys(), default="none")
        parser.error(f"the files don't have the same sheets and answers: {first}")

    compared = compare(before, after)
    slower = sum(one.ratio > SLOWER for one in compared)

    print_ratios("all", compared)
    for sort in sorted({one.sheet.sort for one in compared}):
        print_ratios(sort, [one for one in compared if one.sheet.sort == sort])
    print(f"slower than {SLOWER} times: {slower}")
    print("slowest against before:")
    for one in compared[:SHOWN]:
        print(f"  {one.ratio:.2f} times, {one.before} ns before, {one.after} ns after: {one.sheet}")
    return 1 if slower else 0


if __name__ == "__main__":
    sys.exit(main())
