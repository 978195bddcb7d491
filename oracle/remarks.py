"""What is told in front of a file of stored answers: its answers by form and code, what is refused where, and how its folds come
out beside the oracle.

Rests on `cases`, on `compare` for the oracle and on `reference`.
"""

from __future__ import annotations

from collections import Counter
from operator import itemgetter
from typing import Iterable

from cases import Given, refused_sort, refused_sorts
from compare import fold_line, oracle_lines, verdict
from reference.line import NO_LINE, line, reasons_against
from reference.sheet import FORMS, read_sheet
from reference.worked import ROOM


def sheets_in(lines: Iterable[str]) -> list[Given]:
    given = (line.split()[:2] for line in lines if not line.startswith("#"))
    return list(dict.fromkeys(Given(int(form), bytes.fromhex("" if sheet == "-" else sheet)) for form, sheet in given))


def in_forms(lines: Iterable[str]) -> dict[int, list[Given]]:
    """The sheets that are given in each form, but not those in none."""
    return {form: [given for given in sheets_in(lines) if given.form == form] for form in FORMS}


def held_against_oracle(lines: list[str]) -> str:
    """A remark on how the folds of the lines' sheets came out beside the oracle; an assertion if one differs."""
    counts: Counter = Counter()
    for form, sheets in in_forms(lines).items():
        bytes_given = [given.sheet for given in sheets]
        answered = (oracle_lines(form, bytes_given, mode) for mode in ([], ["--lists"]))
        for sheet, theirs, lists in zip(bytes_given, *answered, strict=True):
            name, difference = verdict(sheet, fold_line(form, sheet), theirs, lists)
            assert difference is None, difference
            counts[name] += 1
    told = ", ".join(f"{number} {name}" for name, number in sorted(counts.items()))
    return f"# of {counts.total()} different sheets of both forms, beside the Rust oracle: {told}"


def counts_remark(lines: list[str], layout: str, field: str) -> str:
    column = layout.split().index(field)
    counts = Counter(int(line.split()[column]) for line in lines if not line.startswith("#"))
    told = ", ".join(f"{value}: {number}" for value, number in sorted(counts.items()))
    return f"# answers by {field.lower()}: {told}"


def sorts_remarks(lines: list[str]) -> list[str]:
    """For each code of reading, at which sorts of field or bit it is given here; in neither form may one be missing."""
    remarks = []
    for form, sheets in in_forms(lines).items():
        counts = Counter((code, sort) for code, _, sort in map(refused_sort, sheets) if code)
        wanted = refused_sorts(form)
        assert set(wanted) == set(counts), set(wanted) ^ set(counts)
        told: dict[int, list[str]] = {}
        for code, sort in sorted(wanted, key=itemgetter(0)):
            told.setdefault(code, []).append(f"{sort} ({counts[code, sort]})")
        remarks += [f"# form {form}, code {code} at: " + ", ".join(sorts) for code, sorts in told.items()]
    return remarks


def reasons_remark(lines: list[str]) -> str:
    """How many sheets have each reason against a line at the rule that 10 names."""
    counts: Counter = Counter()
    for given in sheets_in(lines):
        answer, _ = line(*given, ROOM)
        if answer.code == NO_LINE:
            counts.update(reasons_against(read_sheet(*given)[0][answer.place], is_first=answer.place == 0))
    return f"# code {NO_LINE} for: " + ", ".join(f"{reason} ({number})" for reason, number in sorted(counts.items()))
