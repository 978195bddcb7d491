"""The must-fail edits, by what refuses them.

    python3 oracle/edits.py                  # tries every edit (`rt must-fail`), and tells those that show nothing
    python3 oracle/edits.py --log FILE       # the same of what `rt ci` or `rt must-fail` printed into FILE
    python3 oracle/edits.py --try CRATE ..   # tries the edits of these crates alone, and lists them all
    python3 oracle/edits.py --all            # with any of these: every edit with the first error

An edit is to be refused because a fact no longer holds. Where its first error is only that the proof no longer fits the
code's shape (a record has no such field, a goal has no such name), it shows nothing: any change of that line would do the
same. Nor does one that can't be applied or read. Exit status 1 where such edits are found.
"""

from __future__ import annotations

import argparse
import re
import subprocess
import sys
from pathlib import Path
from typing import Iterator, NamedTuple

ROOT = Path(__file__).resolve().parent.parent
TOLD = re.compile(r"^rt: must-fail (\w+)/(\w+)\.edit: (refused, as it must be|BAD EDIT|NOT REFUSED|NOT TRIED)(?:: )?(.*)$", re.MULTILINE)
REFUSED = "refused, as it must be"
SHAPE = re.compile(r"has no field|has no `|is not in scope|binders, but its type has room|can be named from here|unsolved")


class Tried(NamedTuple):
    crate: str
    edit: str
    outcome: str
    error: str


def tried(log: str) -> Iterator[Tried]:
    seen = set()
    for found in TOLD.finditer(log):
        if found.group(1, 2) not in seen:
            seen.add(found.group(1, 2))
            yield Tried(*found.groups())


def fault(edit: Tried) -> str:
    if edit.outcome != REFUSED:
        return edit.outcome
    return "shows nothing" if SHAPE.search(edit.error) else ""


def main() -> int:
    parser = argparse.ArgumentParser(description="What refuses the must-fail edits.")
    parser.add_argument("--all", action="store_true", help="list every edit")
    parser.add_argument("--log", type=Path, metavar="FILE", help="read what rt printed, and try nothing")
    parser.add_argument("--try", dest="names", nargs="+", default=[], metavar="CRATE", help="try the edits of these crates")
    options = parser.parse_args()
    if options.log:
        log = options.log.read_text(encoding="utf-8", errors="replace")
    else:
        log = subprocess.run(["rt", "must-fail", *options.names], cwd=ROOT, capture_output=True, text=True).stdout
    count = faulty = 0
    for edit in tried(log):
        found = fault(edit)
        count, faulty = count + 1, faulty + bool(found)
        if found or options.all or options.names:
            print(f"{edit.crate}/{edit.edit}: {found + ': ' if found else ''}{edit.error[:200]}", flush=True)
    print(f"{count} edits tried, {faulty} to be mended")
    return 1 if faulty or not count else 0


if __name__ == "__main__":
    sys.exit(main())
