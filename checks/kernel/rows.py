#!/usr/bin/env python3
"""Whether docs/kernel.md and the cases name each other: its tables have a column of the cases
that show a row."""
from __future__ import annotations

import re
from pathlib import Path
from typing import Iterator, Sequence

from kernel.answers_compare import Answered
from kernel.compare import Tally
from kernel.plans import Case

DOCUMENT = Path(__file__).resolve().parent.parent.parent / "docs/kernel.md"
COLUMNS = 4  # of a row that has cases
TRIED = "6.18"  # what a cell says that was tried on that kernel

Shown = Case | Answered
Rows = dict[str, list[str]]


def read_rows() -> Rows:
    """The cells of each row, by the first one."""
    lines = [
        line
        for line in DOCUMENT.read_text(encoding="utf-8").splitlines() if line.startswith("| ")
    ]
    cells = [[cell.strip() for cell in line.strip("|").split(" | ")] for line in lines]
    return {row[0]: row for row in cells}


def rows_of(case: Shown) -> list[str]:
    """The rows that a case shows."""
    if isinstance(case, Case):
        return [*case.rows, *([case.apart.row] if case.apart else [])]
    return [case.row] if case.row else []


def named(cells: list[str]) -> list[str]:
    """The cases that a row names."""
    return re.findall(r"`([a-z]\w*)`", cells[3]) if len(cells) == COLUMNS else []


def compare_rows(cases: Sequence[Shown], free: list[str]) -> list[str]:
    """What is wrong: a row that a case shows and that isn't there or doesn't name it, a name of
    no case, and what was tried on a kernel and has nothing that shows it."""
    rows = read_rows()
    return [
        *lacking(rows, cases, free), *unknown(rows, {case.name for case in cases}), *unshown(rows)
    ]


def lacking(rows: Rows, cases: Sequence[Shown], free: list[str]) -> Iterator[str]:
    for case in cases:
        for row in rows_of(case):
            if row not in rows:
                yield f"docs/kernel.md has no row '{row}', which {case.name} shows"
            elif case.name not in named(rows[row]):
                yield f"docs/kernel.md: the row '{row}' doesn't name {case.name}"
    yield from (
        f"docs/kernel.md has no row '{row}', by which something may differ"
        for row in set(free) - set(rows)
    )


def unknown(rows: Rows, names: set[str]) -> Iterator[str]:
    for row, cells in rows.items():
        if row != "Point":
            yield from (
                f"docs/kernel.md: '{row}' names {name}, which is no case"
                for name in named(cells) if name not in names
            )


def unsaid(tally: Tally) -> list[str]:
    """The figures of a comparison that the document doesn't say."""
    text = " ".join(DOCUMENT.read_text(encoding="utf-8").split())
    figures = (
        f"all {tally.cases} cases", f"{tally.blocks} blocks and {tally.slots} slots",
        f"each byte of {tally.bytes:,}", f"{tally.counts:,} numbers", f"{tally.apart} cases show",
        f"{tally.answers} answers",
    )
    return [f"docs/kernel.md doesn't say '{figure}'" for figure in figures if figure not in text]


def unshown(rows: Rows) -> Iterator[str]:
    for row, cells in rows.items():
        if TRIED in " ".join(cells[:3]) and not "".join(cells[3:]):
            yield f"docs/kernel.md: nothing shows '{row}'"
