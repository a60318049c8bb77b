"""Captures that somebody made to do harm (lengths at their extremes, cuts at each byte of a
header, captures with bytes changed at random) give the status, the lines and the files that the
second program works out, and no form of input costs much more than a plain one of its size, or
grows faster than its bytes."""
from __future__ import annotations

from pathlib import Path

import pytest

from places import PROGRAMS
from second import hostile_captures, hostile_costs

SHARES = 8  # parts of the captures, each a test


@pytest.fixture(autouse=True)
def pages_of_one_size() -> None:
    hostile_captures.refuse_huge_pages()


@pytest.mark.parametrize("part", range(SHARES))
def test_captures(part: int, program: Path, inside: Path) -> None:
    """10,000 changed ones by the first program, and 1,000 by another."""
    count = 10_000 if program == PROGRAMS[0] else 1_000
    assert hostile_captures.wrong_of(
        str(program), list(hostile_captures.cases(count))[part::SHARES]
    ) == []


@pytest.mark.parametrize("name", hostile_captures.FORMS)
def test_growth(name: str, first_program: Path, inside: Path) -> None:
    """Twice as many bytes of a form take about twice the work, and on threads such a run ends."""
    assert list(hostile_captures.whys_of_form(str(first_program), name)) == []


@pytest.mark.parametrize("name", hostile_captures.FORMS)
def test_growth_of_sizes(name: str, sizer: Path, inside: Path) -> None:
    """The same of ringsize, at one phase and beginning."""
    assert hostile_captures.size_grows(str(sizer), name) is None


def test_long_datagrams(first_program: Path, inside: Path) -> None:
    assert hostile_captures.long_datagrams_cost(str(first_program)) is None


@pytest.mark.parametrize(("name", "command"), hostile_costs.ROWS)
def test_cost(name: str, command: str, first_program: Path, inside: Path) -> None:
    assert hostile_costs.too_dear(str(first_program), name, command) is None
