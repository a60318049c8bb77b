"""Captures that run on threads have the lines and files that such a run may have, whichever
thread goes first; and so have some that may make no thread, which have to end as well. What
tells this refuses outcomes that were made wrong, and takes right ones."""
from __future__ import annotations

import random
import shutil
from pathlib import Path

import pytest

from second import captures, forwards, no_threads, outcomes

WRONG_CAPTURES = captures.wrong_outcomes()
WRONG_FORWARDS = forwards.wrong_outcomes()


def test_right_outcomes_of_capture_pass() -> None:
    assert outcomes.refused(captures.faults, captures.right_outcomes()) == 0


def test_right_outcomes_of_forward_pass() -> None:
    assert outcomes.refused(forwards.faults, forwards.right_outcomes()) == 0


@pytest.mark.parametrize(("case", "outcome"), WRONG_CAPTURES.values(), ids=WRONG_CAPTURES)
def test_a_wrong_outcome_of_capture_is_refused(
    case: captures.Case, outcome: outcomes.Outcome
) -> None:
    assert list(captures.faults(case, *outcome)) != []


@pytest.mark.parametrize(("case", "outcome"), WRONG_FORWARDS.values(), ids=WRONG_FORWARDS)
def test_a_wrong_outcome_of_forward_is_refused(
    case: captures.Case, outcome: outcomes.Outcome
) -> None:
    assert list(forwards.faults(case, *outcome)) != []


@pytest.mark.parametrize("case", captures.sum_cases())
def test_capture(case: captures.Case, program: Path, inside: Path) -> None:
    """A run of a table."""
    numbers = random.Random(4)
    assert outcomes.found_wrong(
        captures.faults, case, lambda case: captures.run_of(str(program), case, numbers)
    ) == []


@pytest.mark.parametrize("part", range(6))
def test_captures(part: int, program: Path) -> None:
    """Fifty runs that are drawn from the number of the part."""
    numbers = random.Random(part)
    cases = [captures.random_case(numbers) for _ in range(50)]
    assert outcomes.wrong_runs(
        "runs on threads", captures.faults, cases,
        lambda case: captures.run_of(str(program), case, numbers)
    ) == 0


@pytest.mark.parametrize("case", captures.sum_cases())
def test_forward(case: captures.Case, program: Path, inside: Path) -> None:
    numbers = random.Random(7)
    run = lambda case: captures.run_of(str(program), case, numbers, "forward")  # noqa: E731
    assert outcomes.found_wrong(forwards.faults, case, run) == []


@pytest.mark.parametrize("part", range(4))
def test_forwards(part: int, program: Path) -> None:
    numbers = random.Random(100 + part)
    cases = [captures.random_case(numbers) for _ in range(50)]
    run = lambda case: captures.run_of(str(program), case, numbers, "forward")  # noqa: E731
    assert outcomes.wrong_runs("runs on threads that send", forwards.faults, cases, run) == 0


@pytest.mark.needs("a limit of threads")
def test_captures_without_threads(program: Path, room: Path) -> None:
    """Runs of a user who may start nothing."""
    mine = shutil.copy(program, room / "program")
    run = lambda case: no_threads.run_alone(str(mine), case)  # noqa: E731
    assert outcomes.wrong_runs(
        "runs without threads", captures.faults, no_threads.cases(), run
    ) == 0
