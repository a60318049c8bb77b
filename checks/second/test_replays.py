"""Replays of captures of many kinds, over rings of blocks and of slots, frames that are made and
captures that are sent, give the status, the lines and the files that the second program works
out; and that gives what was worked out with pencil and paper."""
from __future__ import annotations

from collections.abc import Callable, Iterator
from pathlib import Path

import pytest

from second import made_values, outcomes, replays
from second.outcomes import found_wrong
from second.replays import Case
from second.runs import made_frames

WORKED = [*replays.worked_cases(), *replays.slot_cases(), *replays.sent_cases()]
PLAIN = [
    Case("replay", replays.setup_text(size), replays.FEW_STEPS, [data])
    for data in replays.small_captures()
    for size in replays.SIZES
]
SLOTS = [
    Case("replay2", replays.setup_text(size) + "dump yes\n", replays.FEW_STEPS, [data])
    for data in replays.small_captures() for size in replays.SLOTS[:4]
]


@pytest.mark.parametrize(("case", "lines", "length"), WORKED)
def test_second_program_by_hand(case: Case, lines: str, length: int) -> None:
    """The second program's lines, and the length of its file, are those of the tables."""
    printed, files = replays.worked_out(case)
    assert printed == lines
    assert [len(data) for data in files.values()] == [length]


def test_made_frames_by_another_script() -> None:
    assert [frame.data for frame in made_frames(7, 300)] == list(made_values.made(7, 300))


@pytest.mark.parametrize("case", [*(case for case, _, _ in WORKED), *PLAIN, *SLOTS])
def test_run(case: Case, program: Path, inside: Path) -> None:
    """A run of a table: each is a case of its own."""
    found = found_wrong(replays.faults, case, lambda case: replays.run_of(str(program), case))
    assert not found, "\n".join([*found, outcomes.shown(case)])


def test_other_lines_are_a_diff() -> None:
    """With the texts of the case, of which each line stands alone."""
    case, lines, _ = WORKED[0]
    _, files = replays.worked_out(case)
    other = lines.replace("packets ", "packets 1", 1)
    (found,) = replays.faults(case, other, files, 0)
    changed = [line for line in found.splitlines()[3:] if line[:1] in "+-"]
    assert changed == [f"-{lines.splitlines()[1]}", f"+{other.splitlines()[1]}"]
    assert set(case.setup.splitlines()[1:]) <= set(outcomes.shown(case).splitlines())


@pytest.mark.parametrize(
    "cases", [replays.large, replays.random_replays, replays.slots, replays.sends, replays.makes]
)
def test_runs(cases: Callable[[], Iterator[Case]], program: Path) -> None:
    """Runs of a kind, drawn from a number."""
    assert outcomes.wrong_runs(
        cases.__name__, replays.faults, cases(), lambda case: replays.run_of(str(program), case)
    ) == 0
