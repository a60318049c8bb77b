"""What the scenarios of whole runs say, and those of a capture that is cut at each of its
lengths, is what the second program works out and what each built program does over real files;
and the program that carries them out in memory finds nothing that differs, notices each number
of theirs that is changed, and keeps the whole records of each capture that is cut."""
from __future__ import annotations

import subprocess
from pathlib import Path

import pytest

from places import TOP
from scenarios import changes, cuts, worked
from scenarios.texts import Document, Scenario, scenarios

DATA = sorted((TOP / "crates/scenario_runs/data").glob("*.txt"))
EVERY = {f"{path.stem}: {scenario.name}": scenario for path in DATA for scenario in scenarios(path)}
CUTS = {scenario.name: scenario for scenario in Document(Path("cuts.txt"), cuts.text()).scenarios()}


@pytest.mark.parametrize("name", EVERY | CUTS)
def test_worked_out(name: str) -> None:
    """By the second program, where it works such runs out."""
    assert worked.checked((EVERY | CUTS)[name], None) == []


@pytest.mark.parametrize("name", EVERY)
def test_carried_out(name: str, program: Path) -> None:
    """By the program, over real files, where nothing of the outside fails."""
    assert worked.checked(EVERY[name], program) == []


def test_cuts_carried_out(program: Path) -> None:
    assert {name: found for name in CUTS if (found := worked.checked(CUTS[name], program))} == {}


@pytest.mark.parametrize("path", DATA, ids=[path.name for path in DATA])
def test_in_memory(path: Path) -> None:
    """By the runner: nothing differs, and each number that is changed does."""
    every: list[Scenario] = scenarios(path)
    whole = [changes.Changed(one.name, "nothing", changes.whole(one)) for one in every]
    assert changes.wrong(changes.runner(), whole, False) == []
    assert changes.wrong(
        changes.runner(), [change for one in every for change in changes.changes(one)], True
    ) == []


def test_cuts_in_memory(room: Path) -> None:
    (room / "cuts.txt").write_text(cuts.text(), encoding="ascii")
    done = subprocess.run(
        [changes.runner(), "said", "cuts.txt"], cwd=room, capture_output=True, text=True,
        timeout=600, check=False
    )
    assert done.stdout == f"cuts.txt: {len(CUTS)} scenarios, 0 differ\n"
    assert len(CUTS) == 253
