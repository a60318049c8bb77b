"""How outcomes of runs are made and tested: those that have to pass, those that were made wrong,
and those of a program.

An outcome is what a run printed, the files that it saved and its status; `faults(case,
*outcome)` gives what is wrong with it. `run(case)` gives an outcome and None, or None and what
is wrong with how the run ends.
"""
from __future__ import annotations

import os
import tempfile
from collections.abc import Callable, Iterable, Iterator, Sequence
from pathlib import Path
from typing import Any, Protocol, TypeVar

import running
from differing import diff
from second.program import save
from second.runs import Files

Outcome = tuple[str, Files, int]


class Case(Protocol):
    """A run: its setup, the captures of the CPUs from 0 up (None for one that isn't there), and
    the text of its filter."""

    @property
    def setup(self) -> str: ...

    @property
    def captures(self) -> Sequence[bytes | None]: ...

    @property
    def listing(self) -> str | None: ...

    def _asdict(self) -> dict[str, Any]: ...


CaseOf = TypeVar("CaseOf", bound=Case)
Faults = Callable[[CaseOf, str, Files, int], Iterator[str]]
Run = Callable[[CaseOf], tuple[Outcome | None, str | None]]


def refused(faults: Faults[CaseOf], outcomes: Iterable[tuple[CaseOf, Outcome]]) -> int:
    """How much is found wrong with outcomes that have to pass. Each stands beside its case."""
    count = 0
    for case, outcome in outcomes:
        for why in faults(case, *outcome):
            count += 1
            print(f"an outcome of the second program is refused: {why}; setup {case.setup!r}")
    return count


def inputs_of(case: Case) -> Files:
    """The setup, the captures and the filter of a case, by the names of their files."""
    inputs = {"conf": case.setup.encode()}
    inputs.update(
        (f"in{cpu}.pcap", data) for cpu, data in enumerate(case.captures) if data is not None
    )
    if case.listing:
        inputs["filter.ddd"] = case.listing.encode()
    return inputs


def save_alone(inputs: Files) -> None:
    """Saves these files in the present folder, and removes all others."""
    for old in os.listdir("."):
        os.remove(old)
    save(".", inputs)


def outcome_of(words: list[str], inputs: Files, **how: Any) -> tuple[Outcome | None, str | None]:
    """The outcome of a run in the present folder, in which these files alone are, and None; or
    None, and what is wrong."""
    ran, why = running.run(words, **how)
    if ran is None:
        return None, why
    if ran.stderr:
        return None, f"standard error: {ran.stderr!r}"
    names = set(os.listdir("."))
    if not names.issuperset(inputs):
        return None, f"it removes {sorted(inputs.keys() - names)}"
    files = {name: Path(name).read_bytes() for name in names.difference(inputs)}
    return (ran.stdout.decode(errors="replace"), files, ran.returncode), None


def found_wrong(faults: Faults[CaseOf], case: CaseOf, run: Run[CaseOf]) -> list[str]:
    """What is wrong with the run of a case."""
    outcome, why = run(case)
    return list(faults(case, *outcome)) if outcome else [str(why)]


def line_difference(expected: str, found: str) -> str:
    """Lines that are expected and lines that are found: those that differ after `-` and `+`."""
    return "\n".join(diff(found, expected, 20))


def shown(case: Case) -> str:
    """A case as it can be read: its texts line by line, and its captures by their sizes."""
    sizes = [None if capture is None else len(capture) for capture in case.captures]
    values = {**case._asdict(), "captures": sizes}
    return "\n".join(f"{name}: {value}".rstrip("\n") for name, value in values.items())


def wrong_runs(kind: str, faults: Faults[CaseOf], cases: Iterable[CaseOf], run: Run[CaseOf]) -> int:
    """How many runs of a kind are wrong, all in one folder. It prints which ones."""
    count, wrong = 0, 0
    with tempfile.TemporaryDirectory() as room:
        before = os.getcwd()
        os.chdir(room)
        for count, case in enumerate(cases, 1):
            found = found_wrong(faults, case, run)
            if found:
                wrong += 1
                print("\n".join([f"run {count}:", *found[:3], shown(case), ""]))
        os.chdir(before)
    print(f"{count} {kind}, {wrong} of them wrong")
    return wrong
