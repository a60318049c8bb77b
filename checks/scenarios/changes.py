"""Scenarios of which one number is changed, and what the built program of crates/scenario_runs
says of each.

Each line of a scenario that says what comes of its command is changed in one number at a time,
and the scenario carried out with it: the runner has to name it."""
from __future__ import annotations

import functools
import os
import re
import subprocess
import tempfile
from collections.abc import Iterable, Iterator
from dataclasses import dataclass
from pathlib import Path

import pytest

from places import TOP
from scenarios.texts import Document, Lines, Mistake, Scenario

EXPECTED = ("status", ">", "taken", "cpu", "member", "sent", "file", "fields", "part")
LIMIT = 150_000  # the bytes of a file that the runner reads at once
TIME = 300  # the seconds in which it has to end
RUNNER = Path(
    os.environ.get("SCENARIO_RUNS", TOP / "crates/scenario_runs/out/scenario_runs")
).resolve()


@functools.cache
def runner() -> Path:
    if not RUNNER.is_file():
        pytest.fail(
            f"{RUNNER} isn't built: `rt run` in crates/scenario_runs builds it, and SCENARIO_RUNS "
            "names another"
        )
    return RUNNER


@dataclass(frozen=True)
class Changed:
    """A scenario that stands alone, with what is changed in it."""

    name: str
    what: str
    lines: Lines

    def text(self, number: int) -> str:
        return "\n".join([f"{number} {self.name}", *self.lines]) + "\n"


def whole(scenario: Scenario) -> Lines:
    """All lines of a scenario, with those of the ones that it is like."""
    lines: Lines = []
    seen: set[str] = {"like", "base"}
    for layer in scenario.layers:
        words = [line.split()[0] for line in layer]
        lines += [line for line, word in zip(layer, words) if word not in seen]
        seen |= set(words)
    return lines


def is_compared(scenario: Scenario, line: str) -> bool:
    """Whether the numbers of a line of what is expected are compared: of a run without a report
    those of its CPUs and notes aren't."""
    return line.split()[0] in EXPECTED and (line.split()[0] != "cpu" or scenario.has_report())


def is_fixed(line: str, at: int, scenario: Scenario) -> bool:
    """Whether a place stands in the notes of a member of a run without a report."""
    return (
        line.split()[0] == "member" and not scenario.has_report() and at < line.find(" kept ")
        and at > len("  member  0")
    )


def greater(digits: str) -> str:
    return str(int(digits) + 1).zfill(len(digits))


def first_place(line: str) -> int:
    """The place after the word of a line; after the name of what was sent, whose other name may
    be another file's, and after the place of bytes, which may be the same beside it."""
    words = {"sent": 2, "file": 3, "fields": 4}.get(line.split()[0], 1)
    found = re.match(rf"\s*(?:\S+\s*){{{words}}}", line)
    return found.end() if found else len(line)


def changed_bytes(line: str) -> Iterator[str]:
    """A line `file` with each of its words of bytes changed in its last digit."""
    for found in re.finditer(r"[0-9a-f]+", line[first_place(line) :]):
        last = first_place(line) + found.end() - 1
        yield line[:last] + ("0" if line[last] != "0" else "1") + line[last + 1 :]


def changed_numbers(line: str, scenario: Scenario) -> Iterator[str]:
    """A line with each of its numbers made greater by one."""
    if line.split()[0] == "file":
        yield from changed_bytes(line)
        return
    for found in re.finditer(r"\d+", line):
        if found.start() >= first_place(line) and not is_fixed(line, found.start(), scenario):
            yield line[: found.start()] + greater(found[0]) + line[found.end() :]


def changes(scenario: Scenario) -> Iterator[Changed]:
    """A scenario with each number of its own lines changed."""
    lines = whole(scenario)
    for at in range(len(scenario.layers[0])):
        line = scenario.layers[0][at]
        if is_compared(scenario, line):
            place = lines.index(line)
            for other in changed_numbers(line, scenario):
                yield Changed(
                    scenario.name, f"{line.strip()} -> {other.strip()}",
                    [*lines[:place], other, *lines[place + 1 :]]
                )


def batches(every: Iterable[Changed]) -> Iterator[list[Changed]]:
    """Parts of so many scenarios as fit into a file."""
    batch: list[Changed] = []
    size = 0
    for one in every:
        size += len(one.text(0))
        if size > LIMIT:
            yield batch
            batch, size = [], len(one.text(0))
        batch.append(one)
    yield batch


def named(runner: Path, batch: list[Changed]) -> set[int]:
    """The numbers of the scenarios that the runner names."""
    with tempfile.TemporaryDirectory() as room:
        (Path(room) / "changed.txt").write_text(
            "\n".join(one.text(at) for at, one in enumerate(batch)), encoding="ascii"
        )
        ran = subprocess.run(
            [runner, "said", "changed.txt"], cwd=room, capture_output=True, timeout=TIME,
            check=False
        )
    if f"changed.txt: {len(batch)} scenarios" not in ran.stdout.decode():
        raise ValueError(
            f"the runner didn't read {len(batch)} scenarios: {ran.stdout[-400:]!r} "
            f"{ran.stderr[-400:]!r}"
        )
    return {
        int(number)
        for number in re.findall(r"^changed\.txt:\d+: (\d+) ", ran.stdout.decode(), re.MULTILINE)
    }


def mistake(one: Changed) -> str:
    """What is wrong with the text of a scenario; empty where nothing is."""
    try:
        Document(Path("changed.txt"), one.text(0)).scenarios()
    except Mistake as found:
        return str(found)
    return ""


def is_told(runner: Path, one: Changed, what: str) -> bool:
    """Whether the runner tells the same of a scenario whose text is wrong."""
    with tempfile.TemporaryDirectory() as room:
        (Path(room) / "changed.txt").write_text(one.text(0), encoding="ascii")
        ran = subprocess.run(
            [runner, "said", "changed.txt"], cwd=room, capture_output=True, timeout=TIME,
            check=False
        )
    return ran.stdout.decode() == what + "\n"


def wrong(runner: Path, every: Iterable[Changed], is_noticed: bool) -> list[str]:
    """The scenarios that the runner takes in another way than it has to. A number that makes a
    text wrong is noticed by the sentence that tells it."""
    said = "not noticed" if is_noticed else "differs unchanged"
    found, readable = [], []
    for one in every:
        what = mistake(one)
        if not what:
            readable.append(one)
        elif not is_noticed or not is_told(runner, one, what):
            found.append(f"{what}: {one.name}: {one.what}")
    for batch in batches(readable):
        names = named(runner, batch)
        found += [
            f"{said}: {one.name}: {one.what}" for at,
            one in enumerate(batch) if (at in names) != is_noticed
        ]
    return found
