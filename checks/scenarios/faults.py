"""What comes of a scenario's run where calls of the outside fail: which texts can't be read, how
much each capture gives, which files are there afterwards, what is printed, and the number of the
status.

A command fetches its texts and then its captures, saves the files of each member, and prints at
last. The first text that can't be read ends it. Memory that is refused to a call ends it with
status 7, a save or a write that fails makes the status 6, a capture that can't be read 5, and
one that is damaged or cut 4; of these the first one counts.
"""
from __future__ import annotations

from collections.abc import Iterator
from dataclasses import dataclass

from second.capture_frames import frames_of
from scenarios.texts import Lines, Scenario

WRITTEN = 50  # the bytes that one write takes where writes are counted
WHOLE = 65_536  # the bytes that one read gives at most


@dataclass(frozen=True)
class Given:
    """What a capture gives: its bytes, the word for how it ends where a read fails, and how many
    bytes were read."""

    data: bytes
    is_fault: bool
    size: int


@dataclass(frozen=True)
class Ended:
    """The status, by its number and its `Debug` text as far as these are known; what is printed,
    and the files afterwards."""

    status: str
    printed: str
    files: dict[str, bytes]


def numbers(scenario: Scenario, word: str, what: str) -> list[int]:
    """The numbers of the calls after a word and the kind of call."""
    values = [value.split() for value in scenario.values(word)]
    return [int(number) for first, *rest in values if first == what for number in rest]


def named_in(scenario: Scenario, word: str) -> Lines:
    """The file that the setup names by a word, if it does."""
    found = [
        line.split()[1]
        for line in scenario.text("conf", "with").splitlines() if line.split()[0] == word
    ]
    return found[-1:]


def texts_of(scenario: Scenario) -> Lines:
    """The texts that a command fetches, in order."""
    moments = named_in(scenario, "ticks")
    more = {
        "check": named_in(scenario, "filter") + moments,
        "replay": named_in(scenario, "filter") + scenario.command()[2:],
        "replay2": named_in(scenario, "filter") + scenario.command()[2:],
        "make": named_in(scenario, "filter"),
        "send": [],
        "capture": named_in(scenario, "filter") + moments,
        "forward": named_in(scenario, "filter") + moments,
    }
    return scenario.command()[1:2] + more[scenario.first_word()]


def piece_of(scenario: Scenario, name: str) -> int:
    return int(scenario.named("pieces").get(name, WHOLE))


def has_unread_text(scenario: Scenario) -> bool:
    """Whether a text isn't there, or a fetch or a read of it fails. The last read of a text
    gives nothing."""
    inputs, fetches = scenario.inputs(), numbers(scenario, "fail", "fetch")
    for at, name in enumerate(texts_of(scenario), 1):
        reads = -(-len(inputs.get(name, b"")) // piece_of(scenario, name)) + 1
        if (
            name not in inputs or at in fetches
            or any(number <= reads for number in numbers(scenario, "fail", name))
        ):
            return True
    return False


def is_damage(end: str) -> bool:
    """Whether a capture that ends with this word isn't read to its end."""
    return not end.startswith(("ok", "truncated", "too_large"))


def read_of(scenario: Scenario, name: str, data: bytes) -> Given:
    """What the reads of a capture give until one fails, or damage is found after which nothing
    is read."""
    piece, failing = piece_of(scenario, name), numbers(scenario, "fail", name)
    if not failing and not is_damage(frames_of(data)[1]):
        return Given(data, False, len(data))
    for number in range(1, len(data) // piece + 3):
        before = data[: piece * (number - 1)]
        if is_damage(frames_of(before)[1]):
            return Given(before, False, len(before))
        if number in failing:
            return Given(before, True, len(before))
    return Given(data, False, len(data))


def given_by(scenario: Scenario, names: Lines) -> list[Given]:
    """What the captures of these names give, which are fetched after the texts."""
    inputs, fetches, first = (
        scenario.inputs(), numbers(scenario, "fail", "fetch"), len(texts_of(scenario)) + 1
    )
    return [
        Given(b"", True, 0) if first + at in fetches else read_of(
            scenario, name, inputs[name]
        ) for at,
        name in enumerate(names)
    ]


def poor_call(scenario: Scenario, calls: int) -> int | None:
    """The fetch or save, counted together from 1, that is out of memory."""
    return next((number for number in numbers(scenario, "poor", "call") if number <= calls), None)


def saved(scenario: Scenario, files: dict[str, bytes], count: int) -> Iterator[tuple[str, bytes]]:
    """The first files as they are after their saves, of which some fail and leave a part."""
    halves = {int(number): int(left) for _, number, left in map(str.split, scenario.values("half"))}
    failing = numbers(scenario, "fail", "save")
    for at, (name, data) in enumerate(list(files.items())[:count], 1):
        if at not in failing:
            yield name, data[: halves.get(at, len(data))]


def has_unsaved(scenario: Scenario, count: int) -> bool:
    halves = [int(value.split()[1]) for value in scenario.values("half")]
    return any(number <= count for number in numbers(scenario, "fail", "save") + halves)


def ended(
    scenario: Scenario, lines: str, files: dict[str, bytes], status: str, fetches: int
) -> Ended:
    """How a run ends that prints these lines and saves these files, in order, where none of this
    fails."""
    writes, none = -(-len(lines) // WRITTEN), len(lines) + 1
    poor = poor_call(scenario, fetches + len(files))
    left = dict(saved(scenario, files, len(files) if poor is None else max(0, poor - fetches - 1)))
    poor_write = next(
        (number for number in numbers(scenario, "poor", "write") if number <= writes), none
    )
    failing = next(
        (number for number in numbers(scenario, "fail", "write") if number <= writes), none
    )
    if poor is not None:
        return Ended("7 Memory", "out of memory\n", left)
    if poor_write < failing:
        return Ended("7 Memory", lines[: WRITTEN * (poor_write - 1)] + "out of memory\n", left)
    if failing < none:
        return Ended("6 WriteFault", lines[: WRITTEN * (failing - 1)], left)
    return Ended("6 WriteFault" if has_unsaved(scenario, len(files)) else status, lines, left)
