#!/usr/bin/env python3
"""Tests what the scenarios of whole runs say, apart from the code of crates/scenarios that
carries them out in memory.

    scenario.py FILE..                     works out anew what they say, by the second program
    scenario.py --program PROGRAM FILE..   and has a program carry them out as well, over real files

Worked out are the status, the lines, the files, each block, the tries and the notes of each run
that isn't refused, with the calls of the outside that fail in it. Carried out are those in which
none fails and no thread waits for another.
"""
from __future__ import annotations

import difflib
import re
import sys
import tempfile
from collections.abc import Iterator
from dataclasses import dataclass
from pathlib import Path

import running
from second import filter_verdicts
from second import forwards
from second import runs as second_runs
from scenarios.faults import Ended, Given, ended, given_by, has_unread_text, texts_of
from scenarios.texts import Cpu, Lines, Mistake, Scenario, scenarios
from second.frames import Frame
from second.rings import V2_HEADER, Offer, Ring, RingKind, SlotRing
from second.runs import Files, Replay
from second.setup import Setup

REFUSED = (1, 2, 3)  # the statuses of which the second program works nothing out


class NotedRing(Ring):
    """A ring with the letters of its notes, as report_text of crates/scenarios writes them."""

    def __init__(self, setup: Setup) -> None:
        super().__init__(setup)
        self.notes = ""

    def note(self, letter: str, retired: int = 0) -> None:
        """A letter, with the number of the block that was still the reader's where that isn't 1."""
        number = len(self.done) + retired + 1 - self.count
        self.notes += letter + (str(number) if letter in "rdH" and number != 1 else "")

    def try_put(self, offer: Offer) -> bool:
        kept = super().try_put(offer)
        if not kept:
            self.note("r", self.open is not None)
        return kept

    def put(self, offer: Offer) -> bool:
        fitted = self.fits(offer)
        kept = super().put(offer)
        self.note("k" if fitted else "n" if kept else "d")
        return kept

    def tick(self, moment: int) -> None:
        is_due = moment >= self.deadline and self.open != []
        super().tick(moment)
        self.note("t" if not is_due else "T" if self.open == [] else "H")


class NotedSlots(SlotRing):
    """A ring of slots with the letters of its notes; no tick is noted."""

    def __init__(self, setup: Setup) -> None:
        super().__init__(setup)
        self.notes = ""

    def note(self, letter: str) -> None:
        number = len(self.done) + 1 - self.count
        self.notes += letter + (str(number) if letter in "rd" and number != 1 else "")

    def try_put(self, offer: Offer) -> bool:
        kept = super().try_put(offer)
        self.note("n" if kept else "r")
        return kept

    def put(self, offer: Offer) -> bool:
        kept = super().put(offer)
        if not kept:
            self.notes = self.notes[: self.notes.rindex("r")]
            self.note("d")
        return kept


class Logged(Replay):
    """A replay with the tries of each arrival, as report_text of crates/scenarios writes them."""

    rings: list[NotedRing] | list[NotedSlots]

    def __init__(
        self, setup: Setup, captures: list[bytes], program: filter_verdicts.Program | None,
        kind: RingKind
    ) -> None:
        super().__init__(setup, captures, program, kind)
        self.logs = [""] * len(self.frames)

    def arrive(self, cpu: int, frame: Frame) -> None:
        if frame.index != len(self.verdicts[cpu]):
            self.logs[cpu] += f"@{frame.index} "
        self.logs[cpu] += str(self.ticket) if self.setup.mode == "lb" else ""
        super().arrive(cpu, frame)
        self.logs[cpu] += "."

    def deliver(self, cpu: int, offer: Offer, home: int) -> None:
        before = [len(ring.notes) for ring in self.rings]
        super().deliver(cpu, offer, home)
        new = [ring.notes[length:] for ring, length in zip(self.rings, before)]
        members = [(home + step) % len(self.rings) for step in range(len(self.rings))]
        self.logs[cpu] += "".join(
            new[member][0].replace("n", "k") + str(member)
            for member in members if new[member]
        )
        if new[home].startswith("r") and new[home].lstrip("r0123456789").startswith("d"):
            self.logs[cpu] += f"d{home}"

    def line(self, word: str, value: int) -> None:
        super().line(word, value)
        if word == "stats":
            self.rings[value].notes += "c"


@dataclass(frozen=True)
class Run:
    """A run in which no save and no write fails: its status, how many files it fetches, its
    lines, and its files with each block dumped; the tries of its CPUs and the notes of its
    members, where it has a report."""

    status: str
    fetches: int
    lines: str
    files: Files
    cpus: list[Cpu]
    notes: Lines


def with_forwards(setup: Setup, lines: str, files: Files) -> tuple[str, Files]:
    """The lines and the files of a run of `capture`, with what each member sends of it."""
    told, saved = "", {}
    for line in lines.splitlines(keepends=True):
        told += line
        if line.startswith("member "):
            front = f"{setup.prefix}.{line.split()[1]}"
            data, sent, skipped = forwards.sent_of(setup, files[f"{front}.pcap"])
            saved |= (
                {name: found for name, found in files.items() if name.startswith(front)}
                | {f"{front}.tx.pcap": data}
            )
            told += f"forward {line.split()[1]} sent {sent} skipped {skipped}\n"
    return told, saved


def held_schedule(scenario: Scenario, count: int) -> str:
    """The schedule of a run on threads whose one CPU has so many frames, each of which waits
    until blocks are released."""
    schedule, released = "", 0
    for index in range(count):
        for found in re.findall(
            rf"frame 0\.{index} until block 0\.(\d+)$", "\n".join(scenario.values("hold")),
            re.MULTILINE
        ):
            schedule += "read 0\n" * (int(found) - released)
            released = int(found)
        schedule += "feed 0\n"
    return schedule


def sources(scenario: Scenario, setup: Setup) -> tuple[list[Given], str]:
    """What the captures of a run's CPUs give, and its schedule."""
    if scenario.first_word() != "make":
        schedule = (
            scenario.inputs()["sched"].decode() if scenario.first_word() in ("replay", "replay2")
            else ""
        )
        if scenario.values("hold"):
            schedule = held_schedule(scenario, len(scenario.captures()[0][1]))
        return given_by(scenario, [name for name, _ in setup.cpus]), schedule
    made = second_runs.made_captures(setup)
    return [Given(data, False, len(data)) for data in made], second_runs.made_schedule(setup)


def replayed(scenario: Scenario, setup: Setup, given: list[Given], schedule: str) -> Logged:
    """The replay of what captures give."""
    code = filter_verdicts.program(scenario.text("filter")) if setup.filter else None
    kind = NotedSlots if scenario.first_word() == "replay2" else NotedRing
    replay = Logged(setup, [capture.data for capture in given], code, kind)
    replay.ends = ["fault" if capture.is_fault else end for capture, end in zip(given, replay.ends)]
    for line in schedule.splitlines():
        word, value = line.split()
        replay.line(word, int(value))
    replay.finish()
    return replay


def status_of(given: list[Given], ends: Lines) -> str:
    """The status by how captures end: a fault, or else the damage of the first one that has
    some."""
    damages = [(cpu, *end.split()) for cpu, end in enumerate(ends) if end not in ("ok", "fault")]
    if any(capture.is_fault for capture in given):
        return "5 ReadFault"
    if not damages:
        return "0 Fine"
    cpu, word, place = damages[0]
    at = f"({place})" if word not in ("too_large", "bad_magic", "bad_version", "bad_link") else ""
    return f"4 Damaged {{ cpu: {cpu}, fault: {word.title().replace('_', '')}{at} }}"


def worked_run(scenario: Scenario, setup: Setup) -> Run:
    """A run of members. Ticks on threads are left out, as they are where such runs are compared."""
    given, schedule = sources(scenario, setup)
    replay = replayed(scenario, setup, given, schedule)
    lines, files = "".join(replay.lines()), replay.files()
    if scenario.first_word() == "forward":
        lines, files = with_forwards(setup, lines, files)
    cpus = [Cpu(log, capture.size) for log, capture in zip(replay.logs, given)]
    notes = [ring.notes + "." for ring in replay.rings]
    fetches = len(texts_of(scenario)) + (len(given) if scenario.first_word() != "make" else 0)
    return Run(status_of(given, replay.ends), fetches, lines, files, cpus, notes)


def sent_run(scenario: Scenario, setup: Setup) -> Run:
    """A run of `send`."""
    (given,) = given_by(scenario, [setup.cpus[0][0]])
    lines, files = second_runs.send(setup, given.data)
    first, rest = lines.split("\n", 1)
    front, end = first.split(" end ")
    return Run(
        status_of([given], [end]), 2, f"{front} end {'fault' if given.is_fault else end}\n{rest}",
        files, [], []
    )


def worked_out(scenario: Scenario) -> Run:
    if has_unread_text(scenario):
        return Run("5 ReadFault", len(texts_of(scenario)), "read fault\n", {}, [], [])
    setup = Setup(scenario.text("conf", "with") + "dump yes\n")
    return sent_run(scenario, setup) if scenario.first_word() == "send" else worked_run(
        scenario, setup
    )


def end_of(scenario: Scenario, run: Run) -> Ended:
    """How a run ends with its saves and its writes, of which some may fail."""
    is_dumped = "dump yes" in scenario.text("conf", "with")
    files = {
        name: data for name, data in run.files.items() if is_dumped or not name.endswith(".blk")
    }
    return ended(scenario, run.lines, files, run.status, run.fetches)


def parts_of(dump: bytes, is_slots: bool) -> Iterator[tuple[int, int]]:
    """The status and the length of each block of a dump, or of each slot up to the end of its
    packet."""
    status_at, length_at, more = (0, 8, V2_HEADER) if is_slots else (8, 20, 0)
    while dump:
        status = int.from_bytes(dump[status_at : status_at + 4], "little")
        length = int.from_bytes(dump[length_at : length_at + 4], "little") + more
        yield status, length
        dump = dump[length:]


def same_lines(said: str, found: str) -> bool:
    """Whether lines are as said, where `*` stands for any one word."""
    if "*" not in said:
        return said == found
    pairs = [
        (one.split(), other.split()) for one, other in zip(said.splitlines(), found.splitlines())
    ]
    words = [(one, other) for ones, others in pairs for one, other in zip(ones, others)]
    same = all(len(ones) == len(others) for ones, others in pairs) and all(
        one in ("*", other) for one, other in words
    )
    return same and said.count("\n") == found.count("\n")


def other_lines(scenario: Scenario, found: str) -> Iterator[str]:
    """The printed lines that aren't as said, each with the line of the file that says it."""
    said = scenario.printed()
    if same_lines(said, found):
        return
    numbers = [str(line.number) for line in scenario.printed_by()]
    width = len(max(numbers, key=len, default="0"))
    ours, theirs = said.splitlines(), found.splitlines()
    yield "other lines are printed"
    for kind, first, last, start, end in difflib.SequenceMatcher(
        None, ours, theirs, False
    ).get_opcodes():
        signs = [(" ", first, last)] if kind == "equal" else [("-", first, last)]
        for sign, low, high in signs:
            yield from (
                f"{(numbers[at : at + 1] or ['']) [0]:>{width}} {sign} {ours[at]}"
                for at in range(low, high)
            )
        if kind != "equal":
            yield from (f"{'':>{width}} + {theirs[at]}" for at in range(start, end))


def other_files(scenario: Scenario, files: Files) -> Iterator[str]:
    """The files that are there and must not be, or hold other bytes than is said, as far as they
    have to be there."""
    parts, absent = scenario.parts(), scenario.absent()
    yield from (f"{name} is there" for name in absent if name in files)
    yield from (
        f"{name} has other bytes" for name,
        length in parts.items() if len(files.get(name, b"")) != length
    )
    members = [(f"out.{at}.pcap", member.output) for at, member in enumerate(scenario.members())]
    for name, data in [*members, *scenario.sent()]:
        if name not in absent and files.get(name) != data[: parts.get(name, len(data))]:
            yield f"another {name}"


def other_blocks(scenario: Scenario, files: Files) -> Iterator[str]:
    """The dumps, where they are there, that aren't made of the blocks that are said."""
    for at, member in enumerate(scenario.members()):
        dump = files.get(f"out.{at}.blk")
        parts = list(parts_of(dump or b"", scenario.first_word() == "replay2"))
        if dump is not None and parts != member.blocks:
            yield f"blocks {parts} of out.{at}.blk"


def other_bytes(scenario: Scenario, files: Files) -> Iterator[str]:
    """The places of files, where they are there, at which other bytes stand."""
    for name, at, data, said in scenario.places():
        if name in files and (found := files[name][at : at + len(data)]) != data:
            yield f"{said}: at {at} there are the bytes {found.hex() or 'of no file'}"


def other_report(scenario: Scenario, run: Run) -> Iterator[str]:
    """What of tries and notes isn't as said."""
    if scenario.has_report() and run.cpus != scenario.cpus():
        yield f"tries {run.cpus}"
    if scenario.has_report() and run.notes != [member.notes for member in scenario.members()]:
        yield f"notes {run.notes}"
    if (
        scenario.value("report") != "any" and scenario.status() != 7
        and bool(run.cpus) != scenario.has_report()
    ):
        yield "a report that isn't there, or one that isn't said"


def second_differs(scenario: Scenario) -> Iterator[str]:
    """What is worked out in another way."""
    run = worked_out(scenario)
    end = end_of(scenario, run)
    if not end.status.startswith(scenario.value("status", "0 Fine")):
        yield f"status {end.status}"
    yield from other_lines(scenario, end.printed)
    yield from other_files(scenario, end.files)
    yield from other_blocks(scenario, run.files)
    yield from other_bytes(scenario, run.files)
    yield from other_report(scenario, run)


def program_differs(scenario: Scenario, program: Path, more: str) -> Iterator[str]:
    """What a program answers in another way, with further lines in its setup."""
    end = carried_out(scenario, program, more)
    if end.status != str(scenario.status()):
        yield f"status {end.status}"
    yield from other_lines(scenario, end.printed)
    for differing in (other_files, other_blocks, other_bytes):
        yield from differing(scenario, end.files)


def carried_out(scenario: Scenario, program: Path, more: str) -> Ended:
    """The status of a program over real files, what it prints and what it saves."""
    with tempfile.TemporaryDirectory() as folder:
        room = Path(folder)
        for name, data in scenario.inputs().items():
            (room / name).write_bytes(data + (more.encode() if name == "conf" else b""))
        ran, why = running.run([program, *scenario.command()], cwd=room)
        if ran is None:
            return Ended(str(why), "", {})
        return Ended(
            str(ran.returncode), ran.stdout.decode(),
            {path.name: path.read_bytes() for path in room.iterdir()}
        )


def can_be_worked_out(scenario: Scenario) -> bool:
    """Whether it is a run that isn't refused, or a text of it can't be read. Of threads that
    wait for each other there is one feeder and one reader."""
    is_wide = len(scenario.captures()) > 1 or len(scenario.members()) > 1
    if scenario.status() in REFUSED or scenario.values("hold") and is_wide:
        return False
    return scenario.first_word() != "check" or has_unread_text(scenario)


def can_be_carried_out(scenario: Scenario) -> bool:
    """Whether a run is told in which nothing of the outside fails, by a program with threads."""
    return not any(
        scenario.values(word)
        for word in ("fail", "half", "faults", "poor", "hold", "plain")
    )


def differences(scenario: Scenario, program: Path | None) -> Iterator[str]:
    """What of a scenario is otherwise."""
    if can_be_worked_out(scenario):
        yield from after("the second program", second_differs(scenario))
    if program and can_be_carried_out(scenario):
        yield from differs_either_way(scenario, program)


def differs_either_way(scenario: Scenario, program: Path) -> list[str]:
    """What of a scenario a program does otherwise: with its blocks dumped, where it has members,
    and where nothing differs as it is."""
    is_dumped = "dump yes" in scenario.text("conf", "with")
    found: list[str] = []
    if scenario.values("member") and not is_dumped:
        dumped = program_differs(scenario, program, "dump yes\n")
        found = list(after("the program, dumped", dumped))
    return found or list(after("the program", program_differs(scenario, program, "")))


def after(who: str, faults: Iterator[str]) -> Iterator[str]:
    """The faults, the first of them after whose they are."""
    found = list(faults)
    return ((f"{who}: " if at == 0 else "    ") + fault for at, fault in enumerate(found))


def checked(scenario: Scenario, program: Path | None) -> list[str]:
    """What of a scenario is otherwise, or why it can't be worked out."""
    try:
        return list(differences(scenario, program))
    except (LookupError, ValueError) as why:
        return [f"it can't be worked out: {why.args[0]}"]


def is_readable(scenario: Scenario) -> bool:
    """Whether the values of its files can be read."""
    try:
        scenario.inputs()
    except (LookupError, ValueError):
        return False
    return True


def compare(path: Path, program: Path | None) -> int:
    """How many of a file's scenarios differ."""
    found = scenarios(path)
    differing = 0
    for scenario in found:
        faults = checked(scenario, program)
        differing += bool(faults)
        for at, fault in enumerate(faults):
            print(
                f"{path}:{scenario.name.number}: {scenario.name}: {fault}" if at == 0
                else f"    {fault}"
            )
    worked = sum(is_readable(scenario) and can_be_worked_out(scenario) for scenario in found)
    carried = sum(map(can_be_carried_out, found)) if program else 0
    print(
        f"{path.name}: {len(found)} scenarios, {worked} worked out, {carried} carried out, "
        f"{differing} differ"
    )
    return differing


def main(words: list[str]) -> None:
    program = None
    if words[:1] == ["--program"]:
        program, words = Path(words[1]).resolve(), words[2:]
    if not words:
        sys.exit(__doc__)
    try:
        sys.exit(1 if sum([compare(Path(word), program) for word in words]) else 0)
    except Mistake as mistake:
        sys.exit(str(mistake))


if __name__ == "__main__":
    main(sys.argv[1:])
