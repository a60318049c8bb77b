"""Rings of a grid, each run at several phases of the timer, and the least one that loses
nothing."""
from __future__ import annotations

import os
import threading
import time
from concurrent.futures import ThreadPoolExecutor
from dataclasses import dataclass, replace
from fractions import Fraction
from pathlib import Path
from typing import Callable

from .captures import LARGEST_CAPTURE, CaptureStream, CaptureWriter
from .clock import Pace, Shape
from .files import Fault
from .outputs import write_text
from .runs import MemberReport, Progress, Report, Room, say_how_long
from .schedule import DEFAULT_TIMEOUT, Fed, Reads, schedule_of

PAGE, LARGEST_BLOCK = 4096, 1_048_576  # bytes
LARGEST_RING, MOST_BLOCKS, MOST_SLOTS = 67_108_864, 256, 65_536
LEAST_BLOCKS = 2
LEAST_FRAME, FRAME_STEP = 80, 16  # bytes: a setup has no smaller slots, and multiples alone
ROLLOVER = "+rollover"  # after a mode, where the flag is set
RESERVED = 4  # bytes that libpcap has besides before each packet's data


@dataclass(frozen=True)
class Kind:
    """What rings consist of: the command that replays them, and words for what is counted there
    of rings that aren't large enough."""

    unit: str
    command: str
    counted: str  # the number of a run's report
    suffices: str  # of one ring
    suffice: str  # of several blocks or slots
    fails: str
    fail: str


BLOCKS = Kind("block", "replay", "freezes", "never freezes", "never freeze", "freezes", "freeze")
SLOTS = Kind(
    "slot", "replay2", "drops", "loses nothing", "lose nothing", "loses packets", "lose packets"
)


@dataclass(frozen=True)
class Ring:
    """One place of the grid."""

    mode: str
    members: int
    timeout: int  # milliseconds, as the setup says it
    block_size: int
    block_nr: int
    frame_size: int
    is_v2: bool = False

    @property
    def kind(self) -> Kind:
        return SLOTS if self.is_v2 else BLOCKS

    @property
    def unit_size(self) -> int:
        """The bytes of a block, or of a slot."""
        return self.frame_size if self.is_v2 else self.block_size

    @property
    def memory(self) -> int:
        return self.block_size * self.block_nr * self.members

    @property
    def slots(self) -> int:
        return self.block_size // self.frame_size * self.block_nr

    @property
    def fits(self) -> bool:
        """Whether ringtap has such a ring."""
        is_within = self.block_nr <= MOST_BLOCKS and self.block_size * self.block_nr <= LARGEST_RING
        return is_within and not (self.is_v2 and self.slots > MOST_SLOTS)

    def blocks_for(self, count: int) -> int:
        """How many blocks have so many blocks, or slots: two at least."""
        each = self.block_size // self.frame_size if self.is_v2 else 1
        return max(LEAST_BLOCKS, -(-count // each))

    def words(self) -> str:
        members = "" if self.members == 1 else f", {self.members} members by {self.mode}"
        if self.is_v2:
            return (
                f"{self.slots} slots of {self.frame_size} bytes, in {self.block_nr} blocks of"
                f" {self.block_size} bytes{members}"
            )
        return (
            f"{self.block_nr} blocks of {self.block_size} bytes{members}, time-out"
            f" {self.timeout or DEFAULT_TIMEOUT} ms"
        )

    def line_words(self) -> str:
        """What a ring is but for its number of blocks, or slots."""
        members = "" if self.members == 1 else f", {self.members} members by {self.mode}"
        timeout = "" if self.is_v2 else f", time-out {self.timeout or DEFAULT_TIMEOUT} ms"
        return f"{self.kind.unit}s of {self.unit_size} bytes{members}{timeout}"

    def shape(self) -> Shape:
        """What a schedule has to know; one schedule does for every number of blocks."""
        if self.is_v2:
            return Shape(self.members, self.frame_size, MOST_SLOTS, None)
        return Shape(self.members, self.block_size, MOST_BLOCKS, self.timeout or DEFAULT_TIMEOUT)


def just(ring: Ring, count: int, keeps_size: bool) -> Ring | None:
    """The ring with just so many blocks, or slots; None where no setup has it. Slots may have
    another size, on which no loss depends, unless that is to be kept."""
    if not ring.is_v2:
        one = replace(ring, block_nr=count)
        return one if count >= LEAST_BLOCKS and one.fits else None
    numbers = (blocks for blocks in range(LEAST_BLOCKS, MOST_BLOCKS + 1) if count % blocks == 0)
    found = (slots_in(ring, blocks, count // blocks, keeps_size) for blocks in numbers)
    return next((one for one in found if one), None)


def slots_in(ring: Ring, blocks: int, each: int, keeps_size: bool) -> Ring | None:
    """The ring with so many blocks, each with so many slots; None where no setup has it."""
    for size in range(PAGE, LARGEST_BLOCK + 1, PAGE) if each else ():
        frame_size = ring.frame_size if keeps_size else size // each // FRAME_STEP * FRAME_STEP
        if LEAST_FRAME <= frame_size and size // frame_size == each:
            one = replace(ring, block_size=size, block_nr=blocks, frame_size=frame_size)
            if one.fits:
                return one
    return None


@dataclass(frozen=True)
class KeyRange:
    """The fewest and the most packets that a ring loses at some phases of the timer: under the
    setup's key, and under that and further ones."""

    own: tuple[int, int]
    all: tuple[int, int]
    phases: int  # how many

    def words(self, ring: Ring, count: int) -> str:
        return (
            f"{ring.block_nr} blocks lose {span_words(self.own)} packets under the setup's key, and"
            f" {span_words(self.all)} under it and {count} further ones, at {self.phases} phases of"
            " the timer"
        )


def tried_words(has_timer: bool, has_beginnings: bool) -> str:
    """Of what every whole millisecond was tried: of the timer, of the reader's beginning."""
    tried = ["of the timer"] * has_timer + ["of the reader's beginning"] * has_beginnings
    return f", at every whole millisecond {' and '.join(tried)}" if tried else ""


def span_words(span: tuple[int, int]) -> str:
    fewest, most = span
    return f"{most:,}" if fewest == most else f"{fewest:,} to {most:,}"


@dataclass(frozen=True)
class Result:
    """A ring, and what the program printed at each phase."""

    ring: Ring
    phases: tuple[int, ...]  # milliseconds
    reports: tuple[Report, ...]
    drops_by_phase: tuple[int, ...] = ()  # at every phase, by the tools' own model
    key: str | None = None  # under which the worst run was, where it isn't the setup's
    begin: int | None = None  # of the reader, milliseconds, where it isn't that of the pace
    never_freezes: bool | None = None  # at any phase, where that was looked at
    by_keys: KeyRange | None = None  # of mode hash

    @property
    def suffices(self) -> bool:
        """A ring that loses nothing doesn't where it was seen that it freezes."""
        return not self.drops if self.never_freezes is None else self.never_freezes

    @property
    def worst(self) -> Report:
        """Of the first phase that loses most."""
        return max(self.reports, key=lambda report: report.drops)

    @property
    def worst_phase(self) -> int:
        return self.phases[self.reports.index(self.worst)]

    @property
    def drops(self) -> int:
        return self.worst.drops

    @property
    def fewest(self) -> int:
        return min(report.drops for report in self.reports)


def changes_of(ring: Ring, has_flag: bool, prefix: str | None = None) -> dict[str, str | None]:
    """The lines by which a ring of the grid differs from a setup."""
    mode = ring.mode.removesuffix(ROLLOVER)
    changes: dict[str, str | None] = {
        "block_size": str(ring.block_size),
        "block_nr": str(ring.block_nr),
        "frame_size": str(ring.frame_size),
        "frame_nr": str(ring.slots),
        "members": str(ring.members),
        "mode": mode,
    }
    if not ring.is_v2:
        changes["tov"] = str(ring.timeout)
    if ring.mode.endswith(ROLLOVER) or has_flag:
        changes["flag rollover"] = "" if ring.mode.endswith(ROLLOVER) else None
    return {**changes, "out": prefix, "dump": None} if prefix else changes


def begun(pace: Pace, begin: int | None) -> Pace:
    """A reader that makes its first step so many milliseconds after the first frame."""
    return pace if begin is None else replace(pace, begin=Fraction(begin))


class Trials:
    """Runs rings, each at every phase. What the runs save goes nowhere, save that of `saved`."""

    def __init__(self, room: Room, fed: Fed, pace: Pace, phases: int, jobs: int) -> None:
        self.room, self.fed, self.pace, self.phases, self.jobs = room, fed, pace, phases, jobs
        self.has_flag = "rollover" in room.setup.flags
        self.schedules: dict[tuple, str] = {}
        # where they depend on the ring
        self.reads: Callable[[Ring, int, str | None], Reads] | None = None
        self.lock = threading.Lock()
        self.count = 0
        self.captures: list[str] | None = None  # other names than the room's
        self.reserved = 0  # bytes by which the frames of these are longer
        for member in range(8):
            if not (room.folder / f"nowhere.{member}.pcap").is_symlink():
                (room.folder / f"nowhere.{member}.pcap").symlink_to(os.devnull)

    def phases_of(self, ring: Ring) -> tuple[int, ...]:
        """By how many milliseconds the timer was started before the first frame."""
        every = ring.timeout or DEFAULT_TIMEOUT
        every = every if self.pace.tick is None else self.pace.tick
        if ring.is_v2 or not every:
            return (0,)
        return tuple(sorted({every * number // self.phases for number in range(self.phases)}))

    def schedule(self, ring: Ring, phase: int, key: str | None, begin: int | None) -> str:
        """The name of the schedule for a ring."""
        with self.lock:
            place = (ring, phase, key) if self.reads else (ring.shape(), phase, begin)
            if place not in self.schedules:
                name = f"schedule{len(self.schedules)}"
                reads = self.reads(ring, phase, key) if self.reads else None
                pace = replace(begun(self.pace, begin), phase=Fraction(phase))
                write_text(
                    self.room.folder / name, schedule_of(self.fed, pace, ring.shape(), reads)
                )
                self.schedules[place] = name
            return self.schedules[place]

    def run(
        self,
        ring: Ring,
        phase: int,
        prefix: str = "nowhere",
        key: str | None = None,
        begin: int | None = None,
    ) -> Report:
        """A run at a phase, and where a key is given under that one; where a beginning is given the
        reader begins then."""
        with self.lock:
            self.count += 1
            setup = f"setup{self.count}"
        schedule = self.schedule(ring, phase, key, begin)
        changes = changes_of(ring, self.has_flag, prefix) | ({"key": key} if key else {})
        self.room.write_setup(setup, changes, self.captures)
        report = self.room.replay(setup, schedule, ring.kind.command)
        (self.room.folder / setup).unlink()
        return report

    def run_all(self, rings: list[Ring]) -> list[Result]:
        wanted = [(ring, phase) for ring in rings for phase in self.phases_of(ring)]
        progress, reports, begin = Progress(len(wanted), "runs"), [], time.monotonic()
        with ThreadPoolExecutor(self.jobs) as pool:
            waiting = [pool.submit(self.run, *one) for one in wanted]
            try:
                for one in waiting:
                    reports.append(one.result())
                    if len(reports) == 1:
                        each = (time.monotonic() - begin) / self.jobs
                        say_how_long(f"{len(wanted)} runs", each * len(wanted))
                    progress.step()
            except BaseException:
                pool.shutdown(cancel_futures=True)
                raise
        given = iter(reports)
        return [
            Result(ring, self.phases_of(ring), tuple(next(given) for _ in self.phases_of(ring)))
            for ring in rings
        ]

    def doubled(self, rings: list[Ring]) -> list[Result]:
        """Doubles the number of blocks of each ring until one loses nothing, and once more, or as
        far as ringtap goes."""
        results: list[Result] = []
        while rings:
            made = self.run_all(rings)
            results += made
            smaller = {
                replace(result.ring, block_nr=0): result for result in results if result not in made
            }
            rings = []
            for result in made:
                before = smaller.get(replace(result.ring, block_nr=0))
                larger = replace(result.ring, block_nr=2 * result.ring.block_nr)
                if larger.fits and (result.drops or before is None or before.drops):
                    rings.append(larger)
        return [result for line in lines_of(results) for result in line]

    def halved(self, results: list[Result]) -> list[Result]:
        """Goes on, along each line of rings that differ in the number of blocks alone, between the
        last one that loses and the first larger one that doesn't, until the two are neighbours.
        Gives all results, in the order of the grid."""
        while True:
            middles = [middle for line in lines_of(results) if (middle := middle_of(line))]
            if not middles:
                return [result for line in lines_of(results) for result in line]
            results = results + self.run_all(middles)

    def kept_bytes(self, result: Result) -> list[int]:
        """The bytes on the wire that each member kept, of the worst phase: the run is made again,
        and its captures are read."""
        self.run(result.ring, result.worst_phase, "saved", result.key, result.begin)
        paths = [self.room.folder / f"saved.{member}.pcap" for member in range(result.ring.members)]
        sums = [
            sum(frame.wire - self.reserved for frame in CaptureStream(path, None)) for path in paths
        ]
        for path in paths:
            path.unlink()
        return sums


def longer(stream: CaptureStream, path: Path) -> str:
    """Writes a capture whose frames have some bytes more."""
    try:
        with open(path, "wb") as file:
            writer = CaptureWriter(file)
            for frame in stream:
                writer.write(
                    frame._replace(wire=frame.wire + RESERVED, data=frame.data + bytes(RESERVED))
                )
    except OSError as error:
        raise Fault(f"{path}: can't be written: {error.strerror}") from None
    return path.name


def repeat(room: Room, count: int) -> None:
    """Makes the captures come several times, each time right after the last frame."""
    names = []
    for cpu, stream in enumerate(room.streams()):
        name, frames = f"looped{cpu}.pcap", list(stream)
        start = frames[0].time if frames else 0
        length = max((frame.time for frame in frames), default=start) - start
        with open(room.folder / name, "wb") as file:
            writer = CaptureWriter(file)
            for turn in range(count):
                for frame in frames:
                    writer.write(frame._replace(time=frame.time + turn * length))
                if file.tell() > LARGEST_CAPTURE:
                    size = "more than the 32 MiB that ringtap reads"
                    raise Fault(f"--loop: {turn + 1} times {stream.path} is {size}")
        names.append(name)
    room.captures = names


def lines_of(results: list[Result]) -> list[list[Result]]:
    """The results whose rings differ in the number of blocks alone, by rising numbers."""
    lines: dict[Ring, list[Result]] = {}
    for result in results:
        lines.setdefault(replace(result.ring, block_nr=0), []).append(result)
    return [sorted(line, key=lambda result: result.ring.block_nr) for line in lines.values()]


def middle_of(line: list[Result]) -> Ring | None:
    """A ring halfway between the last one that loses and the next; None where there is none
    between."""
    losing = [result.ring.block_nr for result in line if result.drops]
    larger = [
        result.ring.block_nr for result in line if losing and result.ring.block_nr > losing[-1]
    ]
    if not larger or larger[0] - losing[-1] < 2:
        return None
    return replace(line[0].ring, block_nr=(losing[-1] + larger[0]) // 2)


def least_of(results: list[Result]) -> Result | None:
    """The ring of the least memory that suffices, as each larger one of its line does."""
    whole = []
    for line in lines_of(results):
        losing = [result.ring.block_nr for result in line if not result.suffices]
        whole += [result for result in line if not losing or result.ring.block_nr > losing[-1]]
    return min(
        whole,
        key=lambda result: (result.ring.memory, result.ring.members, result.ring.block_nr),
        default=None,
    )


def answers_by_mode(results: list[Result]) -> list[Result]:
    """For each mode and number of members its smallest ring that suffices, or else its largest."""
    groups: dict[tuple[str, int], list[Result]] = {}
    for result in results:
        groups.setdefault((result.ring.mode, result.ring.members), []).append(result)
    return [
        least_of(group) or max(group, key=lambda result: result.ring.memory)
        for group in groups.values()
    ]


def evenness(numbers: list[int]) -> float:
    """The largest of some numbers to their mean: 1 where all are alike, their count where one has
    all."""
    return round(max(numbers) * len(numbers) / sum(numbers), 2) if sum(numbers) else 1.0


def members_of(result: Result) -> tuple[MemberReport, ...]:
    return tuple(result.worst.members)
