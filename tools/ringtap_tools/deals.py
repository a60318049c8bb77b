"""What the members of a group are given, of captures of any size.

A capture is read as a stream and cut into parts. The program runs each of them over a ring that
keeps all, with the setup's filter, and its dump says which frames pass, how many bytes of each are
offered, and its flow hash. How a mode deals them out is counted here, by the rules of
docs/reference.md, section 9. Without rollover each member stands alone, and what it is given
doesn't depend on the rings (the theorem `members_stand_alone_without_rollover` of replay_laws).
"""
from __future__ import annotations

import os
import struct
from concurrent.futures import Future, ThreadPoolExecutor
from dataclasses import dataclass
from heapq import merge
from itertools import accumulate, count, islice
from pathlib import Path
from typing import Iterator, NamedTuple

from .arrivals import DESCRIPTOR, LARGEST_BLOCK, PACKET_HEADER, ROOMY_BLOCKS
from .captures import CaptureStream, Run, say_end
from .cut_pieces import FILE_HEADER, RECORD, record_of
from .files import MOST_MEMBERS, NANOSECONDS, Fault, Setup
from .runs import Report, Room, run_program
from .schedule import Pace

LEAST_FRAME, TAG = 14, 4  # bytes of a frame that isn't a runt, and of a VLAN tag
TAGGED = 16  # of the status of a packet: it had a tag
MOST_FRAMES = 200_000  # of a part
BLOCK_STEP, FRAME_SIZE = 4096, 2048  # bytes
MOST_CPUS = 8  # of a setup that the program takes
# Of a block from byte 12 on: packets, the first one's place, bytes. Of a packet: the next one's
# place, the time, how many bytes it has, its status and its flow hash.
BLOCK, PACKET = struct.Struct("<III"), struct.Struct("<I4xII4xI4xI")
MERGED = 16_384  # frames of several CPUs that are given at once


class Found(NamedTuple):
    """The packets of a dump, in columns: the numbers of their frames, the bytes that are offered,
    their statuses and hashes."""

    numbers: list[int]
    snaps: list[int]
    statuses: list[int]
    hashes: list[int]


class Batch(NamedTuple):
    """Frames that are fed one after another, in columns: of all of them when they come, their CPUs,
    their lengths on the wire and whether they arrive, and of those that pass the filter their
    places in these columns, the bytes that are offered, the hashes, and the records that a member's
    capture has."""

    times: list[int]  # nanoseconds
    cpus: list[int]
    wires: list[int]
    arrives: list[bool]
    places: list[int]
    snaps: list[int]
    hashes: list[int]
    records: list[bytes]


@dataclass
class CpuCount:
    """What the line of a CPU prints."""

    frames: int = 0
    arrivals: int = 0
    passed: int = 0
    end: str = "ok"


class PieceRoom(Room):
    """A folder for parts and pieces; the captures themselves aren't in it."""

    def __init__(self, setup: Setup, program: Path) -> None:
        super().__init__(setup, program, has_captures=False)
        # What the program runs beside the tool: parts of captures, and pieces.
        self.looks, self.pieces = ThreadPoolExecutor(1), ThreadPoolExecutor(1)
        for name in ("nowhere.0.pcap", "all.0.pcap"):
            (self.folder / name).symlink_to(os.devnull)

    def __exit__(self, *_: object) -> None:
        for pool in (self.looks, self.pieces):
            pool.shutdown(cancel_futures=True)
        super().__exit__()

    def check(self) -> None:
        """The program's word on the setup, of which it sees at most its own number of CPUs and
        members: what is refused is a fault."""
        members = min(self.setup.members(), MOST_MEMBERS)
        names = {"filter": "filter.ddd"} if "filter" in self.setup.values else {}
        changes = {"members": str(members), "ticks": None, **names}
        lines = self.setup.with_changes(changes).split("\n")
        for cpu in self.setup.cpus[MOST_CPUS:]:
            lines[cpu.line - 1] = "#"
        (self.folder / "setup").write_text("\n".join(lines), errors="surrogateescape")
        done = run_program(self.program, ["check", "setup"], self.folder, {})
        if done.returncode:
            raise Fault(self.refused(done, "replay", "setup", "setup"))

    def run(
        self, name: str, lines: list[str], capture: list[bytes], schedule: str, command: str
    ) -> Report:
        """A run of one member over a capture of one CPU, whose files have a name of their own and
        go again."""
        files = [self.folder / f"{name}{end}" for end in ("", ".pcap", ".sched")]
        files[0].write_text("\n".join([*lines, f"cpu {name}.pcap", ""]))
        with open(files[1], "wb") as file:
            file.writelines([FILE_HEADER, *capture])
        files[2].write_text(schedule)
        report = self.replay(name, f"{name}.sched", command)
        for path in files:
            path.unlink()
        return report


class CpuStream:
    """The frames of a CPU in their order, each with what the filter makes of it."""

    def __init__(self, room: PieceRoom, cpu: int, path: Path, part: int) -> None:
        self.room, self.cpu, self.part = room, cpu, part
        self.stream = CaptureStream(path, None)
        self.count = CpuCount()
        setup = room.setup
        self.lines = ["dump yes", "out all"]
        if "filter" in setup.values:
            self.lines.append("filter filter.ddd")
        if "key" in setup.values:
            self.lines += [f"key {setup.word('key')}", "features 1"]
        self.latest = 0
        self.size = path.stat().st_size

    def __iter__(self) -> Iterator[Batch]:
        """The program looks at a part while the one before it is given."""
        before: tuple[Run, Future] | None = None
        for part in self.parts():
            asked = self.room.looks.submit(self.seen, part)
            if before:
                yield self.batch(before[0], *before[1].result())
            before = part, asked
        if before:
            yield self.batch(before[0], *before[1].result())
        self.count.end = self.stream.end
        say_end(self.stream.path, self.stream.end, self.count.frames)

    def parts(self) -> Iterator[Run]:
        part, size = Run([], [], []), 0
        for run in self.stream.runs(self.part):
            for column, more in zip(part, run):
                column += more
            size += sum(map(len, run.frames)) + RECORD.size * len(run.frames)
            if size >= self.part or len(part.frames) >= MOST_FRAMES:
                yield part
                part, size = Run([], [], []), 0
        if part.frames:
            yield part

    def place(self) -> int:
        """How many bytes of the file were read, of gzip packed ones."""
        file = self.stream.pieces.file
        return file.file.tell() if not file.closed else self.size

    def seen(self, part: Run) -> tuple[list[bytes], Found]:
        """The records of a part, each with its number in place of its time, and the packets that
        pass."""
        pack, lengths = RECORD.pack, list(map(len, part.frames))
        records = [
            pack(0, number, length, wire) + frame
            for number, length, wire, frame in zip(count(), lengths, part.wires, part.frames)
        ]
        lines = [*self.lines, *roomy(sum(lengths) + (PACKET_HEADER + 7) * len(lengths))]
        report = self.room.run(f"part{self.cpu}", lines, records, "", "replay")
        found = packets_of(self.room.folder / "all.0.blk")
        arrived = len(lengths) - sum(length < LEAST_FRAME for length in lengths)
        told = report.cpus[0].frames, report.cpus[0].arrivals, report.kept, report.drops
        if told != (len(lengths), arrived, len(found.snaps), 0):
            raise Fault(
                f"{self.stream.path}: the program printed {told} (frames, arrivals, kept, drops)"
                f" of a part of {len(lengths)} frames, {arrived} arrivals, {len(found.snaps)}"
                " packets"
            )
        self.count.frames += len(lengths)
        self.count.arrivals += arrived
        self.count.passed += len(found.snaps)
        return records, found

    def batch(self, part: Run, records: list[bytes], found: Found) -> Batch:
        """A part's frames, of which the program said what passes."""
        times = list(accumulate(part.times, max, initial=self.latest))[1:]
        self.latest = times[-1]
        lengths = sent = list(map(len, part.frames))
        places, snaps, statuses, hashes = found
        if len(places) < len(lengths):
            records = [records[place] for place in places]
            sent = [lengths[place] for place in places]
        kept = [snap + TAG if status & TAGGED else snap for snap, status in zip(snaps, statuses)]
        if kept != sent:
            records = list(map(self.cut, records, kept, sent, snaps))
        arrives = [length >= LEAST_FRAME for length in lengths]
        cpus = [self.cpu] * len(times)
        return Batch(times, cpus, part.wires, arrives, places, snaps, hashes, records)

    def cut(self, record: bytes, kept: int, length: int, snap: int) -> bytes:
        """A packet as a frame that is offered with as many bytes again, without a filter."""
        if kept == length:
            return record
        if snap < LEAST_FRAME:
            raise Fault(
                f"{self.room.setup.path}: its filter keeps {snap} bytes of a packet; in pieces one"
                f" has to have at least {LEAST_FRAME}"
            )
        wire = RECORD.unpack_from(record)[3]
        return record_of(wire, record[RECORD.size : RECORD.size + kept])


def roomy(needed: int) -> list[str]:
    """The lines of a ring that keeps packets of so many bytes, of which half of each block may stay
    empty."""
    size = min(LARGEST_BLOCK, -(-(needed + DESCRIPTOR) // BLOCK_STEP) * BLOCK_STEP)
    blocks = min(ROOMY_BLOCKS, 2 + 2 * needed // size)
    frames = size // FRAME_SIZE * blocks
    request = {"block_size": size, "block_nr": blocks, "frame_size": FRAME_SIZE, "frame_nr": frames}
    return [f"{word} {number}" for word, number in request.items()]


def packets_of(path: Path) -> Found:
    """The packets of a dump, whose times have the numbers of their frames."""
    data = path.read_bytes()
    path.unlink()
    found, block, unpack = Found([], [], [], []), 0, PACKET.unpack_from
    numbers, snaps, statuses, hashes = found
    while block < len(data):
        packets, place, size = BLOCK.unpack_from(data, block + 12)
        place += block
        for _ in range(packets):
            step, number, snap, status, flow_hash = unpack(data, place)
            numbers.append(number)
            snaps.append(snap)
            statuses.append(status)
            hashes.append(flow_hash)
            place += step
        block += size
    return found


class Dealer:
    """Which member each packet goes to, by the mode of the setup."""

    def __init__(self, setup: Setup) -> None:
        self.members, self.mode = setup.members(), setup.word("mode", "cpu")
        queues = [cpu.queue for cpu in setup.cpus]
        of_cpus = queues if self.mode == "qm" else range(len(queues))
        self.homes_of_cpus = [number % self.members for number in of_cpus]
        self.ticket = 0  # of the next arrival

    def homes(self, batch: Batch) -> list[int]:
        """The member of each packet that passes."""
        if self.mode == "hash":
            return [value % self.members for value in batch.hashes]
        if self.mode == "lb":
            *tickets, self.ticket = accumulate(batch.arrives, initial=self.ticket)
            return [tickets[place] % self.members for place in batch.places]
        return [self.homes_of_cpus[batch.cpus[place]] for place in batch.places]


class Clock:
    """When a frame is fed, in nanoseconds from the first one on."""

    def __init__(self, pace: Pace) -> None:
        self.speed, self.bits = pace.speed, pace.bits
        rate = pace.packets or pace.bits
        self.per_unit = NANOSECONDS / rate if rate else None
        self.first: int | None = None
        self.sent = 0

    def times(self, batch: Batch) -> list[int]:
        if self.first is None:
            self.first = batch.times[0]
        first, many, speed = self.first, len(batch.times), self.speed
        if self.per_unit is None:
            if speed == 1:
                return [time - first for time in batch.times]
            return [(time - first) * speed.denominator // speed.numerator for time in batch.times]
        units = [8 * wire for wire in batch.wires] if self.bits else [1] * many
        *begins, self.sent = accumulate(units, initial=self.sent)
        return [int(sent * self.per_unit) for sent in begins]


def fed(streams: list[CpuStream]) -> Iterator[Batch]:
    """The frames of all CPUs by their times, at one time those of the lower CPU first."""
    if len(streams) == 1:
        yield from streams[0]
        return
    rows = merge(*map(rows_of, streams))
    while merged := list(islice(rows, MERGED)):
        times, cpus, wires, arrives, passed = map(list, zip(*merged))
        places = [place for place, one in enumerate(passed) if one]
        columns = zip(*filter(None, passed)) if places else [[]] * 3
        yield Batch(times, cpus, wires, arrives, places, *map(list, columns))


def rows_of(stream: CpuStream) -> Iterator[tuple]:
    """A CPU's frames one by one, each with what is offered of it."""
    for batch in stream:
        passed: list[tuple | None] = [None] * len(batch.times)
        for place, *one in zip(batch.places, batch.snaps, batch.hashes, batch.records):
            passed[place] = tuple(one)
        yield from zip(batch.times, batch.cpus, batch.wires, batch.arrives, passed)
