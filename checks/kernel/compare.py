#!/usr/bin/env python3
"""Compares what a kernel did in a case with what ringtap does: every byte of every block or
slot, and every count.

`FREE` is the list of what may differ, each entry with its row in docs/kernel.md and with what
the kernel's bytes have to be instead. Nothing else may differ.
"""
from __future__ import annotations

import struct
import zlib
from dataclasses import dataclass, field, replace
from pathlib import Path
from typing import Callable, Iterator

from second import capture_bytes
import running
from kernel.frames import untagged
from kernel.plans import V2, V3, Case, Feed, Member, Record
from kernel.wire import QUEUES, RECEIVER_MAC

KEY = "6d5a56da255b0ec24167253d43a38fb0d0ca2bcbae7b30b477cb2da38030f20c6a42b73bbeac01fa"
HEADER = {V3: 82, V2: 66}  # the bytes of a packet before its data
ADDRESS = {V3: 48, V2: 32}  # where its `struct sockaddr_ll` begins
STATUS = {V3: 20, V2: 0}  # where its status word is
MILLISECOND = 1_000_000  # in nanoseconds
# TP_STATUS_CSUMNOTREADY, TP_STATUS_CSUM_VALID, TP_STATUS_TS_SOFTWARE
DEVICE_BITS = 1 << 3 | 1 << 7 | 1 << 29
Span = tuple[int, int]  # a place, and how many bytes


class Wrong(Exception):
    """Something differs that may not."""


@dataclass
class Place:
    """A block or a slot: what the kernel wrote there, what ringtap's has, and what stood there
    before."""

    name: str
    case: Case
    record: Record
    kernel: bytes
    ours: bytes
    before: bytes

    def word(self, at: int) -> int:
        return struct.unpack_from("<I", self.kernel, at)[0]

    def packets(self) -> Iterator[Span]:
        """Where each packet of ringtap's begins, and how many bytes it takes."""
        if self.case.version == V2:
            yield 0, len(self.ours)
            return
        at, end = struct.unpack_from("<II", self.ours, 16)
        while at < end:
            need = struct.unpack_from("<I", self.ours, at)[0] or end - at
            yield at, need
            at += need


def private_area(place: Place) -> Iterator[Span]:
    if place.case.version == V3:
        yield 48, struct.unpack_from("<I", place.ours, 16)[0] - 48


def gaps(place: Place) -> Iterator[Span]:
    """The last two bytes of `sll_addr` and what lies between it and the data; behind the data
    the padding."""
    version = place.case.version
    for at, need in place.packets():
        yield at + ADDRESS[version] + 18, HEADER[version] - ADDRESS[version] - 18
        if version == V3:
            snap = struct.unpack_from("<I", place.ours, at + 12)[0]
            yield at + HEADER[V3] + snap, need - HEADER[V3] - snap


def stale(place: Place, at: int, size: int) -> bool:
    """The kernel leaves what stood there before; ringtap writes zeros."""
    return place.kernel[at : at + size] == place.before[at : at + size] and not any(
        place.ours[at : at + size]
    )


def opening(place: Place) -> Iterator[Span]:
    if place.case.version == V3:
        yield 32, 8


def opened_before(place: Place, at: int, _: int) -> bool:
    """The kernel's time is that of the block's opening: not after the first packet, unless the
    device gave that one its time."""
    first = struct.unpack_from("<I", place.ours, 16)[0]
    by_device = place.word(first + STATUS[V3]) & DEVICE_BITS
    time = struct.unpack_from("<II", place.kernel, at)
    return time <= struct.unpack_from("<II", place.kernel, first + 4) or bool(by_device)


def interface(place: Place) -> Iterator[Span]:
    for at, _ in place.packets():
        yield at + ADDRESS[place.case.version] + 4, 4


def is_index(place: Place, at: int, size: int) -> bool:
    return place.word(at) == place.record.index and place.ours[at : at + size] == b"\x01\0\0\0"


def hashes(place: Place) -> Iterator[Span]:
    if place.case.version == V3 and place.case.request.features:
        for at, _ in place.packets():
            yield at + 28, 4


def statuses(place: Place) -> Iterator[Span]:
    for at, _ in place.packets():
        yield at + STATUS[place.case.version], 4


def device_bits(place: Place, at: int, _: int) -> bool:
    return place.word(at) & ~DEVICE_BITS == struct.unpack_from("<I", place.ours, at)[0]


@dataclass(frozen=True)
class Free:
    """What may differ: the row that says so, where it is in a block or a slot, and what the
    kernel's bytes are there."""

    row: str
    spans: Callable[[Place], Iterator[Span]]
    holds: Callable[[Place, int, int], bool]


STALE = (
    "the private area, the 14 bytes before the data, the padding after it, the last 2 bytes of "
    "`sll_addr`"
)
FREE = [
    Free(STALE, private_area, stale),
    Free(STALE, gaps, stale),
    Free("`ts_first_pkt`", opening, opened_before),
    Free("the interface's index", interface, is_index),
    Free("`tp_rxhash`", hashes, lambda place, at, _: place.word(at) != 0),
    Free("the other bits of `tp_status`", statuses, device_bits),
]


def expected(place: Place, used: set[str]) -> bytes:
    """What the kernel's bytes have to be: ringtap's, but for those that are free. The rows that
    were needed go into `used`."""
    found = bytearray(place.ours)
    for free in FREE:
        for at, size in free.spans(place):
            theirs = place.kernel[at : at + size]
            if theirs != place.ours[at : at + size] and free.holds(place, at, size):
                found[at : at + size] = theirs
                used.add(free.row)
    return bytes(found)


def compare_place(place: Place, used: set[str]) -> None:
    """Every byte is the same, but for those that are free."""
    if len(place.kernel) != len(place.ours):
        raise Wrong(f"{place.name} has {len(place.kernel)} bytes, and ringtap's {len(place.ours)}")
    for at, theirs, ours in differing(place, used):
        raise Wrong(f"{place.name}, byte {at}: {theirs} of the kernel, {ours} of ringtap")


def differing(place: Place, used: set[str]) -> list[tuple[int, int, int]]:
    """The bytes that differ: where, the kernel's and ringtap's."""
    meant = expected(place, used)
    if meant == place.kernel:
        return []
    return [
        (at, theirs, ours) for at,
        (theirs, ours) in enumerate(zip(place.kernel, meant)) if theirs != ours
    ]


# ---- ringtap's run


@dataclass
class Ran:
    """What a run of ringtap printed and saved: for each member its blocks or slots, its `count`
    lines and its sums."""

    places: list[list[bytes]]
    counts: list[list[list[int]]]
    sums: list[list[int]]


def frames_with_times(case: Case, record: Record) -> list[tuple[int, int, Feed]]:
    """The frames in the order in which they were sent, each with its time."""
    sent = [step for step in case.steps if isinstance(step, Feed)]
    return [(second, nano, feed) for feed, (_, second, nano) in zip(sent, record.times)]


def captures_of(case: Case, record: Record) -> list[bytes]:
    """A capture for each CPU."""
    frames = frames_with_times(case, record)
    count = 1 + max([feed.cpu for _, _, feed in frames], default=0)
    captures = [capture_bytes.OUTPUT_HEADER] * count
    for second, nano, feed in frames:
        if feed.outgoing:
            continue
        captures[feed.cpu] += capture_bytes.record(feed.frame, sec=second, fraction=nano)
    return captures


def setup_of(case: Case, record: Record, cpus: int) -> str:
    """The setup of the case. A frame that a CPU sends goes through the transmit queue of its
    number, which the pair of virtual devices keeps."""
    request = case.request
    lines = [
        f"{word} {getattr(request, word)}"
        for word in ("block_size", "block_nr", "frame_size", "frame_nr")
    ]
    if case.version == V3:
        lines += [f"tov {record.tov}", f"priv {request.priv}", f"features {request.features}"]
    lines += [f"cpu {cpu}.pcap {cpu % QUEUES}" for cpu in range(cpus)]
    lines += [
        f"members {case.members}", f"mode {case.mode}", f"key {KEY}", f"mac {RECEIVER_MAC.hex()}",
        "out out", "dump yes"
    ]
    lines += [f"flag {flag}" for flag in sorted(case.flags)]
    lines += ["filter filter"] if case.program else []
    return "\n".join(lines) + "\n"


def run_ringtap(program: str, room: Path, case: Case, record: Record) -> Ran:
    captures = captures_of(case, record)
    for cpu, capture in enumerate(captures):
        (room / f"{cpu}.pcap").write_bytes(capture)
    (room / "conf").write_text(setup_of(case, record, len(captures)), encoding="ascii")
    (room / "sched").write_text("".join(f"{line}\n" for line in record.did), encoding="ascii")
    if case.program:
        lines = [
            str(len(case.program)),
            *(" ".join(map(str, instruction)) for instruction in case.program)
        ]
        (room / "filter").write_text("\n".join(lines) + "\n", encoding="ascii")
    command = "replay" if case.version == V3 else "replay2"
    done, why = running.run([program, command, "conf", "sched"], cwd=room, text=True)
    if why or done.returncode:
        raise Wrong(why or f"ringtap ended with status {done.returncode}: {done.stdout.strip()}")
    dumps = [(room / f"out.{member}.blk").read_bytes() for member in range(case.members)]
    return Ran([places_of(case, dump) for dump in dumps], *counts_of(case, done.stdout))


def places_of(case: Case, dump: bytes) -> list[bytes]:
    """The blocks or slots of a dump."""
    found, at = [], 0
    while at < len(dump):
        length = struct.unpack_from("<I", dump, at + (20 if case.version == V3 else 8))[0]
        end = at + length + (0 if case.version == V3 else HEADER[V2])
        found.append(dump[at:end])
        at = end
    return found


def counts_of(case: Case, printed: str) -> tuple[list[list[list[int]]], list[list[int]]]:
    counts: list[list[list[int]]] = [[] for _ in range(case.members)]
    sums: list[list[int]] = [[] for _ in range(case.members)]
    for line in printed.splitlines():
        word, member, *rest = line.split()
        if word in ("member", "count"):
            numbers = [int(number) for number in rest[1::2]]
            if word == "member":
                sums[int(member)] = numbers
            else:
                counts[int(member)].append(numbers)
    return counts, sums


# ---- a case


@dataclass
class Tally:
    """How much was compared, and which rows of what may differ were needed."""

    cases: int = 0
    blocks: int = 0
    slots: int = 0
    counts: int = 0
    bytes: int = 0
    changes: int = 0
    changed_counts: int = 0
    apart: int = 0
    answers: int = 0
    used: set[str] = field(default_factory=set)

    def add(self, other: Tally) -> None:
        self.used |= other.used
        for name in (
            "cases", "blocks", "slots", "counts", "bytes", "changes", "changed_counts", "apart",
            "answers"
        ):
            setattr(self, name, getattr(self, name) + getattr(other, name))


def places_between(case: Case, record: Record, ran: Ran) -> Iterator[Place]:
    """The blocks or slots, one after another, each with what stood in its memory before."""
    request = case.request
    blocks, slots = ("block", request.block_nr, request.block_size), (
        "slot", request.frame_nr, request.frame_size
    )
    word, around, size = blocks if case.version == V3 else slots
    for number, ours in enumerate(ran.places):
        theirs = record.members[number].taken
        memory = [bytes(size)] * min(around, len(theirs))
        for at, (kernel, own) in enumerate(zip(theirs, ours)):
            yield Place(
                f"member {number}, {word} {at + 1}", case, record, kernel, own, memory[at % around]
            )
            memory[at % around] = kernel + memory[at % around][len(kernel) :]


def compare_places(case: Case, record: Record, ran: Ran, tally: Tally) -> None:
    for number, ours in enumerate(ran.places):
        theirs = record.members[number].taken
        if len(theirs) != len(ours):
            raise Wrong(
                f"member {number}: {len(theirs)} blocks or slots of the kernel, {len(ours)} of "
                "ringtap"
            )
    for place in places_between(case, record, ran):
        compare_place(place, tally.used)
        notice_change(place, tally)
        tally.bytes += len(place.kernel)
        if case.version == V3:
            tally.blocks += 1
        else:
            tally.slots += 1


def notice_change(place: Place, tally: Tally) -> None:
    """One byte of the kernel's, another in each place, is changed: that has to be noticed,
    unless it lies where something may differ."""
    at = zlib.crc32(place.name.encode() + place.case.name.encode()) % len(place.kernel)
    if is_noticed(place, at):
        tally.changes += 1
    elif not any(begin <= at < begin + size for free in FREE for begin, size in free.spans(place)):
        raise Wrong(f"{place.name}: nothing notices a change of byte {at}")


def is_noticed(place: Place, at: int) -> bool:
    """Whether a change of one byte of the kernel's makes a difference."""
    spoilt = bytearray(place.kernel)
    spoilt[at] ^= 1
    return expected(replace(place, kernel=bytes(spoilt)), set()) != spoilt


def compare_counts(case: Case, record: Record, ran: Ran, tally: Tally) -> None:
    """The statistics at each planned moment, and their sums over the run."""
    for number in range(case.members):
        theirs = record.members[number]
        if theirs.counts[:-1] != ran.counts[number]:
            raise Wrong(
                f"member {number}: the statistics are {theirs.counts[:-1]}, and ringtap's "
                f"{ran.counts[number]}"
            )
        sums = [sum(column) for column in zip(*theirs.counts)] + [len(theirs.taken)]
        if sums != ran.sums[number]:
            raise Wrong(
                f"member {number}: packets, drops, freezes and blocks are {sums}, and ringtap's "
                f"{ran.sums[number]}"
            )
        tally.counts += 3 * len(ran.counts[number]) + 4


def check_openings(case: Case, record: Record) -> None:
    """A block that a time-out opened says a time before its first packet's; one that this packet
    opened says about the same."""
    for number, by_time_out in case.openings:
        block = record.members[0].taken[number - 1]
        opened, first = (
            nanoseconds(block, at)
            for at in (32, struct.unpack_from("<I", block, 16)[0] + 4)
        )
        if (first - opened > MILLISECOND) != by_time_out:
            raise Wrong(
                f"block {number} of the kernel was opened {first - opened} nanoseconds before its "
                "first packet"
            )


def nanoseconds(data: bytes, at: int) -> int:
    second, nano = struct.unpack_from("<II", data, at)
    return second * 1_000_000_000 + nano


def count_is_noticed(
    case: Case, record: Record, ran: Ran, member: int, taking: int, at: int
) -> bool:
    """Whether one more in one number of the statistics makes a difference."""
    members = [
        Member(each.taken, [list(counts) for counts in each.counts])
        for each in record.members
    ]
    members[member].counts[taking][at] += 1
    try:
        compare_counts(case, replace(record, members=members), ran, Tally())
    except Wrong:
        return True
    return False


def notice_counts(case: Case, record: Record, ran: Ran, tally: Tally) -> None:
    """One more in any number of the statistics has to be noticed."""
    for member, found in enumerate(record.members):
        for taking, counts in enumerate(found.counts):
            for at in range(len(counts)):
                if not count_is_noticed(case, record, ran, member, taking, at):
                    raise Wrong(
                        f"member {member}: nothing notices a change of the statistics that were "
                        f"taken as number {taking + 1}"
                    )
                tally.changed_counts += 1


def spoil(case: Case, record: Record, program: str, room: Path) -> tuple[int, int, int]:
    """Changes each byte of a record, one at a time: how many, how many of them are noticed, and
    how many of the others lie where something may differ."""
    ran = run_ringtap(program, room, case, record)
    changed = noticed = free = 0
    for place in places_between(case, record, ran):
        spans = [span for entry in FREE for span in entry.spans(place)]
        for at in range(len(place.kernel)):
            changed += 1
            if is_noticed(place, at):
                noticed += 1
            else:
                free += any(begin <= at < begin + size for begin, size in spans)
    return changed, noticed, free


def summary(case: Case, record: Record, places: list[list[bytes]], sums: list[list[int]]) -> str:
    """A short telling of a run: for each member the status of each block or slot and the frames
    in it, then packets, drops and freezes. Where a packet has more or less bytes than its frame
    their number follows."""
    sent = frames_with_times(case, record)
    frames = {
        (second, nano): (at, len(untagged(feed.frame))) for at,
        (second, nano, feed) in enumerate(sent)
    }
    told = []
    for found, numbers in zip(places, sums):
        blocks = [tell(frames, *read(case, data)) for data in found]
        told.append(" ".join([*blocks, "-".join(map(str, numbers[:3]))]))
    return "; ".join(told)


Packets = list[tuple[tuple[int, int], int]]


def tell(frames: dict[tuple[int, int], tuple[int, int]], status: int, packets: Packets) -> str:
    names = [
        f"{frames[time][0]}" + (f"={size}" if size != frames[time][1] else "") for time,
        size in packets
    ]
    return f"{status}[{' '.join(names)}]"


def read(case: Case, data: bytes) -> tuple[int, Packets]:
    """The status of a block or a slot, and the time and the number of bytes of each packet."""
    if case.version == V2:
        return struct.unpack_from("<I", data)[0], [
            (struct.unpack_from("<II", data, 16), struct.unpack_from("<I", data, 8)[0])
        ]
    status, count, at = struct.unpack_from("<III", data, 8)
    packets = []
    for _ in range(count):
        packets.append(
            (struct.unpack_from("<II", data, at + 4), struct.unpack_from("<I", data, at + 12)[0])
        )
        at += struct.unpack_from("<I", data, at)[0]
    return status, packets


def both_summaries(case: Case, record: Record, ran: Ran) -> tuple[str, str]:
    """What both did; where that is told alike, each byte in which they differ too."""
    sums = [[sum(column) for column in zip(*member.counts)] for member in record.members]
    kernel = summary(case, record, [member.taken for member in record.members], sums)
    ringtap = summary(case, record, ran.places, ran.sums)
    if kernel == ringtap:
        found = [
            line
            for place in places_between(case, record, ran)
            for line in differing(place, set())
        ]
        kernel += "".join(f" {at}:{theirs:02x}" for at, theirs, _ in found)
        ringtap += "".join(f" {at}:{ours:02x}" for at, _, ours in found)
    return kernel, ringtap


def compare(case: Case, record: Record, program: str, room: Path, tally: Tally) -> None:
    """Raises Wrong where the kernel and ringtap don't agree, or differ in another way than the
    case says."""
    ran = run_ringtap(program, room, case, record)
    if case.apart is None:
        compare_places(case, record, ran, tally)
        compare_counts(case, record, ran, tally)
        notice_counts(case, record, ran, tally)
        check_openings(case, record)
        tally.cases += 1
    else:
        told = both_summaries(case, record, ran)
        if told != (case.apart.kernel, case.apart.ringtap):
            raise Wrong(f"the kernel did '{told[0]}' and ringtap '{told[1]}'")
        tally.apart += 1
