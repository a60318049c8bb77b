"""What each member of a group is given: the packets that pass, in the order in which they are fed.

A run of the program over rings that keep all says which frames pass, how many bytes a block takes
of each at most, and its flow hash under a key. How a mode deals them out is counted here.
"""
from __future__ import annotations

import struct
from array import array
from dataclasses import dataclass, field
from pathlib import Path
from typing import Iterator

from .arrivals import Frames, keep_all, outputs
from .files import NANOSECONDS, Fault
from .model import Given
from .runs import Room
from .schedule import Fed

CPU_BITS = 24  # of a frame's number
PACKET = struct.Struct("<IIII12xI")  # next offset, seconds, nanoseconds, snap length, flow hash
# Of a block, from byte 12 on: packets, the first one's place, bytes.
DESCRIPTOR = struct.Struct("<III")

Seen = tuple[int, int]  # how many bytes of a packet at most, and its flow hash


@dataclass
class Offers:
    """The packets that pass, in the order of the feeds."""

    times: array = field(default_factory=lambda: array("q"))  # nanoseconds from the first frame on
    cpus: bytearray = field(default_factory=bytearray)
    snaps: array = field(default_factory=lambda: array("I"))
    hashes: array = field(default_factory=lambda: array("I"))
    tickets: array = field(default_factory=lambda: array("I"))  # those of arrivals, filtered or not
    end: int = 0  # when the last frame of all is fed

    def homes(self, mode: str, members: int, queues: list[int]) -> list[int]:
        """The member that a mode chooses for each packet; of mode rollover member 0."""
        if mode == "hash":
            return [value % members for value in self.hashes]
        if mode == "lb":
            return [ticket % members for ticket in self.tickets]
        if mode == "rollover":
            return [0] * len(self.times)
        of_cpus = queues if mode == "qm" else range(len(queues))
        homes = [number % members for number in of_cpus]
        return [homes[cpu] for cpu in self.cpus]

    def dealt(self, mode: str, members: int, queues: list[int]) -> list[Given]:
        """What each member is given."""
        parts = [Given(array("q"), array("I")) for _ in range(members)]
        for home, time, snap in zip(self.homes(mode, members, queues), self.times, self.snaps):
            parts[home].times.append(time)
            parts[home].snaps.append(snap)
        return parts


def seen_in(path: Path) -> Iterator[tuple[int, Seen]]:
    """The packets of a dump: the number of each one's frame, and what was seen of it."""
    data = path.read_bytes()
    block = 0
    while block < len(data):
        count, place, size = DESCRIPTOR.unpack_from(data, block + 12)
        place += block
        for _ in range(count):
            step, _, number, snap, flow_hash = PACKET.unpack_from(data, place)
            yield number, (snap, flow_hash)
            place += step
        block += size


def seen(room: Room, captures: list[Frames], key: str | None = None) -> dict[int, Seen]:
    """What passes, by the numbers of frames."""
    changes = {"dump": "yes", "features": "1", **({"key": key} if key else {})}
    report = keep_all(room, captures, "given", changes)
    found: dict[int, Seen] = {}
    for member in range(len(report.members)):
        found.update(seen_in(room.folder / f"given.{member}.blk"))
    if len(found) != report.kept:
        raise Fault(
            f"{room.setup.path}: {report.kept} packets were kept, and the dump has {len(found)}"
        )
    return found


def arrived(room: Room, captures: list[Frames]) -> set[int] | None:
    """The numbers of frames that arrive, where a filter refuses some of them."""
    if "filter" not in room.setup.values:
        return None
    report = keep_all(room, captures, "arrived", {"filter": None})
    return {packet.time % NANOSECONDS for packet in outputs(room, "arrived", len(report.members))}


def offers_of(room: Room, captures: list[Frames], fed: Fed, key: str | None = None) -> Offers:
    """What passes, by the feeds; `captures` are those that `numbered` wrote."""
    found, come = seen(room, captures, key), arrived(room, captures)
    offers, counts, ticket = Offers(end=fed.end), [0] * len(captures), 0
    for time, cpu in zip(fed.times, fed.cpus):
        number = (cpu << CPU_BITS) + counts[cpu]
        counts[cpu] += 1
        one = found.get(number)
        if one:
            offers.times.append(time)
            offers.cpus.append(cpu)
            offers.snaps.append(one[0])
            offers.hashes.append(one[1])
            offers.tickets.append(ticket)
        ticket += one is not None if come is None else number in come
    return offers


def rehashed(offers: Offers, room: Room, captures: list[Frames], fed: Fed, key: str) -> Offers:
    """The same packets with their hashes under another key."""
    found, counts, hashes = seen(room, captures, key), [0] * len(captures), array("I")
    for cpu in fed.cpus:
        one = found.get((cpu << CPU_BITS) + counts[cpu])
        counts[cpu] += 1
        if one:
            hashes.append(one[1])
    return Offers(offers.times, offers.cpus, offers.snaps, hashes, offers.tickets, offers.end)
