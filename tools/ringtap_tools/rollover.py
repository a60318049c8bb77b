"""The tools' own model of groups that roll over, packet by packet: as ringtap does, and as a
kernel.

A kernel asks whether a member has room, not whether the packet fits: the home takes a packet unless
its ring is frozen, and a backup takes one while more than a quarter of its ring is free
(`fanout_demux_rollover` and `__tpacket_v3_has_room` of net/packet/af_packet.c). Left out are its
huge flows and its socket pressure. Times are nanoseconds from the first frame on.
"""
from __future__ import annotations

from collections import deque
from dataclasses import dataclass
from typing import Sequence

from .model import Course, Deadline, Reader, Timer

QUARTER = 4  # of a ring, which a kernel's backup keeps free


@dataclass(frozen=True)
class Arrival:
    """A packet of the group: when it comes, at which CPU, its home by the mode, and its need."""

    time: int
    cpu: int
    home: int
    need: int


class BlockRing:
    """A member's ring of blocks and its reader, up to some moment."""

    def __init__(self, room: int, blocks: int, timer: Timer, reader: Reader) -> None:
        self.room, self.blocks, self.reader = room, blocks, reader
        self.deadline = Deadline(timer)
        self.back: deque[int] = deque()
        self.used = 0
        self.is_frozen = False
        self.course = Course()
        self.tick = self.deadline.after(-1)

    def advance(self, time: int) -> None:
        """Makes the due ticks up to a time, and the reads before it."""
        while self.tick <= time:
            moment = self.tick
            self.release(moment)
            self.deadline.take()
            self.tick = self.deadline.after(moment)
            if self.is_frozen:
                self.is_frozen = self.is_held()
            elif self.used:
                self.retire(moment)
                self.freeze_if_held()
        self.release(time)

    def release(self, time: int) -> None:
        while self.back and self.back[0] < time:
            self.back.popleft()

    def is_held(self) -> bool:
        return len(self.back) >= self.blocks

    def retire(self, time: int) -> None:
        read = self.reader.taken(time)
        self.back.append(read)
        self.course.reads.append(read)
        self.course.blocks += 1
        self.used = 0

    def freeze_if_held(self) -> None:
        self.is_frozen = self.is_held()
        self.course.freezes += self.is_frozen

    def open_at(self, time: int) -> None:
        self.is_frozen = False
        self.deadline.restart(time)
        self.tick = self.deadline.after(time)

    def put(self, time: int, need: int) -> None:
        """The packet is kept or dropped here."""
        self.course.packets += 1
        if not self.is_frozen and self.used + need <= self.room:
            self.used += need
            return
        if not self.is_frozen:
            self.retire(time)
            self.freeze_if_held()
        if self.is_frozen and self.is_held():
            self.course.drops += 1
            return
        self.open_at(time)
        self.used = need

    def takes(self, need: int) -> bool:
        """Whether ringtap's try keeps a packet."""
        if not self.is_frozen and self.used + need <= self.room:
            return True
        return len(self.back) + (not self.is_frozen) < self.blocks

    def has_room(self, free: int) -> bool:
        """A kernel's test: whether the block that many after the present one is free."""
        return len(self.back) + free < self.blocks

    def finish(self, end: int) -> None:
        self.advance(end)
        self.course.blocks += bool(self.used)


class SlotRing(BlockRing):
    """A member's ring of TPACKET_V2: each packet is a slot, handed over at once."""

    def __init__(self, slots: int, reader: Reader) -> None:
        super().__init__(0, slots, Timer(0, 0), reader)

    def put(self, time: int, need: int) -> None:
        self.course.packets += 1
        if self.is_held():
            self.course.drops += 1
        else:
            self.retire(time)

    def takes(self, need: int) -> bool:
        return not self.is_held()


class Group:
    """The members, and where each packet goes by the rules of one or the other."""

    def __init__(self, rings: list[BlockRing], is_mode: bool, is_kernel: bool) -> None:
        self.rings, self.is_mode, self.is_kernel = rings, is_mode, is_kernel
        self.present: dict[int, int] = {}  # of a CPU in ringtap's mode, of a home in a kernel

    def put(self, one: Arrival) -> None:
        for ring in self.rings:
            ring.advance(one.time)
        member = self.kernel_member(one) if self.is_kernel else self.own_member(one)
        self.rings[member].put(one.time, one.need)

    def own_member(self, one: Arrival) -> int:
        count = len(self.rings)
        home = self.present.get(one.cpu, 0) if self.is_mode else one.home
        for step in range(count):
            member = (home + step) % count
            if self.rings[member].takes(one.need):
                self.present[one.cpu] = member
                return member
        return home

    def kernel_member(self, one: Arrival) -> int:
        count = len(self.rings)
        home = 0 if self.is_mode else one.home
        if not self.is_mode and self.rings[home].has_room(0):
            return home
        first = self.present.get(home, 0)
        for step in range(count):
            member = (first + step) % count
            ring = self.rings[member]
            is_left_out = not self.is_mode and member == home
            if not is_left_out and ring.has_room(ring.blocks // QUARTER):
                self.present[home] = member
                return member
        return home


def rolled(
    arrivals: Sequence[Arrival], rings: list[BlockRing], is_mode: bool, is_kernel: bool, end: int
) -> list[Course]:
    """What becomes of each member."""
    group = Group(rings, is_mode, is_kernel)
    for one in arrivals:
        group.put(one)
    for ring in rings:
        ring.finish(end)
    return [ring.course for ring in rings]
