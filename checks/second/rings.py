"""The rings of the second program: what a member's ring keeps, drops and gives back, and the
bytes of its blocks or slots."""
from __future__ import annotations

import struct
from typing import NamedTuple

from second.frames import Frame, protocol_of, vlan_of
from second.setup import Setup

HEADER = 82  # the bytes of a packet before its data
V2_HEADER = 66  # the bytes of a slot of TPACKET_V2 before its data
# bits of a status: the reader's, some were lost, by the timer, a tag and its protocol
USER, LOSING, BY_TIME, VLAN = 1, 4, 32, 80


class Offer(NamedTuple):
    """A frame that a ring is to keep: how many of its bytes, its hash and its packet type."""

    frame: Frame
    snap: int
    hash: int
    pkttype: int


def address_of(offer: Offer) -> bytes:
    """The `sockaddr_ll` of a packet: the address of its sender, on an Ethernet interface of
    index 1."""
    data = offer.frame.data
    link = (
        struct.pack("<H", 17) + struct.pack(">H", protocol_of(data))
        + struct.pack("<IHBB", 1, 1, offer.pkttype, 6)
    )
    return link + data[6:12] + bytes(2)


def need_of(size: int) -> int:
    """The bytes of a block that a packet takes which keeps so many."""
    return -(-(HEADER + size) // 8) * 8


class Counts:
    """A ring's statistics since they were last taken, and what was taken."""

    def __init__(self) -> None:
        self.kept = self.drops = self.freezes = 0
        self.taken: list[list[int]] = []
        self.sums = [0, 0, 0]

    def count_now(self) -> list[int]:
        now = [self.kept + self.drops, self.drops, self.freezes]
        self.sums = [a + b for a, b in zip(self.sums, now)]
        self.kept = self.drops = self.freezes = 0
        return now


class Ring(Counts):
    """The ring with its reader: retired blocks with their status, the open one (None where the
    ring is frozen), how many were released, the clock, the deadline, and the statistics since
    they were last taken."""

    def __init__(self, setup: Setup) -> None:
        super().__init__()
        self.setup, self.room, self.count = setup, setup.room, setup.block_nr
        self.done: list[tuple[int, list[Offer]]] = []
        self.open: list[Offer] | None = []
        self.released, self.clock, self.deadline = 0, 0, setup.tov

    @staticmethod
    def most(setup: Setup) -> int:
        """The most bytes of a frame that a block keeps."""
        return setup.room - HEADER

    def fits(self, offer: Offer) -> bool:
        return (
            self.open is not None and sum(need_of(o.snap) for o in [*self.open, offer]) <= self.room
        )

    def held(self, retired: int) -> bool:
        """Whether the block after so many more retired ones is still the reader's."""
        return len(self.done) + retired + 1 - self.count > self.released

    def waits(self) -> bool:
        """Whether a tick may hand a block over, or thaw the ring."""
        return self.open != []

    def retire(self, block: list[Offer], by_time: bool = False) -> None:
        self.done.append((USER + BY_TIME * by_time + LOSING * (self.drops > 0), block))

    def try_put(self, offer: Offer) -> bool:
        if not self.fits(offer) and self.held(self.open is not None):
            return False
        self.put(offer)
        return True

    def put(self, offer: Offer) -> bool:
        """Whether the packet is kept."""
        if self.open is not None and self.fits(offer):
            self.open.append(offer)
            self.kept += 1
            return True
        was_open = self.open is not None
        if self.open is not None:
            self.retire(self.open)
        if self.held(False):
            self.open = None
            self.drops += 1
            self.freezes += was_open
            return False
        self.open = [offer]
        self.kept += 1
        self.deadline = self.clock + self.setup.tov
        return True

    def tick(self, moment: int) -> None:
        self.clock = moment
        if moment < self.deadline:
            return
        self.deadline = moment + self.setup.tov
        if self.open == []:
            return
        was_open = self.open is not None
        if self.open is not None:
            self.retire(self.open, by_time=True)
        if not self.held(False):
            self.open = []
        else:
            self.open = None
            self.freezes += was_open

    def read(self) -> None:
        self.released += self.released < len(self.done)

    def close(self) -> None:
        if self.open:
            self.retire(self.open)

    def offers(self) -> list[Offer]:
        return [offer for _, offers in self.done for offer in offers]

    def dump(self) -> bytes:
        return b"".join(self.text(at + 1, *block) for at, block in enumerate(self.done))

    def text(self, place: int, status: int, offers: list[Offer]) -> bytes:
        """The bytes of a block of a number, up to the end of its last packet."""
        first = 48 + (self.setup.priv + 7) // 8 * 8
        packets = [self.packet(offer, at + 1 < len(offers)) for at, offer in enumerate(offers)]
        begin, end = offers[0].frame, offers[-1].frame
        size = first + sum(map(len, packets))
        descriptor = struct.pack(
            "<IIIIIIQIIII", 2, 48, status, len(offers), first, size, place, begin.sec, begin.nsec,
            end.sec, end.nsec
        )
        return descriptor.ljust(first, b"\0") + b"".join(packets)

    def packet(self, offer: Offer, has_next: bool) -> bytes:
        """A packet of a block: header, address and data, up to where the next one may begin."""
        frame, need = offer.frame, need_of(offer.snap)
        head = struct.pack(
            "<IIIIIIHHIIHH8x", need if has_next else 0, frame.sec, frame.nsec, offer.snap,
            frame.wire, USER + VLAN * (frame.tag is not None), HEADER, 96,
            offer.hash if self.setup.features else 0, *vlan_of(frame), 0,
        )
        return (head + address_of(offer) + bytes(14) + frame.data[: offer.snap]).ljust(need, b"\0")


class SlotRing(Counts):
    """The ring of TPACKET_V2 with its reader: filled slots with their status, and how many were
    released. It has no timer, and nothing of it freezes."""

    def __init__(self, setup: Setup) -> None:
        super().__init__()
        self.count, self.released = setup.frame_nr, 0
        self.done: list[tuple[int, Offer]] = []

    @staticmethod
    def most(setup: Setup) -> int:
        """The most bytes of a frame that a slot keeps."""
        return setup.frame_size - V2_HEADER

    def held(self) -> bool:
        """Whether the next slot is still the reader's."""
        return len(self.done) + 1 - self.count > self.released

    @staticmethod
    def waits() -> bool:
        return False

    def try_put(self, offer: Offer) -> bool:
        if self.held():
            return False
        self.done.append(
            (USER + LOSING * (self.drops > 0) + VLAN * (offer.frame.tag is not None), offer)
        )
        self.kept += 1
        return True

    def put(self, offer: Offer) -> bool:
        """Whether the packet is kept."""
        is_kept = self.try_put(offer)
        self.drops += not is_kept
        return is_kept

    def tick(self, moment: int) -> None:
        pass

    def read(self) -> None:
        self.released += self.released < len(self.done)

    def close(self) -> None:
        pass

    def offers(self) -> list[Offer]:
        return [offer for _, offer in self.done]

    def dump(self) -> bytes:
        return b"".join(self.text(*slot) for slot in self.done)

    @staticmethod
    def text(status: int, offer: Offer) -> bytes:
        """The bytes of a slot up to the end of its packet."""
        frame = offer.frame
        head = struct.pack(
            "<IIIHHIIHH4x", status, frame.wire, offer.snap, V2_HEADER, 80, frame.sec, frame.nsec,
            *vlan_of(frame)
        )
        return head + address_of(offer) + bytes(14) + frame.data[: offer.snap]


RingKind = type[Ring] | type[SlotRing]
