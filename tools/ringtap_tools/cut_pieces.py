"""A piece of a long run: what is fed to one member and when, and the beginning that brings a new
ring to the state in which the piece before it left the member's ring.

A beginning is that of the theorem `a_new_ring_is_brought_to_the_state_of_any_ring` of ring_laws,
step by step; after a pause it is that of `a_run_may_be_cut_at_a_pause`. The packets that it makes
are `FILLER`.
"""
from __future__ import annotations

import struct
from dataclasses import dataclass, field

from .captures import ETHERNET, LARGEST_RECORD
from .cut_rings import BlockRing, Counts, Ring
from .files import Fault
from .model import need_of

# Lines of a schedule: a tick is its label, and below STATS stand as many feeds.
READ, STATS = -1, -2
FEED_LINE, READ_LINE, STATS_LINE = "feed 0\n", "read 0\n", "stats 0\n"
FILLER = bytes(60)
FILE_HEADER = struct.pack("<IHHiIII", 0xA1B23C4D, 2, 4, 0, 0, LARGEST_RECORD, ETHERNET)
RECORD = struct.Struct("<IIII")


def record_of(wire: int, data: bytes) -> bytes:
    """A frame as a record of a capture. Its time is in no count, so it is 0."""
    return RECORD.pack(0, 0, len(data), wire) + data


FILLER_RECORD = record_of(len(FILLER), FILLER)


@dataclass
class Piece:
    """What one ring is fed, and when. Labels are the piece's own; `shift` is how many milliseconds
    they are behind those of the whole run."""

    ring: Ring  # as it is after what was added so far
    shift: int = 0
    records: list[bytes] = field(default_factory=list)
    needs: list[int] = field(default_factory=list)
    lines: list[int] = field(default_factory=list)
    bytes: int = 0  # of its records
    text: int = 0  # of its lines
    stretches: list[Counts] = field(default_factory=list)  # what each `stats` line counts
    taken: Counts = (0, 0, 0)  # up to the last of them
    base: Counts = (0, 0, 0)  # what its beginning counted
    base_blocks: int = 0

    def feed(self, need: int, record: bytes) -> bool:
        """A packet comes; whether a block is handed over."""
        self.records.append(record)
        self.needs.append(need)
        self.bytes += len(record)
        self.text += len(FEED_LINE)
        self.lines.append(STATS - 1)
        return self.ring.put(need)

    def feed_all(self, needs: list[int], records: list[bytes], size: int) -> None:
        """Packets come whose records have so many bytes, and nothing happens between them."""
        self.records += records
        self.needs += needs
        self.bytes += size
        self.text += len(FEED_LINE) * len(needs)
        self.lines.append(STATS - len(needs))
        self.ring.put_all(needs)

    def tick(self, label: int) -> bool:
        """The clock comes to a moment of the piece's own; whether a block is handed over."""
        self.lines.append(label)
        self.text += len("tick 4294967295\n")
        return self.ring.tick(label)

    def read(self) -> None:
        self.lines.append(READ)
        self.text += len(READ_LINE)
        self.ring.read()

    def stats(self) -> None:
        self.lines.append(STATS)
        self.text += len(STATS_LINE)
        now = self.ring.counts()
        self.stretches.append(less(now, self.taken))
        self.taken = now
        self.ring.take()

    def all_stretches(self) -> list[Counts]:
        """What each `stats` line counts, and then what was counted since the last of them."""
        return [*self.stretches, less(self.ring.counts(), self.taken)]

    def schedule(self) -> str:
        return "".join(map(line_words, self.lines))


def line_words(line: int) -> str:
    if line >= 0:
        return f"tick {line}\n"
    if line < STATS:
        return FEED_LINE * (STATS - line)
    return READ_LINE if line == READ else STATS_LINE


def less(counts: Counts, others: Counts) -> Counts:
    """Counts without those that were counted before."""
    return counts[0] - others[0], counts[1] - others[1], counts[2] - others[2]


@dataclass(frozen=True)
class Place:
    """A place in a run, at which it may be cut: the ring's state, and the packets of its open
    block."""

    ring: Ring
    records: list[bytes]
    needs: list[int]
    deadline: int  # of the whole run

    @classmethod
    def after(cls, piece: Piece) -> Place:
        """The place after all that a piece has so far. While a block is open all packets are kept,
        so the last ones that were fed are in it."""
        ring = piece.ring.copy()
        first = len(piece.records) - ring.inside
        deadline = ring.deadline + piece.shift if isinstance(ring, BlockRing) else 0
        return cls(ring, piece.records[first:], piece.needs[first:], deadline)


def begun(new: Ring, place: Place) -> Piece:
    """A piece that begins at a place: a new ring, brought to the state there."""
    piece, old = Piece(new), place.ring
    if isinstance(new, BlockRing) and isinstance(old, BlockRing):
        begin_blocks(piece, new, old, place)
    else:
        begin_slots(piece, old)
    if piece.ring.state() != old.state():
        raise Fault(f"a new ring was brought to {piece.ring.state()}, and not to {old.state()}")
    piece.base, piece.base_blocks = piece.ring.counts(), piece.ring.retired
    return piece


def begin_blocks(piece: Piece, new: BlockRing, old: BlockRing, place: Place) -> None:
    need = need_of(len(FILLER), new.room)

    def crowd(blocks: int) -> None:
        """Each block has a packet and is handed over by a due tick."""
        for _ in range(blocks):
            piece.feed(need, FILLER_RECORD)
            piece.tick(new.deadline)

    def lose() -> None:
        if old.is_losing:
            piece.feed(need, FILLER_RECORD)

    def read(blocks: int) -> None:
        for _ in range(blocks):
            piece.read()

    if old.is_frozen:
        crowd(old.blocks)
        lose()
        read(old.blocks - old.out)
    else:
        if old.is_losing:
            crowd(old.blocks)
            lose()
            read(old.blocks)
            piece.tick(new.deadline)
        crowd(old.out)
        for size, record in zip(place.needs, place.records):
            piece.feed(size, record)
    if new.deadline - old.left > new.clock:
        piece.tick(new.deadline - old.left)
    piece.shift = place.deadline - new.deadline


def begin_slots(piece: Piece, old: Ring) -> None:
    if old.is_losing:
        for _ in range(old.blocks + 1):
            piece.feed(0, FILLER_RECORD)
        for _ in range(old.blocks):
            piece.read()
    for _ in range(old.out):
        piece.feed(0, FILLER_RECORD)


def joined(start: Piece, piece: Piece, first_record: int, first_line: int) -> None:
    """Adds to a piece what another has from a place on."""
    shift, at = piece.shift - start.shift, first_record
    for line in piece.lines[first_line:]:
        if line < STATS:
            end = at + STATS - line
            records = piece.records[at:end]
            start.feed_all(piece.needs[at:end], records, sum(map(len, records)))
            at = end
        elif line == READ:
            start.read()
        elif line == STATS:
            start.stats()
        else:
            start.tick(line + shift)
