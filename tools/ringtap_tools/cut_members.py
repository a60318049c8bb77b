"""A member of a long run: its lines, made as its packets come, and where they are cut.

Ticks that do nothing, and reads that find nothing, are left out, as `schedule.py` leaves them out.
A run is cut at a pause where the reader's own steps make one: they come often enough for all
blocks, then a due tick, then a step, and no packet meanwhile (the theorem
`a_run_may_be_cut_at_a_pause` of ring_laws). Where none comes before a piece is full it is cut where
it is, and the next piece has a beginning that brings a new ring to the state there. Times are
nanoseconds from the first frame on.
"""
from __future__ import annotations

from bisect import bisect_left, bisect_right
from collections import deque
from dataclasses import dataclass
from itertools import accumulate
from typing import Callable

from .clock import MILLISECOND, NEVER, Beat, Pace, steps_of
from .cut_pieces import FEED_LINE, Piece, Place, begun, joined
from .cut_rings import BlockRing, Ring, SlotRing
from .files import NANOSECONDS, Fault
from .model import Reader, Timer

OVERLAP = 2  # rings that a piece is run again with


@dataclass(frozen=True)
class Limits:
    """How large a piece is: it is cut at the first pause once it is half as large."""

    bytes: int
    text: int = 450_000


@dataclass(frozen=True)
class Shape:
    """What the rings of all members have in common."""

    blocks: int
    room: int
    block_size: int
    timeout: int  # milliseconds; 0: slots

    def new(self) -> Ring:
        if not self.timeout:
            return SlotRing(self.blocks)
        return BlockRing(self.blocks, self.room, self.timeout)


@dataclass
class Cut:
    """A piece that is ready to be run."""

    piece: Piece
    way: str  # in which it was begun: new, pause, state
    again: Piece | None  # the same with an overlap before it
    before: int = 0  # stretches of the overlap
    blocks: int = 0  # and the blocks that were handed over in it


class Steps:
    """A reader's steps, whether or not they find a block."""

    def __init__(self, pace: Pace, shape: Shape) -> None:
        self.takes_all = not (pace.blocks or pace.bytes)
        self.beat = steps_of(pace, shape.block_size)
        self.stalls = pace.stall_times()

    def last(self, after: int, before: int) -> int | None:
        """The last step in a stretch, without its end. None where there is none, or a stall."""
        if not self.beat or any(start < before and after < stop for start, stop in self.stalls):
            return None
        number = self.beat.last_by(before - 1)
        moment = self.beat.moment(number) if number >= self.beat.first else -1
        return moment if moment >= after else None

    def give_back(self, blocks: int, after: int, before: int) -> bool:
        """Whether the steps of a stretch give so many blocks back."""
        if self.beat is None or self.last(after, before) is None:
            return False
        count = self.beat.first_from(before) - self.beat.first_from(after)
        return self.takes_all or count >= blocks


class Member:
    """A member, up to the last packet that it was given."""

    def __init__(
        self, shape: Shape, timer: Timer, pace: Pace, limits: Limits, run: Callable[[Cut], None]
    ) -> None:
        self.shape, self.timer, self.limits, self.run = shape, timer, limits, run
        self.reader = Reader(pace, shape.block_size)
        self.steps = Steps(pace, shape)
        self.back: deque[int] = deque()  # when each block that the reader has is given back
        self.beat = Beat(pace.stats * NANOSECONDS) if pace.stats else None
        self.stats_number = 1
        self.stats = self.beat.moment(1) if self.beat else NEVER
        self.unit, self.offset = timer.every * MILLISECOND, timer.shift if timer.every else 0
        self.last = 0  # when the last packet came
        self.begin(Piece(shape.new()), "new", None)

    def begin(self, piece: Piece, way: str, overlap: Piece | None) -> None:
        self.piece, self.ring, self.way, self.overlap = piece, piece.ring, way, overlap
        self.start = len(piece.records), len(piece.lines), piece.bytes, piece.text
        self.marks = deque([self.mark()], OVERLAP + 2)
        self.next_mark = self.ring.retired + self.shape.blocks
        self.aim()

    def mark(self) -> tuple[Place, int, int]:
        """The present place, and how many records and lines the piece has up to it."""
        piece = self.piece
        return Place.after(piece), len(piece.records), len(piece.lines)

    def aim(self) -> None:
        """Finds the next tick that is due."""
        if not self.unit:
            self.tick = NEVER
            return
        self.number = -(-(self.ring.deadline + self.piece.shift) // self.timer.every)
        self.tick = self.number * self.unit - self.offset

    # ---- what happens

    def give(self, times: list[int], needs: list[int], records: list[bytes]) -> None:
        """Packets come, by rising times."""
        sums = list(accumulate(needs, initial=0))
        sizes = list(accumulate(map(len, records), initial=0))
        at = 0
        while at < len(times):
            time = times[at]
            self.advance(time, time)
            if self.piece.bytes - self.start[2] >= self.limits.bytes:
                self.cut("state")
            self.cut_long_text()
            end = self.alike(times, sums, sizes, at)
            if end > at:
                self.piece.feed_all(needs[at:end], records[at:end], sizes[end] - sizes[at])
            else:
                self.give_one(time, needs[at], records[at])
                end = at + 1
            at, self.last = end, times[end - 1]

    def alike(self, times: list[int], sums: list[int], sizes: list[int], first: int) -> int:
        """Up to which packet all go into the open block, or all are dropped, and nothing happens
        between them; `first` where even that one is another."""
        ring, piece, end = self.ring, self.piece, len(times)
        if isinstance(ring, BlockRing) and ring.fits(sums[first + 1] - sums[first]):
            end = bisect_right(sums, sums[first] + ring.room - ring.used) - 1
        elif not ring.is_full:
            return first
        # A tick comes before a packet of its moment; reads and statistics after it.
        end = bisect_left(times, self.tick, first, end)
        end = bisect_right(times, min(self.back[0] if self.back else NEVER, self.stats), first, end)
        left = self.limits.bytes - (piece.bytes - self.start[2])
        end = min(end, bisect_left(sizes, sizes[first] + left, first))
        lines = (self.limits.text - (piece.text - self.start[3])) // len(FEED_LINE)
        return min(end, first + lines + 1)

    def give_one(self, time: int, need: int, record: bytes) -> None:
        """A packet comes that isn't like the others."""
        if self.ring.fits(need):
            is_handed = self.piece.feed(need, record)
        else:
            self.set_clock(time)
            is_handed = self.piece.feed(need, record)
            self.aim()
        if is_handed:
            self.hand_over(time)

    def cut_long_text(self) -> None:
        if self.piece.text - self.start[3] >= self.limits.text:
            self.cut("state")

    def set_clock(self, time: int) -> None:
        """The last tick before a packet, which isn't due: a block that it opens has a deadline."""
        label = self.timer.clock_at(time) - self.piece.shift
        if label > self.ring.clock:
            self.piece.tick(label)

    def hand_over(self, time: int) -> None:
        self.back.append(self.reader.taken(time))
        if self.ring.retired >= self.next_mark:
            self.marks.append(self.mark())
            self.next_mark = self.ring.retired + self.shape.blocks

    def advance(self, time: int, end: int) -> None:
        """Due ticks up to a time, and reads and statistics before another."""
        while True:
            read = self.back[0] if self.back else NEVER
            if self.tick <= time and self.tick <= min(read, self.stats):
                if not self.pause(time):
                    self.take_tick(min(time, read, self.stats))
            elif read < end and read <= self.stats:
                self.back.popleft()
                self.piece.read()
            elif self.stats < end:
                self.piece.stats()
                self.stats_number += 1
                self.stats = self.beat.moment(self.stats_number)
            else:
                return
            self.cut_long_text()

    def take_tick(self, until: int) -> None:
        """The next due tick; of those that do nothing the last one alone."""
        number, moment = self.number, self.tick
        if self.ring.is_still:
            step = -(-self.shape.timeout // self.timer.every)
            number += (until - moment) // (step * self.unit) * step
            moment = number * self.unit - self.offset
        is_handed = self.piece.tick(number * self.timer.every - self.piece.shift)
        self.aim()
        if is_handed:
            self.hand_over(moment)

    # ---- cuts

    def pause(self, time: int) -> bool:
        """Cuts at a pause before a time, where a piece is large enough and there is one."""
        ring, piece = self.ring, self.piece
        is_small = piece.bytes - self.start[2] < self.limits.bytes / 2
        if is_small and piece.text - self.start[3] < self.limits.text / 2:
            return False
        if ring.is_frozen or ring.inside or self.back:
            return False
        after = self.steps.last(self.tick, min(time, self.stats))
        if after is None:
            return False
        step = -(-self.shape.timeout // self.timer.every)
        number = self.number + (after - self.tick) // (step * self.unit) * step
        moment = number * self.unit - self.offset
        if not self.steps.give_back(self.shape.blocks, self.last, moment):
            return False
        for _ in range(self.shape.blocks):
            piece.read()
        piece.tick(number * self.timer.every - piece.shift)
        piece.read()
        new = self.shape.new()
        new.is_losing = ring.is_losing
        if ring.state() != new.state():
            raise Fault(f"after a pause a ring is as a new one, and here it is {ring.state()}")
        self.cut("pause")
        return True

    def cut(self, way: str) -> None:
        """Ends the piece; the next one begins with the state that is left."""
        old, place = self.piece, Place.after(self.piece)
        overlap = None
        if way == "state":
            overlap = self.overlapping(old, place)
        self.end()
        self.begin(begun(self.shape.new(), place), way, overlap)

    def overlapping(self, old: Piece, place: Place) -> Piece:
        """What is run before the next piece a second time: of the piece before it the last two
        rings, or all of it."""
        wanted = place.ring.retired - OVERLAP * self.shape.blocks
        found = [mark for mark in self.marks if mark[0].ring.retired <= wanted]
        start, record, line = found[-1] if found else self.marks[0]
        piece = begun(self.shape.new(), start)
        joined(piece, old, record, line)
        piece.stats()
        return piece

    def end(self) -> None:
        """The piece is ready."""
        cut = Cut(self.piece, self.way, self.overlap)
        if self.overlap:
            cut.before, cut.blocks = len(self.overlap.stretches), self.overlap.ring.retired
            joined(self.overlap, self.piece, self.start[0], self.start[1])
        self.run(cut)
