"""What happens beside the feeds of a schedule: ticks, the readers' steps and statistics, without
those that can do nothing.

Left out are reads of a member of which no block can be waiting, ticks that retire nothing and open
nothing, save the last one before a feed, since that moves the clock, and later ticks of a silence
where the deadlines come out the same. So a schedule is no longer for an hour without a frame, and
the run that it gives is the same: docs/tools.md says why.

Times are nanoseconds from the first frame on, labels of ticks milliseconds.
"""
from __future__ import annotations

from collections import deque
from dataclasses import dataclass
from fractions import Fraction
from typing import Iterator, Sequence

from .files import LARGEST_NUMBER, NANOSECONDS

MILLISECOND = 1_000_000  # nanoseconds
NEVER = 1 << 100

Stalls = Sequence[tuple[int, int]]  # from when to when no reader reads, nanoseconds, rising


@dataclass(frozen=True)
class Pace:
    """What is done beside the feeds. A number that isn't there means never."""

    speed: Fraction = Fraction(1)  # how much faster than in the captures the frames come
    tick: int | None = None  # milliseconds; without it the time-out of the setup; 0 never
    # milliseconds by which the timer was started before the first frame
    phase: Fraction = Fraction(0)
    blocks: Fraction | None = None  # blocks a second that a reader takes
    bytes: Fraction | None = None  # bytes a second
    # milliseconds that a reader sleeps before it takes all that is there
    pause: Fraction | None = None
    # milliseconds from a hand-over to the reader, who then takes all that is there
    poll: Fraction | None = None
    # from which millisecond on, for how many, no reader reads
    stalls: tuple[tuple[Fraction, Fraction], ...] = ()
    stats: Fraction = Fraction(0)  # seconds; 0 never
    packets: Fraction | None = None  # that come a second, whatever the captures' times
    bits: Fraction | None = None  # the same of bits on the wire
    # milliseconds from the first frame to the reader's first step; without it a period
    begin: Fraction | None = None

    @property
    def has_reader(self) -> bool:
        return bool(self.blocks or self.bytes or self.pause) or self.poll is not None

    def stall_times(self) -> Stalls:
        return sorted(
            (int(start * MILLISECOND), int((start + length) * MILLISECOND))
            for start, length in self.stalls
        )


@dataclass(frozen=True)
class Shape:
    """What a schedule has to know of a ring and its group. A ring of TPACKET_V2 has its slots as
    blocks, and no time-out."""

    members: int
    block_size: int
    block_nr: int
    timeout: int | None  # milliseconds


@dataclass(frozen=True)
class Beat:
    """Moments that come again and again: moment n, from the first on, is n periods less a shift."""

    period: Fraction
    shift: int = 0
    first: int = 1

    def moment(self, number: int) -> int:
        return self.period.numerator * number // self.period.denominator - self.shift

    def first_from(self, time: int) -> int:
        """The number of the first moment at or after a time."""
        number = -(-(time + self.shift) * self.period.denominator // self.period.numerator)
        return max(self.first, number)

    def last_by(self, time: int) -> int:
        """The number of the last moment at or before a time."""
        return self.first_from(time + 1) - 1

    def awake_from(self, number: int, stalls: Stalls) -> tuple[int, int]:
        """The first moment from a number on that isn't in a stall: its number, and when it is."""
        time = self.moment(number)
        for start, stop in stalls:
            if start <= time < stop:
                number = self.first_from(stop)
                time = self.moment(number)
        return number, time


def steps_of(pace: Pace, block_size: int) -> Beat | None:
    """The steps of a reader that takes no notice of blocks."""
    if pace.blocks:
        period = NANOSECONDS / Fraction(pace.blocks)
    elif pace.bytes:
        period = block_size * NANOSECONDS / Fraction(pace.bytes)
    elif pace.pause:
        period = Fraction(pace.pause) * MILLISECOND
    else:
        return None
    return Beat(period) if pace.begin is None else Beat(period, -int(pace.begin * MILLISECOND), 0)


def first_step(pace: Pace, block_size: int) -> Fraction | None:
    """How many milliseconds after the first frame such a reader makes its first step."""
    beat = steps_of(pace, block_size)
    return beat and Fraction(beat.moment(beat.first), MILLISECOND)


class Ticker:
    """The ticks that can do something. It knows each deadline that a ring can have: a tick that is
    due and a packet that opens a block set it to the clock plus the time-out."""

    def __init__(self, every: int, timeout: int, phase: Fraction) -> None:
        self.every = every
        self.beat = Beat(
            Fraction(every * MILLISECOND), int(phase * MILLISECOND) % (every * MILLISECOND)
        )
        self.round = -(-timeout // every)  # ticks from one that is due to the next
        self.timeout = timeout
        self.number = self.clock = 0
        self.latest = 0  # when each ring that may have packets is due
        self.deadlines = deque([timeout])  # rising

    def feed(self) -> None:
        self.latest = self.clock + self.timeout
        if self.deadlines[-1] != self.latest:
            self.deadlines.append(self.latest)

    def next(self, time: int) -> int | None:
        """The number of the next tick, at or before a time, that isn't left out."""
        last = min(self.beat.last_by(time), LARGEST_NUMBER // self.every)
        if last <= self.number:
            return None
        due = max(self.number + 1, -(-self.deadlines[0] // self.every))
        if due > last:
            return last
        if self.clock >= self.latest and len(self.deadlines) == 1:
            # Nothing is open: of the ticks that are due the last one gives the deadline of all
            # together.
            due += (last - due) // self.round * self.round
        return due

    def take(self, number: int) -> bool:
        """Makes a tick; says whether it can retire a block."""
        could_retire = self.clock < self.latest
        self.number, self.clock = number, number * self.every
        is_due = False
        while self.deadlines and self.deadlines[0] <= self.clock:
            self.deadlines.popleft()
            is_due = True
        if is_due:
            self.deadlines.append(self.clock + self.timeout)
        return is_due and could_retire


class GivenReads:
    """Reads that were worked out before: at each time, which members' readers read how often."""

    def __init__(self, reads: list[list[int]]) -> None:
        """The times of each member's reads, rising."""
        lines: dict[int, str] = {}
        for member, times in enumerate(reads):
            for time in times:
                lines[time] = lines.get(time, "") + f"read {member}\n"
        self.lines = sorted((time, text) for time, text in lines.items() if time < NEVER)
        self.at = 0

    @property
    def time(self) -> int | None:
        return self.lines[self.at][0] if self.at < len(self.lines) else None

    def add(self, now: int) -> None:
        """What may wait is known already."""

    def take(self) -> str:
        self.at += 1
        return self.lines[self.at - 1][1]


class Readers:
    """The readers' steps. Each feed, and each tick that retires, can make one block more wait for a
    member."""

    def __init__(self, pace: Pace, shape: Shape) -> None:
        self.steps = 1 if pace.blocks or pace.bytes else shape.block_nr
        self.beat = steps_of(pace, shape.block_size) or Beat(Fraction(MILLISECOND))
        self.stalls = pace.stall_times()
        self.waiting, self.most = [0] * shape.members, shape.block_nr
        self.number = self.beat.first  # of the next step
        self.time = NEVER if pace.has_reader else None  # of the next one that can find something

    def add(self, now: int) -> None:
        """One block more may wait for each member."""
        if self.time is None:
            return
        self.waiting = [min(count + 1, self.most) for count in self.waiting]
        if self.time == NEVER:
            number = max(self.number, self.beat.first_from(now))
            self.number, self.time = self.beat.awake_from(number, self.stalls)

    def take(self) -> str:
        """The lines of the next step."""
        lines = []
        for member, count in enumerate(self.waiting):
            taken = min(count, self.steps)
            self.waiting[member] -= taken
            lines.append(taken * f"read {member}\n")
        self.number, self.time = self.number + 1, NEVER
        if any(self.waiting):
            self.number, self.time = self.beat.awake_from(self.number, self.stalls)
        return "".join(lines)


class Beside:
    """All that happens beside the feeds. At one moment ticks come first, then feeds, then reads,
    then statistics."""

    def __init__(self, pace: Pace, shape: Shape, reads: list[list[int]] | None = None) -> None:
        every = shape.timeout if pace.tick is None else pace.tick
        self.ticker = Ticker(every, shape.timeout, pace.phase) if every and shape.timeout else None
        self.readers = Readers(pace, shape) if reads is None else GivenReads(reads)
        self.stats = Beat(pace.stats * NANOSECONDS) if pace.stats else None
        self.counted = "".join(f"stats {member}\n" for member in range(shape.members))
        self.stats_number = 1

    def feed(self, now: int) -> None:
        if self.ticker:
            self.ticker.feed()
        self.readers.add(now)

    def until(self, time: int, end: int) -> Iterator[str]:
        """The lines of the ticks up to a time, and of the rest before `end`."""
        while True:
            number = self.ticker.next(time) if self.ticker else None
            tick = NEVER if number is None else self.ticker.beat.moment(number)
            read = NEVER if self.readers.time is None else self.readers.time
            stats = self.stats.moment(self.stats_number) if self.stats else NEVER
            if tick <= min(read, stats) and tick != NEVER:
                yield f"tick {number * self.ticker.every}\n"
                if self.ticker.take(number):
                    self.readers.add(tick)
            elif min(read, stats) >= end:
                return
            elif read <= stats:
                yield self.readers.take()
            else:
                yield self.counted
                self.stats_number += 1
