"""The tools' own model of rings and readers: what is handed over when, and what is lost.

It is no proof and no judge. A pass over all phases of the timer is fast here, since a block is
filled by one look into a list of sums; `ringtap replay` then runs the ring at the phase that was
found, and a tool that sees other counts there says so and gives no answer.

Times are nanoseconds from the first frame on. At one moment ticks come first, then frames, then
reads, as in the schedules of `schedule.py`.
"""
from __future__ import annotations

from bisect import bisect_left, bisect_right
from collections import deque
from dataclasses import dataclass, field
from fractions import Fraction
from itertools import accumulate
from typing import Sequence

from .clock import MILLISECOND, NEVER, Pace, steps_of

PACKET_HEADER, DESCRIPTOR, ALIGNMENT = 82, 48, 8


def room_of(block_size: int, private: int = 0) -> int:
    """The bytes of a block that are for packets."""
    return block_size - DESCRIPTOR - -(-private // ALIGNMENT) * ALIGNMENT


def need_of(snap: int, room: int, reserved: int = 0) -> int:
    """The bytes that a packet takes in a block, with those that a program reserves besides."""
    header = PACKET_HEADER + reserved
    kept = header + min(snap, room - header)
    return -(-kept // ALIGNMENT) * ALIGNMENT


@dataclass(frozen=True)
class Given:
    """What one member is given: when each packet comes, and how many of its bytes at most."""

    times: Sequence[int]
    snaps: Sequence[int]


class Packets:
    """A member's packets over blocks of one size: `sums[n]` is what the first n take."""

    def __init__(self, given: Given, room: int, reserved: int = 0) -> None:
        self.times, self.room, self.count = given.times, room, len(given.times)
        needs = {snap: need_of(snap, room, reserved) for snap in set(given.snaps)}
        self.sums = [0, *accumulate(needs[snap] for snap in given.snaps)]

    def fill(self, first: int) -> int:
        """The first packet that has no room beside those from `first` on."""
        return bisect_right(self.sums, self.sums[first] + self.room) - 1


@dataclass(frozen=True)
class Timer:
    """The ticks of a ring: every so many milliseconds, begun some before the first frame."""

    every: int  # milliseconds; 0: never
    timeout: int
    phase: Fraction | int = 0

    def moment(self, number: int) -> int:
        return number * self.every * MILLISECOND - self.shift

    @property
    def shift(self) -> int:
        return int(self.phase * MILLISECOND) % (self.every * MILLISECOND)

    def clock_at(self, time: int) -> int:
        """The label of the last tick at or before a time."""
        return (time + self.shift) // (self.every * MILLISECOND) * self.every if self.every else 0


class Deadline:
    """Which tick is due next. A due tick sets the deadline anew, whatever it finds."""

    def __init__(self, timer: Timer) -> None:
        self.timer = timer
        self.step = -(-timer.timeout // timer.every) if timer.every else 0
        self.number = self.step  # of the next tick that is due
        self.unit, self.shift = timer.every * MILLISECOND, timer.shift if timer.every else 0

    def after(self, time: int) -> int:
        """The moment of the first due tick after a time, and those before it are taken."""
        if not self.unit:
            return NEVER
        moment = self.number * self.unit - self.shift
        if moment <= time:
            length = self.step * self.unit
            self.number += ((time - moment) // length + 1) * self.step
            moment = self.number * self.unit - self.shift
        return moment

    def take(self) -> None:
        """The due tick comes."""
        self.number += self.step

    def restart(self, time: int) -> None:
        """A packet opens a block: the deadline is a time-out after the last tick's moment."""
        if self.unit:
            self.number = (time + self.shift) // self.unit + self.step


class Reader:
    """When a block is given back that is handed over at some time; asked in order."""

    __slots__ = ("stalls", "takes_all", "delay", "beat", "number", "time")

    def __init__(self, pace: Pace, block_size: int) -> None:
        self.stalls = pace.stall_times()
        self.takes_all = not (pace.blocks or pace.bytes)
        self.delay = None if pace.poll is None else int(pace.poll * MILLISECOND)
        self.beat = steps_of(pace, block_size)
        self.begin()

    def begin(self) -> None:
        self.number = self.beat.first - 1 if self.beat else 0  # of the last step that took a block
        self.time = -1

    def taken(self, handed: int) -> int:
        """When the block is given back; NEVER where nobody reads."""
        if self.takes_all and handed <= self.time:
            return self.time
        if self.delay is not None:
            self.time = self.awake(handed + self.delay)
        elif self.beat is None:
            return NEVER
        else:
            number = max(self.number + 1, self.beat.first_from(handed))
            self.number, self.time = self.beat.awake_from(number, self.stalls)
        return self.time

    def awake(self, time: int) -> int:
        for start, stop in self.stalls:
            if start <= time < stop:
                time = stop
        return time


@dataclass
class Course:
    """What becomes of a ring: the counts that its `member` line prints, and when."""

    packets: int = 0
    drops: int = 0
    freezes: int = 0
    blocks: int = 0
    reads: list[int] = field(default_factory=list)  # when each block is given back

    @property
    def kept(self) -> int:
        return self.packets - self.drops

    def counts(self) -> tuple[int, int, int, int]:
        return self.packets, self.drops, self.freezes, self.blocks


def least_blocks(packets: Packets, timer: Timer, reader: Reader, end: int) -> int:
    """The fewest blocks with which the ring never freezes, up to the last frame of all."""
    reader.begin()
    deadline, times, count = Deadline(timer), packets.times, packets.count
    back: deque[int] = deque()  # when each block that the reader has is given back
    least = first = 0
    while first < count:
        last = packets.fill(first)
        tick = deadline.after(times[first])
        handed = min(tick, times[last] if last < count else NEVER)
        if handed > end:
            break
        if handed == tick:
            first = bisect_left(times, tick, first, last)
            deadline.take()
        else:
            first = last
            deadline.restart(handed)
        back.append(reader.taken(handed))
        while back[0] < handed:
            back.popleft()
        least = max(least, len(back))
    return least + 1


def course_of(packets: Packets, blocks: int, timer: Timer, reader: Reader, end: int) -> Course:
    """A ring of so many blocks, from the first frame to the last one of all."""
    reader.begin()
    deadline, times, count = Deadline(timer), packets.times, packets.count
    course, back, first, is_open = Course(count), deque(), 0, True
    while True:
        if is_open:
            if first >= count:
                return course
            last = packets.fill(first)
            tick = deadline.after(times[first])
            handed = min(tick, times[last] if last < count else NEVER)
            course.blocks += 1  # at the end the open block is handed over too
            if handed > end:
                return course
            read = reader.taken(handed)
            back.append(read)
            course.reads.append(read)
            while back and back[0] < handed:
                back.popleft()
            is_open = len(back) < blocks
            course.freezes += not is_open
            if handed == tick:
                first = bisect_left(times, tick, first, last)
                deadline.take()
            elif is_open:
                first = last
                deadline.restart(handed)
            else:
                first, course.drops = last + 1, course.drops + 1
        else:
            free = back[0]  # from then on a frame or a due tick goes on
            following = bisect_right(times, free, first)
            course.drops += following - first
            first = following
            tick = deadline.after(free)
            frame = times[first] if first < count else NEVER
            if min(tick, frame) > end:
                return course
            if frame < tick:
                deadline.restart(frame)
            else:
                deadline.take()
            moment = min(tick, frame)
            while back and back[0] < moment:
                back.popleft()
            is_open = True


def least_slots(given: Given, reader: Reader) -> int:
    """The fewest slots with which the ring loses nothing."""
    reader.begin()
    least, back = 1, deque()
    for time in given.times:
        while back and back[0] < time:
            back.popleft()
        back.append(reader.taken(time))
        least = max(least, len(back))
    return least


def course_of_slots(given: Given, slots: int, reader: Reader) -> Course:
    """A ring of so many slots: each packet is one, which is handed over at once."""
    reader.begin()
    course, back = Course(len(given.times)), deque()
    for time in given.times:
        while back and back[0] < time:
            back.popleft()
        if len(back) < slots:
            read = reader.taken(time)
            back.append(read)
            course.reads.append(read)
            course.blocks += 1
        else:
            course.drops += 1
    return course
