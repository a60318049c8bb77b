"""Which rings lose nothing, worked out apart from ringsize: a replay over rings of the second
program for each phase of the timer and each beginning of the reader (docs/reference.md, sections
13 and 14).

A gap between two frames costs as much as what happens in it: of the ticks between two other
events the first two and the last are done, and where nothing waits for the timer or a reader
nothing else is.
"""
from __future__ import annotations

from collections.abc import Iterator, Sequence
from typing import NamedTuple

from second import filter_verdicts
from second.frames import NANOSECONDS, Frame
from second.readers import MILLISECOND, Reader
from second.rings import Ring, RingKind, SlotRing
from second.runs import Replay
from second.setup import Setup

LONGEST = 4_294_967_295  # milliseconds that captures may last
MOST_BLOCKS, MOST_SLOTS, MOST_BYTES = 256, 65_536, 64 << 20  # what a setup may ask for


class Roomy(Ring):
    """A ring that has room for ever. It counts how many blocks it would have needed."""

    def __init__(self, setup: Setup) -> None:
        super().__init__(setup)
        self.need = 0

    def held(self, retired: int) -> bool:
        self.need = max(self.need, len(self.done) + retired + 1 - self.released)
        return False


class RoomySlots(SlotRing):
    """A ring that has a slot more for ever. It counts how many it would have needed."""

    def __init__(self, setup: Setup) -> None:
        super().__init__(setup)
        self.need = 0

    def held(self) -> bool:
        self.need = max(self.need, len(self.done) + 1 - self.released)
        return False


class Watched(Ring):
    """A ring that notes whether it ever found the next block still the reader's."""

    def __init__(self, setup: Setup) -> None:
        super().__init__(setup)
        self.was_held = False

    def held(self, retired: int) -> bool:
        is_held = super().held(retired)
        self.was_held |= is_held
        return is_held


class WatchedSlots(SlotRing):
    """A ring that notes whether it ever found the next slot still the reader's."""

    def __init__(self, setup: Setup) -> None:
        super().__init__(setup)
        self.was_held = False

    def held(self) -> bool:
        is_held = super().held()
        self.was_held |= is_held
        return is_held


class Feed(NamedTuple):
    """When a frame of a CPU comes."""

    moment: int
    cpu: int


def feeds_of(frames: Sequence[Sequence[Frame]]) -> list[Feed]:
    """The feeds of all CPUs, those of one moment in the order of the CPUs."""
    found, first = [], min((time_of(cpu[0]) for cpu in frames if cpu), default=0)
    for number, cpu in enumerate(frames):
        latest = 0
        for frame in cpu:
            latest = max(latest, time_of(frame))
            found.append(Feed(latest - first, number))
    return sorted(found)


def time_of(frame: Frame) -> int:
    return frame.sec * NANOSECONDS + frame.nsec


class Timed:
    """A replay by a reader's schedule, at a phase and a beginning."""

    def __init__(self, replay: Replay, reader: Reader, phase: int, begin: int) -> None:
        self.replay, self.reader, self.phase, self.begin = replay, reader, phase, begin
        self.tov, self.ticks, self.step = replay.setup.tov, 0, 0

    def run(self) -> list[Ring]:
        """The rings after the moment of the last frame."""
        feeds = feeds_of(self.replay.frames)
        for feed in feeds:
            self.go_to(feed.moment, feed.moment)
            self.replay.feed(feed.cpu)
        end = feeds[-1].moment if feeds else 0
        self.go_to(end, end + 1)
        return self.replay.rings

    def ticks_by(self, moment: int) -> int:
        """How many ticks come at a moment or before."""
        return (moment + self.phase * MILLISECOND) // (self.tov * MILLISECOND)

    def go_to(self, moment: int, before: int) -> None:
        """Does the ticks up to a moment, and the reads before another."""
        while not self.is_idle():
            self.step = self.reader.awake(self.step, self.begin)
            read_at = self.reader.moment(self.step, self.begin)
            if read_at >= before:
                break
            self.tick_to(self.ticks_by(read_at))
            self.read()
        self.step = max(self.step, self.reader.step_at(before, self.begin))
        self.tick_to(self.ticks_by(moment))

    def is_idle(self) -> bool:
        """Whether a tick moves the clock alone, and a read finds nothing."""
        return all(
            not ring.waits() and ring.released == len(ring.done) for ring in self.replay.rings
        )

    def tick_to(self, count: int) -> None:
        for number in sorted({self.ticks + 1, self.ticks + 2, count}):
            if self.ticks < number <= count:
                self.replay.line("tick", number * self.tov)
        self.ticks = max(self.ticks, count)

    def read(self) -> None:
        for ring in self.replay.rings:
            for _ in range(1 if self.reader.blocks else len(ring.done) - ring.released):
                ring.read()
        self.step += 1


class Place(NamedTuple):
    """A number, with the first phase and beginning at which it is reached."""

    number: int
    phase: int
    begin: int

    def text(self) -> str:
        return f"{self.number} phase {self.phase} from {self.begin}"


class Sizing:
    """What ringsize is asked: a setup, a reader, and what the captures have."""

    def __init__(
        self, setup: Setup, reader: Reader, captures: Sequence[bytes],
        program: filter_verdicts.Program | None = None
    ) -> None:
        self.setup, self.reader, self.captures, self.program = setup, reader, captures, program
        self.places = list(reader.tries(setup.tov))
        # the setup's own rings, those that have room for ever, and those that note what they find
        self.own: RingKind = SlotRing if reader.slots else Ring
        self.roomy: type[Roomy | RoomySlots] = RoomySlots if reader.slots else Roomy
        self.watched: type[Watched | WatchedSlots] = WatchedSlots if reader.slots else Watched

    def replay(self, kind: RingKind) -> Replay:
        return Replay(self.setup, self.captures, self.program, kind)

    def rings(self, kind: RingKind) -> Iterator[list[Ring]]:
        """The rings of each try."""
        for phase, begin in self.places:
            yield Timed(self.replay(kind), self.reader, phase, begin).run()

    def first(self, numbers: Sequence[int], wanted: int) -> Place:
        return Place(wanted, *self.places[numbers.index(wanted)])

    def smallest(self, needs: Sequence[int]) -> Place:
        """The smallest ring, where each try needs so many blocks."""
        most = max(needs)
        return self.first(needs, most) if most > 1 else Place(2, *self.places[0])

    def is_too_long(self) -> bool:
        feeds = feeds_of(self.replay(self.own).frames)
        return bool(feeds) and feeds[-1].moment > LONGEST * MILLISECOND

    def lines(self) -> str:
        """What is printed."""
        replay = self.replay(self.own)
        replay.feed_rest()
        found = list(replay.cpu_lines())
        if self.is_too_long():
            return "".join([*found, f"captures longer than {LONGEST} ms\n"])
        needs = [[ring.need for ring in rings] for rings in self.rings(self.roomy)]
        has_members = not self.setup.rolls_over()
        for member in range(self.setup.members * has_members):
            mine = self.smallest([each[member] for each in needs])
            found.append(f"member {member} {self.ring(mine)}")
        found.append(f"group {self.ring(self.smallest([max(each) for each in needs]))}")
        return "".join([*found, *(self.drops() if has_members else ())])

    def ring(self, place: Place) -> str:
        """A ring of so many blocks, or slots, and whether no setup may ask for it."""
        kind, most, size = (
            ("slots", MOST_SLOTS, self.setup.frame_size) if self.reader.slots
            else ("blocks", MOST_BLOCKS, self.setup.block_size)
        )
        is_beyond = place.number > most or place.number * size > MOST_BYTES
        return f"{kind} {place.text()}{' beyond' * is_beyond}\n"

    def drops(self) -> Iterator[str]:
        """What the setup's own rings drop, each and all together."""
        drops = [[ring.drops for ring in rings] for rings in self.rings(self.own)]
        for member in range(self.setup.members):
            yield f"member {member} {self.range([each[member] for each in drops])}"
        yield f"total {self.range([sum(each) for each in drops])}"

    def range(self, drops: Sequence[int]) -> str:
        least, most = self.first(drops, min(drops)), self.first(drops, max(drops))
        return f"drops least {least.text()} most {most.text()}\n"

    def by_trying(self) -> int:
        """The smallest ring of the group by trying each number of blocks, or slots, from 2 to 256:
        the first from which on no ring finds one held."""
        last_held = 1
        for count in range(2, MOST_BLOCKS + 1):
            self.setup.block_nr = self.setup.frame_nr = count
            if any(ring.was_held for rings in self.rings(self.watched) for ring in rings):
                last_held = count
        return last_held + 1
