"""Rings at every whole millisecond of the timer, by the tools' own model.

For each ring of a grid it finds the fewest blocks that never freeze at any phase, and what smaller
rings lose at all of them. `ring_size.py` lets `ringtap replay` judge what is found here.
"""
from __future__ import annotations

import hashlib
import time
from copy import copy
from dataclasses import dataclass, field, replace
from fractions import Fraction

from .arrivals import Frames, numbered
from .clock import Pace
from .files import Fault
from .given import Offers, offers_of, rehashed
from .model import (
    Course,
    Given,
    Packets,
    Reader,
    Timer,
    course_of,
    course_of_slots,
    least_blocks,
    least_slots,
    need_of,
    room_of,
)
from .rollover import Arrival, BlockRing, SlotRing, rolled
from .runs import Progress, Room, say_how_long
from .schedule import DEFAULT_TIMEOUT, Fed
from .trials import ROLLOVER, KeyRange, Ring, span_words

OWN_KEY = None  # the key that the setup has
FEW_PHASES = 64  # at which further keys are looked at before the worst of them is at all


def key_of(number: int) -> str:
    """A key like a random one, the same whenever it is asked for: SHA-256 of its number."""
    words = (hashlib.sha256(f"ringtap key {number} {part}".encode()).hexdigest() for part in "ab")
    return "".join(words)[:80]


@dataclass(frozen=True)
class Least:
    """The fewest blocks that never freeze, or slots that lose nothing, and a phase and a key at
    which it takes as many; and the reader's beginning, in milliseconds, where it isn't that of the
    pace."""

    count: int
    phase: int
    key: str | None = OWN_KEY
    begin: int | None = None


@dataclass
class Losses:
    """What rings of so many blocks lose, by phase, under a key."""

    drops: list[int] = field(default_factory=list)
    key: str | None = OWN_KEY

    @property
    def most(self) -> int:
        return max(self.drops)

    @property
    def fewest(self) -> int:
        return min(self.drops)


class Model:
    """What the members of any ring of the grid are given, and what becomes of it."""

    def __init__(self, room: Room, fed: Fed, pace: Pace, reserved: int = 0) -> None:
        self.room, self.fed, self.pace, self.reserved = room, fed, pace, reserved
        self.captures: list[Frames] = numbered(room)
        self.queues = [cpu.queue for cpu in room.setup.cpus]
        self.private = room.setup.number("priv", 0)
        self.offers: dict[str | None, Offers] = {OWN_KEY: offers_of(room, self.captures, fed)}
        self.packets: dict[tuple, list[Packets]] = {}

    def with_reserve(self, reserved: int) -> Model:
        """The same packets in rings that reserve so many bytes more of each."""
        other = copy(self)
        other.reserved, other.packets = reserved, {}
        return other

    def with_pace(self, pace: Pace) -> Model:
        """The same packets and another reader."""
        other = copy(self)
        other.pace = pace
        return other

    def offers_by(self, key: str | None) -> Offers:
        if key not in self.offers:
            own = self.offers[OWN_KEY]
            self.offers[key] = rehashed(own, self.room, self.captures, self.fed, key or "")
        return self.offers[key]

    def dealt(self, ring: Ring, key: str | None = OWN_KEY) -> list[Given]:
        """What each member of a ring is given."""
        return self.offers_by(key).dealt(ring.mode, ring.members, self.queues)

    def packets_of(self, ring: Ring, key: str | None = OWN_KEY) -> list[Packets]:
        """The same over its blocks; of the last ring alone it is held."""
        name = ring.mode, ring.members, ring.block_size, key
        if name not in self.packets:
            room = room_of(ring.block_size, self.private)
            made = [Packets(given, room, self.reserved) for given in self.dealt(ring, key)]
            self.packets = {name: made}
        return self.packets[name]

    def timer(self, ring: Ring, phase: int | Fraction) -> Timer:
        timeout = ring.timeout or DEFAULT_TIMEOUT
        return Timer(timeout if self.pace.tick is None else self.pace.tick, timeout, phase)

    def phases(self, ring: Ring) -> range:
        """Every whole millisecond below the distance of two ticks; slots have no timer."""
        return range(1 if ring.is_v2 else max(1, self.timer(ring, 0).every))

    def reader(self, ring: Ring) -> Reader:
        return Reader(self.pace, ring.unit_size)

    def least_at(self, ring: Ring, phase: int, key: str | None = OWN_KEY) -> int:
        """The smallest ring at a phase; of all members as large as one needs."""
        timer, reader, end = self.timer(ring, phase), self.reader(ring), self.fed.end
        if ring.is_v2:
            return max(least_slots(one, reader) for one in self.dealt(ring, key))
        return max(least_blocks(one, timer, reader, end) for one in self.packets_of(ring, key))

    def courses(
        self, ring: Ring, phase: int, key: str | None = OWN_KEY, is_kernel: bool = False
    ) -> list[Course]:
        """What becomes of each member at a phase, where a group rolls over also as in a kernel."""
        timer, end = self.timer(ring, phase), self.fed.end
        mode = ring.mode.removesuffix(ROLLOVER)
        if ring.mode != mode or mode == "rollover":
            return self.rolled_over(ring, mode, timer, key, is_kernel)
        if ring.is_v2:
            return [
                course_of_slots(given, ring.slots, self.reader(ring))
                for given in self.dealt(ring, key)
            ]
        reader = self.reader(ring)
        return [
            course_of(one, ring.block_nr, timer, reader, end) for one in self.packets_of(ring, key)
        ]

    def rolled_over(
        self, ring: Ring, mode: str, timer: Timer, key: str | None, is_kernel: bool
    ) -> list[Course]:
        offers, room = self.offers_by(key), room_of(ring.block_size, self.private)
        needs = {snap: need_of(snap, room, self.reserved) for snap in set(offers.snaps)}
        homes = offers.homes(mode, ring.members, self.queues)
        arrivals = [
            Arrival(when, cpu, home, needs[snap])
            for when, cpu, home, snap in zip(offers.times, offers.cpus, homes, offers.snaps)
        ]
        rings: list[BlockRing] = [
            (
                SlotRing(ring.slots, self.reader(ring))
                if ring.is_v2
                else BlockRing(room, ring.block_nr, timer, self.reader(ring))
            )
            for _ in range(ring.members)
        ]
        return rolled(arrivals, rings, mode == "rollover", is_kernel, self.fed.end)

    def drops_at(self, ring: Ring, phase: int, key: str | None = OWN_KEY) -> int:
        return sum(course.drops for course in self.courses(ring, phase, key))

    def reads(self, ring: Ring, phase: int, key: str | None = OWN_KEY) -> list[list[int]]:
        """When each member's reader reads."""
        return [course.reads for course in self.courses(ring, phase, key)]

    # ---- over all phases

    def worst_least(self, ring: Ring, key: str | None = OWN_KEY, most: int | None = None) -> Least:
        """The smallest ring at any phase, or at so many of them."""
        phases = self.phases(ring)
        tried = phases if most is None else few_of(phases, most)
        progress = self.progress_of(ring, len(tried), f"phases of {ring.line_words()}", key)
        best = Least(0, 0, key)
        for phase in tried:
            count = self.least_at(ring, phase, key)
            if count > best.count:
                best = Least(count, phase, key)
            progress.step()
        return best

    def losses(self, ring: Ring, key: str | None = OWN_KEY) -> Losses:
        """What a ring loses at each phase."""
        phases = self.phases(ring)
        progress = self.progress_of(ring, len(phases), f"phases of {ring.block_nr} blocks", key)
        found = Losses([], key)
        for phase in phases:
            found.drops.append(self.drops_at(ring, phase, key))
            progress.step()
        return found

    def progress_of(self, ring: Ring, count: int, what: str, key: str | None) -> Progress:
        """A bar; where the first of several phases shows that it takes long, it is said how
        long."""
        if count == 1:
            return Progress(count, what, is_shown=False)
        self.packets_of(ring, key)
        begin = time.monotonic()
        self.least_at(ring, 0, key)
        needed = (time.monotonic() - begin) * count
        say_how_long(f"{count} {what}", needed)
        return Progress(count, what, is_shown=needed > 1)


def few_of(phases: range, most: int) -> list[int]:
    """So many of the phases, evenly."""
    return sorted({len(phases) * number // most for number in range(most)})


@dataclass(frozen=True)
class Keys:
    """What a hash needs under the setup's key, and under others: a kernel's is a secret."""

    own: Least
    others: tuple[Least, ...]

    @property
    def worst(self) -> Least:
        return max((self.own, *self.others), key=lambda least: least.count)

    def words(self, unit: str) -> str:
        return (
            f"mode hash: the setup's key needs {self.own.count} {unit}s, {len(self.others)} further"
            f" keys {span_words(self.span())}; a kernel's key is a secret of its boot, so the worst"
            " counts"
        )

    def span(self) -> tuple[int, int]:
        """The fewest and the most blocks, or slots, that one of the others needs."""
        needs = [least.count for least in self.others]
        return min(needs), max(needs)

    def object(self) -> dict[str, object]:
        return {"own": self.own.count, "others": list(self.span()), "count": len(self.others)}


def keys_of(model: Model, ring: Ring, count: int) -> Keys:
    """The smallest ring under the setup's key, and under so many others, of which the worst one is
    looked at in all phases."""
    own = model.worst_least(ring)
    others = [model.worst_least(ring, key_of(number), FEW_PHASES) for number in range(1, count + 1)]
    if others:
        worst = max(range(count), key=lambda at: others[at].count)
        others[worst] = model.worst_least(ring, others[worst].key)
    return Keys(own, tuple(others))


def key_ranges(model: Model, rings: list[Ring], count: int) -> list[KeyRange]:
    """What rings of one line lose at some phases, under the setup's key and so many others."""
    phases = few_of(model.phases(rings[0]), FEW_PHASES)
    progress, begin = Progress(1 + count, "keys"), time.monotonic()
    spans: list[list[tuple[int, int]]] = []  # of each key, and of each ring
    for key in (OWN_KEY, *map(key_of, range(1, count + 1))):
        drops = [[model.drops_at(ring, phase, key) for phase in phases] for ring in rings]
        spans.append([(min(one), max(one)) for one in drops])
        if len(spans) == 1:
            say_how_long(f"{1 + count} keys", (time.monotonic() - begin) * (1 + count))
        progress.step()
    return [
        KeyRange(
            mine[0], (min(few for few, _ in mine), max(most for _, most in mine)), len(phases)
        )
        for mine in zip(*spans)
    ]


def rung(ring: Ring, least: int) -> list[int]:
    """The numbers of blocks that a table shows: doubled up to the least, and its neighbour."""
    shown, count = [], 2
    while count < least:
        shown.append(count)
        count *= 2
    shown += [least - 1, least, 2 * least]
    return sorted({count for count in shown if count >= 2 and replace(ring, block_nr=count).fits})


def compare(ring: Ring, phase: int, mine: list[Course], printed: list[tuple[int, ...]]) -> None:
    """A model with other counts than the program printed gives no answer."""
    counts = [course.counts() for course in mine]
    if counts != printed:
        raise Fault(
            f"{ring.words()}, at phase {phase}: the program printed {printed} (packets, drops,"
            f" freezes, blocks), and the tool's own model gives {counts}"
        )
