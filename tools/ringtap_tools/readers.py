"""Which readers explain a drop counter: an operator knows what was lost, and not what his reader
did.

By the tools' own model, for the ring that a setup has: the phases of the timer at which the reader
as given loses so many; one stop of the reader, begun anywhere; or a reader of so many blocks a
second. For each it says how long or how fast, and the smallest ring that would never have frozen;
the program runs an example of each.
"""
from __future__ import annotations

import math
import time
from dataclasses import dataclass, replace
from fractions import Fraction
from typing import Sequence

from .about import about_object, refuse_filtered, refuse_parts
from .advice import make_longer
from .clock import MILLISECOND, Pace
from .files import Fault
from .runs import Progress, Report, Room, say_how_long
from .schedule import About, feeds
from .search import FEW_PHASES, Model, few_of
from .trials import RESERVED, Ring, Trials

BEGINS = 16  # moments at which a stop is begun
FASTEST, SLOWEST = Fraction(1_000_000), Fraction(1, 1000)  # blocks a second
STEPS = 24  # of halving between two speeds


@dataclass(frozen=True)
class Reading:
    """Readers that explain a counter: what kind, from which number to which, and the ring for
    them."""

    kind: str  # "phase", "stop" or "speed"
    least: float
    most: float
    begins: tuple[float, float] | None  # of a stop, milliseconds
    blocks: int
    example: tuple[Pace, int] | None  # a reader and a phase that lose just so many
    phases: tuple[int, int] | None  # of those tried the first and the last at which one does

    def words(self, ring: Ring) -> str:
        said = f"{self.reader()}{self.where()}: {self.blocks} blocks of {ring.block_size} bytes"
        if not self.example:
            return f"{said} never freeze"
        return f"{said} never freeze; `ringtap replay` drops as many at phase {self.example[1]}"

    def reader(self) -> str:
        if self.kind == "phase":
            return "the timer alone"
        if self.kind == "stop":
            first, last = self.begins or (0, 0)
            begun = f"from {first:g} to {last:g} ms on" if first != last else f"at {first:g} ms"
            return f"one stop of the reader of {self.least:g} to {self.most:g} ms, begun {begun}"
        return f"a reader of {self.least:.4g} to {self.most:.4g} blocks a second"

    def where(self) -> str:
        if not self.phases:
            return ""
        first, last = self.phases
        return f", at phases from {first} to {last} ms" if first != last else f", at phase {first}"

    def object(self) -> dict[str, object]:
        return {
            "kind": self.kind,
            "least": self.least,
            "most": self.most,
            "begins": self.begins,
            "phases": self.phases,
            "blocks": self.blocks,
            "phase_of_example": self.example[1] if self.example else None,
        }


class Readings:
    """The readers that lose so many packets over a ring."""

    def __init__(self, model: Model, ring: Ring, lost: int, count: int = FEW_PHASES) -> None:
        self.model, self.ring, self.lost = model, ring, lost
        phases = model.phases(ring)
        self.few = few_of(phases, min(len(phases), count))
        self.begin()

    def begin(self) -> None:
        """Nothing is found yet."""
        self.example: tuple[Pace, int] | None = None
        self.found: set[int] = set()  # phases at which just so many are lost

    def phases(self) -> tuple[int, int] | None:
        return (min(self.found), max(self.found)) if self.found else None

    def tried(self) -> str:
        """How much of all there is was tried, in words."""
        whole = len(self.model.phases(self.ring))
        where = "each phase" if len(self.few) == whole else f"{len(self.few)} of {whole} phases"
        return f"stops, from {BEGINS} moments on, and speeds were tried at {where} of the timer"

    def drops(self, pace: Pace, phases: list[int] | None = None) -> list[int]:
        """What a reader loses at some phases; one that loses just so many is kept as an example."""
        tried = self.few if phases is None else phases
        model = self.model.with_pace(pace)
        drops = [model.drops_at(self.ring, phase) for phase in tried]
        found = [phase for phase, count in zip(tried, drops) if count == self.lost]
        self.found.update(found)
        if found and self.example is None:
            self.example = pace, found[0]
        return drops

    def blocks(self, pace: Pace, phases: list[int] | None = None) -> int:
        """The smallest ring for a reader."""
        model = self.model.with_pace(pace)
        tried = phases or list(model.phases(self.ring))
        return max(model.least_at(self.ring, phase) for phase in tried)

    def by_phase(self) -> Reading | None:
        """The reader as it is given, at every whole millisecond of the timer."""
        self.begin()
        self.drops(self.model.pace, list(self.model.phases(self.ring)))
        span = self.phases()
        if not span:
            return None
        blocks = self.blocks(self.model.pace, sorted(self.found))
        return Reading("phase", *span, None, blocks, self.example, span)

    def by_stop(self) -> Reading | None:
        """One stop more than the reader has, begun at moments that are spread over the capture."""
        self.begin()
        end = self.model.fed.end // MILLISECOND
        progress, found = Progress(BEGINS, "moments of a stop"), []
        for number in range(BEGINS):
            begin = end * number // BEGINS
            span = self.lengths(begin, end - begin + 1)
            progress.step()
            if span:
                found.append((begin, *span))
        if not found:
            return None
        begins = min(one[0] for one in found), max(one[0] for one in found)
        lengths = min(one[1] for one in found), max(one[2] for one in found)
        blocks = max(self.blocks(self.stopped(begin, most)) for begin, _, most in found)
        return Reading("stop", *lengths, begins, blocks, self.example, self.phases())

    def stopped(self, begin: int, length: int) -> Pace:
        stop = Fraction(begin), Fraction(length)
        return replace(self.model.pace, stalls=(*self.model.pace.stalls, stop))

    def lengths(self, begin: int, longest: int) -> tuple[int, int] | None:
        """The shortest and the longest stop that some phase explains the counter by."""
        shortest = first_true(
            1, longest, lambda length: max(self.drops(self.stopped(begin, length))) >= self.lost
        )
        past = first_true(
            1, longest, lambda length: min(self.drops(self.stopped(begin, length))) > self.lost
        )
        if shortest is None:
            return None
        most = longest if past is None else past - 1
        return (shortest, most) if shortest <= most else None

    def by_speed(self) -> Reading | None:
        """A reader that takes so many blocks a second."""
        self.begin()

        def at(step: int) -> Pace:
            speed = float(SLOWEST) * (float(FASTEST / SLOWEST) ** (step / (1 << STEPS)))
            plain = replace(self.model.pace, pause=None, bytes=None, poll=None)
            return replace(plain, blocks=Fraction(speed).limit_denominator(1_000_000))

        most_steps = 1 << STEPS
        slow = first_true(0, most_steps, lambda step: min(self.drops(at(step))) <= self.lost)
        fast = first_true(0, most_steps, lambda step: max(self.drops(at(step))) < self.lost)
        if slow is None or fast == 0:
            return None
        last = most_steps if fast is None else fast - 1
        if slow > last:
            return None
        blocks = self.blocks(at(slow))
        speeds = float(at(slow).blocks), float(at(last).blocks)
        return Reading("speed", *speeds, None, blocks, self.example, self.phases())

    def all(self) -> list[Reading]:
        self.announce()
        return [one for one in (self.by_phase(), self.by_stop(), self.by_speed()) if one]

    def announce(self) -> None:
        """Says how long it takes, by one look at one phase."""
        begin = time.monotonic()
        self.model.drops_at(self.ring, 0)
        each = time.monotonic() - begin
        halvings = math.log2(max(2, self.model.fed.end / MILLISECOND))
        at_few = 2 * BEGINS * halvings + 2 * STEPS
        count = len(self.few) * at_few + len(self.model.phases(self.ring)) * (BEGINS + 2)
        say_how_long("readers that explain it", each * count)


def first_true(low: int, high: int, test) -> int | None:
    """The first number for which a test holds that holds from some number on; None where none
    does."""
    if not test(high):
        return None
    while low < high:
        middle = (low + high) // 2
        if test(middle):
            high = middle
        else:
            low = middle + 1
    return low


@dataclass(frozen=True)
class Explained:
    """The readers that explain a counter, and of what captures."""

    readings: list[Reading]
    about: Sequence[About]
    filtered: int
    phases: int  # at how many stops and speeds were tried
    tried: str

    @property
    def blocks(self) -> int | None:
        """The largest ring that one of them needs."""
        return max((one.blocks for one in self.readings), default=None)

    def object(self) -> dict[str, object]:
        return {
            "phases": self.phases,
            "readings": [one.object() for one in self.readings],
            "blocks": self.blocks,
            "about": about_object(self.about, self.filtered),
        }


def explain(
    room: Room, pace: Pace, ring: Ring, lost: int, phases: int, is_reserved: bool
) -> Explained:
    """The readers that lose so many packets over a ring."""
    fed = feeds(room.streams(), pace)
    refuse_parts(fed.about)
    model = Model(room, fed, pace, RESERVED * is_reserved)
    trials = Trials(room, fed, pace, 1, 1)
    if is_reserved:
        make_longer(trials)
    report = run_at(trials, model, ring, pace, 0)
    refuse_filtered(fed.about, report.arrivals, report.filtered)
    readings = Readings(model, ring, lost, phases)
    found = readings.all()
    for one in filter(lambda one: one.example, found):
        drops = run_at(trials, model, ring, *one.example).drops
        if drops != lost:
            said = f"{one.words(ring)}: the program drops {drops:,}"
            raise Fault(f"{said}, and the tool's own model {lost:,}")
    return Explained(found, fed.about, report.filtered, len(readings.few), readings.tried())


def run_at(trials: Trials, model: Model, ring: Ring, pace: Pace, phase: int) -> Report:
    """What the program prints of a reader at a phase."""
    one = Trials(trials.room, trials.fed, pace, 1, 1)
    one.captures, one.reserved = trials.captures, trials.reserved
    one.reads = model.with_pace(pace).reads if pace.poll is not None else None
    return one.run(ring, phase)
