"""What an accepted reader's text says (docs/reference.md, section 13), and when its reader reads,
for the second program. Moments are nanoseconds, counted from the first frame on."""
from __future__ import annotations

from collections.abc import Iterator

MILLISECOND, SECOND = 1_000_000, 1_000_000_000


class Reader:
    """A reader that sleeps `pause` milliseconds and then takes all that is there, or that takes
    one block `blocks` times a second; and whether its rings are of slots."""

    def __init__(self, text: str) -> None:
        self.pause = self.blocks = 0
        self.slots = False
        self.stalls: list[tuple[int, int]] = []  # when each begins and ends
        self.phase: int | None = None
        self.begin: int | None = None
        for line in text.splitlines():
            word, *values = line.split() or ["#"]
            if word == "stall":
                begin, long = map(int, values)
                self.stalls.append((begin * MILLISECOND, (begin + long) * MILLISECOND))
            elif word == "phase":
                self.phase = int(values[0])
            elif word == "from" and values != ["all"]:
                self.begin = int(values[0])
            elif word == "slots":
                self.slots = True
            elif word in ("pause", "blocks"):
                setattr(self, word, int(values[0]))

    def phases(self, tov: int) -> range:
        """The phases of the timer that are tried; a ring of slots has none."""
        if self.slots:
            return range(1)
        return range(tov) if self.phase is None else range(self.phase, self.phase + 1)

    def beginnings(self) -> range:
        """The beginnings of the reader that are tried: all below its period."""
        if self.begin is not None:
            return range(self.begin, self.begin + 1)
        return range(self.pause or -(-1000 // self.blocks))

    def tries(self, tov: int) -> Iterator[tuple[int, int]]:
        """Each phase with each beginning, in the order in which they are tried."""
        return ((phase, begin) for phase in self.phases(tov) for begin in self.beginnings())

    def moment(self, step: int, begin: int) -> int:
        """When step k, from 0 up, of a reader comes that begins at a millisecond."""
        after = step * SECOND // self.blocks if self.blocks else step * self.pause * MILLISECOND
        return begin * MILLISECOND + after

    def step_at(self, moment: int, begin: int) -> int:
        """The first step that comes at a moment or later."""
        after = max(moment - begin * MILLISECOND, 0)
        step = (
            after * self.blocks // SECOND if self.blocks else after // (self.pause * MILLISECOND)
        )
        return step + (self.moment(step, begin) < moment)

    def awake(self, step: int, begin: int) -> int:
        """This step, or the first one after it that is in no stall."""
        moment = self.moment(step, begin)
        for start, end in sorted(self.stalls):
            if start <= moment < end:
                step = self.step_at(end, begin)
                moment = self.moment(step, begin)
        return step
