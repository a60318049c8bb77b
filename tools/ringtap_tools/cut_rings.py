"""A ring's state beside the pieces of a long run: all that the rest of the run depends on.

What that is says the theorem `rings_alike_go_on_alike` of ring_laws, and for slots the
`rings_of_slots_alike_go_on_alike` of replay_laws: the packets of the open block, how many blocks
the reader has, how far off the deadline is, and whether packets were lost since the statistics were
last taken. The state is worked out here and not proved; so each piece is compared with the program.
Moments are labels of ticks, milliseconds.
"""
from __future__ import annotations

from copy import copy

Counts = tuple[int, int, int]  # packets, drops and freezes


class SlotRing:
    """A ring of TPACKET_V2: each packet is a slot, handed over at once. No clock."""

    is_frozen, inside = False, 0

    def __init__(self, blocks: int) -> None:
        self.blocks = blocks
        self.out = 0  # with the reader
        self.is_losing = False
        self.packets = self.drops = self.freezes = self.retired = 0

    def fits(self, need: int) -> bool:
        """Whether a packet comes into the ring without a look at the clock."""
        return True

    def put(self, need: int) -> bool:
        """A packet comes; whether something is handed over."""
        self.packets += 1
        if self.out < self.blocks:
            self.out += 1
            self.retired += 1
            return True
        self.drop()
        return False

    @property
    def is_full(self) -> bool:
        """Whether each packet is dropped that comes before the reader's next step."""
        return self.out >= self.blocks

    def put_all(self, needs: list[int]) -> None:
        """Packets come, between which nothing else happens."""
        if self.is_full:
            self.packets += len(needs)
            self.drop(len(needs))
        else:
            for need in needs:
                self.put(need)

    def drop(self, count: int = 1) -> None:
        self.drops += count
        self.is_losing = True

    def read(self) -> None:
        self.out = max(0, self.out - 1)

    def take(self) -> None:
        """The statistics are taken."""
        self.is_losing = False

    def copy(self) -> SlotRing:
        return copy(self)

    def counts(self) -> Counts:
        return self.packets, self.drops, self.freezes

    def printed_blocks(self) -> int:
        """The blocks that a run prints which ends here: the open one is handed over too."""
        return self.retired + bool(self.inside)

    def state(self) -> tuple[object, ...]:
        return self.out, self.is_losing


class BlockRing(SlotRing):
    """A ring of TPACKET_V3."""

    def __init__(self, blocks: int, room: int, timeout: int) -> None:
        super().__init__(blocks)
        self.room, self.timeout = room, timeout
        self.clock, self.deadline = 0, timeout
        self.is_frozen = False
        self.used = self.inside = 0  # bytes and packets of the open block

    def fits(self, need: int) -> bool:
        return not self.is_frozen and self.used + need <= self.room

    @property
    def is_full(self) -> bool:
        return self.is_frozen and self.out >= self.blocks

    def put_all(self, needs: list[int]) -> None:
        whole = sum(needs)
        if self.fits(whole):
            self.packets += len(needs)
            self.used += whole
            self.inside += len(needs)
        else:
            super().put_all(needs)

    def put(self, need: int) -> bool:
        self.packets += 1
        if self.fits(need):
            self.used += need
            self.inside += 1
            return False
        is_retired = not self.is_frozen
        if is_retired:
            self.retire()
        if self.is_frozen and self.out >= self.blocks:
            self.drop()
        else:
            self.is_frozen, self.used, self.inside = False, need, 1
            self.deadline = self.clock + self.timeout
        return is_retired

    def retire(self) -> None:
        """Hands the open block over; where the next one is still the reader's the ring freezes."""
        self.out += 1
        self.retired += 1
        self.used = self.inside = 0
        self.is_frozen = self.out >= self.blocks
        self.freezes += self.is_frozen

    def tick(self, label: int) -> bool:
        """The clock comes to a moment; whether a block is handed over."""
        self.clock = label
        if label < self.deadline:
            return False
        self.deadline = label + self.timeout
        if self.is_frozen:
            self.is_frozen = self.out >= self.blocks
        elif self.inside:
            self.retire()
            return True
        return False

    @property
    def is_still(self) -> bool:
        """Whether a due tick does nothing but set the deadline."""
        return self.out >= self.blocks if self.is_frozen else not self.inside

    @property
    def left(self) -> int:
        return self.deadline - self.clock

    def state(self) -> tuple[object, ...]:
        open_block = self.is_frozen, self.used, self.inside
        return *super().state(), *open_block, self.left


Ring = BlockRing | SlotRing
