"""Small setups with readers, drawn from a number, and what `ringtap replay` says of each of their
tries: the drops of the setup's own ring, and which rings find the next block held."""
from __future__ import annotations

import random
import re
from collections.abc import Iterator, Sequence
from dataclasses import dataclass, field
from pathlib import Path

import running
from second import filter_verdicts
from second.capture_bytes import header, record
from second.hash_values import KEY
from second.readers import MILLISECOND, SECOND, Reader
from second.replays import FILTERS, datagram, frame
from second.setup import Setup
from second.sizes import Sizing, feeds_of

START = 1_000_000  # seconds, of the first frame
LONG = 3_000  # milliseconds up to which a schedule is written out


@dataclass(frozen=True)
class SizeCase:
    """A setup, a reader's text, the captures of the CPUs, and the text of a filter."""

    setup: str
    reader: str
    captures: Sequence[bytes]
    listing: str | None = None

    def sizing(self) -> Sizing:
        code = filter_verdicts.program(self.listing) if self.listing else None
        return Sizing(Setup(self.setup), Reader(self.reader), self.captures, code)

    def write(self, folder: Path) -> None:
        (folder / "conf").write_text(self.setup)
        (folder / "reader").write_text(self.reader)
        for cpu, data in enumerate(self.captures):
            (folder / f"in{cpu}.pcap").write_bytes(data)
        if self.listing:
            (folder / "filter.ddd").write_text(self.listing)

    def shown(self) -> str:
        """The texts, and the captures as digits: all that is needed to see the case again."""
        captures = "".join(f"in{cpu}.pcap {data.hex()}\n" for cpu, data in enumerate(self.captures))
        return f"conf:\n{self.setup}reader:\n{self.reader}filter: {self.listing}\n{captures}"


# ---- setups that are drawn


def captured(numbers: random.Random, is_stray: bool) -> bytes:
    """Bursts of frames in some milliseconds. With a stray time one frame is far from the others,
    or before them."""
    records, now = [], numbers.randrange(3 * MILLISECOND)
    for burst in range(numbers.randrange(1, 6)):
        sizes = numbers.choice([[1514], [1514], [60, 590, 1514], [3900], [60], [13, 60]])
        gap = numbers.choice([0, 1_000, 90_000, MILLISECOND])
        for data in fragments(numbers) if numbers.random() < 0.2 else [
            frame(numbers.choice(sizes), fill=numbers.randrange(256))
            for _ in range(numbers.randrange(4, 20))
        ]:
            records.append((now, data))
            now += gap
        now += numbers.randrange(8 * MILLISECOND)
    if is_stray:
        at = numbers.randrange(len(records))
        far = numbers.choice([-SECOND, 60 * SECOND, 4_000_000 * SECOND, 5_000_000 * SECOND])
        records[at] = records[at][0] + far, records[at][1]
    return header() + b"".join(
        record(data, sec=START + time // SECOND, fraction=time % SECOND // 1_000)
        for time, data in records
    )


def fragments(numbers: random.Random) -> list[bytes]:
    return [piece for _ in range(numbers.randrange(1, 4)) for piece in datagram(numbers)]


def reader_text(numbers: random.Random, has_slots: bool) -> str:
    lines = [numbers.choice([f"pause {numbers.randrange(1, 6)}", f"blocks {period(numbers)}"])]
    for _ in range(numbers.choice([0, 1, 1, 2])):
        lines.append(f"stall {numbers.randrange(20)} {numbers.randrange(1, 25)}")
    lines += numbers.choice([[], [], [], ["from all"], ["from all"], ["from 0"]])
    if has_slots:
        lines.append("slots")
    else:
        lines += numbers.choice([[], [], [], ["phases all"], ["phases all"], ["phase 0"]])
    numbers.shuffle(lines)
    return "".join(f"{line}\n" for line in lines)


def period(numbers: random.Random) -> int:
    """Blocks a second, at most some milliseconds apart."""
    return numbers.choice([200, 256, 333, 400, 999, 1_000, 1_001, 5_000])


def ring_of_blocks(numbers: random.Random) -> list[str]:
    blocks = numbers.randrange(2, 5)
    return [
        "block_size 4096", f"block_nr {blocks}", "frame_size 2048", f"frame_nr {2 * blocks}",
        f"tov {numbers.randrange(2, 6)}", *["priv 13"] * (numbers.random() < 0.3),
    ]


def ring_of_slots(numbers: random.Random) -> list[str]:
    blocks, each = numbers.randrange(2, 7), numbers.choice([1, 1, 2, 8])
    return [
        "block_size 4096", f"block_nr {blocks}", f"frame_size {4096 // each}",
        f"frame_nr {blocks * each}",
    ]


def drawn(seed: int, has_stray: bool = False, has_slots: bool = False) -> SizeCase:
    """The case of a number: a group of some CPUs and members with short time-outs, or slots."""
    numbers = random.Random(seed)
    cpus = numbers.randrange(1, 3)
    lines = [
        *(ring_of_slots(numbers) if has_slots else ring_of_blocks(numbers)),
        f"members {numbers.randrange(1, 4)}", f"key {KEY}",
        f"mode {numbers.choice(['hash', 'lb', 'cpu', 'cpu', 'qm', 'rollover'])}",
        *(f"cpu in{cpu}.pcap {5 * cpu}" for cpu in range(cpus)),
        *["flag defrag"] * (numbers.random() < 0.3),
    ]
    listing = numbers.choice([None, None, *FILTERS])
    lines += ["filter filter.ddd"] * bool(listing)
    captures = [captured(numbers, has_stray and cpu == 0) for cpu in range(cpus)]
    text = reader_text(numbers, has_slots)
    return SizeCase("".join(f"{line}\n" for line in lines), text, captures, listing)


# ---- the schedule of a try, written out


def moments(reader: Reader, begin: int, end: int) -> Iterator[int]:
    """When a reader reads, up to the end."""
    step = 0
    while (moment := reader.moment(step, begin)) <= end:
        if not any(start <= moment < stop for start, stop in reader.stalls):
            yield moment
        step += 1


def schedule(sizing: Sizing, blocks: int, phase: int, begin: int) -> str:
    """The lines by which rings of so many blocks are replayed at a phase and a beginning. Of one
    moment ticks come first, then feeds, then reads."""
    setup, reader = sizing.setup, sizing.reader
    feeds = feeds_of(sizing.replay(sizing.own).frames)
    end = feeds[-1].moment if feeds else 0
    timed = [(feed.moment, 1, f"feed {feed.cpu}\n") for feed in feeds]
    label = setup.tov
    while (moment := (label - phase) * MILLISECOND) <= end and not reader.slots:
        timed.append((moment, 0, f"tick {label}\n"))
        label += setup.tov
    each = 1 if reader.blocks else blocks
    reads = "".join(f"read {member}\n" * each for member in range(setup.members))
    timed += [(moment, 2, reads) for moment in moments(reader, begin, end)]
    return "".join(lines for _, _, lines in sorted(timed, key=lambda item: item[:2]))


# ---- what ringtap says of a try

Place = tuple[int, int]  # a phase and a beginning


@dataclass(frozen=True)
class Judge:
    """`ringtap replay`, or `replay2` for slots, in the folder of a case, each replay once."""

    program: Path
    folder: Path
    case: SizeCase
    sizing: Sizing
    known: dict[tuple[int, Place], list[Place]] = field(default_factory=dict)

    def replayed(self, blocks: int, place: Place) -> list[Place]:
        """The drops and freezes of each member's ring of so many blocks; or of so many slots, each
        a block of its own, since the number of them alone decides what is lost."""
        slots = self.sizing.reader.slots
        each = {"block_nr": blocks, "frame_nr": blocks * (1 if slots else 2)}
        text = self.case.setup
        for word, number in {**each, **({"frame_size": 4096} if slots else {})}.items():
            text = re.sub(rf"^{word} .*", f"{word} {number}", text, flags=re.M)
        (self.folder / "tried").write_text(text)
        (self.folder / "sched").write_text(schedule(self.sizing, blocks, *place))
        command = "replay2" if slots else "replay"
        ran, why = running.run([self.program, command, "tried", "sched"], cwd=self.folder)
        assert ran is not None and ran.returncode == 0, why or ran
        line = r"^member \d+ packets \d+ drops (\d+) freezes (\d+)"
        found = re.findall(line, ran.stdout.decode(), re.M)
        return [(int(drops), int(freezes)) for drops, freezes in found]

    def members(self, blocks: int, place: Place) -> list[Place]:
        if (blocks, place) not in self.known:
            self.known[blocks, place] = self.replayed(blocks, place)
        return self.known[blocks, place]

    def freezes(self, member: int, blocks: int, place: Place) -> bool:
        """Whether a member's ring of so many blocks freezes, or one of so many slots drops."""
        drops, freezes = self.members(blocks, place)[member]
        return (drops if self.sizing.reader.slots else freezes) > 0

    def is_smallest(self, member: int, blocks: int, place: Place) -> bool:
        """Whether a member's ring of so many blocks freezes nowhere, each smaller one at this
        place, and one of a block less at none before it."""
        places = self.sizing.places
        return (
            not any(self.freezes(member, blocks, each) for each in places)
            and all(self.freezes(member, less, place) for less in range(2, blocks))
            and (
                blocks == 2 or not any(
                    self.freezes(member, blocks - 1, each) for each in places[: places.index(place)]
                )
            )
        )

    def own_count(self) -> int:
        setup = self.sizing.setup
        return setup.frame_nr if self.sizing.reader.slots else setup.block_nr

    def drops(self, member: int) -> list[int]:
        """What the setup's own ring of a member drops at each try."""
        return [each[member] for each in self.all_drops()]

    def totals(self) -> list[int]:
        """What the rings of all members together drop."""
        return [sum(each) for each in self.all_drops()]

    def all_drops(self) -> list[list[int]]:
        return [
            [drops for drops, _ in self.members(self.own_count(), place)]
            for place in self.sizing.places
        ]
