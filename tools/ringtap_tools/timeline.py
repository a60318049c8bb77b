"""Says what happened when in a replay: which frame retired which block, what each read gave back,
and when a ring froze.

The steps are worked out from the setup and the schedule, and compared with the counts that the
program prints of the same run. Times are in seconds from the first frame on: those of the frames,
and of ticks where they are later. `reader has` is how many blocks the reader has at that moment, of
so many in the ring: where it has them all, the ring is frozen. A picture shows that number over
time.

Frames count from 0, as ringtap's do; with --first 1 as Wireshark's.
"""
from __future__ import annotations

import sys
from collections import deque
from dataclasses import dataclass, field
from pathlib import Path
from typing import Iterator

from . import blocks as dump
from .arrivals import PACKET_HEADER, Frames, first_time, frame_of, keep_all, numbered, outputs
from .files import NANOSECONDS, Fault, Setup, read_setup, words_of
from .notes import rollover_note
from .outputs import check_outputs
from .runs import Report, Room, add_program, program_of, table
from .schedule import DEFAULT_TIMEOUT
from .svg_plot import check_picture, save_picture
from .svg_steps import Frozen, Panel, steps_chart
from .words import ToolParser, add_json, print_json

DESCRIPTOR, MILLISECOND = 48, 1_000_000
SEEN = 200  # parts of a ring of which one can be seen in a picture
BYTES = "bytes"


Facts = dict[str, "int | str | None"]


@dataclass(frozen=True)
class Offer:
    """A frame that passes, or the datagram that it completed."""

    number: int
    cpu: int | None  # None where there is one CPU
    snap: int  # bytes that a block takes of it at most
    hash: int

    @property
    def name(self) -> str:
        return (
            f"frame {self.number}" if self.cpu is None else f"frame {self.number} of CPU {self.cpu}"
        )

    def facts(self) -> Facts:
        return {"cpu": self.cpu or 0, "frame": self.number}


@dataclass(frozen=True)
class Event:
    """What happened: at which moment and line of the schedule, at which member, and how many blocks
    its reader has then."""

    time: int  # nanoseconds from the first frame on
    line: int  # 0: after the last line
    member: int
    has: int
    words: str
    facts: Facts  # the same, what kind of event it is and its numbers


@dataclass
class Row:
    """Packets in a row of which the same is to be said, as that they are dropped."""

    first: Offer
    last: Offer
    count: int
    time: int
    line: int
    one: str
    many: str
    facts: Facts

    def all_facts(self) -> Facts:
        return {
            **self.facts,
            **self.first.facts(),
            "last_cpu": self.last.cpu or 0,
            "last_frame": self.last.number,
            "count": self.count,
        }

    def told(self) -> str:
        if self.count == 1:
            return f"{self.first.name} {self.one}"
        if self.first.cpu is None:
            return (
                f"frames {self.first.number} to {self.last.number} {self.many}, {self.count} in all"
            )
        return f"{self.first.name} to {self.last.name} {self.many}, {self.count} in all"


@dataclass
class Story:
    """The events of a run in their order, and where it is."""

    now: int = 0
    line: int = 0
    events: list[Event] = field(default_factory=list)


class Ring:
    """A ring and its reader, step by step as docs/reference.md has them, and what is told of
    them."""

    def __init__(self, story: Story, member: int, room: int, count: int, timeout: int) -> None:
        self.story, self.member, self.room, self.count, self.timeout = (
            story,
            member,
            room,
            count,
            timeout,
        )
        self.given: deque[int] = deque()  # numbers of the blocks that the reader has
        # of the open block, or of the one to be opened: its number, bytes and packets
        self.number, self.used, self.inside = 1, 0, 0
        self.is_frozen = False
        self.clock, self.deadline = 0, timeout
        self.kept = self.drops = self.freezes = self.blocks = 0  # of the whole run
        self.taken = (0, 0, 0)  # packets, drops and freezes when the statistics were last taken
        self.counts: list[tuple[int, int, int]] = []
        self.row: Row | None = None
        self.most = Event(0, 0, member, 0, "", {})
        self.steps: list[tuple[int, int]] = [(0, 0)]
        self.sizes: deque[int] = deque()  # bytes of the packets in the blocks that the reader has
        self.held = self.most_bytes = 0  # the sum of these; and with the open block at most
        self.bytes: list[tuple[int, int]] = [(0, 0)]  # when the ring's packets had so many bytes
        self.frozen: list[Frozen] = []

    # ---- what is told

    def tell(self, words: str, facts: Facts) -> None:
        self.end_row()
        self.note(self.story.now, self.story.line, words, facts)

    def note(self, time: int, line: int, words: str, facts: Facts) -> None:
        event = Event(time, line, self.member, len(self.given), words, facts)
        self.story.events.append(event)
        if event.has > self.most.has:
            self.most = event
        self.steps.append((time, event.has))

    def in_a_row(self, offer: Offer, one: str, many: str, facts: Facts) -> None:
        """Tells of a packet together with those before it of which the same is to be said."""
        if self.row and self.row.many != many:
            self.end_row()
        if self.row:
            self.row.last, self.row.count = offer, self.row.count + 1
        else:
            self.row = Row(offer, offer, 1, self.story.now, self.story.line, one, many, facts)

    def end_row(self) -> None:
        row, self.row = self.row, None
        if row:
            self.note(row.time, row.line, row.told(), row.all_facts())

    # ---- what is done

    def need(self, offer: Offer) -> int:
        return (PACKET_HEADER + min(offer.snap, self.room - PACKET_HEADER) + 7) // 8 * 8

    def fits(self, offer: Offer) -> bool:
        return not self.is_frozen and self.used + self.need(offer) <= self.room

    @property
    def all_bytes(self) -> int:
        """What the packets of a full ring take at most."""
        return self.count * self.room

    def weigh(self, is_sure: bool = False) -> None:
        """Notes the bytes of the packets in the ring, where they are others by a part of it that
        can be seen in a picture."""
        now = self.held + self.used
        self.most_bytes = max(self.most_bytes, now)
        if is_sure or abs(now - self.bytes[-1][1]) * SEEN >= self.all_bytes:
            self.bytes.append((self.story.now, now))

    def is_held(self, retired: int) -> bool:
        """Whether the reader has the block that would be opened next, after so many are retired."""
        return len(self.given) + retired >= self.count

    def retire(self) -> int:
        """Hands the open block over; its number."""
        number = self.number
        self.given.append(number)
        self.sizes.append(self.used)
        self.held += self.used
        self.blocks += 1
        self.number, self.used, self.inside = number + 1, 0, 0
        return number

    def keep(self, offer: Offer) -> None:
        self.used, self.inside, self.kept = (
            self.used + self.need(offer),
            self.inside + 1,
            self.kept + 1,
        )
        self.weigh()

    def freeze(self) -> None:
        self.is_frozen = True
        self.freezes += 1
        self.frozen.append(Frozen(self.story.now))

    def thaw(self) -> None:
        self.is_frozen = False
        self.frozen[-1].stop = self.story.now

    def drop(self, offer: Offer) -> None:
        self.drops += 1
        self.frozen[-1].drops += 1

    def put(self, offer: Offer) -> None:
        if self.fits(offer):
            self.keep(offer)
        elif self.is_frozen:
            self.put_frozen(offer)
        else:
            self.put_past_end(offer)

    def put_frozen(self, offer: Offer) -> None:
        if self.is_held(0):
            self.drop(offer)
            return self.in_a_row(offer, "is dropped", "are dropped", {"kind": "dropped"})
        self.thaw()
        self.deadline = self.clock + self.timeout
        self.keep(offer)
        self.tell(
            f"{offer.name}: block {self.number} is opened, and the ring goes on",
            {"kind": "opened", **offer.facts(), "opened": self.number},
        )

    def put_past_end(self, offer: Offer) -> None:
        retired = self.retire()
        if not self.is_held(0):
            self.deadline = self.clock + self.timeout
            self.keep(offer)
            return self.tell(
                (
                    f"{offer.name} doesn't fit: block {retired} is retired, block {self.number} is"
                    " opened"
                ),
                {"kind": "full", **offer.facts(), "retired": retired, "opened": self.number},
            )
        self.freeze()
        self.drop(offer)
        self.tell(
            (
                f"{offer.name} doesn't fit: block {retired} is retired; block {self.given[0]} is"
                f" still the reader's: the ring freezes, {offer.name} is dropped"
            ),
            {"kind": "frozen", **offer.facts(), "retired": retired, "held": self.given[0]},
        )

    def try_put(self, offer: Offer) -> bool:
        if not self.fits(offer) and self.is_held(not self.is_frozen):
            return False
        self.put(offer)
        return True

    def tick(self, moment: int) -> None:
        self.clock = moment
        if moment < self.deadline:
            return
        self.deadline = moment + self.timeout
        if self.is_frozen and not self.is_held(0):
            self.thaw()
            self.tell(
                f"tick at {moment} ms: block {self.number} is opened, and the ring goes on",
                {"kind": "opened", "tick": moment, "opened": self.number},
            )
        elif not self.is_frozen and self.inside:
            retired = self.retire()
            if not self.is_held(0):
                return self.tell(
                    (
                        f"tick at {moment} ms: block {retired} is retired, block {self.number} is"
                        " opened"
                    ),
                    {"kind": "due", "tick": moment, "retired": retired, "opened": self.number},
                )
            self.freeze()
            self.tell(
                (
                    f"tick at {moment} ms: block {retired} is retired; block {self.given[0]} is"
                    " still the reader's: the ring freezes"
                ),
                {"kind": "frozen", "tick": moment, "retired": retired, "held": self.given[0]},
            )

    def read(self) -> None:
        if self.given:
            self.end_row()
            self.held -= self.sizes.popleft()
            number = self.given.popleft()
            self.tell(f"read: block {number} is given back", {"kind": "read", "block": number})
            self.weigh(is_sure=True)

    def take(self) -> None:
        """Takes the statistics."""
        now = (self.kept + self.drops, self.drops, self.freezes)
        self.counts.append(tuple(new - old for new, old in zip(now, self.taken)))
        self.taken = now
        names = ("packets", "drops", "freezes")
        self.tell(
            "statistics: packets {}, drops {}, freezes {}".format(*self.counts[-1]),
            {"kind": "statistics", **dict(zip(names, self.counts[-1]))},
        )

    def finish(self) -> None:
        """The end of a run: the open block is handed over, and the reader reads what is left."""
        self.end_row()
        if self.is_frozen:
            self.frozen[-1].stop = self.story.now
        elif self.inside:
            number = self.retire()
            self.tell(f"end: block {number} is retired", {"kind": "end", "retired": number})
        while self.given:
            self.read()


class Run:
    """A replay, step by step."""

    def __init__(
        self,
        setup: Setup,
        captures: list[Frames],
        offers: dict[tuple[int, int], Offer],
        arrived: set[tuple[int, int]] | None,
    ) -> None:
        self.setup, self.captures, self.offers, self.arrived = setup, captures, offers, arrived
        self.story = Story()
        room = setup.number("block_size") - DESCRIPTOR - (setup.number("priv", 0) + 7) // 8 * 8
        timeout = setup.number("tov", 0) or DEFAULT_TIMEOUT
        self.rings = [
            Ring(self.story, member, room, setup.number("block_nr"), timeout)
            for member in range(setup.members())
        ]
        self.mode, self.is_rolling = (
            setup.word("mode", "cpu"),
            "rollover" in setup.flags or setup.word("mode") == "rollover",
        )
        self.fed, self.present, self.ticket = [0] * len(captures), [0] * len(captures), 0
        self.first = first_time(captures)
        self.start = self.stop = 0  # of what is told, nanoseconds from the first frame on

    def move_clock(self, time: int) -> None:
        self.story.now = max(self.story.now, time)

    def feed(self, cpu: int) -> bool:
        """Gives a CPU its next frame; False where there is none."""
        index = self.fed[cpu]
        if index == len(self.captures[cpu].times):
            return False
        self.fed[cpu] += 1
        self.move_clock(self.captures[cpu].times[index] - self.first)
        offer = self.offers.get((cpu, index))
        ticket = self.ticket
        # Without a filter what arrives passes.
        self.ticket += offer is not None if self.arrived is None else (cpu, index) in self.arrived
        if offer:
            self.deliver(cpu, offer, ticket)
        return True

    def deliver(self, cpu: int, offer: Offer, ticket: int) -> None:
        homes = {
            "hash": offer.hash,
            "lb": ticket,
            "cpu": cpu,
            "qm": self.setup.cpus[cpu].queue,
            "rollover": self.present[cpu],
        }
        home = homes[self.mode] % len(self.rings)
        for step in range(len(self.rings) if self.is_rolling else 0):
            member = (home + step) % len(self.rings)
            if self.rings[member].try_put(offer):
                if step:
                    self.rings[home].in_a_row(
                        offer,
                        f"finds no room and goes to member {member}",
                        f"find no room and go to member {member}",
                        {"kind": "passed_on", "to": member},
                    )
                self.present[cpu] = member
                return
        self.rings[home].put(offer)

    def step(self, word: str, value: int) -> None:
        if word == "feed":
            self.feed(value)
        elif word == "read":
            self.rings[value].read()
        elif word == "tick":
            self.move_clock(value * MILLISECOND)
            for ring in self.rings:
                ring.tick(value)
        else:
            self.rings[value].take()

    def all(self, steps: Iterator[tuple[int, str, int]]) -> None:
        for line, word, value in steps:
            self.story.line = line
            self.step(word, value)
        self.story.line = 0
        for cpu in range(len(self.captures)):
            while self.feed(cpu):
                pass
        for ring in self.rings:
            ring.finish()
        # those of a row are told after it
        self.story.events.sort(key=lambda event: event.line or float("inf"))


def steps_of(path: Path) -> Iterator[tuple[int, str, int]]:
    """The lines of a schedule that the program took."""
    with open(path, encoding="latin-1", newline="\n") as file:
        for number, line in enumerate(file, 1):
            words = words_of(line.rstrip("\r\n"))
            if words and not words[0].startswith("#"):
                yield number, words[0], int(words[1])


def offers_of(room: Room, captures: list[Frames], first: int) -> dict[tuple[int, int], Offer]:
    """What passes, from the dump of a run that keeps all: how many bytes of each, and its flow
    hash."""
    report = keep_all(room, captures, "dumped", {"dump": "yes", "features": "1"})
    offers = {}
    for member in range(len(report.members)):
        path = room.folder / f"dumped.{member}.blk"
        with open(path, "rb") as file:
            for block in dump.blocks_of(path, file):
                for packet in block.packets:
                    cpu, index = frame_of(dump.number_at(block.data, packet.place + 8))
                    told_cpu = cpu if len(captures) > 1 else None
                    offers[cpu, index] = Offer(
                        index + first,
                        told_cpu,
                        packet.kept,
                        dump.number_at(block.data, packet.place + 28),
                    )
    return offers


def arrived_of(room: Room, captures: list[Frames], setup: Setup) -> set[tuple[int, int]] | None:
    """What arrives, where tickets are drawn for more than what passes."""
    if setup.word("mode", "cpu") != "lb" or "filter" not in setup.values:
        return None
    report = keep_all(room, captures, "arrived", {"filter": None})
    return {frame_of(packet.time) for packet in outputs(room, "arrived", len(report.members))}


def compare(run: Run, report: Report) -> None:
    """A timeline with other counts than the program printed is none."""
    for at, (ring, member) in enumerate(zip(run.rings, report.members)):
        mine = (ring.kept + ring.drops, ring.drops, ring.freezes, ring.blocks, tuple(ring.counts))
        printed = (member.packets, member.drops, member.freezes, member.blocks, member.counts)
        if mine != printed:
            raise Fault(
                f"member {at}: the program printed {printed}, and the steps worked out here give"
                f" {mine}"
            )


def seconds(time: int) -> str:
    return f"{time // NANOSECONDS}.{time % NANOSECONDS:09}"


def print_text(run: Run) -> None:
    is_group = len(run.rings) > 1
    heads = ["seconds", "line", *["member"] * is_group, "reader has", "what happened"]
    rows = [
        [
            seconds(one.time),
            one.line or "end",
            *[one.member] * is_group,
            f"{one.has} of {run.rings[0].count}",
            one.words,
        ]
        for one in run.story.events
    ]
    print(table(heads, rows))
    print()
    print(table(SUM_HEADS, sum_rows(run)))


SUM_HEADS = [
    "member",
    "kept",
    "drops",
    "freezes",
    "blocks",
    "most that its reader had",
    "of",
    "at second",
]


def sum_rows(run: Run) -> list[list[object]]:
    """How near it was, for each member."""
    return [
        [
            at,
            ring.kept,
            ring.drops,
            ring.freezes,
            ring.blocks,
            ring.most.has,
            ring.count,
            seconds(ring.most.time),
        ]
        for at, ring in enumerate(run.rings)
    ]


def object_of(run: Run) -> dict[str, object]:
    events = [
        {
            "seconds": one.time / NANOSECONDS,
            "line": one.line or None,
            "member": one.member,
            "reader_has": one.has,
            **one.facts,
        }
        for one in run.story.events
    ]
    keys = ["member", "kept", "drops", "freezes", "blocks", "most", "of", "at"]
    members = [
        dict(zip(keys, [*row[:-1], float(str(row[-1]))]))
        | {
            "most_bytes": ring.most_bytes,
            "of_bytes": ring.all_bytes,
            "bytes": [[time / NANOSECONDS, size] for time, size in ring.bytes],
        }
        for row, ring in zip(sum_rows(run), run.rings)
    ]
    return {"events": events, "members": members}


def cut_out(run: Run, start: int, stop: int | None) -> None:
    """Leaves what happened in a stretch of time; sums stay those of the whole."""
    run.start, run.stop = start, run.story.now if stop is None else min(stop, run.story.now)
    run.story.events = [one for one in run.story.events if run.start <= one.time <= run.stop]


def picture_of(run: Run, path: Path) -> str:
    end = run.stop
    panels = []
    for at, ring in enumerate(run.rings):
        name, most = f"member {at}", ring.most_bytes
        panels.append(Panel(name, ring.count, ring.most.has, ring.steps, ring.frozen))
        panels.append(Panel(name, ring.all_bytes, most, ring.bytes, ring.frozen, BYTES))
    subtitle = (
        f"{', '.join(one.name for one in run.setup.capture_paths())}; {run.setup.path.name} by"
        f" {path.name}"
    )
    return steps_chart(
        "Blocks that the reader has, and bytes of the ring's packets, by time",
        subtitle,
        "seconds from the first frame on",
        end,
        panels,
        run.start,
    )


def parser_of() -> ToolParser:
    parser = ToolParser(__doc__, "demo/small.txt demo/schedule.txt --picture timeline.svg")
    parser.add_argument("setup", type=Path, metavar="SETUP", help="the setup")
    parser.add_argument("schedule", type=Path, metavar="SCHEDULE", help="a file, a pipe, or `-`")
    parser.add_argument(
        "--first",
        type=int,
        choices=(0, 1),
        default=0,
        help="the number of a capture's first frame (0)",
    )
    parser.add_argument(
        "--from",
        dest="start",
        type=float,
        default=0.0,
        metavar="S",
        help="tell and draw from this second on (0)",
    )
    parser.add_argument(
        "--to", dest="stop", type=float, metavar="S", help="and up to this one (the end)"
    )
    parser.add_argument(
        "--picture",
        type=Path,
        metavar="FILE",
        help="draw it, as SVG, or as PNG where rsvg-convert is there",
    )
    add_json(parser)
    add_program(parser)
    return parser


def main(words: list[str]) -> int:
    args = parser_of().parse_args(words)
    program, setup = program_of(args.program), read_setup(args.setup)
    if args.picture:
        check_picture(args.picture)
    if args.start < 0 or args.stop is not None and args.stop <= args.start:
        raise Fault("--from, --to: seconds from 0 on, and the second number is the larger one")
    check_outputs([args.picture], [args.schedule], setup)
    with Room(setup, program) as room:
        name = room.text("schedule", args.schedule)
        captures = numbered(room)
        room.write_setup("setup", {"out": "out", "dump": None})
        report = room.replay("setup", name)
        offers = offers_of(room, captures, args.first)
        run = Run(setup, captures, offers, arrived_of(room, captures, setup))
        run.all(steps_of(room.folder / name))
    compare(run, report)
    cut_out(
        run,
        int(args.start * NANOSECONDS),
        None if args.stop is None else int(args.stop * NANOSECONDS),
    )
    for note in rollover_note(setup):
        print(note, file=sys.stderr)
    if args.json:
        print_json(object_of(run))
    else:
        print_text(run)
    if args.picture:
        save_picture(args.picture, picture_of(run, args.schedule))
        print(f"saved: {args.picture}", file=sys.stderr if args.json else sys.stdout)
    return 0
