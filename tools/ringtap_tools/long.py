"""Says what a ring loses over captures of any size, of any number of CPUs and members.

What `ringtap replay` would print is added up from runs of pieces. Each member stands alone, and its
run is cut at pauses, after which a ring is as a new one. Where none comes it is cut at any moment,
and the next piece begins with what brings a new ring to the state there; such a piece is run a
second time, with two rings more before it, and has to give the same. The readers and the timer are
those of `schedule.py`.

Groups that roll over, and reassembly, are refused: their members, and their pieces, don't stand
alone. With --smallest ringsize is asked for the smallest ring that never freezes, or of slots loses
nothing; a capture of more than 32 MiB is given to it in parts.
"""
from __future__ import annotations

import argparse
import sys
import time
from collections import deque
from concurrent.futures import Future
from dataclasses import dataclass, field
from itertools import compress
from pathlib import Path

from .about import NO_ANSWER, NoAnswer
from .clock import steps_of
from .cut_members import Cut, Limits, Member, Shape
from .cut_pieces import Piece, less
from .cut_rings import Counts
from .deals import Batch, Clock, CpuStream, Dealer, PieceRoom, fed
from .file_parts import PartsAsker, ring_of
from .files import Fault, Setup, read_setup
from .model import Timer, need_of, room_of
from .ringsizes import NotAsked, Sized, ringsize_of
from .runs import Report, add_program, program_of
from .schedule import DEFAULT_TIMEOUT, Pace, add_pace, pace_of
from .trials import Ring, tried_words
from .words import ToolParser, add_json, print_json

MEBIBYTE = 1_048_576
LEAST_PIECE, LARGEST_PIECE = 1024, 8 * MEBIBYTE  # bytes of a capture
MOST_WAITING = 2  # pieces that were made and aren't added up yet
WAYS = {
    "new": "at the run's begin",
    "pause": "at a pause",
    "state": "with a beginning that brings a new ring to the state there",
}

Printed = tuple[list[Counts], int]  # the counts of each stretch of a piece, and its blocks


@dataclass
class MemberCount:
    """What the lines of a member print."""

    blocks: int = 0
    stretches: list[Counts] = field(default_factory=list)
    carried: Counts = (0, 0, 0)  # since the statistics were last taken

    def add(self, piece: Piece, stretches: list[Counts], blocks: int) -> None:
        """Adds what a piece printed, without what its beginning counted."""
        first, *rest = stretches
        stretches = [less(first, piece.base), *rest]
        for one in stretches[:-1]:
            self.stretches.append(plus(self.carried, one))
            self.carried = (0, 0, 0)
        self.carried = plus(self.carried, stretches[-1])
        self.blocks += blocks - piece.base_blocks

    def totals(self) -> Counts:
        found = self.carried
        for one in self.stretches:
            found = plus(found, one)
        return found


def plus(one: Counts, other: Counts) -> Counts:
    return one[0] + other[0], one[1] + other[1], one[2] + other[2]


def stretches_of(report: Report) -> list[Counts]:
    """What each `count` line of a piece says, and what was counted after the last one."""
    member = report.members[0]
    left = (member.packets, member.drops, member.freezes)
    for one in member.counts:
        left = less(left, one)
    return [*member.counts, left]


class LongRun:
    """A run in pieces."""

    def __init__(self, setup: Setup, room: PieceRoom, pace: Pace, args: argparse.Namespace) -> None:
        self.setup, self.room, self.pace = setup, room, pace
        self.command = "replay2" if args.replay2 else "replay"
        self.ways = dict.fromkeys(WAYS, 0)
        self.again = 0  # pieces that were run a second time
        self.waiting: deque[tuple[int, Cut, Future]] = deque()  # pieces that are being run
        self.dealer = Dealer(setup)
        self.limits = Limits(args.piece)
        self.streams = [
            CpuStream(room, cpu, path, max(LEAST_PIECE, 2 * args.piece // (1 + len(setup.cpus))))
            for cpu, path in enumerate(setup.capture_paths())
        ]
        self.shape, self.lines = shape_of(setup, args.replay2)
        self.needs = Needs(self.shape.room)
        timeout = self.shape.timeout
        every = timeout if pace.tick is None else pace.tick
        self.timer = Timer(every if timeout else 0, timeout, pace.phase)
        count = setup.members()
        self.counts = [MemberCount() for _ in range(count)]
        self.members = [self.member(at) for at in range(count)]

    def member(self, at: int) -> Member:
        def run(cut: Cut) -> None:
            self.run(at, cut)

        return Member(self.shape, self.timer, self.pace, self.limits, run)

    def run(self, member: int, cut: Cut) -> None:
        """Has a piece run while the next one is made."""
        self.waiting.append((member, cut, self.room.pieces.submit(self.run_both, cut)))
        while len(self.waiting) > MOST_WAITING:
            self.add_up()

    def run_both(self, cut: Cut) -> tuple[Printed, Printed | None]:
        """What the program prints of a piece, and of the same with an overlap before it."""
        return self.printed(cut.piece), self.printed(cut.again) if cut.again else None

    def add_up(self) -> None:
        """Adds up what the program printed of the piece that has waited longest. The tool's own
        state of the ring has to agree with it."""
        member, cut, asked = self.waiting.popleft()
        piece, ((stretches, blocks), again) = cut.piece, asked.result()
        self.ways[cut.way] += 1
        if again:
            self.again += 1
            others, other_blocks = again
            mine = [less(stretches[0], piece.base), *stretches[1:]], blocks - piece.base_blocks
            if (others[cut.before :], other_blocks - cut.blocks) != mine:
                raise Fault(
                    f"member {member}: a piece of {len(piece.records)} packets gives {mine}, and"
                    f" {others[cut.before:], other_blocks - cut.blocks} with two rings before it"
                )
        # The open block at the end of a piece is in the next one again.
        self.counts[member].add(piece, stretches, piece.ring.retired)

    def printed(self, piece: Piece) -> Printed:
        """What the program prints of a piece: the counts and the blocks."""
        report = self.room.run(
            "piece", self.lines, piece.records, piece.schedule(), self.command
        )
        found = stretches_of(report), report.members[0].blocks
        mine = piece.all_stretches(), piece.ring.printed_blocks()
        if found != mine:
            raise Fault(
                f"a piece of {len(piece.records)} packets: the program printed {found} (packets,"
                f" drops, freezes of each stretch; blocks), and the tool's own state gives {mine}"
            )
        return found

    def make(self) -> None:
        """The whole run."""
        clock, end = Clock(self.pace), 0
        progress = Progress(self.streams)
        for batch in fed(self.streams):
            times = clock.times(batch)
            end = times[-1]
            self.deal(batch, times)
            progress.show("")
        for member in self.members:
            member.advance(end, end + 1)
            member.end()
        while self.waiting:
            self.add_up()
        for member, count in zip(self.members, self.counts):
            count.blocks += member.ring.printed_blocks() - member.ring.retired
        progress.finish()

    def deal(self, batch: Batch, times: list[int]) -> None:
        """Gives each member its packets."""
        homes = self.dealer.homes(batch)
        if len(batch.places) < len(times):
            times = [times[place] for place in batch.places]
        columns = times, list(map(self.needs.__getitem__, batch.snaps)), batch.records
        chosen = set(homes)
        for home in chosen:
            is_mine = [one == home for one in homes] if len(chosen) > 1 else []
            mine = [list(compress(one, is_mine)) for one in columns] if is_mine else columns
            self.members[home].give(*mine)


class Needs(dict):
    """How many bytes of a block a packet takes, by how many of its bytes are offered."""

    def __init__(self, room: int) -> None:
        super().__init__()
        self.room = room

    def __missing__(self, snap: int) -> int:
        self[snap] = need_of(snap, self.room)
        return self[snap]


def shape_of(setup: Setup, is_v2: bool) -> tuple[Shape, list[str]]:
    """What the rings are, and the lines of a setup that has one of them."""
    words = ("block_size", "block_nr", "frame_size", "frame_nr", "priv", "tov", "features")
    lines = [f"{word} {setup.number(word)}" for word in words if word in setup.values]
    block_size, private = setup.number("block_size"), setup.number("priv", 0)
    room = room_of(block_size, private)
    if is_v2:
        shape = Shape(setup.number("frame_nr"), room, setup.number("frame_size"), 0)
    else:
        timeout = setup.number("tov", 0) or DEFAULT_TIMEOUT
        shape = Shape(setup.number("block_nr"), room, block_size, timeout)
    return shape, [*lines, "out nowhere"]


def refuse(setup: Setup) -> None:
    """Ends the tool where pieces, or members, don't stand alone."""
    if "rollover" in setup.flags or setup.word("mode") == "rollover":
        raise Fault(
            f"{setup.path}: its group rolls over, so what a member is given depends on the rings of"
            " the others, and no member can be run alone: leave rollover out"
        )
    if "defrag" in setup.flags:
        raise Fault(
            f"{setup.path}: with `flag defrag` a datagram may begin in one part of a capture and"
            " end in another: leave the line out"
        )


class Progress:
    """How much was read, on standard error where that is a terminal."""

    def __init__(self, streams: list[CpuStream]) -> None:
        self.streams, self.begin = streams, time.monotonic()
        self.whole = sum(stream.size for stream in streams)
        self.is_shown = sys.stderr.isatty()

    def show(self, end: str) -> None:
        if not self.is_shown:
            return
        done = sum(stream.place() for stream in self.streams)
        seconds = max(time.monotonic() - self.begin, 0.001)
        told = f"{done / MEBIBYTE:,.0f} of {self.whole / MEBIBYTE:,.0f} MiB"
        rate = f"{done / MEBIBYTE / seconds:,.1f} MiB/s"
        print(f"\r{told}, {rate} ", end=end, file=sys.stderr, flush=True)

    def finish(self) -> None:
        self.show("\n")


def counts_words(counts: Counts) -> str:
    return f"packets {counts[0]} drops {counts[1]} freezes {counts[2]}"


def lines_of(run: LongRun) -> list[str]:
    """The lines that `ringtap replay` would print."""
    cpus, lines = [stream.count for stream in run.streams], []
    for at, cpu in enumerate(cpus):
        lines.append(f"cpu {at} frames {cpu.frames} arrivals {cpu.arrivals} end {cpu.end}")
    drops = packets = 0
    for at, member in enumerate(run.counts):
        totals = member.totals()
        packets, drops = packets + totals[0], drops + totals[1]
        lines.append(f"member {at} {counts_words(totals)} blocks {member.blocks}")
        lines += [f"count {at} {counts_words(one)}" for one in member.stretches]
    arrivals = sum(cpu.arrivals for cpu in cpus)
    kept = packets - drops
    total = f"total arrivals {arrivals} filtered {arrivals - packets} kept {kept} drops {drops}"
    return [*lines, total]


def cuts_words(run: LongRun) -> str:
    """How many pieces there were, and how each was begun."""
    count = sum(run.ways.values())
    found = [f"{number:,} {WAYS[way]}" for way, number in run.ways.items() if number]
    again = f"; {run.again:,} were run again with two rings before them" if run.again else ""
    return f"{count:,} {'piece' if count == 1 else 'pieces'} begun: {', '.join(found)}{again}"


def object_of(run: LongRun) -> dict[str, object]:
    """The same as one object."""
    names = ("packets", "drops", "freezes")
    cpus = [
        {"frames": one.frames, "arrivals": one.arrivals, "end": one.end}
        for one in (stream.count for stream in run.streams)
    ]
    members = [
        dict(zip(names, one.totals()))
        | {"blocks": one.blocks, "counts": [dict(zip(names, each)) for each in one.stretches]}
        for one in run.counts
    ]
    totals = [one.totals() for one in run.counts]
    arrivals, packets = sum(one["arrivals"] for one in cpus), sum(one[0] for one in totals)
    drops = sum(one[1] for one in totals)
    total = {"arrivals": arrivals, "filtered": arrivals - packets}
    return {
        "cpus": cpus,
        "members": members,
        "total": total | {"kept": packets - drops, "drops": drops},
        "pieces": run.ways | {"again": run.again},
    }


def size(text: str) -> int:
    if not (text.isascii() and text.isdigit() and LEAST_PIECE <= int(text) <= LARGEST_PIECE):
        said = f"{text!r} isn't a number of bytes from {LEAST_PIECE} to {LARGEST_PIECE}"
        raise argparse.ArgumentTypeError(said)
    return int(text)


def parser_of() -> ToolParser:
    parser = ToolParser(__doc__, "demo/small.txt --pause 10")
    parser.add_argument("setup", type=Path, metavar="SETUP", help="the setup")
    parser.add_argument(
        "--replay2", action="store_true", help="rings of TPACKET_V2: slots, and no timer"
    )
    parser.add_argument(
        "--piece",
        type=size,
        default=LARGEST_PIECE,
        metavar="N",
        help=f"bytes of a piece, at most {LARGEST_PIECE}, which is the default",
    )
    parser.add_argument(
        "--smallest",
        action="store_true",
        help="the smallest ring that never freezes too, or of slots loses nothing, by ringsize,"
        " which looks at every whole millisecond of the timer and of the reader's beginning",
    )
    add_pace(parser)
    add_json(parser)
    add_program(parser)
    return parser


def smallest_of(program: Path, room: PieceRoom, pace: Pace, ring: Ring) -> Sized | str:
    """The smallest ring by ringsize, or why it has no answer."""
    try:
        ringsize = ringsize_of(program)
        if not ringsize:
            raise NotAsked("ringsize isn't there")
        return PartsAsker(ringsize, room, pace, ring).smallest(PartsProgress().step)
    except NotAsked as reason:
        return str(reason)


class PartsProgress:
    """How much ringsize has read, on standard error where that is a terminal."""

    def __init__(self) -> None:
        self.done = 0

    def step(self, count: int) -> None:
        self.done += count
        if sys.stderr.isatty():
            told = f"\rringsize has read {self.done / MEBIBYTE:,.0f} MiB "
            print(told, end="", file=sys.stderr, flush=True)


def refuse_none(run: LongRun) -> None:
    """NoAnswer where captures give no smallest ring: of nothing that comes, and of a part."""
    for path, cpu in zip(run.setup.capture_paths(), (stream.count for stream in run.streams)):
        if cpu.end != "ok":
            raise NoAnswer(f"{path} ends {cpu.end} after {cpu.frames:,} frames")
    arrivals = sum(stream.count.arrivals for stream in run.streams)
    if not arrivals:
        raise NoAnswer("no frame arrives")
    if not any(count.totals()[0] for count in run.counts):
        raise NoAnswer(f"the filter refuses each of {arrivals:,} arrivals")


def smallest_words(found: Sized | str, ring: Ring, pace: Pace) -> str:
    if isinstance(found, str):
        return f"no smallest ring: {found}"
    has_steps = steps_of(pace, ring.unit_size) is not None
    tried = tried_words(not ring.is_v2, has_steps and pace.begin is None)
    places = [] if ring.is_v2 else [f" at phase {found.phase}"]
    if has_steps:
        places.append(f" for a reader that begins {found.begin} ms after the first frame")
    needed = f"; so many are needed{','.join(places)}" if places else ""
    kind = ring.kind
    return (
        f"the smallest ring that {kind.suffices}{tried}: {found.count} {kind.unit}s of"
        f" {ring.unit_size} bytes{needed} (by `ringsize`)"
    )


def main(words: list[str]) -> int:
    args = parser_of().parse_args(words)
    setup, pace, program = read_setup(args.setup), pace_of(args), program_of(args.program)
    refuse(setup)
    ring = ring_of(setup, args.replay2)
    smallest: Sized | str | None = None
    status = 0
    with PieceRoom(setup, program) as room:
        room.check()
        run = LongRun(setup, room, pace, args)
        run.make()
        if args.smallest:
            try:
                refuse_none(run)
                smallest = smallest_of(program, room, pace, ring)
            except NoAnswer as fault:
                smallest, status = str(fault), NO_ANSWER
    if args.json:
        print_json(object_of(run) | smallest_object(smallest, ring))
        if isinstance(smallest, str):
            print(f"no smallest ring: {smallest}", file=sys.stderr)
    else:
        print("\n".join([*lines_of(run), "", cuts_words(run)]))
        if smallest:
            print(smallest_words(smallest, ring, pace))
    return status


def smallest_object(found: Sized | str | None, ring: Ring) -> dict[str, object]:
    if found is None:
        return {}
    if isinstance(found, str):
        return {"smallest": None}
    numbers = {f"{ring.kind.unit}s": found.count, "phase": found.phase, "begin": found.begin}
    return {"smallest": numbers}
