"""Makes a schedule from the times in the captures of a setup.

The frames of all CPUs are fed in the order of their times, each CPU's in the order of its capture.
Beside them the clock ticks, each member's reader makes its steps, and statistics are taken, all
counted from the first frame's time on. At the same moment ticks come first, then feeds, then reads,
then statistics.
"""
from __future__ import annotations

import argparse
from array import array
from collections import Counter
from dataclasses import dataclass
from fractions import Fraction
from heapq import merge
from pathlib import Path
from typing import Iterable, Iterator

from .captures import CaptureStream, say_end
from .clock import Beside, Pace, Shape
from .files import LARGEST_TEXT, NANOSECONDS, Fault, Setup, read_setup
from .outputs import check_outputs, write_text
from .words import ToolParser, add_json, counted, print_json

DEFAULT_TIMEOUT = 8  # milliseconds, where the setup has 0 or none


@dataclass
class About:
    """What a capture is, as far as a tool that reads its frames sees it."""

    path: Path
    frames: int = 0
    first: int = 0  # nanoseconds, of the first frame and of the last
    last: int = 0
    cut: int = 0  # frames of which fewer bytes were captured than were on the wire
    longest: int = 0  # captured bytes of a frame that was cut, at most
    end: str = "ok"  # as ringtap prints it
    drops: int | None = None  # those that a pcapng's statistics tell


@dataclass(frozen=True)
class Fed:
    """The frames of all CPUs in the order in which they come."""

    times: array  # nanoseconds from the first frame on
    cpus: bytes
    about: tuple[About, ...] = ()

    @property
    def end(self) -> int:
        return self.times[-1] if self.times else 0


def shape_of(setup: Setup, is_v2: bool = False) -> Shape:
    if is_v2:
        return Shape(
            setup.members(), setup.number("frame_size"), setup.number("frame_nr"), None
        )
    return Shape(
        setup.members(),
        setup.number("block_size"),
        setup.number("block_nr"),
        setup.number("tov", 0) or DEFAULT_TIMEOUT,
    )


def rising_times(stream: CaptureStream, lengths: array) -> tuple[array, About]:
    """The times of a capture's frames, beside their lengths on the wire. One that is older than the
    one before it comes right after that."""
    times, latest, about = array("Q"), 0, About(stream.path)
    for frame in stream:
        latest = max(latest, frame.time)
        times.append(latest)
        lengths.append(frame.wire)
        if frame.wire > len(frame.data):
            about.cut, about.longest = about.cut + 1, max(about.longest, len(frame.data))
    about.frames, about.end, about.drops = len(times), stream.end, stream.drops
    about.first, about.last = (times[0], times[-1]) if times else (0, 0)
    say_end(stream.path, stream.end, len(times))
    return times, about


def feeds(streams: Iterable[CaptureStream], pace: Pace) -> Fed:
    """The frames of all CPUs by their times, at one time those of the lower CPU first; a CPU's
    frames stay in their order. A rate of packets or bits takes the place of their times."""
    given = list(streams)
    lengths = [array("I") for _ in given]
    read = [rising_times(stream, mine) for stream, mine in zip(given, lengths)]
    captures = [times for times, _ in read]
    first = min((times[0] for times in captures if times), default=0)
    merged, cpus, speed = array("Q"), bytearray(), pace.speed
    for time, cpu in merge(*map(numbered, captures, range(len(captures)))):
        try:
            merged.append((time - first) * speed.denominator // speed.numerator)
        except OverflowError:
            far = "so slow that the last frame comes more than 500 years after the first"
            raise Fault(f"--speed: {far}") from None
        cpus.append(cpu)
    if pace.packets or pace.bits:
        merged = at_rate(cpus, lengths, pace)
    return Fed(merged, bytes(cpus), tuple(about for _, about in read))


def at_rate(cpus: bytearray, lengths: list[array], pace: Pace) -> array:
    """When frames come at a rate: each once those before it have been sent."""
    times, sent, counts = array("Q"), 0, [0] * len(lengths)
    per_unit = NANOSECONDS / (pace.packets or pace.bits)
    for cpu in cpus:
        times.append(int(sent * per_unit))
        sent += 1 if pace.packets else 8 * lengths[cpu][counts[cpu]]
        counts[cpu] += 1
    return times


def numbered(times: array, cpu: int) -> Iterator[tuple[int, int]]:
    return ((time, cpu) for time in times)


Reads = list[list[int]]  # of each member, when its reader reads


def lines_of(fed: Fed, pace: Pace, shape: Shape, reads: Reads | None = None) -> Iterator[str]:
    beside = Beside(pace, shape, reads)
    for time, cpu in zip(fed.times, fed.cpus):
        yield from beside.until(time, time)
        beside.feed(time)
        yield f"feed {cpu}\n"
    yield from beside.until(fed.end, fed.end + 1)


def schedule_of(fed: Fed, pace: Pace, shape: Shape, reads: Reads | None = None) -> str:
    """The lines of a schedule. Longer than ringtap reads it is a fault."""
    lines, size, count = [], 0, 0
    for text in lines_of(fed, pace, shape, reads):
        lines.append(text)
        size += len(text)
        count += text.startswith("feed")
        if size > LARGEST_TEXT:
            raise Fault(
                f"the schedule of {len(fed.times):,} frames in {fed.end / NANOSECONDS:.3f} s has"
                f" more than {LARGEST_TEXT:,} bytes at frame {count:,}, at"
                f" {fed.times[max(count, 1) - 1] / NANOSECONDS:.3f} s, and ringtap reads no more:"
                " take fewer frames, as tools/busiest.py cuts them, or fewer ticks or reads"
            )
    return "".join(lines)


def positive(text: str) -> Fraction:
    """A number above 0, as `250` or `0.5`."""
    try:
        number = Fraction(text)
    except (ValueError, ZeroDivisionError):
        raise argparse.ArgumentTypeError(f"{text!r} is no number") from None
    if number <= 0:
        raise argparse.ArgumentTypeError(f"{text!r} isn't above 0")
    return number


def not_negative(text: str) -> Fraction:
    return Fraction(0) if text.strip("0.") == "" and text != "" else positive(text)


def stall(text: str) -> tuple[Fraction, Fraction]:
    start, colon, length = text.partition(":")
    if not colon:
        raise argparse.ArgumentTypeError(f"{text!r} isn't FROM:LENGTH, two numbers of milliseconds")
    return not_negative(start), positive(length)


def add_pace(parser: argparse.ArgumentParser, has_phase: bool = True) -> None:
    """The options that say what is done beside the feeds."""
    group = parser.add_argument_group(
        "time", "without a reader nobody reads before all frames are fed"
    )
    rate = group.add_mutually_exclusive_group()
    rate.add_argument(
        "--speed",
        type=positive,
        default=Fraction(1),
        metavar="X",
        help="frames come X times as fast (1)",
    )
    rate.add_argument(
        "--pps", type=positive, metavar="N", help="N frames come a second, at even distances"
    )
    rate.add_argument(
        "--mbps", type=positive, metavar="N", help="N million bits of frames come a second"
    )
    group.add_argument(
        "--tick",
        type=int,
        metavar="MS",
        help="a tick every MS milliseconds (the setup's time-out); 0 never",
    )
    if has_phase:
        group.add_argument(
            "--phase",
            type=not_negative,
            default=Fraction(0),
            metavar="MS",
            help="the timer was started MS milliseconds before the first frame (0)",
        )
    reader = group.add_mutually_exclusive_group()
    reader.add_argument(
        "--blocks",
        type=positive,
        metavar="N",
        help="each reader makes a step, for one block, N times a second",
    )
    reader.add_argument(
        "--bytes",
        type=counted,
        metavar="N",
        help="the same so often that N bytes of blocks are read a second, as 1M",
    )
    reader.add_argument(
        "--pause",
        type=positive,
        metavar="MS",
        help="each reader sleeps MS milliseconds, then takes all that is there",
    )
    reader.add_argument(
        "--poll",
        type=not_negative,
        nargs="?",
        const=Fraction(0),
        metavar="MS",
        help=(
            "each reader wakes MS milliseconds (0) after a block is handed over, and takes all that"
            " is there"
        ),
    )
    group.add_argument(
        "--from",
        dest="begin",
        type=not_negative,
        metavar="MS",
        help="each reader makes its first step MS milliseconds after the first frame (a period)",
    )
    group.add_argument(
        "--stall",
        type=stall,
        action="append",
        default=[],
        metavar="FROM:MS",
        help="from millisecond FROM on no reader reads for MS milliseconds",
    )
    group.add_argument(
        "--stats",
        type=not_negative,
        default=Fraction(0),
        metavar="S",
        help="statistics every S seconds (never)",
    )


def pace_of(args: argparse.Namespace) -> Pace:
    if args.tick is not None and args.tick < 0:
        raise Fault("--tick: a number of milliseconds isn't negative")
    if args.begin is not None and not (args.blocks or args.bytes or args.pause):
        raise Fault("--from: says when a reader begins, which --pause, --blocks or --bytes gives")
    return Pace(
        speed=args.speed,
        tick=args.tick,
        phase=getattr(args, "phase", Fraction(0)),
        blocks=args.blocks,
        bytes=args.bytes,
        pause=args.pause,
        poll=args.poll,
        stalls=tuple(args.stall),
        stats=args.stats,
        packets=args.pps,
        bits=args.mbps and args.mbps * 1_000_000,
        begin=args.begin,
    )


def parser_of() -> ToolParser:
    parser = ToolParser(__doc__, "demo/small.txt --pause 4 -o small.sched")
    parser.add_argument("setup", type=Path, metavar="SETUP", help="the setup")
    parser.add_argument(
        "--replay2",
        action="store_true",
        help="for rings of TPACKET_V2: a step takes a slot, and nothing ticks",
    )
    parser.add_argument(
        "-o",
        "--output",
        type=Path,
        metavar="FILE",
        help="where the schedule goes (standard output)",
    )
    add_pace(parser)
    add_json(parser)
    parser.add_argument(
        "--program",
        metavar="PATH",
        help="with --poll the ringtap to run (bin/ringtap, which demo/build.sh makes)",
    )
    return parser


def polled(setup: Setup, pace: Pace, args: argparse.Namespace) -> str:
    """The schedule of readers that wake when a block is handed over: when that is depends on the
    ring, so the tools' own model works it out."""
    from .runs import Room, program_of  # which, with the model, need what is above
    from .search import Model
    from .trials import ROLLOVER, Ring

    mode = setup.word("mode", "cpu") + ROLLOVER * ("rollover" in setup.flags)
    sizes = [setup.number(word) for word in ("block_size", "block_nr", "frame_size")]
    ring = Ring(mode, setup.members(), setup.number("tov", 0), *sizes, args.replay2)
    with Room(setup, program_of(args.program)) as room:
        if not args.replay2:
            room.refuse({})
        fed = feeds(room.streams(), pace)
        reads = Model(room, fed, pace).reads(ring, pace.phase)
    return schedule_of(fed, pace, shape_of(setup, args.replay2), reads)


def object_of(text: str, output: Path | None) -> dict[str, object]:
    """How many lines of each kind, and the schedule itself where it isn't saved."""
    counts = Counter(line.split()[0] for line in text.splitlines())
    made: dict[str, object] = {
        f"{word}s" if word != "stats" else word: counts[word]
        for word in ("feed", "read", "tick", "stats")
    }
    made.update(lines=sum(counts.values()), bytes=len(text))
    made.update({"output": str(output)} if output else {"schedule": text})
    return made


def main(words: list[str]) -> int:
    args = parser_of().parse_args(words)
    setup, pace = read_setup(args.setup), pace_of(args)
    check_outputs([args.output], [], setup)
    if pace.poll is None:
        fed = feeds(map(CaptureStream, setup.capture_paths()), pace)
        text = schedule_of(fed, pace, shape_of(setup, args.replay2))
    else:
        text = polled(setup, pace, args)
    if args.output:
        write_text(args.output, text)
    if args.json:
        print_json(object_of(text, args.output))
    elif not args.output:
        print(text, end="")
    return 0
