"""Says which frames of the captures were lost: they passed the filter and are in no output.

With a schedule, which may come through a pipe or with `-` from standard input, the setup is
replayed in a folder of the tool's own. Without one the outputs of an earlier run are taken, from
where the setup's line `out` has them. A second run, over rings that keep all, says which frames
pass; with `flag defrag` a datagram has the number and the time of the frame that completed it.

Frames count from 1, as Wireshark's do; with --first 0 as ringtap's. Of an earlier run's frames with
the same time, length and bytes, of which some were kept, no output says which: the last ones count
as lost, with a `?`.
"""
from __future__ import annotations

import hashlib
import heapq
import sys
from collections import defaultdict
from dataclasses import asdict, dataclass
from pathlib import Path
from typing import Iterator

from .arrivals import (
    DESCRIPTOR,
    KEPT,
    PACKET_HEADER,
    PASSED,
    Frames,
    first_time,
    frame_of,
    numbered,
    outputs,
    passing,
)
from .captures import CaptureStream, CaptureWriter, Frame
from .files import NANOSECONDS, Fault, Setup, output_names, read_setup
from .flows import VLAN_TYPES, Flow, flow_of, flow_words
from .notes import rollover_note
from .outputs import check_outputs, written
from .runs import Report, Room, add_program, program_of, table
from .svg_plot import Layer, bars_chart, check_picture, save_picture
from .words import ToolParser, add_json, print_json

SLOT_HEADER = 66  # bytes of a slot of TPACKET_V2 before its data
UNSURE = 3  # the fate of a frame that is lost, or one that is like it
KEPT_COLOR, LOST_COLOR = "#0072b2", "#d55e00"

Key = tuple  # what a packet of an output has: a member or None, time, length, digest of its bytes


@dataclass
class Range:
    """Frames of a CPU that were lost one after another: no frame between them was kept."""

    cpu: int
    first: int
    last: int
    lost: int = 0
    bytes: int = 0
    start: int = 0  # nanoseconds from the first frame on
    end: int = 0
    is_unsure: bool = False


@dataclass
class FlowSums:
    flow: str
    kept: int = 0
    lost: int = 0
    bytes_lost: int = 0


@dataclass
class Bin:
    """A stretch of time."""

    start: int  # nanoseconds from the first frame on
    kept: int = 0
    lost: int = 0


# ---- what was kept


def mark_replay(room: Room, captures: list[Frames], schedule: str) -> None:
    """Makes the run, whose packets say by their numbers which frames were kept, and compares with
    what the program printed."""
    room.write_setup("setup", {"out": "out", "dump": None})
    report = room.replay("setup", schedule)
    for packet in outputs(room, "out", len(report.members)):
        cpu, index = frame_of(packet.time)
        captures[cpu].fates[index] = KEPT
    kept = sum(frames.fates.count(KEPT) for frames in captures)
    lost = sum(frames.fates.count(PASSED) for frames in captures)
    if (report.drops, report.kept) != (lost, kept):
        raise Fault(
            f"the program printed {report.drops} drops and {report.kept} kept, and {lost} frames"
            f" are in no output, {kept} in one"
        )


def earlier_outputs(setup: Setup) -> list[Path]:
    """What an earlier run saved."""
    setup.members()
    paths = [Path(name) for name in output_names(setup, "replay") if name.endswith(".pcap")]
    for path in paths:
        if not path.is_file():
            raise Fault(
                f"{path}: isn't there: run ringtap first, or name a schedule, and the run is made"
                " here"
            )
    return paths


def home_of(setup: Setup, cpu: int, members: int) -> int | None:
    """The one member that gets a CPU's packets, where the mode says it."""
    if "rollover" in setup.flags or setup.word("mode", "cpu") not in ("cpu", "qm"):
        return None
    return (cpu if setup.word("mode", "cpu") == "cpu" else setup.cpus[cpu].queue) % members


def digest(data: bytes) -> bytes:
    return hashlib.blake2b(data, digest_size=16).digest()


def kept_keys(setup: Setup, paths: list[Path]) -> dict[Key, list]:
    """How many packets of each kind the outputs have, and where the first of them is."""
    has_homes = home_of(setup, 0, len(paths)) is not None
    found: dict[Key, list] = {}
    for member, path in enumerate(paths):
        for packet in CaptureStream(path, None):
            key = (member if has_homes else None, packet.time, packet.wire, digest(packet.data))
            found.setdefault(key, [0, path, packet.index])[0] += 1
    return found


def mark_earlier(room: Room, captures: list[Frames], members: int) -> None:
    """Finds the frames that the outputs of an earlier run have, in a ring of blocks or else in one
    of slots."""
    setup = room.setup
    paths = earlier_outputs(setup)
    found = kept_keys(setup, paths)
    room_of_block = (
        setup.number("block_size")
        - DESCRIPTOR
        - (setup.number("priv", 0) + 7) // 8 * 8
        - PACKET_HEADER
    )
    for limit in (room_of_block, setup.number("frame_size") - SLOT_HEADER):
        alike = alike_frames(room, captures, members, found, limit, len(paths))
        missing = [key for key in found if len(alike.get(key, ())) < found[key][0]]
        if not missing:
            break
    else:
        _, path, index = min((found[key] for key in missing), key=lambda one: (str(one[1]), one[2]))
        raise Fault(
            f"{path}, packet {index} from 0: is no frame of the captures that passes: is it of"
            " another run?"
        )
    for key, frames in alike.items():
        count = found[key][0]
        for at, (cpu, index) in enumerate(sorted(frames)):
            captures[cpu].fates[index] = KEPT if at < count else UNSURE


def alike_frames(
    room: Room,
    captures: list[Frames],
    members: int,
    found: dict[Key, list],
    limit: int,
    outputs_count: int,
) -> dict[Key, list]:
    """The frames that pass and could be a packet of the outputs, by what such a packet has. A ring
    keeps at most `limit` bytes of one, and a tag that was taken out comes back."""
    alike: dict[Key, list] = defaultdict(list)
    homes = [home_of(room.setup, cpu, outputs_count) for cpu in range(len(captures))]
    for packet in outputs(room, "all", members):
        cpu, index = frame_of(packet.time)
        cut = packet.data[: limit + 4 * (packet.data[12:14] in VLAN_TYPES)]
        key = (homes[cpu], captures[cpu].times[index], packet.wire, digest(cut))
        if key in found:
            alike[key].append((cpu, index))
    return alike


# ---- what is told of it


def lost_frames(captures: list[Frames]) -> Iterator[tuple[int, int, bool]]:
    """CPU, index and whether it is sure, of each frame that was lost."""
    for cpu, frames in enumerate(captures):
        for index, fate in enumerate(frames.fates):
            if fate in (PASSED, UNSURE):
                yield cpu, index, fate == PASSED


def ranges_of(captures: list[Frames], first: int, number: int) -> list[Range]:
    """The ranges of each CPU, in their order; `number` is that of a capture's first frame."""
    ranges = []
    for cpu, frames in enumerate(captures):
        one = None
        for index, fate in enumerate(frames.fates):
            if fate == KEPT:
                one = None
            elif fate in (PASSED, UNSURE):
                time = frames.times[index] - first
                if one is None:
                    one = Range(cpu, index + number, index + number, start=time)
                    ranges.append(one)
                one.last, one.end, one.lost, one.bytes = (
                    index + number,
                    time,
                    one.lost + 1,
                    one.bytes + frames.wires[index],
                )
                one.is_unsure |= fate == UNSURE
    return ranges


def flows_of(room: Room, captures: list[Frames], members: int) -> list[FlowSums]:
    """What each flow kept and lost, the one that lost most first."""
    flows: dict[Flow, FlowSums] = {}
    for packet in outputs(room, "all", members):
        cpu, index = frame_of(packet.time)
        flow = flow_of(packet.data)
        sums = flows.setdefault(flow, FlowSums(""))
        if captures[cpu].fates[index] == KEPT:
            sums.kept += 1
        else:
            sums.lost, sums.bytes_lost = sums.lost + 1, sums.bytes_lost + packet.wire
    for flow, sums in flows.items():
        sums.flow = flow_words(flow)
    return sorted(
        (sums for sums in flows.values() if sums.lost), key=lambda sums: (-sums.lost, sums.flow)
    )


def save_lost(path: Path, room: Room, captures: list[Frames], members: int) -> None:
    """Saves what was lost by its time, each packet as a ring with room for it saves it."""

    def lost_of(member: int, wanted: int) -> Iterator[Frame]:
        for packet in CaptureStream(room.folder / f"all.{member}.pcap", None):
            cpu, index = frame_of(packet.time)
            if cpu == wanted and captures[cpu].fates[index] != KEPT:
                yield packet._replace(time=captures[cpu].times[index])

    parts = [lost_of(member, cpu) for cpu in range(len(captures)) for member in range(members)]
    with written(path) as file:
        writer = CaptureWriter(file)
        for packet in heapq.merge(*parts, key=lambda packet: packet.time):
            writer.write(packet)


def round_width(least: int) -> int:
    """1, 2, 2.5 or 5 times a power of ten nanoseconds, and no less than a number."""
    power = 1
    while 10 * power <= least:
        power *= 10
    steps = (power, 2 * power, 5 * power // 2, 5 * power, 10 * power)
    return next(width for width in steps if width >= max(least, 1))


def bins_of(captures: list[Frames], first: int, count: int) -> list[Bin]:
    """Kept and lost, by time."""
    last = max((max(frames.times) for frames in captures if frames.times), default=first)
    width = round_width(-(-(last - first + 1) // count))
    bins = [Bin(at * width) for at in range((last - first) // width + 1)]
    for frames in captures:
        for time, fate in zip(frames.times, frames.fates):
            if fate:
                one = bins[(time - first) // width]
                one.kept, one.lost = one.kept + (fate == KEPT), one.lost + (fate != KEPT)
    return bins


def seconds(time: int, digits: int = 9) -> str:
    """Nanoseconds as seconds, with digits after the point."""
    return f"{time // NANOSECONDS}.{time % NANOSECONDS:09}"[: digits - 9 or None].rstrip(".")


def bin_names(bins: list[Bin]) -> list[str]:
    """The begins of bins, in seconds, with as many digits as their width asks for."""
    width = bins[1].start if len(bins) > 1 else NANOSECONDS
    digits = max(0, min(9, 11 - len(str(width))))
    return [seconds(one.start, digits) for one in bins]


def picture_of(bins: list[Bin], words: str) -> str:
    layers = [Layer("kept", [one.kept for one in bins]), Layer("lost", [one.lost for one in bins])]
    return bars_chart(
        "Packets kept and lost, by time",
        "seconds from the first frame on",
        "packets",
        bin_names(bins),
        layers,
        [KEPT_COLOR, LOST_COLOR],
        subtitle=words,
    )


def names_of(setup: Setup) -> str:
    """The setup and its captures, for a picture."""
    return f"{setup.path.name} of {', '.join(path.name for path in setup.capture_paths())}"


def print_ranges(ranges: list[Range], most: int) -> None:
    """The ranges by CPU and number; where there are more, those that lost most."""
    is_shown = set(range(len(ranges)))
    if most and len(ranges) > most:
        is_shown = set(sorted(is_shown, key=lambda at: (-ranges[at].lost, at))[:most])
    shown = [one for at, one in enumerate(ranges) if at in is_shown]
    rows = [
        [
            one.cpu,
            str(one.first) if one.first == one.last else f"{one.first}-{one.last}",
            one.lost,
            seconds(one.start),
            seconds(one.end),
            one.bytes,
            "?" * one.is_unsure,
        ]
        for one in shown
    ]
    print(table(["cpu", "frames", "lost", "from second", "to second", "bytes", ""], rows))
    if len(shown) < len(ranges):
        rest = sum(one.lost for one in ranges) - sum(one.lost for one in shown)
        print(
            f"and {len(ranges) - len(shown):,} shorter ranges, of {rest:,} frames; --ranges 0"
            " prints all"
        )
    print()


def print_frames(captures: list[Frames], first: int, number: int) -> None:
    rows = []
    for cpu, index, is_sure in lost_frames(captures):
        time = captures[cpu].times[index]
        rows.append(
            [
                cpu,
                index + number,
                seconds(time),
                seconds(time - first),
                captures[cpu].wires[index],
                "" if is_sure else "?",
            ]
        )
    print(
        table(
            ["cpu", "frame", "time", "from start", "length", ""],
            sorted(rows, key=lambda row: (float(row[3]), row[0], row[1])),
        )
    )
    print()


def print_flows(flows: list[FlowSums], most: int) -> None:
    shown = flows[:most] if most else flows
    print(
        table(
            ["flow", "kept", "lost", "bytes lost"],
            [[one.flow, one.kept, one.lost, one.bytes_lost] for one in shown],
        )
    )
    if len(shown) < len(flows):
        rest = sum(one.lost for one in flows) - sum(one.lost for one in shown)
        print(
            f"and {len(flows) - len(shown):,} flows more, which lost {rest:,}; --flows 0 prints all"
        )
    print()


SUM_HEADS = ["cpu", "frames", "arrivals", "filtered", "kept", "lost"]


def sum_rows(captures: list[Frames], report: Report) -> list[list[int]]:
    """A line for each CPU. What doesn't arrive, and what is filtered, is as the program printed
    it."""
    rows = []
    for cpu, line in enumerate(report.cpus):
        fates = captures[cpu].fates
        kept, lost = fates.count(KEPT), fates.count(PASSED) + fates.count(UNSURE)
        rows.append([cpu, line.frames, line.arrivals, line.arrivals - kept - lost, kept, lost])
    return rows


def parser_of() -> ToolParser:
    parser = ToolParser(__doc__, "demo/small.txt demo/schedule.txt --save lost.pcap")
    parser.add_argument("setup", type=Path, metavar="SETUP", help="the setup")
    parser.add_argument(
        "schedule",
        type=Path,
        nargs="?",
        metavar="SCHEDULE",
        help="a file, a pipe, or `-`; without one an earlier run's outputs",
    )
    parser.add_argument(
        "--first",
        type=int,
        choices=(0, 1),
        default=1,
        help="the number of a capture's first frame (1)",
    )
    parser.add_argument(
        "--frames", action="store_true", help="a line for each frame in place of ranges"
    )
    parser.add_argument(
        "--ranges",
        type=int,
        default=40,
        metavar="N",
        help="at most N ranges, those that lost most (40); 0 all",
    )
    parser.add_argument(
        "--flows",
        type=int,
        default=10,
        metavar="N",
        help="at most N flows, those that lost most (10); 0 all",
    )
    parser.add_argument(
        "--save", type=Path, metavar="FILE", help="save what was lost as a pcap file"
    )
    parser.add_argument(
        "--bins",
        type=int,
        metavar="N",
        help=(
            "print kept and lost in at most N stretches of time of round length (20 with --picture)"
        ),
    )
    parser.add_argument(
        "--picture",
        type=Path,
        metavar="FILE",
        help="draw them, as SVG, or as PNG where rsvg-convert is there",
    )
    add_json(parser)
    add_program(parser)
    return parser


@dataclass
class Answer:
    """What was found."""

    captures: list[Frames]
    report: Report  # of the run that keeps all
    first: int  # the time of the first frame
    ranges: list[Range]
    flows: list[FlowSums]
    bins: list[Bin]


def find(room: Room, args) -> Answer:
    schedule = room.text("schedule", args.schedule) if args.schedule else None
    captures = numbered(room)
    report = passing(room, captures)
    members = len(report.members)
    if schedule:
        mark_replay(room, captures, schedule)
    else:
        mark_earlier(room, captures, members)
    if args.save:
        save_lost(args.save, room, captures, members)
    first = first_time(captures)
    bins = bins_of(captures, first, args.bins or 20) if args.bins or args.picture else []
    return Answer(
        captures,
        report,
        first,
        ranges_of(captures, first, args.first),
        flows_of(room, captures, members),
        bins,
    )


def print_text(answer: Answer, args) -> None:
    if answer.ranges:
        how = (
            "as Wireshark's do; --first 0 counts as ringtap does"
            if args.first
            else "as ringtap's do"
        )
        print(f"frames count from {args.first}, {how}\n")
        if args.frames:
            print_frames(answer.captures, answer.first, args.first)
        else:
            print_ranges(answer.ranges, args.ranges)
            print_flows(answer.flows, args.flows)
    print(table(SUM_HEADS, sum_rows(answer.captures, answer.report)))
    if answer.bins:
        print()
        print(
            table(
                ["seconds from", "kept", "lost"],
                [
                    [name, one.kept, one.lost]
                    for name, one in zip(bin_names(answer.bins), answer.bins)
                ],
            )
        )


def object_of(answer: Answer, args) -> dict[str, object]:
    made: dict[str, object] = {
        "first": args.first,
        "cpus": [dict(zip(SUM_HEADS, row)) for row in sum_rows(answer.captures, answer.report)],
        "ranges": [
            {**asdict(one), "start": one.start / NANOSECONDS, "end": one.end / NANOSECONDS}
            for one in answer.ranges
        ],
        "flows": [asdict(one) for one in answer.flows],
        "bins": [{**asdict(one), "start": one.start / NANOSECONDS} for one in answer.bins],
    }
    if args.frames:
        made["frames"] = [
            {"cpu": cpu, "frame": index + args.first, "is_sure": is_sure}
            for cpu, index, is_sure in lost_frames(answer.captures)
        ]
    return made


def main(words: list[str]) -> int:
    args = parser_of().parse_args(words)
    program, setup = program_of(args.program), read_setup(args.setup)
    if args.bins is not None and not 1 <= args.bins <= 1000:
        raise Fault("--bins: a number from 1 to 1000")
    if args.ranges < 0 or args.flows < 0:
        raise Fault("--ranges, --flows: a number isn't negative")
    earlier = [] if args.schedule else [Path(name) for name in output_names(setup, "replay")]
    if args.picture:
        check_picture(args.picture)
    check_outputs([args.picture, args.save], [args.schedule] if args.schedule else earlier, setup)
    with Room(setup, program) as room:
        answer = find(room, args)
    for note in rollover_note(setup):
        print(note, file=sys.stderr)
    if args.json:
        print_json(object_of(answer, args))
    else:
        print_text(answer, args)
    if args.picture:
        save_picture(
            args.picture,
            picture_of(answer.bins, f"{names_of(setup)}, by {args.schedule or 'an earlier run'}"),
        )
    saved = ", ".join(str(path) for path in (args.save, args.picture) if path)
    if saved:
        print(f"\nsaved: {saved}", file=sys.stderr if args.json else sys.stdout)
    return 0
