"""Finds the window of a capture that is hardest on a ring, and cuts it into a file that ringtap
takes.

The capture may have any size: it is read as a stream, twice side by side, once for the frames that
come into the window and once for those that leave it, and then once more to be cut. With --ms the
hardest window is the one whose packets take the most bytes of a ring's blocks; with --mib alone it
is the one whose bytes come in the shortest time. Either way it has at most 32 MiB, which is what
ringtap reads of a capture, and no more frames than a schedule has room for.
"""
from __future__ import annotations

import argparse
import itertools
from dataclasses import dataclass
from fractions import Fraction
from pathlib import Path
from typing import Iterator

from .captures import (
    LARGEST_CAPTURE,
    PCAP_HEADER,
    RECORD_HEADER,
    CaptureStream,
    CaptureWriter,
    say_end,
)
from .files import NANOSECONDS, Fault
from .outputs import check_outputs, is_device, written
from .words import ToolParser, add_json, counted, print_json

PACKET_HEADER = 82  # bytes of a packet before its data, in a block
MILLISECOND = 1_000_000  # nanoseconds
MEBIBYTE = 1_048_576
MOST_FRAMES = 120_000  # that a schedule has room for, with ticks and reads
DEFAULT_MS = 10_000


@dataclass(frozen=True)
class Measure:
    """What a frame adds to a window."""

    time: int  # nanoseconds; of one that is older than the one before it, the time of that one
    size: int  # bytes of its record in a file
    need: int  # bytes of a block


@dataclass
class Window:
    """Frames that come one after another, from `first` on, counted from 0."""

    first: int = 0
    count: int = 0
    start: int = 0  # nanoseconds
    stop: int = 0
    size: int = PCAP_HEADER  # bytes as a file
    need: int = 0  # bytes of blocks

    @property
    def length(self) -> int:
        return self.stop - self.start

    def copy(self) -> Window:
        return Window(self.first, self.count, self.start, self.stop, self.size, self.need)


@dataclass(frozen=True)
class Most:
    """How much a window may have."""

    time: int | None  # nanoseconds
    size: int
    frames: int

    def is_passed(self, window: Window) -> bool:
        return (
            window.size > self.size
            or window.count > self.frames
            or self.time is not None
            and window.length >= self.time
        )


def measures(stream: CaptureStream) -> Iterator[Measure]:
    latest = 0
    for frame in stream:
        latest = max(latest, frame.time)
        length = len(frame.data)
        yield Measure(latest, RECORD_HEADER + length, -(-(PACKET_HEADER + length) // 8) * 8)


def windows(path: Path, most: Most, whole: Window) -> Iterator[tuple[Window, bool]]:
    """The largest window that ends with each frame, and whether it has let a frame go; `whole`
    becomes the whole capture."""
    stream = CaptureStream(path, None)
    leaving = measures(CaptureStream(path, None))
    window, oldest = Window(), None
    for one in measures(stream):
        if not whole.count:
            whole.start = window.start = one.time
            oldest = next(leaving)
        for taker in (window, whole):
            taker.count += 1
            taker.size += one.size
            taker.need += one.need
            taker.stop = one.time
        while most.is_passed(window):
            window.count -= 1
            window.first += 1
            window.size -= oldest.size
            window.need -= oldest.need
            oldest = next(leaving)
            window.start = oldest.time
        yield window, window.first > 0
    say_end(path, stream.end, whole.count)


def hardest(path: Path, most: Most) -> tuple[Window, Window]:
    """The hardest window, the first of those that are alike, and the whole capture."""
    best, whole = None, Window()
    for window, is_full in windows(path, most, whole):
        if most.time is not None:
            is_better = best is None or window.need > best.need
        else:
            is_better = is_full and (best is None or window.length < best.length)
        if is_better:
            best = window.copy()
    if not whole.count:
        raise Fault(f"{path}: has no frame")
    return best or whole, whole


def cut(path: Path, window: Window, output: Path) -> None:
    """Writes the frames of a window, as pcap with nanoseconds."""
    with written(output) as file:
        writer = CaptureWriter(file)
        for frame in itertools.islice(
            CaptureStream(path, None), window.first, window.first + window.count
        ):
            writer.write(frame)


def seconds(time: int) -> str:
    return f"{time / NANOSECONDS:,.6f}"


def limit_words(window: Window, whole: Window, most: Most) -> str | None:
    """Which limit but the asked one the window has reached."""
    if window.count == whole.count:
        return None
    if window.count == most.frames:
        return (
            f"it has the {most.frames:,} frames that a schedule has room for; --frames takes"
            " another number"
        )
    if most.time is not None and window.length < most.time and window.size > most.size - 65_536:
        return (
            f"it has the {most.size / MEBIBYTE:g} MiB that are allowed, so it is shorter than was"
            " asked for"
        )
    return None


def print_window(args: argparse.Namespace, window: Window, whole: Window, most: Most) -> None:
    print(
        f"{args.capture}: {whole.count:,} frames in {seconds(whole.length)} s, which take"
        f" {whole.need:,} bytes of blocks"
    )
    first, last = window.first + 1, window.first + window.count
    print(
        f"hardest: frames {first:,} to {last:,} (counted from 1), from"
        f" {seconds(window.start - whole.start)} s on for {seconds(window.length)} s, which take"
        f" {window.need:,} bytes of blocks"
    )
    if words := limit_words(window, whole, most):
        print(words)
    print(f"saved: {args.output}")


def object_of(args: argparse.Namespace, window: Window, whole: Window) -> dict[str, object]:
    return {
        "capture": str(args.capture),
        "frames": whole.count,
        "nanoseconds": whole.length,
        "block_bytes": whole.need,
        "hardest": {
            "first_frame": window.first + 1,
            "frames": window.count,
            "from_nanoseconds": window.start - whole.start,
            "nanoseconds": window.length,
            "block_bytes": window.need,
            "file_bytes": window.size,
        },
        "saved": str(args.output),
    }


def parser_of() -> argparse.ArgumentParser:
    parser = ToolParser(__doc__, "demo/lo.pcap --ms 100 -o busy.pcap")
    parser.add_argument(
        "capture", type=Path, metavar="CAPTURE", help="pcap, pcapng, or gzip of either, of any size"
    )
    parser.add_argument(
        "--ms",
        type=counted,
        metavar="N",
        help=f"a window of N milliseconds ({DEFAULT_MS:,}, without --mib)",
    )
    parser.add_argument("--mib", type=counted, metavar="N", help="a window of N MiB (at most 32)")
    parser.add_argument(
        "--frames",
        type=int,
        default=MOST_FRAMES,
        metavar="N",
        help=f"of at most N frames ({MOST_FRAMES:,})",
    )
    parser.add_argument(
        "-o",
        "--output",
        type=Path,
        default=Path("busiest.pcap"),
        metavar="FILE",
        help="the cut (busiest.pcap)",
    )
    add_json(parser)
    return parser


def most_of(args: argparse.Namespace) -> Most:
    size = LARGEST_CAPTURE if args.mib is None else int(args.mib * MEBIBYTE)
    if size > LARGEST_CAPTURE:
        raise Fault("--mib: ringtap reads no more than 32 MiB of a capture")
    if args.frames < 1:
        raise Fault("--frames: a number from 1 on")
    time = args.ms if args.ms is not None or args.mib is not None else Fraction(DEFAULT_MS)
    return Most(None if time is None else max(1, int(time * MILLISECOND)), size, args.frames)


def main(words: list[str]) -> int:
    args = parser_of().parse_args(words)
    most = most_of(args)
    if is_device(args.capture):
        raise Fault(
            f"{args.capture}: can be read once, and this tool reads a capture three times: save it"
            " as a file"
        )
    check_outputs([args.output], [args.capture])
    window, whole = hardest(args.capture, most)
    cut(args.capture, window, args.output)
    if args.json:
        print_json(object_of(args, window, whole))
    else:
        print_window(args, window, whole, most)
    return 0
