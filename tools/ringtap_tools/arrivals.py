"""Says which frames of the captures arrive and pass the filter, by asking the program.

Each capture is written anew with the number of its frames in place of their nanoseconds, so a
packet that comes out of a run says which frame it is, or which frame completed its datagram.
Nothing else of a run depends on them: rings go by ticks, filters by bytes, and reassembly gives
datagrams up by whole seconds.
"""
from __future__ import annotations

from array import array
from dataclasses import dataclass, field
from pathlib import Path
from typing import Iterator

from .captures import CaptureStream, CaptureWriter, Frame, say_end
from .files import NANOSECONDS, Fault
from .runs import Report, Room

# bytes of a packet before its data, and of a block before its packets
PACKET_HEADER, DESCRIPTOR = 82, 48
LARGEST_BLOCK, ROOMY_BLOCKS, MOST_MEMBERS = 1_048_576, 64, 8
CPU_STEP = 1 << 24  # more frames than a capture has
ABSENT, PASSED, KEPT = 0, 1, 2  # what became of a frame


@dataclass
class Frames:
    """What is held of a CPU's capture: times, lengths, and what became of each frame."""

    path: Path
    times: array = field(default_factory=lambda: array("Q"))  # nanoseconds
    wires: array = field(default_factory=lambda: array("I"))
    fates: bytearray = field(default_factory=bytearray)
    needs: int = 0  # bytes that all frames take in blocks


def number_of_frame(cpu: int, index: int) -> int:
    """A frame's number among those of all CPUs, which stands in its nanoseconds."""
    return cpu * CPU_STEP + index


def frame_of(packet_time: int) -> tuple[int, int]:
    """The CPU and the index of a frame, from the time of its packet."""
    return divmod(packet_time % NANOSECONDS, CPU_STEP)


def numbered(room: Room) -> list[Frames]:
    """Writes the captures anew, with numbers, and makes the room's runs read them."""
    all_frames, names = [], []
    for cpu, stream in enumerate(room.streams()):
        frames, name = Frames(stream.path), f"numbered{cpu}.pcap"
        with open(room.folder / name, "wb") as file:
            writer = CaptureWriter(file)
            for frame in stream:
                seconds = frame.time // NANOSECONDS
                writer.write(
                    frame._replace(time=seconds * NANOSECONDS + number_of_frame(cpu, frame.index))
                )
                frames.times.append(frame.time)
                frames.wires.append(frame.wire)
                frames.needs += (PACKET_HEADER + len(frame.data) + 7) // 8 * 8
        frames.fates = bytearray(len(frames.times))
        say_end(stream.path, stream.end, len(frames.times))
        all_frames.append(frames)
        names.append(name)
    room.captures = names
    return all_frames


def roomy_changes(captures: list[Frames], prefix: str) -> dict[str, str | None]:
    """A group whose rings keep all: as many members and blocks as the frames need; members take
    turns."""
    # half of a ring is left at ends of blocks, or where turns deal unevenly
    of_one = ROOMY_BLOCKS * LARGEST_BLOCK // 2
    needed = sum(frames.needs for frames in captures)
    members = min(MOST_MEMBERS, 1 + needed // of_one)
    blocks = min(ROOMY_BLOCKS, 2 + 2 * needed // (members * LARGEST_BLOCK))
    return {
        "block_size": str(LARGEST_BLOCK),
        "block_nr": str(blocks),
        "frame_size": "2048",
        "frame_nr": str(LARGEST_BLOCK // 2048 * blocks),
        "members": str(members),
        "mode": "lb",
        "out": prefix,
        "priv": None,
        "tov": None,
        "dump": None,
    }


def keep_all(
    room: Room, captures: list[Frames], prefix: str, more: dict[str, str | None]
) -> Report:
    """A run that drops nothing, with the setup's filter and reassembly."""
    room.write_setup(f"{prefix}.setup", {**roomy_changes(captures, prefix), **more})
    (room.folder / f"{prefix}.schedule").touch()
    report = room.replay(f"{prefix}.setup", f"{prefix}.schedule")
    if report.drops:
        raise Fault(
            f"{room.setup.path}: its captures are more than eight of the largest rings have room"
            f" for: {report.drops} packets were dropped"
        )
    return report


def outputs(room: Room, prefix: str, members: int) -> Iterator[Frame]:
    """The packets of a run's outputs, member after member."""
    for member in range(members):
        yield from CaptureStream(room.folder / f"{prefix}.{member}.pcap", None)


def passing(room: Room, captures: list[Frames]) -> Report:
    """Finds the frames that pass the filter; what the program printed of that run."""
    report = keep_all(room, captures, "all", {})
    for packet in outputs(room, "all", len(report.members)):
        cpu, index = frame_of(packet.time)
        captures[cpu].fates[index] = PASSED
        captures[cpu].wires[index] = packet.wire  # of a datagram that of the whole
    return report


def first_time(captures: list[Frames]) -> int:
    """The earliest time of all frames, in nanoseconds."""
    return min((min(frames.times) for frames in captures if frames.times), default=0)
