"""The inputs of the benchmarks: captures and setups, written into the present folder."""
from __future__ import annotations

import itertools
import struct
import sys
from collections.abc import Callable, Iterator, Sequence
from pathlib import Path

sys.path.append(str(Path(__file__).resolve().parent.parent / "checks"))

from second.capture_bytes import (  # noqa: E402
    LARGEST_RECORD, enhanced, header, interface, record, section,
)

Ring = dict[str, int]  # the numbers of a ring, by their words in a setup
Words = list[str]

LINK = bytes.fromhex("020000000002" "020000000001" "0800")  # the front of a frame of IPv4

MIB = 1_048_576
FRAMES = {"60": [60], "mixed": [60, 590, 1514], "1514": [1514]}
RINGS: dict[str, Ring] = {
    "keeps": {"block_size": MIB, "block_nr": 64, "frame_size": 2048, "frame_nr": 64 * MIB // 2048},
    "drops": {"block_size": 4096, "block_nr": 2, "frame_size": 2048, "frame_nr": 4},
}
SLOTS = {"block_size": 65536, "block_nr": 64, "frame_size": 2048, "frame_nr": 2048}
# The rings of TPACKET_V2: by the bytes of a frame, as many slots as keep all frames of 1514 bytes,
# and the most slots there are.
SLOT_RINGS: dict[str, Ring] = {
    "1514": {"block_size": MIB, "block_nr": 64, "frame_size": 2048, "frame_nr": 64 * MIB // 2048},
    "60": {"block_size": MIB, "block_nr": 64, "frame_size": 1024, "frame_nr": 64 * MIB // 1024},
}
# Smaller blocks, of which the most that a ring may have keep all of one CPU.
SMALL_BLOCKS = {"block_size": 65536, "block_nr": 256, "frame_size": 2048, "frame_nr": 8192}
KEY = "6d5a56da255b0ec24167253d43a38fb0d0ca2bcbae7b30b477cb2da38030f20c6a42b73bbeac01fa"
PASSES_IP = "4\n40 0 0 12\n21 0 1 2048\n6 0 0 262144\n6 0 0 0\n"
PASSES_LARGE = "4\n128 0 0 0\n53 0 1 1000\n6 0 0 262144\n6 0 0 0\n"
GROUPS = {
    "hash": f"members 4\nmode hash\nkey {KEY}\nfeatures 1\n",
    "filter": "filter pass.ddd\n",
    "defrag": f"members 4\nmode hash\nkey {KEY}\nflag defrag\n",
}
# The groups of captures on threads, by the number of CPUs.
HASH, LB, EACH, ONE = "hash of four", "lb of four", "a member each", "one member"
SHARED: dict[str, Callable[[int], str]] = {
    HASH: lambda cpus: f"members 4\nmode hash\nkey {KEY}\n",
    LB: lambda cpus: "members 4\nmode lb\n",
    EACH: lambda cpus: f"members {cpus}\nmode cpu\n",
    ONE: lambda cpus: "",
}
# What is compared with the program in C: the lengths of the frames or the kind of the flows, what
# the group is, and the words of that program.
SMALL = "60 bytes"
CASES: dict[str, tuple[str | list[int], str, Words]] = {
    SMALL: (FRAMES["60"], "", []), "60, 590 and 1514 bytes": (FRAMES["mixed"], "", []),
    "1514 bytes": (FRAMES["1514"], "", []),
    "hash of four, 60 bytes": (
        "small", f"members 4\nmode hash\nkey {KEY}\nfeatures 1\n", ["4", "key", KEY]
    ),
    "hash of four, 1,042 bytes": ("hash", GROUPS["hash"], ["4", "key", KEY]),
    "reassembly": ("defrag", f"features 1\n{GROUPS['defrag']}", ["4", "key", KEY, "defrag"]),
    "filter that passes few": (
        [60] * 15 + [1514], "filter large.ddd\n", ["1", "filter", "large.ddd"]
    ),
}


def frame(length: int) -> bytes:
    """A frame of a length, which is at least that of its front."""
    return LINK + bytes(place % 251 for place in range(length - len(LINK)))


def record_of(number: int, data: bytes) -> bytes:
    """The record of a frame of a number, ten microseconds after the one before it."""
    return record(data, sec=number // 100_000, fraction=number % 100_000 * 10)


def write_until_full(path: str, start: bytes, size: int, parts: Iterator[bytes]) -> int:
    """Writes the parts that a file of so many bytes has room for after its start, and gives
    their number."""
    left, count = size - len(start), 0
    with open(path, "wb") as file:
        file.write(start)
        for part in parts:
            if len(part) > left:
                break
            file.write(part)
            left, count = left - len(part), count + 1
    return count


def make_capture(path: str, size: int, lengths: Sequence[int]) -> int:
    """Writes a capture of at most so many bytes, and gives the number of its frames."""
    frames = itertools.cycle(map(frame, lengths))
    return write_until_full(
        path, header(), size, (record_of(number, data) for number, data in enumerate(frames))
    )


def make_blocks(path: str, size: int, lengths: Sequence[int]) -> int:
    """Writes a pcapng capture of at most so many bytes, and gives the number of its frames."""
    start, frames = section("<") + interface("<", snap=LARGEST_RECORD), itertools.cycle(
        map(frame, lengths)
    )
    return write_until_full(
        path, start, size,
        (enhanced("<", 0, number * 10, data) for number, data in enumerate(frames))
    )


def datagram(number: int, fragment: int | None = None) -> bytes:
    """A UDP datagram of IPv4 with 1,000 bytes of data, of one of some thousand flows, or one of
    its two fragments."""
    ports = struct.pack(">HHHH", 1024 + number % 4096, 53, 1000, 0)
    data, offset, more = ports + bytes(992), 0, 0
    if fragment is not None:
        data, offset, more = (data[:504], 0, 1) if fragment == 0 else (data[504:], 63, 0)
    head = struct.pack(
        ">BBHHHBBH", 0x45, 0, 20 + len(data), number % 65536, offset + 0x2000 * more, 64, 17, 0
    )
    return LINK + head + struct.pack(">II", 0x0A000000 + number % 65521, 0x0A010001) + data


def frames_of_flow(number: int, kind: str) -> list[bytes]:
    """What stands for the datagram of a number: of `filter` every other one is no IPv4, of
    `defrag` it is two fragments."""
    if kind == "defrag" and number % 2:
        return [datagram(number, 0), datagram(number, 1)]
    if kind == "filter" and number % 2:
        return [bytes(12) + b"\x08\x06" + bytes(1028)]
    return [datagram(number)]


def make_flows(path: str, size: int, kind: str) -> int:
    """Writes a capture of UDP flows of at most so many bytes, and gives the number of its
    frames."""
    left, number, count = size - 24, 0, 0
    with open(path, "wb") as file:
        file.write(header())
        while left >= 1100:
            for data in frames_of_flow(number, kind):
                file.write(record_of(number, data))
                left -= 16 + len(data)
                count += 1
            number += 1
    return count


def make_small_flows(path: str, size: int) -> int:
    """Writes a capture of UDP flows in frames of 60 bytes of at most so many bytes, and gives
    the number of its frames."""
    count = (size - 24) // 76
    with open(path, "wb") as file:
        file.write(header())
        for number in range(count):
            data = datagram(number)[:60]
            file.write(record_of(number, data[:16] + struct.pack(">H", 46) + data[18:]))
    return count


def make_case(kind: str | Sequence[int], size: int) -> int:
    """Writes the capture of a case, and gives the number of its frames."""
    if kind == "small":
        return make_small_flows("in.pcap", size)
    return make_flows("in.pcap", size, kind) if isinstance(kind, str) else make_capture(
        "in.pcap", size, kind
    )


# The captures of 4 MiB on threads, by the bytes of a frame.
MAKERS: dict[str, Callable[[], int]] = {
    "60": lambda: make_small_flows("in.pcap", 4 * MIB),
    "1042": lambda: make_flows("in.pcap", 4 * MIB, "hash"),
}


def write_setup(path: str, ring: Ring, cpus: int = 1, more: str = "") -> None:
    """Writes a setup of a ring, of CPUs that all have the same capture, and of further lines."""
    with open(path, "w", encoding="ascii", newline="") as file:
        file.writelines(f"{word} {number}\n" for word, number in ring.items())
        file.write("cpu in.pcap\n" * cpus + more)
