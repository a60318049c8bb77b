"""Frames for the second program: what a capture gives, what the kernel reads in a frame, how it
hashes flows and puts fragments together, and the file that packets are saved in."""
from __future__ import annotations

from collections.abc import Iterable
from dataclasses import dataclass
from typing import NamedTuple

from second import capture_bytes
from second import capture_frames

NANOSECONDS = 1_000_000_000
TAGS = (b"\x81\x00", b"\x88\xa8")  # the protocols of 802.1Q and 802.1ad
IPV4, IPV6 = 0x0800, 0x86DD
TCP, UDP = 6, 17
LEAST_PROTOCOL = 0x0600  # smaller numbers in a frame's place of the protocol are lengths
LONGEST_DATAGRAM = 65_475  # the bytes behind the header that are put together
HELD_DATAGRAMS, HELD_SECONDS = 64, 30


class Frame(NamedTuple):
    """A frame of a CPU's capture; its tag is apart from its bytes once it has been taken out."""

    cpu: int
    index: int
    sec: int
    nsec: int
    wire: int
    data: bytes
    tag: bytes | None = None


def frames_of(data: bytes, cpu: int = 0) -> tuple[list[Frame], str]:
    """The frames of a capture, and the word for how it ends."""
    frames, end = capture_frames.frames_of(data)
    return [
        Frame(cpu, frame.index, *divmod(frame.time, NANOSECONDS), frame.wire, frame.data)
        for frame in frames
    ], end


def output_of(packets: Iterable[Frame]) -> bytes:
    """The file of packets: pcap 2.4, little-endian, in nanoseconds, with each tag put back."""
    return capture_bytes.output(map(record_of, packets))


def record_of(packet: Frame) -> bytes:
    whole, wire = packet.data, packet.wire
    if packet.tag:
        wire = min(wire + 4, 0xFFFFFFFF)
        if len(whole) >= 12:
            whole = whole[:12] + packet.tag + whole[12:]
    return capture_bytes.record(whole, sec=packet.sec, fraction=packet.nsec, original=wire)


def untagged(frame: Frame) -> Frame:
    if len(frame.data) >= 18 and frame.data[12:14] in TAGS:
        rest = frame.data[:12] + frame.data[16:]
        return frame._replace(wire=frame.wire - 4, data=rest, tag=frame.data[12:16])
    return frame


def vlan_of(frame: Frame) -> tuple[int, int]:
    """The tag's control information and its protocol, in the order in which a packet has them."""
    return (number(frame.tag, 2, 2), number(frame.tag, 0, 2)) if frame.tag else (0, 0)


def number(data: bytes | bytearray, place: int, size: int) -> int:
    return int.from_bytes(data[place : place + size], "big")


def ones_sum(data: bytes | bytearray) -> int:
    """The ones' complement sum of the words of 16 bits."""
    total = sum(number(data, place, 2) for place in range(0, len(data), 2))
    while total > 0xFFFF:
        total = (total & 0xFFFF) + (total >> 16)
    return total


def protocol_of(data: bytes) -> int:
    kind = number(data, 12, 2)
    return kind if kind >= LEAST_PROTOCOL else 1 if data[14:16] == b"\xff\xff" else 4


def pkttype_of(data: bytes, own: bytes | None) -> int:
    to = data[:6]
    return 1 if to == b"\xff" * 6 else 2 if to[0] & 1 else 0 if own is None or own == to else 3


class Header(NamedTuple):
    """What a whole IPv4 header says."""

    length: int
    total: int
    ident: int
    has_more: bool
    offset: int  # in units of 8 bytes
    protocol: int


def v4_of(data: bytes) -> Header | None:
    """The header of a frame with a whole one of IPv4."""
    if number(data, 12, 2) != IPV4 or len(data) < 34 or data[14] >> 4 != 4:
        return None
    length, total = 4 * (data[14] & 15), number(data, 16, 2)
    if length < 20 or len(data) < 14 + length or total < length:
        return None
    flags = number(data, 20, 2)
    return Header(
        length, total, number(data, 18, 2), bool(flags & 0x2000), flags & 0x1FFF, data[23]
    )


def flow_input(data: bytes) -> bytes:
    """Both addresses and, where they are there, both ports, the smaller end first; nothing of
    what isn't IP."""
    v4 = v4_of(data)
    if v4:
        near, far, behind = data[26:30], data[30:34], 14 + v4.length
        has_ports = (
            v4.protocol in (TCP, UDP) and not v4.has_more and v4.offset == 0
            and len(data) >= behind + 4
        )
    elif number(data, 12, 2) == IPV6 and len(data) >= 54 and data[14] >> 4 == 6:
        near, far, behind = data[22:38], data[38:54], 54
        has_ports = data[20] in (TCP, UDP) and len(data) >= 58
    else:
        return b""
    ports = (data[behind : behind + 2], data[behind + 2 : behind + 4]) if has_ports else (b"", b"")
    (near, near_port), (far, far_port) = sorted([(near, ports[0]), (far, ports[1])])
    return near + far + near_port + far_port


def flow_hash(key: bytes, data: bytes) -> int:
    """For each set bit of the input the 32 bits of the key from its place on."""
    given, result = flow_input(data), 0
    for place in range(8 * len(given)):
        if given[place // 8] >> (7 - place % 8) & 1:
            result ^= int.from_bytes(key, "big") >> (320 - 32 - place) & 0xFFFFFFFF
    return result


Name = tuple[bytes, int, int]  # of a datagram: both addresses, the protocol and the identification


@dataclass(frozen=True)
class Fragment:
    """A fragment of a datagram, from a place of its data to another."""

    name: Name
    start: int
    end: int
    is_last: bool
    data: bytes
    frame: Frame

    def is_copy_of(self, other: Fragment) -> bool:
        mine, others = (self.start, self.end, self.is_last, self.data), (
            other.start, other.end, other.is_last, other.data
        )
        return mine == others

    def clashes_with(self, other: Fragment) -> bool:
        """Whether it overlaps another one of its datagram, or they don't agree on where that
        ends."""
        overlaps = other.start < self.end and self.start < other.end
        ends_early = other.is_last and self.end > other.end
        return (
            overlaps or ends_early
            or self.is_last and (other.is_last and other.end != self.end or other.end > self.end)
        )


class Reassembly:
    """The fragments that are held, in the order in which they came."""

    def __init__(self) -> None:
        self.held: list[Fragment] = []

    def push(self, frame: Frame) -> Frame | None:
        """A frame that is no fragment, as it is; the datagram that a fragment makes whole; or
        nothing."""
        part = self.part_of(frame)
        if part is None:
            return frame
        self.make_room(part)
        mates = [other for other in self.held if other.name == part.name]
        if any(part.is_copy_of(other) for other in mates):
            return None
        if any(part.clashes_with(other) for other in mates):
            self.lose(part.name)
            return None
        self.held.append(part)
        mates.append(part)
        ends = [mate.end for mate in mates if mate.is_last]
        if not ends or sum(mate.end - mate.start for mate in mates) != ends[0]:
            return None
        self.lose(part.name)
        return self.whole(sorted(mates, key=lambda mate: mate.start), frame)

    def make_room(self, part: Fragment) -> None:
        """Loses the datagrams whose time is over, and the oldest one where a new one finds no
        room."""
        for name in self.names():
            if next(
                other.frame.sec
                for other in self.held if other.name == name
            ) + HELD_SECONDS <= part.frame.sec:
                self.lose(name)
        names = self.names()
        if part.name not in names and len(names) == HELD_DATAGRAMS:
            self.lose(names[0])

    def names(self) -> list[Name]:
        return list(dict.fromkeys(other.name for other in self.held))

    def lose(self, name: Name) -> None:
        self.held = [other for other in self.held if other.name != name]

    @staticmethod
    def part_of(frame: Frame) -> Fragment | None:
        data = frame.data
        v4 = v4_of(data) if len(data) >= 14 else None
        if not v4 or not (v4.has_more or v4.offset):
            return None
        length, start = v4.total - v4.length, 8 * v4.offset
        is_odd = v4.has_more and length % 8 != 0
        if len(data) < 14 + v4.total or length == 0 or is_odd or start + length > LONGEST_DATAGRAM:
            return None
        name = data[26:34], v4.protocol, v4.ident
        return Fragment(
            name, start, start + length, not v4.has_more, data[14 + v4.length : 14 + v4.total],
            frame
        )

    @staticmethod
    def whole(mates: list[Fragment], frame: Frame) -> Frame:
        first = mates[0].frame
        header = v4_of(first.data)
        assert header
        head = bytearray(first.data[: 14 + header.length])
        data = b"".join(mate.data for mate in mates)
        head[16:18] = (header.length + len(data)).to_bytes(2, "big")
        head[20:22] = (number(head, 20, 2) & 0xC000).to_bytes(2, "big")
        head[24:26] = b"\0\0"
        head[24:26] = (ones_sum(head[14:]) ^ 0xFFFF).to_bytes(2, "big")
        data = bytes(head) + data
        return frame._replace(data=data, wire=len(data), tag=first.tag)
