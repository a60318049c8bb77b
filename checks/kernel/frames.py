#!/usr/bin/env python3
"""The frames that kernel_cases.py sends: each is given whole, with a mark in its data by which
it differs from the others."""
from __future__ import annotations

import struct

from kernel.wire import RECEIVER_MAC, SENDER_MAC

EXPERIMENT = 0x88B5  # an EtherType for local experiments, IEEE 802
BROADCAST, MULTICAST, ELSEWHERE = (
    b"\xff" * 6, bytes.fromhex("01005e000001"), bytes.fromhex("0200000000aa")
)
TCP, UDP = 6, 17


def filler(size: int, mark: int) -> bytes:
    """Bytes that count up, from another number for each mark."""
    first = mark * 37 % 256
    return (bytes(range(256)) * (2 + size // 256))[first : first + size]


def ethernet(
    size: int, mark: int = 0, kind: int = EXPERIMENT, to: bytes = RECEIVER_MAC, head: bytes = b""
) -> bytes:
    """A frame of so many bytes, of which `head` are the first of its data."""
    frame = to + SENDER_MAC + struct.pack(">H", kind) + head
    return (frame + filler(max(size - len(frame), 0), mark))[:size]


def tagged(
    size: int, tci: int, mark: int = 0, tpid: int = 0x8100, kind: int = EXPERIMENT,
    head: bytes = b""
) -> bytes:
    """A frame of so many bytes, four of them a VLAN tag."""
    return ethernet(size, mark, tpid, head=struct.pack(">HH", tci, kind) + head)


def untagged(frame: bytes) -> bytes:
    """What a kernel leaves of a frame once the tag is out of it."""
    is_tagged = frame[12:14] in (b"\x81\x00", b"\x88\xa8")
    return frame[:12] + frame[16:] if is_tagged else frame


def checksum(head: bytes) -> int:
    total = sum(struct.unpack(f">{len(head) // 2}H", head))
    while total > 0xFFFF:
        total = (total & 0xFFFF) + (total >> 16)
    return total ^ 0xFFFF


def ipv4(
    data: bytes, source: str = "10.0.0.1", target: str = "10.0.0.2", protocol: int = UDP,
    ident: int = 1, at: int = 0, more: bool = False, options: bytes = b"", ttl: int = 64,
    flags: int = 0,
) -> bytes:
    """An IPv4 packet; `at` is the place of a fragment's data in bytes."""
    size = 20 + len(options)
    bits = flags | at // 8 | 0x2000 * more
    ends = b"".join(bytes(map(int, name.split("."))) for name in (source, target))
    head = (
        struct.pack(
            ">BBHHHBBH", 0x40 + size // 4, 0, size + len(data), ident, bits, ttl, protocol, 0
        )
        + ends + options
    )
    return head[:10] + struct.pack(">H", checksum(head)) + head[12:] + data


def ports(near: int, far: int, size: int, mark: int = 0) -> bytes:
    """The head of a UDP datagram with so many bytes of data behind it."""
    return struct.pack(">HHHH", near, far, 8 + size, 0) + filler(size, mark)


def in_frame(packet: bytes, kind: int = 0x0800, to: bytes = RECEIVER_MAC, pad: int = 0) -> bytes:
    """A packet in an Ethernet frame, with so many bytes behind it."""
    return to + SENDER_MAC + struct.pack(">H", kind) + packet + bytes(pad)


def udp(
    near: tuple[str, int], far: tuple[str, int], size: int = 20, mark: int = 0, protocol: int = UDP
) -> bytes:
    """A frame with a datagram from one end to the other."""
    return in_frame(
        ipv4(ports(near[1], far[1], size, mark), near[0], far[0], protocol, ident=mark % 65536)
    )


def udp6(near: tuple[str, int], far: tuple[str, int], size: int = 20, mark: int = 0) -> bytes:
    """The same over IPv6; the addresses are 32 hexadecimal digits."""
    data = ports(near[1], far[1], size, mark)
    head = (
        struct.pack(">IHBB", 6 << 28, len(data), UDP, 64) + bytes.fromhex(near[0])
        + bytes.fromhex(far[0])
    )
    return in_frame(head + data, 0x86DD)


def fragments(
    data: bytes, cuts: list[int], ident: int, options: bytes = b"", pad: int = 0, ttl: int = 64,
    flags: int = 0
) -> list[bytes]:
    """The fragments of a datagram, in order, each in a frame; it is cut at these places, which
    are multiples of 8."""
    places = [0, *cuts, len(data)]
    pairs = list(zip(places, places[1:]))
    return [
        in_frame(
            ipv4(
                data[at:end], ident=ident, at=at, more=end < len(data), options=options, ttl=ttl,
                flags=flags
            ),
            pad=pad
        ) for at,
        end in pairs
    ]
