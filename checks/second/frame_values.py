#!/usr/bin/env python3
"""Values that the tests of frames compare with, computed apart from them.

Each line is the path of a test and a text that must stand in it: `test_values.sh` looks for each.
"""
from __future__ import annotations

import struct


def ones_sum(data: bytes) -> int:
    """The ones' complement sum of 16-bit words with the carry brought round at each step (RFC
    1071)."""
    total = 0
    for (word,) in struct.iter_unpack(">H", data):
        total += word
        if total > 0xFFFF:
            total -= 0xFFFF
    return total


def built(
    to: bytes, source_mac: bytes, ident: int, source: int, dest: int, sport: int, dport: int,
    payload: bytes
) -> bytes:
    """A UDP datagram of IPv4 in an Ethernet frame."""
    udp = struct.pack(">HHHH", sport, dport, 8 + len(payload), 0)
    head = struct.pack(
        ">BBHHHBBHII", 0x45, 0, 20 + len(udp) + len(payload), ident, 0x4000, 64, 17, 0, source, dest
    )
    checksum = 0xFFFF ^ ones_sum(head)
    head = head[:10] + struct.pack(">H", checksum) + head[12:]
    assert ones_sum(head) == 0xFFFF
    return to + source_mac + b"\x08\x00" + head + udp + payload


def array(data: bytes) -> str:
    return data.hex()


def address(text: str) -> int:
    return struct.unpack(">I", bytes(int(part) for part in text.split(".")))[0]


def say(path: str, text: str) -> None:
    print(f"{path}\t{text}")


if __name__ == "__main__":
    TO = bytes.fromhex("020000000002")
    FROM = bytes.fromhex("020000000001")
    VIEW = "crates/group_tests/src/built_frames.rt"

    small = built(TO, FROM, 0x1234, address("10.0.0.1"), address("10.1.0.2"), 1024, 53, b"hello")
    say(VIEW, array(small[:14]))
    say(VIEW, array(small[14:34]))
    say(VIEW, array(small[34:]))
    large = built(
        TO, FROM, 0xFFFF, address("10.0.255.255"), address("10.1.0.255"), 5119, 53, bytes(1472)
    )
    say(VIEW, array(large[14:34]))
    say(VIEW, array(large[34:42]))
