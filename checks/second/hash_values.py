#!/usr/bin/env python3
"""Values that the tests of flow hashes compare with, computed apart from them.

Each line is the path of a test and a text that must stand in it: `test_values.sh` looks for each.
"""
from __future__ import annotations

import ipaddress
import struct

# The key that was published with the verification suite of receive side scaling.
KEY = "6d5a56da255b0ec24167253d43a38fb0d0ca2bcbae7b30b477cb2da38030f20c6a42b73bbeac01fa"
TESTS = "crates/group_tests/src/flow_hashes.rt"


def toeplitz(data: bytes) -> int:
    """For each set bit the 32 key bits from its place on."""
    value, key = int.from_bytes(data, "big"), int(KEY, 16)
    size = 8 * len(data)
    result = 0
    for place in range(size):
        if value >> (size - 1 - place) & 1:
            result ^= key >> (320 - 32 - place) & 0xFFFFFFFF
    return result


def ends(source: str, dest: str, sport: int, dport: int) -> bytes:
    """The two ends, the smaller first."""
    near, far = sorted(
        [(ipaddress.ip_address(source).packed, sport), (ipaddress.ip_address(dest).packed, dport)]
    )
    return near[0] + far[0] + struct.pack(">HH", near[1], far[1])


def raw(source: str, dest: str, *ports: int) -> bytes:
    """The addresses and the ports as they are published."""
    return ipaddress.ip_address(source).packed + ipaddress.ip_address(dest).packed + b"".join(
        struct.pack(">H", port) for port in ports
    )


def say(value: int) -> None:
    text = f"{value:08x}"
    print(f"{TESTS}\t0x{text[:4]}_{text[4:]}")


# The verification suite of receive side scaling: source, destination, their ports, the two
# published values.
SUITE = [
    ("66.9.149.187", "161.142.100.80", 2794, 1766, 0x323E8FC2, 0x51CCC178),
    ("199.92.111.2", "65.69.140.83", 14230, 4739, 0xD718262A, 0xC626B0EA),
    ("24.19.198.95", "12.22.207.184", 12898, 38024, 0xD2D0A5DE, 0x5C2B394A),
    ("38.27.205.30", "209.142.163.6", 48228, 2217, 0x82989176, 0xAFC7327F),
    ("153.39.163.191", "202.188.127.2", 44251, 1303, 0x5D1809C5, 0x10E828A2),
    ("3ffe:2501:200:1fff::7", "3ffe:2501:200:3::1", 2794, 1766, 0x2CC18CD5, 0x40207D3D),
    ("3ffe:501:8::260:97ff:fe40:efab", "ff02::1", 14230, 4739, 0x0F0C461C, 0xDDE51BBF),
    (
        "3ffe:1900:4545:3:200:f8ff:fe21:67cf", "fe80::200:f8ff:fe21:67cf", 44251, 38024, 0x4B61E985,
        0x02D1FEEF
    ),
]
# Flows: in the order of their ends.
FLOWS = [
    ("199.92.111.2", "65.69.140.83", 14230, 4739),
    ("10.0.0.1", "10.0.0.1", 4000, 53),
    ("3ffe:2501:200:1fff::7", "3ffe:2501:200:3::1", 2794, 1766),
]

if __name__ == "__main__":
    for source, dest, sport, dport, plain, ported in SUITE:
        assert toeplitz(raw(source, dest)) == plain, source
        assert toeplitz(raw(source, dest, sport, dport)) == ported, source
        say(plain)
        say(ported)
    for source, dest, sport, dport in FLOWS:
        assert ends(source, dest, sport, dport) == ends(dest, source, dport, sport)
        say(toeplitz(ends(source, dest, sport, dport)))
