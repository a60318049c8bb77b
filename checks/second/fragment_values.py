#!/usr/bin/env python3
"""Headers that the tests of reassembly compare with, computed apart from them.

Each line is the path of a test and a text that must stand in it: `test_values.sh` looks for
each. The header of a reassembled datagram is that of its first fragment with the total length
set, the more bit and the offset cleared and the checksum computed anew (RFC 791).
"""
from __future__ import annotations

import struct

from second.frame_values import address, array, ones_sum, say


def header(
    ident: int, flags: int, data: int, source: int, dest: int, ttl: int = 64, protocol: int = 17,
    options: bytes = b""
) -> bytes:
    """The header of a datagram with so many bytes of data."""
    length = 20 + len(options)
    head = struct.pack(
        ">BBHHHBBHII", 0x40 + length // 4, 0, length + data, ident, flags, ttl, protocol, 0, source,
        dest
    )
    head += options
    checksum = 0xFFFF ^ ones_sum(head)
    head = head[:10] + struct.pack(">H", checksum) + head[12:]
    assert ones_sum(head) == 0xFFFF
    return head


if __name__ == "__main__":
    TESTS = "crates/group_tests/src/datagrams.rt"
    HERE, THERE = address("10.0.0.1"), address("10.0.0.2")

    # Three fragments of 8, 8 and 4 bytes.
    say(TESTS, array(header(0x1234, 0, 20, HERE, THERE)))
    # Four fragments, of 24, 16, 8 and 5 bytes.
    say(TESTS, array(header(0x1234, 0, 53, HERE, THERE)))
    # The worked example of RFC 791: 452 bytes, identification 111, time to live 119, TCP, fragments
    # of 256 and 196.
    say(TESTS, array(header(111, 0, 452, HERE, THERE, ttl=119, protocol=6)))
    # The reserved bit and don't-fragment stay.
    say(TESTS, array(header(0x1234, 0xC000, 12, HERE, THERE)))
    # The longest datagram, after a header with 40 bytes of no-operation options.
    say(TESTS, array(header(0x1234, 0, 65475, HERE, THERE, options=b"\x01" * 40)))
