#!/usr/bin/env python3
"""What the kernel of this machine puts together of the fragments that the tests of ip_defrag push.

The fragments go to the loopback device by a raw socket, and another raw socket receives the
datagram whole, with its header. No two of them overlap and none comes twice, so RFC 791 alone
says what comes out, and ringtap's own rules play no part. Each datagram must have the data and
the header fields that the tests compare with. For each it prints the sizes of the fragments in
bytes, their order, and of what the kernel gives the header's length, the total length, flags and
offset, the time to live and the SHA-256 of the data; `fragments.txt` has these lines.
"""
from __future__ import annotations

import hashlib
import itertools
import socket
import struct
from collections.abc import Iterator, Sequence

PROTOCOL = 253  # for experiments, RFC 3692
HERE = socket.inet_aton("127.0.0.1")
SECONDS = 60  # that a datagram may take, which the kernel gives at once


def places(length: int) -> bytes:
    """The data of a datagram: each byte is the remainder of its place by 251."""
    return bytes(place % 251 for place in range(length))


def fragment(ident: int, ttl: int, options: bytes, at: int, data: bytes, more: bool) -> bytes:
    size = 20 + len(options)
    head = struct.pack(
        ">BBHHHBBH", 0x40 + size // 4, 0, size + len(data), ident, at // 8 + 0x2000 * more, ttl,
        PROTOCOL, 0
    )
    return head + HERE + HERE + options + data


def fragments(ident: int, ttl: int, options: bytes, sizes: Sequence[int]) -> Iterator[bytes]:
    whole, at = places(sum(sizes)), 0
    for size in sizes:
        yield fragment(ident, ttl, options, at, whole[at:at + size], at + size < len(whole))
        at += size


def received(socket_in: socket.socket, ident: int) -> bytes:
    """The datagram of an identification; others that came before are skipped."""
    while True:
        whole = socket_in.recv(65535)
        if struct.unpack(">H", whole[4:6])[0] == ident:
            return whole


# the time to live, the options, the sizes and the order of the fragments
Case = tuple[int, bytes, list[int], tuple[int, ...]]


def line_of(out: socket.socket, socket_in: socket.socket, ident: int, case: Case) -> str:
    """Sends the fragments of a datagram, and says what the kernel makes of them."""
    ttl, options, sizes, order = case
    pieces = list(fragments(ident, ttl, options, sizes))
    for place in order:
        out.sendto(pieces[place], ("127.0.0.1", 0))
    try:
        whole = received(socket_in, ident)
    except socket.timeout:
        return (
            f"no datagram of {sizes} in the order {order} within {SECONDS} seconds: a fragment of "
            "it was lost"
        )
    size = (whole[0] & 0xF) * 4
    length, _, flags = struct.unpack(">HHH", whole[2:8])
    told = (size, length, flags, whole[8], whole[size:])
    meant = (20 + len(options), 20 + len(options) + sum(sizes), 0, ttl, places(sum(sizes)))
    if told != meant:
        return f"{sizes} in the order {order} are put together as another datagram"
    digest = hashlib.sha256(whole[size:]).hexdigest()
    words = [
        *map("-".join, (map(str, sizes), map(str, order))), size, length, flags, whole[8], digest
    ]
    return " ".join(map(str, words))


def table() -> Iterator[str]:
    """The lines of all datagrams."""
    cases: list[Case] = [
        (64, b"", [24, 16, 8, 5], order)
        for order in itertools.permutations(range(4))
    ]
    cases += [
        (119, b"", [256, 196], (0, 1)), (119, b"", [256, 196], (1, 0)),
        (64, b"", [8, 8, 4], (2, 0, 1))
    ]
    cases += [(64, b"\x01" * 40, [65472, 3], (1, 0))]
    with (
        socket.socket(socket.AF_INET, socket.SOCK_RAW, socket.IPPROTO_RAW) as out,
        socket.socket(socket.AF_INET, socket.SOCK_RAW, PROTOCOL) as socket_in,
    ):
        socket_in.settimeout(SECONDS)
        for ident, case in enumerate(cases, 0x1235):
            yield line_of(out, socket_in, ident, case)
