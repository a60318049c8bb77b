"""The bytes of captures: a pcap file by its header and its records, a pcapng file by its blocks.
What a field says can be wrong."""
from __future__ import annotations

import struct
from collections.abc import Iterable

# the magics of pcap, by the unit of a record's fraction
MICROSECONDS, NANOSECONDS = 0xA1B2C3D4, 0xA1B23C4D
LARGEST_RECORD = 262_144
# the types of the pcapng blocks that are read
SECTION, INTERFACE, SIMPLE, ENHANCED = 0x0A0D0D0A, 1, 3, 6
BYTE_ORDER_MAGIC = 0x1A2B3C4D
TIME_RESOLUTION = 9  # the option of an interface


def header(
    order: str = "<", magic: int = MICROSECONDS, version: tuple[int, int] = (2, 4), link: int = 1,
    snap: int = 65_535
) -> bytes:
    """The header of a pcap file."""
    return struct.pack(order + "IHHiIII", magic, *version, 0, 0, snap, link)


# The header of what ringtap saves.
OUTPUT_HEADER = header(magic=NANOSECONDS, snap=LARGEST_RECORD)


def record(
    data: bytes, order: str = "<", sec: int = 1, fraction: int = 2, captured: int | None = None,
    original: int | None = None
) -> bytes:
    """A record of a pcap file; both lengths are that of the data where no other is given."""
    length = len(data) if captured is None else captured
    wire = len(data) if original is None else original
    return struct.pack(order + "IIII", sec, fraction, length, wire) + data


def output(records: Iterable[bytes]) -> bytes:
    """A file of records as ringtap saves it."""
    return OUTPUT_HEADER + b"".join(records)


def block(order: str, kind: int, body: bytes) -> bytes:
    """A block of a pcapng file, its body padded to 4 bytes."""
    body += bytes(-len(body) % 4)
    length = struct.pack(order + "I", 12 + len(body))
    return struct.pack(order + "I", kind) + length + body + length


def section(order: str, minor: int = 0) -> bytes:
    return block(order, SECTION, struct.pack(order + "IHHq", BYTE_ORDER_MAGIC, 1, minor, -1))


def interface(order: str, resolution: int | None = None, snap: int = 0, link: int = 1) -> bytes:
    """An interface, with the option of its time resolution where that is given."""
    options = b"" if resolution is None else struct.pack(
        order + "HHB3xHH", TIME_RESOLUTION, 1, resolution, 0, 0
    )
    return block(order, INTERFACE, struct.pack(order + "HHI", link, 0, snap) + options)


def enhanced(
    order: str, interface_id: int, time: int, data: bytes, wire: int | None = None
) -> bytes:
    """A packet of an interface, at a time in units of that interface."""
    length = len(data) if wire is None else wire
    return block(
        order, ENHANCED,
        struct.pack(order + "5I", interface_id, *divmod(time, 2**32), len(data), length) + data
    )


def simple(order: str, data: bytes, original: int | None = None) -> bytes:
    """A packet of the first interface, without a time."""
    return block(
        order, SIMPLE, struct.pack(order + "I", len(data) if original is None else original) + data
    )
