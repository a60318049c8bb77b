#!/usr/bin/env python3
"""Writes small captures for docs/guide.md into the folder where it is run.

    lo.pcapng        the frames of lo.pcap as a pcapng capture
    tagged.pcap      the frames of lo.pcap, each with a VLAN tag (802.1Q, VLAN 100)
    fragments.pcap   eight UDP datagrams of one host's eight ports, each in two IPv4 fragments
"""
import pathlib
import struct

HEADER = struct.Struct("<IHHiIII")
RECORD = struct.Struct("<IIII")


def records(path):
    """The records of a little-endian pcap file: seconds, microseconds, frame."""
    data = path.read_bytes()
    place = HEADER.size
    while place < len(data):
        seconds, fraction, captured, _ = RECORD.unpack_from(data, place)
        place += RECORD.size
        yield seconds, fraction, data[place : place + captured]
        place += captured


def write(name, frames):
    """Writes a pcap file of Ethernet frames with microseconds."""
    with open(name, "wb") as file:
        file.write(HEADER.pack(0xA1B2C3D4, 2, 4, 0, 0, 262144, 1))
        for seconds, fraction, frame in frames:
            file.write(RECORD.pack(seconds, fraction, len(frame), len(frame)) + frame)


def block(kind, body):
    """A block of a pcapng capture."""
    body += bytes(-len(body) % 4)
    length = struct.pack("<I", 12 + len(body))
    return struct.pack("<I", kind) + length + body + length


def write_pcapng(name, frames):
    """Writes a pcapng file of Ethernet frames with microseconds: one section with one interface."""
    with open(name, "wb") as file:
        file.write(block(0x0A0D0D0A, struct.pack("<IHHq", 0x1A2B3C4D, 1, 0, -1)))
        file.write(block(1, struct.pack("<HHI", 1, 0, 262144)))
        for seconds, fraction, frame in frames:
            high, low = divmod(seconds * 1_000_000 + fraction, 1 << 32)
            file.write(block(6, struct.pack("<5I", 0, high, low, len(frame), len(frame)) + frame))


def checksum(header):
    """The checksum of an IPv4 header whose own checksum is 0."""
    total = sum(struct.unpack(f">{len(header) // 2}H", header))
    while total > 0xFFFF:
        total = (total & 0xFFFF) + (total >> 16)
    return 0xFFFF - total


def fragment(ident, offset, more, data):
    """An Ethernet frame with an IPv4 fragment from 10.0.0.1 to 10.0.0.2; the offset is in bytes."""
    flags = (0x2000 if more else 0) + offset // 8
    fields = [0x4500, 20 + len(data), ident, flags, 0x4011, 0, 0x0A00, 0x0001, 0x0A00, 0x0002]
    fields[5] = checksum(struct.pack(">10H", *fields))
    return bytes.fromhex("0200000000020200000000010800") + struct.pack(">10H", *fields) + data


def demo():
    return records(pathlib.Path(__file__).with_name("lo.pcap"))


def tagged():
    for seconds, fraction, frame in demo():
        yield seconds, fraction, frame[:12] + bytes.fromhex("81000064") + frame[12:]


def fragments():
    for number in range(8):
        datagram = struct.pack(">4H", 2000 + number, 4000, 8 + 2000, 0) + bytes(2000)
        yield 1, 2000 * number, fragment(number, 0, True, datagram[:1480])
        yield 1, 2000 * number + 1000, fragment(number, 1480, False, datagram[1480:])


if __name__ == "__main__":
    write_pcapng("lo.pcapng", demo())
    write("tagged.pcap", tagged())
    write("fragments.pcap", fragments())
