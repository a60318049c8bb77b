"""Prints the retired blocks of a PREFIX.M.blk by the field names of linux/if_packet.h.

Each field has its place in the file (hexadecimal), its place in its struct, its bytes, its name and
its value; flags are shown in words. Slots of TPACKET_V2, which `ringtap replay2` saves, are told
from blocks by the first word of the file. Where the file is damaged, what precedes the damage is
printed.
"""
from __future__ import annotations

import argparse
import json
import struct
from dataclasses import dataclass
from pathlib import Path
from typing import BinaryIO, Callable, Iterator

from .files import Fault, Setup, read_setup
from .outputs import check_outputs, write_bytes
from .words import ToolParser, add_json

TPACKET_V3 = 2  # of enum tpacket_versions
LARGEST_BLOCK = 1_048_576
DESCRIPTOR = 48  # bytes of struct tpacket_block_desc
HEADER = 68  # bytes of a packet's two structs: TPACKET3_HDRLEN
SLOT_HEADER = 52  # TPACKET2_HDRLEN
SLOT_STATUSES = (1, 5, 81, 85)
STATUS_FLAGS = {
    1: "TP_STATUS_USER",
    2: "TP_STATUS_COPY",
    4: "TP_STATUS_LOSING",
    8: "TP_STATUS_CSUMNOTREADY",
    16: "TP_STATUS_VLAN_VALID",
    32: "TP_STATUS_BLK_TMO",
    64: "TP_STATUS_VLAN_TPID_VALID",
    128: "TP_STATUS_CSUM_VALID",
    256: "TP_STATUS_GSO_TCP",
}
PACKET_TYPES = {
    0: "PACKET_HOST",
    1: "PACKET_BROADCAST",
    2: "PACKET_MULTICAST",
    3: "PACKET_OTHERHOST",
    4: "PACKET_OUTGOING",
}
PROTOCOLS = {
    0x0001: "ETH_P_802_3",
    0x0004: "ETH_P_802_2",
    0x0800: "ETH_P_IP",
    0x0806: "ETH_P_ARP",
    0x8100: "ETH_P_8021Q",
    0x86DD: "ETH_P_IPV6",
    0x88A8: "ETH_P_8021AD",
    0x88CC: "ETH_P_LLDP",
}


def named(names: dict[int, str]) -> Callable[[int], str]:
    """The name of a number, where it has one."""
    return lambda value: names.get(value, "")


def flags_of(status: int) -> str:
    """A status in words; a bit without a name stays a number."""
    words = [name for bit, name in STATUS_FLAGS.items() if status & bit]
    rest = status & ~sum(STATUS_FLAGS)
    return " | ".join(words + [f"{rest:#x}"] * (rest != 0)) or "TP_STATUS_KERNEL"


def tag_of(tci: int) -> str:
    return f"VLAN {tci & 0xFFF}, priority {tci >> 13}" if tci else ""


@dataclass(frozen=True)
class Field:
    """A field of a struct: its place there, its form as `struct` has it, and what its value
    means."""

    name: str
    place: int
    form: str
    words: Callable[[int], str] = lambda value: ""
    is_hex: bool = False

    @property
    def size(self) -> int:
        return struct.calcsize(self.form)

    @property
    def short_name(self) -> str:
        """The name without that of the struct or union around it, where no other field has the
        same."""
        return (
            self.name
            if self.name.endswith("padding")
            else self.name.removeprefix("hdr.bh1.").removeprefix("hv1.")
        )

    def value(self, data: bytes, start: int) -> int | str:
        found = struct.unpack_from(self.form, data, start + self.place)[0]
        return found.hex(":") if isinstance(found, bytes) else found

    def shown(self, value: int | str) -> str:
        """The value as text, with its meaning."""
        if isinstance(value, str):
            return value
        words = self.words(value)
        number = f"{value:#0{2 + 2 * self.size}x}" if self.is_hex else str(value)
        return f"{number} ({words})" if words else number


BLOCK = [
    Field("version", 0, "<I", named({0: "TPACKET_V1", 1: "TPACKET_V2", 2: "TPACKET_V3"})),
    Field("offset_to_priv", 4, "<I"),
    Field("hdr.bh1.block_status", 8, "<I", flags_of),
    Field("hdr.bh1.num_pkts", 12, "<I"),
    Field("hdr.bh1.offset_to_first_pkt", 16, "<I"),
    Field("hdr.bh1.blk_len", 20, "<I"),
    Field("hdr.bh1.seq_num", 24, "<Q"),
    Field("hdr.bh1.ts_first_pkt.ts_sec", 32, "<I"),
    Field("hdr.bh1.ts_first_pkt.ts_nsec", 36, "<I"),
    Field("hdr.bh1.ts_last_pkt.ts_sec", 40, "<I"),
    Field("hdr.bh1.ts_last_pkt.ts_nsec", 44, "<I"),
]
PACKET = [
    Field("tp_next_offset", 0, "<I"),
    Field("tp_sec", 4, "<I"),
    Field("tp_nsec", 8, "<I"),
    Field("tp_snaplen", 12, "<I"),
    Field("tp_len", 16, "<I"),
    Field("tp_status", 20, "<I", flags_of),
    Field("tp_mac", 24, "<H"),
    Field("tp_net", 26, "<H"),
    Field("hv1.tp_rxhash", 28, "<I", is_hex=True),
    Field("hv1.tp_vlan_tci", 32, "<I", tag_of),
    Field("hv1.tp_vlan_tpid", 36, "<H", named(PROTOCOLS), is_hex=True),
    Field("hv1.tp_padding", 38, "<H"),
    Field("tp_padding", 40, "8s"),
]
SLOT = [
    Field("tp_status", 0, "<I", flags_of),
    Field("tp_len", 4, "<I"),
    Field("tp_snaplen", 8, "<I"),
    Field("tp_mac", 12, "<H"),
    Field("tp_net", 14, "<H"),
    Field("tp_sec", 16, "<I"),
    Field("tp_nsec", 20, "<I"),
    Field("tp_vlan_tci", 24, "<H", tag_of),
    Field("tp_vlan_tpid", 26, "<H", named(PROTOCOLS), is_hex=True),
    Field("tp_padding", 28, "4s"),
]
ADDRESS = [
    Field("sll_family", 0, "<H", named({17: "AF_PACKET"})),
    Field("sll_protocol", 2, ">H", named(PROTOCOLS), is_hex=True),
    Field("sll_ifindex", 4, "<i"),
    Field("sll_hatype", 8, "<H", named({1: "ARPHRD_ETHER"})),
    Field("sll_pkttype", 10, "<B", named(PACKET_TYPES)),
    Field("sll_halen", 11, "<B"),
    Field("sll_addr", 12, "8s"),
]
FIELDS = {one.name.rsplit(".", 1)[-1]: one for one in [*BLOCK, *PACKET, *SLOT, *ADDRESS]}
# Not in a short line: paddings, and what is the same in every block or packet.
LEFT_OUT = {
    "version",
    "offset_to_priv",
    "tp_padding",
    "sll_family",
    "sll_ifindex",
    "sll_hatype",
    "sll_halen",
}


@dataclass
class Part:
    """A struct in the file: its name, its fields, and its place in the bytes of its block or
    slot."""

    name: str
    fields: list[Field]
    place: int


@dataclass
class Packet:
    """A packet of a block, or a slot: its place in the bytes of its block or slot, and that of its
    data."""

    number: int  # from 1 in its block; of a slot 0
    place: int
    parts: list[Part]
    data: int
    kept: int


@dataclass
class Block:
    """A block, or one slot: its bytes, their place in the file, its number, and its packets."""

    number: int
    place: int
    data: bytes
    parts: list[Part]
    packets: list[Packet]
    fault: str = ""  # what is wrong after its last packet

    def value(self, part: Part, field: Field) -> int | str:
        return field.value(self.data, part.place)

    def values(self, parts: list[Part]) -> dict[str, int | str]:
        """All fields, by the names that they have in their struct."""
        return {
            field.short_name: self.value(part, field) for part in parts for field in part.fields
        }


def number_at(data: bytes, place: int, size: int = 4) -> int:
    return int.from_bytes(data[place : place + size], "little")


def blocks_of(path: Path, file: BinaryIO) -> Iterator[Block]:
    """The blocks of a file, or its slots. A fault ends them, with the byte where it is."""
    first = file.read(4)
    word = number_at(first, 0)
    if first and (len(first) < 4 or word not in (TPACKET_V3, *SLOT_STATUSES)):
        raise Fault(
            f"{path}, byte 0: {first.hex(' ')} is neither the version of a block, which is 2, nor"
            f" the status of a slot{kind_hint(first)}"
        )
    place, number = 0, 1
    while first:
        block = (block_at if word == TPACKET_V3 else slot_at)(path, file, first, place, number)
        yield block
        if block.fault:
            raise Fault(f"{path}, {block.fault}")
        place, number = place + len(block.data), number + 1
        first = file.read(4)


def kind_hint(first: bytes) -> str:
    magics = ("d4c3b2a1", "a1b2c3d4", "4d3cb2a1", "a1b23c4d", "0a0d0d0a")
    return (
        ": it is a capture, and the .blk of a run with `dump yes` lies beside it"
        if first.hex() in magics
        else ""
    )


def rest_of(path: Path, file: BinaryIO, first: bytes, place: int, size: int, what: str) -> bytes:
    """Reads on until so many bytes are there."""
    data = first + file.read(size - len(first))
    if len(data) < size:
        raise Fault(
            f"{path}, byte {place}: {what} has {size} bytes, and the file ends after {len(data)} of"
            " them"
        )
    return data


def block_at(path: Path, file: BinaryIO, first: bytes, place: int, number: int) -> Block:
    head = rest_of(path, file, first, place, DESCRIPTOR, "a block's descriptor")
    if number_at(head, 0) != TPACKET_V3:
        raise Fault(
            f"{path}, byte {place}: version is {number_at(head, 0)}, and a block's is {TPACKET_V3}:"
            " no block begins here"
        )
    size = number_at(head, 20)
    if not DESCRIPTOR <= size <= LARGEST_BLOCK:
        raise Fault(
            f"{path}, byte {place + 20}: blk_len is {size}, and a block has {DESCRIPTOR} to"
            f" {LARGEST_BLOCK} bytes"
        )
    data = rest_of(path, file, head, place, size, f"block {number}")
    packets, fault = packets_of(data, place)
    return Block(
        number_at(data, 24, 8),
        place,
        data,
        [Part("struct tpacket_block_desc", BLOCK, 0)],
        packets,
        fault,
    )


def packets_of(data: bytes, start: int) -> tuple[list[Packet], str]:
    """The packets of a block, as a reader of a mapped ring finds them, and what is wrong after
    them."""
    packets: list[Packet] = []
    place, count = number_at(data, 16), number_at(data, 12)
    for number in range(1, count + 1):
        if place + HEADER > len(data):
            return (
                packets,
                (
                    f"byte {start + 12}: num_pkts is {count}, and packet {number} would begin at"
                    f" {place} of the block's {len(data)} bytes"
                ),
            )
        following, kept, mac = (
            number_at(data, place),
            number_at(data, place + 12),
            number_at(data, place + 24, 2),
        )
        if place + mac + kept > len(data):
            return (
                packets,
                (
                    f"byte {start + place + 12}: packet {number} has {kept} bytes at {mac}, which"
                    " is past the block's end"
                ),
            )
        parts = [
            Part("struct tpacket3_hdr", PACKET, place),
            Part("struct sockaddr_ll", ADDRESS, place + 48),
        ]
        packets.append(Packet(number, place, parts, place + mac, kept))
        if number < count and following < HEADER:
            return (
                packets,
                (
                    f"byte {start + place}: tp_next_offset is {following} in packet {number} of"
                    f" {count}"
                ),
            )
        place += following
    return packets, ""


def slot_at(path: Path, file: BinaryIO, first: bytes, place: int, number: int) -> Block:
    if number_at(first, 0) not in SLOT_STATUSES:
        raise Fault(
            f"{path}, byte {place}: tp_status is {number_at(first, 0)}: no filled slot begins here"
        )
    head = rest_of(path, file, first, place, SLOT_HEADER, f"slot {number}")
    kept, mac = number_at(head, 8), number_at(head, 12, 2)
    if mac < SLOT_HEADER or mac + kept > LARGEST_BLOCK:
        raise Fault(
            f"{path}, byte {place + 8}: slot {number} has {kept} bytes at {mac}, and a slot at most"
            f" {LARGEST_BLOCK}"
        )
    data = rest_of(path, file, head, place, mac + kept, f"slot {number}")
    parts = [Part("struct tpacket2_hdr", SLOT, 0), Part("struct sockaddr_ll", ADDRESS, 32)]
    return Block(number, place, data, [], [Packet(0, 0, parts, mac, kept)])


# ---- as a program maps it


def mapped(path: Path, blocks: Iterator[Block], args: argparse.Namespace) -> bytes:
    """The ring's memory at a moment: blocks up to --at are retired, and of these the first --read
    have been given back, so that their status is 0 while their bytes stay until the next lap."""
    setup = read_setup(args.setup)
    size, count = setup.number("block_size"), setup.number("block_nr")
    image, last, back = bytearray(size * count), args.at, args.read
    places: list[tuple[int, int]] = []  # of what the reader has: the status's place, and the number
    for number, block in enumerate(blocks, 1):
        if last is not None and number > last:
            break
        place, status = place_of(block, number, setup, size, count)
        if len(block.data) > size:
            raise Fault(
                f"{args.setup}: blocks of {size} bytes, and {title_of(block)} of {path} has"
                f" {len(block.data)}"
            )
        image[place : place + len(block.data)] = block.data
        places.append((place + status, number))
    if last is not None and len(places) < last:
        raise Fault(f"{path}: has {len(places)} blocks or slots, and --at {last} is later")
    if back > len(places):
        raise Fault(f"{path}: has {len(places)} blocks or slots by then, and --read {back} is more")
    slots = count * (size // setup.number("frame_size")) if places and places[0][0] == 0 else count
    held = len(places) - back
    if held > slots:
        raise Fault(
            f"{path}: the reader would have {held} of {slots}: --read gives more of them back"
        )
    for place, number in places:
        if number <= back and not any(
            place == other for other, later in places[number:] if later > back
        ):
            image[place : place + 4] = bytes(4)
    return bytes(image)


def place_of(block: Block, number: int, setup: Setup, size: int, count: int) -> tuple[int, int]:
    """Where a block or a slot is in the ring, and where its status is in it."""
    if block.parts:
        return (number - 1) % count * size, 8
    frame = setup.number("frame_size")
    inside = size // frame
    index = (number - 1) % (inside * count)
    return index // inside * size + index % inside * frame, 0


# ---- as text


def title_of(block: Block, packet: Packet | None = None) -> str:
    if packet is None:
        return f"block {block.number} at byte {block.place}"
    if not block.parts:
        return f"slot {block.number} at byte {block.place}"
    return f"packet {packet.number} at byte {block.place + packet.place}"


def field_lines(block: Block, part: Part) -> Iterator[str]:
    yield f"  {part.name}"
    for field in part.fields:
        place = part.place + field.place
        told = field.shown(block.value(part, field))
        shown = block.data[place : place + field.size].hex(" ")
        yield (
            f"    {block.place + place:08x}  +{field.place:<3} {shown:23}  {field.name:28}  {told}"
            .rstrip()
        )


def data_lines(block: Block, packet: Packet, most: int) -> Iterator[str]:
    """The first bytes of a packet, sixteen in a line."""
    if not most:
        return
    yield f"  data, {packet.kept} bytes"
    for at in range(0, min(packet.kept, most), 16):
        place = packet.data + at
        yield (
            f"    {block.place + place:08x} "
            f" {block.data[place : place + min(16, packet.kept - at, most - at)].hex(' ')}"
        )
    if packet.kept > most:
        yield f"    and {packet.kept - most} more"


def long_lines(block: Block, most: int) -> Iterator[str]:
    """A block field by field, or a slot."""
    if block.parts:
        yield title_of(block)
        for part in block.parts:
            yield from field_lines(block, part)
    for packet in block.packets:
        yield title_of(block, packet)
        for part in packet.parts:
            yield from field_lines(block, part)
        yield from data_lines(block, packet, most)
    yield ""


def short_line(title: str, values: dict[str, int | str]) -> str:
    """What differs from block to block or from packet to packet in one line, seconds and
    nanoseconds as one time."""
    words = []
    for long_name, value in values.items():
        name = long_name.rsplit(".", 1)[-1]
        if name in LEFT_OUT:
            continue
        if name in ("ts_sec", "tp_sec"):
            words.append(f"{long_name.split('.')[-2] if name == 'ts_sec' else 'time'} {value}.")
        elif name in ("ts_nsec", "tp_nsec"):
            words[-1] += f"{value:09}"
        else:
            words.append(f"{name} {FIELDS[name].shown(value)}")
    return f"{title}: {', '.join(words)}"


def short_lines(block: Block) -> Iterator[str]:
    """A line for the block and one for each packet, as examples/walk.c prints them."""
    if block.parts:
        yield short_line(title_of(block), block.values(block.parts))
    for packet in block.packets:
        yield short_line(
            "  " * bool(block.parts) + title_of(block, packet), block.values(packet.parts)
        )


def json_of(block: Block) -> dict[str, object]:
    """A block or slot as JSON, its data as hexadecimal digits."""

    def packet_of(packet: Packet) -> dict[str, object]:
        fields = block.values(packet.parts)
        return {
            "place": block.place + packet.place,
            **fields,
            "data": block.data[packet.data : packet.data + packet.kept].hex(),
        }

    if not block.parts:
        return packet_of(block.packets[0])
    return {
        "place": block.place,
        **block.values(block.parts),
        "packets": [packet_of(packet) for packet in block.packets],
    }


class Sums:
    """What was seen, for the last line."""

    def __init__(self) -> None:
        self.blocks = self.packets = self.bytes = 0
        self.what = "blocks"

    def add(self, block: Block) -> None:
        self.what = "blocks" if block.parts else "slots"
        self.blocks += 1
        self.packets += len(block.packets)
        self.bytes += sum(packet.kept for packet in block.packets)

    def line(self) -> str:
        return f"{self.blocks} {self.what}, {self.packets} packets, {self.bytes} bytes of them kept"


def print_text(blocks: Iterator[Block], args: argparse.Namespace) -> None:
    sums, is_found = Sums(), args.only is None
    for block in blocks:
        sums.add(block)
        if args.only in (None, block.number):
            print("\n".join(short_lines(block) if args.short else long_lines(block, args.data)))
            is_found = True
    if not is_found:
        raise Fault(f"{args.file}: has no number {args.only} among {sums.line()}")
    print(sums.line())


def print_object(path: Path, blocks: Iterator[Block], only: int | None) -> None:
    """One object, written block by block, so that no more than one is held."""
    sums, comma, fault = Sums(), "", None
    print(f'{{"file": {json.dumps(str(path))}, "blocks": [')
    try:
        for block in blocks:
            sums.add(block)
            if only in (None, block.number):
                print(comma + json.dumps(json_of(block)), end="")
                comma = ",\n"
    except Fault as found:
        fault = found
    kind = "TPACKET_V2" if sums.what == "slots" else "TPACKET_V3"
    rest = {
        "kind": kind,
        "count": sums.blocks,
        "packets": sums.packets,
        "bytes": sums.bytes,
        "fault": fault and str(fault),
    }
    print("\n], " + json.dumps(rest)[1:])
    if fault:
        raise fault


def parser_of() -> ToolParser:
    parser = ToolParser(__doc__, "demo/expected/group/group.0.blk --only 1 --data 32")
    parser.add_argument(
        "file",
        type=Path,
        metavar="FILE.blk",
        help="a dump of `replay`, `capture`, `forward`, `make` or `replay2`",
    )
    parser.add_argument(
        "--only", type=int, metavar="N", help="this block (its seq_num), or slot, alone"
    )
    parser.add_argument(
        "--short", action="store_true", help="a line for each block and each packet"
    )
    parser.add_argument(
        "--data",
        type=int,
        default=16,
        metavar="N",
        help="at most N bytes of each packet's data (16)",
    )
    parser.add_argument(
        "--mapped",
        type=Path,
        metavar="IMAGE",
        help="write the ring as a program maps it, block_nr times block_size bytes",
    )
    parser.add_argument(
        "--setup",
        type=Path,
        metavar="SETUP",
        help="with --mapped the setup of the run, for the ring's numbers",
    )
    parser.add_argument(
        "--at",
        type=int,
        metavar="N",
        help="with --mapped when N blocks or slots were handed over (all)",
    )
    parser.add_argument(
        "--read",
        type=int,
        default=0,
        metavar="N",
        help="with --mapped when N of them were given back (0)",
    )
    add_json(parser)
    return parser


def main(words: list[str]) -> int:
    args = parser_of().parse_args(words)
    if args.data < 0:
        raise Fault("--data: a number of bytes isn't negative")
    if (args.mapped is None) != (args.setup is None):
        raise Fault("--mapped, --setup: each needs the other")
    if args.read < 0 or args.at is not None and args.at < 0:
        raise Fault("--at, --read: a number isn't negative")
    if args.mapped:
        check_outputs([args.mapped], [args.file], read_setup(args.setup))
    try:
        with open(args.file, "rb") as file:
            blocks = blocks_of(args.file, file)
            if args.mapped:
                write_bytes(args.mapped, mapped(args.file, blocks, args))
            elif args.json:
                print_object(args.file, blocks, args.only)
            else:
                print_text(blocks, args)
    except (IsADirectoryError, FileNotFoundError, PermissionError) as error:
        raise Fault(f"{args.file}: can't be read: {error.strerror}") from None
    return 0
