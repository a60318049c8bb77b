"""Compares what tools/blocks.py and examples/walk.c print of a dump with what was laid out by hand.

The places are those of <linux/if_packet.h>, by which walk.c is compiled: a block's descriptor
has 48 bytes, a packet's header 48, its address 20, and the data of an Ethernet frame begins at
82; in a slot of TPACKET_V2 these are 32, 20 and 66.
"""
from __future__ import annotations

import json
import shutil
import struct

import pytest

from places import TOP
from tools.here import BLOCK, Here, refused

ADDRESS = (
    struct.pack("<H", 17) + struct.pack(">H", 0x86DD) + struct.pack("<iHBB", 1, 1, 3, 6)
    + bytes.fromhex("0200000000aa0000")
)


@pytest.fixture
def here(here: Here) -> Here:
    """Beside it a file of two blocks, one of slots, and one without a byte."""
    here.saved("two.blk", block(1) + block(2))
    here.saved("both.blk", slot() + slot(85))
    here.saved("empty.blk", b"")
    return here


def packet(following: int, data: bytes, tag: int | None = None) -> bytes:
    """A packet of a block, without what pads it."""
    status, tci, tpid = (81, tag, 0x8100) if tag else (1, 0, 0)
    head = struct.pack(
        "<IIIIIIHHIIHH8x", following, 7, 9, len(data), 200, status, 82, 96, 0xABCD, tci, tpid, 0
    )
    return head + ADDRESS + bytes(14) + data


def block(
    number: int = 3, status: int = 37, count: int = 2, first: int = 48, offset: int = 104
) -> bytes:
    """A block of two packets of 20 and 5 bytes: 82 and 20 end at 102, so the second begins 104
    further on, and ends at 239, padded to 240."""
    packets = packet(
        offset, b"\x11" * 20, 0x6064
    ).ljust(104, b"\0") + packet(0, b"\x22" * 5).ljust(88, b"\0")
    size = 48 + len(packets)
    return (
        struct.pack("<IIIIIIQIIII", 2, 48, status, count, first, size, number, 7, 9, 8, 10)
        + packets
    )


def slot(status: int = 1, data: bytes = b"\x33" * 30) -> bytes:
    """A slot of TPACKET_V2, up to the end of its packet."""
    head = struct.pack("<IIIHHIIHH4x", status, 60, len(data), 66, 80, 7, 9, 0, 0)
    return head + ADDRESS + bytes(14) + data


def fields(printed: str) -> list[tuple[int, int, str, str, str]]:
    """Each line of a field: its place in the file, its place in the struct, its bytes and its
    name, and the value."""
    return [
        (int(line[4:12], 16), int(line[15:18]), line[19:42].strip(), line[44:72].strip(), line[74:])
        for line in printed.split("\n") if line.startswith("    ") and line[14:15] == "+"
    ]


def test_fields(here: Here) -> None:
    """Each field of the second block of a file, 240 bytes after the first one's begin."""
    printed, said, status = here.tool(
        "blocks.py", here.saved("two.blk", block(1) + block(2)), "--only", "2", "--data", "4"
    )
    found = {
        name: (place, inside, shown, value) for place, inside, shown, name,
        value in fields(printed)[:24]
    }
    wanted = {
        "version": (240, 0, "02 00 00 00", "2 (TPACKET_V3)"),
        "offset_to_priv": (244, 4, "30 00 00 00", "48"),
        "hdr.bh1.block_status": (
            248, 8, "25 00 00 00", "37 (TP_STATUS_USER | TP_STATUS_LOSING | TP_STATUS_BLK_TMO)"
        ),
        "hdr.bh1.num_pkts": (252, 12, "02 00 00 00", "2"),
        "hdr.bh1.offset_to_first_pkt": (256, 16, "30 00 00 00", "48"),
        "hdr.bh1.blk_len": (260, 20, "f0 00 00 00", "240"),
        "hdr.bh1.seq_num": (264, 24, "02 00 00 00 00 00 00 00", "2"),
        "hdr.bh1.ts_first_pkt.ts_nsec": (276, 36, "09 00 00 00", "9"),
        "hdr.bh1.ts_last_pkt.ts_sec": (280, 40, "08 00 00 00", "8"),
        "tp_next_offset": (288, 0, "68 00 00 00", "104"),
        "tp_snaplen": (300, 12, "14 00 00 00", "20"), "tp_len": (304, 16, "c8 00 00 00", "200"),
        "tp_status": (
            308, 20, "51 00 00 00",
            "81 (TP_STATUS_USER | TP_STATUS_VLAN_VALID | TP_STATUS_VLAN_TPID_VALID)"
        ),
        "tp_mac": (312, 24, "52 00", "82"), "hv1.tp_rxhash": (316, 28, "cd ab 00 00", "0x0000abcd"),
        "hv1.tp_vlan_tci": (320, 32, "64 60 00 00", "24676 (VLAN 100, priority 3)"),
        "hv1.tp_vlan_tpid": (324, 36, "00 81", "0x8100 (ETH_P_8021Q)"),
    }
    assert {name: found.get(name) for name in wanted} == wanted
    address = [row for row in fields(printed) if row[3].startswith("sll_")]
    assert address[1:7:3] == [
        (338, 2, "86 dd", "sll_protocol", "0x86dd (ETH_P_IPV6)"),
        (346, 10, "03", "sll_pkttype", "3 (PACKET_OTHERHOST)"),
    ]
    lines = printed.split("\n")
    assert [lines[at + 1 : at + 3] for at, line in enumerate(lines) if "data, " in line] == [
        ["    00000172  11 11 11 11", "    and 16 more"],
        ["    000001da  22 22 22 22", "    and 1 more"]
    ]
    assert (lines[-2], said, status) == ("2 blocks, 4 packets, 50 bytes of them kept", "", 0)


def test_json(here: Here) -> None:
    printed, said, status = here.tool("blocks.py", here.saved("one.blk", block()), "--json")
    made = json.loads(printed)
    assert (made["kind"], made["packets"], made["bytes"], said, status) == (
        "TPACKET_V3", 2, 25, "", 0
    )
    first = made["blocks"][0]
    assert (
        first["seq_num"], first["block_status"], first["blk_len"], first["ts_first_pkt.ts_nsec"]
    ) == (3, 37, 240, 9)
    second = first["packets"][1]
    assert (second["place"], second["tp_snaplen"], second["sll_addr"], second["data"]) == (
        152, 5, "02:00:00:00:00:aa:00:00", "22" * 5
    )
    made = json.loads(
        here.tool("blocks.py", here.saved("slots.blk", slot() + slot(5)), "--json")[0]
    )
    assert (
        made["kind"], made["count"], made["blocks"][1]["place"], made["blocks"][1]["tp_status"]
    ) == ("TPACKET_V2", 2, 96, 5)
    made = json.loads(
        here.tool("blocks.py", here.saved("cut.blk", block() + block()[:30]), "--json")[0]
    )
    assert (len(made["blocks"]), made["fault"]) == (
        1,
        "cut.blk, byte 240: a block's descriptor has 48 bytes, and the file ends after 30 of them"
    )


def test_damage(here: Here) -> None:
    """What precedes the damage is printed, and the damage has its file and its byte."""
    sentences = {
        "pcap": (
            bytes.fromhex("4d3cb2a1") + bytes(20),
            "byte 0: 4d 3c b2 a1 is neither the version of a block, which is 2, nor the status of "
            "a slot: "
            "it is a capture, and the .blk of a run with `dump yes` lies beside it"
        ),
        "version": (
            block() + b"\x03" + block()[1:],
            "byte 240: version is 3, and a block's is 2: no block begins here"
        ),
        "length": (
            block()[:20] + b"\0\0\0\x7f" + block()[24:],
            "byte 20: blk_len is 2130706432, and a block has 48 to 1048576 bytes"
        ),
        "cut": (
            block()[:200], "byte 0: block 1 has 240 bytes, and the file ends after 200 of them"
        ),
        "count": (block(count=3), "byte 152: tp_next_offset is 0 in packet 2 of 3"),
        "next": (block(offset=0), "byte 48: tp_next_offset is 0 in packet 1 of 2"),
        "first": (
            block(first=200),
            "byte 12: num_pkts is 2, and packet 1 would begin at 200 of the block's 240 bytes"
        ),
        "slot": (slot() + bytes(60), "byte 96: tp_status is 0: no filled slot begins here"),
        "slot cut": (
            slot()[:-1], "byte 0: slot 1 has 96 bytes, and the file ends after 95 of them"
        ),
    }
    for what, (data, wanted) in sentences.items():
        printed, said, status = here.tool("blocks.py", here.saved("bad.blk", data), "--short")
        assert (said, status) == (f"blocks.py: bad.blk, {wanted}\n", 1), f"damage: {what}"
        assert printed.startswith(
            "slot 1" if what == "slot" else "block 3" if what in ("version", "next") else ""
        ), f"before the damage: {what}"
    assert here.tool("blocks.py", here.saved("empty.blk", b"")) == (
        "0 blocks, 0 packets, 0 bytes of them kept\n", "", 0
    )
    assert here.tool("blocks.py", "two.blk", "--only", "7") == refused(
        "blocks.py", "two.blk: has no number 7 among 2 blocks, 4 packets, 50 bytes of them kept"
    )
    assert here.tool("blocks.py", "gone.blk") == refused(
        "blocks.py", "gone.blk: can't be read: No such file or directory"
    )


@pytest.mark.needs("cc")
def test_walk(here: Here) -> None:
    """walk.c, which knows <linux/if_packet.h> alone, prints what blocks.py does: of the demo's
    dumps, which the second program laid out, of the files above, and of a run over slots."""
    words = [
        "cc", "-std=c11", "-O2", "-Wall", "-Wextra", "-Werror", "-o", "walk",
        TOP / "examples" / "walk.c"
    ]
    assert here.answer(words) == ("", "", 0)
    here.text("slots.txt", f"{BLOCK}cpu {here.path}/lo.pcap\ndump yes\nout slots\n")
    shutil.copy(TOP / "demo" / "lo.pcap", here.path)
    here.answer([here.program, "replay2", "slots.txt", "/dev/null"])
    here.saved("both.blk", slot() + slot(85))
    for path in [
        TOP / "demo/expected/group/group.0.blk", TOP / "demo/expected/group/group.1.blk", "two.blk",
        "both.blk", "slots.0.blk", "empty.blk"
    ]:
        walked = here.answer(["./walk", path])
        assert walked == here.tool("blocks.py", path, "--short"), f"walk {path}"
    # Four slots of the 52 frames are filled; each has a line beside that of the sums.
    assert len(here.answer(["./walk", "slots.0.blk"])[0].split("\n")) == 6
    said = here.answer(["./walk", here.saved("bad.blk", block(offset=0))])[1:]
    assert said == ("bad.blk, byte 48: tp_next_offset leads nowhere\n", 1)
