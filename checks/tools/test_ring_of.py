"""Compares tools/ring_of.py with what ss printed of running programs, with a ring of this
process, and with Suricata's formula.
"""
from __future__ import annotations

import ctypes
import json
import mmap
import os
import socket
import struct

from second.hash_values import KEY
import pytest

from places import TOP
from tools.here import Answer, Here, SHOWN

SOL_PACKET, PACKET_RX_RING, PACKET_VERSION, PACKET_RESERVE = 263, 5, 10, 12
ETH_P_ALL, TPACKET_V3, SO_ATTACH_FILTER = 3, 2, 26


def ring_of(here: Here, *words: object) -> Answer:
    """What ring_of.py answers of the sockets that ss printed."""
    return here.tool("ring_of.py", "x.pcap", "--from", SHOWN, *words)


def test_ring_of(here: Here) -> None:
    """What ss of iproute2 6.1.0 printed of tcpdump and of sockets that a script opened, on a
    kernel 6.18."""
    printed, said, status = ring_of(
        here, "--name", "tcpdump", "--inode", "137704", "-o", "dump.txt"
    )
    wanted = (
        "block_size 262144\nblock_nr 8\nframe_size 262144\nframe_nr 8\ntov 1000\nfeatures 0\ncpu "
        "x.pcap\nfilter dump.txt.ddd\n"
    )
    first, *notes = (here.path / "dump.txt").read_text().split("\n", 3)
    assert (printed, said, status, first, notes.pop()) == (
        "", "", 0, "# The ring of tcpdump (pid 12965) on lo, as ss shows it.", wanted
    )
    assert [
        "PACKET_RESERVE 4" in notes[0], "1820" in notes[1] and "1724" in notes[1]
    ] == [True, True]
    filtered = (here.path / "dump.txt.ddd").read_text().split("\n")
    # As `tcpdump -ddd 'udp port 53 and net 10.0.0.0/8'` begins, and ends with its 262144 bytes, and
    # none.
    assert (filtered[:3], filtered[-3:]) == (
        ["20", "40 0 0 12", "21 17 0 34525"], ["6 0 0 262144", "6 0 0 0", ""]
    )
    assert here.answer([here.program, "check", "dump.txt"]) == ("ok\n", "", 0)
    assert ring_of(here, "--inode", "137755")[0].split("\n")[5:11] == [
        "tov 60", "features 1", "cpu x.pcap", "members 3", "mode hash", f"key {KEY}"
    ]
    for inode, mode in {
        "137757": "cpu", "137758": "rollover", "139291": "qm", "139287": "lb"
    }.items():
        assert f"mode {mode}" in ring_of(here, "--inode", inode)[0].split("\n"), mode
    said = {
        "137706": (
            "the ring has 40318 slots of 208 bytes, and ringtap has no ring of as many: "
            "--fit takes the nearest one"
        ),
        "139288": "fanout group 84: has type random, which ringtap has not",
        "139292": (
            "the ring has blocks of 2097152 bytes in place of at most 1048576, which ringtap has "
            "not: --fit takes the nearest one"
        ),
        "134820": (
            "the ring has 512 blocks of 4096 bytes in place of 2 to 256, which ringtap has not: "
            "--fit takes the nearest one"
        ),
    }
    for inode, wanted in said.items():
        assert ring_of(here, "--inode", inode) == ("", f"ring_of.py: {wanted}\n", 1), inode
    assert ring_of(here, "--inode", "139292", "--fit")[0].split("\n")[2:6] == [
        "block_size 1048576", "block_nr 8", "frame_size 2048", "frame_nr 4096"
    ]
    assert ring_of(here)[1].split("\n")[0] == (
        "ring_of.py: more than one ring: choose by --pid, --name or --inode"
    )
    # 4096 bytes have 19 frames of 208, so 2122 blocks have 40,318, which is 2 * 19 * 1061: no block
    # of at most 1 MiB has 1061 or 2122 of them, or 20,159. 65,536 bytes have 315, and 128 times 315
    # are 40,320.
    printed = ring_of(here, "--inode", "137706", "--fit")[0].split("\n")
    assert printed[1:] == [
        "# It has 40318 slots in place of 40320.",
        "# Of TPACKET_V2, slots of one frame each: run it with `ringtap replay2`.",
        "block_size 65536", "block_nr 128", "frame_size 208", "frame_nr 40320", "cpu x.pcap", ""
    ]


def shown(here: Here, ring: str, name: str = "x", more: str = "") -> Answer:
    """What ring_of.py answers of one socket, of which ss showed such a ring."""
    line = f'p_raw 0 0 *:lo * users:(("{name}",pid=9,fd=4)) ino:7 sk:1\n\tver:2 flags( running )\n'
    (here.path / "shown.txt").write_text(f"{line}\tring_rx({ring})\n{more}")
    return here.tool("ring_of.py", "x.pcap", "--from", "shown.txt")


RING = "blk_size:4096,blk_nr:{},frm_size:2160,frm_nr:{},tmo:{},features:0x0"


def test_slots_in_other_blocks(here: Here) -> None:
    """986 blocks of one slot of 2,160 bytes are more than 256. 36,864 bytes have 17, and 58 times
    17 are 986: no smaller block has 2, 17, 29 or 34 of them."""
    shown(here, RING.format(986, 986, 0))
    text = (here.path / "shown.txt").read_text().replace("ver:2", "ver:1")
    here.text("shown.txt", text)
    lines = here.tool("ring_of.py", "x.pcap", "--from", "shown.txt").printed.split("\n")
    assert lines[1] == (
        "# It has its 986 slots in 986 blocks of 4096 bytes, which makes no difference."
    )
    assert lines[3:7] == ["block_size 36864", "block_nr 58", "frame_size 2160", "frame_nr 986"]


def test_odd_words(here: Here) -> None:
    """What ss may show of another kernel is a sentence, and no name puts a line into a setup."""
    for ring in ("blk_size:4096", "odd", RING.format("x", 2, 0), RING.format(-2, 2, 0)):
        assert shown(here, ring).said.startswith("ring_of.py: ss: "), ring
    assert shown(here, RING.format(2, 2, -1)).said.startswith("ring_of.py: ss: no ring has such")
    for more in ("\tbpf filter (2): 0x6 0 0\n", "\tbpf filter (1): ret 0 0 1\n"):
        said = shown(here, RING.format(2, 2, 0), more=more).said
        assert said.startswith("ring_of.py: ss: a filter in words that aren't known"), more
    answer = shown(here, RING.format(2, 2, 0), "a\u00e9\x1b\x85")
    assert answer.printed.split("\n")[0] == "# The ring of a??? (pid 9) on lo, as ss shows it."
    said = "can't stand in a setup: ASCII without blanks, of at most 255 bytes\n"
    for name in ("a b.pcap", "a\nblock_nr 9", "\u00e9.pcap", "x" * 256):
        answer = here.tool("ring_of.py", name, "--from", "shown.txt")
        assert answer == ("", f"ring_of.py: the name {name!r} {said}", 1)
    answer = ring_of(here, "--inode", "137704", "-o", "a b.txt")
    assert answer == ("", f"ring_of.py: the name 'a b.txt.ddd' {said}", 1)
    assert not (here.path / "a b.txt").exists()


def test_a_comment_is_one_line(here: Here) -> None:
    """Of the name of a suricata.yaml too."""
    name = here.text("s\nblock_nr 9.yaml", "af-packet:\n  - interface: a\u00e9\n")
    answer = here.tool("ring_of.py", "x.pcap", "--suricata", name)
    first = answer.printed.split("\n")[0]
    assert first.startswith("# The ring that Suricata asks for on a?, by s?block_nr 9.yaml. By its")


@pytest.mark.needs("packet sockets", "ss")
def test_live_ring(here: Here) -> None:
    """A ring of this process."""
    with socket.socket(socket.AF_PACKET, socket.SOCK_RAW, socket.htons(ETH_P_ALL)) as live:
        live.setsockopt(SOL_PACKET, PACKET_VERSION, struct.pack("i", TPACKET_V3))
        live.setsockopt(
            SOL_PACKET, PACKET_RX_RING, struct.pack("IIIIIII", 8192, 4, 2048, 16, 70, 0, 0)
        )
        printed, said, _ = here.tool("ring_of.py", "x.pcap", "--pid", os.getpid())
    assert said == ""
    assert printed.split("\n")[1:7] == [
        "block_size 8192", "block_nr 4", "frame_size 2048", "frame_nr 16", "tov 70", "features 0"
    ]


def test_other_sockets(here: Here) -> None:
    """A ring of cooked packets, as that of `tcpdump -i any`, is warned of."""
    printed, said, status = ring_of(here, "--inode", "590612", "-o", "any.txt")
    assert (printed, said, status) == (
        "",
        "ring_of.py: inode 590612: has packets without an Ethernet header (SOCK_DGRAM, as of `-i "
        "any`), and "
        "ringtap's are Ethernet frames: the room that packets take here is another, and so is a "
        "filter\n",
        0
    )
    made = json.loads(ring_of(here, "--inode", "589333", "--json")[0])
    assert (made["setup"]["tov"], made["setup"]["block_nr"], made["filter"], made["warnings"]) == (
        250, 8, ["6 0 0 262144"], []
    )
    made = json.loads(ring_of(here, "--inode", "590612", "--json")[0])
    assert made["warnings"] == ["no_ethernet_header"]


@pytest.mark.needs("packet sockets")
@pytest.mark.parametrize(("reserve", "place", "count"), [(0, 82, 1820), (4, 86, 1724)])
def test_reserve(reserve: int, place: int, count: int) -> None:
    """What the note on libpcap says, beside this kernel: a block of 262144 bytes has 1820
    packets of 62 bytes, and 1724 with 4 bytes reserved."""
    # 262144 less 48 is 262096; with 82 and 62 a packet takes 144, with 86 and 62 it takes 152.
    assert 262096 // (144 if reserve == 0 else 152) == count
    assert full_block(reserve) == (count, place)


def full_block(reserve: int) -> tuple[int, int]:
    """The packets of a block that is filled with frames of 62 bytes, and the place of the first
    one's data."""
    frames = bytes(12) + b"\x88\xb5" + bytes(48)
    # Packets of type 0x88b5 alone: a half word at 12 is compared.
    code = ctypes.create_string_buffer(
        struct.pack("HBBI" * 4, 0x28, 0, 0, 12, 0x15, 0, 1, 0x88B5, 6, 0, 0, 65535, 6, 0, 0, 0)
    )
    with socket.socket(socket.AF_PACKET, socket.SOCK_RAW, 0) as ring, socket.socket(
        socket.AF_PACKET, socket.SOCK_RAW, 0
    ) as sender:
        ring.setsockopt(SOL_PACKET, PACKET_VERSION, struct.pack("i", TPACKET_V3))
        ring.setsockopt(SOL_PACKET, PACKET_RESERVE, struct.pack("I", reserve))
        ring.setsockopt(
            SOL_PACKET, PACKET_RX_RING, struct.pack("IIIIIII", 262144, 2, 2048, 256, 60000, 0, 0)
        )
        ring.setsockopt(
            socket.SOL_SOCKET, SO_ATTACH_FILTER, struct.pack("HL", 4, ctypes.addressof(code))
        )
        with mmap.mmap(ring.fileno(), 2 * 262144) as memory:
            ring.bind(("lo", ETH_P_ALL))
            sender.bind(("lo", 0))
            for _ in range(2000):  # each is seen as it goes out and as it comes in
                sender.send(frames)
            return struct.unpack_from("<I", memory, 12)[0], struct.unpack_from(
                "<H", memory, 48 + 24
            )[0]


YAML = """%YAML 1.1
---
max-pending-packets: 1024
af-packet:
  - interface: eth0
    # cluster-type: cluster_cpu
    cluster-type: cluster_flow   # by flow
    defrag: yes
  - interface: eth1
    threads: 3
    cluster-type: cluster_qm
    rollover: yes
    ring-size: 30000
    block-size: "1048576"
    block-timeout: 20
    bpf-filter: port 80
  - interface: eth2
    tpacket-v3: no
  - interface: default
    block-timeout: 15
pcap:
  - interface: eth3
"""


def suricata(here: Here, *words: object) -> Answer:
    return here.tool("ring_of.py", "a.pcap", "b.pcap", "--suricata", "s.yaml", *words)


def test_suricata(here: Here) -> None:
    """A packet of 1514 bytes makes a frame of 1514 + 96 - 14 = 1596 bytes, so 1600: 82 are
    rounded up to 96, of which 14 are the packet's."""
    here.text("s.yaml", YAML)
    lines = suricata(here)[0].split("\n")
    # Two threads, one for each capture: 2 * 1024 / 2 packets are 1024; 32768 / 1600 is 20; 1024 /
    # 20 + 1 is 52.
    assert lines[2:] == [
        "block_size 32768", "block_nr 52", "frame_size 1600", "frame_nr 1040", "tov 15",
        "features 0", "cpu a.pcap", "cpu b.pcap", "members 2", "mode hash", f"key {KEY}",
        "flag defrag", ""
    ]
    assert suricata(here, "--threads", "4")[0].split("\n")[3] == f"block_nr {512 // 20 + 1}"
    # 1048576 / 1600 is 655, and 30000 / 655 + 1 is 46.
    lines = suricata(here, "--interface", "eth1")[0].split("\n")
    assert lines[2:7] == [
        "block_size 1048576", "block_nr 46", "frame_size 1600", "frame_nr 30130", "tov 20"
    ]
    assert lines[10:] == [
        "members 3", "mode qm", "flag rollover",
        "# Its filter: tcpdump -y EN10MB -ddd 'port 80' >FILE, and a line `filter FILE`.", ""
    ]
    assert suricata(here, "--interface", "eth2")[1] == (
        "ring_of.py: s.yaml, line 18: eth2 asks for a ring of TPACKET_V2: for `replay2` take "
        "block_nr from ss\n"
    )
    assert suricata(here, "--interface", "eth9")[1] == (
        "ring_of.py: s.yaml: has no interface eth9; there are eth0, eth1, eth2, default\n"
    )
    here.text("s.yaml", "af-packet:\n  - interface: a\n    ring-size: 100000\n")
    assert "which ringtap has not: --fit takes the nearest one" in suricata(here)[1]
    here.text("s.yaml", "af-packet:\n  - interface: a\n    ring-size: many\n")
    assert suricata(here)[1] == (
        "ring_of.py: s.yaml, line 3: `ring-size` is many, and a number here has decimal digits "
        "alone\n"
    )
    here.text("s.yaml", "pcap:\n  - interface: a\n")
    assert suricata(here)[1] == "ring_of.py: s.yaml: has no section `af-packet` with an interface\n"


def lines_of(setup: str) -> list[str]:
    """The lines of a setup that aren't comments, without those that name files."""
    return [
        line
        for line in setup.split("\n")
        if line and line.split()[0] not in ("#", "out", "cpu", "filter")
    ]


def test_examples(here: Here) -> None:
    """The program takes each setup of examples/; those of tcpdump and dumpcap are what ss
    showed, and Suricata's what its yaml asks for."""
    folder = TOP / "examples"
    for path in sorted(folder.glob("*.txt")):
        assert here.answer(
            [here.program, "check", path], TOP
        ) == ("ok\n", "", 0), f"{path.name} is taken"
    for name, inode in (("tcpdump", "137704"), ("dumpcap", "589333")):
        shown = [
            line
            for line in lines_of(ring_of(here, "--inode", inode)[0]) if line != "features 0"
        ]
        assert lines_of((folder / f"{name}.txt").read_text()) == shown, f"{name}.txt"
    printed = here.tool("ring_of.py", "demo/lo.pcap", "--suricata", folder / "suricata.yaml")[0]
    assert lines_of((folder / "suricata.txt").read_text()) == lines_of(printed)
    zeek = dict(line.split() for line in lines_of((folder / "zeek.txt").read_text()))
    # Half of Zeek's 128 MiB, in as many blocks as ringtap has.
    assert (int(zeek["block_size"]) * int(zeek["block_nr"]), zeek["tov"], zeek["mode"]) == (
        64 << 20, "10", "hash"
    )
