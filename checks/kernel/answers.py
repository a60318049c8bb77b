#!/usr/bin/env python3
"""What a kernel answers apart from rings that are filled: to requests for rings, to filters that
are attached, to slots that are sent, and a few questions of other kinds. Each answer is a list
of lines, so that it can be kept."""
from __future__ import annotations

import errno
import fcntl
import itertools
import mmap
import os
import socket
import struct
import time
from dataclasses import dataclass, field
from typing import Callable

from kernel.filter_cases import ALL, MEM, TELL, W, Program, extra, jump, ld, ret, st
from kernel.frames import ethernet, tagged, udp
from kernel.sockets import (
    COPY_THRESH, LOSS, RESERVE, RX_RING, SOL_PACKET, TX_RING, V2, V3, Request, Ring, attach, join,
    opened,
)
from kernel.wire import RECEIVER, SENDER, NoRight, Wire, bring_up, silence

AVAILABLE, SEND_REQUEST, WRONG_FORMAT = 0, 1, 4
# of a slot of TPACKET_V3: the bytes before its data, and where its status word is
SLOT_HEADER, SLOT_STATUS = 48, 20
NETLINK_SOCK_DIAG, SOCK_DIAG_BY_FAMILY, NLM_DUMP, SHOW_RINGS = 4, 20, 0x301, 4
NLMSG_ERROR, NLMSG_DONE, PACKET_DIAG_RX_RING = 2, 3, 2
SO_TIMESTAMP = 29
TUNSETIFF, IFF_TAP, IFF_NO_PI, IFF_MULTI_QUEUE = 0x400454CA, 2, 0x1000, 0x100
SECONDS = 10.0  # that sent slots may take to be free again


def word(fault: OSError) -> str:
    return errno.errorcode.get(fault.errno or 0, str(fault.errno))


# ---- requests


@dataclass(frozen=True)
class Asked:
    """A request for a ring, what a kernel answers, and ringtap; the row, where one refuses what
    the other accepts."""

    name: str
    request: Request
    kernel: str
    ringtap: str  # the word of the refusal, or `ok`
    version: int = V3
    transmit: bool = False
    row: str = ""

    def answer(self, _: Wire) -> list[str]:
        with opened(self.version) as sock:
            try:
                sock.setsockopt(
                    SOL_PACKET, TX_RING if self.transmit else RX_RING,
                    self.request.packed(self.version)
                )
            except OSError as fault:
                return [word(fault)]
        return ["ok"]


BLOCKS, PRIVATE, FEATURE, TIME = (
    "blocks of a ring", "private area of a block", "feature bits other than 1",
    "time-out of a block",
)
SMALLEST, SLOTS = "smallest slot", "slots of a ring"
NO, YES = "EINVAL", "ok"


def of(block_size: int, block_nr: int, frame_size: int, frame_nr: int, **more: int) -> Request:
    return Request(block_size, block_nr, frame_size, frame_nr, **more)


REQUESTS = [
    Asked("request_plain", of(4096, 2, 2048, 4), YES, YES),
    Asked("request_block_size_0", of(0, 2, 2048, 4), NO, "block_size"),
    Asked("request_block_size_odd", of(5000, 2, 2048, 4), NO, "block_size"),
    Asked("request_block_size_2048", of(2048, 2, 2048, 2), NO, "block_size"),
    Asked("request_block_size_most", of(1 << 20, 2, 2048, 1024), YES, YES),
    Asked("request_block_size_2_mib", of(2 << 20, 2, 2048, 2048), YES, "block_size", row=BLOCKS),
    Asked("request_no_block_but_frames", of(4096, 0, 2048, 4), NO, "block_count"),
    Asked("request_one_block", of(4096, 1, 2048, 2), YES, "block_count", row=BLOCKS),
    Asked("request_256_blocks", of(4096, 256, 2048, 512), YES, YES),
    Asked("request_257_blocks", of(4096, 257, 2048, 514), YES, "block_count", row=BLOCKS),
    Asked("request_65_mib", of(1 << 20, 65, 2048, 33_280), YES, "block_count", row=BLOCKS),
    Asked("request_private_1024", of(4096, 2, 2048, 4, priv=1024), YES, YES),
    Asked("request_private_1025", of(4096, 2, 2048, 4, priv=1025), YES, "private", row=PRIVATE),
    Asked(
        "request_private_most", of(4096, 2, 2048, 4, priv=4096 - 48 - 68 - 4), YES, "private",
        row=PRIVATE
    ),
    Asked(
        "request_private_too_large", of(4096, 2, 2048, 4, priv=4096 - 48 - 68 + 1), NO, "private"
    ),
    Asked("request_private_past_the_block", of(4096, 2, 2048, 4, priv=5000), NO, "private"),
    Asked("request_frame_67", of(4096, 2, 67, 122), NO, "frame_small"),
    Asked("request_frame_0", of(4096, 2, 0, 0), NO, "frame_small"),
    Asked("request_frame_64", of(4096, 2, 64, 128), NO, "frame_small"),
    Asked("request_frame_80", of(4096, 2, 80, 102), YES, YES),
    Asked("request_frame_unaligned", of(4096, 2, 100, 80), NO, "frame_align"),
    Asked("request_frame_count_more", of(4096, 2, 2048, 5), NO, "frame_count"),
    Asked("request_frame_count_less", of(4096, 2, 2048, 3), NO, "frame_count"),
    Asked("request_frame_past_block", of(4096, 2, 8192, 0), NO, "frame_count"),
    Asked("request_frame_is_block", of(4096, 2, 4096, 2), YES, YES),
    Asked("request_frame_of_blocks_rest", of(4096, 2, 1536, 4), YES, YES),
    Asked("request_feature_1", of(4096, 2, 2048, 4, features=1), YES, YES),
    Asked("request_feature_2", of(4096, 2, 2048, 4, features=2), YES, "feature", row=FEATURE),
    Asked(
        "request_feature_all", of(4096, 2, 2048, 4, features=0xFFFFFFFF), YES, "feature",
        row=FEATURE
    ),
    Asked("request_time_out_most", of(4096, 2, 2048, 4, tov=60_000), YES, YES),
    Asked(
        "request_time_out_32_bits", of(4096, 2, 2048, 4, tov=0xFFFFFFFF), YES, "bad_number",
        row=TIME
    ),
    Asked("request_v2_plain", of(4096, 2, 2048, 4), YES, YES, V2),
    Asked("request_v2_frame_64", of(4096, 2, 64, 128), YES, "frame_small", V2, row=SMALLEST),
    Asked("request_v2_frame_48", of(4096, 2, 48, 170), NO, "frame_small", V2),
    Asked("request_v2_frame_unaligned", of(4096, 2, 72, 112), NO, "frame_align", V2),
    Asked("request_v2_frame_count", of(4096, 2, 2048, 5), NO, "frame_count", V2),
    Asked("request_v2_block_size", of(4095, 2, 2048, 4), NO, "block_size", V2),
    Asked("request_v2_65536_slots", of(1 << 17, 1 << 6, 128, 1 << 16), YES, YES, V2),
    Asked(
        "request_v2_65792_slots", of(1 << 15, 257, 128, 65_792), YES, "block_count", V2, row=BLOCKS
    ),
    Asked("request_v2_more_slots", of(1 << 16, 103, 80, 84_357), YES, "slots", V2, row=SLOTS),
    Asked("request_tx_plain", of(4096, 2, 2048, 4), YES, YES, transmit=True),
    Asked("request_tx_time_out", of(4096, 2, 2048, 4, tov=8), NO, "transmit", transmit=True),
    Asked("request_tx_private", of(4096, 2, 2048, 4, priv=8), NO, "transmit", transmit=True),
    Asked("request_tx_feature", of(4096, 2, 2048, 4, features=1), NO, "transmit", transmit=True),
    Asked("request_tx_frame_count", of(4096, 2, 2048, 5), NO, "frame_count", transmit=True),
    Asked("request_tx_frame_small", of(4096, 2, 64, 128), NO, "frame_small", transmit=True),
    Asked("request_tx_frame_unaligned", of(4096, 2, 100, 80), NO, "frame_align", transmit=True),
]


# ---- filters that are attached


@dataclass(frozen=True)
class Attached:
    """A filter, whether a kernel takes it, and the word of ringtap's refusal, or `ok`."""

    name: str
    program: Program
    kernel: str
    ringtap: str
    row: str = ""

    def answer(self, _: Wire) -> list[str]:
        with opened(V3) as sock:
            try:
                attach(sock, list(self.program))
            except OSError as fault:
                return [word(fault)]
        return ["ok"]


END = ret(ALL)
UNWRITTEN, OTHERS = "a filter's memory word that was never written", "ancillary loads of a filter"
LONG = "a filter of 4096 instructions"
FILTERS = [
    Attached("attach_return", (END,), YES, YES),
    Attached("attach_no_return", (ld(W, 0),), NO, "no_return"),
    Attached("attach_bad_code", ((0xFFFF, 0, 0, 0), END), NO, "bad_code"),
    Attached("attach_code_of_no_word", ((0x18, 0, 0, 0), END), NO, "bad_code"),
    Attached("attach_jump_past_end", (jump("jeq", 0, 1, 0), END), NO, "bad_jump"),
    Attached("attach_jump_to_last", (jump("jeq", 0, 1, 0), END, END), YES, YES),
    Attached("attach_ja_past_end", ((0x05, 0, 0, 1), END), NO, "bad_jump"),
    Attached("attach_division_by_0", ((0x34, 0, 0, 0), END), NO, "bad_constant"),
    Attached("attach_remainder_by_0", ((0x94, 0, 0, 0), END), NO, "bad_constant"),
    Attached("attach_shift_by_32", ((0x64, 0, 0, 32), END), NO, "bad_constant"),
    Attached("attach_shift_by_31", ((0x64, 0, 0, 31), END), YES, YES),
    Attached("attach_memory_16", (st(16), END), NO, "bad_memory"),
    Attached("attach_load_of_memory_16", (ld(W, 16, MEM), END), NO, "bad_memory"),
    Attached("attach_memory_written", (st(3), ld(W, 3, MEM), END), YES, YES),
    Attached("attach_memory_unwritten", (ld(W, 3, MEM), END), NO, YES, row=UNWRITTEN),
    Attached(
        "attach_memory_written_on_one_way",
        (ld(W, 0), jump("jeq", 0, 0, 1), st(3), ld(W, 3, MEM), END), NO, YES, row=UNWRITTEN
    ),
    Attached(
        "attach_ancillary_vlan", (ld(W, 0xFFFFF000 + 44), END), YES, "bad_ancillary", row=OTHERS
    ),
    Attached(
        "attach_ancillary_mark", (ld(W, 0xFFFFF000 + 20), END), YES, "bad_ancillary", row=OTHERS
    ),
    Attached("attach_ancillary_none", (ld(W, 0xFFFFF000 + 1000), END), NO, "bad_ancillary"),
    Attached("attach_negative_place", (ld(W, 0xFFF00000), END), YES, "bad_ancillary", row=OTHERS),
    Attached("attach_1000", (ld(W, 0),) * 999 + (END,), YES, YES),
    Attached("attach_4096", (ld(W, 0),) * 4095 + (END,), "ENOMEM", YES, row=LONG),
    Attached("attach_too_many", (ld(W, 0),) * 4096 + (END,), NO, "bad_count"),
    Attached("attach_none", (), NO, "bad_count"),
]


# ---- transmit rings


@dataclass(frozen=True)
class Sending:
    """Frames that are put into a transmit ring of TPACKET_V3. The answer has what each send
    answered, the slots' status words after it, and the frames that came out of the other device."""

    name: str
    shows: str
    frames: tuple[bytes, ...]
    request: Request = Request()
    loss: bool = False
    row: str = ""
    kernel: tuple[str, ...] = ()  # where it isn't what ringtap does

    def answer(self, wire: Wire) -> list[str]:
        with opened(V3) as sock:
            if self.loss:
                sock.setsockopt(SOL_PACKET, LOSS, 1)
            sock.setsockopt(SOL_PACKET, TX_RING, self.request.packed(V3))
            with mmap.mmap(
                sock.fileno(), self.request.block_size * self.request.block_nr
            ) as memory:
                sock.bind((SENDER, 0))
                return self.sent(wire, sock, memory)

    def sent(self, wire: Wire, sock: socket.socket, memory: mmap.mmap) -> list[str]:
        told: list[str] = []
        for first in range(0, len(self.frames), self.request.frame_nr):
            batch = self.frames[first : first + self.request.frame_nr]
            for slot, frame in enumerate(batch):
                self.place(memory, slot, frame)
            try:
                told.append(f"send {sock.send(b'')}")
            except OSError as fault:
                told.append(f"send {word(fault)}")
            statuses = self.settled(memory, len(batch))
            told.append(f"slots {' '.join(map(str, statuses))}")
            told += [wire.seen().hex() for _ in range(self.passed(batch, statuses))]
            if WRONG_FORMAT in statuses:
                told.append(f"again {sock.send(b'')}")
                break
        return told

    def passed(self, batch: tuple[bytes, ...], statuses: list[int]) -> int:
        """How many frames of a batch came through: those of free slots that the ring didn't
        skip."""
        most = self.request.frame_size - SLOT_HEADER
        return sum(
            status == AVAILABLE and 14 <= len(frame) <= most for frame,
            status in zip(batch, statuses)
        )

    def at(self, slot: int) -> int:
        each = self.request.block_size // self.request.frame_size
        return slot // each * self.request.block_size + slot % each * self.request.frame_size

    def place(self, memory: mmap.mmap, slot: int, frame: bytes) -> None:
        at, data = self.at(slot), frame[: self.request.frame_size - SLOT_HEADER]
        memory[at : at + SLOT_HEADER] = bytes(SLOT_HEADER)
        memory[at + SLOT_HEADER : at + SLOT_HEADER + len(data)] = data
        struct.pack_into("=I", memory, at + 16, len(frame))
        struct.pack_into("=I", memory, at + SLOT_STATUS, SEND_REQUEST)

    def settled(self, memory: mmap.mmap, count: int) -> list[int]:
        """The status words, once no slot is on its way."""
        until = time.monotonic() + SECONDS
        while True:
            statuses = [
                struct.unpack_from("=I", memory, self.at(slot) + SLOT_STATUS)[0]
                for slot in range(count)
            ]
            if (
                all(status in (AVAILABLE, SEND_REQUEST, WRONG_FORMAT) for status in statuses)
                or time.monotonic() > until
            ):
                return statuses
            time.sleep(0.001)


def row_of(*sizes: int) -> tuple[bytes, ...]:
    return tuple(ethernet(size, at) for at, size in enumerate(sizes))


SENDINGS = [
    Sending("send_one", "a slot with a frame", row_of(60)),
    Sending("send_full", "a ring that is full goes out at once", row_of(60, 61, 62, 63)),
    Sending("send_laps", "three laps of four slots", row_of(*range(60, 170, 10))),
    Sending("send_sizes", "14 bytes to the most of a slot", row_of(14, 15, 1514, 2000)),
    Sending(
        "send_tagged", "a tag goes out as it is", (tagged(64, 7, 1), tagged(100, 0xFFFF, 2, 0x88A8))
    ),
    Sending(
        "send_too_long", "a frame longer than a slot stops the ring there", row_of(60, 61, 2001, 62)
    ),
    Sending("send_too_long_first", "also the first one", row_of(2001, 60)),
    Sending("send_too_long_later", "and one of a later lap", row_of(60, 61, 62, 63, 64, 3000, 65)),
    Sending("send_skipping", "with PACKET_LOSS it is skipped", row_of(60, 61, 2001, 62), loss=True),
    Sending(
        "send_skipping_more", "several are skipped", row_of(2001, 60, 9000, 4000, 61, 2001),
        loss=True
    ),
    Sending(
        "send_small_slots", "slots of 128 bytes", row_of(*range(60, 82, 3)),
        Request(4096, 2, 128, 64)
    ),
    Sending(
        "send_rest_of_block", "slots of 1,536 bytes: a block has two and some bytes left",
        row_of(60, 1488, 61, 1000), Request(4096, 2, 1536, 4)
    ),
    Sending(
        "send_large", "a slot of 64 KiB", row_of(9000, 65_488, 60), Request(65_536, 2, 65_536, 2)
    ),
]


# ---- other questions


@dataclass(frozen=True)
class Question:
    """A question to a kernel alone: the row that it shows, and what it answers."""

    name: str
    shows: str
    row: str
    kernel: tuple[str, ...]
    ask: Callable[[Wire], list[str]] = field(repr=False)

    def answer(self, wire: Wire) -> list[str]:
        return self.ask(wire)


def fourteen_members(_: Wire) -> list[str]:
    socks = [opened(V3) for _ in range(14)]
    try:
        for sock in socks:
            sock.setsockopt(SOL_PACKET, RX_RING, Request().packed(V3))
            sock.bind((RECEIVER, 3))
            join(sock, 77, "lb", frozenset())
    finally:
        for sock in socks:
            sock.close()
    return ["14 members"]


FLOWS = [(f"10.0.{at}.1", 1000 + at) for at in range(40)]


def flow_of(frame: bytes) -> tuple[bytes, ...]:
    """Both ends of a frame's flow, in an order that both directions have."""
    return tuple(sorted((frame[26:30] + frame[34:36], frame[30:34] + frame[36:38])))


def hash_flows(wire: Wire) -> list[str]:
    """Forty flows of UDP, three packets each way, to four members."""
    rings = [ring_of(V2, Request(65_536, 8, 1024, 512)) for _ in range(4)]
    for ring in rings:
        join(ring.sock, 78, "hash", frozenset())
    server = ("10.9.9.9", 53)
    for near in FLOWS:
        for mark in range(3):
            for ends in ((near, server), (server, near)):
                wire.send(udp(*ends, 20 + mark, mark))
                wire.seen()
    members: dict[tuple[bytes, ...], set[int]] = {}
    for member, ring in enumerate(rings):
        ring.drain()
        for taken in ring.taken:
            members.setdefault(flow_of(taken.data[66:]), set()).add(member)
        ring.close()
    together = sum(len(found) == 1 for found in members.values())
    used = set().union(*members.values())
    return [
        f"{len(members)} flows", f"at one member: {together}", f"several members: {len(used) > 1}"
    ]


def ring_of(
    version: int, request: Request, program: Program | None = None, device: str = RECEIVER
) -> Ring:
    ring = Ring(opened(version, list(program) if program else None), version, request)
    ring.start(device)
    return ring


def hashes(wire: Wire) -> list[str]:
    """tp_rxhash of a flow in both directions, of another one, and of what isn't IP."""
    ring = ring_of(V3, Request(features=1, tov=60_000))
    near, far = ("10.0.0.1", 1000), ("10.0.0.2", 53)
    for frame in (udp(near, far), udp(far, near), udp(near, ("10.0.0.3", 53)), ethernet(60)):
        wire.send(frame)
        wire.seen()
    at = 48
    found = []
    for _ in range(4):
        found.append(ring.word(at + 28))
        at += ring.word(at)
    ring.close()
    there, back, other, plain = found
    return [
        f"both directions alike: {there == back}", f"another flow alike: {there == other}",
        f"not IP is 0: {plain == 0}"
    ]


def time_outs(_: Wire) -> list[str]:
    """The time-outs that the kernel tells of rings that ask for none: without a device, and with
    blocks of 4 KiB and of 4 MiB at the pair of virtual devices, which says 10 Gbit/s."""
    found = []
    for size, bound in ((4096, False), (4096, True), (4 << 20, True)):
        with opened(V3) as sock:
            if bound:
                sock.bind((RECEIVER, 3))
            sock.setsockopt(SOL_PACKET, RX_RING, Request(size, 2, 2048, size // 1024).packed(V3))
            found.append(
                f"{'device' if bound else 'no device'}, {size} bytes: {told_time_out(sock)} ms"
            )
    return found


def told_time_out(sock: socket.socket) -> int:
    """The time-out of a socket's ring, as the kernel tells it to `ss`."""
    inode = os.fstat(sock.fileno()).st_ino
    with socket.socket(socket.AF_NETLINK, socket.SOCK_RAW, NETLINK_SOCK_DIAG) as diag:
        diag.settimeout(SECONDS)
        asked = struct.pack(
            "=BBHIIII", socket.AF_PACKET, 0, 0, 0, SHOW_RINGS, 0xFFFFFFFF, 0xFFFFFFFF
        )
        diag.send(
            struct.pack("=IHHII", 16 + len(asked), SOCK_DIAG_BY_FAMILY, NLM_DUMP, 1, 0) + asked
        )
        while True:
            answer = diag.recv(1 << 16)
            at = 0
            while at < len(answer):
                size, kind = struct.unpack_from("=IH", answer, at)
                if kind in (NLMSG_ERROR, NLMSG_DONE):
                    raise NoRight("the kernel tells nothing of packet sockets")
                if struct.unpack_from("=I", answer, at + 20)[0] == inode:
                    return ring_time_out(answer[at + 32 : at + size])
                at += (size + 3) & ~3


def ring_time_out(attributes: bytes) -> int:
    """The time-out of the `struct packet_diag_ring` among them."""
    at = 0
    while at < len(attributes):
        size, kind = struct.unpack_from("=HH", attributes, at)
        if kind == PACKET_DIAG_RX_RING:
            return struct.unpack_from("=I", attributes, at + 20)[0]
        at += (size + 3) & ~3
    raise NoRight("the kernel tells nothing of a packet socket's ring")


def copied(wire: Wire) -> list[str]:
    """A frame longer than its slot, with PACKET_COPY_THRESH."""
    sock = opened(V2)
    sock.setsockopt(SOL_PACKET, COPY_THRESH, 1)
    ring = Ring(sock, V2, Request())
    ring.start(RECEIVER)
    frame = ethernet(3000, 1)
    wire.send(frame)
    wire.seen()
    ring.drain()
    status, _, snap = struct.unpack_from("=III", ring.taken[0].data)
    whole = sock.recv(1 << 16) == frame
    ring.close()
    return [f"status {status}, {snap} bytes", f"the whole from the queue: {whole}"]


def reserved(wire: Wire) -> list[str]:
    """Where the data begin without tp_reserve, with 4, which libpcap asks for, and with 32."""
    found = []
    for version, reserve in itertools.product((V2, V3), (0, 4, 32)):
        sock = opened(version)
        sock.setsockopt(SOL_PACKET, RESERVE, reserve)
        ring = Ring(sock, version, Request(tov=60_000))
        ring.start(RECEIVER)
        wire.send(ethernet(60))
        wire.seen()
        at = 48 + 24 if version == V3 else 12
        found.append("tp_mac {}, tp_net {}".format(*struct.unpack_from("=HH", ring.memory, at)))
        ring.close()
    return found


def stamped(wire: Wire) -> list[str]:
    """The status of a packet while some socket has asked for times: TP_STATUS_TS_SOFTWARE is 1
    << 29."""
    ring = ring_of(V2, Request())
    with socket.socket(socket.AF_INET, socket.SOCK_DGRAM) as other:
        other.setsockopt(socket.SOL_SOCKET, SO_TIMESTAMP, 1)
        until = time.monotonic() + SECONDS
        while (
            not (ring.taken and ring.word(ring.at(len(ring.taken) - 1)) >> 29)
            and time.monotonic() < until
        ):
            wire.send(ethernet(60))  # the kernel begins a little later
            wire.seen()
            ring.release()
            ring.drain()
            time.sleep(0.01)
    status = struct.unpack_from("=I", ring.taken[-1].data)[0]
    ring.close()
    return [f"status {status:#x}"]


def own_filters(wire: Wire) -> list[str]:
    """Two members by turns, of which the first one to get a frame lets nothing through."""
    nothing = ring_of(V2, Request(), (ret(0),))
    everything = ring_of(V2, Request())
    for ring in (everything, nothing):
        join(ring.sock, 79, "lb", frozenset())
    for at in range(4):
        wire.send(ethernet(60 + at))
        wire.seen()
    found = []
    for ring in (nothing, everything):
        ring.drain()
        found.append(f"{len(ring.taken)} packets")
        ring.close()
    return found


def recorded_queue(_: Wire) -> list[str]:
    """The queue that a filter loads of a frame that came from a TAP device's first queue, which
    records it."""
    try:
        device = os.open("/dev/net/tun", os.O_RDWR)
    except OSError:
        raise NoRight("a TAP device can't be made") from None
    try:
        fcntl.ioctl(
            device, TUNSETIFF,
            struct.pack("16sH22x", b"ringtap2", IFF_TAP | IFF_NO_PI | IFF_MULTI_QUEUE)
        )
        silence()
        bring_up("ringtap2")
        ring = ring_of(V2, Request(), (extra("queue"), *TELL), "ringtap2")
        os.write(device, ethernet(1200, 1))
        until = time.monotonic() + SECONDS
        while not ring.drain() and time.monotonic() < until:
            time.sleep(0.001)
        snap = struct.unpack_from("=I", ring.taken[0].data, 8)[0]
        ring.close()
    finally:
        os.close(device)
    return [f"queue {snap - 100}"]


def age(_: Wire) -> list[str]:
    """How many seconds a namespace holds fragments, as it begins."""
    with open("/proc/sys/net/ipv4/ipfrag_time", encoding="ascii") as file:
        return [f"{file.read().strip()} seconds"]


def malformed(wire: Wire) -> list[str]:
    """A slot of 13 bytes, and one that says another offset than 0 to the next."""
    short = Sending("", "", (ethernet(60), ethernet(13), ethernet(61))).answer(wire)
    with opened(V3) as sock:
        request = Request()
        sock.setsockopt(SOL_PACKET, TX_RING, request.packed(V3))
        with mmap.mmap(sock.fileno(), request.block_size * request.block_nr) as memory:
            sock.bind((SENDER, 0))
            sending = Sending("", "", ())
            sending.place(memory, 0, ethernet(60))
            struct.pack_into("=I", memory, 0, 2048)
            try:
                told = [f"send {sock.send(b'')}"]
            except OSError as fault:
                told = [f"send {word(fault)}"]
            told.append(f"slots {' '.join(map(str, sending.settled(memory, 1)))}")
    return [line for line in short if " " in line] + told


def longer_than_device(wire: Wire) -> list[str]:
    """A slot that a frame fits into which is longer than the device's largest."""
    sending = Sending(
        "", "", (ethernet(60), ethernet(66_000), ethernet(61)), Request(131_072, 2, 131_072, 2)
    )
    return [
        line if len(line) < 50 else f"a frame of {len(line) // 2} bytes"
        for line in sending.answer(wire)
    ]


QUESTIONS = [
    Question(
        "fourteen_members", "a group takes 14 members", "members", ("14 members",), fourteen_members
    ),
    Question(
        "hash_flows", "mode hash keeps both directions of a flow together", "fanout mode hash",
        ("40 flows", "at one member: 40", "several members: True"), hash_flows
    ),
    Question(
        "hash_values", "tp_rxhash is alike in both directions and not 0 for what isn't IP",
        "hash of a flow",
        ("both directions alike: True", "another flow alike: False", "not IP is 0: False"), hashes
    ),
    Question(
        "time_out_not_given", "a time-out of 0 goes by the link's speed",
        "time-out of a block that isn't given",
        ("no device, 4096 bytes: 8 ms", "device, 4096 bytes: 1 ms", "device, 4194304 bytes: 4 ms"),
        time_outs
    ),
    Question(
        "copy_threshold", "a frame that is cut is in the socket's queue too",
        "a frame that is longer than its slot",
        ("status 3, 1982 bytes", "the whole from the queue: True"), copied
    ),
    Question(
        "reserve", "tp_reserve moves the data",
        "where a slot's data and its network header begin (`tp_mac`, `tp_net`)",
        (
            "tp_mac 66, tp_net 80", "tp_mac 70, tp_net 84", "tp_mac 98, tp_net 112",
            "tp_mac 82, tp_net 96", "tp_mac 86, tp_net 100", "tp_mac 114, tp_net 128"
        ),
        reserved
    ),
    Question(
        "stamped", "a packet says where its time is from, once some socket wants times",
        "the other bits of `tp_status`", ("status 0x20000001",), stamped
    ),
    Question(
        "own_filters", "each member has a filter of its own", "where the filter is",
        ("0 packets", "2 packets"), own_filters
    ),
    Question(
        "recorded_queue", "a device that records the queue says one more",
        "fanout mode qm, and a filter's queue", ("queue 1",), recorded_queue
    ),
    Question(
        "fragments_age", "fragments are held for 30 seconds", "how long", ("30 seconds",), age
    ),
    Question(
        "send_malformed",
        "a slot of fewer than 14 bytes, or with an offset to the next one, is malformed",
        "a malformed transmit slot",
        ("send EINVAL", "slots 0 4 1", "again 0", "send EINVAL", "slots 4"), malformed
    ),
    Question(
        "send_longer_than_device", "a frame longer than the device's largest is malformed",
        "a frame longer than the device's largest",
        ("send EMSGSIZE", "slots 0 4", "a frame of 60 bytes", "again 0"), longer_than_device
    ),
]
