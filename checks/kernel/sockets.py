#!/usr/bin/env python3
"""The kernel's rings: packet sockets with a ring in memory that this process shares with the
kernel.

Numbers and places are those of linux/if_packet.h and linux/filter.h. What the kernel hands over
is copied as soon as its status word says so, and given back when the plan says.
"""
from __future__ import annotations

import ctypes
import mmap
import select
import socket
import struct
import time
from dataclasses import dataclass

ETH_P_ALL = 3
SOL_PACKET, SO_ATTACH_FILTER = 263, 26
RX_RING, STATISTICS, COPY_THRESH, VERSION, RESERVE, TX_RING, LOSS, FANOUT = (
    5, 6, 7, 10, 12, 13, 14, 18
)
V2, V3 = 1, 2  # the values of PACKET_VERSION
KERNEL, USER, BLK_TMO = 0, 1, 32
MODES = {"hash": 0, "lb": 1, "cpu": 2, "rollover": 3, "qm": 5}
FLAGS = {"rollover": 0x1000, "defrag": 0x8000}

Instruction = tuple[int, int, int, int]


@dataclass(frozen=True)
class Request:
    """A `struct tpacket_req3`; of TPACKET_V2 the first four alone."""

    block_size: int = 4096
    block_nr: int = 2
    frame_size: int = 2048
    frame_nr: int = 4
    tov: int = 0
    priv: int = 0
    features: int = 0

    def packed(self, version: int) -> bytes:
        sizes = struct.pack("=4I", self.block_size, self.block_nr, self.frame_size, self.frame_nr)
        return (
            sizes if version < V3
            else sizes + struct.pack("=3I", self.tov, self.priv, self.features)
        )


def attach(sock: socket.socket, program: list[Instruction]) -> None:
    """Attaches a classic filter: the kernel copies it from this process's memory."""
    text = b"".join(struct.pack("=HBBI", *instruction) for instruction in program)
    memory = mmap.mmap(-1, max(len(text), 1))
    memory.write(text)
    sock.setsockopt(
        socket.SOL_SOCKET, SO_ATTACH_FILTER, struct.pack("@HP", len(program), address_of(memory))
    )


def address_of(memory: mmap.mmap) -> int:
    return ctypes.addressof(ctypes.c_char.from_buffer(memory))


def opened(version: int, program: list[Instruction] | None = None) -> socket.socket:
    """A packet socket that no frame reaches yet."""
    sock = socket.socket(socket.AF_PACKET, socket.SOCK_RAW, 0)
    sock.setsockopt(SOL_PACKET, VERSION, version)
    if program is not None:
        attach(sock, program)
    return sock


def join(sock: socket.socket, group: int, mode: str, flags: frozenset[str]) -> None:
    """Makes the socket the next member of a fanout group."""
    bits = MODES[mode] | sum(FLAGS[flag] for flag in flags)
    sock.setsockopt(SOL_PACKET, FANOUT, struct.pack("=I", group | bits << 16))


@dataclass
class Taken:
    """What was handed over at one place: its bytes, and when it was first seen (seconds of the
    monotonic clock)."""

    data: bytes
    seen: float


class Ring:
    """A receive ring of either version, and its reader. A place is a block or a slot."""

    def __init__(self, sock: socket.socket, version: int, request: Request) -> None:
        self.sock, self.version, self.request = sock, version, request
        self.begun = time.monotonic()
        sock.setsockopt(SOL_PACKET, RX_RING, request.packed(version))
        self.ready = time.monotonic()
        self.memory = mmap.mmap(sock.fileno(), request.block_size * request.block_nr)
        self.places = request.block_nr if version == V3 else request.frame_nr
        self.taken: list[Taken] = []
        self.released = 0

    def start(self, device: str) -> None:
        self.sock.bind((device, ETH_P_ALL))

    def at(self, number: int) -> int:
        """Where the block or the slot of a number from 0 begins."""
        place = number % self.places
        if self.version == V3:
            return place * self.request.block_size
        each = self.request.block_size // self.request.frame_size
        return place // each * self.request.block_size + place % each * self.request.frame_size

    def word(self, at: int) -> int:
        return struct.unpack_from("=I", self.memory, at)[0]

    def status_at(self, number: int) -> int:
        return self.at(number) + (8 if self.version == V3 else 0)

    def drain(self) -> bool:
        """Copies all that was handed over since the last time. Whether there was something."""
        before = len(self.taken)
        while (
            len(self.taken) < self.released + self.places
            and self.word(self.status_at(len(self.taken))) & USER
        ):
            at = self.at(len(self.taken))
            self.taken.append(Taken(self.memory[at : at + self.length(at)], time.monotonic()))
        return len(self.taken) > before

    def length(self, at: int) -> int:
        """The bytes of a block or a slot that were written."""
        if self.version == V3:
            return min(self.word(at + 20), self.request.block_size)
        snap, mac = self.word(at + 8), struct.unpack_from("=H", self.memory, at + 12)[0]
        return min(mac + snap, self.request.frame_size)

    def release(self) -> bool:
        """Gives the oldest block or slot back, where there is one."""
        if self.released == len(self.taken):
            return False
        struct.pack_into("=I", self.memory, self.status_at(self.released), KERNEL)
        self.released += 1
        # as a reader that waits: the kernel then forgets that the ring was short of room
        select.select([self.sock], [], [], 0)
        return True

    def open_block(self) -> int | None:
        """Where the block that is being filled begins; None where the ring is frozen."""
        at = self.at(len(self.taken))
        number = struct.unpack_from("=Q", self.memory, at + 24)[0]
        is_open = self.word(at + 8) == KERNEL and number == len(self.taken) + 1
        return at if is_open else None

    def filling(self) -> int:
        """The packets of the block that is being filled."""
        at = self.open_block() if self.version == V3 else None
        return 0 if at is None else self.word(at + 12)

    def statistics(self) -> list[int]:
        """Packets, drops and freezes since they were last asked for; TPACKET_V2 has no freezes."""
        size = 12 if self.version == V3 else 8
        numbers = struct.unpack(
            f"={size // 4}I", self.sock.getsockopt(SOL_PACKET, STATISTICS, size)
        )
        return [*numbers, 0][:3]

    def close(self) -> None:
        self.memory.close()
        self.sock.close()
