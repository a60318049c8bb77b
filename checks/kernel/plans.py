#!/usr/bin/env python3
"""What a case is: a ring or a group of rings, and what is done to them step by step; and what
came of it.

The same steps are a plan for a kernel (kernel_live.py) and a schedule for ringtap
(kernel_compare.py).
"""
from __future__ import annotations

from dataclasses import dataclass, field

from kernel.sockets import Instruction, Request

V2, V3 = "TPACKET_V2", "TPACKET_V3"


@dataclass(frozen=True)
class Feed:
    """A frame is sent, on a CPU."""

    frame: bytes
    cpu: int = 0
    lost: bool = False  # the kernel drops it before any socket
    outgoing: bool = False  # it goes out of the rings' own device


@dataclass(frozen=True)
class Read:
    """The reader of a member gives its oldest block or slot back."""

    member: int = 0


@dataclass(frozen=True)
class Stats:
    """The statistics of a member are taken."""

    member: int = 0


@dataclass(frozen=True)
class Tick:
    """The timers of all rings run out once."""


Step = Feed | Read | Stats | Tick


@dataclass(frozen=True)
class Apart:
    """How a kernel and ringtap differ in a case, each as `summary` of kernel_compare.py tells
    it, and the row that says so."""

    row: str
    kernel: str
    ringtap: str


@dataclass(frozen=True)
class Case:
    """A run over rings. With `apart` None every byte and every count has to be the same."""

    name: str
    shows: str
    steps: tuple[Step, ...]
    version: str = V3
    request: Request = Request()
    members: int = 1
    mode: str = "cpu"
    flags: frozenset[str] = frozenset()
    program: tuple[Instruction, ...] | None = None
    cpus: tuple[int, ...] = ()  # where the numbers of the CPUs count
    rows: tuple[str, ...] = ()  # rows of docs/kernel.md that it shows besides
    apart: Apart | None = None
    # blocks by their numbers from 1, and whether a time-out opened them
    openings: tuple[tuple[int, bool], ...] = ()

    def where(self) -> tuple[int, ...]:
        """The CPUs that it needs."""
        return self.cpus or ((0,) if self.members > 1 and self.mode in ("cpu", "qm") else ())


@dataclass
class Member:
    """What a kernel handed over at one ring: the bytes of each block or slot in order, and the
    statistics that were taken."""

    taken: list[bytes] = field(default_factory=list)
    counts: list[list[int]] = field(default_factory=list)


@dataclass
class Record:
    """What a kernel did in a case."""

    case: str
    kernel: str
    index: int  # of the rings' device
    tov: int  # milliseconds
    did: list[str]  # the schedule
    # for each frame in the order of its sending the member that kept it, or -1, and its time
    times: list[list[int]]
    members: list[Member]


class Disturbed(Exception):
    """The run doesn't count: something else came between its steps, as a machine that was too
    busy."""
