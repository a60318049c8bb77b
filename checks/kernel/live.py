#!/usr/bin/env python3
"""Runs a case beside the kernel of this machine.

Time: the timer of a ring of TPACKET_V3 runs out every `tov` milliseconds from the making of the
ring on. All steps between two `Tick` have to fall between two such moments with room on both
sides; where the machine was too slow for that, or where a timer ran out at another moment than
planned, the run is disturbed and counts for nothing. It is repeated with a longer `tov`, a
bounded number of times.
"""
from __future__ import annotations

import os
import struct
import time

from kernel.frames import untagged
from kernel.plans import V3, Case, Disturbed, Feed, Member, Read, Record, Step, Tick
from kernel.sockets import BLK_TMO, Request, Ring, join, opened
from kernel.sockets import V2 as NUMBER_V2
from kernel.sockets import V3 as NUMBER_V3
from kernel.wire import RECEIVER, Wire

# milliseconds for each ring and one more, in the first run and in each repeated one
TIMEOUTS = (100, 300, 900, 2500)
PAUSE = 0.001  # seconds between two looks at a status word
GROUPS = iter(range(1, 65_536))


class Period:
    """Between which moments the timers run out; a span before and after each of them belongs to
    no step."""

    def __init__(self, rings: list[Ring], tov: int) -> None:
        self.tov, self.ticks = tov / 1000, 0
        self.first, self.last = min(ring.begun for ring in rings), max(ring.ready for ring in rings)
        self.room = self.tov / 8

    def check(self) -> None:
        """No step may come close to the next moment."""
        if time.monotonic() > self.first + (self.ticks + 1) * self.tov - self.room:
            raise Disturbed("a step came too late for its time-out")

    def next(self) -> tuple[float, float]:
        """From when to when the next moment is waited for."""
        self.ticks += 1
        return self.first + self.ticks * self.tov, self.last + self.ticks * self.tov + 2 * self.room


class Run:
    """One run of a case: its rings, and what was done so far."""

    def __init__(self, wire: Wire, case: Case, tov: int) -> None:
        self.wire, self.case, self.tov = wire, case, tov
        self.did: list[str] = []
        self.times: list[list[int]] = []
        self.counts: list[list[list[int]]] = [[] for _ in range(case.members)]
        self.kept = [0] * case.members
        self.rings: list[Ring] = []
        try:
            self.open_rings()
        except BaseException:
            self.close()
            raise
        self.period = Period(self.rings, tov)

    def open_rings(self) -> None:
        case, group = self.case, next(GROUPS)
        version = NUMBER_V3 if case.version == V3 else NUMBER_V2
        fields = {**vars(case.request), "tov": self.tov if case.version == V3 else 0}
        for _ in range(case.members):
            ring = Ring(
                opened(version, list(case.program) if case.program else None), version,
                Request(**fields)
            )
            self.rings.append(ring)
            ring.start(RECEIVER)
            if case.members > 1 or case.flags:
                join(ring.sock, group, case.mode, case.flags)
        # its first frame goes to the second that joined, which so is member 0
        if case.mode == "lb":
            self.rings = self.rings[1:] + self.rings[:1]

    def close(self) -> None:
        for ring in self.rings:
            ring.close()

    def step(self, step: Step) -> None:
        if isinstance(step, Tick):
            self.tick()
            return
        self.check_time()
        if isinstance(step, Feed):
            self.feed(step)
        elif isinstance(step, Read):
            self.rings[step.member].release()
            self.did.append(f"read {step.member}")
        else:
            self.counts[step.member].append(self.rings[step.member].statistics())
            self.did.append(f"stats {step.member}")
        self.drain()
        self.check_time()

    def check_time(self) -> None:
        if self.case.version == V3:
            self.period.check()

    def feed(self, step: Feed) -> None:
        moment = time.time_ns()
        if step.outgoing:
            self.wire.back.send(step.frame)
        else:
            self.wire.go_to(step.cpu if self.case.where() else self.wire.usual)
            self.wire.send(step.frame)
            self.did.append(f"feed {step.cpu}")
        if not step.lost and not step.outgoing and self.wire.seen() != untagged(step.frame):
            raise Disturbed("another frame came by")
        self.times.append(self.find_kept() or [-1, moment // 10**9, moment % 10**9])

    def drain(self, timers: bool = False) -> None:
        """Takes what was handed over. A time-out belongs where timers are waited for."""
        for ring in self.rings:
            before = len(ring.taken)
            ring.drain()
            for taken in ring.taken[before:]:
                if (
                    self.case.version == V3 and struct.unpack_from("=I", taken.data, 8)[0] & BLK_TMO
                    and not timers
                ):
                    raise Disturbed("a timer ran out at another moment than planned")

    def find_kept(self) -> list[int] | None:
        """The member that has kept a packet since the last call, and the packet's time."""
        self.drain()
        for member, ring in enumerate(self.rings):
            kept = kept_by(ring)
            if kept != self.kept[member]:
                self.kept[member] = kept
                return [member, *last_time(ring)]
        return None

    def tick(self) -> None:
        """Waits until the timers have run out once more."""
        self.check_time()
        begin, end = self.period.next()
        while (now := time.monotonic()) < end:
            self.drain(timers=now >= begin)
            time.sleep(PAUSE)
        self.drain(timers=True)
        self.did.append(f"tick {self.period.ticks * self.tov}")

    def finish(self) -> Record:
        """Where blocks are being filled, the timers retire them."""
        if any(ring.filling() for ring in self.rings):
            self.tick()
        for member, ring in enumerate(self.rings):
            self.counts[member].append(ring.statistics())
        members = [
            Member([taken.data for taken in ring.taken], counts) for ring,
            counts in zip(self.rings, self.counts)
        ]
        return Record(
            self.case.name, os.uname().release, self.wire.index, self.tov, self.did, self.times,
            members
        )


def kept_by(ring: Ring) -> int:
    """How many packets a ring has kept so far."""
    if ring.version == NUMBER_V2:
        return len(ring.taken)
    return sum(struct.unpack_from("=I", taken.data, 12)[0] for taken in ring.taken) + ring.filling()


def last_time(ring: Ring) -> tuple[int, int]:
    """The time of the packet that was kept last."""
    if ring.version == NUMBER_V2:
        return struct.unpack_from("=II", ring.taken[-1].data, 16)
    at = ring.open_block()
    if at is None:
        raise Disturbed("a block was retired before its packet was looked at")
    packet = at + ring.word(at + 16)
    for _ in range(ring.filling() - 1):
        packet += ring.word(packet)
    return struct.unpack_from("=II", ring.memory, packet + 4)


def clock_offset() -> float:
    return time.time() - time.monotonic()


def run_once(wire: Wire, case: Case, tov: int) -> Record:
    if "defrag" in case.flags:  # fragments that others left are held for all of a namespace
        wire.renew()
    offset = clock_offset()
    run = Run(wire, case, tov)
    try:
        for step in case.steps:
            run.step(step)
        record = run.finish()
    finally:
        run.close()
    if abs(clock_offset() - offset) > 0.001:
        raise Disturbed("the clock was set")
    return record
