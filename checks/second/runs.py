"""The runs of the second program: replays, frames that are made, and captures that are sent;
each gives its lines and its files."""
from __future__ import annotations

import struct
from collections.abc import Iterator, Sequence

from second import filter_verdicts
from second.capture_bytes import output, record
from second.frames import (
    Frame, Reassembly, flow_hash, frames_of, ones_sum, output_of, pkttype_of, protocol_of, untagged,
)
from second.rings import Offer, Ring, RingKind
from second.setup import Setup

Files = dict[str, bytes]
LEAST_FRAME = 14  # the bytes of an Ethernet header
KEEPS_ALL = 0xFFFFFFFF  # the verdict where there is no filter


class Replay:
    """A run: its CPUs with what waits, its rings, and what was logged."""

    def __init__(
        self, setup: Setup, captures: Sequence[bytes], program: filter_verdicts.Program | None,
        kind: RingKind
    ) -> None:
        self.setup, self.program, self.ticket = setup, program, 0
        self.most, self.rings = kind.most(setup), [kind(setup) for _ in range(setup.members)]
        read = [frames_of(data, cpu) for cpu, data in enumerate(captures)]
        self.frames, self.ends = [frames for frames, _ in read], [end for _, end in read]
        self.waiting = [list(frames) for frames in self.frames]
        self.held = [Reassembly() for _ in captures]
        # the member at which each CPU's packets arrive in mode rollover
        self.present = [0] * len(captures)
        self.verdicts: list[list[int]] = [[] for _ in captures]

    def feed(self, cpu: int) -> None:
        if not self.waiting[cpu]:
            return
        frame: Frame | None = untagged(self.waiting[cpu].pop(0))
        if frame is not None and "defrag" in self.setup.flags:
            frame = self.held[cpu].push(frame)
        if frame is not None and len(frame.data) >= LEAST_FRAME:
            self.arrive(cpu, frame)

    def arrive(self, cpu: int, frame: Frame) -> None:
        setup, queue = self.setup, self.setup.cpus[cpu][1]
        ticket, self.ticket = self.ticket, self.ticket + 1
        hashed = flow_hash(setup.key, frame.data) if setup.key else 0
        pkttype = pkttype_of(frame.data, setup.mac)
        facts = {
            0: protocol_of(frame.data), 4: pkttype, 8: 1, 24: queue, 28: 1, 32: hashed, 36: cpu
        }
        packet = filter_verdicts.Packet(frame.data, frame.wire, facts)
        verdict = filter_verdicts.verdict(self.program, packet) if self.program else KEEPS_ALL
        self.verdicts[cpu].append(verdict)
        if verdict == 0:
            return
        offer = Offer(frame, min(len(frame.data), verdict, self.most), hashed, pkttype)
        homes = {
            "hash": hashed, "lb": ticket, "cpu": cpu, "qm": queue, "rollover": self.present[cpu]
        }
        self.deliver(cpu, offer, homes[setup.mode] % setup.members)

    def deliver(self, cpu: int, offer: Offer, home: int) -> None:
        if self.setup.rolls_over():
            for step in range(self.setup.members):
                member = (home + step) % self.setup.members
                if self.rings[member].try_put(offer):
                    self.present[cpu] = member
                    return
        self.rings[home].put(offer)

    def line(self, word: str, value: int) -> None:
        """Carries out a line of a schedule."""
        if word == "feed":
            self.feed(value)
        elif word == "read":
            self.rings[value].read()
        elif word == "tick":
            for ring in self.rings:
                ring.tick(value)
        else:
            self.rings[value].taken.append(self.rings[value].count_now())

    def feed_rest(self) -> None:
        for cpu, waiting in enumerate(self.waiting):
            while waiting:
                self.feed(cpu)

    def finish(self) -> None:
        self.feed_rest()
        for ring in self.rings:
            ring.close()
            ring.count_now()

    def cpu_lines(self) -> Iterator[str]:
        for cpu, verdicts in enumerate(self.verdicts):
            yield (
                f"cpu {cpu} frames {len(self.frames[cpu])} arrivals {len(verdicts)} end "
                f"{self.ends[cpu]}\n"
            )

    def lines(self) -> Iterator[str]:
        yield from self.cpu_lines()
        stats = "packets {} drops {} freezes {}"
        for member, ring in enumerate(self.rings):
            yield f"member {member} {stats.format(*ring.sums)} blocks {len(ring.done)}\n"
            for taken in ring.taken:
                yield f"count {member} {stats.format(*taken)}\n"
        drops = sum(ring.sums[1] for ring in self.rings)
        yield self.total_line(sum(ring.sums[0] for ring in self.rings) - drops, drops)

    def total_line(self, kept: int, drops: int) -> str:
        verdicts = [verdict for cpu in self.verdicts for verdict in cpu]
        return (
            f"total arrivals {len(verdicts)} filtered {verdicts.count(0)} kept {kept} drops "
            f"{drops}\n"
        )

    def files(self) -> Files:
        """The files that are saved, by their names."""
        saved = {}
        for member, ring in enumerate(self.rings):
            packets = [
                offer.frame._replace(data=offer.frame.data[: offer.snap])
                for offer in ring.offers()
            ]
            saved[f"{self.setup.prefix}.{member}.pcap"] = output_of(packets)
            if self.setup.dump:
                saved[f"{self.setup.prefix}.{member}.blk"] = ring.dump()
        return saved


def replay(
    setup: Setup, schedule: str, captures: Sequence[bytes],
    program: filter_verdicts.Program | None = None, kind: RingKind = Ring,
) -> tuple[str, Files]:
    """The printed lines and the files of a run over rings of a kind. Words behind a `#` in front
    are comments."""
    run = Replay(setup, captures, program, kind)
    for line in schedule.splitlines():
        word, *values = line.split() or ["#"]
        if not word.startswith("#"):
            run.line(word, int(values[0]))
    run.finish()
    return "".join(run.lines()), run.files()


def draws(state: int) -> Iterator[int]:
    """The numbers that follow from a seed."""
    while True:
        state = (state * 6364136223846793005 + 1442695040888963407) % 2**64
        yield state // 2**32


def made_frames(seed: int, count: int) -> Iterator[Frame]:
    """So many UDP datagrams of IPv4 from a seed."""
    numbers = draws(seed)
    for index in range(count):
        a, b, c, d = (next(numbers) for _ in range(4))
        payload = bytes((index + place) % 256 for place in range(d % 1401))
        ends = struct.pack(">II", 0x0A000000 + a % 65536, 0x0A010000 + b % 256)
        start = struct.pack(">BBHHHBB", 0x45, 0, 28 + len(payload), index % 65536, 0x4000, 64, 17)
        head = start + (ones_sum(start + ends) ^ 0xFFFF).to_bytes(2, "big") + ends
        ports = struct.pack(">HHHH", 1024 + c % 4096, 53, 8 + len(payload), 0)
        data = bytes.fromhex("020000000002" "020000000001" "0800") + head + ports + payload
        yield Frame(0, index, index // 1000, index % 1000 * 1_000_000, len(data), data)


def made_captures(setup: Setup) -> list[bytes]:
    """The made frames of a setup, CPU by CPU."""
    assert setup.made
    frames = list(made_frames(*setup.made))
    return [output_of(frames[cpu :: len(setup.cpus)]) for cpu in range(len(setup.cpus))]


def made_schedule(setup: Setup) -> str:
    """The lines by which the made frames of a setup are replayed."""
    assert setup.made
    reads = "".join(2 * f"read {member}\n" for member in range(setup.members))
    lines = (
        f"feed {index % len(setup.cpus)}\n" + reads * (index % 64 == 63)
        for index in range(setup.made[1])
    )
    return "".join(lines)


def make(setup: Setup, program: filter_verdicts.Program | None = None) -> tuple[str, Files]:
    """The printed lines and the files of a run over made frames."""
    return replay(setup, made_schedule(setup), made_captures(setup), program)


def send(setup: Setup, capture: bytes) -> tuple[str, Files]:
    """The printed lines and the file of a capture that is sent."""
    frames, end = frames_of(capture)
    sent, skipped, stop = [], 0, "none"
    for frame in frames:
        size = len(frame.data)
        if LEAST_FRAME <= size <= setup.slot_room:
            sent.append(frame.data)
        elif size > setup.slot_room and setup.skip_bad:
            skipped += 1
        elif size > setup.slot_room:
            stop = str(frame.index)
            break
    lines = (
        f"cpu 0 frames {len(frames)} end {end}\nsend sent {len(sent)} skipped {skipped} stop "
        f"{stop}\n"
    )
    return lines, {f"{setup.prefix}.tx.pcap": sent_file(sent)}


def sent_file(frames: Sequence[bytes]) -> bytes:
    """The file of frames that a transmit ring sent: none has a time."""
    return output(record(data, sec=0, fraction=0) for data in frames)
