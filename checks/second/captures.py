"""Captures that run on threads, by `capture`, and from outside what holds whichever thread goes
first.

What is tested of a run, with the second program for what doesn't hang on the threads (frames,
arrivals, verdicts, homes, bytes):

- The status, and the lines of the CPUs, are those of a `replay`, and so are the arrivals and the
  refused ones in the total.
- Each frame that passes is in one output at most; what is in none is what the members dropped.
  Each record has the frame's time, bytes and lengths, and stands in its CPU's order, at a member
  that the mode allows.
- A member's packets are those of its output and its drops. It drops and freezes only where all
  blocks of its ring were retired, and not at all where its ring has room for whatever comes.
- A dump has blocks with numbers from 1, each with the bytes that its packets give, and these are
  the packets of the output.
- Where nothing hangs on the threads, lines and files are those of a replay with an empty schedule.

Half of the setups have a pool of 1 to 8 workers, of which nothing of this may hang.

Runs of the second program with random schedules are outcomes that threads might have, so they
have to pass. Others are made wrong in one thing each, and have to be refused.
"""
from __future__ import annotations

import os
import random
import struct
import threading
from collections.abc import Iterator, Sequence
from typing import NamedTuple

from second import filter_verdicts
from second import outcomes
from second import runs as second_runs
from second.capture_bytes import NANOSECONDS, header, output, record
from second.capture_frames import frames_of
from second.hash_values import KEY
from second.outcomes import Outcome, outcome_of, save_alone
from second.replays import FILTERS, SIZES, Shape, datagram, frame, setup_text
from second.frames import record_of
from second.rings import Offer, Ring, need_of
from second.runs import Files, Replay, made_frames
from second.setup import Setup


class Case(NamedTuple):
    """A run: its setup, the captures of the CPUs from 0 up (None for one that isn't there), its
    filter's text and its moments."""

    setup: str
    captures: Sequence[bytes | None]
    listing: str | None
    moments: Sequence[int]


class Passing(NamedTuple):
    """A packet that passes: its CPU, its number there, its home where the mode fixes it, and its
    offer."""

    cpu: int
    index: int
    home: int | None
    offer: Offer

    def record(self) -> bytes:
        """The record of an output that holds it."""
        frame = self.offer.frame
        return record_of(frame._replace(data=frame.data[: self.offer.snap]))


LARGE: list[Shape] = [(65536, 16, 2048, 512), (8192, 256, 2048, 1024)]
SECOND = 1_000_000_000  # in nanoseconds
TIMES = 8  # the seconds of CPU C's frames are C more than a multiple of this


class Arriving(Replay):
    """The arrivals of a run, CPU after CPU: the packets that pass, each with its home where that
    doesn't hang on the threads."""

    def __init__(self, case: Case) -> None:
        self.passing: list[list[Passing]] = [[] for _ in case.captures]
        setup = Setup(case.setup)
        code = filter_verdicts.program(case.listing) if case.listing else None
        super().__init__(setup, [capture or b"" for capture in case.captures], code, Ring)
        self.ends = [
            "fault" if capture is None else end for capture, end in zip(case.captures, self.ends)
        ]
        self.feed_rest()

    def deliver(self, cpu: int, offer: Offer, home: int) -> None:
        mode, cpus = self.setup.mode, len(self.passing)
        fixed = home if mode in ("hash", "cpu", "qm") or mode == "lb" and cpus == 1 else None
        self.passing[cpu].append(Passing(cpu, len(self.passing[cpu]), fixed, offer))

    def all(self) -> list[Passing]:
        return [packet for passing in self.passing for packet in passing]

    def status(self) -> int:
        return 5 if "fault" in self.ends else 4 if set(self.ends) != {"ok"} else 0


class Numbers(NamedTuple):
    """What a member's line says."""

    packets: int
    drops: int
    freezes: int
    blocks: int


def numbers_of(lines: str, run: Arriving) -> list[Numbers] | None:
    """The members' numbers, where the lines are of the right form."""
    cpus, members = len(run.passing), run.setup.members
    found, words = lines.splitlines(keepends=True), list[Numbers]()
    if (
        found[:cpus] != list(run.cpu_lines()) or len(found) != cpus + members + 1
        or not lines.endswith("\n")
    ):
        return None
    for member, line in enumerate(found[cpus:-1]):
        values = line.removesuffix("\n").split(" ")
        if (
            values[:2] != ["member", str(member)]
            or values[2::2] != ["packets", "drops", "freezes", "blocks"]
        ):
            return None
        words.append(Numbers(*map(int, values[3::2])))
    drops = sum(member.drops for member in words)
    kept = sum(member.packets for member in words) - drops
    return (
        words if found[-1] == run.total_line(kept, drops) and kept + drops == len(run.all())
        else None
    )


def key_of(sec: int, nsec: int) -> tuple[int, int]:
    """What tells a frame of a run from all others: its CPU and its number there."""
    return sec % TIMES, nsec // 1000


def output_packets(data: bytes, known: dict[tuple[int, int], Passing]) -> list[Passing] | None:
    """The packets of an output, in order, or None where it isn't the file of known packets, byte
    for byte."""
    frames, _ = frames_of(data)
    found = [known.get(key_of(*divmod(frame.time, SECOND))) for frame in frames]
    packets = [packet for packet in found if packet]
    return packets if data == output(packet.record() for packet in packets) else None


def output_faults(run: Arriving, outputs: list[list[Passing]]) -> Iterator[str]:
    """What is wrong with the packets of the outputs: twice, out of order, or at a member that
    the mode doesn't allow."""
    seen: set[tuple[int, int]] = set()
    for member, packets in enumerate(outputs):
        last: dict[int, int] = {}
        for packet in packets:
            name = packet.cpu, packet.index
            if name in seen:
                yield f"packet {name} is there twice"
            if last.get(packet.cpu, -1) >= packet.index:
                yield f"packet {name} stands after a later one at member {member}"
            if not run.setup.rolls_over() and packet.home not in (None, member):
                yield f"packet {name} of member {packet.home} is at member {member}"
            seen.add(name)
            last[packet.cpu] = packet.index


def dropped_homes(run: Arriving, outputs: list[list[Passing]]) -> Iterator[int | None]:
    """The home of each packet that is in no output, None where it hangs on the threads. In mode
    rollover it is the member that kept the packet of its CPU before it, at first 0."""
    holders = {
        (packet.cpu, packet.index): member for member,
        packets in enumerate(outputs) for packet in packets
    }
    for passing in run.passing:
        present = 0
        for packet in passing:
            holder = holders.get((packet.cpu, packet.index))
            if holder is not None:
                present = holder
            else:
                yield present if run.setup.mode == "rollover" else packet.home


def count_faults(
    run: Arriving, outputs: list[list[Passing]], numbers: list[Numbers], moments: Sequence[int]
) -> Iterator[str]:
    """What is wrong with the members' numbers."""
    homes = list(dropped_homes(run, outputs))
    if len(homes) != sum(member.drops for member in numbers):
        yield f"{len(homes)} packets are in no output"
    for member, (packets, found) in enumerate(zip(outputs, numbers)):
        if found.packets != len(packets) + found.drops:
            yield f"member {member} has {len(packets)} packets in its output"
        if None not in homes and homes.count(member) != found.drops:
            yield f"{homes.count(member)} packets of member {member} are in no output"
        if found.drops and (not found.freezes or found.blocks < run.setup.block_nr):
            yield f"member {member} drops while its ring has room"
        if found.freezes > found.blocks or found.freezes and not found.drops and not moments:
            yield f"member {member} freezes without a drop"
        if holds_all(run, member, moments) and (found.drops or found.freezes):
            yield f"member {member} drops though its ring has room for all"


def lb_faults(run: Arriving, numbers: list[Numbers]) -> Iterator[str]:
    """What is wrong with the packets of members that the arrivals of all CPUs are dealt out to."""
    arrivals = sum(map(len, run.verdicts))
    if run.setup.mode != "lb" or run.setup.rolls_over():
        return
    for member, found in enumerate(numbers):
        share = len(range(member, arrivals, run.setup.members))
        if found.packets > share or not run.program and found.packets != share:
            yield f"member {member} has {found.packets} of the {share} tickets that are its own"


def holds_all(run: Arriving, member: int, moments: Sequence[int]) -> bool:
    """Whether a member's ring has room for all packets that may come to it, with no block ever
    given back: two blocks, one after the other, hold more than one block has room for, and each
    moment may close one early."""
    fixed = not run.setup.rolls_over()
    mine = [p for p in run.all() if not fixed or p.home in (None, member)]
    needs = sum(need_of(packet.offer.snap) for packet in mine)
    return min(len(mine), 2 * needs // run.setup.room + 1) + len(moments) + 1 <= run.setup.block_nr


def plain_ring(run: Arriving, packets: list[Passing]) -> Ring:
    """A ring that kept these packets and never lacked a block."""
    ring = Ring(run.setup)
    ring.count = len(packets) + 2
    for packet in packets:
        ring.put(packet.offer)
    ring.close()
    return ring


def block_faults(
    run: Arriving, packets: list[Passing], found: Numbers, moments: Sequence[int],
    dump: bytes | None
) -> Iterator[str]:
    """What is wrong with the blocks of a member, and with its dump, if there is one."""
    if not moments and not found.drops and found.blocks != len(plain_ring(run, packets).done):
        yield f"{found.blocks} blocks"
    if dump is None:
        return
    ring, place, left, lost = plain_ring(run, []), 0, list(packets), False
    while place < len(dump):
        if place + 48 > len(dump) or len(ring.done) == found.blocks:
            yield f"no block at {place}"
            return
        status, count = struct.unpack("<II", dump[place + 8 : place + 16])
        offers, left = [packet.offer for packet in left[:count]], left[count:]
        may = {1, 5} if not moments else {1, 5, 33, 37}
        if status not in may or lost and not status & 4 or not 0 < count == len(offers):
            yield f"block {len(ring.done) + 1} has status {status} and {count} packets"
            return
        ring.done.append((status, offers))
        text, lost = ring.text(len(ring.done), status, offers), bool(status & 4)
        if len(text) > run.setup.block_size or dump[place : place + len(text)] != text:
            yield f"block {len(ring.done)} has other bytes"
            return
        place += len(text)
    if left or len(ring.done) != found.blocks or lost and not found.drops:
        yield f"{len(ring.done)} blocks of {found.blocks}, and {len(left)} packets in none"


def is_fixed(run: Arriving, moments: Sequence[int]) -> bool:
    """Whether nothing of a run hangs on the threads: each ring has room for all, and has the
    packets of one CPU."""
    fixed = not run.setup.rolls_over() and run.setup.mode in ("hash", "cpu", "qm")
    owners = [{p.cpu for p in run.all() if p.home == member} for member in range(run.setup.members)]
    alone = len(run.passing) == 1 or fixed and all(len(cpus) < 2 for cpus in owners)
    return (
        alone and not moments
        and all(holds_all(run, member, moments) for member in range(run.setup.members))
    )


def faults(case: Case, lines: str, files: Files, status: int) -> Iterator[str]:
    """What is wrong with a run: its status, its lines and the files that it saved."""
    run = Arriving(case)
    if status != run.status():
        yield f"status {status} in place of {run.status()}"
        return
    setup, numbers = run.setup, numbers_of(lines, run)
    names = [f"{setup.prefix}.{member}.pcap" for member in range(setup.members)]
    dumps = (
        [f"{setup.prefix}.{member}.blk" for member in range(setup.members)] if setup.dump else []
    )
    if numbers is None or sorted(files) != sorted(names + dumps):
        yield f"printed {lines!r}, with the files {sorted(files)}"
        return
    known = {key_of(p.offer.frame.sec, p.offer.frame.nsec): p for p in run.all()}
    outputs = []
    for name in names:
        packets = output_packets(files[name], known)
        if packets is None:
            yield f"{name} has a record that is no packet of the run"
            return
        outputs.append(packets)
    yield from output_faults(run, outputs)
    yield from count_faults(run, outputs, numbers, case.moments)
    yield from lb_faults(run, numbers)
    for member, (packets, found) in enumerate(zip(outputs, numbers)):
        dump = files[dumps[member]] if dumps else None
        for why in block_faults(run, packets, found, case.moments, dump):
            yield f"member {member}: {why}"
    if is_fixed(run, case.moments) and run.status() < 5:
        captures = [capture or b"" for capture in case.captures]
        if (lines, files) != second_runs.replay(setup, "", captures, run.program):
            yield "it isn't what a replay gives, though nothing hangs on the threads"


def capture_of(numbers: random.Random, cpu: int, most: int) -> bytes:
    """A capture whose frames are told apart by their times."""
    frames: list[bytes] = []
    step, size = numbers.choice([0, 0, 1, 4]), numbers.randrange(most)
    while len(frames) < size:
        if numbers.random() < 0.6:
            frames += datagram(numbers)
        else:
            kind = numbers.choice(
                [b"\x08\x06", b"\x86\xdd", b"\x81\x00\x00\x01\x08\x00", b"\x88\xa8\x00\x01\x08\x00"]
            )
            frames.append(
                frame(
                    numbers.choice([13, 14, 18, 60, 590, 1514, 5000]), kind, numbers.randrange(256)
                )
            )
    data = header() + b"".join(
        record(data, sec=TIMES * step * at + cpu, fraction=at) for at, data in enumerate(frames)
    )
    return data[: numbers.randrange(len(data))] if numbers.random() < 0.05 else data


def random_case(numbers: random.Random) -> Case:
    """A setup of up to eight CPUs and members, with its captures, filter and moments."""
    cpus, members = numbers.choice([1, 1, 2, 2, 3, 4, 8]), numbers.choice([1, 1, 2, 3, 4, 8])
    text = setup_text(numbers.choice([*SIZES, *LARGE]), cpus)
    mode = numbers.choice(["hash", "lb", "cpu", "rollover", "qm"])
    text += f"members {members}\nmode {mode}\nkey {KEY}\n"
    for line in ("dump yes", "flag defrag", "features 1", "priv 13", "tov 5", "mac 020000000002"):
        if numbers.random() < 0.5:
            text += line + "\n"
    if mode != "rollover" and numbers.random() < 0.4:
        text += "flag rollover\n"
    listing = numbers.choice([None, None, *FILTERS])
    if listing:
        text += "filter filter.ddd\n"
    moments = numbers.choice(
        [[], sorted(numbers.randrange(200) for _ in range(numbers.randrange(20)))]
    )
    if moments:
        text += "ticks ticks.txt\n"
    workers = numbers.choice([0, numbers.randrange(9)])
    text += f"workers {workers}\n" if workers or numbers.random() < 0.1 else ""
    most = numbers.choice([3, 40, 200])
    captures: list[bytes | None] = [capture_of(numbers, cpu, most) for cpu in range(cpus)]
    if numbers.random() < 0.05:
        captures[numbers.randrange(cpus)] = None
    return Case(text, captures, listing, moments)


def sum_cases() -> Iterator[Case]:
    """The largest made frames, written to two captures, for four members: 20,000 packets in all,
    kept or dropped."""
    frames = list(made_frames(1, 20_000))
    captures = []
    for cpu in range(2):
        data = [frame.data for frame in frames[cpu::2]]
        times = ((TIMES * (at // 1000) + cpu, 1000 * at) for at in range(len(data)))
        captures.append(
            header(magic=NANOSECONDS)
            + b"".join(record(one, sec=s, fraction=n) for one, (s, n) in zip(data, times))
        )
    group = f"priv 16\nmembers 4\nmode hash\nkey {KEY}\nflag defrag\n"
    for size in ((65536, 64, 2048, 2048), (65536, 4, 2048, 128)):
        for pool in ("", "workers 2\n", "workers 8\n"):
            yield Case(setup_text(size, 2) + group + pool, captures, None, [])


def inputs_of(case: Case) -> Files:
    """The files that a run reads."""
    inputs = outcomes.inputs_of(case)
    if case.moments:
        inputs["ticks.txt"] = "".join(f"{ms}\n" for ms in case.moments).encode()
    return inputs


def pour(name: str, data: bytes, numbers: random.Random) -> None:
    """Writes a capture into a pipe, a piece at a time, as long as somebody reads it."""
    try:
        with open(name, "wb", buffering=0) as pipe:
            while data:
                data = data[pipe.write(data[: numbers.choice([1, 40, 1000, 65536])]) :]
    except BrokenPipeError:
        pass


def make_pipes(inputs: Files, numbers: random.Random) -> None:
    """Makes pipes of the captures, which threads of their own write to."""
    for name in [name for name in inputs if name.endswith(".pcap")]:
        os.remove(name)
        os.mkfifo(name)
        threading.Thread(target=pour, args=(name, inputs[name], numbers), daemon=True).start()


def run_of(
    program: str, case: Case, numbers: random.Random, command: str = "capture"
) -> tuple[Outcome | None, str | None]:
    """The outcome of a run in the present folder. Some have one processor, and some read their
    captures from pipes."""
    inputs, chance = inputs_of(case), numbers.random()
    save_alone(inputs)
    if chance < 0.2:
        make_pipes(inputs, random.Random(numbers.random()))
    one = chance > 0.8 and hasattr(os, "sched_setaffinity")
    limit = (lambda: os.sched_setaffinity(0, [min(os.sched_getaffinity(0))])) if one else None
    return outcome_of([program, command, "conf"], inputs, preexec_fn=limit)


def some_outcome(case: Case, numbers: random.Random) -> tuple[str, Files]:
    """An outcome that threads might have: that of a replay with some schedule, with the moments
    among its lines."""
    captures = [capture or b"" for capture in case.captures]
    cpus, members = len(captures), Setup(case.setup).members
    lines = [f"feed {numbers.randrange(cpus)}\n" for _ in range(sum(map(len, captures)) // 200)]
    reads = numbers.choice([0, 0.2, 1])
    lines += [f"read {numbers.randrange(members)}\n" for _ in range(int(reads * len(lines)))]
    numbers.shuffle(lines)
    places = sorted(numbers.randrange(len(lines) + 1) for _ in case.moments)
    for back, (place, ms) in enumerate(zip(places, case.moments)):
        lines.insert(place + back, f"tick {ms}\n")
    code = filter_verdicts.program(case.listing) if case.listing else None
    return second_runs.replay(Setup(case.setup), "".join(lines), captures, code)


def made_wrong(lines: str, files: Files) -> Iterator[tuple[str, str, Files, int]]:
    """The outcome, wrong in one thing each."""
    name, other = "out.0.pcap", "out.1.pcap"
    data = files[name]
    size = 16 + struct.unpack("<I", data[32:36])[0]
    first, rest = data[24 : 24 + size], data[24 + size :]
    yield "status", lines, files, 4
    yield "a record lost", lines, {**files, name: data[:24] + rest}, 0
    yield "a record twice", lines, {**files, name: data + first}, 0
    yield "a record after the others", lines, {**files, name: data[:24] + rest + first}, 0
    yield "another byte", lines, {**files, name: data[:-1] + bytes([data[-1] ^ 1])}, 0
    yield "another length", lines, {**files, name: data[:36] + bytes([data[36] ^ 1]) + data[37:]}, 0
    yield "a record at another member", lines, {
        **files, name: data[:24] + rest, other: files[other] + first
    }, 0
    yield "a dump less its last block", lines, {**files, "out.0.blk": files["out.0.blk"][:-48]}, 0
    yield "a status of a block", lines, {
        **files, "out.0.blk": files["out.0.blk"][:8] + b"\x21" + files["out.0.blk"][9:]
    }, 0
    yield "the dumps exchanged", lines, {
        **files, "out.0.blk": files["out.1.blk"], "out.1.blk": files["out.0.blk"]
    }, 0
    yield "no dump", lines, {key: value for key, value in files.items() if key != "out.1.blk"}, 0
    yield "a drop more", lines.replace(" drops 0", " drops 1", 1), files, 0
    yield "a freeze more", lines.replace(" freezes 0", " freezes 1", 1), files, 0
    yield "a block less", lines.replace(" blocks ", " blocks 1", 1), files, 0
    yield "another end", lines.replace("end ok", "end fault", 1), files, 0
    yield "another total", lines.replace("filtered 0", "filtered 1"), files, 0
    yield "a line more", lines + "\n", files, 0


def right_outcomes() -> Iterator[tuple[Case, Outcome]]:
    """Outcomes of the second program with random schedules, each of which threads might have."""
    numbers = random.Random(5)
    cases = [
        case
        for case in (random_case(numbers) for _ in range(60)) if None not in case.captures
    ]
    return ((case, (*some_outcome(case, numbers), Arriving(case).status())) for case in cases)


def wrong_outcomes() -> dict[str, tuple[Case, Outcome]]:
    """Outcomes of a run that were made wrong, by what is wrong with each."""
    text = setup_text(SIZES[0], 2) + "members 2\nmode cpu\ndump yes\n"
    data = [
        header() + b"".join(record(frame(60, fill=at), sec=cpu, fraction=at) for at in range(9))
        for cpu in range(2)
    ]
    lines, files = second_runs.replay(Setup(text), "", data)
    return {
        what: (Case(text, data, None, []), tuple(outcome)) for what,
        *outcome in made_wrong(lines, files)
    }
