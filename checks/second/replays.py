"""Runs of many kinds, what the second program works out for them, and what a program's outcome
lacks of it.

Tables of runs that were worked out with pencil and paper stand before them, so that the second
program is compared too.
"""
from __future__ import annotations

import random
import struct
from collections.abc import Iterator, Sequence
from typing import NamedTuple

from second import filter_verdicts
from second import outcomes
from second import runs as second_runs
from second.capture_bytes import MICROSECONDS, NANOSECONDS, header, record
from second.hash_values import KEY
from second.outcomes import Outcome
from second.rings import Ring, SlotRing
from second.runs import Files
from second.setup import Setup

Shape = tuple[int, int, int, int]  # of a ring: block_size, block_nr, frame_size and frame_nr


class Case(NamedTuple):
    """A run: its command, its setup and schedule, the captures of the CPUs from 0 up, and the
    text of its filter, if it has one."""

    command: str
    setup: str
    schedule: str = ""
    captures: Sequence[bytes] = ()
    listing: str | None = None


FEW_STEPS = "feed 0\nread 0\nfeed 0\nfeed 0\n"
SIZES: list[Shape] = [
    (4096, 2, 2048, 4), (4096, 3, 128, 96), (8192, 2, 2048, 8), (65536, 4, 2048, 128)
]


def frame(size: int, kind: bytes = b"\x08\x00", fill: int = 0) -> bytes:
    """A frame of so many bytes, or the front of one."""
    return (
        bytes.fromhex("020000000002" "020000000001") + kind
        + bytes((fill + i) % 256 for i in range(size))
    )[:size]


def small_captures() -> Iterator[bytes]:
    """Captures of few frames: plain and tagged ones in each form, cut ones, and ones that are
    refused."""
    plain = [frame(size, fill=size) for size in (60, 590, 1514, 9000, 3966, 3967, 14, 13, 0, 15)]
    tagged = [
        frame(64, b"\x81\x00\x00\x64\x08\x00"),
        frame(64, b"\x88\xa8\x20\x05\x81\x00\x00\x07\x08\x00"),
        frame(18, b"\x81\x00\x0f\xff\x08\x00"),
        frame(17, b"\x81\x00\x0f\xff\x08\x00"),
        frame(64, b"\x91\x00\x00\x64\x08\x00"),
    ]
    for order in "<>":
        for magic in (MICROSECONDS, NANOSECONDS):
            yield header(order, magic) + b"".join(record(data, order) for data in plain + tagged)
    yield (
        header() + record(frame(60), original=1514) + record(frame(60), original=10)
        + record(frame(60), fraction=10**6)
    )
    yield header(link=0xF0000001) + record(frame(60), fraction=4_294_967_295)
    yield header() + record(frame(64, b"\x81\x00\x00\x01\x08\x00"), original=4_294_967_295)
    yield header()
    yield header()[:23]
    yield b""
    yield header() + 3 * record(frame(60)) + record(frame(60))[:75]
    yield header() + 3 * record(frame(60)) + bytes(15)
    yield header() + record(frame(60)) + record(b"", captured=262_145) + record(frame(60))
    yield header() + record(frame(262_144)) + record(frame(60))
    yield header(magic=0x0A0D0D0A) + record(frame(60))
    yield header(magic=0xA1B2CD34) + record(frame(60))
    yield header(version=(2, 3)) + record(frame(60))
    yield header(link=113) + record(frame(60))
    yield header("<")[:4] + header(">")[4:] + record(frame(60))


# The lengths of the frames, the schedule, and what follows from the rules of a ring of two blocks
# of 4096 bytes: a packet takes 82 bytes and its data, rounded up to 8, of the 4048 that a block has
# for packets. Kept, drops, freezes, blocks, and the length of the output.
WORKED = [
    ([60] * 3, "feed 0\n" * 3, (3, 0, 0, 1), 252),
    ([], "", (0, 0, 0, 0), 24),
    ([1514] * 7, "", (4, 3, 1, 2), 24 + 4 * 1530),
    ([1514] * 7, "feed 0\n" * 5 + "read 0\n" + "feed 0\n" * 2, (6, 1, 1, 3), 24 + 6 * 1530),
    ([60] * 28, "", (28, 0, 0, 1), 24 + 28 * 76),
    ([60] * 29, "", (29, 0, 0, 2), 24 + 29 * 76),
    ([9000], "", (1, 0, 0, 1), 24 + 16 + 3966),
    ([3966] * 2, "", (2, 0, 0, 2), 24 + 2 * (16 + 3966)),
    ([13, 60], "", (1, 0, 0, 1), 24 + 76),
]


def worked_case(
    command: str, lengths: Sequence[int], schedule: str, counts: tuple[int, int, int, int]
) -> tuple[Case, str]:
    """A case of a table, and its lines; the counts are kept, drops, freezes and blocks."""
    arrivals = sum(size >= 14 for size in lengths)
    kept, drops, freezes, blocks = counts
    lines = (
        f"cpu 0 frames {len(lengths)} arrivals {arrivals} end ok\n"
        f"member 0 packets {kept + drops} drops {drops} freezes {freezes} blocks {blocks}\n"
        f"total arrivals {arrivals} filtered 0 kept {kept} drops {drops}\n"
    )
    capture = header() + b"".join(record(frame(size)) for size in lengths)
    return Case(command, setup_text(SIZES[0]), schedule, [capture]), lines


def worked_cases() -> Iterator[tuple[Case, str, int]]:
    """The table: a case, its lines and the length of its file."""
    for lengths, schedule, counts, length in WORKED:
        yield *worked_case("replay", lengths, schedule, counts), length


# The same over a ring of four slots of 2048 bytes: a slot has one packet and keeps 1982 bytes of
# it. Kept, drops, slots, and the length of the output.
SLOTS_WORKED = [
    ([60] * 6, "feed 0\n" * 5 + "read 0\n" + "feed 0\n", (5, 1, 5), 24 + 5 * 76),
    ([3000], "", (1, 0, 1), 24 + 16 + 1982),
    ([60] * 5, "", (4, 1, 4), 24 + 4 * 76),
    ([60] * 5, "feed 0\nread 0\nread 0\n", (5, 0, 5), 24 + 5 * 76),
    ([60] * 7, "feed 0\n" * 6 + "tick 1000\nread 0\n" + "feed 0\n", (5, 2, 5), 24 + 5 * 76),
    ([13, 14], "tick 8\n", (1, 0, 1), 24 + 16 + 14),
    ([], "read 0\n", (0, 0, 0), 24),
]


def slot_cases() -> Iterator[tuple[Case, str, int]]:
    """The table: a case, its lines and the length of its file. Nothing freezes."""
    for lengths, schedule, (kept, drops, slots), length in SLOTS_WORKED:
        yield *worked_case("replay2", lengths, schedule, (kept, drops, 0, slots)), length


def large_captures() -> Iterator[bytes]:
    """One of exactly the most bytes that a capture may have, and one of a byte more."""
    whole = header() + 127 * record(frame(262_144)) + record(frame(260_072))
    yield whole
    yield whole + b"\0"


def random_capture(numbers: random.Random) -> bytes:
    records = []
    for _ in range(numbers.randrange(80)):
        kind = numbers.choice(
            [b"\x08\x00", b"\x86\xdd", b"\x81\x00\x00\x01\x08\x00", b"\x88\xa8\x00\x01\x08\x00"]
        )
        size = numbers.choice(
            [numbers.randrange(90), numbers.randrange(1600), 1514, 60, numbers.randrange(5000)]
        )
        data = frame(size, kind, numbers.randrange(256))
        records.append(
            record(data, sec=numbers.randrange(2**32), fraction=numbers.randrange(10**6))
        )
    data = header() + b"".join(records)
    return data[: numbers.randrange(len(data))] if numbers.random() < 0.2 else data


def random_schedule(numbers: random.Random, cpus: int = 1, members: int = 1) -> str:
    lines: list[str] = []
    reads, clock = numbers.choice([0.05, 0.2, 0.5]), 0
    for _ in range(numbers.randrange(160)):
        chance = numbers.random()
        if chance < reads:
            lines.append(f"read {numbers.randrange(members)}\n")
        elif chance < reads + 0.1 and members > 1:
            clock += numbers.randrange(6)
            lines.append(
                numbers.choice([f"tick {clock}\n", f"stats {numbers.randrange(members)}\n"])
            )
        else:
            lines.append(f"feed {numbers.randrange(cpus)}\n")
    return "".join(lines)


def datagram(numbers: random.Random) -> list[bytes]:
    """A UDP datagram of IPv4, whole or in fragments, which may be out of order, lost, doubled or
    overlapping."""
    addresses = bytes([10, 0, 0, numbers.randrange(1, 4), 10, 0, 0, numbers.randrange(1, 4)])
    data = struct.pack(">HHHH", numbers.randrange(1024, 1028), 53, 0, 0) + bytes(
        numbers.randrange(200)
    )
    ident, size, pieces = numbers.randrange(6), numbers.choice([len(data), 16, 24, 64]), []
    for at in range(0, len(data), -(-size // 8) * 8):
        piece = data[at : at + -(-size // 8) * 8]
        more = at + len(piece) < len(data)
        head = struct.pack(
            ">BBHHHBBH", 0x45, 0, 20 + len(piece), ident, at // 8 + 0x2000 * more, 64, 17, 0
        )
        pieces.append(frame(14) + head + addresses + piece)
    if numbers.random() < 0.4:
        numbers.shuffle(pieces)
    if numbers.random() < 0.2:
        pieces.append(numbers.choice(pieces))
    if numbers.random() < 0.2:
        pieces.pop(numbers.randrange(len(pieces)))
    return pieces


def group_capture(numbers: random.Random) -> bytes:
    frames: list[bytes] = []
    while len(frames) < numbers.randrange(60):
        if numbers.random() < 0.7:
            frames += datagram(numbers)
        else:
            kind = numbers.choice([b"\x08\x06", b"\x86\xdd", b"\x81\x00\x00\x01\x08\x00"])
            frames.append(
                frame(numbers.choice([13, 18, 60, 590, 1514]), kind, numbers.randrange(256))
            )
    return header() + b"".join(
        record(data, sec=at * numbers.choice([0, 1, 9])) for at, data in enumerate(frames)
    )


FILTERS = [
    "4\n40 0 0 12\n21 0 1 2048\n6 0 0 96\n6 0 0 0\n",
    "6\n40 0 0 12\n21 0 3 2048\n48 0 0 23\n21 0 1 17\n6 0 0 262144\n6 0 0 0\n",
    "2\n32 0 0 4294963236\n22 0 0 0\n",
    "3\n32 0 0 4294963224\n4 0 0 20\n22 0 0 0\n",
]


# Lines of a group, each there or not, and those that only rings of blocks have.
GROUP_LINES = ("dump yes", "flag defrag", "mac 020000000002")
BLOCK_LINES = ("features 1", "priv 13", "tov 5")


def group_case(
    numbers: random.Random, sizes: Sequence[Shape] = tuple(SIZES[:3]),
    further: Sequence[str] = BLOCK_LINES
) -> tuple[str, str, list[bytes], str | None]:
    """A setup of several CPUs and members, with its schedule, captures and filter."""
    cpus, members = numbers.randrange(1, 4), numbers.randrange(2, 5)
    text = setup_text(numbers.choice(sizes), cpus)
    mode = numbers.choice(["hash", "lb", "cpu", "rollover", "qm"])
    text += f"members {members}\nmode {mode}\nkey {KEY}\n"
    for line in (*GROUP_LINES, *further):
        if numbers.random() < 0.5:
            text += line + "\n"
    if mode != "rollover" and numbers.random() < 0.5:
        text += "flag rollover\n"
    listing = numbers.choice([None, *FILTERS])
    if listing:
        text += "filter filter.ddd\n"
    captures = [group_capture(numbers) for _ in range(cpus)]
    return text, random_schedule(numbers, cpus, members), captures, listing


# The rings of sent captures: a slot has 2000, 80, 4048, 32 or 1,048,528 bytes of room.
SLOTS: list[Shape] = [
    (4096, 2, 2048, 4), (4096, 3, 128, 96), (4096, 2, 4096, 2), (8192, 2, 80, 204),
    (1_048_576, 3, 1_048_576, 3)
]
# Lines that say nothing to `send`, which reads none of these files.
UNUSED = (
    "members 3\nmode lb\nflag defrag\nfilter none.ddd\nticks none.txt\ndump yes\nout sent\ntov "
    "0\npriv 0\n"
)

# The lengths of the frames of a capture that is sent through slots of 2000 bytes of room, whether
# longer ones are skipped, and what follows: how many are sent, how many are skipped, where the ring
# stops, and the lengths that are saved.
SENT: list[tuple[list[int], bool, tuple[int, int, int | str], list[int]]] = [
    ([60, 3000, 60], False, (1, 0, 1), [60]), ([60, 3000, 60], True, (2, 1, "none"), [60, 60]),
    ([], False, (0, 0, "none"), []), ([13, 0, 14, 13, 2001, 60], False, (1, 0, 4), [14]),
    ([13, 0, 14, 13, 2001, 60], True, (2, 1, "none"), [14, 60]),
    (
        [2000, 1999, 60, 60, 61, 62, 63, 64, 65], False, (9, 0, "none"),
        [2000, 1999, 60, 60, 61, 62, 63, 64, 65]
    ),
    ([60] * 4 + [9000], False, (4, 0, 4), [60] * 4), ([9000] * 5, True, (0, 5, "none"), []),
]


def sent_cases() -> Iterator[tuple[Case, str, int]]:
    """The table: a case, its lines and the length of its file."""
    for lengths, skips, (sent, skipped, stop), saved in SENT:
        text = setup_text(SIZES[0]) + "skip_bad yes\n" * skips
        lines = (
            f"cpu 0 frames {len(lengths)} end ok\nsend sent {sent} skipped {skipped} stop {stop}\n"
        )
        capture = header() + b"".join(record(frame(size)) for size in lengths)
        yield Case("send", text, captures=[capture]), lines, 24 + sum(16 + size for size in saved)


def sends() -> Iterator[Case]:
    """Captures that are sent, with and without longer frames, runts, tags, cuts, and more frames
    than slots."""
    numbers = random.Random(2)
    captures = [*small_captures(), *(random_capture(numbers) for _ in range(60))]
    for capture in captures:
        for skips in ("", "skip_bad yes\n"):
            size = numbers.choice(SLOTS)
            text = setup_text(size, numbers.randrange(1, 4)) + skips + numbers.choice(["", UNUSED])
            yield Case("send", text, captures=[capture])
    for capture in large_captures():
        yield Case("send", setup_text(SLOTS[4]), captures=[capture])


def makes() -> Iterator[Case]:
    """Frames that are made, for rings that keep them and rings that drop, and for counts round
    the 64 of its reads."""
    numbers = random.Random(3)
    for count in (1, 2, 7, 8, 63, 64, 65, 127, 128, 129, 500):
        for cpus in (1, 3, 8):
            text = setup_text(numbers.choice(SIZES), cpus)
            yield Case("make", text + f"make {numbers.randrange(2**32)} {count}\n")
    for _ in range(60):
        text, _, _, listing = group_case(numbers)
        text += numbers.choice(["", "ticks none.txt\n", "out made\n"])
        seed = numbers.choice([0, 1, 2**32 - 1, numbers.randrange(2**32)])
        yield Case("make", text + f"make {seed} {numbers.randrange(1, 900)}\n", listing=listing)
    yield Case("make", LARGE)


def slots() -> Iterator[Case]:
    """Replays over rings of TPACKET_V2: of one member and of groups, with slots that are small,
    and of the most slots."""
    numbers = random.Random(4)
    for _ in range(100):
        text = setup_text(numbers.choice(SLOTS)) + numbers.choice(["", "dump yes\n"])
        yield Case("replay2", text, random_schedule(numbers), [random_capture(numbers)])
    for _ in range(200):
        yield Case("replay2", *group_case(numbers, SLOTS[:4], ()))
    yield Case("replay2", setup_text((1_048_576, 4, 64 * 1024, 64)), "", [next(large_captures())])
    yield Case(
        "replay2", setup_text((1_048_576, 64, 1024, 65_536)) + "dump yes\n", "",
        [random_capture(numbers)]
    )


# The largest number of made frames.
LARGE = (
    "block_size 65536\nblock_nr 64\nframe_size 2048\nframe_nr 2048\npriv 16\ncpu a\ncpu b\nmembers "
    "4\nmode hash\n"
    f"key {KEY}\nflag defrag\nmake 1 20000\n"
)


def large() -> Iterator[Case]:
    """Replays of the longest captures."""
    for capture in large_captures():
        yield Case("replay", setup_text((1_048_576, 64, 2048, 32768)), "", [capture])


def random_replays() -> Iterator[Case]:
    """Replays of one CPU, and of groups."""
    numbers = random.Random(1)
    for _ in range(100):
        yield Case(
            "replay", setup_text(numbers.choice(SIZES)), random_schedule(numbers),
            [random_capture(numbers)]
        )
    for _ in range(200):
        yield Case("replay", *group_case(numbers))


def setup_text(size: Shape, cpus: int = 1) -> str:
    """The lines of a ring and of its CPUs."""
    words = ("block_size", "block_nr", "frame_size", "frame_nr")
    names = (f"cpu in{cpu}.pcap {cpu * 5}\n" for cpu in range(cpus))
    return "".join(f"{word} {number}\n" for word, number in zip(words, size)) + "".join(names)


def worked_out(case: Case) -> tuple[str, Files]:
    """The lines and the files of a run."""
    setup = Setup(case.setup)
    code = filter_verdicts.program(case.listing) if case.listing else None
    if case.command == "send":
        return second_runs.send(setup, case.captures[0])
    if case.command == "make":
        return second_runs.make(setup, code)
    kind = SlotRing if case.command == "replay2" else Ring
    return second_runs.replay(setup, case.schedule, case.captures, code, kind)


def run_of(program: str, case: Case) -> tuple[Outcome | None, str | None]:
    """The outcome of a run in the present folder, in which there are no more files than the
    command reads."""
    inputs, words = outcomes.inputs_of(case), [program, case.command, "conf"]
    if case.command in ("replay", "replay2"):
        inputs["sched"] = case.schedule.encode()
        words.append("sched")
    outcomes.save_alone(inputs)
    return outcomes.outcome_of(words, inputs)


def faults(case: Case, lines: str, files: Files, status: int) -> Iterator[str]:
    """What is wrong with a run: its status, its lines and the files that it saved."""
    expected, wanted = worked_out(case)
    ends = {line.split(" end ")[1] for line in expected.splitlines() if line.startswith("cpu")}
    if status != (0 if ends == {"ok"} else 4):
        yield f"status {status}, where the captures end {sorted(ends)}"
    if lines != expected:
        yield f"it prints other lines:\n{outcomes.line_difference(expected, lines)}"
    if files.keys() != wanted.keys():
        yield f"saved {sorted(files)} in place of {sorted(wanted)}"
    for name in files.keys() & wanted.keys():
        if files[name] != wanted[name]:
            yield f"another {name}"
