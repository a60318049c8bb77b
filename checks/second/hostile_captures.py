"""Captures that somebody made to do harm: a program answers each of them with the end and the
place that the second program works out, and by work that the bytes allow.

Each length field of each record is put to its extremes, and each header of the file and of a
record is cut at each byte; each of these captures is replayed, sent and captured on threads.
Others have some bytes changed at random, and are replayed, sent or captured by turns. Then
captures of the forms that ask most of each byte (records without a byte, fragments that are
never put together, and others) are replayed and sent at one size and at twice that size: the
processor's instructions for the second, as valgrind counts them, and the pages of memory that it
touches are at most GROWTH times those for the first. Both are counts, so the machine's load
changes neither. On threads these captures have to end. At last a fragment of a datagram of MANY
may take at most DEARER times the instructions of a fragment of a datagram of FEW.

A run on threads has a ring that holds everything, with the frames of one CPU for each member, so
it gives what a replay gives.
"""
from __future__ import annotations

import ctypes
import os
import random
import re
import resource
import shutil
import struct
from collections.abc import Callable, Iterator

from second import replays
import running
from second.capture_bytes import block, enhanced, header, interface, record, simple
from second.capture_bytes import section as section_header
from second.outcomes import found_wrong
from second.replays import SIZES, Case, Shape, frame, setup_text
from second.program import save

EXTREMES = [
    0, 1, 13, 14, 17, 18, 262_143, 262_144, 262_145, 2**31 - 1, 2**31, 2**32 - 16, 2**32 - 1
]

COMMANDS = ["replay", "send", "capture", "replay2"]

# A ring that holds all frames of a capture of less than 10,000 bytes.
ROOMY: Shape = (65536, 16, 2048, 512)

# The larger of the two sizes whose work is compared, the most that the work may grow by, and the
# pages by which it may grow in any case, since a list that doubles touches more at once. A thread
# that waits works too, so of a run on threads only the end is tested.
LARGE, GROWTH, FEW_PAGES = 8_388_608, 2.2, 100

# The fragments of the datagrams that are compared, how many fragments each capture of them has, and
# how much dearer one may be.
FEW, MANY, FRAGMENTS, DEARER = 500, 8_000, 16_000, 3


def base(order: str) -> bytes:
    """A capture of some frames: plain, tagged, a fragment, a runt and an empty one."""
    fragment = frame(14) + bytes.fromhex("4500002812342000401100000a0000010a000002") + bytes(20)
    frames = [
        frame(60), frame(64, b"\x81\x00\x00\x64\x08\x00"), fragment, frame(13), b"", frame(590)
    ]
    return header(order) + b"".join(record(data, order) for data in frames)


def section(order: str) -> bytes:
    """A section with two interfaces, of microseconds and of nanoseconds, and packets of both,
    one of no interface, and another block."""
    blocks = [section_header(order), interface(order), interface(order, 9, 40)]
    for number, data in [
        (0, frame(60)), (1, frame(64, b"\x81\x00\x00\x64\x08\x00")), (1, frame(13))
    ]:
        blocks.append(enhanced(order, number, (1 << 32) + 2_000_000_000, data))
    return b"".join([*blocks, block(order, 0x0BAD, bytes(21)), simple(order, frame(59))])


def pcapng(order: str) -> bytes:
    """A pcapng capture of two sections, the second of the other byte order."""
    return section(order) + section("<>"[order == "<"])


def block_places(capture: bytes, order: str) -> Iterator[int]:
    """Where each block of the first section begins."""
    place = 0
    while place < len(section(order)):
        yield place
        place += struct.unpack(order + "I", capture[place + 4 : place + 8])[0]


def places(capture: bytes, order: str) -> Iterator[int]:
    """Where each record of a capture begins."""
    place = 24
    while place < len(capture):
        yield place
        place += 16 + struct.unpack(order + "I", capture[place + 8 : place + 12])[0]


def with_field(capture: bytes, place: int, order: str, number: int) -> bytes:
    return capture[:place] + struct.pack(order + "I", number) + capture[place + 4 :]


def extremes() -> Iterator[bytes]:
    """Each field of the file's header and of each record's, at its extremes."""
    for order in "<>":
        capture = base(order)
        for place in range(0, 24, 4):
            for number in EXTREMES:
                yield with_field(capture, place, order, number)
        for start in places(capture, order):
            for place in range(start, start + 16, 4):
                for number in EXTREMES:
                    yield with_field(capture, place, order, number)
        capture = pcapng(order)
        for start in block_places(capture, order):
            for place in range(start, start + 32, 4):
                for number in EXTREMES:
                    yield with_field(capture, place, order, number)


def cuts() -> Iterator[bytes]:
    """A capture that ends at each byte of each header, and at the first and the last byte of the
    data after it."""
    for order in "<>":
        capture = base(order)
        ends = set(range(25))
        for start in places(capture, order):
            ends.update(range(start, start + 18))
            ends.add(start - 1)
        for end in sorted(ends):
            yield capture[:end]
        for end in range(len(section(order)) + 41):
            yield pcapng(order)[:end]


def changed(count: int) -> Iterator[bytes]:
    """Captures of which some bytes are others."""
    numbers = random.Random(4)
    for _ in range(count):
        capture = bytearray(numbers.choice([base, base, pcapng])(numbers.choice("<>")))
        for _ in range(numbers.choice([1, 1, 2, 4, 16, 64])):
            capture[numbers.randrange(len(capture))] = numbers.randrange(256)
        if numbers.randrange(4) == 0:
            del capture[numbers.randrange(len(capture)) :]
        yield bytes(capture)


def case_of(command: str, capture: bytes, numbers: random.Random) -> Case:
    """A run of a command over a capture, with a setup that is drawn."""
    if command == "send":
        text = setup_text(numbers.choice(SIZES)) + numbers.choice(["", "skip_bad yes\n"])
        return Case("send", text, captures=[capture])
    if command in ("replay", "replay2"):
        flags = numbers.choice(["", "members 2\nflag rollover\n", "flag defrag\n", "dump yes\n"])
        return Case(
            command, setup_text(numbers.choice(SIZES)) + flags, "feed 0\nread 0\n", [capture]
        )
    cpus = numbers.choice([1, 1, 2])
    flags = f"members {cpus}\n" + numbers.choice(["", "flag defrag\n", "dump yes\n", "workers 2\n"])
    return Case("capture", setup_text(ROOMY, cpus) + flags, captures=[capture, base("<")][:cpus])


def cases(count: int) -> Iterator[Case]:
    numbers = random.Random(5)
    for capture in [*extremes(), *cuts()]:
        for command in COMMANDS:
            yield case_of(command, capture, numbers)
    for at, capture in enumerate(changed(count)):
        yield case_of(COMMANDS[at % len(COMMANDS)], capture, numbers)


def wrong_of(program: str, cases: list[Case]) -> list[str]:
    """What is wrong with the runs of some cases, in the present folder."""
    wrong = []
    for case in cases:
        if whys := found_wrong(replays.faults, case, lambda case: replays.run_of(program, case)):
            wrong.append(
                f"{case.command}, setup {case.setup!r}, capture {case.captures[0].hex()}: "
                f"{'; '.join(whys[:3])}"
            )
    return wrong


def fragment(ident: int, offset: int, more: bool, data: bytes) -> bytes:
    """A fragment of an IPv4 datagram: its offset in units of eight bytes, and whether more
    follow."""
    head = struct.pack(
        ">BBHHHBBH", 0x45, 0, 20 + len(data), ident % 65536, offset + 0x2000 * more, 64, 17, 0
    )
    return frame(14) + head + bytes.fromhex("0a0000010a000002") + data


def first_lost(count: int) -> Callable[[int], bytes]:
    """Datagrams of so many fragments of eight bytes, in order, each without its first: the frame
    of a number."""
    return lambda at: fragment(at // count, 1 + at % count, at % count < count - 1, bytes(8))


# The forms that ask most of each byte of a capture: the frame of a number, and the lines of the
# setup.
FORMS: dict[str, tuple[Callable[[int], bytes], str]] = {
    "records without a byte": (lambda at: b"", ""), "runts": (lambda at: frame(13), ""),
    "frames of 14 bytes for members that are full": (
        lambda at: frame(14), "members 8\nmode rollover\n"
    ),
    "tagged frames": (
        lambda at: frame(18, b"\x81\x00\x00\x64\x08\x00"), "members 8\nmode lb\nflag rollover\n"
    ),
    "fragments of datagrams that never end": (
        lambda at: fragment(at, 1, True, bytes(8)), "flag defrag\n"
    ),
    "fragments that overlap": (
        lambda at: fragment(at // 3, at % 3, True, bytes(16)), "flag defrag\n"
    ),
    f"datagrams of {FEW} fragments of which the first is lost": (first_lost(FEW), "flag defrag\n"),
}


def write_form(data_of: Callable[[int], bytes]) -> None:
    """Writes a capture of at most LARGE bytes, and one of the records in its first half."""
    parts, place, half, at = [header()], 24, 0, 0
    while True:
        parts.append(record(data_of(at), fraction=at % 1_000_000))
        if place + len(parts[-1]) > LARGE:
            break
        place, at = place + len(parts[-1]), at + 1
        if place <= LARGE // 2:
            half = place
    whole = b"".join(parts[:-1])
    save(".", {"half.pcap": whole[:half], "whole.pcap": whole})


# A run that takes fewer seconds is one that takes as many, so that starting a process counts for
# nothing.
FEW_SECONDS, TRIES = 0.15, 5


def seconds_of(words: list[str]) -> float:
    """The least user time of some runs."""
    return max(FEW_SECONDS, min(usage_of(words).ru_utime for _ in range(TRIES)))


def usage_of(words: list[str]) -> resource.struct_rusage:
    """What the system counts of a run."""
    actions = [(os.POSIX_SPAWN_OPEN, 1, os.devnull, os.O_WRONLY, 0)]
    return os.wait4(os.posix_spawn(words[0], words, os.environ, file_actions=actions), 0)[2]


def work_of(words: list[str]) -> tuple[int | None, str | None]:
    """The work of a run, and None; or None, and what is wrong with how it ends. Work is
    instructions as valgrind counts them, or where it isn't there the least user time in
    microseconds."""
    if not shutil.which("valgrind"):
        return int(1_000_000 * seconds_of(words)), None
    tool = [
        "valgrind", "--tool=cachegrind", "--cache-sim=no", "--cachegrind-out-file=/dev/null",
        "--vgdb=no"
    ]
    ran, why = running.run([*tool, *words], text=True)
    if ran is None or ran.returncode:
        return None, f"status {ran.returncode}" if ran else why
    counted = re.search(r"I\s+refs:\s+([\d,]+)", ran.stderr)
    return (int(counted[1].replace(",", "")), None) if counted else (
        None, "valgrind counts nothing of it"
    )


def pages_of(words: list[str]) -> int:
    """The pages of memory that a run touches first."""
    return usage_of(words).ru_minflt


def write_texts(capture: str, lines: str) -> None:
    text = setup_text(SIZES[0]).replace("in0.pcap", capture) + lines
    save(".", {"conf": text.encode(), "sched": b"", "reader": b"pause 1\nfrom 0\nphase 0\n"})


def words_of(program: str, command: str) -> list[str]:
    """The words of a run; of ringsize, which has no command, by its name."""
    if command == "ringsize":
        return [program, "conf", "reader"]
    return [program, command, "conf"] + ["sched"] * (command == "replay")


def grows(program: str, command: str, name: str, lines: str) -> str | None:
    """What is wrong with the work for a form, if something is."""
    counts, pages = [], []
    for capture in ("half.pcap", "whole.pcap"):
        write_texts(capture, lines)
        words = words_of(program, command)
        count, why = work_of(words)
        if count is None:
            return f"{name}, {command}: {why}"
        counts.append(count)
        pages.append(pages_of(words))
    told = ", ".join(
        f"work {count:,} and {touched} pages of {size >> 20} MiB"
        for count, touched, size in zip(counts, pages, (LARGE // 2, LARGE))
    )
    print(f"{name}, {command}: {told}", flush=True)
    if counts[1] > GROWTH * counts[0] or pages[1] > GROWTH * pages[0] + FEW_PAGES:
        return (
            f"{name}, {command}: the work grows by {counts[1] / counts[0]:.2f}, the pages by "
            f"{pages[1] / pages[0]:.2f}"
        )
    return None


def ends_on_threads(program: str, name: str, lines: str) -> str | None:
    """What is wrong with a form on threads, if something is."""
    write_texts("whole.pcap", lines)
    ran, why = running.run([program, "capture", "conf"])
    if ran is None or ran.returncode:
        return f"{name}, capture: {f'status {ran.returncode}' if ran else why}"
    return None


def long_datagrams_cost(program: str) -> str | None:
    """What is wrong with the instructions for fragments of long datagrams beside those for as
    many of short ones, if something is."""
    each = []
    for size in (FEW, MANY):
        frames = map(first_lost(size), range(FRAGMENTS))
        save(".", {"whole.pcap": header() + b"".join(map(record, frames))})
        write_texts("whole.pcap", "flag defrag\n")
        count, why = work_of([program, "replay", "conf", "sched"])
        if count is None:
            return f"datagrams of {size:,} fragments, replay: {why}"
        each.append(count // FRAGMENTS)
    told = (
        f"{each[0]:,} of work for a fragment of a datagram of {FEW}, {each[1]:,} for one of "
        f"{MANY:,}"
    )
    print(f"{told}", flush=True)
    return f"{told}: more than {DEARER} times as many" if each[1] > DEARER * each[0] else None


def whys_of_form(program: str, name: str) -> Iterator[str]:
    """What is wrong with a form, which is written into the present folder."""
    data_of, lines = FORMS[name]
    write_form(data_of)
    # A `send` reads no line of a group.
    whys = [grows(program, command, name, lines) for command in ["replay", *["send"] * (not lines)]]
    yield from filter(None, [*whys, ends_on_threads(program, name, lines)])


def size_grows(sizer: str, name: str) -> str | None:
    """What is wrong with the work of ringsize for a form, which is written, if something is."""
    data_of, lines = FORMS[name]
    write_form(data_of)
    return grows(sizer, "ringsize", name, lines)


def refuse_huge_pages() -> None:
    """Gives this process and those that it starts pages of one size alone. The system makes huge
    pages of as many as are free at the moment, so with them the pages that a run touches would
    be a matter of the machine's load."""
    # PR_SET_THP_DISABLE, which processes that are started inherit
    ctypes.CDLL(None).prctl(41, 1, 0, 0, 0)
