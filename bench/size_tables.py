"""The tables of ringsize: all phases of a capture beside plain_pass.c, which answers the same with
arrays, and what it takes of a frame where there are many."""
from __future__ import annotations

import os
import statistics
import struct
import subprocess
import sys
from collections.abc import Iterator
from typing import NamedTuple

from bounds import PASSES, SIZE_GROWTH, SIZE_MEMORY, Figures
from inputs import MIB, Ring, header, record, write_setup  # which finds second
from measurements import SIZER, TOP, WORK, Asked, Words, measure
from plain_tables import compiler_of
from second.capture_bytes import NANOSECONDS

FRAMES, TOV, PAUSE, BLOCKS = 100_000, 1000, 100, 2
RING: Ring = {"block_size": 262_144, "block_nr": BLOCKS, "frame_size": 2048, "frame_nr": 256}
LARGE: Ring = {**RING, "block_nr": 64, "frame_nr": 64 * 128}
MANY, CPUS = 1_100_000, 8  # the frames of each capture where there are many; the most CPUs
SMALL_RECORD = struct.Struct("<IIII14s")


def arrivals(count: int) -> Iterator[tuple[int, int]]:
    """When each frame comes, in nanoseconds, and how long it is, as plain_pass.c has them."""
    state, at = 1, 0
    for index in range(count):
        state = (state * 6364136223846793005 + 1442695040888963407) % 2**64
        at += (state >> 32) % 2_000_000 if index else 0
        yield at, 14 + 8 * ((state >> 40) % 68)


def write_drawn(count: int) -> None:
    """Writes the capture of so many drawn frames."""
    front = bytes(12) + b"\x08\x00"
    with open("in.pcap", "wb") as file:
        file.write(header(magic=NANOSECONDS))
        for at, size in arrivals(count):
            sec, fraction = divmod(at, 10**9)
            file.write(record(front.ljust(size, b"\0"), sec=sec, fraction=fraction))


def write_many(count: int) -> None:
    """Writes the capture of so many frames of 14 bytes, a microsecond apart."""
    data = bytes(12) + b"\x08\x00"
    with open("in.pcap", "wb") as file:
        file.write(header())
        for first in range(0, count, 10_000):
            file.write(b"".join(
                SMALL_RECORD.pack(number // 1_000_000, number % 1_000_000, 14, 14, data)
                for number in range(first, min(first + 10_000, count))
            ))


def write_reader(lines: str) -> Words:
    with open("reader", "w", encoding="ascii") as file:
        file.write(lines)
    return [SIZER, "conf", "reader"]


def built_pass() -> str | None:
    compiler = compiler_of()
    if not compiler:
        return None
    plain = os.path.join(WORK, "plain_pass")
    source = os.path.join(TOP, "bench", "plain_pass.c")
    subprocess.run([compiler, "-O2", "-o", plain, source], check=True)
    return plain


def answers_of(printed: str) -> list[str]:
    return [line for line in printed.splitlines() if line.startswith("member ")]


class Taken(NamedTuple):
    """The times of some runs in seconds: of ringsize, its processor times, and of C, if that is
    there."""

    ours: list[float]
    cpu: list[float]
    theirs: list[float]

    def row(self, count: int) -> str:
        cells = [min(self.ours), statistics.median(self.ours), min(self.cpu)]
        for times in ([self.theirs] if self.theirs else []):
            cells += [min(times), statistics.median(times), self.to_c()]
        shown = [f"{cell:.2f}" for cell in cells] + ["-"] * (6 - len(cells))
        return f"| {count:,} | {TOV:,} | {' | '.join(shown)} |"

    def to_c(self) -> float:
        return min(self.ours) / min(self.theirs)


def by_turns(plain: str | None, count: int, asked: Asked) -> Taken:
    """The times of all phases of so many drawn frames. C has to print the same answers."""
    write_drawn(count)
    write_setup("conf", RING, more=f"tov {TOV}\n")
    ours = write_reader(f"pause {PAUSE}\nfrom 0\nphases all\n")
    taken = Taken([], [], [])
    for _ in range(asked.runs):
        seconds, cpu, _, printed = measure(ours, 1)
        taken.ours.append(seconds)
        taken.cpu.append(cpu)
        if plain:
            seconds, _, _, other = measure([plain, *map(str, (count, TOV, PAUSE, BLOCKS))], 1)
            taken.theirs.append(seconds)
            if answers_of(other) != answers_of(printed):
                sys.exit(f"plain_pass answers {other!r}, and ringsize {printed!r}")
    return taken


def times_of_passes(asked: Asked) -> Figures:
    """Prints the time of all phases of the drawn capture, and of a half of it, by turns with C."""
    plain = built_pass()
    print("\n| Frames | Phases | ringsize, s | middle | CPU, s | C, s | middle | To C |")
    print("|---|---|---|---|---|---|---|---|")
    half, whole = FRAMES // 2, FRAMES
    taken = {}
    for count in (half, whole):
        taken[count] = by_turns(plain, count, asked)
        print(taken[count].row(count), flush=True)
    found = {SIZE_GROWTH: min(taken[whole].cpu) / min(taken[half].cpu)}
    return {**found, PASSES: taken[whole].to_c()} if plain else found


def memory_of_frames(asked: Asked) -> Figures:
    """Prints time and memory of one phase over the most frames that the captures of a setup may
    have, and over a half of them."""
    print("\n| Frames | Time, s | CPU, s | Memory, MiB |\n|---|---|---|---|")
    memories = {}
    for count in (MANY // 2, MANY):
        write_many(count)
        write_setup("conf", LARGE, CPUS, "tov 8\n")
        words = write_reader("pause 10\nfrom 0\nphase 0\n")
        seconds, cpu, memory, _ = measure(words, min(asked.runs, 3))
        memories[count] = memory
        print(
            f"| {CPUS * count:,} | {seconds:.2f} | {cpu:.2f} | {memory / MIB:.1f} |", flush=True
        )
    each = (memories[MANY] - memories[MANY // 2]) / (CPUS * (MANY - MANY // 2))
    print(f"\n{each:.1f} bytes a frame")
    return {SIZE_MEMORY: each}


def times_of_sizes(asked: Asked) -> Figures:
    """Prints the tables of ringsize, and gives what has bounds; nothing where it isn't built."""
    print("\n## ringsize\n")
    if not os.path.exists(SIZER):
        print("ringsize isn't built, so nothing of it is measured")
        return {}
    print(
        f"All phases of a time-out of {TOV:,} ms, a reader that sleeps {PAUSE} ms, frames about a"
        f" millisecond apart, a ring of {BLOCKS} blocks of 256 KiB."
    )
    return {**times_of_passes(asked), **memory_of_frames(asked)}
