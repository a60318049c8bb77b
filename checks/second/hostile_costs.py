#!/usr/bin/env python3
"""What inputs of one size cost beside a plain one of that size: a capture made to do harm, or a
setup that anybody may write, asks for no more than a few times what its neighbours do.

    hostile_costs.py PROGRAM    prints the ratios as a table

Each form is an input of about SIZE bytes, or a schedule or ticks of as many lines as a plain
capture of SIZE bytes has frames. Its cost is compared with that of a plain form of the same
command, a capture of SIZE bytes with frames of 60, over a ring that keeps all: instructions as
valgrind counts them, and the largest resident size of a run of LARGE bytes. A ring that differs
in the size of its blocks or slots alone is compared with one of the same command. On threads
valgrind counts how long threads wait, so there the middle of three user times is compared.

A form may take at most DEARER times the instructions and the memory of the plain one, where it
says no other limit, one of sizes at most ALIKE times, and one that can't share memory as the
plain one does at most UNSHARED times. Where a form has the program fill memory with zeros its
time is compared, since valgrind counts a fill by the byte.
"""
from __future__ import annotations

import os
import re
import statistics
import subprocess
import sys
import tempfile
from collections.abc import Callable
from dataclasses import dataclass

from second import capture_bytes
from second.capture_bytes import INTERFACE, SIMPLE, block, header, interface, record, section
from second.hostile_captures import fragment, refuse_huge_pages, work_of
from second.replays import frame, setup_text
from second.program import save

# The bytes of an input whose instructions are counted, and of one whose memory and time are
# compared.
SIZE, LARGE = 1 << 20, 8 << 20
# How many times the cost of the plain form one may take, of another input and of another size of a
# ring alone.
DEARER, ALIKE = 4.0, 1.5
# Of a form whose frames can't share memory with others, as those of a plain capture do, and of one
# that keeps a note for each try alone.
UNSHARED = 5.0
# Below these costs a difference is that of starting a process: MiB, and seconds.
FEW_MIB, FEW_SECONDS = 24, 0.15

MIB = 1 << 20
KEEPS, DROPS = (65_536, 256, 2_048, 8_192), (4_096, 2, 2_048, 4)
MOST_LINES = 80_000  # of a text, which has at most 1 MiB
FULL_DATAGRAM = 8_184  # fragments of eight bytes of a datagram of which the first is lost

Frames = Callable[[int], bytes]


@dataclass
class Form:
    """An input of a size: its files for a number of bytes, and what the setup says."""

    files: Callable[[int], dict[str, bytes]]
    ring: tuple[int, int, int, int] = KEEPS
    lines: str = ""
    limit: float = DEARER
    beside: str = "plain"
    commands: tuple[str, ...] = ("replay",)
    # Time in place of instructions: valgrind counts a fill of zeros by the byte.
    timed: bool = False


def capture_of(frame_at: Frames) -> Callable[[int], dict[str, bytes]]:
    """A capture of at most so many bytes: the frame of each number."""

    def files(size: int) -> dict[str, bytes]:
        parts, left, at = [header()], size - 24, 0
        while True:
            parts.append(record(frame_at(at), fraction=at % 1_000_000))
            left, at = left - len(parts[-1]), at + 1
            if left < 0:
                return {"in0.pcap": b"".join(parts[:-1])}

    return files


def blocks_of(*parts: bytes) -> Callable[[int], dict[str, bytes]]:
    """A pcapng capture of at most so many bytes: a section, an interface, and these blocks again
    and again."""
    start = section("<") + interface("<", snap=262_144)
    round_ = b"".join(parts)
    return lambda size: {"in0.pcap": start + round_ * ((size - len(start)) // len(round_))}


def lines_of(
    name: str, line: Callable[[int], str], frames: int = 2_000
) -> Callable[[int], dict[str, bytes]]:
    """A text of as many lines as a plain capture of so many bytes has frames, beside a capture
    of some frames: no line may cost much more than a frame."""
    plain = capture_of(lambda at: frame(60))

    def files(size: int) -> dict[str, bytes]:
        count = min((size - 24) // 76, MOST_LINES)
        return {**plain(24 + 76 * frames), name: "".join(map(line, range(count))).encode()}

    return files


def lost_first(at: int, order: Callable[[int], int]) -> bytes:
    """A fragment of a datagram whose first one never comes, at the place that an order gives for
    its number."""
    number, place = divmod(at, FULL_DATAGRAM)
    where = order(place)
    return fragment(number, 1 + where, where < FULL_DATAGRAM - 1, bytes(8))


def reversed_bits(place: int) -> int:
    """The places of a datagram by turned round binary digits; those that there aren't come last."""
    found = int(f"{place:013b}"[::-1], 2)
    return found if found < FULL_DATAGRAM else place


def copies(at: int) -> bytes:
    """A datagram that holds all it can, and then copies of the fragment that was pushed last."""
    where = min(at, FULL_DATAGRAM - 1)
    return fragment(0, 1 + where, where < FULL_DATAGRAM - 1, bytes(8))


def enhanced(data: bytes) -> bytes:
    return capture_bytes.enhanced("<", 0, 0, data)


DEFRAG = "flag defrag\n"
ALL = ("replay", "replay2", "send", "capture", "forward")
TAG = b"\x81\x00\x00\x64\x08\x00"

FORMS: dict[str, Form] = {
    "plain": Form(capture_of(lambda at: frame(60)), commands=ALL),
    "frames of 1514 bytes": Form(capture_of(lambda at: frame(1514)), commands=ALL),
    "records without a byte": Form(capture_of(lambda at: b""), commands=ALL),
    "runts": Form(capture_of(lambda at: frame(13)), commands=ALL),
    "frames of 14 bytes": Form(capture_of(lambda at: frame(14)), commands=ALL),
    "a VLAN tag in every frame": Form(
        capture_of(lambda at: frame(18, TAG)),
        commands=tuple(command for command in ALL if command != "send")
    ),
    "a VLAN tag in every frame that is sent": Form(
        capture_of(lambda at: frame(18, TAG)), limit=UNSHARED, commands=("send",)
    ),
    "fragments in order": Form(
        capture_of(lambda at: lost_first(at, lambda place: place)), lines=DEFRAG
    ),
    "fragments, the last first": Form(
        capture_of(
            lambda at: lost_first(at, lambda place: place - 1 if place else FULL_DATAGRAM - 1)
        ),
        lines=DEFRAG
    ),
    "fragments in reverse": Form(
        capture_of(lambda at: lost_first(at, lambda place: FULL_DATAGRAM - 1 - place)), lines=DEFRAG
    ),
    "fragments by turned round digits": Form(
        capture_of(lambda at: lost_first(at, reversed_bits)), lines=DEFRAG
    ),
    "copies of the last fragment": Form(capture_of(copies), lines=DEFRAG),
    "fragments that overlap": Form(
        capture_of(lambda at: fragment(at // 3, at % 3, True, bytes(16))), lines=DEFRAG
    ),
    "datagrams that never end": Form(
        capture_of(lambda at: fragment(at, 1, True, bytes(8))), lines=DEFRAG, limit=UNSHARED
    ),
    "a late fragment of each datagram": Form(
        capture_of(lambda at: fragment(at, FULL_DATAGRAM - 1, True, bytes(8))), lines=DEFRAG,
        timed=True
    ),
    "pcapng: packets of 60 bytes": Form(
        blocks_of(enhanced(frame(60))), commands=("replay", "send")
    ),
    "pcapng: packets without a byte": Form(blocks_of(enhanced(b"")), commands=("replay", "send")),
    "pcapng: simple packets without a byte": Form(blocks_of(block("<", SIMPLE, bytes(4)))),
    "pcapng: skipped blocks of 12 bytes": Form(blocks_of(block("<", 0x0BAD, b""))),
    "pcapng: skipped blocks of 1 MB": Form(blocks_of(block("<", 0x0BAD, bytes(999_988)))),
    "pcapng: interfaces": Form(blocks_of(interface("<"))),
    "pcapng: interfaces of 524,288 bytes": Form(
        blocks_of(block("<", INTERFACE, interface("<")[8:-4] + bytes(524_268)))
    ),
    "pcapng: sections": Form(blocks_of(section("<"))),
    # Each of the nine tries of a frame is a note of 104 bytes, as docs/reference.md tells.
    "rollover over 8 full members": Form(
        capture_of(lambda at: frame(60)), ring=DROPS, lines="members 8\nmode rollover\n",
        limit=UNSHARED, commands=("replay", "replay2")
    ),
    "a schedule of feeds": Form(lines_of("sched", lambda at: "feed 0\n")),
    "a schedule of reads": Form(lines_of("sched", lambda at: "read 0\n")),
    "a schedule of statistics": Form(lines_of("sched", lambda at: "stats 0\n")),
    "a schedule of ticks": Form(lines_of("sched", lambda at: f"tick {at}\n"), lines="tov 1\n"),
    "a block of 1 MiB a frame": Form(
        lines_of("sched", lambda at: ("feed 0\n", f"tick {at}\n", "read 0\n")[at % 3]),
        ring=(MIB, 64, 2_048, 32_768), lines="tov 1\n", timed=True
    ),
    "ticks": Form(
        lines_of("t.txt", lambda at: f"{at}\n"), lines="ticks t.txt\n", commands=("capture",)
    ),
    "blocks of 1 MiB": Form(
        capture_of(lambda at: frame(60)), ring=(MIB, 64, 2_048, 32_768), limit=ALIKE
    ),
    "blocks of 4 KiB": Form(
        capture_of(lambda at: frame(60)), ring=(4_096, 256, 2_048, 512), limit=ALIKE
    ),
    "slots of 2 KiB": Form(
        capture_of(lambda at: frame(60)), ring=(MIB, 64, 2_048, 32_768),
        commands=("replay2", "send", "forward")
    ),
    "slots of 1 MiB": Form(
        capture_of(lambda at: frame(60)), ring=(MIB, 64, MIB, 64), limit=ALIKE,
        beside="slots of 2 KiB", commands=("replay2", "send", "forward"), timed=True
    ),
}


def words_of(program: str, command: str) -> list[str]:
    return [program, command, "conf"] + ["sched"] * command.startswith("replay")


def write(form: Form, size: int, command: str) -> None:
    """Writes the files of a form, with a schedule that has no line where it has none."""
    ring = form.ring
    text = re.sub(r"pcap 0$", "pcap", setup_text(ring), flags=re.M) + form.lines
    if command == "send":
        text += "skip_bad yes\n"
    save(".", {"sched": b"", "conf": text.encode(), **form.files(size)})


# Starts a run and prints its user time, its largest resident size and its status. It is a process
# of its own, and a small one, since the system counts for a run no less than the size of the
# process that starts it.
STARTER = """
import os, sys
actions = [(os.POSIX_SPAWN_OPEN, 1, os.devnull, os.O_WRONLY, 0)]
child = os.posix_spawn(sys.argv[1], sys.argv[1:], os.environ, file_actions=actions)
_, status, usage = os.wait4(child, 0)
print(usage.ru_utime, usage.ru_maxrss, os.waitstatus_to_exitcode(status))
"""


def used(words: list[str]) -> tuple[float, float, int]:
    """The user time and the largest resident size in MiB of a run, and its status."""
    started = subprocess.run(
        [sys.executable, "-I", "-S", "-c", STARTER, *words], capture_output=True, text=True,
        check=True
    )
    seconds, size, status = started.stdout.split()
    return float(seconds), int(size) / 1024, int(status)


@dataclass
class Cost:
    """What a form costs under a command: instructions and seconds, of which a run on threads has
    seconds alone, and MiB."""

    instructions: float
    seconds: float
    memory: float

    def beside(self, other: Cost, is_timed: bool) -> tuple[float, float]:
        """How many times the costs of another these are."""
        work = (
            max(self.seconds, FEW_SECONDS) / max(other.seconds, FEW_SECONDS) if is_timed
            else self.instructions / other.instructions
        )
        return work, max(self.memory, FEW_MIB) / max(other.memory, FEW_MIB)


def is_on_threads(command: str) -> bool:
    return command in ("capture", "forward")


def cost_of(program: str, form: Form, command: str) -> tuple[Cost | None, str | None]:
    """The cost of a form, or what is wrong with its end."""
    words = words_of(program, command)
    write(form, LARGE, command)
    large = [used(words) for _ in range(3)]
    if any(status not in (0, 4) for _, _, status in large):
        return None, f"status {large[0][2]}"
    cost = Cost(
        1, statistics.median(seconds for seconds, _, _ in large), max(size for _, size, _ in large)
    )
    if is_on_threads(command):
        return cost, None
    write(form, SIZE, command)
    cost.instructions, why = work_of(words)
    return (None, why) if why else (cost, None)


ROWS = [(name, command) for name, form in FORMS.items() for command in form.commands]
known: dict[tuple[str, str, str], tuple[Cost | None, str | None]] = {}


def known_cost(program: str, name: str, command: str) -> tuple[Cost | None, str | None]:
    """The cost of a form, or what is wrong with its end; it is counted once."""
    if (program, name, command) not in known:
        known[program, name, command] = cost_of(program, FORMS[name], command)
    return known[program, name, command]


def ratios(program: str, name: str, command: str) -> tuple[tuple[float, float] | None, str | None]:
    """How many times the work and the memory of the form beside it one takes, or what is wrong
    with the end of one."""
    form = FORMS[name]
    cost, why = known_cost(program, name, command)
    beside, other = known_cost(program, form.beside, command)
    if cost is None or beside is None:
        return None, why or other
    return cost.beside(beside, form.timed or is_on_threads(command)), None


def too_dear(program: str, name: str, command: str) -> str | None:
    """What is wrong with the cost of a form, if something is."""
    found, why = ratios(program, name, command)
    if found is None:
        return why
    form = FORMS[name]
    told = f"{found[0]:.2f} times the work and {found[1]:.2f} times the memory of '{form.beside}'"
    return f"{told}, and at most {form.limit} is wanted" if max(found) > form.limit else None


def print_table(program: str) -> None:
    print("| Input | Command | Instructions, or time on threads | Memory |\n|---|---|---|---|")
    for name, command in ROWS:
        found, why = ratios(program, name, command)
        told = f"{found[0]:.2f} | {found[1]:.2f} |" if found else f"{why} | |"
        print(f"| {name} | `{command}` | {told}", flush=True)


def main() -> None:
    if len(sys.argv) != 2:
        sys.exit(__doc__)
    refuse_huge_pages()
    program = os.path.abspath(sys.argv[1])
    with tempfile.TemporaryDirectory() as room:
        os.chdir(room)
        print_table(program)
        os.chdir("/")


if __name__ == "__main__":
    main()
