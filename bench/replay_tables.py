"""The tables of replays, made frames and sent captures, and of how what they take grows with
their size."""
from __future__ import annotations

import os
import shutil
import sys

from bounds import too_much
from inputs import (
    FRAMES, GROUPS, MIB, PASSES_IP, RINGS, SLOT_RINGS, SLOTS, make_blocks, make_capture, make_flows,
    write_setup,
)
from measurements import COMMANDS, Asked, Found, measure, tested, total_of

GROWTH = 2.2
REFUSED = 256  # the bytes of memory that a frame may take that a filter refuses
# The pairs of sizes between which CPU time and memory are compared.
DOUBLES = {"MiB": (16, 32), "made frames": (10_000, 20_000)}


def times_of_replays(program: str, asked: Asked) -> Found:
    """Prints the table of replays, beside tcpdump where it is there, and gives their CPU times
    and memory."""
    print("\n## Replays\n")
    dump = shutil.which("tcpdump")
    if not dump:
        print("no tcpdump, so there is no ratio to it")
    print(
        "| Frames | MiB | Ring | Kept | Dropped | Time, s | CPU, s | MiB/s | Memory, MiB | To "
        "tcpdump |"
    )
    print("|---|---|---|---|---|---|---|---|---|---|")
    found: Found = {}
    for kind, lengths in FRAMES.items():
        for size in asked.all_sizes():
            count = make_capture("in.pcap", size * MIB, lengths)
            by_dump = (
                measure([dump, "-n", "-r", "in.pcap", "-w", "out.pcap"], asked.runs)[0] if dump
                else None
            )
            for ring, numbers in RINGS.items():
                write_setup("conf", numbers)
                taken, cpu, memory, printed = measure([program, *COMMANDS["replay"]], asked.runs)
                kept, drops = tested(kind, ring, count, printed)
                found[f"{kind}, ring that {ring}", size] = cpu, memory
                ratio = f"{taken / by_dump:.1f}" if by_dump else "-"
                print(
                    f"| {kind} | {size} | {ring} | {kept:,} | {drops:,} | {taken:.3f} | {cpu:.3f} "
                    f"| {size / taken:.0f}"
                    f" | {memory / MIB:.0f} | {ratio} |",
                    flush=True,
                )
    return found


def times_beside(program: str, other: str, asked: Asked) -> None:
    """Prints how long the replays of another program take and how long ours, by turns, so that
    both meet the same machine."""
    print("| Frames | MiB | Ring | Other, s | Time, s | Times | Other, CPU s | CPU, s | Times |")
    print("|---|---|---|---|---|---|---|---|---|")
    for kind, lengths in FRAMES.items():
        for size in asked.all_sizes():
            make_capture("in.pcap", size * MIB, lengths)
            for ring, numbers in RINGS.items():
                write_setup("conf", numbers)
                least: dict[str, tuple[float, float, str]] = {}
                for _ in range(asked.runs):
                    for one in (other, program):
                        taken, cpu, _, printed = measure([one, *COMMANDS["replay"]], 1)
                        before = least.get(one, (taken, cpu, printed))
                        least[one] = min(taken, before[0]), min(cpu, before[1]), printed
                (old, old_cpu, said), (new, new_cpu, says) = least[other], least[program]
                if said != says:
                    sys.exit(f"{kind}, ring that {ring}: the programs print otherwise")
                print(
                    f"| {kind} | {size} | {ring} | {old:.3f} | {new:.3f} | {new / old:.2f} | "
                    f"{old_cpu:.3f} | {new_cpu:.3f}"
                    f" | {new_cpu / old_cpu:.2f} |",
                    flush=True,
                )


def times_of_blocks(program: str, asked: Asked) -> None:
    """Prints how long replays of pcapng captures take, beside those of pcap captures of the same
    frames."""
    print("\n## pcapng beside pcap\n")
    print(
        "| Frames | MiB | pcap frames | CPU, s | Memory, MiB | pcapng frames | CPU, s | Memory, "
        "MiB | CPU of a frame, times |"
    )
    print("|---|---|---|---|---|---|---|---|---|")
    write_setup("conf", RINGS["keeps"])
    for kind, lengths in FRAMES.items():
        for size in asked.all_sizes():
            cells, each = [], []
            for make in (make_capture, make_blocks):
                count = make("in.pcap", size * MIB, lengths)
                _, cpu, memory, printed = measure([program, *COMMANDS["replay"]], asked.runs)
                kept, _ = tested(kind, "keeps", count, printed)
                cells.append(f"{kept:,} | {cpu:.3f} | {memory / MIB:.0f}")
                each.append(cpu / count)
            print(
                f"| {kind} | {size} | {' | '.join(cells)} | {each[1] / each[0]:.2f} |", flush=True
            )


def times_of_groups(program: str, asked: Asked) -> Found:
    """Prints the table of groups, and gives their CPU times and memory."""
    print("\n## Groups\n")
    print("\n| Group | MiB | CPUs | Frames | Time, s | CPU, s | MiB/s | Memory, MiB |")
    print("|---|---|---|---|---|---|---|---|")
    with open("pass.ddd", "w", encoding="ascii") as file:
        file.write(PASSES_IP)
    found: Found = {}
    runs = [(kind, size, 1) for kind in GROUPS for size in asked.all_sizes()]
    for kind, size, cpus in runs + [("hash", 4, cpus) for cpus in (1, 2, 4, 8)]:
        count = make_flows("in.pcap", size * MIB, kind)
        write_setup("conf", RINGS["keeps"], cpus, GROUPS[kind])
        taken, cpu, memory, printed = measure([program, *COMMANDS["replay"]], asked.runs)
        if cpus == 1:
            found[f"{kind} of a group", size] = cpu, memory
        kept, drops = total_of(printed)
        if drops or not kept:
            sys.exit(f"{kind}: {kept} kept, {drops} dropped")
        print(
            f"| {kind} | {size * cpus} | {cpus} | {count * cpus:,} | {taken:.3f} | {cpu:.3f} | "
            f"{size * cpus / taken:.0f}"
            f" | {memory / MIB:.0f} |",
            flush=True,
        )
    return found


def times_of_made(program: str, asked: Asked) -> Found:
    """Prints the table of made frames, and gives their CPU times and memory. The MiB are those
    of the files that are saved."""
    print("\n## Made frames\n")
    print("\n| Made | MiB | CPUs | Frames | Time, s | CPU, s | MiB/s | Memory, MiB |")
    print("|---|---|---|---|---|---|---|---|")
    found: Found = {}
    for count in (5_000, 10_000, 20_000):
        write_setup("conf", SLOTS, 2, f"priv 16\n{GROUPS['defrag']}make 1 {count}\n")
        taken, cpu, memory, printed = measure([program, "make", "conf"], asked.runs)
        found["make", count] = cpu, memory
        if total_of(printed) != (count, 0):
            sys.exit(f"make of {count} frames: {printed}")
        size = sum(os.path.getsize(f"out.{member}.pcap") for member in range(4)) / MIB
        print(
            f"| make | {size:.1f} | 2 | {count:,} | {taken:.3f} | {cpu:.3f} | {size / taken:.0f} "
            f"| {memory / MIB:.0f} |",
            flush=True,
        )
    return found


def times_of_sent(program: str, asked: Asked) -> Found:
    """Prints the table of captures that are sent, and gives their CPU times and memory."""
    print("\n## Captures that are sent\n")
    print("\n| Sent | MiB | Frames | Time, s | CPU, s | MiB/s | Memory, MiB |")
    print("|---|---|---|---|---|---|---|")
    write_setup("conf", SLOTS)
    found: Found = {}
    for kind in ("60", "1514"):
        for size in asked.all_sizes():
            count = make_capture("in.pcap", size * MIB, FRAMES[kind])
            taken, cpu, memory, printed = measure([program, "send", "conf"], asked.runs)
            found[f"{kind}, sent", size] = cpu, memory
            if printed.splitlines()[-1] != f"send sent {count} skipped 0 stop none":
                sys.exit(f"send of {count} frames: {printed}")
            print(
                f"| {kind} | {size} | {count:,} | {taken:.3f} | {cpu:.3f} | {size / taken:.0f} | "
                f"{memory / MIB:.0f} |",
                flush=True,
            )
    return found


def times_of_slots(program: str, asked: Asked) -> Found:
    """Prints the table of replays over rings of TPACKET_V2 that nobody reads, and gives their
    CPU times and memory."""
    print("\n## Rings of slots\n")
    print("\n| Frames | Slots | MiB | Kept | Dropped | Time, s | CPU, s | MiB/s | Memory, MiB |")
    print("|---|---|---|---|---|---|---|---|---|")
    found: Found = {}
    for kind, ring in SLOT_RINGS.items():
        write_setup("conf", ring)
        for size in asked.all_sizes():
            count = make_capture("in.pcap", size * MIB, FRAMES[kind])
            taken, cpu, memory, printed = measure([program, "replay2", "conf", "sched"], asked.runs)
            found[f"{kind}, slots", size] = cpu, memory
            kept = min(count, ring["frame_nr"])
            if total_of(printed) != (kept, count - kept):
                sys.exit(f"replay2 of {count} frames: {printed}")
            print(
                f"| {kind} | {ring['frame_nr']:,} | {size} | {kept:,} | {count - kept:,} | "
                f"{taken:.3f} | {cpu:.3f}"
                f" | {size / taken:.0f} | {memory / MIB:.0f} |",
                flush=True,
            )
    return found


def memory_of_refused(program: str, asked: Asked) -> list[str]:
    """Prints how memory grows where a filter refuses every frame, and gives that if it is too
    much."""
    print("\n## A filter that refuses every frame\n")
    with open("refuse.ddd", "w", encoding="ascii") as file:
        file.write("1\n6 0 0 0\n")
    write_setup("conf", RINGS["drops"], more="filter refuse.ddd\n")
    seen = []
    for size in (8, 32):
        count = make_capture("in.pcap", size * MIB, FRAMES["1514"])
        _, _, memory, _ = measure([program, *COMMANDS["replay"]], asked.runs)
        seen.append((count, memory))
    (few, small), (many, large) = seen
    each = (large - small) / (many - few)
    print(
        f"\nfilter that refuses all, from 8 to 32 MiB: {small / MIB:.1f} to {large / MIB:.1f} MiB, "
        f"{each:.0f} bytes a frame"
    )
    return [too_much("bytes of a refused frame", each, REFUSED)] if each > REFUSED else []


def growth(found: Found) -> list[str]:
    """Prints how CPU time and memory grow where the input doubles, and gives what grows too
    much."""
    print("\n## Growth\n")
    failures = []
    for unit, (half, whole) in DOUBLES.items():
        for (what, size), (cpu, memory) in found.items():
            if size == whole and (what, half) in found:
                before, small = found[what, half]
                in_time, in_memory = cpu / before, memory / small
                step = f"from {half:,} to {whole:,} {unit}, {what}"
                print(f"{step}: CPU time by {in_time:.2f}, memory by {in_memory:.2f}")
                for name, times in (("CPU time", in_time), ("memory", in_memory)):
                    if times > GROWTH:
                        failures.append(too_much(f"growth of {name} {step}", times, GROWTH))
    return failures
