#!/usr/bin/env python3
"""Counts what an executed instruction of a filter costs in ringtap and in libpcap's
`bpf_filter`, in the processor's instructions.

    bench/filters.py [PROGRAM]

PROGRAM is crates/filter_table/out/filter_table, which runs the filters that it reads on the
frames that it reads, and is built where it isn't there. Each filter runs on one frame, again and
again: `tcp port 80 and host 10.0.0.1` as tcpdump compiles it, and programs of 4,096 instructions
without a jump, once additions alone and once one of each kind by turns. Of both it is what 1,000
runs take more than 500, and more than those of a filter that returns at once, so that reading,
checking, starting and printing cancel. It needs valgrind, a C compiler and libpcap's headers. It
ends with status 1 where ringtap takes more than MOST times libpcap's instructions.
"""
from __future__ import annotations

import os
import shutil
import subprocess
import sys
import tempfile
from collections.abc import Callable, Sequence

from bounds import too_much

TOP = os.path.join(os.path.dirname(os.path.abspath(__file__)), "..")
CRATE = os.path.join(TOP, "crates", "filter_table")
PROGRAM = os.path.join(CRATE, "out", "filter_table")
MOST = 1.5
FEW, MANY = 500, 1_000
STRAIGHT = 4_096
# TCP of IPv4 from 10.0.0.2, port 1234, to 10.0.0.1, port 80.
FRAME = bytes.fromhex(
    "020000000002"
    "020000000001"
    "0800"
    "4500002800010000"
    "40060000"
    "0a000002"
    "0a000001"
    "04d20050"
    "00000000"
    "00000000"
    "50000000"
    "00000000"
)
# What `tcpdump -y EN10MB -ddd 'tcp port 80 and host 10.0.0.1'` writes (libpcap 1.10).
TCP = """18
40 0 0 12
21 15 0 34525
21 0 14 2048
48 0 0 23
21 0 12 6
40 0 0 20
69 10 0 8191
177 0 0 14
72 0 0 14
21 2 0 80
72 0 0 16
21 0 5 80
32 0 0 26
21 2 0 167772161
32 0 0 30
21 0 1 167772161
6 0 0 262144
6 0 0 0
"""
# A filter that returns at once.
RETURNS = "1\n6 0 0 262144\n"
# ldh [12], and, add k, st, ld M[], jeq to the next instruction either way, tax, add x.
KINDS = [(0x28, 12), (0x54, 255), (0x04, 7), (0x02, 3), (0x60, 3), (0x15, 5), (0x07, 0), (0x0C, 0)]


def straight(kinds: Sequence[tuple[int, int]]) -> str:
    """A program of STRAIGHT instructions of these kinds by turns, the last of which keeps the
    packet."""
    lines = [
        f"{code} 0 0 {k}" for code, k in (kinds[at % len(kinds)] for at in range(STRAIGHT - 1))
    ]
    return "\n".join([str(STRAIGHT), *lines, "6 0 0 262144", ""])


# Each filter, and how many of its instructions are executed on FRAME: of TCP all but the last,
# since the frame comes from another host than the one that the filter names, and goes to that.
FILTERS = {
    "tcp port 80 and host": (TCP, 17),
    "4,096 additions": (straight([(0x04, 1)]), STRAIGHT),
    "4,096, of each kind": (straight(KINDS), STRAIGHT),
}


def count_of(words: list[str], lines: str | None = None) -> int:
    """The instructions of a run as valgrind counts them, which reads these lines."""
    tool = ["valgrind", "--tool=callgrind", "--callgrind-out-file=/dev/null"]
    ran = subprocess.run([*tool, *words], input=lines, capture_output=True, text=True, check=True)
    return next(
        int(line.split()[-1].replace(",", ""))
        for line in ran.stderr.splitlines() if "Collected" in line
    )


def count_of_ours(program: str, text: str, count: int) -> int:
    """The instructions of ringtap for so many runs of a filter, with all that it takes to come
    to them."""
    frames = f"frame {len(FRAME)} {FRAME.hex()}\n" * count
    return count_of([program], f"{frames}filter it\n{text}end\n")


def count_of_theirs(plain: str, text: str, count: int) -> int:
    """The same of libpcap."""
    with open("filter.ddd", "w", encoding="ascii") as file:
        file.write(text)
    return count_of([plain, "filter.ddd", FRAME.hex(), str(count)])


def cost(counted: Callable[[str, str, int], int], program: str, text: str, executed: int) -> float:
    """The instructions for each instruction of a filter but the last, which returns."""
    more = [counted(program, one, MANY) - counted(program, one, FEW) for one in (text, RETURNS)]
    return (more[0] - more[1]) / (MANY - FEW) / (executed - 1)


def built_plain() -> str | None:
    """Builds the program in C, or says what is missing, and gives its path."""
    compiler = shutil.which("cc") or shutil.which("gcc")
    if not compiler or not shutil.which("valgrind"):
        print("\nno C compiler or no valgrind, so no filter is compared with libpcap")
        return None
    plain = os.path.abspath("plain_filter")
    ran = subprocess.run(
        [compiler, "-O2", "-o", plain, os.path.join(TOP, "bench", "plain_filter.c"), "-lpcap"],
        capture_output=True, text=True
    )
    if ran.returncode:
        print("\nlibpcap's headers aren't there, so no filter is compared with libpcap")
        return None
    return plain


def costs_of_filters(program: str = PROGRAM) -> list[str]:
    """Prints the table of filters in the present folder, and gives those that take too much."""
    print("\n## Filters beside libpcap\n")
    plain = built_plain()
    if not plain:
        return []
    if not os.path.exists(program):
        subprocess.run(
            ["rt", "run"], cwd=CRATE, stdin=subprocess.DEVNULL, stdout=subprocess.DEVNULL,
            check=True
        )
    print(
        "| Filter | Instructions of it executed | ringtap, for each | libpcap, for each | Times |"
    )
    print("|---|---|---|---|---|")
    failures = []
    for name, (text, executed) in FILTERS.items():
        ours, theirs = cost(count_of_ours, program, text, executed), cost(
            count_of_theirs, plain, text, executed
        )
        if ours > MOST * theirs:
            failures.append(too_much(f"filter to libpcap, {name}", ours / theirs, MOST))
        print(
            f"| {name} | {executed:,} | {ours:.1f} | {theirs:.1f} | {ours / theirs:.2f} |",
            flush=True
        )
    return failures


def main() -> None:
    program = os.path.abspath(sys.argv[1]) if sys.argv[1:] else PROGRAM
    with tempfile.TemporaryDirectory() as room:
        os.chdir(room)
        failures = costs_of_filters(program)
        os.chdir(TOP)
    for failure in failures:
        print(failure)
    sys.exit(1 if failures else 0)


if __name__ == "__main__":
    main()
