#!/usr/bin/env python3
"""Works out, apart from the code, each verdict that the tests of the filter compare with.

The programs and packets are read from the test of documented codes and from the table of
filter_table; what an instruction does is written down here once more, from the documented
meaning of its code. A difference is printed, and fails.
"""
from __future__ import annotations

import re
import sys
from collections.abc import Callable, Iterator
from pathlib import Path

TEST = "crates/group_tests/src/documented_codes.rt"
TABLE = "crates/filter_table/stdin"
ANSWERS = "crates/filter_table/stdout"
WORD = 2**32

Program = list[tuple[int, ...]]  # instructions, each with its code, jt, jf and k
# a program, a packet, the verdict that is expected, and a name
Row = tuple[Program, "Packet", int, str]

OPERATIONS: dict[int, Callable[[int, int], int | None]] = {
    0x00: lambda a, b: (a + b) % WORD,
    0x10: lambda a, b: (a - b) % WORD,
    0x20: lambda a, b: (a * b) % WORD,
    0x30: lambda a, b: a // b if b else None,
    0x40: lambda a, b: a | b,
    0x50: lambda a, b: a & b,
    0x60: lambda a, b: (a << b) % WORD if b < 32 else 0,
    0x70: lambda a, b: a >> b if b < 32 else 0,
    0x90: lambda a, b: a % b if b else None,
    0xA0: lambda a, b: a ^ b,
}
TESTS: dict[int, Callable[[int, int], bool]] = {
    0x10: lambda a, b: a == b,
    0x20: lambda a, b: a > b,
    0x30: lambda a, b: a >= b,
    0x40: lambda a, b: a & b != 0,
}
SIZES = {0x00: 4, 0x08: 2, 0x10: 1}


class Packet:
    """What a filter sees: the captured bytes, the length on the wire, and numbers by their
    ancillary offset."""

    def __init__(self, data: bytes, wire: int, facts: dict[int, int] | None = None) -> None:
        self.data, self.wire, self.facts = data, wire, facts or {}

    def read(self, place: int, size: int) -> int | None:
        return (
            int.from_bytes(self.data[place:place + size], "big") if place + size <= len(self.data)
            else None
        )

    def load(self, code: int, place: int, x: int) -> int | None:
        """The number of a load that isn't from the memory words, or None past the bytes."""
        mode, size = code & 0xE0, SIZES[code & 0x18]
        if mode == 0x00:
            return place
        if mode == 0x80:
            return self.wire
        if mode == 0xA0:
            byte = self.read(place, 1)
            return None if byte is None else 4 * (byte & 15)
        if mode == 0x40:
            return self.read(x + place, size)
        return self.facts.get(place - 0xFFFFF000, self.read(place, size))


def verdict(code: Program, packet: Packet) -> int:
    """What a program answers to a packet: how many of its bytes are kept, or 0."""
    a, x, memory, at = 0, 0, [0] * 16, 0
    while True:
        number, jt, jf, k = code[at]
        kind, operand = number & 7, x if number & 8 else k
        at += 1
        if kind in (0, 1):
            value = memory[k] if number & 0xE0 == 0x60 else packet.load(number, k, x)
            if value is None:
                return 0
            a, x = (value, x) if kind == 0 else (a, value)
        elif kind in (2, 3):
            memory[k] = a if kind == 2 else x
        elif kind == 4:
            a = -a % WORD if number == 0x84 else OPERATIONS[number & 0xF0](a, operand)
            if a is None:
                return 0
        elif kind == 5:
            at += k if number == 5 else jt if TESTS[number & 0xF0](a, operand) else jf
        elif kind == 6:
            return a if number == 0x16 else k
        elif number == 0x07:
            x = a
        else:
            a = x


def program(text: str) -> Program:
    """The instructions of a text as tcpdump -ddd prints it."""
    return [tuple(map(int, line.split())) for line in text.splitlines()[1:]]


def test_rows() -> Iterator[Row]:
    """The rows of the test's table: program, packet, what is expected, and a name."""
    source = Path(TEST).read_text(encoding="utf-8")
    start = source.index("static VERDICTS")
    table = source[start:source.index("];", start)]
    count = int(re.findall(r"; (\d+)\] =", table)[0])
    rows = re.findall(r'"([^"]*)",\s*(\d+),?\s*\)', table)
    if len(rows) != count:
        sys.exit(f"{TEST}: {len(rows)} of {count} rows were read")
    facts = {0: 0x0806, 4: 2, 8: 1, 24: 70001, 28: 1, 32: 0x51CCC178, 36: 5}
    packet = Packet(bytes.fromhex("123456789abcdef0"), 1500, facts)
    for text, expected in rows:
        yield program(text.replace("\\n", "\n")), packet, int(expected), f"{TEST}: {text}"


def table_rows() -> Iterator[Row]:
    """The same of the table, in which each program is run on each frame."""
    packets: list[Packet] = []
    answers = iter(Path(ANSWERS).read_text(encoding="ascii").splitlines())
    places = (0, 4, 24, 32, 36)
    text, name = "", ""
    for line in Path(TABLE).read_text(encoding="ascii").splitlines():
        word, _, rest = line.partition(" ")
        if word == "frame":
            wire, _, data = rest.partition(" ")
            packets.append(Packet(bytes.fromhex(data), int(wire)))
        elif word == "facts":
            facts = {8: 1, 28: 1, **dict(zip(places, map(int, rest.split())))}
            packets = [Packet(packet.data, packet.wire, facts) for packet in packets]
        elif word == "filter":
            text, name = "", rest
        elif line == "end":
            expected = next(answers)[len(name) + 1:].split()
            for number, packet in enumerate(packets):
                yield program(text), packet, int(
                    expected[number]
                ), f"{TABLE}: frame {number}, {name}"
        else:
            text += line + "\n"


def main() -> None:
    differences = 0
    for code, packet, expected, name in [*test_rows(), *table_rows()]:
        found = verdict(code, packet)
        if found != expected:
            print(f"{name}: {found}, and not {expected}")
            differences += 1
    sys.exit(differences != 0)


if __name__ == "__main__":
    main()
