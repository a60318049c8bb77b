#!/usr/bin/env python3
"""Values that the tests of made frames compare with, computed apart from them.

Each line is the path of a test and a text that must stand in it: `test_values.sh` looks for each.
"""
from __future__ import annotations

from collections.abc import Iterator

from second.frame_values import address, built

TESTS = "crates/group_tests/src/made_frames.rt"
TO = bytes.fromhex("020000000002")
FROM = bytes.fromhex("020000000001")


def draws(state: int) -> Iterator[int]:
    while True:
        state = (state * 6364136223846793005 + 1442695040888963407) % 2**64
        yield state >> 32


def made(seed: int, count: int) -> Iterator[bytes]:
    numbers = draws(seed)
    for i in range(count):
        a, b, c, d = (next(numbers) for _ in range(4))
        payload = bytes((i + j) % 256 for j in range(d % 1401))
        yield built(
            TO, FROM, i % 65536, address("10.0.0.0") + a % 65536, address("10.1.0.0") + b % 256,
            1024 + c % 4096, 53, payload
        )


def fnv(data: bytes, value: int = 0x811C9DC5) -> int:
    """FNV-1a of 32 bits."""
    for byte in data:
        value = (value ^ byte) * 0x01000193 % 2**32
    return value


def number(value: int) -> str:
    text = f"{value:08x}"
    return f"0x{text[:4]}_{text[4:]}"


if __name__ == "__main__":
    for seed, count in ((1, 20000), (2**64 - 1, 3)):
        frames = list(made(seed, count))
        whole = 0x811C9DC5
        for frame in frames:
            whole = fnv(frame, whole)
        print(f"{TESTS}\t{number(whole)}")
        if seed == 1:
            print(f"{TESTS}\t{frames[-1][:42].hex()}")
