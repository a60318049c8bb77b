#!/usr/bin/env python3
"""Makes the dumps and images of this folder anew, by the program that is named: make.py RINGTAP
[FOLDER]."""
from __future__ import annotations

import struct
import subprocess
import sys
from pathlib import Path

HERE = Path(__file__).resolve().parent
TOOLS = HERE.parent.parent / "tools"
RING = "block_size 4096\nblock_nr {}\nframe_size 2048\nframe_nr {}\n"


def frame(number: int, size: int = 60, tag: bytes = b"") -> bytes:
    return (bytes(12) + tag + b"\x88\xb5" + number.to_bytes(4, "big")).ljust(size, b"\0")


def capture(frames: list[bytes]) -> bytes:
    head = struct.pack("<IHHiIII", 0xA1B2C3D4, 2, 4, 0, 0, 262_144, 1)
    records = [
        struct.pack("<IIII", 1000, number, len(data), len(data)) + data
        for number, data in enumerate(frames)
    ]
    return head + b"".join(records)


PLAIN = [frame(number) for number in range(100)]
TAGGED = [frame(number, 64, b"\x81\x00\xa0\x2a") for number in range(3)] + [frame(3)]
# Frames, blocks, lines of the setup, the schedule, and the moment of the image: handed over and
# given back.
CASES: dict[str, tuple[list[bytes], int, str, str, int, int]] = {
    "full": (PLAIN[:60], 4, "", "", 2, 0),
    "timeout": (PLAIN[:5], 4, "", "feed 0\n" * 5 + "tick 8\n", 1, 0),
    "losing": (PLAIN, 2, "", "feed 0\n" * 60 + "read 0\nread 0\n" + "feed 0\n" * 40, 3, 2),
    "tags": (TAGGED, 4, "", "", 1, 0),
    "private": (PLAIN[:5], 4, "priv 100\n", "", 1, 0),
    "cut": ([frame(0, 5000)], 4, "", "", 1, 0),
    "slots": (PLAIN[:6], 2, "", "", 3, 1),
}


def make(program: Path, folder: Path, name: str) -> None:
    frames, blocks, more, schedule, at, back = CASES[name]
    (folder / f"{name}.pcap").write_bytes(capture(frames))
    setup = RING.format(blocks, 2 * blocks) + f"{more}cpu {name}.pcap\nout {name}\ndump yes\n"
    (folder / f"{name}.txt").write_text(setup)
    (folder / f"{name}.sched").write_text(schedule)
    command = "replay2" if name == "slots" else "replay"
    words = [program, command, f"{name}.txt", f"{name}.sched"]
    subprocess.run(words, cwd=folder, check=True, stdout=subprocess.DEVNULL)
    (folder / f"{name}.0.pcap").unlink()
    (folder / f"{name}.0.blk").replace(folder / f"{name}.blk")
    words = [sys.executable, "-B", TOOLS / "blocks.py", f"{name}.blk", "--setup", f"{name}.txt"]
    words += ["--mapped", f"{name}.image", "--at", str(at), "--read", str(back)]
    subprocess.run(words, cwd=folder, check=True)


if __name__ == "__main__":
    for each in CASES:
        make(Path(sys.argv[1]).resolve(), Path(sys.argv[2] if len(sys.argv) > 2 else HERE), each)
