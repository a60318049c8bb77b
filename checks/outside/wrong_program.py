"""A program that is wrong in one thing: it runs another one, and changes what comes of it.

    wrong_program.py IDEA PROGRAM WORDS ..
"""
from __future__ import annotations

import re
import subprocess
import sys
from collections.abc import Callable, Iterator
from pathlib import Path
from typing import NamedTuple


class Ended(NamedTuple):
    """What comes of a run: its lines, its status, and its files."""

    lines: str
    status: int
    files: dict[str, bytes]


def counted(pattern: str, by: int) -> Callable[[Ended], Ended]:
    """The number after a word of a line is another one."""

    def change(ended: Ended) -> Ended:
        lines = re.sub(
            pattern, lambda found: found[1] + str(max(int(found[2]) + by, 0)), ended.lines, count=1,
            flags=re.M
        )
        return ended._replace(lines=lines)

    return change


def refiled(change: Callable[[bytes], bytes], ending: str = ".pcap") -> Callable[[Ended], Ended]:
    """Each file of a kind has other bytes."""
    return lambda ended: ended._replace(
        files={
            name: change(data) if name.endswith(ending) else data for name,
            data in ended.files.items()
        }
    )


def renamed(ended: Ended) -> Ended:
    return ended._replace(
        files={name.replace(".0.", ".1."): data for name, data in ended.files.items()}
    )


def records(data: bytes) -> Iterator[bytes]:
    """The records of a saved capture, each with its header."""
    at = 24
    while at < len(data):
        size = 16 + int.from_bytes(data[at + 8 : at + 12], "little")
        yield data[at : at + size]
        at += size


def without_last_record(data: bytes) -> bytes:
    return data[:24] + b"".join(list(records(data))[:-1])


def first_record_last(data: bytes) -> bytes:
    found = list(records(data))
    return data[:24] + b"".join(found[1:] + found[:1])


def in_microseconds(data: bytes) -> bytes:
    """Times without the digits behind the microsecond, and one less."""
    return data[:24] + b"".join(
        one[:4] + (
            int.from_bytes(one[4:8], "little") // 1000 * 1000 + 1
        ).to_bytes(4, "little") + one[8:]
        for one in records(data)
    )


IDEAS: dict[str, Callable[[Ended], Ended]] = {
    "a packet counted twice": counted(r"^(member 0 packets )(\d+)", 1),
    "a drop not counted": counted(r"^(member 0 .* drops )(\d+)", -1),
    "a freeze more": counted(r"^(member 0 .* freezes )(\d+)", 1),
    "a frame less at a CPU": counted(r"^(cpu 0 frames )(\d+)", -1),
    "a block not counted": counted(r"^(member 0 .* blocks )(\d+)", -1),
    "a total that is one too many": counted(r"^(total .* kept )(\d+)", 1),
    "a file under another name": renamed, "a lost last record": refiled(without_last_record),
    "the first record last": refiled(first_record_last),
    "times in microseconds": refiled(in_microseconds),
    "a lost last piece of a dump": refiled(lambda data: data[:-48], ".blk"),
    "a block of another status": refiled(lambda data: data[:8] + b"\x21" + data[9:], ".blk"),
    "a hidden fault": lambda ended: ended._replace(
        lines=ended.lines.replace("end fault", "end ok"), status=0
    ),
    "a fault of a save as success": lambda ended: ended._replace(
        status=0 if ended.status == 6 else ended.status
    ),
    "the line after the wrong one": counted(r"^(setup line )(\d+)", 1),
    "a line more": lambda ended: ended._replace(lines=ended.lines + "\n"),
}

# The same of ringsize.
SIZE_IDEAS: dict[str, Callable[[Ended], Ended]] = {
    "a block too few": counted(r"^(group blocks )(\d+)", -1),
    "a block too many for a member": counted(r"^(member 0 blocks )(\d+)", 1),
    "a phase that isn't the first": counted(r"^(member 0 blocks .* phase )(\d+)", 1),
    "a beginning that isn't the first": counted(r"^(member 0 blocks .* from )(\d+)", 1),
    "a drop not counted at the worst": counted(r"^(member 0 drops .* most )(\d+)", -1),
    "a drop at the best": counted(r"^(member 0 drops least )(\d+)", 1),
    "a drop of all at the best": counted(r"^(total drops least )(\d+)", 1),
    "an arrival not counted": counted(r"^(cpu 0 .* arrivals )(\d+)", -1),
    "damage as success": lambda ended: ended._replace(status=0),
}


def main(idea: str, words: list[str]) -> int:
    before = {path: path.stat().st_mtime_ns for path in Path().iterdir()}
    done = subprocess.run(words, stdout=subprocess.PIPE, check=False)
    new = [
        path
        for path in Path().iterdir()
        if path.is_file() and before.get(path) != path.stat().st_mtime_ns
    ]
    ended = (IDEAS | SIZE_IDEAS)[idea](
        Ended(done.stdout.decode(), done.returncode, {path.name: path.read_bytes() for path in new})
    )
    for path in new:
        path.unlink()
    for name, data in ended.files.items():
        Path(name).write_bytes(data)
    sys.stdout.write(ended.lines)
    return ended.status


if __name__ == "__main__":
    sys.exit(main(sys.argv[1], sys.argv[2:]))
