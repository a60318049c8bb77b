"""Whether schedules without what can do nothing give the runs of whole ones.

Captures of the repository and made ones, with silences and bursts, are replayed by a schedule of
tools/schedule.py and by one that has every tick and every step of the readers, made here from
the moments alone. Printed lines, captures and dumps have to be the same byte for byte.
"""
from __future__ import annotations

import itertools
import random
import struct
from collections.abc import Iterator, Sequence
from fractions import Fraction
from pathlib import Path


import pytest

import running
from places import TOP
from second.capture_bytes import header, record
from second.hash_values import KEY
from ringtap_tools.captures import CaptureStream
from ringtap_tools.clock import Pace, Shape
from ringtap_tools.schedule import Fed, feeds, schedule_of
from tools.here import Here

MS = 1_000_000
LARGEST = 1_048_576


def whole(fed: Fed, pace: Pace, shape: Shape) -> str:
    """Every tick, step and count up to the last frame, in the order of docs/tools.md."""
    events = [(time, 1, f"feed {cpu}\n") for time, cpu in zip(fed.times, fed.cpus)]
    every = shape.timeout if pace.tick is None else pace.tick
    if every:
        for label in itertools.count(every, every):
            now = label * MS - int(pace.phase * MS) % (every * MS)
            if now > fed.end:
                break
            events.append((now, 0, f"tick {label}\n"))
    period, steps = None, 1
    if pace.blocks:
        period = Fraction(1000 * MS) / pace.blocks
    elif pace.bytes:
        period = Fraction(1000 * MS * shape.block_size) / pace.bytes
    elif pace.pause:
        period, steps = pace.pause * MS, shape.block_nr
    if period:
        lines = "".join(steps * f"read {member}\n" for member in range(shape.members))
        begin = 0 if pace.begin is None else int(pace.begin * MS)
        for number in itertools.count(pace.begin is None):
            now = begin + int(number * period)
            if now > fed.end:
                break
            if not any(start * MS <= now < (start + length) * MS for start, length in pace.stalls):
                events.append((now, 2, lines))
    if pace.stats:
        for number in itertools.count(1):
            now = int(number * pace.stats * 1000 * MS)
            if now > fed.end:
                break
            events.append((now, 3, "".join(f"stats {member}\n" for member in range(shape.members))))
    events.sort(key=lambda event: event[:2])
    return "".join(text for _, _, text in events)


def frame(draw: random.Random, number: int) -> bytes:
    """A UDP datagram between hosts and ports of few, or something else."""
    size = draw.choice([0, 18, 18, 200, 600, 1400])
    if draw.random() < 0.1:
        return bytes(12) + b"\x88\xb5" + bytes(size)
    head = struct.pack(">BBHHHBBH", 0x45, 0, 28 + size, number & 0xFFFF, 0, 64, 17, 0)
    ports = struct.pack(">HHHH", draw.randrange(1000, 1008), 53, 8 + size, 0)
    return (
        bytes(12) + b"\x08\x00" + head + bytes([10, 0, 0, draw.randrange(4), 10, 1, 0, 1]) + ports
        + bytes(size)
    )


def made(path: Path, draw: random.Random, count: int) -> Path:
    """A capture of bursts and silences, a few frames of which go back in time."""
    time, parts = 5_000_000, [header()]
    for number in range(count):
        time += draw.choice([0, 0, 1, 50, 300, 2_000, 2_000, 20_000, 90_000, 700_000, -400])
        parts.append(record(frame(draw, number), sec=time // 1_000_000, fraction=time % 1_000_000))
    path.write_bytes(b"".join(parts))
    return path


def paces(draw: random.Random) -> Pace:
    """A pace of each kind, of which some have the whole schedule only as often as a silence asks
    for it."""
    reader = draw.choice(
        [
            {}, {"blocks": Fraction(draw.choice([3, 40, 900]))},
            {"bytes": Fraction(draw.choice([9_000, 400_000]))},
            {"pause": Fraction(draw.choice([1, 15, 400]))}, {"pause": Fraction(7)}
        ]
    )
    stalls = (
        (Fraction(draw.randrange(500)), Fraction(draw.randrange(1, 900))),
    ) * draw.choice([0, 1]) if reader else ()
    return Pace(
        speed=Fraction(draw.choice([1, 1, 3])),
        tick=draw.choice([None, None, None, 0, 1, 3, 10, 250]),
        phase=Fraction(draw.choice([0, 0, 3, 77])), stalls=stalls,
        stats=Fraction(draw.choice(["0", "0", "0.05"])),
        begin=draw.choice([None, Fraction(0), Fraction(11)]) if reader else None, **reader,
    )


def setups(draw: random.Random, names: Sequence[Path]) -> tuple[str, Shape, str]:
    """The lines of a setup for captures, its shape, and the command."""
    is_v2 = draw.random() < 0.2
    size, count, timeout, members = (
        draw.choice([4096, 8192]), draw.choice([2, 3, 5, 16]), draw.choice([1, 8, 20, 100]),
        draw.choice([1, 1, 2, 3])
    )
    mode = draw.choice(["cpu", "hash", "lb", "rollover", "qm"])
    lines = [
        f"block_size {size}", f"block_nr {count}", "frame_size 2048",
        f"frame_nr {size // 2048 * count}", f"tov {0 if is_v2 else timeout}", f"members {members}",
        f"mode {mode}", f"key {KEY}", "dump yes", *(f"cpu {name}" for name in names)
    ]
    lines += ["flag rollover"] * (mode != "rollover" and draw.random() < 0.3) + ["flag defrag"] * (
        draw.random() < 0.2
    )
    shape = Shape(members, 2048, size // 2048 * count, None) if is_v2 else Shape(
        members, size, count, timeout
    )
    return "\n".join(lines) + "\n", shape, "replay2" if is_v2 else "replay"


def outcome(
    here: Here, command: str, setup: str, schedule: str, prefix: str
) -> tuple[str, int, dict[str, bytes]] | str | None:
    """What a run prints and saves."""
    here.text("setup", setup + f"out {prefix}\n")
    here.text("schedule", schedule)
    done, why = running.run([here.program, command, "setup", "schedule"], cwd=here.path, text=True)
    files = {
        path.name.removeprefix(prefix): path.read_bytes()
        for path in sorted(here.path.glob(f"{prefix}.*"))
    }
    for path in here.path.glob(f"{prefix}.*"):
        path.unlink()
    return (done.stdout, done.returncode, files) if done else why


OURS = sorted([TOP / "demo/lo.pcap", *(TOP / "demo/expected").rglob("*.pcap")])


def captures_of(here: Here, draw: random.Random) -> Iterator[list[Path]]:
    """Each capture of the repository, and then made ones, of which some runs have two."""
    captures = [
        made(here.path / f"made{number}.pcap", draw, draw.choice([1, 3, 40, 200]))
        for number in range(12)
    ]
    yield from ([path] for path in OURS)
    while True:
        yield draw.choices(captures, k=draw.choice([1, 1, 2]))


@pytest.mark.parametrize("part", range(4))
def test_as_whole_schedules(part: int, here: Here) -> None:
    """Fifty runs that are drawn from the number of the part; most schedules become shorter."""
    draw = random.Random(part)
    compared = shorter = 0
    for case, names in enumerate(itertools.islice(captures_of(here, draw), 50)):
        setup, shape, command = setups(draw, names)
        pace = paces(draw)
        fed = feeds(map(CaptureStream, names), pace)
        full = whole(fed, pace, shape)
        if len(full) > LARGEST:
            continue
        brief = schedule_of(fed, pace, shape)
        compared += 1
        shorter += len(brief) < len(full)
        assert len(brief) <= len(full), f"case {case}"
        shortly = outcome(here, command, setup, brief, "brief")
        assert shortly == outcome(here, command, setup, full, "full"), f"case {case}: {pace}"
    assert compared >= 25 and shorter >= compared // 2


def test_a_long_silence(here: Here) -> None:
    """Frames of a year apart: a schedule as long as a silence would never end."""
    apart = made(here.path / "apart.pcap", random.Random(7), 3)
    apart.write_bytes(apart.read_bytes() + record(bytes(60), sec=40_000_000, fraction=0))
    fed = feeds([CaptureStream(apart)], Pace())
    long = schedule_of(fed, Pace(pause=Fraction(1)), Shape(1, 4096, 2, 8))
    assert len(long.split("\n")) <= 40
