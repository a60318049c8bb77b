"""The tools' own model beside the program: random groups, with and without rollover, slots and
ticks."""
from __future__ import annotations

import random
from fractions import Fraction

import pytest

from second.hash_values import KEY
from ringtap_tools.clock import Pace
from ringtap_tools.files import read_setup
from ringtap_tools.runs import Room
from ringtap_tools.search import Model
from ringtap_tools.trials import ROLLOVER, Ring
from ringtap_tools.schedule import feeds, schedule_of, shape_of
from tools.here import Here, datagram_between

GROUPS = 16


def traffic(draw: random.Random) -> list[tuple[int, bytes]]:
    """Datagrams in bursts and pauses."""
    time, frames = 0, []
    for _ in range(draw.randint(0, 120)):
        time += draw.choice([0, 0, 0, 0, 0, 1, 100, 500, 1000, 2000, 3000, 20_000])
        ends = [(draw.randrange(1, 6), draw.choice([53, 1000, 2000])) for _ in range(2)]
        frames.append((time, datagram_between(*ends, draw.choice([10, 60, 500, 1400]))))
    return frames


def setup_of(draw: random.Random, here: Here) -> None:
    blocks, size, cpus = draw.randint(2, 6), draw.choice([4096, 8192]), draw.randint(1, 3)
    mode = draw.choice(["hash", "lb", "cpu", "qm", "rollover"])
    lines = [
        f"block_size {size}", f"block_nr {blocks}", "frame_size 2048",
        f"frame_nr {size // 2048 * blocks}", f"members {draw.randint(1, 3)}", f"mode {mode}",
        f"key {KEY}",
    ]
    lines += ["flag rollover"] * (mode != "rollover" and draw.random() < 0.3)
    for cpu in range(cpus):
        here.capture(f"{cpu}.pcap", traffic(draw))
        lines.append(f"cpu {here.path / str(cpu)}.pcap {draw.randrange(4)}")
    here.text("group.txt", "\n".join(lines) + "\n")


def pace_of(draw: random.Random, every: int) -> Pace:
    readers = [
        {}, {"blocks": Fraction(333)}, {"pause": Fraction(5, 2)}, {"bytes": Fraction(409_600)},
        {"poll": Fraction(7)},
    ]
    reader = draw.choice(readers)
    stalls = ()
    if reader and draw.random() < 0.6:
        stalls = ((Fraction(draw.randrange(100)), Fraction(draw.randrange(1, 100))),)
    phase, tick = Fraction(draw.randrange(every)), draw.choice([None, None, 5, 11])
    begin = draw.choice([None, Fraction(0), Fraction(4)])
    return Pace(phase=phase, stalls=stalls, tick=tick, begin=begin, **reader)


@pytest.mark.parametrize("seed", range(GROUPS))
def test_group(seed: int, here: Here) -> None:
    draw = random.Random(seed)
    setup_of(draw, here)
    setup, is_v2 = read_setup(here.path / "group.txt"), draw.random() < 0.2
    pace = pace_of(draw, 5)
    mode = setup.word("mode") + ROLLOVER * ("rollover" in setup.flags)
    sizes = [setup.number(word) for word in ("block_size", "block_nr", "frame_size")]
    ring = Ring(mode, setup.number("members"), 0, *sizes, is_v2)
    with Room(setup, here.program) as room:
        fed = feeds(room.streams(), pace)
        model = Model(room, fed, pace)
        courses = model.courses(ring, pace.phase)
        reads = [course.reads for course in courses] if pace.poll is not None else None
        schedule = schedule_of(fed, pace, shape_of(setup, is_v2), reads)
        (room.folder / "schedule").write_text(schedule)
        room.write_setup("setup", {"out": "out"})
        report = room.replay("setup", "schedule", "replay2" if is_v2 else "replay")
    printed = [(one.packets, one.drops, one.freezes, one.blocks) for one in report.members]
    assert [course.counts() for course in courses] == printed
