#!/usr/bin/env python3
"""The cases of fanout groups."""
from __future__ import annotations

from kernel.cases import BIG, feeds, slots
from kernel.filter_cases import ALL, W, jump, ld, ret
from kernel.frames import ethernet, udp
from kernel.plans import V2, Case, Feed, Read, Stats, Step, Tick
Steps = tuple[Step, ...]
FOUR = (0, 1, 2, 3)
DEFRAG, ROLLOVER = frozenset(("defrag",)), frozenset(("rollover",))


def on_cpus(count: int, cpus: int, size: int = 300, step: int = 7) -> Steps:
    """Frames, each on the next CPU."""
    return tuple(Feed(ethernet(size + step * at, at), at % cpus) for at in range(count))


def with_all(members: int, step: type) -> Steps:
    return tuple(step(member) for member in range(members))


def in_turn() -> list[Case]:
    drops_each_third = (ld(W, 20), (0x94, 0, 0, 3), jump("jeq", 0, 1, 0), ret(ALL), ret(0))
    full = feeds(*[BIG] * 18)
    return [
        Case(
            "lb_two", "mode lb gives the frames in turn", feeds(*range(100, 1000, 90)), members=2,
            mode="lb", rows=("fanout mode lb",)
        ),
        Case(
            "lb_three", "three members in turn", feeds(*range(100, 1000, 70)), members=3, mode="lb"
        ),
        Case("lb_eight", "eight in turn", feeds(*range(100, 1500, 70)), members=8, mode="lb"),
        Case(
            "lb_filtered", "a frame that doesn't pass has drawn its turn all the same",
            feeds(*range(100, 1000, 30)), members=3, mode="lb", program=drops_each_third
        ),
        Case(
            "lb_freeze", "each ring freezes and drops by itself",
            full + (Read(1), Read(1)) + feeds(*[BIG] * 8, start=30) + with_all(3, Stats), members=3,
            mode="lb"
        ),
        Case(
            "lb_slots", "the same over slots", feeds(*range(100, 1500, 60)) + with_all(3, Stats),
            V2, members=3, mode="lb"
        ),
    ]


def by_cpu() -> list[Case]:
    big = tuple(Feed(ethernet(BIG, at), at % 3 % 2) for at in range(15))
    return [
        Case("cpu_two", "mode cpu with two members", on_cpus(16, 2), members=2, cpus=(0, 1)),
        Case("cpu_four", "four CPUs with a member each", on_cpus(24, 4), members=4, cpus=FOUR),
        Case("cpu_modulo", "more CPUs than members", on_cpus(24, 4), members=3, cpus=FOUR),
        Case("cpu_fewer", "more members than CPUs", on_cpus(12, 2), members=4, cpus=(0, 1)),
        Case(
            "cpu_freeze", "a ring freezes and the others don't", big + with_all(2, Stats),
            members=2, cpus=(0, 1)
        ),
        Case(
            "cpu_time_out", "time-outs of all rings of a group",
            on_cpus(7, 2) + (Tick(),) + on_cpus(4, 2, 60) + (Tick(),), members=2, cpus=(0, 1)
        ),
        Case("cpu_slots", "mode cpu over slots", on_cpus(14, 4), V2, members=4, cpus=FOUR),
        Case(
            "qm_two", "mode qm goes by the queue", on_cpus(16, 4), members=2, mode="qm", cpus=FOUR
        ),
        Case("qm_three", "three members by queue", on_cpus(16, 4), members=3, mode="qm", cpus=FOUR),
        Case("qm_slots", "mode qm over slots", on_cpus(14, 4), V2, members=3, mode="qm", cpus=FOUR),
    ]


def others() -> list[Case]:
    flows = tuple(
        Feed(udp((f"10.0.0.{at}", at), ("10.1.1.1", 53), 50 + at, at))
        for at in range(10)
    )
    back = feeds(*range(100, 1100, 90)) + (Read(),) * 3 + feeds(*range(100, 400, 90), start=30)
    both = (Stats(0), Stats(1))
    turns = feeds(*range(100, 900, 70)) + (Read(),) * 3 + feeds(*range(100, 400, 70), start=30)
    return [
        Case("hash_one", "mode hash with one member", flows, mode="hash", flags=DEFRAG),
        Case(
            "rollover_mode_one", "mode rollover with one member freezes and drops as a ring alone",
            feeds(*[BIG] * 7) + (Read(),) + feeds(*[BIG] * 3, start=9), mode="rollover",
            flags=DEFRAG
        ),
        Case(
            "rollover_mode_start", "mode rollover begins at member 0", feeds(*range(100, 700, 90)),
            V2, slots(16), members=3, mode="rollover"
        ),
        Case(
            "rollover_slots",
            "with rings of slots a frame whose own ring is full goes to the next member",
            feeds(*range(100, 1300, 90)), V2, slots(8), members=3, flags=ROLLOVER
        ),
        Case(
            "rollover_back", "once its own ring has room again it goes there", back, V2, slots(8),
            members=3, flags=ROLLOVER
        ),
        Case(
            "rollover_full", "where every ring of slots is full a packet is dropped at its own",
            feeds(*range(60, 75)) + both, V2, members=2, mode="lb", flags=ROLLOVER
        ),
        Case(
            "rollover_lb", "mode lb with the flag rollover", turns, V2, slots(16), members=2,
            mode="lb", flags=ROLLOVER
        ),
    ]


CASES = [*in_turn(), *by_cpu(), *others()]
