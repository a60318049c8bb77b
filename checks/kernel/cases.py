#!/usr/bin/env python3
"""The cases of rings of blocks and of slots: each has a name, what it shows, its ring and its
steps.

A packet of a block takes 82 bytes and its data, rounded up to 8: one of 60 bytes 144, one of
1,400 bytes 1, 488. A block of 4096 bytes without a private area has 4,048 for packets, so two of
1,400 bytes fit and a third doesn't. A slot has 66 bytes before its data.
"""
from __future__ import annotations

import random

from kernel.frames import BROADCAST, ELSEWHERE, MULTICAST, ethernet, tagged, udp
from kernel.plans import V2, Case, Feed, Read, Stats, Step, Tick
from kernel.sockets import Request

Steps = tuple[Step, ...]
BIG, SMALL = 1400, 60  # two and 28 to a block of 4096 bytes


def feeds(*sizes: int, start: int = 0) -> Steps:
    """Frames of these sizes, each with a mark of its own."""
    return tuple(Feed(ethernet(size, start + at)) for at, size in enumerate(sizes))


def sent(frames: list[bytes]) -> Steps:
    return tuple(Feed(frame) for frame in frames)


def reads(count: int) -> Steps:
    return (Read(),) * count


def ring(blocks: int = 2, size: int = 4096, **fields: int) -> Request:
    return Request(size, blocks, 2048, size // 2048 * blocks, **fields)


def slots(count: int, size: int = 2048, block: int = 4096) -> Request:
    return Request(block, count // (block // size), size, count)


# ---- rings of blocks


def fitting() -> list[Case]:
    """What goes into a block, and what opens the next."""
    return [
        Case("one_packet", "a block with one packet, which its time-out retires", feeds(SMALL)),
        Case(
            "no_packet", "a ring that nothing comes to retires nothing", (Tick(), Stats(), Tick())
        ),
        Case(
            "paddings", "data of each length beside a multiple of 8",
            feeds(*range(14, 32), *range(60, 70))
        ),
        Case("least_frame", "frames of 14 bytes, which have a header alone", feeds(14, 14, 15)),
        Case(
            "third_does_not_fit", "two large frames fill a block, and the third opens the next",
            feeds(*[BIG] * 3), openings=((2, False),)
        ),
        Case(
            "many_small", "28 frames of 60 bytes leave 16 bytes of a block", feeds(*[SMALL] * 30),
            request=ring(4)
        ),
        Case(
            "eight_bytes_left", "a packet that ends 8 bytes before the block's end fits",
            feeds(1400, 1400, 982, 60), request=ring(4)
        ),
        Case(
            "sizes_up", "frames from 60 to 1,514 bytes", feeds(*range(60, 1515, 50)),
            request=ring(16)
        ),
        Case(
            "sizes_down", "the same in the other order", feeds(*range(1514, 59, -47)),
            request=ring(16)
        ),
        Case(
            "larger_blocks", "blocks of 64 KiB", feeds(*[9000, 60, 1514] * 6),
            request=ring(2, 65_536)
        ),
        Case(
            "largest_frame", "frames of 65,549 bytes in blocks of 128 KiB",
            feeds(65_549, 60, 65_549, 65_548), request=ring(4, 131_072)
        ),
        Case(
            "largest_block", "a block of 1 MiB", feeds(*[60, 9000] * 12), request=ring(2, 1 << 20)
        ),
        Case(
            "cut_to_block", "a frame longer than a block is cut to it, behind a block with packets",
            feeds(SMALL, 9000, SMALL, 4000, SMALL, 3967, SMALL), request=ring(16)
        ),
        Case(
            "cut_to_block_private", "the same beside a private area",
            feeds(SMALL, 9000, SMALL, 4000, SMALL), request=ring(16, priv=1000)
        ),
    ]


def private_areas() -> list[Case]:
    """The area is rounded up to 8; two packets and a third lie behind it."""
    plan = feeds(*[1000] * 3, *[SMALL] * 2)
    return [
        Case(f"private_{priv}", f"a private area of {priv} bytes", plan, request=ring(4, priv=priv))
        for priv in (1, 7, 8, 9, 13, 48, 100, 1000, 1023, 1024)
    ]


def freezing() -> list[Case]:
    """When a ring freezes, what it drops then, and when it thaws; BIG, BIG, BIG opens the second
    block."""
    fill = feeds(*[BIG] * 4)  # both blocks are full; the second is open
    more = feeds(*[BIG] * 3, start=10)
    return [
        Case(
            "freeze", "a packet that finds no block freezes the ring and is dropped",
            fill + feeds(BIG, start=9)
        ),
        Case(
            "drops_while_frozen", "later ones are dropped, and the ring has frozen once",
            fill + more + feeds(SMALL)
        ),
        Case(
            "small_is_dropped_too",
            "frozen, a packet is dropped that the retired block had room for",
            feeds(BIG, BIG, BIG, 1300) + feeds(BIG, SMALL, SMALL, start=5)
        ),
        Case(
            "thaw", "a packet after the release opens the next block",
            fill + more + reads(1) + feeds(BIG, BIG, start=20), openings=((3, False),)
        ),
        Case(
            "thaw_by_small", "the first packet after the release may be any",
            fill + more + reads(1) + feeds(SMALL, BIG, SMALL, start=20)
        ),
        Case(
            "losing", "blocks say LOSING after a drop",
            fill + more + reads(2) + feeds(*[BIG] * 5, start=20), request=ring(2)
        ),
        Case(
            "losing_until_statistics", "LOSING ends when the statistics are taken",
            fill + more + reads(2) + feeds(*[BIG] * 3, start=20) + reads(1) + (Stats(),) + feeds(
                *[BIG] * 3, start=30
            )
        ),
        Case(
            "not_losing_by_freeze_alone",
            "the block that is retired for a dropped packet isn't LOSING yet",
            fill + feeds(BIG, start=9) + (Stats(),)
        ),
        Case("freeze_twice", "each freeze counts", (fill + more + reads(2)) * 2 + fill + more),
        Case(
            "held_block_stays_held", "released blocks come back in order",
            fill + reads(1) + feeds(*[BIG] * 6, start=9) + reads(2) + more
        ),
        Case(
            "counts_each_time", "statistics are taken before, while and after it is frozen",
            (Stats(), *fill, Stats(), *more, Stats(), Stats(), *reads(2), *more, Stats())
        ),
        Case(
            "three_blocks", "three blocks, one of them with the reader",
            feeds(*[BIG] * 7) + reads(1) + more + reads(1) + more + reads(2) + more, request=ring(3)
        ),
        Case(
            "reader_keeps_up",
            "a reader that gives each block back at once: four laps, over what stood there before",
            tuple(step for at in range(24) for step in (*feeds(BIG - 8 * at, start=at), Read())),
            request=ring(3)
        ),
        Case(
            "reader_one_behind",
            "a reader that keeps one block: later laps over longer and shorter packets",
            feeds(*[BIG] * 3) + tuple(
                step
                for at in range(20)
                for step in (*feeds(300 + 97 * at % 1100, start=at), *(reads(1) if at % 2 else ()))
            ),
            request=ring(3)
        ),
        Case(
            "laps_with_private",
            "private area and paddings keep what stood there: the kernel doesn't clear them",
            tuple(
                step
                for at in range(30)
                for step in (*feeds(61 + 127 * at % 1300, start=at), Read())
            ),
            request=ring(2, priv=13)
        ),
        Case(
            "most_blocks", "256 blocks",
            feeds(*[2000] * 12) + reads(3) + feeds(*[2000] * 3, start=20), request=ring(256)
        ),
        Case(
            "frame_size_is_nothing", "tp_frame_size says nothing of blocks",
            feeds(*[BIG] * 5, 2000), request=Request(4096, 4, 128, 128)
        ),
    ]


def timing() -> list[Case]:
    """What the timer does; kernel_live.py sees to it that each step falls between two time-outs.
    Three large packets leave the second block open, and five find the ring full."""
    three, full = feeds(*[BIG] * 3), feeds(*[BIG] * 5)
    return [
        Case(
            "time_out", "a time-out retires what a block has, with BLK_TMO, and opens the next",
            feeds(SMALL) + (Tick(),) + feeds(SMALL, start=1), openings=((2, True),)
        ),
        Case(
            "time_out_twice", "each time-out retires a block of its own",
            feeds(SMALL) + (Tick(),) + feeds(SMALL, BIG, start=1) + (Tick(),) + feeds(70, start=3),
            request=ring(4)
        ),
        Case(
            "empty_stays", "a time-out leaves an empty block",
            (Tick(), Tick()) + feeds(SMALL) + (Tick(), Tick()) + feeds(61, start=1)
        ),
        Case(
            "opened_late", "a block that a packet opened within a period is retired at its end",
            (Tick(),) + three + (Tick(),) + feeds(62, start=9), request=ring(4),
            rows=("a packet that opens a block",)
        ),
        Case(
            "full_then_time_out", "a full block is retired without BLK_TMO, the next with it",
            three + (Tick(), Stats()), request=ring(4)
        ),
        Case(
            "freeze_by_time_out", "a time-out that finds no block freezes the ring, without a drop",
            three + (Tick(), Stats()) + feeds(SMALL, start=7) + (Stats(),)
        ),
        Case(
            "thaw_after_time_out", "a packet thaws it",
            three + (Tick(),) + reads(1) + feeds(SMALL, start=7) + (Stats(),),
            openings=((3, False),)
        ),
        Case(
            "thaw_by_time_out", "a time-out thaws a ring that another froze",
            three + (Tick(),) + reads(1) + (Tick(), Stats()) + feeds(SMALL, BIG, BIG, start=7),
            openings=((3, True),)
        ),
        Case(
            "thaw_by_first_time_out", "a time-out thaws a ring that a packet froze, the first one",
            full + reads(1) + (Tick(),) + feeds(SMALL, start=8) + (Tick(), Stats()),
            openings=((3, True),), rows=("a time-out that finds the ring frozen by a packet",)
        ),
        Case(
            "stays_frozen", "time-outs change nothing while the reader has the next block",
            full + (
                Tick(), Stats(), Tick()
            ) + feeds(BIG, start=8) + (Stats(),) + reads(2) + feeds(BIG, start=9)
        ),
        Case(
            "freezes_by_both", "freezes by packets and by time-outs count together",
            full + reads(2) + feeds(*[BIG] * 3, start=10) + (
                Tick(), Stats()
            ) + reads(2) + (Tick(),) + feeds(*[BIG] * 5, start=20)
        ),
        Case(
            "losing_by_time_out", "a block says LOSING and BLK_TMO",
            full + reads(1) + feeds(SMALL, start=8) + (Tick(),)
        ),
        Case(
            "ten_periods", "the timer keeps its grid",
            tuple(step for at in range(10) for step in (*feeds(60 + at, start=at), Tick(), Read()))
        ),
        Case(
            "private_time_out", "a time-out beside a private area",
            feeds(SMALL) + (Tick(),) + feeds(900, start=1), request=ring(2, priv=40)
        ),
    ]


def kinds() -> list[Case]:
    """What a packet's header says of its frame."""
    types = [
        ethernet(60, at, to=to) for at,
        to in enumerate((BROADCAST, MULTICAST, ELSEWHERE, bytes.fromhex("020000000002")))
    ]
    types += [
        ethernet(60, 9, to=bytes.fromhex(text))
        for text in ("333300000001", "01ffffffffff", "fffffffffffe", "020000000003")
    ]
    protocols = [
        ethernet(60, at, kind) for at,
        kind in enumerate((0x0800, 0x86DD, 0x0806, 0x0600, 0x05FF, 0, 1, 0xFFFF, 0x05DC))
    ]
    heads = (b"\xff\xff", b"\xff\xfe", b"\xaa\xaa\x03", b"\xfe\xff")
    lengths = [ethernet(60, at, 0x0030, head=head) for at, head in enumerate(heads)]
    lengths += [ethernet(size, 7, 0x0030, head=b"\xff\xff") for size in (14, 15, 16, 17)]
    vlans = [
        tagged(64, tci, at) for at, tci in enumerate((1, 100, 0, 0xFFFF, 0x2064, 0x1000, 0x0FFF))
    ]
    double = [
        tagged(68, 7, 1, 0x88A8, 0x8100, head=b"\x00\x05\x88\xb5"),
        tagged(68, 7, 2, 0x8100, 0x8100, head=b"\x00\x05\x08\x00"),
        tagged(68, 7, 3, 0x8100, 0x88A8, head=b"\x00\x05\x88\xb5"),
    ]
    flows = (
        [udp(("10.0.0.1", 1000 + at), ("10.0.0.2", 53), 60, at) for at in range(4)]
        + [ethernet(60, 1), tagged(64, 5, 2), ethernet(60, 3, 0x0806)]
    )
    inner = [
        tagged(64, 5, at, kind=kind) for at, kind in enumerate((0x0800, 0x86DD, 0x0600, 0x05FF, 0))
    ]
    inner += [tagged(64, 5, 7, kind=0x0030, head=head) for head in (b"\xff\xff", b"\xaa\xaa")]
    return [
        Case("packet_types", "host, broadcast, multicast and another host", sent(types)),
        Case("protocols", "the type field, 802.3 and 802.2", sent(protocols), request=ring(4)),
        Case(
            "lengths_for_types", "a length in the type's place: 802.3 by the two bytes behind it",
            sent(lengths), request=ring(4)
        ),
        Case(
            "vlan_tags", "a tag is taken out of the frame and stands in the header", sent(vlans),
            request=ring(4)
        ),
        Case(
            "vlan_service", "a service tag too",
            sent([tagged(64, 100, 1, 0x88A8), tagged(90, 0xE001, 2, 0x88A8)])
        ),
        Case("vlan_double", "of two tags the outer one", sent(double)),
        Case(
            "vlan_not_a_tag", "0x9100 and 0x9200 are none",
            sent([tagged(64, 100, 1, 0x9100), tagged(64, 100, 2, 0x9200)])
        ),
        Case("vlan_protocols", "the protocol is that behind the tag", sent(inner), request=ring(4)),
        Case(
            "vlan_sizes", "tagged frames of 20 bytes and more",
            sent([tagged(size, 9, size) for size in (20, 21, 22, 23, 24, 25, 26, 27, 60, 1400)])
        ),
        Case(
            "vlan_types", "tagged broadcast and multicast",
            sent(
                [
                    to + tagged(64, 3, at)[6:] for at,
                    to in enumerate((BROADCAST, MULTICAST, ELSEWHERE))
                ]
            )
        ),
        Case(
            "flow_hashes", "with TP_FT_REQ_FILL_RXHASH a packet has the hash of its flow",
            sent(flows), request=ring(4, features=1)
        ),
        Case("flow_hashes_not_asked", "without it has none", sent(flows), request=ring(4)),
        Case(
            "vlan_full_blocks", "a tag makes a packet four bytes shorter",
            sent([tagged(1404, 3, at) for at in range(5)]), request=ring(4)
        ),
    ]


def random_plan(seed: int, ticks: bool, blocks: int, step: int, most: int) -> Steps:
    """Steps by chance. Packets take multiples of `step` bytes, of which no number ends exactly
    at a block's end."""
    draw = random.Random(seed)
    steps: list[Step] = []
    for at in range(60):
        word = draw.choices(
            ("feed", "read", "stats", "tick"), (60, 10 + 40 // blocks, 4, 4 if ticks else 0)
        )[0]
        if word == "feed":
            need = step * draw.randint(4 if step == 32 else 8, most // step)
            size = need - 82 - draw.randrange(8)
            draw_kind = draw.random()
            frame = tagged(size + 4, draw.randrange(65_536), at) if draw_kind < 0.2 else ethernet(
                size, at, to=draw.choice((BROADCAST, ELSEWHERE, bytes.fromhex("020000000002")))
            )
            steps.append(Feed(frame))
        elif word == "tick":
            if sum(isinstance(step, Tick) for step in steps) < 3:
                steps.append(Tick())
        else:
            steps.append(Read() if word == "read" else Stats())
    return tuple(steps)


def by_chance() -> list[Case]:
    """A block's room leaves 16 or 8 of a multiple of 32 or 16, so no packet ends exactly at its
    end."""
    found = []
    for seed in range(24):
        blocks = (2, 3, 4, 6)[seed % 4]
        request = ring(blocks) if seed % 2 else ring(blocks, priv=8 * (seed // 2 * 2 + 1))
        step = 32 if seed % 2 else 16
        plan = random_plan(seed, seed % 3 == 0, blocks, step, 1600)
        found.append(Case(f"chance_{seed}", "sixty steps by chance", plan, request=request))
    return found


# ---- rings of slots


def slot_rings() -> list[Case]:
    full = feeds(*[SMALL] * 4)
    return [
        Case("slot_one", "a slot with a packet", feeds(SMALL), V2),
        Case(
            "slot_sizes", "frames of each size that fits", feeds(*range(14, 40), 1514, 1981, 1982),
            V2, slots(32)
        ),
        Case(
            "slot_cut", "a frame longer than a slot is cut to it",
            feeds(1983, 1984, 2000, 9000, 65_549, 60), V2, slots(8)
        ),
        Case("slot_full", "a full ring drops", full + feeds(61, 62, start=8), V2),
        Case(
            "slot_released", "a released slot takes the next packet",
            full + feeds(61) + reads(1) + feeds(62, 63, start=8), V2
        ),
        Case(
            "slot_losing", "slots say LOSING after a drop",
            full + feeds(61) + reads(3) + feeds(62, 63, start=8), V2
        ),
        Case(
            "slot_losing_until_statistics", "LOSING ends when the statistics are taken",
            full + feeds(61) + reads(3) + feeds(62, start=8) + (Stats(),) + feeds(63, start=9), V2
        ),
        Case(
            "slot_counts", "statistics before, while and after it is full; freezes have no count",
            (
                Stats(), *full, Stats(), *feeds(61, 62), Stats(), Stats(), *reads(2),
                *feeds(63, 64), Stats()
            ),
            V2
        ),
        Case(
            "slot_laps", "laps over what stood there before",
            tuple(
                step
                for at in range(30)
                for step in (*feeds(60 + 211 * at % 1900, start=at), Read())
            ),
            V2
        ),
        Case(
            "slot_reader_behind", "a reader that is three slots behind",
            feeds(*[70] * 3) + tuple(
                step
                for at in range(20)
                for step in (*feeds(80 + 53 * at % 700, start=at), *reads(at % 3))
            ),
            V2
        ),
        Case(
            "slot_order", "slots come back in order",
            full + reads(2) + feeds(*[100] * 4, start=9) + reads(3) + feeds(*[200] * 4, start=20),
            V2
        ),
        Case(
            "slot_types", "packet types",
            sent(
                [ethernet(60, at, to=to) for at, to in enumerate((BROADCAST, MULTICAST, ELSEWHERE))]
            ),
            V2
        ),
        Case(
            "slot_protocols", "protocols",
            sent(
                [ethernet(60, at, kind) for at, kind in enumerate((0x0800, 0x0600, 0x05FF, 0x0030))]
            ),
            V2
        ),
        Case(
            "slot_vlan", "tags",
            sent(
                [
                    tagged(64, 100, 1), tagged(64, 0xFFFF, 2, 0x88A8),
                    tagged(68, 0, 3, head=b"\x81\x00")
                ]
            ),
            V2
        ),
        Case(
            "slot_vlan_losing", "a tag and LOSING",
            full + feeds(61) + reads(2) + sent([tagged(64, 100, 1), tagged(64, 7, 2, 0x88A8)]), V2
        ),
        Case(
            "slot_vlan_cut", "a tagged frame that is cut: the tag isn't of the slot",
            sent([tagged(size, 5, size) for size in (1985, 1986, 1987, 1988, 9000)]), V2, slots(8)
        ),
        Case(
            "slot_small", "slots of 80 bytes keep 14", feeds(14, 15, 60, 61, 1400), V2,
            slots(51 * 2, 80)
        ),
        Case(
            "slot_rest_of_block", "slots of 1,536 bytes: a block has two and some bytes left",
            feeds(*[1400 + at for at in range(9)]), V2, slots(8, 1536)
        ),
        Case(
            "slot_whole_block", "a slot for each block", feeds(1400, 4030, 4031, 9000, 60), V2,
            slots(4, 4096)
        ),
        Case(
            "slot_large_block", "blocks of 64 KiB", feeds(*[900 + 100 * at for at in range(16)]),
            V2, slots(64, 2048, 65_536)
        ),
        Case(
            "slot_two", "two slots",
            feeds(60, 61, 62) + reads(1) + feeds(63, 64, start=4) + reads(2) + feeds(
                65, 66, 67, start=8
            ),
            V2, slots(2, 4096)
        ),
    ]


def slots_by_chance() -> list[Case]:
    found = []
    for seed in range(12):
        request = (slots(4), slots(8, 1024), slots(6, 1536), slots(64, 128))[seed % 4]
        plan = random_plan(100 + seed, False, request.frame_nr // 2, 16, 1600)
        found.append(
            Case(f"slot_chance_{seed}", "sixty steps by chance over slots", plan, V2, request)
        )
    return found


CASES = [
    *fitting(), *private_areas(), *freezing(), *timing(), *kinds(), *by_chance(), *slot_rings(),
    *slots_by_chance()
]
