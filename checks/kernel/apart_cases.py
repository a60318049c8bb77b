#!/usr/bin/env python3
"""The cases in which a kernel and ringtap differ on purpose: what each does, told in a line, and
the row that says so.

A line has the members one after another: for each block or slot its status and the frames in it,
by their numbers from 0, and then packets, drops and freezes. A block `33[0 1]` has the first two
frames and was retired by its time-out.
"""
from __future__ import annotations

from kernel.cases import BIG, SMALL, feeds, ring, slots
from kernel.filter_cases import ALL, IND, W, alu, extra, jump, ld, ldx, ret
from kernel.frames import checksum, ethernet, filler, fragments, in_frame, ipv4, tagged, udp
from kernel.plans import V2, V3, Apart, Case, Feed, Read, Step, Tick

Steps = tuple[Step, ...]
DEFRAG, ROLLOVER = frozenset(("defrag",)), frozenset(("rollover",))


def apart(
    row: str, name: str, shows: str, steps: Steps, kernel: str, ringtap: str, version: str = V3,
    **more: object
) -> Case:
    return Case(name, shows, steps, version, apart=Apart(row, kernel, ringtap), **more)


def blocks() -> list[Case]:
    short = tuple(Feed(tagged(size, 5, size), lost=True) for size in (14, 15, 16, 17, 18, 19))
    row = "a packet that ends exactly at the block's end"
    return [
        apart(
            row, "exact_end", "a packet that ends exactly at a block's end opens the next one",
            feeds(BIG, 2478, SMALL), "1[0] 33[1 2] 3-0-1", "1[0 1] 33[2] 3-0-1"
        ),
        apart(
            row, "exact_end_dropped", "and is dropped where there is none",
            feeds(BIG, 2478, BIG, 2478, SMALL), "1[0] 1[1] 5-3-1", "1[0 1] 1[2 3] 5-1-1"
        ),
        apart(
            "a packet that fills a whole block", "whole_block",
            "before a packet that fills a block an empty block is retired", feeds(9000, SMALL),
            "1[] 1[0=3966] 33[1] 2-0-0", "1[0=3966] 33[1] 2-0-0", request=ring(4)
        ),
        apart(
            "a packet that fills a whole block", "whole_block_after_time_out",
            "also where a time-out opened it",
            feeds(SMALL) + (Tick(),) + feeds(3960, SMALL, start=1), "33[0] 1[] 1[1] 33[2] 3-0-1",
            "33[0] 1[1] 33[2] 3-0-0", request=ring(4)
        ),
        apart(
            "outgoing packets", "outgoing", "frames that go out of the device are seen",
            (*feeds(SMALL), Feed(ethernet(61, 1), outgoing=True), *feeds(62, start=2)),
            "33[0 1 2] 3-0-0", "33[0 2] 2-0-0"
        ),
        apart(
            "a frame with a VLAN type and fewer than 20 bytes", "short_tag",
            "frames with a VLAN type and fewer than 20 bytes count nowhere",
            (*short, *feeds(SMALL, start=90)), "33[6] 1-0-0", "33[0=14 1=15 2=16 3=17 4 5 6] 7-0-0"
        ),
    ]


def filters() -> list[Case]:
    plan = feeds(1300, 1400)
    flows = tuple(Feed(udp(("10.0.0.1", 1000 + at), ("10.0.0.2", 53), 60, at)) for at in range(3))
    return [
        apart(
            "a filter's shift by X of 32 or more", "shift_by_33", "by X modulo 32", plan,
            "33[0 1] 2-0-0", "0-0-0", program=(ldx(33), ld(W, 700, 0), alu("lsh"), (0x16, 0, 0, 0))
        ),
        apart(
            "a filter's shift by X of 32 or more", "shift_right_by_32", "also to the right", plan,
            "33[0=700 1=700] 2-0-0", "0-0-0",
            program=(ldx(32), ld(W, 700, 0), alu("rsh"), (0x16, 0, 0, 0))
        ),
        apart(
            "a filter's place X + k past 2^32", "place_wraps", "a place past 2^32 wraps", plan,
            "33[0 1] 2-0-0", "0-0-0", program=(ldx(0xFFFFFFF0), ld(W, 30, IND), ret(ALL))
        ),
        apart(
            "the interface's index", "filter_interface",
            "the index that a filter loads is the device's", plan, "0-0-0", "1[0 1] 2-0-0",
            program=(extra("ifindex"), jump("jeq", 1, 0, 1), ret(ALL), ret(0))
        ),
        apart(
            "the hash that a filter loads", "filter_hash",
            "the hash that a filter loads is 0 where the device gives none", flows,
            "33[0 1 2] 3-0-0", "0-0-0",
            program=(extra("rxhash"), jump("jeq", 0, 0, 1), ret(ALL), ret(0))
        ),
    ]


def groups() -> list[Case]:
    eight, flag, mode = slots(8), "rollover as a flag", "rollover as a mode"
    return [
        apart(
            flag, "rollover_first_lost",
            "a packet that first finds a ring of blocks full is lost, later ones go to the next "
            "member",
            feeds(*[BIG] * 7), "1[0 1] 1[2 3] 5-1-1; 33[5 6] 2-0-0",
            "1[0 1] 33[2 3] 4-0-1; 1[4 5] 33[6] 3-0-1", members=2, flags=ROLLOVER
        ),
        apart(
            "a member that is tried as backup", "rollover_needs_a_quarter",
            "a backup takes packets while a quarter of its slots is free", feeds(*range(60, 76)),
            "1[0] 1[1] 1[2] 1[3] 1[4] 1[5] 1[6] 1[7] 10-2-0; 1[8] 1[9] 1[10] 1[11] 1[12] 1[13] "
            "6-0-0",
            "1[0] 1[1] 1[2] 1[3] 1[4] 1[5] 1[6] 1[7] 8-0-0; 1[8] 1[9] 1[10] 1[11] 1[12] 1[13] "
            "1[14] 1[15] 8-0-0",
            V2, request=eight, members=2, flags=ROLLOVER
        ),
        apart(
            "the order of its tries", "rollover_order",
            "the second member's packets go to the first",
            tuple(Feed(ethernet(60 + at, at), 1) for at in range(10)),
            "1[8] 1[9] 2-0-0; 1[0] 1[1] 1[2] 1[3] 1[4] 1[5] 1[6] 1[7] 8-0-0; 0-0-0",
            "0-0-0; 1[0] 1[1] 1[2] 1[3] 1[4] 1[5] 1[6] 1[7] 8-0-0; 1[8] 1[9] 2-0-0", V2,
            request=eight, members=3, flags=ROLLOVER, cpus=(0, 1)
        ),
        apart(
            "the order of its tries", "rollover_order_kept",
            "the member that took the last one is tried first",
            feeds(*range(60, 75)) + (Read(1),) * 4 + feeds(100, 101, start=40),
            "1[0] 1[1] 1[2] 1[3] 1[4] 1[5] 1[6] 1[7] 8-0-0; 1[8] 1[9] 1[10] 1[11] 1[12] 1[13] "
            "6-0-0; 1[14] 1[15] 1[16] 3-0-0",
            "1[0] 1[1] 1[2] 1[3] 1[4] 1[5] 1[6] 1[7] 8-0-0; 1[8] 1[9] 1[10] 1[11] 1[12] 1[13] "
            "1[14] 1[15] 1[16] 9-0-0; 0-0-0",
            V2, request=eight, members=3, flags=ROLLOVER
        ),
        apart(
            mode, "rollover_leaves_a_quarter", "it leaves a member with two of eight slots free",
            feeds(*range(60, 72)),
            "1[0] 1[1] 1[2] 1[3] 1[4] 1[5] 6-0-0; 1[6] 1[7] 1[8] 1[9] 1[10] 1[11] 6-0-0",
            "1[0] 1[1] 1[2] 1[3] 1[4] 1[5] 1[6] 1[7] 8-0-0; 1[8] 1[9] 1[10] 1[11] 4-0-0", V2,
            request=eight, members=2, mode="rollover"
        ),
        apart(
            "a packet of that mode that no member has room for", "rollover_to_the_first",
            "where none has a quarter free, member 0 has it, and drops it in the end",
            feeds(*range(60, 78)),
            "1[0] 1[1] 1[2] 1[3] 1[4] 1[5] 1[12] 1[13] 12-4-0; 1[6] 1[7] 1[8] 1[9] 1[10] 1[11] "
            "6-0-0",
            "1[0] 1[1] 1[2] 1[3] 1[4] 1[5] 1[6] 1[7] 8-0-0; 1[8] 1[9] 1[10] 1[11] 1[12] 1[13] "
            "1[14] 1[15] 10-2-0",
            V2, request=eight, members=2, mode="rollover"
        ),
        apart(
            "the present member of that mode", "rollover_present",
            "another CPU goes on where the first one was",
            feeds(*range(60, 70)) + (Read(0),) * 8 + tuple(
                Feed(ethernet(100 + at, at), 1)
                for at in range(3)
            ),
            "1[0] 1[1] 1[2] 1[3] 1[4] 1[5] 1[12] 7-0-0; 1[6] 1[7] 1[8] 1[9] 1[10] 1[11] 6-0-0",
            "1[0] 1[1] 1[2] 1[3] 1[4] 1[5] 1[6] 1[7] 1[10] 1[11] 1[12] 11-0-0; 1[8] 1[9] 2-0-0", V2,
            request=eight, members=2, mode="rollover", cpus=(0, 1)
        ),
    ]


def signed(frame: bytes, at: int, value: int) -> bytes:
    """A frame with another byte in its IPv4 header of 20 bytes, and the checksum that follows."""
    head = bytearray(frame[14:34])
    head[at - 14] = value
    head[10:12] = bytes(2)
    head[10:12] = checksum(bytes(head)).to_bytes(2, "big")
    return frame[:14] + bytes(head) + frame[34:]


def one_fragment(size: int, ident: int, at: int = 0, more: bool = False, mark: int = 0) -> bytes:
    return in_frame(ipv4(filler(size, mark), ident=ident, at=at, more=more))


def pieces(
    row: str, name: str, shows: str, frames: list[bytes], kernel: str, ringtap: str, **more: object
) -> Case:
    """Fragments, and an ordinary frame after them."""
    return apart(
        row, f"defrag_{name}", shows, (*map(Feed, frames), *feeds(SMALL)), kernel, ringtap,
        flags=DEFRAG, **more
    )


def malformed() -> list[Case]:
    never = (
        "a fragment without data, of a length that is no multiple of 8 where another is to follow, "
        "or that ends past 65,535 bytes"
    )
    return [
        pieces(
            never, "no_data", "a fragment without data never arrives",
            [one_fragment(0, 5, 80), one_fragment(0, 5, more=True)], "33[2] 1-0-0",
            "33[0 1 2] 3-0-0"
        ),
        pieces(
            never, "odd", "one of 81 bytes before another never arrives",
            [one_fragment(81, 5, more=True)], "33[1] 1-0-0", "33[0 1] 2-0-0"
        ),
        pieces(
            never, "too_long", "one that ends past 65,535 bytes never arrives",
            [one_fragment(64, 10, 65_528)], "33[1] 1-0-0", "33[0 1] 2-0-0"
        ),
        pieces(
            "a fragment that ends past byte 65,475", "longest",
            "a datagram of 65,532 bytes is put together", fragments(filler(65_512, 3), [65_472], 9),
            "33[1=65546 2] 2-0-0", "33[1 2] 2-0-0", request=ring(4, 131_072)
        ),
    ]


def headers() -> list[Case]:
    """Byte 145 of a block is the service of its first packet's IPv4 header, 150 its flags, 154
    and 155 its checksum."""
    flags, congestion = "the flag bits of a datagram", "the congestion bits of a datagram"
    first, last = fragments(filler(200, 11), [96], 11)
    return [
        pieces(
            flags, "df_first", "don't-fragment in the smaller fragment, the first, is cleared",
            [signed(first, 20, 0x60), last], "33[1=234 2] 2-0-0 150:00 154:66",
            "33[1=234 2] 2-0-0 150:40 154:26"
        ),
        pieces(
            flags, "df_last", "in the larger one, the last, it is kept",
            [first, signed(last, 20, 0x40)], "33[1=234 2] 2-0-0 150:40 154:26",
            "33[1=234 2] 2-0-0 150:00 154:66"
        ),
        pieces(
            flags, "reserved_bit", "the reserved bit is cleared",
            [signed(first, 20, 0xA0), signed(last, 20, 0x80)],
            "33[1=234 2] 2-0-0 150:00 154:66 155:04", "33[1=234 2] 2-0-0 150:80 154:e6 155:03"
        ),
        pieces(
            congestion, "congested", "congestion that a later fragment met is told",
            [signed(first, 15, 1), signed(last, 15, 3)], "33[1=234 2] 2-0-0 145:03 155:01",
            "33[1=234 2] 2-0-0 145:01 155:03"
        ),
        pieces(
            congestion, "mixed_congestion",
            "fragments of which one alone can tell congestion are given up",
            [signed(first, 15, 0), signed(last, 15, 1)], "33[2] 1-0-0", "33[1=234 2] 2-0-0"
        ),
    ]


def held() -> list[Case]:
    row = "a fragment within held ones, with other data or another more bit"
    first, last = fragments(filler(200, 11), [96], 11)
    four = fragments(filler(200, 12), [48, 96, 152], 12)
    again = in_frame(ipv4(filler(200, 11)[96:], ident=11, at=96, more=True))
    many = [
        [
            in_frame(ipv4(filler(96, at), f"10.7.{at}.1", ident=at, at=96 * place, more=not place))
            for place in range(2)
        ]
        for at in range(65)
    ]
    return [
        pieces(
            row, "copy_of_other_data", "a copy with other data is ignored",
            [first, one_fragment(96, 11, more=True, mark=5), last], "33[2=234 3] 2-0-0",
            "33[3] 1-0-0"
        ),
        pieces(
            row, "copy_of_last_with_more",
            "so is one of the last fragment that says another follows", [last, again, first],
            "33[2=234 3] 2-0-0", "33[3] 1-0-0"
        ),
        pieces(
            row, "within_two", "and one within two that adjoin",
            [*four[:2], one_fragment(48, 12, 24, True), *four[2:]], "33[4=234 5] 2-0-0",
            "33[5] 1-0-0"
        ),
        pieces(
            row, "within", "a fragment within a held one is ignored, whatever it has",
            [first, one_fragment(48, 11, 16, True, 9), last], "33[2=234 3] 2-0-0", "33[3] 1-0-0"
        ),
        apart(
            "datagrams that are held", "defrag_two_cpus",
            "fragments that two CPUs receive are put together", (Feed(first), Feed(last, 1)),
            "0-0-0; 33[1=234] 1-0-0", "0-0-0; 0-0-0", members=2, flags=DEFRAG, cpus=(0, 1)
        ),
        pieces(
            "datagrams that are held", "sixty_five", "of 65 open datagrams none is given up",
            [*(pair[0] for pair in many), *(pair[1] for pair in many[:2])],
            "33[65=226 66=226 67] 3-0-0", "33[67] 1-0-0"
        ),
    ]


CASES = [*blocks(), *filters(), *groups(), *malformed(), *headers(), *held()]
