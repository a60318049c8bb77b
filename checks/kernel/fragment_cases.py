#!/usr/bin/env python3
"""The cases of fragments that a group with the flag defrag puts together. A kernel holds them
for all of a network namespace, so each of these runs has a namespace of its own."""
from __future__ import annotations

import itertools

from kernel.cases import ring
from kernel.filter_cases import ALL, H, jump, ld, ret
from kernel.frames import BROADCAST, ethernet, filler, fragments, in_frame, ipv4
from kernel.group_cases import DEFRAG
from kernel.plans import V2, Case, Feed


TWO, OTHER = fragments(filler(1000, 2), [496], 8), fragments(filler(900, 3), [400], 9)
PADDED = fragments(filler(60, 6), [24, 48], 12, pad=20)


def together(name: str, shows: str, *frames: bytes, **more: object) -> Case:
    """Fragments, and an ordinary frame after them."""
    plan = tuple(Feed(frame) for frame in frames) + (Feed(ethernet(70, 99)),)
    return Case(f"defrag_{name}", shows, plan, flags=DEFRAG, **{"request": ring(8, 8192), **more})


def pair(ident: int) -> list[bytes]:
    return fragments(filler(200, ident), [96], ident)


def changed(frame: bytes, at: int, value: int) -> bytes:
    return frame[:at] + bytes((value,)) + frame[at + 1 :]


def retagged(frame: bytes, tci: int) -> bytes:
    return frame[:12] + b"\x81\x00" + tci.to_bytes(2, "big") + frame[12:]


def orders() -> list[Case]:
    three = fragments(filler(100, 1), [24, 64], 7)
    options = fragments(filler(200, 4), [80, 160], 10, b"\x01" * 40, ttl=119)
    large = fragments(filler(9000, 5), list(range(1480, 9000, 1480)), 11)
    permutations = [
        together(
            f"order_{''.join(map(str, order))}", "three fragments in this order",
            *(three[at] for at in order)
        )
        for order in itertools.permutations(range(3))
    ]
    return (
        permutations
        + [
            together("two", "two fragments", *TWO),
            together("two_turned", "the last one first", *TWO[::-1]),
            together(
                "interleaved", "two datagrams, one between the other", TWO[0], OTHER[0], TWO[1],
                OTHER[1]
            ),
            together("interleaved_turned", "and turned", TWO[1], OTHER[0], TWO[0], OTHER[1]),
            together("options", "options of the first fragment's header", *options),
            together("options_turned", "the same turned", *options[::-1]),
            together(
                "large", "a datagram of 9,000 bytes in seven fragments", *large,
                request=ring(4, 65_536)
            ),
            together("large_turned", "the last first", *large[::-1], request=ring(4, 65_536)),
            together(
                "cut_to_block", "a datagram longer than a block", ethernet(60, 3), *large,
                request=ring(8)
            ),
            together("padding", "padding of short frames is no data", *PADDED),
            together("padding_turned", "in no order", *PADDED[::-1]),
            together("alone", "a fragment alone isn't seen", TWO[0]),
            together("last_alone", "a last one alone neither", TWO[1]),
            together("twice", "an exact copy is ignored", TWO[0], TWO[0], TWO[1]),
            together("twice_last", "a copy of the last one", TWO[1], TWO[1], TWO[0]),
        ]
    )


def datagrams() -> list[Case]:
    """Which fragments are of one datagram."""
    return [
        together(
            "whole_one", "what is no fragment passes", in_frame(ipv4(filler(200, 9), ident=5)),
            in_frame(ipv4(filler(200, 8), ident=5, flags=0x4000))
        ),
        together(
            "other_protocol", "the protocol tells datagrams apart",
            in_frame(ipv4(filler(200, 1)[:80], protocol=17, ident=5, more=True)),
            in_frame(ipv4(filler(200, 2)[80:], protocol=6, ident=5, at=80)),
            in_frame(ipv4(filler(200, 3)[80:], protocol=17, ident=5, at=80))
        ),
        together(
            "other_ends", "so do addresses and identification",
            in_frame(ipv4(filler(160, 1)[:80], ident=5, more=True)),
            in_frame(ipv4(filler(160, 2)[80:], ident=6, at=80)),
            in_frame(ipv4(filler(160, 3)[80:], "10.0.0.2", "10.0.0.1", ident=5, at=80)),
            in_frame(ipv4(filler(160, 4)[80:], ident=5, at=80))
        ),
        together(
            "tags", "the tag is that of the first fragment", retagged(TWO[0], 5),
            retagged(TWO[1], 9), retagged(OTHER[1], 7), retagged(OTHER[0], 6)
        ),
    ]


def overlaps() -> list[Case]:
    return [
        together(
            "overlap", "fragments that overlap are given up, both", TWO[0],
            in_frame(ipv4(filler(600, 9), ident=8, at=400)), TWO[1]
        ),
        together(
            "overlap_in_front", "one that reaches into a held one", TWO[1],
            in_frame(ipv4(filler(504, 9), ident=8, more=True)), TWO[0]
        ),
        together(
            "overlap_then_again", "after that the datagram can come anew", TWO[0],
            in_frame(ipv4(filler(600, 9), ident=8, at=400)), *TWO
        ),
        together(
            "past_the_end", "a fragment past the last one's end", TWO[1],
            in_frame(ipv4(filler(80, 9), ident=8, at=1000, more=True)), TWO[0]
        ),
        together(
            "two_ends", "two last ones with different ends", TWO[1],
            in_frame(ipv4(filler(80, 9), ident=8, at=1000)), TWO[0]
        ),
        together(
            "early_end", "a fragment without the more bit makes the end known", pair(53)[0],
            in_frame(ipv4(filler(200, 53)[96:152], ident=53, at=96)), pair(53)[1]
        ),
        together(
            "unfragmented_between", "a datagram of the same identification that is whole passes",
            pair(54)[0], in_frame(ipv4(filler(96, 54), ident=54)), pair(54)[1]
        ),
        together(
            "covers", "one that covers a held one and more gives it up",
            fragments(filler(200, 55), [48, 96], 55)[1],
            in_frame(ipv4(filler(200, 55)[:96], ident=55, more=True)),
            fragments(filler(200, 55), [48, 96], 55)[2]
        ),
    ]


def headers() -> list[Case]:
    """Which fragment's header the datagram has, and which frames are fragments."""
    return [
        together(
            "bad_checksum", "a header's checksum isn't looked at",
            *(changed(frame, 24, frame[24] ^ 0x55) for frame in pair(40))
        ),
        together(
            "short_frame", "a fragment with fewer bytes than it says passes", pair(41)[0][:-10],
            pair(41)[1]
        ),
        together("short_last_frame", "also the last one", pair(42)[0], pair(42)[1][:-1]),
        together(
            "ttl", "the first fragment's time to live counts", pair(43)[0],
            changed(pair(43)[1], 22, 5)
        ),
        together(
            "tos", "and its service", changed(pair(44)[0], 15, 0xB8), changed(pair(44)[1], 15, 0x20)
        ),
        together(
            "version", "a header of another version passes", changed(pair(45)[0], 14, 0x55),
            pair(45)[1]
        ),
        together(
            "header_length", "one of fewer than 20 bytes too", changed(pair(46)[0], 14, 0x44),
            pair(46)[1]
        ),
        together(
            "other_type", "what isn't IPv4 by its type field too", changed(pair(47)[0], 13, 6),
            pair(47)[1]
        ),
        together(
            "broadcast", "the packet type is that of the first fragment",
            BROADCAST + pair(48)[0][6:], pair(48)[1]
        ),
        together("broadcast_last", "and not of the last", pair(49)[0], BROADCAST + pair(49)[1][6:]),
        together("source", "so is the source address", pair(50)[0], changed(pair(50)[1], 11, 9)),
        together(
            "options_last", "options of a later fragment aren't kept", pair(51)[0],
            fragments(filler(200, 51), [96], 51, b"\x01" * 8)[1]
        ),
        together(
            "options_first", "those of the first are",
            fragments(filler(200, 52), [96], 52, b"\x01" * 8)[0], pair(52)[1]
        ),
        together(
            "df", "fragments with the bit that forbids them",
            *fragments(filler(160, 1), [80], 20, flags=0x4000)
        ),
    ]


def in_groups() -> list[Case]:
    return [
        together(
            "udp_port_filter", "the filter sees the datagram",
            *fragments(bytes.fromhex("0400003500000000") + filler(160, 1), [80], 21),
            program=(ld(H, 36), jump("jeq", 53, 0, 1), ret(ALL), ret(0))
        ),
        Case(
            "defrag_members",
            "fragments of one datagram on two CPUs each: a CPU's own are put together",
            tuple(
                Feed(frame, cpu)
                for cpu in (0, 1)
                for frame in fragments(filler(160, cpu), [80], 30 + cpu)
            ),
            members=2, flags=DEFRAG, cpus=(0, 1)
        ),
        Case(
            "defrag_lb", "a datagram draws one turn",
            (*map(Feed, [*TWO, ethernet(61, 1), *OTHER, ethernet(62, 2)]),), members=2, mode="lb",
            flags=DEFRAG
        ),
        Case(
            "defrag_slots", "datagrams in slots", (*map(Feed, [*TWO, *OTHER[::-1], *PADDED]),), V2,
            flags=DEFRAG
        ),
    ]


CASES = [*orders(), *datagrams(), *overlaps(), *headers(), *in_groups()]
