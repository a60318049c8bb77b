#!/usr/bin/env python3
"""The cases of filters, by the names of linux/filter.h. Most programs make a number of what they
load and return it, so that the bytes that are kept say it: a number modulo 997, and 100 more, of
frames of 1,200 bytes and more."""
from __future__ import annotations

from kernel.frames import BROADCAST, MULTICAST, TCP, ethernet, in_frame, ipv4, tagged, udp, udp6
from kernel.plans import V2, V3, Case, Feed, Read, Stats
from kernel.sockets import Instruction, Request

Program = tuple[Instruction, ...]

W, H, B = 0x00, 0x08, 0x10  # sizes of a load
ABS, IND, IMM, MEM, LEN, MSH = 0x20, 0x40, 0x00, 0x60, 0x80, 0xA0  # its places
ALU = {
    "add": 0x00, "sub": 0x10, "mul": 0x20, "div": 0x30, "or": 0x40, "and": 0x50, "lsh": 0x60,
    "rsh": 0x70, "mod": 0x90, "xor": 0xA0
}
JUMPS = {"jeq": 0x10, "jgt": 0x20, "jge": 0x30, "jset": 0x40}
ANCILLARY = {
    "protocol": 0, "pkttype": 4, "ifindex": 8, "queue": 24, "hatype": 28, "rxhash": 32, "cpu": 36
}
ALL = 0xFFFFFFFF


def ld(size: int, k: int, place: int = ABS) -> Instruction:
    return (size + place, 0, 0, k)


def ldx(k: int, place: int = IMM, size: int = W) -> Instruction:
    return (0x01 + size + place, 0, 0, k)


def alu(word: str, k: int | None = None) -> Instruction:
    """With a number, or with X."""
    return (0x04 + ALU[word] + (0x08 if k is None else 0), 0, 0, k or 0)


def jump(word: str, k: int | None, yes: int, no: int) -> Instruction:
    return (0x05 + JUMPS[word] + (0x08 if k is None else 0), yes, no, k or 0)


def ret(k: int) -> Instruction:
    return (0x06, 0, 0, k)


def extra(word: str) -> Instruction:
    return ld(W, 0xFFFFF000 + ANCILLARY[word])


TAX, TXA, NEG, RET_A = (0x07, 0, 0, 0), (0x87, 0, 0, 0), (0x84, 0, 0, 0), (0x16, 0, 0, 0)
TELL = (alu("mod", 997), alu("add", 100), RET_A)  # returns what A is


def st(k: int) -> Instruction:
    return (0x02, 0, 0, k)


def stx(k: int) -> Instruction:
    return (0x03, 0, 0, k)


LONG = ("10.1.2.3", 1024), ("10.200.7.9", 53)
FRAMES = [
    udp(*LONG, 1200, 1), udp(("192.168.255.254", 65_535), ("1.2.3.4", 1), 1300, 2, TCP),
    udp6(("fe80" + "01" * 14, 5353), ("ff02" + "00" * 13 + "fb", 5353), 1250, 3),
    in_frame(ipv4(bytes(range(256)) * 5, options=b"\x01" * 12, ident=4)), ethernet(1400, 5, 0x0806),
    tagged(1300, 0x2064, 6), in_frame(ipv4(bytes(1200), ident=7), to=BROADCAST),
    ethernet(1210, 8, to=MULTICAST),
]
PLAN = tuple(Feed(frame) for frame in FRAMES)
ROOM = Request(4096, 8, 2048, 16)


def of(
    name: str, shows: str, *program: Instruction, plan: tuple[Feed, ...] = PLAN, version: str = V3,
    **more: object
) -> Case:
    return Case(f"filter_{name}", shows, plan, version, ROOM, program=tuple(program), **more)


def loads() -> list[Case]:
    ip = 14  # where the network header begins
    return [
        of("ld_word", "a word at a place", ld(W, 26), *TELL),
        of("ld_half", "a half word", ld(H, 16), *TELL), of("ld_byte", "a byte", ld(B, 23), *TELL),
        of("ld_odd", "a word at an odd place", ld(W, 27), *TELL),
        of("ld_type", "the type field of a tagged frame is that behind the tag", ld(H, 12), *TELL),
        of("ld_word_indexed", "a word at X and a number", ldx(20), ld(W, 6, IND), *TELL),
        of("ld_half_indexed", "a half word there", ldx(13), ld(H, 3, IND), *TELL),
        of("ld_byte_indexed", "a byte there", ldx(1000), ld(B, 100, IND), *TELL),
        of("ld_immediate", "a number", ld(W, 123_456_789, IMM), *TELL),
        of(
            "ld_memory", "a word of memory, stored from A", ld(W, 30), st(3), ld(W, 7, IMM),
            ld(W, 3, MEM), *TELL
        ),
        of(
            "ldx_memory", "into X, stored from X", ldx(77), stx(15), ldx(0), ldx(15, MEM), TXA,
            *TELL
        ),
        of("ld_length", "the length on the wire", ld(W, 0, LEN), *TELL),
        of("ldx_length", "the same into X", ldx(0, LEN), TXA, *TELL),
        of("ldx_immediate", "a number into X", ldx(4_000_000_000), TXA, *TELL),
        of(
            "ldx_header", "four times a low half byte: the length of an IPv4 header",
            ldx(ip, MSH, B), TXA, *TELL
        ),
        of(
            "ports_behind_header", "the ports behind a header of its own length", ldx(ip, MSH, B),
            ld(H, ip + 2, IND), *TELL
        ),
        of("ld_past_end", "a word that reaches past the frame ends with 0", ld(W, 1255), *TELL),
        of(
            "ld_last_byte", "the last byte of a frame, and the one behind it", ldx(0, LEN), TXA,
            alu("sub", 1), TAX, ld(B, 0, IND), *TELL
        ),
        of("ld_behind_last", "one behind the last", ldx(0, LEN), ld(B, 0, IND), ret(ALL)),
        of("ldx_header_past_end", "a half byte past the frame", ldx(1255, MSH, B), ret(200)),
        of("no_filter_but_all", "a number above the frame's length keeps all", ret(ALL)),
        of("ret_small", "a few bytes", ret(1)),
        of("ret_header", "the Ethernet header alone", ret(14)),
        of("ret_nothing", "0 counts nowhere", ret(0)),
        of("ret_a_zero", "0 in A too", ld(W, 0, IMM), RET_A),
    ]


def operations() -> list[Case]:
    found = []
    for word in ALU:
        k = 13 if word in ("lsh", "rsh") else 1_000_003
        found.append(of(f"alu_{word}", f"{word} with a number", ld(W, 26), alu(word, k), *TELL))
        to_x = (ld(B, 29), alu("and", 31), TAX) if word in ("lsh", "rsh") else (
            ld(W, 30), alu("or", 1), TAX
        )
        found.append(of(f"alu_{word}_x", f"{word} with X", *to_x, ld(W, 26), alu(word), *TELL))
    found += [
        of("alu_neg", "0 less A", ld(W, 26), NEG, *TELL),
        of(
            "alu_wraps", "sums wrap at 32 bits", ld(W, ALL, IMM), alu("add", 2),
            alu("mul", 0x10001), alu("sub", 70_000), *TELL
        ),
        of(
            "div_by_zero_x", "a division by X = 0 ends with 0", ldx(0), ld(W, 26), alu("div"),
            ret(ALL)
        ),
        of("mod_by_zero_x", "a remainder too", ldx(0), ld(W, 26), alu("mod"), ret(ALL)),
        of("tax_txa", "A and X change places", ld(W, 26), TAX, ld(W, 1, IMM), TXA, *TELL),
    ]
    return found


def jumps() -> list[Case]:
    found = []
    for word, k in (
        ("jeq", 0x0A010203), ("jgt", 0x0A010203), ("jge", 0x0A010203), ("jset", 0x00800000)
    ):
        found.append(
            of(
                f"{word}", f"{word} with a number", ld(W, 26), jump(word, k, 0, 1), ret(200),
                ret(300)
            )
        )
        found.append(
            of(
                f"{word}_x", f"{word} with X", ldx(k), ld(W, 26), jump(word, None, 1, 0), ret(200),
                ret(300)
            )
        )
    found += [
        of("ja", "a jump past instructions", (0x05, 0, 0, 2), ret(1), ret(2), ret(222)),
        of(
            "udp_port", "a program as tcpdump writes it: UDP to port 53, the first 96 bytes",
            ld(H, 12), jump("jeq", 0x0800, 0, 8), ld(B, 23), jump("jeq", 17, 0, 6), ld(H, 20),
            jump("jset", 0x1FFF, 4, 0), ldx(14, MSH, B), ld(H, 16, IND), jump("jeq", 53, 0, 1),
            ret(96), ret(0)
        ),
        of(
            "types_in_turn", "some frames pass whole, some cut, some not at all", ld(H, 12),
            jump("jeq", 0x0800, 3, 0), jump("jeq", 0x86DD, 1, 0), ret(0), ret(60), ret(ALL)
        ),
    ]
    return found


def around() -> list[Case]:
    """What a program knows beside the frame."""
    four = tuple(Feed(frame, cpu) for cpu, frame in enumerate(FRAMES[:4]))
    return [
        of("protocol", "the protocol", extra("protocol"), *TELL),
        of("packet_type", "the packet type", extra("pkttype"), *TELL),
        of("hardware_type", "the hardware's type", extra("hatype"), *TELL),
        of("cpu", "the CPU", extra("cpu"), *TELL, plan=four, cpus=(0, 1, 2, 3)),
        of("queue", "the queue", extra("queue"), *TELL, plan=four, cpus=(0, 1, 2, 3)),
        of("slots", "a filter over slots", ld(W, 26), *TELL, version=V2),
        of(
            "slots_in_turn", "frames that don't pass take no slot", ld(H, 12),
            jump("jeq", 0x0800, 0, 1), ret(ALL), ret(0), version=V2
        ),
    ]


def in_rings() -> list[Case]:
    """What a filter leaves is what a block has to have room for."""
    by_size = (ld(W, 0, LEN), jump("jgt", 1000, 0, 1), ret(40), ret(0))
    big = [ethernet(1400, at) for at in range(60)]
    mixed = [ethernet(1400 if at % 3 else 900, at) for at in range(40)]
    return [
        Case(
            "filter_small_packets",
            "packets that are cut to 40 bytes: 31 to a block and 80 bytes left",
            tuple(map(Feed, big)), request=Request(4096, 3, 2048, 6), program=by_size
        ),
        Case(
            "filter_not_counted", "frames that don't pass count in no statistics and leave no gap",
            (*map(Feed, mixed[:20]), Stats(), *map(Feed, mixed[20:]), Stats()),
            request=Request(4096, 2, 2048, 4), program=by_size
        ),
        Case(
            "filter_while_frozen", "frozen, they aren't drops",
            (
                *(Feed(frame) for frame in [*big[:5], *mixed[:9]]), Stats(), Read(),
                *map(Feed, mixed[9:15])
            ),
            request=Request(4096, 2, 2048, 4),
            program=(ld(W, 0, LEN), jump("jgt", 1000, 0, 1), ret(ALL), ret(0))
        ),
    ]


CASES = [*loads(), *operations(), *jumps(), *around(), *in_rings()]
