#!/usr/bin/env python3
"""Makes the table of this folder anew: `stdin`, the filters and frames, and `stdout`, the verdicts of libpcap.

It needs tcpdump and libpcap, which the repository's own checks don't: they read the table as it stands here.
The programs are those that `tcpdump -ddd` writes for the expressions below, and some of random instructions, so that
each code stands in a program. The verdicts are those of `bpf_filter` of libpcap. The ancillary loads, which libpcap's
function doesn't have, come last, with verdicts that follow from the rule beside them. The program of this folder reads
`stdin` and prints its own verdicts, which have to be `stdout`.
"""
import ctypes
import os
import random
import socket
import struct
import subprocess

HERE = os.path.dirname(os.path.abspath(__file__))
PCAP = ctypes.CDLL("libpcap.so.0.8")


class Insn(ctypes.Structure):
    """struct bpf_insn"""

    _fields_ = [("code", ctypes.c_ushort), ("jt", ctypes.c_ubyte), ("jf", ctypes.c_ubyte), ("k", ctypes.c_uint)]


PCAP.bpf_filter.restype = ctypes.c_uint
PCAP.bpf_filter.argtypes = [ctypes.POINTER(Insn), ctypes.c_char_p, ctypes.c_uint, ctypes.c_uint]
PCAP.bpf_validate.argtypes = [ctypes.POINTER(Insn), ctypes.c_int]

EXPRESSIONS = """
ip
arp
ip6
not ip and not ip6
tcp
udp
icmp
icmp6
igmp
sctp
ip proto 47
ip6 proto 58
host 10.0.0.1
src host 10.0.0.1 and dst port 53
net 192.168.0.0/16
ip6 net 2001:db8::/32
port 80 or port 443
tcp portrange 1000-2000
udp src port 53
tcp[tcpflags] & (tcp-syn|tcp-fin) != 0
tcp port 80 and (((ip[2:2] - ((ip[0]&0xf)<<2)) - ((tcp[12]&0xf0)>>2)) != 0)
icmp[icmptype] = icmp-echo
ip[6:2] & 0x1fff != 0
ip[6] & 0x20 != 0 or ip[6:2] & 0x1fff > 0
ip[8] < 5
ip[0] & 0xf != 5
ip[2:2] * 3 > 200
ip[4:2] / 7 = 6
ip[4:2] % 7 = 3
ip[12:4] ^ ip[16:4] < 256
(ip[8] << 3) + 2 > ip[2:2]
ip[1] | ip[8] >= 64
ether broadcast
ether multicast
ether[0] & 1 = 0 and ip[16] >= 224
ether src 02:00:00:00:00:01
ether proto 0x88cc
vlan
vlan 100 and ip
vlan and vlan 7 and udp
mpls 100
pppoes
stp
llc
greater 100
less 60
len >= 60 and len <= 64
udp[8:2] = 0x1234 and udp[4:2] > 10
ip6[6] = 17 and ip6[40:2] = 5353
""".strip().split("\n")


def ethernet(kind, payload, to="020000000002", source="020000000001"):
    return bytes.fromhex(to + source) + struct.pack(">H", kind) + payload


def ipv4(proto, payload, source="10.0.0.1", dest="10.1.0.9", ident=45, flags=0x4000, ttl=64, tos=0, options=b""):
    words = 5 + len(options) // 4
    return (
        struct.pack(">BBHHHBBH", 0x40 + words, tos, 4 * words + len(payload), ident, flags, ttl, proto, 0)
        + socket.inet_aton(source) + socket.inet_aton(dest) + options + payload
    )


def ipv6(proto, payload, source="2001:db8::1", dest="2001:db8::2"):
    return (
        struct.pack(">IHBB", 0x60000000, len(payload), proto, 64)
        + socket.inet_pton(socket.AF_INET6, source) + socket.inet_pton(socket.AF_INET6, dest) + payload
    )


def tcp(source, dest, flags, data=b""):
    return struct.pack(">HHIIBBHHH", source, dest, 1, 2, 0x50, flags, 8192, 0, 0) + data


def udp(source, dest, data=b""):
    return struct.pack(">HHHH", source, dest, 8 + len(data), 0) + data


def padded(frame):
    return frame + bytes(max(0, 60 - len(frame)))


def frames():
    """Pairs of captured bytes and length on the wire."""
    dns = udp(40000, 53, bytes.fromhex("123401000001000000000000") + b"\x03www\x07example\x03org\x00\x00\x01\x00\x01")
    web = tcp(50000, 80, 0x18, b"GET / HTTP/1.1\r\nHost: example.org\r\n\r\n")
    whole = [
        ethernet(0x0806, bytes.fromhex("0001080006040001020000000001") + socket.inet_aton("10.0.0.1")
                 + bytes(6) + socket.inet_aton("10.0.0.2"), to="ffffffffffff"),
        ethernet(0x0800, ipv4(6, tcp(50000, 80, 0x02))),
        ethernet(0x0800, ipv4(6, web)),
        ethernet(0x0800, ipv4(6, tcp(80, 50000, 0x10), source="10.1.0.9", dest="10.0.0.1", ttl=3)),
        ethernet(0x0800, ipv4(6, tcp(1443, 443, 0x11), source="192.168.7.8", dest="203.0.113.5")),
        ethernet(0x0800, ipv4(17, dns)),
        ethernet(0x0800, ipv4(17, udp(53, 40000, bytes(200)), source="10.1.0.9", dest="10.0.0.1", ident=40)),
        ethernet(0x0800, ipv4(17, udp(9, 9), options=bytes.fromhex("94040000"))),
        ethernet(0x0800, ipv4(1, bytes.fromhex("0800f7ff00000000") + bytes(40))),
        ethernet(0x0800, ipv4(1, bytes.fromhex("0000ffff00000000"), ttl=1)),
        ethernet(0x0800, ipv4(2, bytes.fromhex("1600f9fde0000001"), dest="224.0.0.1"), to="01005e000001"),
        ethernet(0x0800, ipv4(132, bytes(12), ident=1001)),
        ethernet(0x0800, ipv4(47, bytes.fromhex("00000800") + ipv4(17, dns), ident=24)),
        ethernet(0x0800, ipv4(17, udp(1, 2, bytes(16)), flags=0x2000)),
        ethernet(0x0800, ipv4(17, bytes(24), flags=0x0003)),
        ethernet(0x0800, ipv4(89, bytes(44), dest="224.0.0.5", tos=0xc0, ttl=1), to="01005e000005"),
        ethernet(0x0800, ipv4(6, web, dest="233.252.0.1")),
        ethernet(0x86dd, ipv6(6, tcp(50000, 443, 0x02))),
        ethernet(0x86dd, ipv6(17, udp(5353, 5353, bytes(20)), dest="ff02::fb"), to="3333000000fb"),
        ethernet(0x86dd, ipv6(58, bytes.fromhex("8700000000000000") + bytes(16), dest="ff02::1:ff00:2"),
                 to="3333ff000002"),
        ethernet(0x86dd, ipv6(0, bytes.fromhex("3a00050200000000") + bytes(8), source="fe80::1")),
        ethernet(0x8100, bytes.fromhex("00640800") + ipv4(17, dns)),
        ethernet(0x8100, bytes.fromhex("e0070806") + bytes(28)),
        ethernet(0x88a8, bytes.fromhex("0064810000070800") + ipv4(17, dns)),
        ethernet(0x8847, bytes.fromhex("00064140") + ipv4(6, web)),
        ethernet(0x8864, bytes.fromhex("1100000100300021") + ipv4(17, dns)),
        ethernet(0x88cc, bytes.fromhex("020704020000000001040702000000000106020078") + bytes(2), to="0180c200000e"),
        ethernet(0x0026, bytes.fromhex("42420300000000008000020000000001") + bytes(24), to="0180c2000000"),
        ethernet(0x0022, bytes.fromhex("ffff0022000000000000") + bytes(24)),
        ethernet(0x9000, bytes(46)),
    ]
    result = [(padded(frame), max(60, len(frame))) for frame in whole]
    # cut short, as a capture with a small snap length is
    result += [(frame[:cut], len(frame)) for frame, cut in
               [(whole[1], 34), (whole[2], 36), (whole[5], 42), (whole[5], 44), (whole[17], 54), (whole[21], 17)]]
    result += [(whole[5][:13], 13), (b"", 0)]
    return result


ARITHMETIC = [0x04, 0x14, 0x24, 0x34, 0x44, 0x54, 0x64, 0x74, 0x94, 0xa4]
TESTS = [0x15, 0x25, 0x35, 0x45]


def random_program(source, length):
    """Instructions at random that load what was stored, with jumps that end within the program."""
    code, stored = [], set()
    for at in range(length):
        behind = length - at
        kind = source.randrange(12)
        if kind == 0:
            code.append((source.choice([0x00, 0x01]), 0, 0, source.choice([0, 1, 3, 31, 32, 40, 2**31, 2**32 - 1])))
        elif kind <= 2:
            code.append((source.choice([0x20, 0x28, 0x30]), 0, 0, source.randrange(62)))
        elif kind == 3:
            code.append((source.choice([0x40, 0x48, 0x50]), 0, 0, source.choice([0, 1, 14, 2**32 - 1])))
        elif kind == 4:
            code.append((source.choice([0x80, 0x81, 0xb1]), 0, 0, 14))
        elif kind == 5:
            word = source.randrange(16)
            stored.add(word)
            code.append((source.choice([0x02, 0x03]), 0, 0, word))
        elif kind == 6 and stored:
            code.append((source.choice([0x60, 0x61]), 0, 0, source.choice(sorted(stored))))
        elif kind <= 8:
            operation = source.choice(ARITHMETIC)
            least, most = (1, 9) if operation in (0x34, 0x94) else (0, 31) if operation in (0x64, 0x74) else (0, 2**32 - 1)
            code.append((operation + source.choice([0, 8]), 0, 0, source.randint(least, most)))
        elif kind == 9:
            code.append((source.choice([0x84, 0x07, 0x87]), 0, 0, 0))
        elif not stored or behind < 3:
            # a jump may pass over a store, so none stands before the last one of it
            code.append((source.choice([0x07, 0x87]), 0, 0, 0))
        else:
            jump = source.choice([0x05] + [test + place for test in TESTS for place in (0, 8)])
            far = min(4, behind)
            if jump == 0x05:
                code.append((jump, 0, 0, source.randrange(far)))
            else:
                code.append((jump, source.randrange(far), source.randrange(far), source.choice([0, 7, 64, 2048])))
    code.append(source.choice([(0x06, 0, 0, 77), (0x16, 0, 0, 0)]))
    # each word is written before anything else
    stores = [(0x00, 0, 0, source.randrange(2**32))] + [(0x02, 0, 0, word) for word in sorted(stored)]
    return stores + code


def programs(packets):
    for expression in EXPRESSIONS:
        text = subprocess.run(["tcpdump", "-ddd", "-y", "EN10MB", expression], capture_output=True, text=True, check=True)
        yield expression, text.stdout
    source = random.Random(20)
    number = 0
    while number < 60:
        code = random_program(source, source.randrange(4, 40))
        text = "%d\n" % len(code) + "".join("%d %d %d %d\n" % insn for insn in code)
        if len(set(verdicts(text, packets))) > 2:
            number += 1
            yield "random %d" % number, text


def verdicts(text, packets):
    """What libpcap answers for the program of a text on each packet."""
    rows = [tuple(map(int, line.split())) for line in text.splitlines()[1:]]
    code = (Insn * len(rows))(*rows)
    assert PCAP.bpf_validate(code, len(rows)), text
    return [PCAP.bpf_filter(code, data, wire, len(data)) for data, wire in packets]


# What the frames have beside their bytes: protocol, packet type, queue, hash, CPU.
FACTS = (0x0806, 2, 70001, 0x51CCC178, 5)

# The ancillary loads of linux/filter.h: the place SKF_AD_OFF (-0x1000) plus a number, and what A then is. ld, ldh and ldb
# load the whole number alike, and no byte of the frame is read, so the empty frame has the same verdict. There is one
# interface, of Ethernet: its index and its hardware type (ARPHRD_ETHER) are 1.
ANCILLARY = [
    ("protocol", 0, FACTS[0]),
    ("packet type", 4, FACTS[1]),
    ("interface index", 8, 1),
    ("queue", 24, FACTS[2]),
    ("hardware type", 28, 1),
    ("receive hash", 32, FACTS[3]),
    ("cpu", 36, FACTS[4]),
]
LOADS = [("ld", 0x20), ("ldh", 0x28), ("ldb", 0x30)]


def ancillary():
    """A name, the text `A = the number; answer A`, and the verdict."""
    for (name, place, value), (load, code) in zip(ANCILLARY, LOADS * 3):
        yield "%s %s" % (load, name), "2\n%d 0 0 %d\n22 0 0 0\n" % (code, 0xFFFFF000 + place), value


def main():
    packets = frames()
    with open(os.path.join(HERE, "stdin"), "w") as table, open(os.path.join(HERE, "stdout"), "w") as answers:
        for data, wire in packets:
            table.write("frame %d %s\n" % (wire, data.hex()))
        for name, text in programs(packets):
            table.write("filter %s\n%send\n" % (name, text))
            answers.write("%s: %s\n" % (name, " ".join(map(str, verdicts(text, packets)))))
        table.write("facts %d %d %d %d %d\n" % FACTS)
        for name, text, verdict in ancillary():
            table.write("filter %s\n%send\n" % (name, text))
            answers.write("%s: %s\n" % (name, " ".join([str(verdict)] * len(packets))))


main()
