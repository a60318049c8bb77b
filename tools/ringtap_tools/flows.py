"""Names the flow of a frame: protocol, addresses and ports, both directions alike."""
from __future__ import annotations

from ipaddress import ip_address

VLAN_TYPES = (b"\x81\x00", b"\x88\xa8")
IPV4, IPV6 = b"\x08\x00", b"\x86\xdd"
PORTED = {6: "TCP", 17: "UDP"}
PROTOCOLS = {
    1: "ICMP",
    2: "IGMP",
    47: "GRE",
    50: "ESP",
    58: "ICMPv6",
    89: "OSPF",
    132: "SCTP",
    **PORTED,
}

End = tuple[bytes, bytes]  # address and port, which may be empty
Flow = tuple[str, End, End]  # the protocol, and the smaller end first

NOTHING: End = (b"", b"")


def flow_of(data: bytes) -> Flow:
    """The flow of a frame with its Ethernet header; what is neither IPv4 nor IPv6 is told apart by
    its type field alone."""
    at = 12
    while data[at : at + 2] in VLAN_TYPES:
        at += 4
    kind, packet = data[at : at + 2], data[at + 2 :]
    if kind == IPV4 and len(packet) >= 20:
        is_part = int.from_bytes(packet[6:8], "big") & 0x3FFF != 0
        return ends_of(
            packet[9],
            packet[12:16],
            packet[16:20],
            b"" if is_part else packet[4 * (packet[0] & 15) :],
        )
    if kind == IPV6 and len(packet) >= 40:
        return ends_of(packet[6], packet[8:24], packet[24:40], packet[40:])
    return (f"type 0x{kind.hex()}" if len(kind) == 2 else "cut before its type"), NOTHING, NOTHING


def ends_of(protocol: int, source: bytes, target: bytes, rest: bytes) -> Flow:
    has_ports = protocol in PORTED and len(rest) >= 4
    near, far = sorted(
        [(source, rest[:2] if has_ports else b""), (target, rest[2:4] if has_ports else b"")]
    )
    return PROTOCOLS.get(protocol, f"protocol {protocol}"), near, far


def end_words(end: End) -> str:
    address, port = end
    words = str(ip_address(address))
    if not port:
        return words
    return (
        f"[{words}]:{int.from_bytes(port, 'big')}"
        if len(address) == 16
        else f"{words}:{int.from_bytes(port, 'big')}"
    )


def flow_words(flow: Flow) -> str:
    name, near, far = flow
    return f"{name} {end_words(near)} {end_words(far)}" if near[0] else name
