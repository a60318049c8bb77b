#!/usr/bin/env python3
"""A network of this process's own: a namespace with a pair of virtual Ethernet devices, and
nothing else in it.

The namespace has no name, so it and its devices are gone when the process ends, however it ends.
Frames go in at one device and come out of the other, on the CPU that sends them. A witness, the
first socket of the receiving device and so the last that gets a frame, says when a frame has
been through all rings.
"""
from __future__ import annotations

import ctypes
import fcntl
import os
import socket
import struct
from pathlib import Path

CLONE_NEWUSER, CLONE_NEWNET = 0x10000000, 0x40000000
NLM_REQUEST, NLM_ACK, NLM_CREATE, NLM_EXCL = 1, 4, 0x400, 0x200
NEW_LINK, NLMSG_ERROR = 16, 2
IFLA_ADDRESS, IFLA_IFNAME, IFLA_MTU, IFLA_LINKINFO, IFLA_TX_QUEUES, IFLA_RX_QUEUES = (
    1, 3, 4, 18, 31, 32
)
INFO_KIND, INFO_DATA, VETH_PEER = 1, 2, 1
SIOCGIFFLAGS, SIOCSIFFLAGS, IFF_UP = 0x8913, 0x8914, 1
ETH_P_ALL = 3
SOL_PACKET, QDISC_BYPASS, IGNORE_OUTGOING = 263, 20, 23

SENDER, RECEIVER = "ringtap0", "ringtap1"
SENDER_MAC, RECEIVER_MAC = bytes.fromhex("020000000001"), bytes.fromhex("020000000002")
LARGEST = 65_535  # the devices' MTU
QUEUES = 4
SECONDS = 10  # that a frame may take from one device to the other


class NoRight(Exception):
    """This process may not make a network, or not open such sockets; the text says which."""


def unshare(flags: int) -> None:
    libc = ctypes.CDLL(None, use_errno=True)
    if libc.unshare(flags) != 0:
        raise NoRight(f"a network namespace can't be made ({os.strerror(ctypes.get_errno())})")


def enter_namespace() -> None:
    """Goes into a new network namespace; without the right to make one into that of a new user
    namespace, in which this user is root."""
    try:
        unshare(CLONE_NEWNET)
        return
    except NoRight:
        user, group = os.getuid(), os.getgid()
    unshare(CLONE_NEWUSER | CLONE_NEWNET)
    for name, text in (
        ("setgroups", "deny"), ("uid_map", f"0 {user} 1"), ("gid_map", f"0 {group} 1")
    ):
        Path("/proc/self", name).write_text(text, encoding="ascii")


def attribute(kind: int, value: bytes) -> bytes:
    return struct.pack("=HH", 4 + len(value), kind) + value + bytes(-len(value) % 4)


def device(name: str, mac: bytes) -> bytes:
    """The attributes of one of the two devices."""
    numbers = ((IFLA_MTU, LARGEST), (IFLA_TX_QUEUES, QUEUES), (IFLA_RX_QUEUES, QUEUES))
    sizes = b"".join(attribute(kind, struct.pack("=I", number)) for kind, number in numbers)
    return attribute(IFLA_IFNAME, name.encode() + b"\0") + attribute(IFLA_ADDRESS, mac) + sizes


def make_pair() -> None:
    """Asks the kernel for both devices, by rtnetlink."""
    nothing = struct.pack("=BxHiII", 0, 0, 0, 0, 0)
    peer = attribute(VETH_PEER, nothing + device(RECEIVER, RECEIVER_MAC))
    kind = attribute(INFO_KIND, b"veth") + attribute(INFO_DATA, peer)
    body = nothing + device(SENDER, SENDER_MAC) + attribute(IFLA_LINKINFO, kind)
    flags = NLM_REQUEST | NLM_ACK | NLM_CREATE | NLM_EXCL
    with socket.socket(socket.AF_NETLINK, socket.SOCK_RAW, 0) as route:
        route.send(struct.pack("=IHHII", 16 + len(body), NEW_LINK, flags, 1, 0) + body)
        answer = route.recv(4096)
    kind_of_answer, fault = struct.unpack_from("=H", answer, 4)[0], struct.unpack_from(
        "=i", answer, 16
    )[0]
    if kind_of_answer != NLMSG_ERROR or fault:
        raise NoRight(f"virtual Ethernet devices can't be made ({os.strerror(-fault)})")


def bring_up(name: str) -> None:
    with socket.socket(socket.AF_INET, socket.SOCK_DGRAM) as any_socket:
        asked = fcntl.ioctl(any_socket, SIOCGIFFLAGS, struct.pack("16sH14x", name.encode(), 0))
        flags = struct.unpack_from("=H", asked, 16)[0] | IFF_UP
        fcntl.ioctl(any_socket, SIOCSIFFLAGS, struct.pack("16sH14x", name.encode(), flags))


def silence() -> None:
    """Keeps the kernel from sending frames of its own: with IPv6 each device would look for
    neighbours."""
    for path in Path("/proc/sys/net/ipv6/conf").glob("*/disable_ipv6"):
        path.write_text("1", encoding="ascii")


class Wire:
    """The two devices, the sockets that send and the witness."""

    def __init__(self) -> None:
        enter_namespace()
        self.cpus = sorted(os.sched_getaffinity(0))
        self.cpu = self.usual = self.cpus[os.getpid() % len(self.cpus)]
        os.sched_setaffinity(0, {self.cpu})
        self.open()

    def renew(self) -> None:
        """Goes into another namespace, in which nothing has come by yet."""
        for sock in (self.witness, self.out, self.back):
            sock.close()
        unshare(CLONE_NEWNET)
        self.open()

    def open(self) -> None:
        silence()
        make_pair()
        silence()
        for name in (SENDER, RECEIVER):
            bring_up(name)
        self.witness = self.opened_witness()
        self.index = socket.if_nametoindex(RECEIVER)
        self.out, self.back = self.opened_sender(SENDER), self.opened_sender(RECEIVER)
        self.out.setsockopt(SOL_PACKET, QDISC_BYPASS, 1)

    @staticmethod
    def opened_witness() -> socket.socket:
        try:
            witness = socket.socket(socket.AF_PACKET, socket.SOCK_RAW, 0)
        except PermissionError:
            raise NoRight("a packet socket can't be opened") from None
        witness.setsockopt(SOL_PACKET, IGNORE_OUTGOING, 1)
        witness.setsockopt(socket.SOL_SOCKET, socket.SO_RCVBUF, 1 << 22)
        witness.settimeout(SECONDS)
        witness.bind((RECEIVER, ETH_P_ALL))
        return witness

    @staticmethod
    def opened_sender(name: str) -> socket.socket:
        """A socket that only sends."""
        sender = socket.socket(socket.AF_PACKET, socket.SOCK_RAW, 0)
        sender.bind((name, 0))
        return sender

    def go_to(self, cpu: int) -> None:
        """Goes on on a CPU."""
        if cpu != self.cpu:
            os.sched_setaffinity(0, {cpu})
            self.cpu = cpu

    def send(self, frame: bytes) -> None:
        """Sends a frame. It is received on the same CPU, and goes by the transmit queue of the
        CPU's number."""
        self.out.send(frame)

    def seen(self) -> bytes:
        """The next frame that came through, without its VLAN tag. All rings are through with it."""
        return self.witness.recv(1 << 17)
