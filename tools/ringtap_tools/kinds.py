"""What a file is that ringtap refuses as a capture, and what is wrong where a capture ends
early."""
from __future__ import annotations

import os
import re
import shlex
import stat
from pathlib import Path

from .captures import LARGEST_CAPTURE, CaptureStream
from .documents import plain, table_with
from .files import Fault

# How a file begins, what it is then, and the program by which it becomes a capture.
KINDS: list[tuple[bytes, str, str]] = [
    (b"\x1f\x8b", "gzip", "gzip -dc {file} >{bare}"),
    (b"\x28\xb5\x2f\xfd", "zstd", "zstd -dc {file} >{bare}"),
    (b"\xfd7zXZ\0", "xz", "xz -dc {file} >{bare}"),
    (b"BZh", "bzip2", "bzip2 -dc {file} >{bare}"),
    (b"\x04\x22\x4d\x18", "lz4", "lz4 -dc {file} >{bare}"),
    (b"PK\x03\x04", "a zip archive", "unzip {file}"),
    (b"snoop\0\0\0", "snoop", "editcap -F pcap {file} {new}"),
    (b"btsnoop\0", "btsnoop, of Bluetooth", ""),
    (b"GMBU", "a capture of Microsoft's Network Monitor 2", "editcap -F pcap {file} {new}"),
    (b"RTSS", "a capture of Microsoft's Network Monitor 1", "editcap -F pcap {file} {new}"),
    (b"TRSNIFF data    \x1a", "a capture of Sniffer", "editcap -F pcap {file} {new}"),
    (b"XCP\0", "a capture of NetXRay", "editcap -F pcap {file} {new}"),
    (
        b"\x34\xcd\xb2\xa1",
        "pcap of a modified libpcap (magic 0xa1b2cd34)",
        "tcpdump -r {file} -w {new}",
    ),
    (
        b"\xa1\xb2\xcd\x34",
        "pcap of a modified libpcap (magic 0xa1b2cd34)",
        "tcpdump -r {file} -w {new}",
    ),
    (b"\x0a\x0d\x0d\x0a", "pcapng whose section has no byte-order magic", ""),
    (b"\x7fELF", "a program", ""),
    (b"%PDF", "a PDF", ""),
    (b"SQLite format 3\0", "an SQLite database", ""),
]
# Link types of tcpdump.org's list that captures have.
LINK_TYPES = {
    0: "BSD loopback",
    1: "Ethernet",
    3: "AX.25",
    6: "802.5 token ring",
    8: "SLIP",
    9: "PPP",
    10: "FDDI",
    12: "raw IP",
    14: "raw IP",
    50: "PPP in HDLC",
    51: "PPPoE",
    100: "ATM, RFC 1483",
    101: "raw IP",
    104: "Cisco HDLC",
    105: "802.11",
    107: "frame relay",
    108: "OpenBSD loopback",
    113: "Linux cooked, as of `tcpdump -i any`",
    117: "OpenBSD pflog",
    119: "802.11 with a Prism header",
    127: "802.11 radiotap",
    143: "DOCSIS",
    163: "802.11 with an AVS header",
    187: "Bluetooth HCI",
    189: "USB of Linux",
    192: "PPI",
    195: "802.15.4",
    201: "Bluetooth HCI",
    220: "USB of Linux",
    227: "CAN",
    228: "raw IPv4",
    229: "raw IPv6",
    230: "802.15.4",
    239: "NFLOG",
    249: "USBPcap",
    251: "Bluetooth LE",
    253: "netlink",
    276: "Linux cooked version 2, as of `tcpdump -i any`",
}
HEAD = 512  # bytes by which a file is known


def kind_of(head: bytes) -> tuple[str, str]:
    """What begins so, and how it becomes a capture, if that is known."""
    for magic, name, way in KINDS:
        if head.startswith(magic):
            return name, way
    if not head:
        return "empty", ""
    if not head.strip(b"\0"):
        return (
            "nothing but zeros at its begin: a file whose disk was full, or that was never written",
            "",
        )
    if head[257:262] == b"ustar":
        return "a tar archive", "tar -xf {file}"
    return text_kind(head), ""


def text_kind(head: bytes) -> str:
    """What a text is, or that nothing is known."""
    try:
        text = head.decode("utf-8")
    except UnicodeDecodeError as error:
        text = head[: error.start].decode("utf-8") if error.start > len(head) - 4 else "\0"
    if not all(char.isprintable() or char in "\t\r\n" for char in text):
        return "of a kind that isn't known here"
    if re.match(r"\s*<(!doctype|html)", text, re.I):
        return "a text: a page of the web, perhaps in place of the capture that it speaks of"
    if re.match(r"\s*(?:0x)?0{4,8}:?\s+[0-9a-fA-F]{2}", text):
        return "a text: a hex dump, of which `text2pcap` makes a capture"
    return "a text"


def commands_for(way: str, path: Path) -> str:
    if not way:
        return ""
    bare = (
        path.with_suffix("")
        if path.suffix in (".gz", ".zst", ".xz", ".bz2", ".lz4")
        else path.with_name(path.name + ".pcap")
    )
    new = path.with_name(path.stem + ".new.pcap")
    return (
        ": `"
        + way.format(
            **{
                name: shlex.quote(str(file))
                for name, file in [("file", path), ("bare", bare), ("new", new)]
            }
        )
        + "`"
    )


def advice(end: str) -> str:
    """What docs/reference.md says of an end."""
    word = end.split()[0]
    for row in table_with({"Word", "The capture", "What to do"}):
        if row["Word"].strip("`").split()[0] == word:
            return f"{plain(row['The capture'])}: {plain(row['What to do'])}"
    return ""


def why_of(path: Path) -> str | None:
    """The system's reason why a file can't be read; None where it can."""
    try:
        with open(path, "rb", opener=lambda name, how: os.open(name, how | os.O_NONBLOCK)) as file:
            if stat.S_ISREG(os.fstat(file.fileno()).st_mode):
                file.read(1)
    except OSError as error:
        return error.strerror
    return None


def is_regular(path: Path) -> bool:
    """Whether a file can be looked at again, as a pipe can't."""
    return path.is_file()


def explain_end(path: Path, end: str) -> str | None:
    """Why a capture ended as the program printed; None where it is whole."""
    word = end.split()[0]
    if word == "ok":
        return None
    if word == "fault":
        return f"{path}: {why_of(path) or 'a read failed'}"
    if not is_regular(path):
        return f"{path} {advice(end)}"
    makers = {
        "bad_magic": explain_magic,
        "bad_version": explain_header,
        "bad_link": explain_header,
        "bad_length": explain_length,
        "truncated": explain_cut,
        "too_large": explain_large,
    }
    told = makers[word](path, int(end.split()[1])) if word in makers else ""
    return f"{path} {told or advice(end)}"


def bytes_at(path: Path, place: int, count: int) -> bytes:
    try:
        with open(path, "rb") as file:
            file.seek(place)
            return file.read(count)
    except OSError:
        return b""


def explain_magic(path: Path, _: int) -> str:
    name, way = kind_of(bytes_at(path, 0, HEAD))
    return f"is {name}, and ringtap reads pcap and pcapng{commands_for(way, path)}"


def explain_header(path: Path, _: int) -> str:
    """What the reader of captures says of the header; of a link type its name too."""
    try:
        stream = CaptureStream(path)
        stream.is_explained = False
        for _ in stream:
            pass
    except Fault as fault:
        told = re.sub(r"^(, byte \d+)?: ", "", str(fault).removeprefix(str(path)))
        told = re.sub(
            r"link type (\d+)",
            lambda found: f"{found[0]} ({LINK_TYPES.get(int(found[1]), 'unknown')})",
            told,
        )
        way = (
            "capture on one Ethernet device"
            if "link type" in told
            else f"`tcpdump -r {shlex.quote(str(path))} -w NEW.pcap` writes 2.4"
        )
        return f"{told}: {way}"
    return ""


def is_pcapng(path: Path) -> bool:
    return bytes_at(path, 0, 4) == b"\x0a\x0d\x0d\x0a"


def record_length(path: Path, place: int) -> int:
    """The captured length of a record of a pcap file."""
    order = (
        "little" if bytes_at(path, 0, 4) in (b"\xd4\xc3\xb2\xa1", b"\x4d\x3c\xb2\xa1") else "big"
    )
    return int.from_bytes(bytes_at(path, place + 8, 4), order)


def explain_length(path: Path, place: int) -> str:
    if is_pcapng(path):
        return (
            f"has a block at byte {place} with a length that it may not have; what precedes it"
            " was run"
        )
    return (
        f"has a record at byte {place} that says {record_length(path, place):,} bytes, of at most"
        " 262,144; what precedes it was run"
    )


def explain_cut(path: Path, place: int) -> str:
    size = path.stat().st_size
    if place == 0:
        return f"has {size} bytes, and the header of a capture has more" if size else "is empty"
    if is_pcapng(path):
        return (
            f"ends within the block at byte {place}, after {size - place} bytes of it; what"
            " precedes it was run"
        )
    if size < place + 16:
        return (
            f"ends within the record at byte {place}, after {size - place} bytes of its header;"
            " what precedes it was run"
        )
    lacks = place + 16 + record_length(path, place) - size
    return (
        f"ends within the record at byte {place}, of which {lacks:,} bytes aren't there; what"
        " precedes it was run"
    )


def explain_large(path: Path, _: int) -> str:
    name, size = shlex.quote(str(path)), path.stat().st_size
    return (
        f"has {size:,} bytes, of which the first {LARGEST_CAPTURE:,} were run: `tcpdump -r"
        f" {name} -C 33 -w part.pcap` makes parts of it"
    )
