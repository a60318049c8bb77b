"""Reads captures as ringtap does, as a stream: pcap in its four magics, pcapng in both byte orders,
and gzip of either.

    stream = CaptureStream(path)
    for frame in stream: ...
    stream.end  # how the capture ends, in the words that ringtap prints

The rules are those of docs/reference.md, section 8. At most one record and one piece of the file
are in memory. A capture whose first header is refused has no frames, and is a `Fault`; one that is
damaged or cut later has the frames before that. ringtap doesn't read gzip itself, so a tool hands
it the bytes that `unpacked` gives.
"""
from __future__ import annotations

import io
import os
import stat
import struct
import sys
import zlib
from dataclasses import dataclass
from itertools import count
from pathlib import Path
from typing import BinaryIO, Callable, Iterator, NamedTuple

from .files import NANOSECONDS, Fault, Setup

LARGEST_CAPTURE = 33_554_432  # bytes of a capture that count
LARGEST_RECORD = 262_144  # captured bytes of a frame
LARGEST_READ_BLOCK = 524_288  # bytes of a pcapng block that is read
LARGEST_SECONDS = 4_294_967_295
PIECE, PACKED_PIECE = 262_144, 16_384  # bytes that are read at once
PCAP_UNITS = {0xA1B2C3D4: 1000, 0xA1B23C4D: 1}  # nanoseconds of a fraction, by the magic
PCAP_HEADER, RECORD_HEADER = 24, 16
PCAPNG_MAGIC = b"\x0a\x0d\x0d\x0a"
BYTE_ORDER_MAGIC = 0x1A2B3C4D
GZIP_MAGIC = b"\x1f\x8b"
# A gzip of more bytes than these that is so many times smaller is no capture's, or one of no use.
LEAST_UNPACKED, MOST_RATIO = 67_108_864, 200
SECTION, INTERFACE, SIMPLE, ENHANCED = 0x0A0D0D0A, 1, 3, 6  # types of pcapng blocks that are read
LEAST_LENGTHS = {SECTION: 28, INTERFACE: 20, ENHANCED: 32, SIMPLE: 16}
STATISTICS, ISB_IFDROP, ISB_OSDROP = 5, 5, 7  # a block of another type, and options of it
IF_TSRESOL = 9
ETHERNET = 1
MICROSECONDS = (1000, 1)


class Frame(NamedTuple):
    """One record of a capture."""

    index: int  # from 0
    time: int  # nanoseconds
    wire: int  # length on the wire, bytes
    data: bytes  # what was captured


class Run(NamedTuple):
    """Frames of a capture, one after another, in columns: times, lengths on the wire, and what was
    captured."""

    times: list[int]
    wires: list[int]
    frames: list[bytes]


class Interface(NamedTuple):
    """An interface of a pcapng section: how many bytes it captures at most (0: all), and its unit
    of time."""

    snap: int
    unit: tuple[int, int]  # nanoseconds of a unit, as a fraction


class RefusedHeader(Fault):
    """The first header of a capture is refused; `end` is how ringtap prints that."""

    def __init__(self, end: str, sentence: str) -> None:
        super().__init__(sentence)
        self.end = end


class Unpacker(io.RawIOBase):
    """The bytes of a gzip file, member by member. One that is cut gives what is there, and `is_cut`
    says so."""

    def __init__(self, path: Path, file: BinaryIO) -> None:
        self.path, self.file, self.is_cut = path, file, False
        self.member = zlib.decompressobj(wbits=31)
        self.packed = b""
        self.count = 0  # bytes that were unpacked

    def read(self, size: int = PIECE) -> bytes:
        """At most so many bytes; none at the end."""
        while True:
            if not self.packed:
                self.packed = self.file.read(PACKED_PIECE)
                if not self.packed:
                    self.is_cut = not self.member.eof
                    return b""
            if self.member.eof:
                self.next_member()
                continue
            piece = self.unpack(size)
            if piece:
                return piece

    def unpack(self, size: int) -> bytes:
        try:
            piece = self.member.decompress(self.packed, size)
        except zlib.error:
            raise Fault(
                f"{self.path}: its gzip is damaged, before byte {self.file.tell()}"
            ) from None
        self.packed = self.member.unused_data if self.member.eof else self.member.unconsumed_tail
        self.count += len(piece)
        if self.count > max(LEAST_UNPACKED, MOST_RATIO * self.file.tell()):
            raise Fault(
                f"{self.path}: its gzip unpacks to more than {MOST_RATIO} times its size, so it is"
                " read no further: unpack it by `gzip -dc`, and give that file"
            )
        return piece

    def next_member(self) -> None:
        """Begins the next member; zeros may fill a file up behind the last one."""
        self.packed = self.packed.lstrip(b"\0")
        if self.packed:
            self.member = zlib.decompressobj(wbits=31)

    def close(self) -> None:
        self.file.close()
        super().close()


class Joined(io.RawIOBase):
    """Bytes that were read already, and then the file that they are from."""

    def __init__(self, head: bytes, file: BinaryIO) -> None:
        self.head, self.file = head, file

    def read(self, size: int = PIECE) -> bytes:
        if self.head:
            given, self.head = self.head[:size], self.head[size:]
            return given
        return self.file.read(size)

    def tell(self) -> int:
        return self.file.tell()

    def close(self) -> None:
        self.file.close()
        super().close()


def unpacked(path: Path) -> io.RawIOBase:
    """Opens a capture; of gzip the bytes that were packed."""
    try:
        file = open(path, "rb")
        head = file.read(len(GZIP_MAGIC))
    except OSError as error:
        raise Fault(f"{path}: can't be read: {error.strerror}") from None
    joined = Joined(head, file)
    return Unpacker(path, joined) if head == GZIP_MAGIC else joined


class Pieces:
    """The bytes of a capture from a place on. Those past the limit don't count; `is_longer` says
    whether there are any."""

    def __init__(self, file: BinaryIO | io.RawIOBase, limit: int | None, name: Path) -> None:
        self.file, self.limit, self.path = file, limit, name
        self.data, self.at = b"", 0  # what is in memory, and where in it the present place is
        self.start = 0  # the place of its first byte
        self.is_longer = self.has_ended = False

    @property
    def place(self) -> int:
        return self.start + self.at

    @property
    def left(self) -> int:
        """Bytes in memory from the present place on."""
        return len(self.data) - self.at

    @property
    def is_cut(self) -> bool:
        return isinstance(self.file, Unpacker) and self.file.is_cut

    def has(self, count: int) -> bool:
        """Whether so many bytes are left; they are in memory then."""
        while self.left < count:
            if not self.read_more():
                return False
        return True

    def read_more(self) -> bool:
        if self.has_ended:
            return False
        end = self.start + len(self.data)
        room = PIECE if self.limit is None else min(PIECE, self.limit - end)
        try:
            piece = self.file.read(room or 1)
        except OSError as error:
            raise Fault(f"{self.path}: can't be read after byte {end}: {error.strerror}") from None
        if not piece or not room:
            self.has_ended, self.is_longer = True, bool(piece)
            return False
        self.start, self.data, self.at = self.place, self.data[self.at :] + piece, 0
        return True

    def skip(self, count: int) -> bool:
        """Goes on by so many bytes, which needn't be in memory at once; False where they aren't
        there."""
        while self.left < count:
            count -= self.left
            self.at = len(self.data)
            if not self.read_more():
                return False
        self.at += count
        return True


class CaptureStream:
    """The frames of a capture, once, by its path or of an open file. `end` is there after the last
    of them."""

    def __init__(
        self,
        path: Path,
        limit: int | None = LARGEST_CAPTURE,
        name: Path | None = None,
        file: BinaryIO | None = None,
    ) -> None:
        self.path = name or path  # as it is named in sentences
        self.limit = limit
        self.pieces = Pieces(file or unpacked(path), limit, self.path)
        self.end = "ok"
        self.is_explained = True  # whether a refusal is in the words of run.py
        self.drops: int | None = None  # those that a pcapng's statistics tell, of all interfaces

    def __iter__(self) -> Iterator[Frame]:
        yield from self.read(pcap_frames, lambda stream: PcapngFrames(stream).frames())

    def runs(self, most: int) -> Iterator[Run]:
        """The frames in runs, each of some that have so many bytes or little more, or fewer."""
        yield from self.read(
            lambda stream: pcap_runs(stream, most),
            lambda stream: runs_of(PcapngFrames(stream).frames(), most),
        )

    def read(self, pcap: Callable, pcapng: Callable) -> Iterator:
        """What one of two readers makes of the capture; the file is closed at the end."""
        self.pieces.has(len(PCAPNG_MAGIC))
        is_next = self.pieces.data.startswith(PCAPNG_MAGIC)
        try:
            yield from pcapng(self) if is_next else pcap(self)
        except RefusedHeader as fault:
            raise self.explained(fault) from None
        finally:
            self.pieces.file.close()

    def explained(self, fault: RefusedHeader) -> RefusedHeader:
        """The refusal in the words by which run.py explains it, where the file can be looked at."""
        from .kinds import explain_end  # which reads captures itself

        is_plain_words = not self.is_explained or isinstance(self.pieces.file, Unpacker)
        if is_plain_words or not self.path.is_file():
            return fault
        return RefusedHeader(fault.end, explain_end(self.path, fault.end) or str(fault))

    def stop(self, damage: str | None = None, place: int | None = None) -> None:
        """Says how the capture ends, where its frames end."""
        pieces = self.pieces
        if damage:
            self.end = damage
        elif pieces.is_longer:
            self.end = f"too_large {self.limit}"
        elif pieces.is_cut or place is not None:
            self.end = f"truncated {pieces.place if place is None else place}"


def pcap_frames(stream: CaptureStream) -> Iterator[Frame]:
    """The frames of a pcap file of version 2.4."""
    number = count()
    for run in pcap_runs(stream, PIECE):
        # the number last: `zip` takes none where a run has ended
        for columns, index in zip(zip(*run), number):
            yield Frame(index, *columns)


def pcap_runs(stream: CaptureStream, most: int) -> Iterator[Run]:
    """The same in runs, each of one frame at least, and of no more once it has so many bytes."""
    pieces = stream.pieces
    order, unit = pcap_header(stream)
    record = struct.Struct(order + "IIII")
    while pieces.has(RECORD_HEADER):
        captured = record.unpack_from(pieces.data, pieces.at)[2]
        if captured > LARGEST_RECORD:
            return stream.stop(f"bad_length {pieces.place}")
        if not pieces.has(RECORD_HEADER + captured):
            break
        yield run_in_memory(pieces, record, unit, most)
    stream.stop(place=pieces.place if pieces.left else None)


def run_in_memory(pieces: Pieces, record: struct.Struct, unit: int, most: int) -> Run:
    """The frames whose records are in memory; the present place goes on behind them."""
    data, at, unpack = pieces.data, pieces.at, record.unpack_from
    size, limit, most_of_one = len(data), at + most, NANOSECONDS - 1
    last = size - RECORD_HEADER
    times, wires, frames = [], [], []
    while at <= last and at < limit:
        seconds, fraction, captured, original = unpack(data, at)
        first = at + RECORD_HEADER
        end = first + captured
        if captured > LARGEST_RECORD or end > size:
            break
        fraction *= unit  # `min` and `max` would be slower
        times.append(seconds * NANOSECONDS + (fraction if fraction < most_of_one else most_of_one))
        wires.append(original if original > captured else captured)
        frames.append(data[first:end])
        at = end
    pieces.at = at
    return Run(times, wires, frames)


def runs_of(frames: Iterator[Frame], most: int) -> Iterator[Run]:
    """Frames in runs, each of one at least, and of no more once it has so many bytes."""
    for first in frames:
        given, size = [first], len(first.data)
        while size < most and (frame := next(frames, None)):
            given.append(frame)
            size += len(frame.data)
        yield Run(*map(list, list(zip(*given))[1:]))


def pcap_header(stream: CaptureStream) -> tuple[str, int]:
    """The byte order of a pcap file, and how many nanoseconds a fraction counts."""
    path, pieces = stream.path, stream.pieces
    if not pieces.has(PCAP_HEADER):
        raise RefusedHeader(
            "truncated 0",
            f"{path}: has {pieces.left} bytes, and the header of a pcap file has {PCAP_HEADER}",
        )
    for order in "<>":
        unit = PCAP_UNITS.get(struct.unpack_from(order + "I", pieces.data)[0])
        if unit:
            break
    else:
        raise RefusedHeader("bad_magic 0", f"{path}, byte 0: is neither pcap nor pcapng")
    major, minor, _, _, _, link = struct.unpack_from(order + "HHiIII", pieces.data, 4)
    if (major, minor) != (2, 4):
        raise RefusedHeader(
            "bad_version 0", f"{path}, byte 4: is of version {major}.{minor}, and ringtap reads 2.4"
        )
    if link & 0xFFFF != ETHERNET:
        sentence = (
            f"{path}, byte 20: has link type {link & 0xFFFF}, and ringtap reads Ethernet, which is"
            f" {ETHERNET}"
        )
        raise RefusedHeader("bad_link 0", sentence)
    pieces.at = PCAP_HEADER
    return order, unit


class PcapngFrames:
    """The frames of a pcapng file, whose sections each have a byte order and interfaces of their
    own."""

    def __init__(self, stream: CaptureStream) -> None:
        self.stream, self.pieces = stream, stream.pieces
        self.order = "<"
        self.interfaces: list[Interface] = []
        self.index = 0
        self.told: dict[tuple[int, int], int] = {}  # drops of this section's interfaces
        self.told_before = 0  # and of all sections before it

    def frames(self) -> Iterator[Frame]:
        pieces = self.pieces
        while pieces.has(8):
            place = pieces.place
            kind, length = self.numbers("II", 0)
            if kind == SECTION:
                if not pieces.has(12):
                    return self.stream.stop(place=place)
                if not self.find_order():
                    return self.refuse(
                        "bad_magic 0", f"byte {place + 8}: is no byte-order magic of pcapng"
                    )
                length = self.numbers("I", 4)[0]
            if (
                length % 4
                or length < LEAST_LENGTHS.get(kind, 12)
                or kind in LEAST_LENGTHS
                and length > LARGEST_READ_BLOCK
            ):
                return self.stream.stop(f"bad_length {place}")
            if kind not in LEAST_LENGTHS:
                if kind == STATISTICS and length <= LARGEST_READ_BLOCK and pieces.has(length):
                    self.count_drops(length)
                if not self.skip_block(length, place):
                    return
                continue
            if not pieces.has(length):
                break
            damage = self.damage_of(kind, length, place)
            if damage:
                return self.refuse(*damage)
            if kind in (ENHANCED, SIMPLE):
                yield self.enhanced() if kind == ENHANCED else self.simple()
                self.index += 1
            pieces.at += length
        self.stream.stop(place=pieces.place if pieces.left else None)

    def numbers(self, form: str, at: int) -> tuple[int, ...]:
        """Numbers of the present block, from a byte of it on."""
        return struct.unpack_from(self.order + form, self.pieces.data, self.pieces.at + at)

    def find_order(self) -> bool:
        for order in "<>":
            if (
                struct.unpack_from(order + "I", self.pieces.data, self.pieces.at + 8)[0]
                == BYTE_ORDER_MAGIC
            ):
                self.order = order
                return True
        return False

    def skip_block(self, length: int, place: int) -> bool:
        """Goes over a block of another type, of any length."""
        if not (self.pieces.skip(length - 4) and self.pieces.has(4)):
            self.stream.stop(place=place)
            return False
        if self.numbers("I", 0)[0] != length:
            self.stream.stop(f"bad_length {place}")
            return False
        self.pieces.at += 4
        return True

    def count_drops(self, length: int) -> None:
        """Takes what an interface statistics block tells of drops, by the interface or the system;
        of several blocks of an interface the last one counts."""
        at, end = 20, length - 4
        while at + 4 <= end:
            code, size = self.numbers("HH", at)
            if code == 0 or at + 4 + size > end:
                return
            if code in (ISB_IFDROP, ISB_OSDROP) and size == 8:
                self.told[self.numbers("I", 8)[0], code] = self.numbers("Q", at + 4)[0]
                self.stream.drops = self.told_before + sum(self.told.values())
            at += 4 + (size + 3) // 4 * 4

    def refuse(self, damage: str, sentence: str | None = None) -> None:
        """Ends the capture; before its first interface a header that is refused is a fault."""
        if sentence and not self.index and not self.interfaces:
            raise RefusedHeader(damage, f"{self.stream.path}, {sentence}")
        self.stream.stop(damage)

    def damage_of(self, kind: int, length: int, place: int) -> tuple[str, str | None] | None:
        """What is wrong with a whole block, as ringtap prints it, and in a sentence where it may be
        the first header."""
        if self.numbers("I", length - 4)[0] != length:
            return f"bad_length {place}", None
        if kind == SECTION:
            major = self.numbers("H", 12)[0]
            if major != 1:
                return (
                    "bad_version 0",
                    (
                        f"byte {place + 12}: is of version {major}, and ringtap reads pcapng of"
                        " version 1"
                    ),
                )
            self.interfaces = []
            self.told_before, self.told = self.told_before + sum(self.told.values()), {}
        elif kind == INTERFACE:
            link = self.numbers("H", 8)[0]
            if link != ETHERNET:
                return (
                    "bad_link 0",
                    (
                        f"byte {place + 8}: has link type {link}, and ringtap reads Ethernet, which"
                        f" is {ETHERNET}"
                    ),
                )
            self.interfaces.append(Interface(self.numbers("I", 12)[0], self.unit_of(length)))
        else:
            return self.packet_damage(kind, length, place)
        return None

    def packet_damage(self, kind: int, length: int, place: int) -> tuple[str, None] | None:
        interface = self.numbers("I", 8)[0] if kind == ENHANCED else 0
        if interface >= len(self.interfaces):
            return f"bad_interface {place}", None
        captured = self.numbers("I", 20)[0] if kind == ENHANCED else self.simple_length()
        if captured > LARGEST_RECORD or LEAST_LENGTHS[kind] + (captured + 3) // 4 * 4 > length:
            return f"bad_length {place}", None
        return None

    def unit_of(self, length: int) -> tuple[int, int]:
        """The unit of time of the present interface, whose last option of that kind counts."""
        unit, at, end = MICROSECONDS, 16, length - 4
        while at + 4 <= end:
            code, size = self.numbers("HH", at)
            if code == 0 or at + 4 + size > end:
                break
            if code == IF_TSRESOL and size == 1:
                power = self.pieces.data[self.pieces.at + at + 4]
                unit = (NANOSECONDS, 2 ** (power & 127) if power & 128 else 10**power)
            at += 4 + (size + 3) // 4 * 4
        return unit

    def simple_length(self) -> int:
        original, snap = self.numbers("I", 8)[0], self.interfaces[0].snap
        return min(original, snap) if snap else original

    def enhanced(self) -> Frame:
        interface, upper, lower, captured, original = self.numbers("IIIII", 8)
        numerator, denominator = self.interfaces[interface].unit
        seconds, rest = divmod((upper << 32 | lower) * numerator // denominator, NANOSECONDS)
        return self.frame(
            min(seconds, LARGEST_SECONDS) * NANOSECONDS + rest,
            max(captured, original),
            28,
            captured,
        )

    def simple(self) -> Frame:
        captured = self.simple_length()
        return self.frame(0, max(captured, self.numbers("I", 8)[0]), 12, captured)

    def frame(self, time: int, wire: int, at: int, captured: int) -> Frame:
        first = self.pieces.at + at
        return Frame(self.index, time, wire, self.pieces.data[first : first + captured])


class CaptureWriter:
    """Writes a pcap file with nanoseconds, as ringtap's outputs are, into an open file."""

    def __init__(self, file: BinaryIO) -> None:
        self.file = file
        file.write(struct.pack("<IHHiIII", 0xA1B23C4D, 2, 4, 0, 0, LARGEST_RECORD, ETHERNET))

    def write(self, frame: Frame) -> None:
        seconds, rest = divmod(frame.time, NANOSECONDS)
        self.file.write(struct.pack("<IIII", seconds, rest, len(frame.data), frame.wire))
        self.file.write(frame.data)


def is_plain(path: Path) -> bool:
    """Whether the program can read a capture under its own name as often as it likes: a file on the
    disk that isn't gzip."""
    try:
        with open(path, "rb") as file:
            return (
                stat.S_ISREG(os.fstat(file.fileno()).st_mode)
                and file.read(len(GZIP_MAGIC)) != GZIP_MAGIC
            )
    except OSError as error:
        raise Fault(f"{path}: can't be read: {error.strerror}") from None


def copy_unpacked(path: Path, target: BinaryIO, limit: int = LARGEST_CAPTURE + 1) -> None:
    """Copies what the program reads of a capture; the byte past its limit says that there is
    more."""
    with unpacked(path) as source:
        while limit and (piece := source.read(min(PIECE, limit))):
            target.write(piece)
            limit -= len(piece)


@dataclass
class Capture:
    """A capture in memory: its frames before any damage, and the word for how it ends, as ringtap
    prints it."""

    path: Path
    frames: list[Frame]
    end: str


def read_capture(path: Path) -> Capture:
    stream = CaptureStream(path)
    return Capture(path, list(stream), stream.end)


def read_captures(setup: Setup) -> list[Capture]:
    """The captures of a setup. One that is damaged or cut is used up to there, as ringtap does, and
    that is said."""
    captures = [read_capture(path) for path in setup.capture_paths()]
    for capture in captures:
        say_end(capture.path, capture.end, len(capture.frames))
    return captures


def say_end(path: Path, end: str, count: int) -> None:
    """Says on standard error that a capture isn't whole."""
    if end != "ok":
        print(f"{path}: ends {end}; the {count} frames before that are used", file=sys.stderr)
