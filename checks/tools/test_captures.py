"""Compares what the tools' reader of captures gives with values laid out by hand, with the
program and with tshark; and what busiest.py cuts, and what the guard of inputs refuses.
"""
from __future__ import annotations

import gzip
import json
import os
import random
import re
import sys
from collections.abc import Iterable
from pathlib import Path


from second.capture_bytes import (
    MICROSECONDS, NANOSECONDS, block, enhanced, header, interface, record, section, simple,
)
import pytest

from ringtap_tools.captures import CaptureStream
from ringtap_tools.files import Fault
from places import TOP
from tools.here import BLOCK, Here, SHOWN, frame

Frames = list[tuple[int, int, bytes]]  # the time, the length on the wire and the bytes of each


def pcap(order: str, magic: int, records: Iterable[tuple[int, int, bytes, int]]) -> bytes:
    """A pcap file; a record is seconds, fraction, captured bytes and length on the wire."""
    parts = (record(data, order, sec, part, original=wire) for sec, part, data, wire in records)
    return header(order, magic) + b"".join(parts)


def read(here: Here, name: str) -> tuple[Frames, str] | str:
    """Time, length and bytes of each frame, and how the capture ends; or the sentence that
    refuses it."""
    stream = CaptureStream(here.path / name, name=Path(name))
    try:
        frames = [(one.time, one.wire, one.data) for one in stream]
    except Fault as fault:
        return str(fault)
    return frames, stream.end


def test_pcap(here: Here) -> None:
    """Four magics: a half and 1.000007 seconds, as micro- and nanoseconds; a fraction of a
    second or more, and a wire length that is too small."""
    for order in "<>":
        for magic, unit in ((MICROSECONDS, 1000), (NANOSECONDS, 1)):
            records = [
                (0, 500_000_000 // unit, frame(0), 60), (1, 7000 // unit, frame(1), 90),
                (2, 4_000_000_000 // unit, frame(2), 3)
            ]
            wanted = [
                (500_000_000, 60, frame(0)), (1_000_007_000, 90, frame(1)),
                (2_999_999_999, 60, frame(2))
            ]
            name = here.saved("four.pcap", pcap(order, magic, records))
            assert read(here, name) == (wanted, "ok"), f"pcap {order}{magic:x}"
            here.saved("four.gz", gzip.compress((here.path / name).read_bytes()))
            assert read(here, "four.gz") == (wanted, "ok"), f"gzip of {order}{magic:x}"


def two_sections() -> bytes:
    """A section of two interfaces with a skipped block and an obsolete one, and one of the other
    byte order."""
    both = (
        section("<") + interface("<", 9) + interface("<", 6) + block("<", 5, bytes(40))
        + enhanced("<", 1, 8, frame(0), 60)
    )
    both += (
        enhanced("<", 0, 8, frame(1), 60) + block("<", 2, bytes(28) + frame(7)) + section(">", 2)
        + interface(">", None, 20)
    )
    both += simple(">", frame(2)[:20], 60) + enhanced(">", 0, 9, frame(3), 70)
    return both


def test_pcapng(here: Here) -> None:
    """Time 3 times 2^32 and 5, in units of a microsecond (without the option), a nanosecond, a
    millisecond, 2^-20 and 10^-12 of a second."""
    ticks = (3 << 32) + 5
    units = {
        None: ticks * 1000, 9: ticks, 3: ticks * 1_000_000, 0x80 | 20: ticks * 10**9 // 2**20,
        12: ticks // 1000
    }
    for order in "<>":
        for resolution, wanted in units.items():
            name = here.saved(
                "one.pcapng",
                section(order) + interface(order, resolution) + enhanced(
                    order, 0, ticks, frame(0), 61
                )
            )
            assert read(here, name) == (
                [(wanted, 61, frame(0))], "ok"
            ), f"pcapng {order}{resolution}"
    both = two_sections()
    wanted = [(8000, 60, frame(0)), (8, 60, frame(1)), (0, 60, frame(2)[:20]), (9000, 70, frame(3))]
    assert read(here, here.saved("both.pcapng", both)) == (wanted, "ok")
    # Seconds above 4,294,967,295 count as that, and the rest of a second stays: 5 * 10^15
    # milliseconds and 7.
    late = section("<") + interface("<", 3) + enhanced("<", 0, 5 * 10**15 + 7, frame(0), 60)
    assert read(here, here.saved("late.pcapng", late))[0][0][0] == 4_294_967_295 * 10**9 + 7_000_000
    assert read(
        here, here.saved("both.gz", gzip.compress(both[:100]) + gzip.compress(both[100:]))
    ) == (wanted, "ok")


def test_numbers(here: Here) -> None:
    """10,000 records of 76 bytes are read in three pieces, and no number is left out or stands
    twice where one piece ends; of pcapng and of gzip the same."""
    frames = [frame(number) for number in range(10_000)]
    plain = header() + b"".join(record(data, fraction=0) for data in frames)
    next_ = section("<") + interface("<", 9)
    next_ += b"".join(enhanced("<", 0, 0, data, 60) for data in frames)
    for data in (plain, next_, gzip.compress(plain, 1)):
        stream = CaptureStream(here.path / here.saved("numbers", data))
        read_ones = [(one.index, one.data) for one in stream]
        assert read_ones == list(enumerate(frames))


def test_damage(here: Here) -> None:
    """How captures end that are damaged or cut, and the frames before that, are what the program
    says: eight captures a run."""
    draw = random.Random(11)
    whole = pcap("<", MICROSECONDS, [(n, n, frame(n), 60) for n in range(5)])
    next_ = (
        section("<") + interface("<", 9)
        + b"".join(enhanced("<", 0, n, frame(n), 60) for n in range(4)) + block("<", 4, bytes(20))
    )
    next_ += section(">") + interface(">") + simple(">", frame(9))
    files = []
    for whole_one in (whole, next_):
        files += [whole_one[: draw.randrange(28, len(whole_one))] for _ in range(16)]
        for _ in range(40):
            data = bytearray(whole_one)
            for _ in range(draw.choice([1, 1, 2])):
                data[draw.randrange(24, len(data))] ^= draw.choice([1, 4, 0x80, 0xFF])
            files.append(bytes(data))
    names = [here.saved(f"damaged{number}", data) for number, data in enumerate(files)]
    kinds = set()
    for at in range(0, len(names), 8):
        mine = names[at : at + 8]
        setup = here.text("damaged.txt", BLOCK + "".join(f"cpu {name}\n" for name in mine))
        printed = here.answer([here.program, "replay", setup, "/dev/null"])[0]
        ends = re.findall(r"^cpu \d+ frames (\d+) arrivals \d+ end (.*)$", printed, re.M)
        assert len(ends) == len(mine), f"captures from {at} on"
        for name, (count, end) in zip(mine, ends):
            given = read(here, name)
            kinds.add(end.split()[0])
            if isinstance(given, str):
                assert (
                    count, end.split()[0] in ("bad_magic", "bad_version", "bad_link")
                ) == ("0", True), f"{name}, refused: {given}"
            else:
                assert (str(len(given[0])), given[1]) == (count, end), f"{name} ends"
    assert {"ok", "truncated", "bad_length", "bad_interface"} <= kinds


def test_limits(here: Here) -> None:
    """33,554,432 bytes count: the 128 records before that, of 16 and 262,128 bytes after 24,
    make 33,554,456, so 127 are whole."""
    record = (0, 0, bytes(262_128), 262_128)
    here.saved("large.pcap", pcap("<", MICROSECONDS, [record] * 128))
    frames, end = read(here, "large.pcap")
    assert (len(frames), end) == (127, "too_large 33554432")
    assert read(
        here, here.saved("long.pcap", pcap("<", MICROSECONDS, [(0, 0, bytes(262_145), 262_145)]))
    )[1] == "bad_length 24"
    data = gzip.compress(
        pcap(
            "<", MICROSECONDS,
            [(0, 0, frame(0), 60), (1, 0, random.Random(1).randbytes(1400), 1400)]
        )
    )
    assert read(here, here.saved("cut.gz", data[:-300]))[1] == "truncated 100"
    assert read(here, here.saved("cut.gz", data[:-8]))[1] == "truncated 1516"
    damaged = bytearray(data)
    damaged[-6] ^= 1
    assert "its gzip is damaged" in read(here, here.saved("bad.gz", bytes(damaged)))


@pytest.mark.needs("tshark", "editcap")
def test_tshark(here: Here) -> None:
    """Times and lengths as tshark gives them, of the demo's capture in each form."""
    here.saved("both.pcapng", two_sections())
    forms = ["pcap", "nsecpcap", "pcapng"]
    for form in forms:
        here.answer(["editcap", "-F", form, TOP / "demo" / "lo.pcap", here.path / f"lo.{form}"])
        here.saved(f"lo.{form}.gz", gzip.compress((here.path / f"lo.{form}").read_bytes()))
    for name in [
        name
        for form in forms
        for name in (f"lo.{form}", f"lo.{form}.gz")
    ] + ["both.pcapng"]:
        fields = ["frame.time_epoch", "frame.len", "frame.cap_len"]
        printed, said, status = here.answer(
            [
                "tshark", "-r", name, "-T", "fields",
                *[word for one in fields for word in ("-e", one)]
            ]
        )
        given = [
            f"{time // 10**9}.{time % 10**9:09}\t{wire}\t{len(data)}" for time, wire,
            data in read(here, name)[0]
        ]
        theirs = [line for line in printed.split("\n") if line]
        if name == "both.pcapng":  # tshark has the obsolete block too, and no time for a simple one
            assert [line.split("\t")[1:] for line in given] == [
                line.split("\t")[1:]
                for line in theirs[:2] + theirs[3:]
            ]
        else:
            assert given == theirs, f"tshark of {name}"


def test_tools_read_all(here: Here) -> None:
    """A setup may name pcapng and gzip: the tool unpacks what the program can't read, and a pipe
    can be read once."""
    here.saved("lo.gz", gzip.compress((TOP / "demo" / "lo.pcap").read_bytes()))
    small = (TOP / "demo" / "small.txt").read_text().replace("demo/lo.pcap", "lo.gz")
    printed, said, status = here.tool(
        "lost.py", here.text("gz.txt", small), TOP / "demo" / "schedule.txt", "--program",
        here.program
    )
    assert ("52        52         0    43     9" in printed, said, status) == (True, "", 0)
    command = (
        f"gzip -dc lo.gz | {sys.executable} -B {TOP}/tools/ring_size.py /dev/stdin --phases 1 "
        f"--json --program {here.program}"
    )
    printed, said, status = here.answer(["bash", "-c", command])
    assert (json.loads(printed)["least"]["kept"], said, status) == (52, "", 0)


def test_busiest(here: Here) -> None:
    """Ten frames 100 ms apart, and after a second five that are 2 ms apart. A frame of 60 bytes
    takes 144 bytes of a block and 76 of a file."""
    here.capture(
        "busy.pcap",
        [(100_000 * n, frame(n)) for n in range(10)] + [
            (2_000_000 + 2000 * n, frame(10 + n))
            for n in range(5)
        ]
    )
    printed, said, status = here.tool("busiest.py", "busy.pcap", "--ms", "50", "-o", "cut.pcap")
    wanted = [
        "busy.pcap: 15 frames in 2.008000 s, which take 2,160 bytes of blocks",
        "hardest: frames 11 to 15 (counted from 1), from 2.000000 s on for 0.008000 s, which take "
        "720 bytes of blocks",
        "saved: cut.pcap", ""
    ]
    assert (printed.split("\n"), said, status) == (wanted, "", 0)
    assert read(here, "cut.pcap") == (
        [(1002 * 10**9 + 2_000_000 * n, 60, frame(10 + n)) for n in range(5)], "ok"
    )
    setup = here.text("cut.txt", BLOCK + "cpu cut.pcap\n")
    assert here.answer([here.program, "replay", setup, "/dev/null"])[0].split("\n")[0] == (
        "cpu 0 frames 5 arrivals 5 end ok"
    )
    # 24 and three records are 252 bytes, which come in 4 ms at best, frames 11 to 13 first.
    printed, _, _ = here.tool(
        "busiest.py", "busy.pcap", "--mib", 252 / 1048576, "-o", "cut.pcap", "--json"
    )
    found = json.loads(printed)["hardest"]
    assert [found[key] for key in ("first_frame", "frames", "nanoseconds", "file_bytes")] == [
        11, 3, 4_000_000, 252
    ]
    # Of 200 ms two frames of the first ten: 99 ms and less have one, 101 ms two, and 501 ms six,
    # more than the last five.
    printed, _, _ = here.tool("busiest.py", "busy.pcap", "--ms", "501", "-o", "cut.pcap", "--json")
    assert [json.loads(printed)["hardest"][key] for key in ("first_frame", "frames")] == [1, 6]
    printed, _, _ = here.tool(
        "busiest.py", "busy.pcap", "--ms", "501", "--frames", "4", "-o", "cut.pcap"
    )
    assert printed.split("\n")[2] == (
        "it has the 4 frames that a schedule has room for; --frames takes another number"
    )
    assert here.tool("busiest.py", "busy.pcap", "-o", "busy.pcap") == (
        "",
        "busiest.py: busy.pcap: would take the place of the input busy.pcap: choose another name\n",
        1
    )


def test_memory(here: Here) -> None:
    """A capture of 96 MiB is read in 64 MiB of memory. A frame of 262,144 bytes takes 262,232 of
    a block."""
    with open(here.path / "wide.pcap", "wb") as file:
        file.write(pcap("<", MICROSECONDS, []))
        for number in range(384):
            file.write(record(bytes(262_144), sec=1000 * number, fraction=0))
    command = (
        f"ulimit -v 65536; exec {sys.executable} -B {TOP}/tools/busiest.py wide.pcap -o cut.pcap"
    )
    printed, said, status = here.answer(["bash", "-c", command])
    assert (printed.split("\n")[0], said, status) == (
        "wide.pcap: 384 frames in 383,000.000000 s, which take 100,697,088 bytes of blocks", "", 0
    )
    (here.path / "wide.pcap").unlink()


def test_guard(here: Here) -> None:
    """No output takes the place of an input, of a link to one or of a file that a setup names;
    what was there stays."""
    here.capture("safe.pcap", [(0, frame(0))])
    here.text("safe.ddd", "1\n6 0 0 65535\n")
    setup = here.text("safe.txt", BLOCK + "cpu safe.pcap\nfilter safe.ddd\n")
    (here.path / "soft").symlink_to("safe.pcap")
    os.link(here.path / "safe.pcap", here.path / "hard")
    before = {
        name: (here.path / name).read_bytes()
        for name in ("safe.pcap", "safe.ddd", "safe.txt")
    }
    for name in ("safe.pcap", "safe.ddd", "safe.txt", "soft", "hard"):
        given = {"soft": "safe.pcap", "hard": "safe.pcap"}.get(name, name)
        said = (
            f"schedule.py: {name}: would take the place of the input {given}: choose another name\n"
        )
        assert here.tool(
            "schedule.py", setup, "-o", name
        ) == ("", said, 1), f"a schedule over {name}"
    shown = SHOWN
    words = ["safe.pcap", "--from", shown, "--inode", "137704", "-o", "safe.pcap"]
    sentence = "safe.pcap: would take the place of the input safe.pcap: choose another name"
    assert here.tool("ring_of.py", *words) == ("", f"ring_of.py: {sentence}\n", 1)
    for name in ("lost.py", "timeline.py"):
        assert here.tool(
            name, setup, "/dev/null", "--picture", "safe.jpg", "--program", here.program
        )[1:] == (f"{name}: safe.jpg: a picture's name ends with .svg or .png\n", 1)
    assert here.tool("schedule.py", setup, "-o", "gone/made")[1] == (
        "schedule.py: gone/made: can't be written: there is no folder gone\n"
    )
    assert {name: (here.path / name).read_bytes() for name in before} == before


def test_written(here: Here) -> None:
    """An output takes its name when it is whole: through a link, with the rights that were
    there, and nothing is left beside it."""
    here.capture("safe.pcap", [(0, frame(0))])
    setup = here.text("safe.txt", BLOCK + "cpu safe.pcap\n")
    here.text("target", "old\n")
    (here.path / "target").chmod(0o640)
    (here.path / "link").symlink_to("target")
    assert here.tool("schedule.py", setup, "-o", "link")[2] == 0
    assert (
        (here.path / "link").is_symlink(), (here.path / "target").read_text(),
        (here.path / "target").stat().st_mode & 0o777
    ) == (True, "feed 0\n", 0o640)
    assert here.tool("schedule.py", setup, "-o", "/dev/stdout") == ("feed 0\n", "", 0)
    assert here.tool("schedule.py", setup, "-o", "/dev/full") == (
        "", "schedule.py: /dev/full: can't be written: No space left on device\n", 1
    )
    assert [path.name for path in here.path.iterdir() if path.name.startswith(".ringtap")] == []
