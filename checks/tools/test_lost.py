"""Compares what tools/lost.py says with what was worked out by hand.

A frame of 60 bytes takes 144 bytes of a block, of which one of 4096 bytes has 4048 for packets,
so 28 frames; two blocks that nobody reads keep frames 0 to 55 of a capture.
"""
from __future__ import annotations

import json
import struct
import subprocess
import sys

import pytest

from second.capture_bytes import output, record
from places import TOP
from tools.here import BLOCK, Here, datagram, frame

COUNTED = "frames count from 1, as Wireshark's do; --first 0 counts as ringtap does"


@pytest.fixture
def here(here: Here) -> Here:
    """Beside it a filter that keeps what has an even number in its eighteenth byte."""
    here.text("even.ddd", "4\n48 0 0 17\n69 1 0 1\n6 0 0 65535\n6 0 0 0\n")
    return here


def parts(printed: str) -> list[list[str]]:
    """The tables of what is printed, each as its lines, and each line as its words joined by one
    blank."""
    return [
        [" ".join(line.split()) for line in part.split("\n")]
        for part in printed.strip("\n").split("\n\n")
    ]


def udp(left: tuple[int, int], right: tuple[int, int], size: int) -> bytes:
    """A UDP datagram between two ends, each the last byte of an address and a port; `right` gets
    it."""
    data = bytes(size)
    head = struct.pack(">BBHHHBBH", 0x45, 0, 28 + size, 0, 0, 64, 17, 0) + bytes(
        [10, 0, 0, left[0], 10, 0, 0, right[0]]
    )
    return (
        bytes(12) + b"\x08\x00" + head + struct.pack(">HHHH", left[1], right[1], 8 + size, 0) + data
    )


def test_lost(here: Here) -> None:
    """Frames 0 to 55 are kept, so in Wireshark's numbers 57 to 100 are lost."""
    printed, said, status = here.with_program(
        "lost.py", "many.txt", "none.sched", "--bins", "2", "--picture", "lost.svg", "--save",
        "lost.pcap"
    )
    found = parts(printed)
    assert (found[0], found[1][1], said, status) == (
        [COUNTED], "0 57-100 44 0.000056000 0.000099000 2640", "", 0
    )
    assert found[2][1] == "type 0x88b5 56 44 2640"
    assert found[3][1] == "0 100 100 0 56 44"
    # 100 microseconds in two: 50 frames in each, of which 6 more are kept.
    assert [line.split(maxsplit=1)[1] for line in found[4][1:]] == ["50 0", "6 44"]
    assert [title.split(": ")[-1] for title in here.titles("lost.svg")] == [
        "50 kept", "6 kept", "44 lost"
    ]
    wanted = output(
        record(frame(number), sec=1000, fraction=1000 * number)
        for number in range(56, 100)
    )
    assert (here.path / "lost.pcap").read_bytes() == wanted
    printed, _, _ = here.with_program(
        "lost.py", "many.txt", "none.sched", "--frames", "--first", "0"
    )
    lines = parts(printed)[1][1:]
    assert (len(lines), lines[0]) == (44, "0 56 1000.000056000 0.000056000 60")
    made = json.loads(here.with_program("lost.py", "many.txt", "none.sched", "--json")[0])
    assert (
        made["cpus"][0]["lost"], made["ranges"][0]["first"], made["ranges"][0]["last"],
        made["flows"][0]["bytes_lost"]
    ) == (44, 57, 100, 2640)


def test_ranges(here: Here) -> None:
    """The demo loses frames 31 and 44 to 51, as docs/guide.md goes through it; the schedule
    comes in any way."""
    wanted = ["0 32 1 0.972874000 0.972874000 88", "0 45-52 8 0.973485000 1.210211000 5232"]
    words = f"{sys.executable} -I -B tools/lost.py demo/small.txt %s --program {here.program}"
    for schedule in (
        "demo/schedule.txt", "<(cat demo/schedule.txt)", "- <demo/schedule.txt",
        "/dev/stdin <demo/schedule.txt"
    ):
        printed, said, status = here.answer(["bash", "-c", words % schedule], TOP)
        assert (parts(printed)[1][1:], said, status) == (wanted, "", 0), f"schedule {schedule}"
    printed = here.answer(["bash", "-c", words % "demo/schedule.txt" + " --ranges 1"], TOP)[0]
    assert parts(printed)[1][1:] == [
        wanted[1], "and 1 shorter ranges, of 1 frames; --ranges 0 prints all"
    ]
    printed = here.answer(["bash", "-c", words % "/dev/null"], TOP)[0]
    # Of 4096 bytes a block takes frames 0 to 16, the next 17 to 30; nobody reads, so all after that
    # are lost.
    assert parts(printed)[1][1].split()[:3] == ["0", "32-52", "21"]


def test_flows(here: Here) -> None:
    """Flows in both directions, of which each packet of 100 bytes of data takes 82 and 142
    bytes, so 224: a block has room for 18."""
    near, far, other = (1, 4000), (2, 53), (3, 5000)
    frames = (
        [udp(near, far, 100) if number % 2 else udp(far, near, 100) for number in range(30)]
        + [udp(other, far, 100) for _ in range(20)]
    )
    here.capture("flows.pcap", [(number, data) for number, data in enumerate(frames)])
    here.text("flows.txt", BLOCK + "cpu flows.pcap\n")
    found = parts(here.with_program("lost.py", "flows.txt", "none.sched")[0])
    assert found[2][1:] == ["UDP 10.0.0.2:53 10.0.0.3:5000 6 14 1988"]
    here.capture("flows.pcap", [(number, data) for number, data in enumerate(reversed(frames))])
    found = parts(here.with_program("lost.py", "flows.txt", "none.sched", "--flows", "1")[0])
    assert found[2][1:] == ["UDP 10.0.0.1:4000 10.0.0.2:53 16 14 1988"]


def test_two_cpus(here: Here) -> None:
    """Two CPUs with one capture: which frames of which are kept is exact, since the run is made
    here."""
    here.text("both.txt", BLOCK + "cpu many.pcap\ncpu many.pcap\nfilter even.ddd\n")
    here.text("turns.sched", "feed 1\nfeed 0\n" * 100)
    found = parts(here.with_program("lost.py", "both.txt", "turns.sched")[0])
    # Of 100 frames that pass, CPU 1 first each time, 56 are kept: 28 of each CPU, which are frames
    # 0 to 54 with an even number.
    assert found[1][1:] == [
        "0 57-99 22 0.000056000 0.000098000 1320", "1 57-99 22 0.000056000 0.000098000 1320"
    ]
    assert found[3][1:] == ["0 100 100 50 28 22", "1 100 100 50 28 22"]


def test_earlier(here: Here) -> None:
    """The outputs of a run on its own, with two CPUs, a filter and frames alike."""
    setup = here.text(
        "even.txt", BLOCK + "cpu many.pcap\ncpu many.pcap\nfilter even.ddd\nout even\n"
    )
    said = here.with_program("lost.py", setup)[1]
    assert said == (
        "lost.py: even.0.pcap: isn't there: run ringtap first, or name a schedule, and the run is "
        "made here\n"
    )
    here.answer([here.program, "replay", setup, "none.sched"])
    printed, said, status = here.with_program("lost.py", setup)
    # CPU after CPU: the 50 even frames of CPU 0 and the first 6 of CPU 1 are kept, and none says of
    # which CPU those six are.
    found = parts(printed)
    assert found[1][1:] == ["1 13-99 44 0.000012000 0.000098000 2640 ?"]
    assert (found[3][1:], said, status) == (["0 100 100 50 50 0", "1 100 100 50 6 44"], "", 0)
    # In rings of slots of 2048 bytes, of which there are 4.
    here.answer([here.program, "replay2", setup, "none.sched"])
    assert parts(here.with_program("lost.py", setup)[0])[3][1:] == [
        "0 100 100 50 4 46", "1 100 100 50 0 50"
    ]
    here.capture("even.0.pcap", [(7, frame(99))])
    assert here.with_program("lost.py", setup)[1] == (
        "lost.py: even.0.pcap, packet 0 from 0: is no frame of the captures that passes: is it of "
        "another run?\n"
    )


def test_datagram(here: Here) -> None:
    """Three datagrams of two fragments each; a ring of blocks that one datagram fills, of which
    nobody reads one, loses the third."""
    frames = []
    for ident in range(3):
        frames.append((10 * ident, datagram(ident, 0, False, bytes(2000))))
        frames.append((10 * ident, datagram(ident, 2000, True, bytes(1500))))
    here.capture("parts.pcap", frames)
    setup = here.text("parts.txt", BLOCK + "cpu parts.pcap\nflag defrag\n")
    printed, said, status = here.with_program("lost.py", setup, "none.sched")
    found = parts(printed)
    # Frame 5, counted from 0, completes it: 14, 20 and 3500 bytes.
    assert (found[1][1:], said, status) == (["0 6 1 0.000020000 0.000020000 3534"], "", 0)
    assert found[3][1] == "0 6 3 0 2 1"


def test_one_time(here: Here) -> None:
    """Frames of one time and one length, as a capture without times has them, take no more than
    linear time."""
    here.capture("timeless.pcap", [(0, frame(0))] * 40_000)
    here.text("timeless.txt", BLOCK + "cpu timeless.pcap\nout timeless\n")
    done = subprocess.run(
        [here.program, "replay", "timeless.txt", "none.sched"], cwd=here.path, capture_output=True
    )
    assert done.returncode == 0
    found = parts(here.with_program("lost.py", "timeless.txt")[0])
    assert (found[1][1:], found[3][1]) == (
        ["0 57-40000 39944 0.000000000 0.000000000 2396640 ?"], "0 40000 40000 0 56 39944"
    )
