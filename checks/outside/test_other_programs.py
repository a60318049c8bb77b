"""What other programs read and write: tcpdump and capinfos open the outputs and count the frames
that ringtap says it kept, each of which is a frame of the input, in order; and of captures that
editcap and mergecap write ringtap saves the times and lengths that tshark prints of them, and
the bytes that editcap writes."""
from __future__ import annotations

import re
import shutil
import subprocess
import sys
from collections.abc import Callable
from pathlib import Path

import pytest

import running
from places import TOP
from second.capture_frames import Frame, frames_in, stranger

NANOSECONDS = 1_000_000_000


@pytest.fixture
def demo(inside: Path) -> Path:
    """A folder with the demo, in which every user may write, since tcpdump gives up root's
    rights."""
    shutil.copytree(TOP / "demo", inside / "demo")
    inside.chmod(0o777)
    return inside


def run(program: Path, *words: str, status: int = 0) -> str:
    """What a run prints that ends with this status."""
    done, why = running.run([program, *words], text=True)
    assert done is not None, why
    assert done.returncode == status, done.stdout
    return done.stdout


def by_tcpdump(name: str, *expression: str) -> list[Frame]:
    """The frames that tcpdump reads in a file and writes, of those that pass a filter."""
    words = [
        "tcpdump", "-n", "-r", name, "--time-stamp-precision=nano", "-w", "copy.pcap", *expression
    ]
    subprocess.run(words, capture_output=True, check=True)
    return frames_in("copy.pcap")


def number_in(pattern: str, lines: str) -> int:
    found = re.search(pattern, lines, re.M)
    assert found, lines
    return int(found[1])


@pytest.mark.needs("tcpdump")
@pytest.mark.parametrize("name", ["setup", "small"])
def test_tcpdump_reads_a_replay(name: str, program: Path, demo: Path) -> None:
    lines = run(program, "replay", f"demo/{name}.txt", "demo/schedule.txt")
    kept, drops = number_in(r"^total .* kept (\d+)", lines), number_in(
        r"^total .* drops (\d+)", lines
    )
    assert kept > 0
    found, whole = frames_in("out.0.pcap"), frames_in("demo/lo.pcap")
    assert by_tcpdump("out.0.pcap") == found
    assert len(found) == kept
    assert stranger(whole, found) is None
    if drops == 0:
        assert found == whole


@pytest.mark.needs("capinfos")
@pytest.mark.parametrize("name", ["setup", "small"])
def test_capinfos_reads_a_replay(name: str, program: Path, demo: Path) -> None:
    lines = run(program, "replay", f"demo/{name}.txt", "demo/schedule.txt")
    said = subprocess.run(
        ["capinfos", "-M", "-c", "-E", "out.0.pcap"], capture_output=True, text=True, check=True
    ).stdout
    assert number_in(r"^Number of packets: *(\d+)", said) == number_in(
        r"^total .* kept (\d+)", lines
    )
    assert re.search(r"^File encapsulation: *(Ethernet|ether)$", said, re.M)


@pytest.mark.needs("tcpdump")
def test_tcpdump_reads_what_is_sent(program: Path, demo: Path) -> None:
    lines = run(program, "send", "demo/send.txt")
    found = by_tcpdump("lo.tx.pcap", "greater 0")
    assert len(found) == number_in(r"^send sent (\d+) ", lines)
    assert found == frames_in("lo.tx.pcap")


@pytest.mark.needs("tcpdump")
@pytest.mark.parametrize("member", [0, 1])
def test_tcpdump_takes_made_frames_for_datagrams(member: int, program: Path, demo: Path) -> None:
    lines = run(program, "make", "demo/make.txt")
    found = by_tcpdump(
        f"made.{member}.pcap", "udp dst port 53 and src net 10.0.0.0/16 and dst net 10.1.0.0/24"
    )
    assert len(found) == number_in(rf"^member {member} packets (\d+) drops 0 ", lines)
    said = subprocess.run(
        ["tcpdump", "-n", "-v", "-r", f"made.{member}.pcap"], capture_output=True, text=True,
        check=True
    ).stdout
    assert "bad cksum" not in said


# Captures in microseconds and in nanoseconds; frames that were cut; two interfaces of different
# units; options of packets, and blocks that are skipped; two sections; and the capture that the
# guide converts.
WRITTEN: dict[str, list[str]] = {
    "micro.pcapng": ["editcap -F pcapng demo/lo.pcap micro.pcapng"],
    "nano.pcapng": ["editcap -F pcapng nano.pcap nano.pcapng"],
    "cut.pcapng": ["editcap -F pcapng -s 60 nano.pcap cut.pcapng"],
    "merged.pcapng": ["mergecap -F pcapng -w merged.pcapng demo/lo.pcap nano.pcap"],
    "comments.pcapng": [
        "mergecap -F pcapng -w merged.pcapng demo/lo.pcap nano.pcap",
        "editcap -F pcapng -a 1:first -a 7:seventh --capture-comment all merged.pcapng "
        "comments.pcapng",
    ],
    "sections.pcapng": [
        "editcap -F pcapng demo/lo.pcap micro.pcapng", "editcap -F pcapng nano.pcap nano.pcapng",
        "cat micro.pcapng nano.pcapng >sections.pcapng",
    ],
    "lo.pcapng": [f"{sys.executable} -B demo/samples.py"],
}


@pytest.fixture
def written(demo: Path) -> Callable[[str], None]:
    """Writes a capture of the table, with a setup whose ring holds all of it."""

    def write(name: str) -> None:
        for command in [
            "editcap -F nsecpcap -t 0.000000123 demo/lo.pcap nano.pcap", *WRITTEN[name]
        ]:
            subprocess.run(command, shell=True, capture_output=True, check=True)
        set_up(name)

    return write


def set_up(name: str) -> None:
    Path("conf").write_text(
        f"block_size 65536\nblock_nr 64\nframe_size 2048\nframe_nr 2048\ncpu {name}\nout out\n"
    )
    Path("sched").write_text("")


@pytest.mark.needs("editcap", "mergecap", "tshark")
@pytest.mark.parametrize("name", WRITTEN)
def test_pcapng(name: str, program: Path, written: Callable[[str], None]) -> None:
    written(name)
    run(program, "replay", "conf", "sched")
    found = frames_in("out.0.pcap")
    fields = "-e frame.time_epoch -e frame.cap_len -e frame.len".split()
    said = subprocess.run(
        ["tshark", "-n", "-r", name, "-T", "fields", *fields], capture_output=True, text=True,
        check=True
    ).stdout
    times = [
        f"{frame.time // NANOSECONDS}.{frame.time % NANOSECONDS:09}"
        f"\t{len(frame.data)}\t{frame.wire}"
        for frame in found
    ]
    assert said.splitlines() == times != []
    subprocess.run(
        ["editcap", "-F", "nsecpcap", name, "copy.pcap"], capture_output=True, check=True
    )
    assert frames_in("copy.pcap") == found


@pytest.mark.needs("editcap", "mergecap", "tshark")
def test_a_pcapng_that_is_cut(program: Path, written: Callable[[str], None]) -> None:
    """A packet in a capture that ends within its block: Wireshark calls it cut short, and so
    does ringtap."""
    written("micro.pcapng")
    Path("short.pcapng").write_bytes(Path("micro.pcapng").read_bytes()[:-1])
    set_up("short.pcapng")
    assert "end truncated" in run(program, "replay", "conf", "sched", status=4).splitlines()[0]
