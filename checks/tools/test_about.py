"""What is said of captures, and where they give no answer: status 4."""
from __future__ import annotations

import gzip
import json
import struct

import pytest

from second.capture_bytes import block, enhanced, header, interface, section
from tools.here import BLOCK, Here, frame, record_at


def pcapng(frames: int, drops: int) -> bytes:
    """A section with one interface, some frames of 60 bytes, and statistics that tell of drops."""
    packets = [enhanced("<", 0, 1_000_000 + number, frame(number)) for number in range(frames)]
    # received, and dropped by the interface
    counts = struct.pack("<HHQHHQHH", 4, 8, frames, 5, 8, drops, 0, 0)
    statistics = block("<", 5, struct.pack("<III", 0, 0, 0) + counts)
    return section("<") + interface("<") + b"".join(packets) + statistics


def said_of(here: Here, *words: object) -> tuple[str, int | str | None]:
    """The last line that is printed, or where there is no answer all that is printed and said."""
    printed, said, status = here.with_program("ring_size.py", *words)
    return (printed.rstrip("\n").rsplit("\n", 1)[-1] if status != 4 else printed + said), status


def test_cut_frames(here: Here) -> None:
    """Two of three frames are cut to 60 and 64 bytes."""
    cut = record_at(1, frame(1), 200) + record_at(2, frame(2, 64), 1500)
    here.saved("cut.pcap", header() + record_at(0, frame(0)) + cut)
    line, status = said_of(here, "cut.pcap")
    assert line == (
        "about this capture: 3 frames in 0.000 s; whole; 2 frames are cut, so the answer is for "
        "a snap length of 64"
    )
    assert status == 0


def test_drops_of_pcapng(here: Here) -> None:
    here.saved("lossy.pcapng", pcapng(5, 17))
    line, _ = said_of(here, "lossy.pcapng")
    assert line.endswith("whole; its own statistics tell of 17 drops: it lacks them")
    found = json.loads(here.with_program("ring_size.py", "lossy.pcapng", "--json").printed)
    assert found["about"]["captures"][0]["drops_told"] == 17


@pytest.mark.needs("tcpdump")
def test_filtered(here: Here) -> None:
    """Of 60 and 61 bytes the filter takes those of 61."""
    here.capture("two.pcap", [(number, frame(number, 60 + number % 2)) for number in range(10)])
    line, status = said_of(here, "two.pcap", "--filter", "greater 61")
    assert (line.endswith("; whole; 5 filtered"), status) == (True, 0)
    line, status = said_of(here, "two.pcap", "--filter", "greater 62")
    assert (line, status) == (
        "ring_size.py: two.pcap: the filter refuses each of 10 arrivals: no answer\n", 4
    )
    answer = here.with_program("ring_size.py", "two.pcap", "--filter", "ip9")
    assert answer.said.startswith("ring_size.py: --filter: tcpdump refuses 'ip9': ")
    assert answer.status == 1
    words = ["two.pcap", "--filter", "greater 61", "-o", "two.txt"]
    assert here.with_program("ring_size.py", *words).status == 0
    assert "filter two.txt.ddd\n" in (here.path / "two.txt").read_text()
    assert (here.path / "two.txt.ddd").read_text().split("\n")[0].isdigit()


def test_no_answer(here: Here) -> None:
    """No frame, and captures of which only a part can be read."""
    here.saved("none.pcap", header())
    assert said_of(here, "none.pcap") == ("ring_size.py: none.pcap: no frame: no answer\n", 4)
    here.saved("part.pcap", header() + record_at(0, frame(0)) + record_at(1, frame(1))[:-1])
    line, status = said_of(here, "part.pcap")
    assert "part.pcap: ends truncated 100 after 1 frames: no answer for a part" in line
    assert status == 4
    # 168 records of 200,016 bytes, so 33,602,712 in all
    here.saved("large.pcap", header() + record_at(0, frame(0, 200_000)) * 168)
    line, status = said_of(here, "large.pcap")
    assert "tools/busiest.py takes the whole, and cuts out the hardest part" in line
    assert status == 4


def test_small_gzip_of_much(here: Here) -> None:
    """200 MiB of zeros in frames, about 1,000 times smaller as gzip, are read no further than 64
    MiB."""
    with gzip.open(here.path / "zeros.gz", "wb", 9) as file:
        file.write(header())
        for at in range(800):
            file.write(record_at(at, bytes(1 << 18)))
    said, status = here.tool("busiest.py", "zeros.gz")[1:]
    assert said == (
        "busiest.py: zeros.gz: its gzip unpacks to more than 200 times its size, "
        "so it is read no further: unpack it by `gzip -dc`, and give that file\n"
    )
    assert status == 1


def test_one_voice(here: Here) -> None:
    """What run.py explains every tool says, and no tool ends with a traceback."""
    here.capture("a.pcap", [(0, frame(0))])
    texts = {
        "mark.txt": "\ufeffblock_size 4096\n", "no_cpu.txt": BLOCK, "empty.txt": "",
        "gone.txt": BLOCK + "cpu gone.pcap\n", "zero.txt": BLOCK + "cpu zero.pcap\n",
        "fine.txt": BLOCK + "cpu a.pcap\n", "wrong.sched": "feed 0\nread 7\n",
    }
    for name, words in texts.items():
        here.saved(name, words.encode())
    here.saved("zero.pcap", b"")
    cases = {
        "mark.txt": (
            "mark.txt, line 1: begins with a UTF-8 mark (the bytes ef bb bf): "
            "save it without one, as ASCII"
        ),
        "no_cpu.txt": "no_cpu.txt: has no line `cpu`",
        "empty.txt": "empty.txt: has no line",
        "a.pcap": (
            "a.pcap: is a capture, and a setup is wanted: one names it by a line `cpu a.pcap`"
        ),
        "gone.txt": (
            f"gone.txt, line 5: gone.pcap isn't there: names count from the folder {here.path}"
        ),
        "zero.txt": "zero.pcap is empty",
    }
    for setup, wanted in cases.items():
        answers = {
            "schedule.py": here.tool("schedule.py", setup),
            "lost.py": here.with_program("lost.py", setup, "/dev/null"),
            "timeline.py": here.with_program("timeline.py", setup, "/dev/null"),
        }
        if setup != "a.pcap":
            answers["ring_size.py"] = here.with_program("ring_size.py", setup)
        for name, answer in answers.items():
            assert wanted in answer.said, (name, setup, answer)
            assert "Traceback" not in answer.said and answer.status == 1, (name, setup)
    here.text("nobody.txt", BLOCK + "members 0\ncpu a.pcap\n")
    for name, *words in (
        ["lost.py"], ["ring_size.py"], ["ring_size.py", "--lost", "3"], ["schedule.py", "--poll"],
        ["long.py"], ["timeline.py", "/dev/null"],
    ):
        answer = here.with_program(name, "nobody.txt", *words)
        assert (answer.printed, answer.status) == ("", 1), name
        assert answer.said.startswith(f"{name}: nobody.txt, line 5: "), name
    here.text("private.txt", BLOCK + "priv 99999\ncpu a.pcap\n")
    for words in (["ring_size.py"], ["ring_size.py", "--lost", "3"], ["schedule.py", "--poll"]):
        answer = here.with_program(words[0], "private.txt", *words[1:])
        assert "a private area has 0 to 1024 bytes" in answer.said and answer.status == 1, words
    said = here.with_program("lost.py", "fine.txt", "wrong.sched").said
    assert 'wrong.sched, line 2: "read 7": fine.txt has one member, which is 0' in said
    said = here.with_program("ring_size.py", "fine.txt", "--mode", "cluster_flow").said
    assert 'no such mode; Suricata\'s cluster_flow is "mode hash"' in said
