"""Compares what tools/ring_size.py prints, saves and draws with sums worked out by hand.

A frame of 60 bytes takes 144 bytes of a block, of which one of 4096 bytes has 4048 for packets,
so 28 frames.
"""
from __future__ import annotations

import csv
import json
import re
import xml.etree.ElementTree

import pytest

from second.hash_values import KEY
from tools.here import BLOCK, Here, frame, rows

SVG = "{http://www.w3.org/2000/svg}"


@pytest.fixture
def here(here: Here) -> Here:
    """Beside it a setup for a capture of 1,000 frames at once."""
    here.capture("thousand.pcap", [(number, frame(number)) for number in range(1000)])
    here.text("thousand.txt", BLOCK + "cpu thousand.pcap\n")
    return here


def rows_of(printed: str) -> list[str]:
    """The rows of the first table, between commas."""
    return [",".join(row) for row in rows(printed)]


def below(printed: str) -> list[str]:
    """The lines below the first table."""
    lines = printed.split("\n")
    return lines[lines.index("", 3) + 1 :]


def test_grid(here: Here) -> None:
    """100 frames at once, and nobody reads: n blocks keep 28 n of them. The timer doesn't run
    out before they are all there."""
    setup = "many.txt"
    printed, said, status = here.with_program(
        "ring_size.py", setup, "--block-nr", "2,3,4", "--phases", "1", "--pictures", "made"
    )
    wanted = [
        "cpu,1,0,4096,2,8192,0,56,44,1,2,44", "cpu,1,0,4096,3,12288,0,84,16,1,3,16",
        "cpu,1,0,4096,4,16384,0,100,0,0,4,0"
    ]
    assert (rows_of(printed), said, status) == (wanted, "", 0)
    assert printed.split("\n")[0] == "nobody reads before all frames are fed"
    assert below(printed)[:2] == [
        "the smallest ring that loses nothing: 4 blocks of 4096 bytes, time-out 8 ms; 16 KiB in"
        " all",
        "with 3 blocks 16 of 100 packets are lost",
    ]
    with open(here.path / "made" / "table.csv", newline="") as file:
        assert [",".join(row).replace(",all,", ",") for row in csv.reader(file)][1:] == wanted
    assert here.titles("made/drops.svg") == [
        "2 blocks of 4096 bytes, time-out 8 ms: 44 dropped of 100",
        "3 blocks of 4096 bytes, time-out 8 ms: 16 dropped of 100",
        "4 blocks of 4096 bytes, time-out 8 ms: 0 dropped of 100",
    ]
    assert here.titles("made/packets.svg") == ["cpu, 1 0: 100 kept"]
    words = [
        node.text
        for node in xml.etree.ElementTree.parse(here.path / "made/drops.svg").iter(f"{SVG}text")
    ]
    assert "smallest: 16 KiB" in words
    assert "many.pcap: 100 frames in 0.000 s; nobody reads before all frames are fed" in words


def test_halving(here: Here) -> None:
    """1,000 frames at once take 36 blocks: 35 have 980. So 2 to 64 by doubling, once more, and
    then 48, 40, 36, 34, 35."""
    setup = "thousand.txt"
    printed, _, status = here.with_program("ring_size.py", setup, "--tick", "0", "-o", "least.txt")
    assert [
        row.split(",")[4]
        for row in rows_of(printed)
    ] == "2 4 8 16 32 34 35 36 40 48 64 128".split()
    assert [row for row in rows_of(printed) if ",4096,35," in row] == [
        "cpu,1,0,4096,35,143360,0,980,20,1,35,20"
    ]
    assert (below(printed)[0], status) == (
        "the smallest ring that loses nothing: 36 blocks of 4096 bytes, time-out 8 ms; 144 KiB in"
        " all",
        0
    )
    assert here.answer([here.program, "replay", "least.txt", "/dev/null"])[0].split("\n")[2] == (
        "total arrivals 1000 filtered 0 kept 1000 drops 0"
    )


def test_none_suffices(here: Here) -> None:
    setup = "thousand.txt"
    printed, said, status = here.with_program(
        "ring_size.py", setup, "--block-nr", "2,3", "--tick", "0", "-o", "none.txt"
    )
    assert (below(printed)[:2], said, status, (here.path / "none.txt").exists()) == (
        ["every ring that was tried loses packets: no ring suffices",
         "the smallest loss: 916 of 1,000, by 3 blocks of 4096 bytes, time-out 8 ms"], "", 3, False)


def test_phases(here: Here) -> None:
    """Frame n of 112 comes n ms after the first: 28 fill a block, and nobody reads from two
    blocks. The timer runs out every 56 ms. Started with the first frame it runs out at 56, when
    both blocks are full with frames 0 to 55; started 28 ms before, at 28, when the first one is.
    Started 42 ms before it runs out at 14, when the first block has 14 frames; the second one
    has the next 28, so 42 are kept. Started 14 ms before it runs out at 42: the first block has
    28 then, and the second 14."""
    here.capture("steady.pcap", [(1000 * number + 500, frame(number)) for number in range(112)])
    setup = here.text("steady.txt", BLOCK + "tov 56\ncpu steady.pcap\n")
    printed, _, _ = here.with_program(
        "ring_size.py", setup, "--block-nr", "2", "--phases", "4", "--json"
    )
    ring = json.loads(printed)["rings"][0]
    assert ring["drops_by_phase"] == [56, 70, 56, 70]
    assert (ring["kept"], ring["drops"], ring["phase"], ring["fewest"]) == (42, 70, 14, 56)
    for phase, kept in {0: 56, 14: 42, 28: 56, 42: 42}.items():
        here.tool("schedule.py", setup, "--phase", phase, "-o", "phase.sched")
        printed = here.answer([here.program, "replay", setup, "phase.sched"])[0]
        assert printed.split("\n")[2] == (
            f"total arrivals 112 filtered 0 kept {kept} drops {112 - kept}"
        ), f"phase {phase}"


def test_captures(here: Here) -> None:
    """Captures in place of a setup: two CPUs with a member each; 3,000 frames of 60 bytes fit
    into 2 blocks of 262,144 bytes, of which one has 262,096 / 144 = 1,820."""
    for name, count in (("one.pcap", 100), ("two.pcap", 3000)):
        here.capture(name, [(number, frame(number)) for number in range(count)])
    printed, said, status = here.with_program("ring_size.py", "two.pcap", "--phases", "2")
    first = (
        "by default: frame_size 2048, tov 1000, block_size 262144, each reader sleeps 100 ms, then "
        "takes all that is there"
    )
    assert (printed.split("\n")[0], said, status) == (first, "", 0)
    assert rows_of(printed)[0] == "cpu,1,1000,262144,2,524288,0,3000,0,0,2,0"
    tried = "   (tried with the 4 bytes that libpcap has more before each packet)"
    # libpcap's packet takes 86 and 60, padded 152: 1,724 a block. Where the timer runs out after
    # 1,000 of the 3,000 frames the second block has 1,724 of them, and a third one the rest.
    assert below(printed)[2] == "tcpdump -B 768" + tried
    # dumpcap counts MiB, of which it takes at least one.
    assert below(printed)[3] == "dumpcap -B 1" + tried
    # 227 frames fill a block of 32,768. A tick, after 1,000 or 2,000 of the 3,000 frames, adds none
    # to the 14 blocks: 908 + 92 and 9 more, or 1,816 + 184 and 5 more. Suricata counts 20 frames of
    # 1,600 bytes for a block, and makes a block more than ring-size has.
    assert below(printed)[4:8] == [
        "not tried here: suricata.yaml, under af-packet, by its documentation:",
        "    block-size: 32768", "    ring-size: 279", "    block-timeout: 10",
    ]
    printed, _, _ = here.with_program(
        "ring_size.py", "one.pcap", "two.pcap", "--phases", "1", "--members", "2"
    )
    assert rows_of(printed)[0] == "cpu,2,1000,262144,2,1048576,0,3100,0,0,3,0"
    start = below(printed).index("the largest member to the mean one:")
    # 3,000 of 3,100 are 1.94 times the mean of two, and so are the bytes.
    assert below(printed)[start + 3].split() == ["cpu", "2", "1.94", "1.94"]
    assert here.with_program(
        "ring_size.py", "two.pcap", "--speed", "1000", "--stall", "0:500"
    )[2] == 0


def test_libpcap(here: Here) -> None:
    """1,820 packets of 144 bytes fill a block of ringtap's, and libpcap's 152 let it have 1,724:
    of 3,600 frames two blocks hold all or lose 152."""
    here.capture("full.pcap", [(number, frame(number)) for number in range(3600)])
    printed, _, _ = here.with_program("ring_size.py", "full.pcap", "--phases", "1", "--json")
    found = json.loads(printed)
    assert (found["least"]["block_nr"], found["tcpdump"]["command"]) == (2, "tcpdump -B 768")
    # The same where a filter cuts 200 bytes to 60.
    here.capture("wide.pcap", [(number, frame(number, 200)) for number in range(3600)])
    here.text("sixty.ddd", "1\n6 0 0 60\n")
    setup = here.text(
        "sixty.txt",
        "block_size 262144\nblock_nr 2\nframe_size 2048\nframe_nr 256\ntov 1000\ncpu "
        "wide.pcap\nfilter sixty.ddd\n"
    )
    printed, _, _ = here.with_program(
        "ring_size.py", setup, "--phases", "1", "--pause", "100", "--json"
    )
    found = json.loads(printed)
    assert (found["least"]["block_nr"], found["tcpdump"]["command"]) == (2, "tcpdump -B 768")


def test_modes(here: Here) -> None:
    """Of 100 frames of one CPU, lb gives each of two members 50 and cpu the first all; 28 fit
    into a block, and a reader takes none."""
    setup = here.text("modes.txt", BLOCK + "cpu many.pcap\n")
    printed, _, _ = here.with_program(
        "ring_size.py", setup, "--block-nr", "2", "--members", "2", "--mode",
        "lb,cpu,rollover,cpu+rollover", "--jobs", "2", "--phases", "1", "--pictures", "modes"
    )
    assert [
        " ".join(row.split(",")[index] for index in (0, 7, 8, 9))
        for row in rows_of(printed)
    ] == ["lb 100 0 0", "cpu 56 44 1", "rollover 100 0 0", "cpu+rollover 100 0 0"]
    members = [
        line.split()
        for line in below(printed) if re.match(r"[\w+]+ +2 +\d +\d+ +\d+ +\d", line)
    ]
    assert [" ".join(row) for row in members] == [
        "lb 2 0 50 0 3000", "lb 2 1 50 0 3000", "cpu 2 0 56 44 3360", "cpu 2 1 0 0 0",
        "rollover 2 0 56 0 3360", "rollover 2 1 44 0 2640", "cpu+rollover 2 0 56 0 3360",
        "cpu+rollover 2 1 44 0 2640",
    ]
    even = [line.split() for line in below(printed) if re.match(r"[\w+]+ +2 +\d\.", line)]
    # Packets count kept or dropped: 100 of 100 at one of two is 2; 56 to 44 is 1.12.
    assert even == [
        ["lb", "2", "1.00", "1.00"], ["cpu", "2", "2.00", "2.00"],
        ["rollover", "2", "1.12", "1.12"], ["cpu+rollover", "2", "1.12", "1.12"]
    ]
    assert here.titles("modes/packets.svg") == [
        "lb, 2 0: 50 kept", "lb, 2 1: 50 kept", "cpu, 2 0: 56 kept", "cpu, 2 0: 44 dropped",
        "rollover, 2 0: 56 kept", "rollover, 2 1: 44 kept", "cpu+rollover, 2 0: 56 kept",
        "cpu+rollover, 2 1: 44 kept",
    ]
    with open(here.path / "modes" / "table.csv", newline="") as file:
        table = [row for row in csv.DictReader(file) if row["mode"] == "rollover"]
    assert [(row["member"], row["kept"]) for row in table] == [
        ("all", "100"), ("0", "56"), ("1", "44")
    ]


def test_slots(here: Here) -> None:
    """TPACKET_V2: 100 frames at once fill 100 slots; a block of 4096 bytes has two of 2048."""
    setup = here.text("slots.txt", BLOCK + "cpu many.pcap\n")
    printed, _, status = here.with_program(
        "ring_size.py", setup, "--replay2", "-o", "slots-least.txt"
    )
    assert (below(printed)[0], status) == (
        "the smallest ring that loses nothing: 100 slots of 2048 bytes, in 50 blocks of 4096"
        " bytes; "
        "200 KiB in all (any larger one is as good)",
        0
    )
    assert below(printed)[1] == "with 49 blocks 2 of 100 packets are lost"
    judged = "`ringtap replay2` judged: 100 slots lose nothing; 99 slots lose packets"
    assert below(printed)[2].endswith(f"so the tool's own model found it, and there {judged}")
    assert here.answer(
        [here.program, "replay2", "slots-least.txt", "/dev/null"]
    )[0].split("\n")[2] == "total arrivals 100 filtered 0 kept 100 drops 0"
    assert here.with_program("ring_size.py", setup, "--replay2", "--tov", "8")[1] == (
        "ring_size.py: --tov: a ring of TPACKET_V2 has no time-out\n"
    )


def test_many_lines(here: Here) -> None:
    """Nine lines are too many for one picture: each mode has a panel of its own."""
    setup = here.text("panels.txt", BLOCK + "cpu many.pcap\n")
    here.with_program(
        "ring_size.py", setup, "--block-nr", "2", "--members", "1,2,3", "--mode", "lb,cpu,rollover",
        "--phases", "1", "--pictures", "panels"
    )
    tree = xml.etree.ElementTree.parse(here.path / "panels/drops.svg")
    bold = [node.text for node in tree.iter(f"{SVG}text") if node.get("font-weight") == "bold"]
    assert [name for name in bold if name in ("lb", "cpu", "rollover")] == ["lb", "cpu", "rollover"]
    colors = {
        node.get("stroke")
        for node in tree.iter(f"{SVG}circle") if node.get("stroke") not in (None, "#222222")
    }
    assert len(colors) == 3
    assert len(here.titles("panels/drops.svg")) == 9


def test_refused(here: Here) -> None:
    """What is wrong is said before anything is run."""
    setup = here.text("wrong.txt", BLOCK + "cpu many.pcap\n")
    before = (here.path / "many.pcap").read_bytes()
    (here.path / "alias.pcap").symlink_to("many.pcap")
    said = {
        ("--stall", "1:2"): (
            "--stall: says when no reader reads, and nobody reads at all: --blocks, --bytes, "
            "--pause or --poll gives a reader"
        ),
        ("--phases", "0"): "--phases: a number from 1 to 1000",
        ("--jobs", "0"): "--jobs: a number from 1 on",
        ("--png",): "--png: says how pictures are drawn, and --pictures where",
        ("-o", "many.pcap"): (
            "many.pcap: would take the place of the input many.pcap: choose another name"
        ),
        ("-o", "alias.pcap"): (
            "alias.pcap: would take the place of the input many.pcap: choose another name"
        ),
        ("-o", "wrong.txt"): (
            "wrong.txt: would take the place of the input wrong.txt: choose another name"
        ),
        ("-o", "no/least.txt"): "no/least.txt: can't be written: there is no folder no",
        ("--pictures", "wrong.txt/made"): "wrong.txt/made: can't be made: wrong.txt isn't a folder",
        ("--mode", "hash"): (
            f'wrong.txt: has no line "key", and mode hash needs one, as "key {KEY}"'
        ),
    }
    for words, wanted in said.items():
        assert here.with_program("ring_size.py", setup, *words) == (
            "", f"ring_size.py: {wanted}\n", 1
        ), " ".join(words)
    assert here.with_program("ring_size.py", setup, setup)[1] == (
        "ring_size.py: wrong.txt: isn't a capture; one setup is taken, or captures\n"
    )
    assert here.with_program("ring_size.py", setup, "--block-size", "5000")[2] == 2
    assert (here.path / "many.pcap").read_bytes() == before
