"""ring_size.py at every whole millisecond of the timer: sums by hand, and the program's runs.

A frame of 60 bytes takes 144 bytes of a block, of which one of 4096 bytes has 4048, so 28 frames.
"""
from __future__ import annotations

import json

from second.hash_values import KEY
from tools.here import BLOCK, Here, datagram_between, frame, rows


def steady(here: Here) -> None:
    """Frame n of 112 comes n and a half ms after the first; the timer runs out every 56 ms."""
    here.capture("steady.pcap", [(1000 * number + 500, frame(number)) for number in range(112)])
    here.text("steady.txt", BLOCK + "tov 56\ncpu steady.pcap\n")


def test_least_by_hand(here: Here) -> None:
    """Nobody reads. Frame n comes n ms after the first. Begun p ms before it the timer runs out at
    56 - p and at 112 - p: the frames come in parts of 56 - p, 56 and p of them, and each begins a
    block. Of 28 that fill one, p = 0 and p = 28 make 4 blocks and any other p 5, so the smallest
    ring has 5 blocks. A ring of 2 keeps what two blocks have: with p < 28 all of the first 28
    frames and then min(28, 28 - p), so 56 - p; with p from 28 on the first block has 56 - p frames
    and the second 28. So it keeps 28 or more and 56 at most: at p = 27 and 55 it keeps 29, and so
    drops 83."""
    steady(here)
    printed, said, status = here.with_program("ring_size.py", "steady.txt", "--json")
    found = json.loads(printed)
    assert (said, status) == ("", 0)
    assert (found["least"]["block_nr"], found["is_every_millisecond"]) == (5, True)
    two = next(ring for ring in found["rings"] if ring["block_nr"] == 2)
    kept = [56 - phase if phase < 28 else 84 - phase for phase in range(56)]
    assert two["drops_by_phase"] == [112 - one for one in kept]
    assert (two["drops"], two["fewest"]) == (83, 56)


def test_program_at_each_phase(here: Here) -> None:
    """What the model says of each phase, at one beginning, is what the program prints there."""
    steady(here)
    words = ["steady.txt", "--pause", "7", "--from", "0", "--stall", "10:60"]
    found = json.loads(here.with_program("ring_size.py", *words, "--json").printed)
    two = next(ring for ring in found["rings"] if ring["block_nr"] == 2)
    for phase in range(0, 56, 11):
        here.tool("schedule.py", *words, "--phase", phase, "-o", "one.sched")
        line = here.answer([here.program, "replay", "steady.txt", "one.sched"]).printed
        assert f"drops {two['drops_by_phase'][phase]}\n" in line.split("total")[1], phase


def test_judged(here: Here) -> None:
    """The words name the phases, and both sides of the answer were run."""
    steady(here)
    printed = here.with_program("ring_size.py", "steady.txt").printed
    least = "the smallest ring that never freezes, at every whole millisecond of the timer"
    assert f"{least}: 5 blocks" in printed and " (any larger one is as good)\n" in printed
    judged = "`ringtap replay` judged: 5 blocks never freeze; 4 blocks freeze"
    assert f"of 56, and there {judged}\n" in printed
    assert printed.endswith("about this capture: 112 frames in 0.111 s; whole\n")


def test_two_are_the_least_of_a_setup(here: Here) -> None:
    """One frame needs one block, and a setup has at least two."""
    here.capture("one.pcap", [(0, frame(0))])
    here.text("one.txt", BLOCK + "cpu one.pcap\n")
    printed = here.with_program("ring_size.py", "one.txt").printed
    assert rows(printed)[0][4] == "2"
    assert "2 blocks never freeze; no setup has 0 blocks, so that side wasn't run" in printed


def test_keys(here: Here) -> None:
    """Four flows of 28 packets each, and two members: under a key a member gets none to four of
    them. A datagram of 18 bytes is 60 with its headers, so a flow fills a block, and nobody
    reads."""
    flows = [datagram_between((1, 1000 + number), (2, 53), 18) for number in range(4)]
    here.capture("flows.pcap", [(at, flows[at // 28]) for at in range(112)])
    here.text("flows.txt", BLOCK + f"cpu flows.pcap\nmembers 2\nmode hash\nkey {KEY}\n")
    words = ["flows.txt", "--json"]
    own = json.loads(here.with_program("ring_size.py", *words, "--keys", "0").printed)
    most = json.loads(here.with_program("ring_size.py", *words).printed)
    assert own["least"]["block_nr"] <= most["least"]["block_nr"] == 4
    printed = here.with_program("ring_size.py", "flows.txt").printed
    assert f"mode hash: the setup's key needs {own['least']['block_nr']} block" in printed
    assert "a kernel's key is a secret of its boot, so the worst counts" in printed
    # A member that needs n blocks has n flows: two blocks lose n - 2 of them, of 28 packets each.
    (needs,) = most["keys"]
    fewest, largest = needs["others"]
    assert (needs["own"], largest, needs["count"]) == (own["least"]["block_nr"], 4, 16)
    losses = [28 * (count - 2) for count in (needs["own"], min(needs["own"], fewest), 4)]
    by_keys = {"own": [losses[0]] * 2, "all": losses[1:], "phases": 8}
    assert most["rings"][0]["by_keys"] == by_keys and own["rings"][0]["by_keys"] is None
    spans = f"{losses[0]} packets under the setup's key, and {losses[1]} to 56 under it and 16"
    assert f"2 blocks lose {spans} further ones, at 8 phases of the timer\n" in printed


def test_keys_of_suricata(here: Here) -> None:
    """Of 227 datagrams of 60 bytes a flow fills a block of 32,768 bytes: 144 each. Its ring is for
    the worst key too, under which one thread has all four flows."""
    flows = [datagram_between((1, 1000 + number), (2, 53), 18) for number in range(4)]
    here.capture("flows.pcap", [(at, flows[at // 227]) for at in range(4 * 227)])
    here.text("flows.txt", BLOCK + f"cpu flows.pcap\nmembers 2\nmode hash\nkey {KEY}\n")
    found = json.loads(here.with_program("ring_size.py", "flows.txt", "--json").printed)
    assert (found["suricata"]["blocks"], found["suricata"]["is_judged"]) == (4, True)
    assert found["suricata"]["ring-size"] == str(4 * 20 - 1)


def test_libpcaps_bytes(here: Here) -> None:
    """112 frames at once fill 4 blocks of 28; with 4 bytes more, which the option or a setup of
    ring_of.py asks for, a packet takes 152 and a block has 26, so 8 are in a fifth one."""
    here.capture("once.pcap", [(number, frame(number)) for number in range(112)])
    plain = here.text("plain.txt", BLOCK + "cpu once.pcap\n")
    note = "# libpcap reserves 4 bytes more of each packet (PACKET_RESERVE 4): its data begins at"
    noted = here.text("noted.txt", f"{note}\n{BLOCK}cpu once.pcap\n")
    for words, blocks in (([plain], 4), ([plain, "--libpcap"], 5), ([noted], 5)):
        found = json.loads(here.with_program("ring_size.py", *words, "--json").printed)
        assert found["least"]["block_nr"] == blocks, words


def test_poll(here: Here) -> None:
    """A reader that wakes at once has each block when it is full, so two are enough. One that wakes
    40 ms later has the first at 28 + 40, when two more are full; the run is judged by the
    program."""
    steady(here)
    blocks = {}
    for delay in ("0", "40"):
        words = ["steady.txt", "--poll", delay, "--json"]
        blocks[delay] = json.loads(here.with_program("ring_size.py", *words).printed)["least"]
    assert [blocks[delay]["block_nr"] for delay in ("0", "40")] == [2, 4]


def test_slots_that_poll(here: Here) -> None:
    """Of TPACKET_V2 a reader that wakes at once has each slot before the next frame: two are
    enough."""
    steady(here)
    here.text("slots.txt", BLOCK + "cpu steady.pcap\n")
    words = ["slots.txt", "--replay2", "--poll", "0", "--json"]
    found = json.loads(here.with_program("ring_size.py", *words).printed)
    assert (found["least"]["block_nr"], found["least"]["drops"]) == (2, 0)


def test_rates(here: Here) -> None:
    """100 frames a second come each 10 ms; at 48,000 bits a second frames of 60 bytes do too."""
    steady(here)
    words = ["steady.txt", "--tick", "10", "--stats", "0"]
    rate = here.tool("schedule.py", *words, "--pps", "100").printed
    assert rate.split("\n")[:5] == ["feed 0", "tick 10", "feed 0", "tick 20", "feed 0"]
    assert here.tool("schedule.py", *words, "--mbps", "0.048").printed == rate


def test_loop(here: Here) -> None:
    """Three times 112 frames."""
    steady(here)
    words = ["steady.txt", "--loop", "3", "--phases", "1"]
    printed = here.with_program("ring_size.py", *words).printed
    assert rows(printed)[0][7:9] == ["56", "280"]
    assert "about this capture: 336 frames" in printed


def test_the_answer_is_marked(here: Here) -> None:
    """Two frames 20 ms apart are two blocks, handed over by the timer of 8 ms; the reader comes
    after a second, and another frame after two. So two blocks freeze and lose nothing, and three
    never freeze: the answer, and what is marked and shown of members, has three."""
    here.capture("three.pcap", [(at * 1000, frame(at)) for at in (0, 20, 2000)])
    here.text("three.txt", BLOCK + "cpu three.pcap\n")
    words = ["three.txt", "--pause", "1000", "--json", "--pictures", "made"]
    found = json.loads(here.with_program("ring_size.py", *words).printed)
    two = found["rings"][0]
    assert (two["block_nr"], two["drops"], two["freezes"]) == (2, 0, 1)
    assert found["least"]["block_nr"] == 3
    assert "smallest: 12 KiB" in (here.path / "made" / "drops.svg").read_text()
    printed, _, status = here.with_program("ring_size.py", *words[:3], "--block-nr", "2")
    assert "every ring that was tried freezes: no ring suffices\n" in printed and status == 3


def test_the_readers_beginning(here: Here) -> None:
    """Where not all beginnings were tried the words have the one that was: a period of a third of
    a second, 40 ms where that is asked for, none of a reader that waits for blocks."""
    steady(here)
    whole = "at every whole millisecond of the timer"
    for words, said, first in (
        (["--blocks", "3"], ", for a reader whose first step comes 333.333 ms after", 333.333333),
        (["--pause", "7", "--from", "40"], ", for a reader whose first step comes 40 ms after", 40),
        (["--poll"], ": 2 blocks", None),
    ):
        printed = here.with_program("ring_size.py", "steady.txt", *words).printed
        assert f"the smallest ring that never freezes, {whole}{said}" in printed
        found = json.loads(here.with_program("ring_size.py", "steady.txt", *words, "--json")[0])
        assert (found["reader"]["first_step"], found["is_every_beginning"]) == (first, False)
