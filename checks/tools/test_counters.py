"""ring_size.py --lost: the readers that explain a drop counter, by a sum by hand."""
from __future__ import annotations

import json

from tools.here import BLOCK, Here, frame


def even(here: Here, *lines: str) -> None:
    """Frame n of 200 comes after n ms, over two blocks."""
    here.capture("even.pcap", [(1000 * number, frame(number)) for number in range(200)])
    here.text("even.txt", "\n".join([BLOCK + "tov 60000", "cpu even.pcap", *lines, ""]))


def test_stop_by_hand(here: Here) -> None:
    """Frame n comes after n ms, 28 fill a block of two, and the reader comes each ms. One that
    is stopped from the first frame on finds the ring frozen at frame 56; where it reads at 65 ms
    frames 56 to 65 are lost, so 10. Stops begin at 0, 12, 24 and so on, in sixteenths of 199 ms:
    at 111 ms a block is handed over one ms later, the next at 140, and it takes until 149 to
    lose 10, so 38 ms; no other is as short. At 149 ms the ring freezes at 196, and of the last 4
    frames no 10 are lost: 136 is the last begin."""
    even(here)
    words = ["even.txt", "--pause", "1", "--lost", "10", "--tick", "0", "--json"]
    printed, said, status = here.with_program("ring_size.py", *words)
    assert (said, status) == ("", 0)
    found = {one["kind"]: one for one in json.loads(printed)["readings"]}
    assert set(found) == {"stop", "speed"} and json.loads(printed)["phases"] == 1
    assert (found["stop"]["least"], found["stop"]["most"]) == (38, 65)
    assert (found["stop"]["begins"], found["stop"]["blocks"]) == ([0, 136], 3)
    assert found["stop"]["phases"] == [0, 0]
    assert json.loads(printed)["about"]["captures"][0]["frames"] == 200
    # A block is filled each 28 ms, so 35.7 a second: a reader of as many loses none.
    assert 0 < found["speed"]["least"] <= found["speed"]["most"] < 36


def test_libpcap(here: Here) -> None:
    """A reader that comes after a second gives nothing back: two blocks of 28 packets keep 56 of
    200, and with libpcap's 4 bytes two of 26, since 86 and 60 are 152 then."""
    even(here)
    words = ["even.txt", "--pause", "1000", "--tick", "0", "--json"]
    for lost, more, kinds in ((144, [], 1), (148, [], 0), (148, ["--libpcap"], 1)):
        answer = here.with_program("ring_size.py", *words, "--lost", lost, *more)
        found = [one["kind"] for one in json.loads(answer.printed)["readings"]]
        assert found.count("phase") == kinds, (lost, more, answer)


def test_a_reader_that_polls(here: Here) -> None:
    """It has each block at once but in the stop that is found, by which the program is run."""
    even(here)
    answer = here.with_program("ring_size.py", "even.txt", "--poll", "--lost", "10", "--tick", "0")
    assert "one stop of the reader of " in answer.printed and answer.status == 0
    assert "; `ringtap replay` drops as many at phase 0\n" in answer.printed


def test_nothing_explains(here: Here) -> None:
    """More than are there can't be lost; of what the filter refuses nothing is said."""
    here.capture("few.pcap", [(1000 * number, frame(number)) for number in range(20)])
    here.text("few.txt", BLOCK + "cpu few.pcap\n")
    answer = here.with_program("ring_size.py", "few.txt", "--lost", "30", "--json")
    assert (json.loads(answer.printed)["readings"], answer.status) == ([], 3)
    even(here, "filter none.ddd")
    here.text("none.ddd", "1\n6 0 0 0\n")
    answer = here.with_program("ring_size.py", "even.txt", "--lost", "3")
    refused = "ring_size.py: even.pcap: the filter refuses each of 200 arrivals: no answer\n"
    assert answer == ("", refused, 4)
