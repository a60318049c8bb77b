"""beside.py with a real tcpdump, where root may make a network namespace and the programs are
there."""
from __future__ import annotations

import json

import pytest

from tools.here import Here, frame


@pytest.mark.needs("network namespaces", "ip", "ss", "tcpreplay", "tcpdump")
def test_tcpdump(here: Here) -> None:
    """200 frames of 20,000 bytes, one each 10 ms, over 2 blocks of 13: with libpcap's 4 bytes
    more each takes 20,088 of 262,096. A stop of a second loses 100 less some 26 of them.
    tcpdump's own number is in the predicted range, except where the machine has so much other
    work that frames come late."""
    here.capture("sent.pcap", [(10_000 * number, frame(number, 20_000)) for number in range(200)])
    command = ["tcpdump", "-i", "{}", "-B", "512", "-Z", "root", "-w", "/dev/null"]
    words = ["sent.pcap", "--stop", "200:1000", "--json", "--program", here.program]
    answer = here.tool("beside.py", *words, "--", *command)
    assert (answer.said, answer.status) == ("", 0)
    found = json.loads(answer.printed)
    assert not found["is_v2"]
    assert (found["block_nr"], found["block_size"], found["tov"]) == (2, 262_144, 1000)
    assert 50 < found["fewest"] <= found["most"] < 100
    assert found["is_within"] or found["is_late"]


@pytest.mark.needs("network namespaces", "ip", "ss", "tcpreplay", "tcpdump")
def test_slots(here: Here) -> None:
    """`tcpdump --immediate-mode` has slots of 65,632 bytes for its snap length here, 8 of them in
    512 KiB. Of 300 frames, one each 10 ms, a stop of 1.5 s loses 150 less 8. On a machine with
    much other work stops are longer and frames come late, so tcpdump's own number is another."""
    here.capture("sent.pcap", [(10_000 * number, frame(number)) for number in range(300)])
    command = ["tcpdump", "--immediate-mode", "-i", "{}", "-B", "512", "-Z", "root", "-w"]
    words = ["sent.pcap", "--stop", "500:1500", "--json", "--program", here.program]
    answer = here.tool("beside.py", *words, "--", *command, "/dev/null")
    found = json.loads(answer.printed)
    assert (found["is_v2"], found["is_within"], answer.status) == (True, None, 0)
    assert found["fewest"] == found["most"] and abs(found["most"] - 142) <= 1
    assert 0 < found["dropped"] < 300 - 8
