"""Real tcpdumps that SIGSTOP stopped while tcpreplay sent the demo's capture: what each said that
it dropped is in the range that ringsize prints, over every whole millisecond of its timer, for a
reader that looks each millisecond but while it was stopped. outside/record_stops.py recorded the
runs, with the moments at which the frames came."""
from __future__ import annotations

import json
import re
import subprocess
from itertools import cycle
from pathlib import Path

import pytest

from outside.record_stops import CAPTURE, RECORD
from second.capture_bytes import NANOSECONDS, header, record
from second.capture_frames import frames_in
from second.readers import MILLISECOND
from second.size_cases import START

RUNS = json.loads(RECORD.read_text())
SECOND = 1_000 * MILLISECOND


def written(run: dict, folder: Path) -> None:
    """The setup, the reader's text and the capture of a recorded run."""
    frames = zip(cycle(frames_in(CAPTURE)), run["times"])
    records = (
        record(frame.data, "<", START + time // SECOND, time % SECOND) for frame, time in frames
    )
    (folder / "in.pcap").write_bytes(header(magic=NANOSECONDS) + b"".join(records))
    (folder / "conf").write_text("\n".join([*run["ring"], "cpu in.pcap", ""]))
    first, last = (round(moment / MILLISECOND) for moment in run["stopped"])
    (folder / "reader").write_text(f"pause 1\nstall {first} {last - first}\n")


@pytest.mark.parametrize("run", RUNS)
def test_a_stopped_tcpdump(run: dict, sizer: Path, room: Path) -> None:
    written(run, room)
    done = subprocess.run([sizer, "conf", "reader"], cwd=room, capture_output=True, text=True)
    assert done.returncode == 0, done.stdout
    drops = re.search(r"^member 0 drops least (\d+) .* most (\d+) ", done.stdout, re.M)
    assert drops, done.stdout
    least, most = map(int, drops.groups())
    assert 0 < least <= run["dropped"] <= most < len(run["times"]), done.stdout
