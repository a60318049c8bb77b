#!/usr/bin/env python3
"""Records what a real tcpdump drops that is stopped while tcpreplay sends the demo's capture.

    record_stops.py LOOPS KIB FROM MS [FILE]

In a network namespace a tcpdump with a ring of KIB KiB looks at the demo's capture, sent LOOPS
times; FROM milliseconds after the first frame SIGSTOP stops it, for MS milliseconds. A second
tcpdump, with a large ring, tells when each frame came. The run is appended to FILE
(stopped_tcpdump.json beside this file), which test_stopped_tcpdump.py compares with ringsize.
It needs root, ip, ss, tcpdump and tcpreplay.
"""
from __future__ import annotations

import json
import platform
import signal
import subprocess
import sys
import tempfile
import time
from pathlib import Path

sys.path.insert(0, str(Path(__file__).resolve().parent.parent))

# places makes the modules of the tools known, too.
from places import TOP  # noqa: E402
from ringtap_tools.beside import (  # noqa: E402
    SENDER, TAKER, Namespace, counter_in, first_frame, ring_in
)
from second.capture_frames import frames_in  # noqa: E402

CAPTURE = TOP / "demo/lo.pcap"
RECORD = Path(__file__).with_name("stopped_tcpdump.json")
RING_WORDS = ("block_size", "block_nr", "frame_size", "frame_nr", "tov")


def tcpdump(space: Namespace, name: Path, kib: str, log: Path) -> subprocess.Popen:
    """A tcpdump that writes all that comes, with a ring of so many KiB."""
    words = ["tcpdump", "-n", "-i", TAKER, "-B", kib, "-Z", "root", "-w", str(name)]
    words.append("--time-stamp-precision=nano")
    with open(log, "wb") as output:
        return subprocess.Popen(space.words(*words), stdout=output, stderr=output)


def stopped(process: subprocess.Popen, begin: float, start: float, length: float) -> list[int]:
    """Stops a process and lets it go on; when, in nanoseconds since 1970."""
    moments = []
    until = begin + start / 1000
    for sent in (signal.SIGSTOP, signal.SIGCONT):
        time.sleep(max(0.0, until - time.monotonic()))
        moments.append(time.time_ns())
        process.send_signal(sent)
        until = time.monotonic() + length / 1000
    return moments


def version_of(program: str) -> str:
    said = subprocess.run([program, "--version"], capture_output=True, text=True)
    return ", ".join((said.stdout + said.stderr).splitlines()[:2])


def recorded(loops: str, kib: str, start: float, length: float) -> dict:
    with tempfile.TemporaryDirectory() as name, Namespace() as space:
        room = Path(name)
        process = tcpdump(space, Path("/dev/null"), kib, room / "said.txt")
        setup, _ = ring_in(space, process, CAPTURE)
        watching = tcpdump(space, room / "all.pcap", "16384", room / "watching.txt")
        time.sleep(1)
        sender = subprocess.Popen(
            space.words("tcpreplay", "-q", "-i", SENDER, f"--loop={loops}", str(CAPTURE)),
            stdout=subprocess.DEVNULL,
            stderr=subprocess.DEVNULL,
        )
        moments = stopped(process, first_frame(process.pid, sender), start, length)
        assert sender.wait() == 0
        time.sleep(1.5)
        for each in (process, watching):
            each.send_signal(signal.SIGINT)
            each.wait(10)
        said = (room / "said.txt").read_text()
        times = [frame.time for frame in frames_in(room / "all.pcap")]
    return {
        "programs": [version_of("tcpdump"), version_of("tcpreplay").split(" (")[0]],
        "kernel": platform.release(),
        "ring": [line for line in setup.splitlines() if line.split()[0] in RING_WORDS],
        "stopped": [moment - times[0] for moment in moments],
        "dropped": counter_in(said, None),
        "times": [moment - times[0] for moment in times],
    }


def main(words: list[str]) -> int:
    if len(words) not in (4, 5):
        print(__doc__)
        return 2
    loops, kib, start, length = words[:4]
    name = Path(words[4]) if len(words) == 5 else RECORD
    runs = json.loads(name.read_text()) if name.exists() else []
    run = recorded(loops, kib, float(start), float(length))
    runs.append(run)
    rows = ",\n".join(json.dumps(each) for each in runs)
    name.write_text(f"[\n{rows}\n]\n")
    print(f"{run['dropped']} of {len(run['times'])} dropped, stopped {run['stopped']} ns")
    return 0


if __name__ == "__main__":
    sys.exit(main(sys.argv[1:]))
