#!/usr/bin/env python3
"""A second program over the same rules: what ringtap's runs have to print and to save, worked
out apart from its code.

    second_program.py replay SETUP SCHEDULE [FOLDER]   prints the lines, and saves the files there
    second_program.py replay2 SETUP SCHEDULE [FOLDER]  the same over rings of TPACKET_V2
    second_program.py capture SETUP [FOLDER]           of threads of which nothing hangs on them
    second_program.py make SETUP [FOLDER]              of frames made from the setup's number
    second_program.py send SETUP [FOLDER]              of a capture sent through a transmit ring
    second_program.py ringsize SETUP READER            the lines of ringsize
    second_program.py --demo                           writes demo/expected anew

Nothing of a run on threads hangs on them where it tells no moment, and each ring has the packets
of one CPU and room for all of them: it then gives what a replay with an empty schedule gives.
captures.py tests all others.

It follows docs/reference.md and the definitions of the crates' specs/ with lists and slices, for
texts that are accepted: setups are in setup.py, frames in frames.py, rings in rings.py, runs in
runs.py, readers in readers.py and the sizes of rings in sizes.py. Paths in a setup count from the
folder in which this is run, as they do for ringtap.
"""
from __future__ import annotations

import os
import sys
from pathlib import Path

from second import filter_verdicts
from second.readers import Reader
from second.rings import Ring, SlotRing
from second.runs import Files, make, replay, send
from second.setup import Setup
from second.sizes import Sizing

# how many texts a command reads
TEXTS = {"replay": 2, "replay2": 2, "make": 1, "send": 1, "capture": 1, "ringsize": 2}
DEMO = {
    "setup": ["replay", "demo/setup.txt", "demo/schedule.txt"],
    "small": ["replay", "demo/small.txt", "demo/schedule.txt"],
    "group": ["replay", "demo/group.txt", "demo/group.sched"],
    "make": ["make", "demo/make.txt"],
    "send": ["send", "demo/send.txt"],
    "capture": ["capture", "demo/capture.txt"],
}


def text_of(path: str) -> str:
    with open(path, encoding="ascii", newline="") as file:
        return file.read()


def run(command: str, setup_path: str, schedule_path: str | None = None) -> tuple[str, Files]:
    """The printed lines and the files of a command."""
    setup = Setup(text_of(setup_path))
    captures = [Path(name) for name, _ in setup.cpus]
    if command == "send":
        return send(setup, captures[0].read_bytes())
    program = filter_verdicts.program(text_of(setup.filter)) if setup.filter else None
    if command == "make":
        return make(setup, program)
    schedule, data = text_of(schedule_path) if schedule_path else "", [
        path.read_bytes() for path in captures
    ]
    if command == "ringsize":
        return Sizing(setup, Reader(schedule), data, program).lines(), {}
    return replay(setup, schedule, data, program, SlotRing if command == "replay2" else Ring)


def save(folder: str, files: Files) -> None:
    for name, data in files.items():
        Path(folder, name).write_bytes(data)


def make_demo() -> None:
    os.chdir(Path(__file__).resolve().parent.parent.parent)
    for name, words in DEMO.items():
        lines, files = run(*words)
        folder = f"demo/expected/{name}"
        os.makedirs(folder, exist_ok=True)
        save(folder, {**files, "lines.txt": lines.encode()})


def main(words: list[str]) -> None:
    texts = TEXTS.get(words[0] if words else "", 0)
    if words == ["--demo"]:
        make_demo()
    elif texts and len(words) in (1 + texts, 2 + texts):
        lines, files = run(*words[: 1 + texts])
        sys.stdout.write(lines)
        if len(words) > 1 + texts:
            save(words[-1], files)
    else:
        sys.exit(__doc__)


if __name__ == "__main__":
    main(sys.argv[1:])
