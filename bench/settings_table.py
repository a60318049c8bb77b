"""The table of runs for which the C library is told something by a word of the environment."""
from __future__ import annotations

import sys
from pathlib import Path

from inputs import EACH, FRAMES, MAKERS, MIB, RINGS, SHARED, SMALL_BLOCKS, make_capture, write_setup
from measurements import COMMANDS, Asked, Times, Words, faults_of, measure

sys.path.append(str(Path(__file__).resolve().parent.parent / "tools"))

from ringtap_tools.memory import KEPT_HEAP, LARGE_PAGES, TOLD  # noqa: E402

SETTINGS: dict[str, Words] = {
    "as it is": [], "large pages": [LARGE_PAGES], "kept heap": [KEPT_HEAP],
    "both": [LARGE_PAGES, KEPT_HEAP]
}


def row_of_settings(name: str, words: Words, asked: Asked) -> None:
    """Prints what a run takes under each setting of the C library, by turns."""
    runs = {
        setting: ["env", *([f"{TOLD}=" + ":".join(told)] if told else []), *words] for setting,
        told in SETTINGS.items()
    }
    times: dict[str, Times] = {setting: [] for setting in runs}
    for _ in range(asked.runs):
        for setting, one in runs.items():
            times[setting].append(measure(one, 1)[:2])
    least = [[min(numbers) for numbers in zip(*taken)] for taken in times.values()]
    usage = [faults_of(one) for one in runs.values()]
    numbers = [f"{one[at]:.3f}" for at in (0, 1) for one in least]
    numbers += (
        [f"{faults:,}" for faults, _ in usage] + [f"{memory / MIB:.0f}" for _, memory in usage]
    )
    print(f"| {name} | " + " | ".join(numbers) + " |", flush=True)


def times_of_settings(program: str, asked: Asked) -> None:
    """Prints what replays of 32 MiB and captures of four CPUs with a member each take, as they
    are and where the C library is told something."""
    print("\n## What the C library can be told\n")
    heads = [
        setting if at else what for what in (
            "Time, s", "CPU, s", "Page faults", "Memory, MiB"
        ) for at,
        setting in enumerate(SETTINGS)
    ]
    print("\n| Run | " + " | ".join(heads) + " |\n|" + "---|" * (len(heads) + 1))
    for kind, lengths in FRAMES.items():
        write_setup("conf", RINGS["keeps"])
        make_capture("in.pcap", 32 * MIB, lengths)
        row_of_settings(f"replay, {kind}", [program, *COMMANDS["replay"]], asked)
    for kind, maker in MAKERS.items():
        maker()
        for ring in (RINGS["keeps"], SMALL_BLOCKS):
            write_setup("conf", ring, 4, SHARED[EACH](4))
            row_of_settings(
                f"capture, {kind}, blocks of {ring['block_size'] // 1024:,} KiB",
                [program, *COMMANDS["capture"]], asked
            )
