"""What is to be known of captures before an answer on them is believed: how many frames, whether
they are whole, cut or filtered, and whether the capture itself lost some."""
from __future__ import annotations

from typing import Sequence

from .captures import LARGEST_CAPTURE
from .files import NANOSECONDS, Fault
from .schedule import About

NO_ANSWER = 4  # the status where a capture gives none


class NoAnswer(Fault):
    """Captures of which no ring can be said."""


def refuse_parts(about: Sequence[About]) -> None:
    """Ends the tool where a capture has no frame, or only a part of it was read."""
    for one in about:
        if one.end.startswith("too_large"):
            raise NoAnswer(
                f"{one.path}: has more than {LARGEST_CAPTURE:,} bytes, and {one.frames:,} frames of"
                " them were read: no answer for a part; tools/busiest.py takes the whole, and cuts"
                " out the hardest part; tools/long.py says what a given ring loses of all, and with"
                " --smallest which ring never freezes"
            )
        if one.end != "ok":
            raise NoAnswer(
                f"{one.path}: ends {one.end} after {one.frames:,} frames: no answer for a part;"
                f" `tcpdump -r {one.path} -w whole.pcap` writes what can be read, as a capture of"
                " its own"
            )
    if not any(one.frames for one in about):
        raise NoAnswer(f"{', '.join(str(one.path) for one in about)}: no frame: no answer")


def refuse_filtered(about: Sequence[About], arrivals: int, filtered: int) -> None:
    """The same where nothing comes to a ring."""
    names = ", ".join(str(one.path) for one in about)
    if not arrivals:
        frames = sum(one.frames for one in about)
        raise NoAnswer(f"{names}: of {frames:,} frames none arrives: no answer")
    if filtered == arrivals:
        raise NoAnswer(f"{names}: the filter refuses each of {arrivals:,} arrivals: no answer")


def about_words(about: Sequence[About], filtered: int) -> str:
    """One line on the captures."""
    frames, cut = sum(one.frames for one in about), sum(one.cut for one in about)
    first = min((one.first for one in about if one.frames), default=0)
    last = max((one.last for one in about if one.frames), default=0)
    name = "this capture" if len(about) == 1 else f"these {len(about)} captures"
    parts = [f"about {name}: {frames:,} frames in {(last - first) / NANOSECONDS:,.3f} s", "whole"]
    if cut:
        longest = max(one.longest for one in about)
        parts.append(f"{cut:,} frames are cut, so the answer is for a snap length of {longest:,}")
    if filtered:
        parts.append(f"{filtered:,} filtered")
    told = [one.drops for one in about if one.drops is not None]
    if told:
        parts.append(
            f"its own statistics tell of {sum(told):,} drops" + ": it lacks them" * (sum(told) > 0)
        )
    return "; ".join(parts)


def about_object(about: Sequence[About], filtered: int | None) -> dict[str, object]:
    captures = [
        {
            "path": str(one.path),
            "frames": one.frames,
            "nanoseconds": one.last - one.first,
            "end": one.end,
            "cut_frames": one.cut,
            "cut_to": one.longest if one.cut else None,
            "drops_told": one.drops,
        }
        for one in about
    ]
    return {"captures": captures, "filtered": filtered}
