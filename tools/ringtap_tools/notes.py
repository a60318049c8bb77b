"""Sentences that several tools say beside their answers."""
from __future__ import annotations

from .files import Setup

ROLLOVER_NOTE = (
    "rollover: a kernel loses more, in measured runs up to 39 percent: its backup takes packets"
    ' only while a quarter of its ring is free (docs/kernel.md, "a member that is tried as backup")'
)


def rollover_note(setup: Setup, modes: list[str] | None = None) -> list[str]:
    """What is to be said where a group rolls over, by its setup or by the modes that are asked
    for."""
    own = [setup.word("mode", "cpu"), *setup.flags]
    chosen = own if modes is None else [part for mode in modes for part in mode.split("+")]
    several = modes is not None or setup.number("members", 1) > 1
    return [ROLLOVER_NOTE] * ("rollover" in chosen and several)
