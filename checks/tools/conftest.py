"""The folder in which the checks of a tool run."""
from __future__ import annotations

from pathlib import Path

import pytest

from tools.here import BLOCK, Here, frame


@pytest.fixture
def here(room: Path, first_program: Path) -> Here:
    """A folder with a capture of 100 frames at once, its setup, and a schedule without a line."""
    found = Here(room, first_program)
    found.capture("many.pcap", [(number, frame(number)) for number in range(100)])
    found.text("many.txt", BLOCK + "cpu many.pcap\n")
    found.text("none.sched", "")
    return found
