#!/usr/bin/env python3
"""How the checks in Python run programs: each has the same time for its end, and what it started
ends with it."""
from __future__ import annotations

import os
import signal
import subprocess
from collections.abc import Sequence
from typing import Any

# The seconds after which a run counts as one that doesn't end: more than the slowest machine needs,
# since work is counted where it is compared. A check that has found one such run fails in any case,
# so those after it have less.
limit, LESS = 600, 20


def ended(words: Sequence[str | os.PathLike[str]], **how: Any) -> subprocess.CompletedProcess:
    """A run, when it has ended. Where it is stopped, as after `limit` seconds, nothing that it
    started is left."""
    pipe = subprocess.PIPE
    with subprocess.Popen(
        words, stdout=pipe, stderr=pipe, start_new_session=True, **how
    ) as process:
        try:
            printed, said = process.communicate(timeout=limit)
        except BaseException:
            os.killpg(process.pid, signal.SIGKILL)
            raise
    return subprocess.CompletedProcess(words, process.returncode, printed, said)


def run(
    words: Sequence[str | os.PathLike[str]], **how: Any
) -> tuple[subprocess.CompletedProcess | None, str | None]:
    """What a run printed, what it said on standard error and its status, and None; or None, and
    that it doesn't end."""
    global limit
    try:
        return ended(words, **how), None
    except subprocess.TimeoutExpired:
        told, limit = f"it doesn't end within {limit} seconds", LESS
        return None, told
