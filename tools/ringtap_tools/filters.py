"""Filters as `tcpdump -ddd` compiles them, for Ethernet."""
from __future__ import annotations

import subprocess

from .files import Fault


def compiled(expression: str) -> str:
    """The text of a filter."""
    command = ["tcpdump", "-y", "EN10MB", "-ddd", expression]
    try:
        done = subprocess.run(command, capture_output=True, text=True, errors="replace")
    except OSError as error:
        raise Fault(
            f"--filter: tcpdump, which compiles it, can't be started: {error.strerror}"
        ) from None
    except ValueError:
        raise Fault("--filter: an expression has no zero byte") from None
    if done.returncode:
        raise Fault(
            f"--filter: tcpdump refuses {expression!r}: {done.stderr.strip().splitlines()[-1]}"
        )
    return done.stdout
