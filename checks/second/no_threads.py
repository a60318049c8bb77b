"""Captures by a program that may make no thread, by a limit of one process for its user: each
has to end, with the lines and files that it may have with threads.

As root the program runs as a user who has no process else, since root has no such limit. The
program and the folder that it runs in have to be of use to every user.
"""
from __future__ import annotations

import os
import random
import resource
import subprocess
from collections.abc import Iterator

from second import captures
from second.captures import Case, capture_of, inputs_of
from second.hash_values import KEY
from second.outcomes import Outcome, outcome_of, save_alone
from second.replays import SIZES, setup_text

NOBODY = 61_234  # a user who has no process

# What the setups have beside their ring and their CPUs.
GROUPS = [
    "",
    "members 2\nmode lb\ndump yes\n",
    f"members 4\nmode hash\nkey {KEY}\nflag defrag\nflag rollover\n",
    "members 3\nmode rollover\n",
    "members 2\nmode lb\ndump yes\nworkers 2\n",
    f"members 4\nmode hash\nkey {KEY}\nworkers 8\n",
]


def cases() -> Iterator[Case]:
    numbers = random.Random(6)
    for cpus in (1, 4):
        for size in (SIZES[0], captures.LARGE[1]):
            for group in GROUPS:
                for moments in ((), (1, 9, 9, 40)):
                    text = setup_text(size, cpus) + group + "ticks ticks.txt\n" * bool(moments)
                    data = [capture_of(numbers, cpu, 120) for cpu in range(cpus)]
                    yield Case(text, data, None, moments)


def alone() -> None:
    """Makes this process one that can start neither a thread nor another process."""
    if os.getuid() == 0:
        os.setgroups([])
        os.setgid(NOBODY)
    resource.setrlimit(resource.RLIMIT_NPROC, (1, 1))
    if os.getuid() == 0:
        os.setuid(NOBODY)


def try_alone() -> None:
    """Fails where a process that is limited so can start another."""
    alone()
    try:
        other = os.fork()
    except OSError:
        return
    if other == 0:
        os._exit(0)
    os.waitpid(other, 0)
    raise ChildProcessError("there is no such limit")


def is_alone() -> bool:
    """Whether a process can be limited so here."""
    try:
        return subprocess.run(["/bin/true"], preexec_fn=try_alone, check=False).returncode == 0
    except (subprocess.SubprocessError, OSError):
        return False


def run_alone(program: str, case: Case) -> tuple[Outcome | None, str | None]:
    """The outcome of a run without threads in the present folder, which is of use to every user."""
    os.chmod(".", 0o777)
    inputs = inputs_of(case)
    save_alone(inputs)
    return outcome_of([program, "capture", "conf"], inputs, preexec_fn=alone)
