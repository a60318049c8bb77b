"""Captures on threads whose readers send, by `forward`, and from outside what was sent.

Without its own lines and files a run has to be one of `capture`, which captures.py tests. Beyond
that, of each member:

- The frames of its output, each with its tag put back, that have from 14 bytes to as many as fit
  after the header of a slot are the records of `PREFIX.M.tx.pcap`, in order, each with time 0
  and its own length as the length on the wire.
- Its line `forward M sent N skipped K` stands after its `member` line, N of it are the sent ones
  and K all others.
"""
from __future__ import annotations

import random
import struct
from collections.abc import Iterator

from second import captures
from second import runs as second_runs
from second.capture_bytes import header, record
from second.capture_frames import frames_of
from second.captures import Case
from second.outcomes import Outcome
from second.replays import SIZES, frame, setup_text
from second.runs import LEAST_FRAME, Files, sent_file
from second.setup import Setup


def sent_of(setup: Setup, output: bytes) -> tuple[bytes, int, int]:
    """The file that a member's sender gives for an output, and the line's two numbers."""
    frames, _ = frames_of(output)
    sent = [frame.data for frame in frames if LEAST_FRAME <= len(frame.data) <= setup.slot_room]
    return sent_file(sent), len(sent), len(frames) - len(sent)


def parted(
    setup: Setup, lines: str, files: Files
) -> tuple[str, Files, list[tuple[str | None, str]], Files]:
    """The lines and files of `capture`, and those of `forward` alone, each line with the one
    before it."""
    sent = {f"{setup.prefix}.{member}.tx.pcap" for member in range(setup.members)}
    plain: list[str] = []
    own: list[tuple[str | None, str]] = []
    last = None
    for line in lines.split("\n"):
        if line.startswith("forward "):
            own.append((last, line))
        else:
            plain.append(line)
        last = line
    rest = {name: data for name, data in files.items() if name not in sent}
    return "\n".join(plain), rest, own, {name: data for name, data in files.items() if name in sent}


def faults(case: Case, lines: str, files: Files, status: int) -> Iterator[str]:
    """What is wrong with a run."""
    setup = Setup(case.setup)
    plain, rest, own, sent = parted(setup, lines, files)
    yield from captures.faults(case, plain, rest, status)
    if len(own) != setup.members or len(sent) != setup.members:
        yield f"{len(own)} lines and {len(sent)} files of {setup.members} members"
        return
    for member, (before, line) in enumerate(own):
        wanted, count, skipped = sent_of(setup, files[f"{setup.prefix}.{member}.pcap"])
        if line != f"forward {member} sent {count} skipped {skipped}":
            yield f"member {member}: {line!r}, where {count} frames fit and {skipped} don't"
        if not (before or "").startswith(f"member {member} "):
            yield f"member {member}: its line stands after {before!r}"
        if sent[f"{setup.prefix}.{member}.tx.pcap"] != wanted:
            yield f"member {member}: what was sent isn't what fits of its output"


def some_outcome(case: Case, numbers: random.Random) -> tuple[str, Files]:
    """An outcome of `capture` by the second program, with what is sent of it."""
    setup = Setup(case.setup)
    lines, files = captures.some_outcome(case, numbers)
    return with_sent(setup, lines, files)


def with_sent(setup: Setup, lines: str, files: Files) -> tuple[str, Files]:
    """An outcome of `capture` with the lines and files of `forward`."""
    found, files = [], dict(files)
    for line in lines.split("\n"):
        found.append(line)
        if line.startswith("member "):
            member = int(line.split()[1])
            data, count, skipped = sent_of(setup, files[f"{setup.prefix}.{member}.pcap"])
            files[f"{setup.prefix}.{member}.tx.pcap"] = data
            found.append(f"forward {member} sent {count} skipped {skipped}")
    return "\n".join(found), files


def made_wrong(lines: str, files: Files) -> Iterator[tuple[str, str, Files]]:
    """The outcome, wrong in one thing each."""
    name, other = "out.0.tx.pcap", "out.1.tx.pcap"
    data, line = files[name], next(
        line
        for line in lines.split("\n") if line.startswith("forward 0 ")
    )
    size = 16 + struct.unpack("<I", data[32:36])[0]
    yield "a sent record lost", lines, {**files, name: data[:24] + data[24 + size :]}
    yield "a sent record twice", lines, {**files, name: data + data[24 : 24 + size]}
    yield "a sent record after the others", lines, {
        **files, name: data[:24] + data[24 + size :] + data[24 : 24 + size]
    }
    yield "a time", lines, {**files, name: data[:24] + b"\1" + data[25:]}
    yield "another length on the wire", lines, {
        **files, name: data[:36] + bytes([data[36] ^ 1]) + data[37:]
    }
    yield "what another member sent", lines, {**files, name: files[other], other: data}
    yield "no file of sent frames", lines, {
        key: value for key, value in files.items() if key != other
    }
    yield "another count", lines.replace(" sent ", " sent 1", 1), files
    yield "one skipped", lines.replace(" skipped 1", " skipped 0", 1), files
    yield "no line", lines.replace(line + "\n", ""), files
    yield "the line at the end", lines.replace(line + "\n", "") + line, files


def right_outcomes() -> Iterator[tuple[Case, Outcome]]:
    """Outcomes of the second program, each of which threads might have."""
    numbers = random.Random(6)
    cases = [
        case
        for case in (captures.random_case(numbers) for _ in range(40)) if None not in case.captures
    ]
    return (
        (case, (*some_outcome(case, numbers), captures.Arriving(case).status()))
        for case in cases
    )


def wrong_outcomes() -> dict[str, tuple[Case, Outcome]]:
    """Outcomes of a run that were made wrong, by what is wrong with each."""
    text = setup_text(SIZES[0], 2) + "members 2\nmode cpu\ndump yes\n"
    long = record(frame(5000), sec=0, fraction=20)
    data = [
        header() + b"".join(
            record(frame(60, fill=at + 20 * cpu), sec=cpu, fraction=at)
            for at in range(9)
        )
        for cpu in range(2)
    ]
    case = Case(text, [data[0] + long, data[1]], None, [])
    lines, files = with_sent(Setup(text), *second_runs.replay(Setup(text), "", case.captures))
    return {what: (case, (*outcome, 0)) for what, *outcome in made_wrong(lines, files)}
