#!/usr/bin/env python3
"""Compares a kernel's answers (kernel_answers.py) with what is told of them, and with ringtap's."""
from __future__ import annotations

from pathlib import Path

import running
from second.capture_bytes import OUTPUT_HEADER, output, record
from second.capture_frames import frames_of
from kernel.answers import Asked, Attached, Question, Sending
from kernel.compare import Tally, Wrong
from kernel.frames import untagged
from kernel.sockets import V2, Request

Answered = Asked | Attached | Question | Sending


def setup_of(request: Request, more: str = "") -> str:
    lines = [
        f"{word} {getattr(request, word)}\n"
        for word in ("block_size", "block_nr", "frame_size", "frame_nr")
    ]
    lines += [
        f"{word} {getattr(request, word)}\n"
        for word in ("tov", "priv", "features") if getattr(request, word)
    ]
    return "".join(lines) + f"cpu in.pcap\n{more}"


def run(program: str, room: Path, command: str, setup: str, capture: bytes = OUTPUT_HEADER) -> str:
    """What ringtap prints."""
    (room / "conf").write_text(setup, encoding="ascii")
    (room / "sched").write_text("", encoding="ascii")
    (room / "in.pcap").write_bytes(capture)
    words = [program, command, "conf"] + (["sched"] if command == "replay2" else [])
    done, why = running.run(words, cwd=room, text=True)
    if done is None:
        raise Wrong(str(why))
    return done.stdout


def refusal(printed: str) -> str:
    """The last word of the line by which ringtap refuses something, or `ok`."""
    return printed.split()[-1] if printed.startswith(("setup line", "filter line")) else "ok"


def compare_answer(
    case: Answered, given: list[str], program: str, room: Path, tally: Tally
) -> None:
    if isinstance(case, Sending):
        compare_sending(case, given, program, room)
    elif isinstance(case, Question):
        if given != list(case.kernel):
            raise Wrong(f"the kernel answers {given}")
    else:
        compare_refusal(case, given, program, room)
    tally.answers += 1


def compare_refusal(case: Asked | Attached, given: list[str], program: str, room: Path) -> None:
    """Both refuse or both accept, unless a row says otherwise; and each says what is told of it."""
    if isinstance(case, Asked):
        command = "send" if case.transmit else "replay2" if case.version == V2 else "check"
        ours = refusal(run(program, room, command, setup_of(case.request)))
    else:
        lines = [
            str(len(case.program)),
            *(" ".join(map(str, instruction)) for instruction in case.program)
        ]
        (room / "filter").write_text("\n".join(lines) + "\n", encoding="ascii")
        ours = refusal(run(program, room, "check", setup_of(Request(), "filter filter\n")))
    if given != [case.kernel] or ours != case.ringtap:
        raise Wrong(f"the kernel answers {given[0]}, and ringtap {ours}")
    if (given == ["ok"]) != (ours == "ok") and not case.row:
        raise Wrong("one refuses what the other accepts, and no row says so")


def compare_sending(case: Sending, given: list[str], program: str, room: Path) -> None:
    """The frames that came out are those that ringtap sends, byte for byte, and the ring stops
    at the same frame. Where they come out the kernel takes a tag out of them."""
    capture = output(record(frame, sec=0, fraction=0) for frame in case.frames)
    printed = run(
        program, room, "send", setup_of(case.request, "out out\n" + "skip_bad yes\n" * case.loss),
        capture
    )
    ours = [untagged(frame.data) for frame in frames_of((room / "out.tx.pcap").read_bytes())[0]]
    theirs = [bytes.fromhex(line) for line in given if " " not in line]
    if ours != theirs:
        raise Wrong(
            f"{len(theirs)} frames of the kernel and {len(ours)} of ringtap aren't the same"
        )
    numbers = printed.splitlines()[1].split()
    meant = f"send sent {len(theirs)} skipped {skipped(case, given)} stop {stop(case, given)}"
    if " ".join(numbers) != meant:
        raise Wrong(f"ringtap printed '{' '.join(numbers)}', and the kernel did '{meant}'")


def stop(case: Sending, given: list[str]) -> str:
    """The number of the frame whose slot the kernel found malformed."""
    statuses = [word for line in given if line.startswith("slots") for word in line.split()[1:]]
    if "4" not in statuses:
        return "none"
    again = [line for line in given if line.startswith("again")]
    if again != ["again 0"]:
        raise Wrong(f"the next send answers {again}")
    return str(statuses.index("4"))


def skipped(case: Sending, given: list[str]) -> int:
    """With PACKET_LOSS the frames whose slots are free again and that didn't come out."""
    return len(case.frames) - sum(" " not in line for line in given) if case.loss else 0
