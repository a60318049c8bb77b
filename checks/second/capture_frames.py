"""The frames of a capture, by the reader of the tools."""
from __future__ import annotations

import io
from pathlib import Path

import places  # noqa: F401  (by which the tools' modules are found)
from ringtap_tools.captures import CaptureStream, Frame, RefusedHeader


def frames_of(data: bytes) -> tuple[list[Frame], str]:
    """The frames of a capture, and how it ends in the words that ringtap prints. gzip is no
    capture here."""
    stream = CaptureStream(Path("capture"), file=io.BytesIO(data))
    try:
        return list(stream), stream.end
    except RefusedHeader as refused:
        return [], refused.end


def frames_in(path: str) -> list[Frame]:
    return frames_of(Path(path).read_bytes())[0]


def stranger(frames: list[Frame], outputs: list[Frame]) -> int | None:
    """The index of the first output that is no frame, or front of one, after the frame of the
    output before it: with its time and its length on the wire, and with its bytes or a front of
    them."""
    left = iter(frames)
    for index, output in enumerate(outputs):
        mates = (frame for frame in left if (frame.time, frame.wire) == (output.time, output.wire))
        if not any(frame.data.startswith(output.data) for frame in mates):
            return index
    return None
