"""Scenarios of a capture of three frames that is cut at each of its 253 lengths: the whole
records before the cut are kept."""
from __future__ import annotations

# the bytes of a capture's header and of the record of a frame of 60 bytes
HEADER, RECORD, FRAMES = 24, 76, 3

BASE = """base
  base
  run    replay conf sched
  conf   block_size 4096 | block_nr 2 | frame_size 2048 | frame_nr 4 | cpu a.pcap
  with   members 1 | mode lb | filter f.ddd | dump yes
  filter 4 | 40 0 0 12 | 21 0 1 2048 | 6 0 0 96 | 6 0 0 0
  sched  feed 0 x3
  bytes  ipv4 0200000000020200000000010800
  pcap   a.pcap ipv4:60x3
"""

# The CPU and the member of the first frames of three.
FIRST = (
    "  cpu 0 -\n  member 0 .\n",
    "  cpu 0 0k0.\n  member 0 k. kept 0 blocks 1:192\n",
    "  cpu 0 0k0.1k0.\n  member 0 kk. kept 0-1 blocks 1:336\n",
    "  cpu 0 0k0.1k0.2k0.\n  member 0 kkk. kept 0-2 blocks 1:480\n",
)


def scenario(length: int) -> str:
    """The capture, cut to a length: at which byte the part of it begins that isn't whole, if one
    is, and what is kept."""
    frames = max(length - HEADER, 0) // RECORD
    place = HEADER + RECORD * frames if length >= HEADER else 0
    is_whole = length == place > 0
    status = "" if is_whole else f"  status 4 Damaged {{ cpu: 0, fault: Truncated({place}) }}\n"
    end = "ok" if is_whole else f"truncated {place}"
    return (
        f"cut to {length} bytes\n  like base\n  cut a.pcap {length}\n{status}"
        f"  > cpu 0 frames {frames} arrivals {frames} end {end}\n"
        f"  > member 0 packets {frames} drops 0 freezes 0 blocks {min(frames, 1)}\n"
        f"  > total arrivals {frames} filtered 0 kept {frames} drops 0\n{FIRST[frames]}"
    )


def text() -> str:
    """The scenarios of all lengths."""
    return "\n".join([BASE, *map(scenario, range(HEADER + RECORD * FRAMES + 1))])
