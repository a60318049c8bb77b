"""Pictures of what rings of a grid lose, and of what each member of a group has."""
from __future__ import annotations

from collections import Counter

from .svg_plot import Layer, Panel, Series, bars_chart, kib, points_chart
from .trials import Result, Ring, lines_of

KEPT_COLOR, DROPPED_COLOR = "#0072b2", "#d55e00"
# of a line's name, before its block size
PARTS = {"mode": "{}", "members": "{} members", "timeout": "tov {}"}


def part_words(ring: Ring, names: list[str]) -> list[str]:
    words = [PARTS[name].format(getattr(ring, name)) for name in names]
    return ["1 member" if word == "1 members" else word for word in words]


def panel_parts(rings: list[Ring]) -> list[str]:
    """What tells the panels of a picture apart: as little as leaves none more lines than there
    are colors, where that can be had."""
    names = list(PARTS)
    for count in range(len(names)):
        sizes = Counter(tuple(part_words(ring, names[:count])) for ring in rings)
        if max(sizes.values()) <= Panel.MOST_SERIES:
            return names[:count]
    return names


def series_name(ring: Ring, rings: list[Ring], named: list[str]) -> str:
    """What tells a line from the others of its panel; the number of blocks goes along the line."""
    differing = [
        name
        for name in PARTS
        if name not in named and len({getattr(other, name) for other in rings}) > 1
    ]
    parts = part_words(ring, differing)
    if len({other.block_size for other in rings}) > 1 or not parts:
        parts.append(f"{kib(ring.block_size)} blocks")
    return ", ".join(parts)


def drops_picture(results: list[Result], least: Result | None, title: str) -> str:
    """Drops at the worst phase against memory: several panels, one for each mode, where one
    would have too many lines."""
    lines = lines_of(results)
    rings = [line[0].ring for line in lines]
    named = panel_parts(rings)
    panels: list[Panel] = []
    for line in lines:
        name = ", ".join(part_words(line[0].ring, named))
        if not panels or panels[-1].name != name or len(panels[-1].series) == Panel.MOST_SERIES:
            panels.append(Panel(name))
        points = []
        for result in line:
            told = (
                f"{result.ring.words()}: {result.drops:,} dropped of"
                f" {result.worst.kept + result.drops:,}"
            )
            points.append((result.ring.memory, result.drops, told))
        panels[-1].series.append(Series(series_name(line[0].ring, rings, named), points))
        if least and least in line:
            panels[-1].mark = (least.ring.memory, 0, f"smallest: {kib(least.ring.memory)}")
    return points_chart(
        "Packets dropped, by the memory of the ring",
        title,
        "memory of all members' blocks, KiB",
        "packets dropped",
        panels,
    )


def packets_picture(rows: list[list[object]], title: str) -> str:
    names = [str(row[2]) for row in rows]
    groups = [f"{row[0]}, {row[1]}" for row in rows]
    layers = [Layer("kept", [row[3] for row in rows]), Layer("dropped", [row[4] for row in rows])]
    return bars_chart(
        "Packets for each member, at the smallest ring of each mode that suffices",
        "member, by mode and number of members",
        "packets",
        names,
        layers,
        [KEPT_COLOR, DROPPED_COLOR],
        groups,
        title,
    )
