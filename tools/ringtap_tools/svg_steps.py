"""Draws how many blocks a reader has over time, and bytes, a panel for each member, as SVG."""
from __future__ import annotations

from dataclasses import dataclass
from html import escape

WIDTH, LEFT, RIGHT, TOP, BOTTOM = 860, 80, 30, 86, 56
PANEL, GAP = 130, 34  # height of a panel, and what is left between two
INK, GRID, FILL, LINE, FULL = "#222222", "#dddddd", "#bfdcec", "#0072b2", "#d55e00"
NANOSECONDS = 1_000_000_000


@dataclass
class Frozen:
    """A stretch of time in which a ring was frozen, and how many packets were dropped in it."""

    start: int
    stop: int = 0
    drops: int = 0


@dataclass
class Panel:
    """What a member had: blocks, or bytes, from each moment on, of so many in the ring."""

    name: str
    count: int
    most: int
    steps: list[tuple[int, int]]  # nanoseconds, and blocks from then on
    frozen: list[Frozen]
    unit: str = "blocks"

    def told(self) -> str:
        return f"{self.name}: at most {self.most:,} of {self.count:,} {self.unit}"


def text(
    x: float, y: float, words: str, anchor: str = "middle", size: int = 12, more: str = ""
) -> str:
    return (
        f'<text x="{x:.1f}" y="{y:.1f}" text-anchor="{anchor}" font-size="{size}"'
        f' fill="{INK}"{more}>{escape(words)}</text>'
    )


def line(x1: float, y1: float, x2: float, y2: float, color: str, more: str = "") -> str:
    return f'<line x1="{x1:.1f}" y1="{y1:.1f}" x2="{x2:.1f}" y2="{y2:.1f}" stroke="{color}"{more}/>'


def seconds(time: float) -> str:
    return f"{time / NANOSECONDS:.9f}".rstrip("0").rstrip(".")


def steps_chart(
    title: str, subtitle: str, x_label: str, end: int, panels: list[Panel], start: int = 0
) -> str:
    """The panels below one another, over one axis of time, which may begin later than the run."""
    height = TOP + len(panels) * (PANEL + GAP) - GAP + BOTTOM
    end = max(end, start + 1)

    def place(time: int) -> float:
        within = min(max(time, start), end)
        return LEFT + (WIDTH - LEFT - RIGHT) * (within - start) / (end - start)

    parts = [
        text(LEFT, 26, title, "start", 16, ' font-weight="bold"'),
        text(WIDTH / 2, height - 12, x_label),
    ]
    parts += [text(LEFT, 46, f"{subtitle}; dashed: all of the ring; orange: frozen", "start")]
    for at, panel in enumerate(panels):
        parts += panel_parts(panel, TOP + at * (PANEL + GAP), place, end)
    step = round_step(end - start)
    for time in range(-(-start // step) * step, end + 1, step):
        parts.append(text(place(time), height - BOTTOM + 18, seconds(time), size=11))
    body = "\n".join(parts)
    return (
        f'<svg xmlns="http://www.w3.org/2000/svg" width="{WIDTH}" height="{height}" viewBox="0 0'
        f' {WIDTH} {height}" font-family="DejaVu Sans, Helvetica, Arial, sans-serif">\n<rect'
        f' width="{WIDTH}" height="{height}" fill="white"/>\n{body}\n</svg>\n'
    )


def round_step(highest: int) -> int:
    """A step of 1, 2 or 5 times a power of ten that goes about five times into a number."""
    power = 1
    while power * 10 <= highest / 5:
        power *= 10
    return next(many * power for many in (1, 2, 5, 10) if many * power >= highest / 5)


def panel_parts(panel: Panel, top: float, place, end: int) -> list[str]:
    base = top + PANEL
    highest = panel.count

    def y(blocks: float) -> float:
        return base - PANEL * blocks / highest

    parts = [text(LEFT, top - 6, panel.told(), "start")]
    step = round_step(highest)
    for blocks in range(0, highest + 1, step):
        parts += [
            line(LEFT, y(blocks), WIDTH - RIGHT, y(blocks), GRID),
            text(LEFT - 8, y(blocks) + 4, f"{blocks:,}", "end", 11),
        ]
    parts.append(area_of(panel, place, y, end))
    for one in panel.frozen:
        if place(one.stop) == LEFT or one.start > end:
            continue
        width = max(place(one.stop) - place(one.start), 1.5)
        told = (
            f"{panel.name}: frozen from {seconds(one.start)} to {seconds(one.stop)} s,"
            f" {one.drops:,} dropped"
        )
        parts.append(
            f'<rect x="{place(one.start):.1f}" y="{top:.1f}" width="{width:.1f}" height="{PANEL}"'
            f' fill="{FULL}" fill-opacity="0.5"><title>{escape(told)}</title></rect>'
        )
    parts.append(line(LEFT, top, WIDTH - RIGHT, top, INK, ' stroke-dasharray="6 4"'))
    parts.append(line(LEFT, base, WIDTH - RIGHT, base, INK))
    return parts


def area_of(panel: Panel, place, y, end: int) -> str:
    """The steps as an area with a line on it."""
    points, has = [(LEFT, y(0))], 0
    for time, blocks in panel.steps:
        points += [(place(time), y(has)), (place(time), y(blocks))]
        has = blocks
    points += [(place(end), y(has)), (place(end), y(0))]
    shown = " ".join(f"{x:.1f},{at:.1f}" for x, at in points)
    return (
        f'<polygon points="{shown}" fill="{FILL}" fill-opacity="0.8" stroke="{LINE}"'
        f' stroke-width="1.5"><title>{escape(panel.told())}</title></polygon>'
    )
