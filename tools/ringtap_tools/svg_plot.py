"""Pictures of numbers, written as SVG, so that no other program has to be there.

`points_chart` draws series of points over a logarithmic axis of memory, in one panel or in several
side by side, and `bars_chart` bars that stand on one another. Each mark has the numbers that it
stands for as its title, which browsers show. `save_picture` writes SVG, or PNG where rsvg-convert
is there to make it.
"""
from __future__ import annotations

import math
import shutil
import subprocess
from dataclasses import dataclass, field
from html import escape
from pathlib import Path
from typing import ClassVar

from .files import Fault
from .outputs import write_bytes, write_text

WIDTH, HEIGHT = 640, 340  # of the axes of one panel
LEFT, TOP, BOTTOM = 80, 74, 70  # the space around them
GAP, EDGE = 24, 16  # between axes and legend, and at the right
PANEL_WIDTH, PANEL_HEIGHT, PANEL_COLUMNS = 360, 220, 2  # of the axes of each of several panels
# told apart by the colour-blind
COLORS = ("#0072b2", "#d55e00", "#009e73", "#cc79a7", "#e69f00", "#56b4e9", "#8c564b", "#5f5f5f")
INK, GRID = "#222222", "#dddddd"
NARROW, WIDE = "fijlrtI.,:;'|()[] ", "mwMW@%"


@dataclass(frozen=True)
class Series:
    """A name, and points of x and y with what a browser shows of each."""

    name: str
    points: list[tuple[float, float, str]]


@dataclass
class Panel:
    """Series that share axes, and a point that is marked as the answer, with its words."""

    MOST_SERIES: ClassVar[int] = len(COLORS)

    name: str
    series: list[Series] = field(default_factory=list)
    mark: tuple[float, float, str] | None = None


@dataclass(frozen=True)
class Layer:
    """One part of each bar, from the bottom up, with a name and a color."""

    name: str
    values: list[int]


@dataclass
class Axes:
    """Where numbers stand in a picture. The y axis begins at 0."""

    left: float
    top: float
    width: float
    height: float
    highest: float
    parts: list[str]

    @property
    def right(self) -> float:
        return self.left + self.width

    @property
    def base(self) -> float:
        return self.top + self.height

    def y(self, value: float) -> float:
        return self.base - self.height * value / self.highest

    def text(
        self,
        x: float,
        y: float,
        words: str,
        anchor: str = "middle",
        size: int = 12,
        turn: bool = False,
        weight: str = "",
    ) -> None:
        turned = f' transform="rotate(-90 {x:.1f} {y:.1f})"' if turn else ""
        bold = (
            f' font-weight="{weight}" paint-order="stroke" stroke="white" stroke-width="4"'
            if weight
            else ""
        )
        self.parts.append(
            f'<text x="{x:.1f}" y="{y:.1f}" text-anchor="{anchor}"'
            f' font-size="{size}"{bold}{turned}>{escape(words)}</text>'
        )

    def line(
        self,
        x1: float,
        y1: float,
        x2: float,
        y2: float,
        color: str,
        width: float = 1,
        dashes: str = "",
    ) -> None:
        dashed = f' stroke-dasharray="{dashes}"' if dashes else ""
        self.parts.append(
            f'<line x1="{x1:.1f}" y1="{y1:.1f}" x2="{x2:.1f}" y2="{y2:.1f}" stroke="{color}"'
            f' stroke-width="{width}"{dashed}/>'
        )

    def circle(
        self, x: float, y: float, radius: float, fill: str, color: str, told: str = ""
    ) -> None:
        title = f"<title>{escape(told)}</title>" if told else ""
        self.parts.append(
            f'<circle cx="{x:.1f}" cy="{y:.1f}" r="{radius}" fill="{fill}" stroke="{color}"'
            f' stroke-width="1.5">{title}</circle>'
        )

    def legend(self, row: int, name: str, mark: str) -> None:
        y = self.top + 8 + 20 * row
        self.parts.append(f'<g transform="translate({self.right + GAP:.1f} {y:.1f})">{mark}</g>')
        self.text(self.right + GAP + 14, y + 4, name, "start")


def text_width(words: str, size: int = 12) -> float:
    """About how wide words are; rather too wide."""
    return sum(0.4 if char in NARROW else 1.0 if char in WIDE else 0.66 for char in words) * size


def legend_width(names: list[str]) -> float:
    return GAP + 14 + max(map(text_width, names), default=0) + EDGE


def axes_at(left: float, top: float, width: float, height: float, highest: float) -> Axes:
    """Axes with lines for round numbers of y."""
    step = round_step(highest)
    axes = Axes(left, top, width, height, step * max(math.ceil(highest / step), 1), [])
    for at in range(round(axes.highest / step) + 1):
        y = axes.y(at * step)
        axes.line(left, y, axes.right, y, INK if at == 0 else GRID)
        axes.text(left - 8, y + 4, f"{at * step:,}", "end")
    return axes


def headings(
    axes: Axes, right: float, base: float, title: str, subtitle: str, x_label: str, y_label: str
) -> None:
    """The words around the axes of a picture, which reach to `right` and `base`."""
    axes.text(LEFT, 26, title, "start", size=16, weight="bold")
    axes.text(LEFT, 48, subtitle, "start", size=12)
    axes.text((LEFT + right) / 2, base + 56, x_label)
    axes.text(20, (TOP + base) / 2, y_label, turn=True)


def round_step(highest: float) -> int:
    """A step of 1, 2 or 5 times a power of ten that goes about five times into a number."""
    aim = max(highest, 5) / 5
    power = 10 ** math.floor(math.log10(aim))
    return int(next(many * power for many in (1, 2, 5, 10) if many * power >= aim))


def finish(width: float, height: float, parts: list[str]) -> str:
    body = "\n".join(parts)
    width, height = math.ceil(width), math.ceil(height)
    return (
        f'<svg xmlns="http://www.w3.org/2000/svg" width="{width}" height="{height}" viewBox="0 0'
        f' {width} {height}" font-family="DejaVu Sans, Helvetica, Arial, sans-serif"'
        f' fill="{INK}">\n<rect width="{width}" height="{height}" fill="white"/>\n{body}\n</svg>\n'
    )


def kib(size: float) -> str:
    """A number of bytes as people say it."""
    return f"{size / 1024:,.4g} KiB" if size < 1024 else f"{round(size / 1024):,} KiB"


def points_chart(title: str, subtitle: str, x_label: str, y_label: str, panels: list[Panel]) -> str:
    """Points over an x axis of bytes, on which each doubling has the same length; 0 on the y axis
    is a hollow point. All panels have the same axes."""
    points = [point for panel in panels for series in panel.series for point in series.points]
    low, high = math.floor(math.log2(min(x for x, _, _ in points))), math.ceil(
        math.log2(max(x for x, _, _ in points))
    )
    highest = max(y for _, y, _ in points)
    is_one = len(panels) == 1
    width, height = (WIDTH, HEIGHT) if is_one else (PANEL_WIDTH, PANEL_HEIGHT)
    room = legend_width([series.name for panel in panels for series in panel.series])
    columns, top = (1, TOP) if is_one else (PANEL_COLUMNS, TOP + 16)
    parts: list[str] = []
    # Panels with the same series share one legend, at the right of the first row.
    is_shared = len({tuple(series.name for series in panel.series) for panel in panels}) == 1
    between = EDGE if is_shared and not is_one else room
    shows = min(columns, len(panels)) - 1
    for at, panel in enumerate(panels):
        row, column = divmod(at, columns)
        axes = axes_at(
            LEFT + column * (width + between + LEFT - EDGE),
            top + row * (height + BOTTOM),
            width,
            height,
            highest,
        )
        if panel.name:
            axes.text(axes.left, axes.top - 8, panel.name, "start", size=13, weight="bold")
        draw_points(axes, panel, low, max(high, low + 1), not is_shared or at == shows)
        parts += axes.parts
    right = LEFT + (min(columns, len(panels)) - 1) * (width + between + LEFT - EDGE) + width
    base = top + (-(-len(panels) // columns) - 1) * (height + BOTTOM) + height
    words = Axes(0, 0, 0, 0, 1, [])
    headings(words, right, base, title, subtitle, x_label, y_label)
    widest = max(text_width(subtitle), text_width(title, 18))
    return finish(max(right + room, LEFT + widest + EDGE), base + BOTTOM, parts + words.parts)


def draw_points(axes: Axes, panel: Panel, low: int, high: int, has_legend: bool = True) -> None:
    """The series of a panel over 2^low to 2^high bytes."""

    def place(x: float) -> float:
        return axes.left + 16 + (axes.width - 32) * (math.log2(x) - low) / (high - low)

    every = max(1, math.ceil((high - low + 1) * 52 / axes.width))
    for power in range(low, high + 1):
        axes.line(place(2**power), axes.top, place(2**power), axes.base, GRID)
        if (power - low) % every == 0:
            axes.text(
                place(2**power),
                axes.base + 22,
                f"{2**power / 1024:,.4g}" if power < 10 else f"{2**power // 1024:,}",
                size=11,
            )
    for row, series in enumerate(panel.series):
        color, dashes = COLORS[row % len(COLORS)], ("", "6 4", "2 3")[row // len(COLORS) % 3]
        ordered = sorted(series.points)
        for (x1, y1, _), (x2, y2, _) in zip(ordered, ordered[1:]):
            axes.line(place(x1), axes.y(y1), place(x2), axes.y(y2), color, 1.5, dashes)
        for x, y, told in ordered:
            axes.circle(place(x), axes.y(y), 4, "white" if y == 0 else color, color, told)
        if has_legend:
            axes.legend(row, series.name, f'<circle r="4" fill="{color}"/>')
    if panel.mark:
        x, y, words = panel.mark
        axes.circle(place(x), axes.y(y), 9, "none", INK)
        is_left = place(x) + text_width(words) > axes.right
        axes.text(
            place(x) + (-12 if is_left else 12),
            axes.y(y) - 12,
            words,
            "end" if is_left else "start",
            weight="bold",
        )


def bars_chart(
    title: str,
    x_label: str,
    y_label: str,
    names: list[str],
    layers: list[Layer],
    colors: list[str],
    groups: list[str] | None = None,
    subtitle: str = "",
) -> str:
    """A bar for each name, made of the layers. Where groups are given, one for each bar, those of a
    group stand together."""
    sums = [sum(layer.values[at] for layer in layers) for at in range(len(names))]
    places = bar_places(groups or [""] * len(names))
    bars = max(places, default=0) + 1
    needed = [
        (text_width(group) + 12) / (groups.count(group) + 0.5)
        for group in dict.fromkeys(groups or [])
    ]
    width = max(WIDTH, bars * max(needed, default=0))
    axes = axes_at(LEFT, TOP, width, HEIGHT, max(sums, default=0))
    headings(axes, axes.right, axes.base, title, subtitle, x_label, y_label)
    pitch = axes.width / bars
    every = max(1, math.ceil(len(names) / 12)) if groups is None else 1
    for at, name in enumerate(names):
        left, floor = axes.left + pitch * (places[at] + 0.1), 0
        for layer, color in zip(layers, colors):
            value = layer.values[at]
            if value:
                top, bottom = axes.y(floor + value), axes.y(floor)
                whole = f"{groups[at]} {name}" if groups else name
                axes.parts.append(
                    f'<rect x="{left:.1f}" y="{top:.1f}" width="{pitch * 0.8:.1f}"'
                    f' height="{bottom - top:.1f}" fill="{color}">'
                    f'<title>{escape(f"{whole}: {value:,} {layer.name}")}</title></rect>'
                )
            floor += value
        if at % every == 0:
            axes.text(left + pitch * 0.4, axes.base + 16, name, size=11)
    for group in dict.fromkeys(groups or []):
        mine = [place for place, other in zip(places, groups) if other == group]
        axes.text(axes.left + pitch * (mine[0] + mine[-1] + 1) / 2, axes.base + 32, group, size=12)
    for row, (layer, color) in enumerate(zip(layers, colors)):
        axes.legend(row, layer.name, f'<rect x="-5" y="-5" width="10" height="10" fill="{color}"/>')
    widest = max(text_width(subtitle), text_width(title, 18))
    return finish(
        max(axes.right + legend_width([layer.name for layer in layers]), LEFT + widest + EDGE),
        axes.base + BOTTOM,
        axes.parts,
    )


def bar_places(groups: list[str]) -> list[float]:
    """Where bars stand, counted in bars from the left: half a bar lies between two groups."""
    gaps = [0] + [before != after for before, after in zip(groups, groups[1:])]
    return [at + sum(gaps[: at + 1]) / 2 for at in range(len(groups))]


def check_picture(path: Path) -> None:
    """Ends the tool, before any work, where a picture of this name can't be drawn."""
    if path.suffix not in (".svg", ".png"):
        raise Fault(f"{path}: a picture's name ends with .svg or .png")
    if path.suffix == ".png" and not shutil.which("rsvg-convert"):
        raise Fault(
            f"{path}: a PNG needs rsvg-convert, which isn't here: give a name that ends with .svg"
        )


def save_picture(path: Path, svg: str) -> None:
    """Writes a picture as its name asks for it."""
    check_picture(path)
    if path.suffix == ".svg":
        write_text(path, svg)
        return
    done = subprocess.run(["rsvg-convert"], input=svg.encode(), capture_output=True)
    if done.returncode:
        raise Fault(f"{path}: rsvg-convert: {done.stderr.decode(errors='replace').strip()}")
    write_bytes(path, done.stdout)
