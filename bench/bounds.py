"""What the figures of the benchmark may be, and the table that says whether they are. Times
differ from run to run, so that a run fails only where a figure passes its bound by more than a
tenth."""
from __future__ import annotations

from inputs import CASES, EACH, HASH, LB, ONE, SMALL

Figures = dict[str, float]  # what was measured, by the name of its bound

MARGIN = 1.1
# Beside C without records so many of the cases have a bound, those that take the fewest times as
# long.
CASES_NEAR_C = 5
NEAR_C = f"time to C, {CASES_NEAR_C} of the {len(CASES)} cases"
PASSES = "ringsize to C, 1,000 phases of 100,000 frames"
SIZE_GROWTH = "ringsize, CPU time of 100,000 frames to 50,000"
SIZE_MEMORY = "ringsize, bytes a frame"
INSTRUCTIONS = f"instructions a frame, {SMALL}"


def time_of(case: str) -> str:
    return f"time to C with records, {case}"


def memory_of(case: str) -> str:
    return f"memory to C with records, {case}"


def capture_of(group: str, cpus: int, ring: str) -> str:
    return f"capture to replay, {SMALL}, {group}, {cpus} CPUs, ring that {ring}"


BESIDE_C: Figures = {
    **{time_of(case): 1.0 for case in CASES},
    NEAR_C: 1.5,
    INSTRUCTIONS: 1600,
    **{memory_of(case): 1.05 for case in CASES},
}
# Of captures on threads beside replays, the middle times.
ON_THREADS: Figures = {
    **{
        capture_of(group, cpus, "keeps"): most for group in (HASH, LB) for cpus,
        most in ((4, 0.7), (8, 0.9))
    },
    **{capture_of(EACH, 4, ring): 0.55 for ring in ("keeps", "keeps, 64 KiB")},
    capture_of(ONE, 8, "keeps"): 1.5,
}

OF_SIZES: Figures = {PASSES: 1.5, SIZE_GROWTH: 2.2, SIZE_MEMORY: 16}


def shown(figure: float) -> str:
    return f"{figure:,.0f}" if figure >= 100 else f"{figure:.2f}"


def verdict(figure: float | None, most: float) -> str:
    """Whether a bound holds, in a word."""
    if figure is None:
        return "not measured"
    if figure <= most:
        return "yes"
    return "within a tenth" if figure <= MARGIN * most else "no"


def too_much(name: str, figure: float, most: float) -> str:
    """What is said of a figure that passes its bound."""
    return f"{name}: {shown(figure)}, and at most {shown(most)} is wanted"


def passed_bounds(bounds: Figures, figures: Figures) -> list[str]:
    """Prints the table of bounds, and gives the figures that pass theirs by more than a tenth."""
    print("\n## Bounds\n")
    print("| Figure | Measured | At most | Holds |")
    print("|---|---|---|---|")
    failures = []
    for name, most in bounds.items():
        figure = figures.get(name)
        said = verdict(figure, most)
        if figure is None:
            print(f"| {name} | - | {shown(most)} | {said} |")
            continue
        print(f"| {name} | {shown(figure)} | {shown(most)} | {said} |")
        if said == "no":
            failures.append(too_much(name, figure, most))
    return failures
