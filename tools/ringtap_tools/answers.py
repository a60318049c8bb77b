"""How the smallest ring is found: at every whole millisecond of the timer by ringsize, or else by
the tools' own model, `ringtap replay` or `replay2` judging, or by that program alone at some
phases."""
from __future__ import annotations

import time
from dataclasses import replace

from .about import refuse_filtered
from .files import Fault
from .ringsizes import ASKED, Finder
from .runs import Progress, Report, say_how_long
from .search import Least, Model, compare, key_of, key_ranges, keys_of, rung
from .trials import (
    LEAST_BLOCKS,
    ROLLOVER,
    Result,
    Ring,
    Trials,
    begun,
    just,
    least_of,
    lines_of,
)

# At which an answer of fewer phases is run again, and those under other keys.
SURE_PHASES, KEY_PHASES = 250, 8


def printed_counts(report: Report) -> list[tuple[int, ...]]:
    return [(one.packets, one.drops, one.freezes, one.blocks) for one in report.members]


def number_words(count: int, what: str) -> str:
    return f"{count:,} {what}" if count == 1 else f"{count:,} {what}s"


class Search:
    """The search at every whole millisecond: ringsize or the model finds, and ringtap judges."""

    def __init__(self, trials: Trials, model: Model, keys: int, finder: Finder) -> None:
        self.trials, self.model, self.keys, self.finder = trials, model, keys, finder
        self.judgement: list[str] = []
        self.finders: set[str] = set()  # ringsize, model
        self.key_words: list[str] = []
        self.key_needs: list[dict[str, object]] = []  # the same in numbers
        self.filtered = 0
        self.reports: dict[tuple[Ring, Least, int], Report] = {}

    def run(self, ring: Ring, least: Least, phase: int) -> Report:
        """A run of the program, which the model has to agree with. Key and beginning are those of
        the smallest ring."""
        if (ring, least, phase) in self.reports:
            return self.reports[ring, least, phase]
        report = self.trials.run(ring, phase, key=least.key, begin=least.begin)
        self.reports[ring, least, phase] = report
        mine = self.model_for(least).courses(ring, phase, least.key)
        compare(ring, phase, mine, printed_counts(report))
        refuse_filtered(self.trials.fed.about, report.arrivals, report.filtered)
        self.filtered = report.filtered
        return report

    def model_for(self, least: Least) -> Model:
        """The model with the reader's beginning of the smallest ring."""
        return self.model.with_pace(begun(self.model.pace, least.begin))

    def result(self, ring: Ring, least: Least) -> Result:
        """A ring: at all phases by the model, and by the program at the worst and the best one."""
        losses = self.model_for(least).losses(ring, least.key)
        worst = least.phase if not losses.most else losses.drops.index(losses.most)
        best = losses.drops.index(losses.fewest)
        phases = (worst,) if losses.fewest == losses.most else (worst, best)
        reports = tuple(self.run(ring, least, phase) for phase in phases)
        return Result(ring, phases, reports, tuple(losses.drops), least.key, least.begin)

    def line(self, rings: list[Ring], is_open: bool) -> tuple[list[Result], Result | None]:
        """The rings of a grid that differ in the number of blocks alone. Where that number is open,
        it is doubled up to the answer."""
        ring = rings[0]
        is_dealt = ring.mode == "hash" and ring.members > 1
        keys = keys_of(self.model, ring, self.keys if is_dealt else 0)
        least, found = self.finder.find(self.model, self.trials, ring, keys.worst)
        self.finders.add("ringsize" if found.startswith(ASKED) else "model")
        if keys.others:
            self.key_words.append(keys.words(ring.kind.unit))
            self.key_needs.append({"members": ring.members, **keys.object()})
        wanted, blocks = {one.block_nr for one in rings}, ring.blocks_for(least.count)
        if is_open:
            wanted |= set(rung(ring, blocks))
        elif min(wanted) < blocks <= max(wanted):
            wanted |= {blocks, blocks - 1}
        counts = [count for count in sorted(wanted) if replace(ring, block_nr=count).fits]
        looked = [self.result(replace(ring, block_nr=count), least) for count in counts]
        results = [replace(one, never_freezes=one.ring.block_nr >= blocks) for one in looked]
        if keys.others:
            results = self.under_keys(results, least, len(keys.others))
        answer = next((one for one in results if one.ring.block_nr >= blocks), None)
        self.judgement.append(self.judged(ring, least, found, answer))
        return results, answer

    def under_keys(self, results: list[Result], least: Least, count: int) -> list[Result]:
        """The same with what each ring loses under the setup's key, and under further ones."""
        rings = [one.ring for one in results]
        ranges = key_ranges(self.model_for(least), rings, count)
        for ring, one in zip(rings, ranges):
            if one.all[1]:
                self.key_words.append(one.words(ring, count))
        return [replace(result, by_keys=one) for result, one in zip(results, ranges)]

    def judged(self, ring: Ring, least: Least, found: str, answer: Result | None) -> str:
        """What the program says at the worst phase: of the answer, and of one block or slot
        less."""
        count, kind = max(least.count, LEAST_BLOCKS), ring.kind
        sides = [self.side(ring, least, count), self.side(ring, least, least.count - 1)]
        where = "" if ring.is_v2 else f" at phase {least.phase} of {len(self.model.phases(ring))}"
        place = f"{found}{where}".rstrip(",")
        said = f"{place}, and there `ringtap {kind.command}` judged: {'; '.join(sides)}"
        if answer is None or answer.ring.block_nr != ring.blocks_for(count):
            return f"the smallest ring that {kind.suffices} has {count} {kind.unit}s; {said}"
        return said

    def side(self, ring: Ring, least: Least, count: int) -> str:
        kind, words = ring.kind, number_words(count, ring.kind.unit)
        # a reader of bytes takes fewer slots a second if these are larger
        keeps_size = ring.is_v2 and self.model.pace.bytes is not None
        tried = just(ring, count, keeps_size)
        if tried is None:
            size = f" of {ring.unit_size} bytes" * keeps_size
            return f"no setup has {words}{size}, so that side wasn't run"
        counted = getattr(self.run(tried, least, least.phase), kind.counted)
        if bool(counted) != (count < least.count):
            raise Fault(
                f"{tried.words()}, at phase {least.phase}: the program counts {counted}"
                f" {kind.counted}, and {least.count} {kind.unit}s were found to be the least that"
                f" {kind.suffice}"
            )
        return f"{words} {kind.fail if counted else kind.suffice}"


def every_phase(
    search: Search, grid: list[Ring], is_open: bool
) -> tuple[list[Result], Result | None]:
    """All lines of the grid, and the answer of the least memory."""
    results, answers = [], []
    lines: dict[Ring, list[Ring]] = {}
    for ring in grid:
        lines.setdefault(replace(ring, block_nr=0), []).append(ring)
    for rings in lines.values():
        made, answer = search.line(rings, is_open)
        results += made
        answers += [answer] if answer else []

    def size(result: Result) -> tuple[int, int, int]:
        return result.ring.memory, result.ring.members, result.ring.block_nr

    return results, min(answers, key=size, default=None)


def few_phases(
    trials: Trials, grid: list[Ring], is_open: bool, keys: int, is_sure: bool
) -> tuple[list[Result], Result | None, list[str]]:
    """The program at some phases; its answer is run at more of them, and under other keys."""
    results = trials.halved(trials.doubled(grid) if is_open else trials.run_all(grid))
    while least := least_of(results):
        more = raised(trials, least, keys, is_sure)
        if more is None:
            break
        results = [one for one in results if one.ring != least.ring] + [more]
        larger = replace(least.ring, block_nr=least.ring.block_nr + 1)
        if larger.fits and larger not in [one.ring for one in results]:
            results += trials.run_all([larger])
    ordered, said = [result for line in lines_of(results) for result in line], []
    if least and is_sure and len(least.phases) > 1:
        said.append(f"the answer was run at {SURE_PHASES} phases")
    if least and keys and least.ring.mode.startswith("hash"):
        said.append(f"and under {keys} further keys, since a kernel's is a secret of its boot")
    return ordered, least, [", ".join(said)] if said else []


def raised(trials: Trials, least: Result, keys: int, is_sure: bool) -> Result | None:
    """The answer's ring again, at more phases and under other keys: the run that loses, if any."""
    ring, few = least.ring, trials.phases
    wanted: list[tuple[int, str | None]] = []
    if is_sure:
        trials.phases = SURE_PHASES
        wanted += [(phase, None) for phase in trials.phases_of(ring)]
    if ring.mode.startswith("hash"):
        trials.phases = min(few, KEY_PHASES)
        others = [key_of(number) for number in range(1, keys + 1)]
        wanted += [(phase, key) for key in others for phase in trials.phases_of(ring)]
    trials.phases = few
    progress, begin = Progress(len(wanted), "runs of the answer"), time.monotonic()
    for count, (phase, key) in enumerate(wanted):
        report = trials.run(ring, phase, key=key)
        if count == 0:
            say_how_long(f"{len(wanted)} runs", (time.monotonic() - begin) * len(wanted))
        progress.step()
        if report.drops:
            phases = (phase, least.worst_phase)
            return Result(ring, phases, (report, least.worst), (), key)
    return None


def rolls_over(ring: Ring) -> bool:
    return ring.members > 1 and (ring.mode.endswith(ROLLOVER) or ring.mode == "rollover")


def kernel_drops(model: Model, results: list[Result]) -> dict[Ring, int]:
    """What the rings lose as a kernel rolls over, at the same phase and under the same key."""
    found = {}
    for result in filter(lambda one: rolls_over(one.ring), results):
        ring, phase, key = result.ring, result.worst_phase, result.key
        compare(ring, phase, model.courses(ring, phase, key), printed_counts(result.worst))
        courses = model.courses(ring, phase, key, is_kernel=True)
        found[ring] = sum(one.drops for one in courses)
    return found


def kernel_words(results: list[Result], lost: dict[Ring, int]) -> list[str]:
    return [
        f"as a kernel rolls over, by the tool's own model: {lost[one.ring]:,} dropped by"
        f" {one.ring.words()}; the program drops {one.drops:,}"
        for one in results
        if one.ring in lost
    ]
