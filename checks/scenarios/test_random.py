"""Small runs at random: setups, schedules and filters, over rings of blocks and of slots. The
program gives what the second program works out, and so does the runner in memory. A run that
differs shrinks, and is shown as a scenario that can be pasted into data/."""
from __future__ import annotations

import subprocess
import tempfile
from collections.abc import Callable
from pathlib import Path

import pytest

from second.setup import Setup
from scenarios import worked
from scenarios.changes import runner
from scenarios.texts import Document, Scenario, scenarios

hypothesis = pytest.importorskip(
    "hypothesis", reason="needs python3:hypothesis: no such module here"
)
st = hypothesis.strategies

KEY = "6d5a56da255b0ec24167253d43a38fb0d0ca2bcbae7b30b477cb2da38030f20c6a42b73bbeac01fa"
RINGS = [(4096, 2, 2048, 4), (4096, 3, 128, 96), (8192, 2, 2048, 8), (8192, 2, 80, 204)]
FILTERS = [
    "4 | 40 0 0 12 | 21 0 1 2048 | 6 0 0 96 | 6 0 0 0",
    "2 | 32 0 0 4294963236 | 22 0 0 0",
    "3 | 32 0 0 4294963224 | 4 0 0 20 | 22 0 0 0",
    "1 | 6 0 0 40",
]
FRONTS = {
    "ipv4": "0200000000020200000000010800", "arp": "ffffffffffff0200000000030806",
}
FRAMES = (
    [f"{name}{length}" for name in ("", "ipv4:", "arp:") for length in (14, 60, 590, 1514)]
    + ["0", "13", "3966", "3967", "9000"]
)
MODES = [f"mode {mode}" for mode in ("lb", "cpu", "rollover", "qm")] + [f"mode hash | key {KEY}"]
LINES = ["features 1", "priv 13", "tov 5", "flag rollover", "mac 020000000002", "dump yes"]


@st.composite
def small_runs(draw: st.DrawFn) -> str:
    """The lines of a scenario before what comes of it."""
    command = draw(st.sampled_from(["replay", "replay2"]))
    cpus, members = draw(st.integers(1, 2)), draw(st.integers(1, 3))
    names = ["a.pcap", "b.pcap"][:cpus]
    ring = zip(("block_size", "block_nr", "frame_size", "frame_nr"), draw(st.sampled_from(RINGS)))
    conf = [f"{word} {number}" for word, number in ring] + [f"cpu {name}" for name in names]
    mode = draw(st.sampled_from(MODES))
    lines = draw(st.lists(st.sampled_from(LINES), unique=True, max_size=3))
    more = [
        line
        for line in lines
        if (line != "flag rollover" or mode != "mode rollover") and (
            command == "replay" or line in LINES[3:]
        )
    ]
    listing = draw(st.none() | st.sampled_from(FILTERS))
    text = f"a run at random\n  run {command} conf sched\n  conf {' | '.join(conf)}\n"
    text += "".join(
        f"  with {line}\n"
        for line in [f"members {members}", mode, *more, *["filter f.ddd"] * bool(listing)]
    )
    text += f"  filter {listing}\n" if listing else ""
    captures = "".join(
        " ".join(["  pcap", name, *draw(st.lists(st.sampled_from(FRAMES), max_size=8))]) + "\n"
        for name in names
    )
    text += "".join(
        f"  bytes {name} {front}\n" for name, front in FRONTS.items() if f"{name}:" in captures
    )
    text += captures
    steps = st.tuples(st.sampled_from(["feed", "feed", "read", "tick", "stats"]), st.integers(0, 5))
    moment = 0
    for word, number in draw(st.lists(steps, max_size=16)):
        moment += number if word == "tick" else 0
        value = {"feed": number % cpus, "tick": moment}.get(word, number % members)
        text += f"  sched {word} {value}\n"
    return text


def read(text: str) -> Scenario:
    return Document(Path("run.txt"), text).scenarios()[0]


def with_results(text: str) -> str:
    """The scenario with what comes of it by the second program."""
    scenario = read(text)
    setup = Setup(scenario.text("conf", "with") + "dump yes\n")
    given, schedule = worked.sources(scenario, setup)
    replay = worked.replayed(scenario, setup, given, schedule)
    files = replay.files()
    for line in replay.lines():
        text += f"  > {line}"
    for cpu, log in enumerate(replay.logs):
        text += f"  cpu {cpu} {log or '-'}\n"
    for member, ring in enumerate(replay.rings):
        front = "{}." if len(given) > 1 else ""
        kept = [
            front.format(offer.frame.cpu) + str(offer.frame.index) + (
                f"/{offer.snap}" if offer.snap < len(offer.frame.data) else ""
            )
            for offer in ring.offers()
        ]
        parts = worked.parts_of(files[f"out.{member}.blk"], scenario.first_word() == "replay2")
        blocks = [f"{status}:{length}" for status, length in parts]
        text += (
            f"  member {member} {ring.notes}."
            + (f" kept {' '.join(kept)} blocks {' '.join(blocks)}" if kept else "") + "\n"
        )
    return text


def examples(count: int) -> hypothesis.settings:
    """The same runs each time, so that who sees a failure can see it again."""
    return hypothesis.settings(
        max_examples=count, deadline=None, derandomize=True, database=None, print_blob=False
    )


def differs_nowhere(found_in: Callable[[Scenario], list[str]], count: int) -> None:
    """In so many runs nothing is found. One in which something is found shrinks, and is shown with
    what comes of it by the second program, after an empty line."""
    @examples(count)
    @hypothesis.given(small_runs())
    def each(text: str) -> None:
        whole = with_results(text)
        if found := found_in(read(whole)):
            raise AssertionError("\n".join(["", *found, "", whole]))

    each()


def test_the_program(program: Path) -> None:
    differs_nowhere(lambda scenario: worked.checked(scenario, program), 150)


# It doesn't count the one drop of a member.
WRONG = """#!/bin/sh
lines=$("{program}" "$@")
status=$?
echo "$lines" | sed 's/ drops 1 freezes / drops 0 freezes /'
exit $status
"""


def test_a_wrong_program_is_shown_by_few_lines(first_program: Path, room: Path) -> None:
    """The run by which it is found is a file of one scenario, of few lines, which the right program
    does as it says."""
    wrong = room / "wrong"
    wrong.write_text(WRONG.format(program=first_program))
    wrong.chmod(0o755)
    with pytest.raises(AssertionError) as raised:
        differs_nowhere(lambda scenario: worked.checked(scenario, wrong), 150)
    found, _, shown = str(raised.value).strip().partition("\n\n")
    (room / "my.txt").write_text(shown + "\n")
    (scenario,) = scenarios(room / "my.txt")
    assert worked.checked(scenario, first_program) == []
    assert worked.checked(scenario, wrong)[0] == found.splitlines()[0]
    assert len(shown.splitlines()) <= 14


def test_the_runner() -> None:
    """Twenty runs at a time, since starting it takes longer than a run."""
    @examples(25)
    @hypothesis.given(st.lists(small_runs(), min_size=1, max_size=20))
    def each(texts: list[str]) -> None:
        whole = "\n".join(
            with_results(text).replace("a run", f"run {at}", 1) for at, text in enumerate(texts)
        )
        with tempfile.TemporaryDirectory() as room:
            (Path(room) / "run.txt").write_text(whole)
            done = subprocess.run(
                [runner(), "said", "run.txt"], cwd=room, capture_output=True, text=True,
                timeout=600, check=False
            )
        assert done.returncode == 0, f"\n{done.stdout}\n{whole}"

    each()
