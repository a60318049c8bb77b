#!/usr/bin/env python3
"""The table of CONTRIBUTING.md that says what is proved again after a change in a crate.

    crates_above.py           says whether it is what crates.txt and the newest run of the gate give
    crates_above.py --write   writes it anew

The minutes are those of the crate and of all crates above it in the newest table of
bench/gate_times.py, a file bench/results/DAY-gate.md; without one the table has no minutes.

It runs in the top folder of the repository.
"""
from __future__ import annotations

import argparse
import pathlib
import re
import sys

TOP = pathlib.Path.cwd()
PAGE = TOP / "CONTRIBUTING.md"
TABLE = re.compile(r"^\| A change in \|.*\n(?:\|.*\n)+", re.M)
# a row has the crates with at least so many above them, and with fewer than the row before
BANDS = (40, 30, 25, 20, 15, 10, 8, 6, 5, 1, 0)


def dependencies() -> dict[str, set[str]]:
    """Of each crate the crates of the repository that it names in crates.txt."""
    text = (TOP / "crates.txt").read_text(encoding="utf-8")
    lines = [line.partition("#")[0].partition(":") for line in text.splitlines()]
    named = {name.split()[0]: set(words.split()) for name, colon, words in lines if colon}
    return {name: words & named.keys() for name, words in named.items()}


def all_above(named: dict[str, set[str]]) -> dict[str, set[str]]:
    """Of each crate those that name it, or one that does, and so on."""
    above: dict[str, set[str]] = {
        name: {user for user, words in named.items() if name in words} for name in named
    }
    while True:
        further = {
            name: users.union(*(above[user] for user in users)) for name, users in above.items()
        }
        if further == above:
            return above
        above = further


def seconds() -> dict[str, float]:
    """The processor seconds of each crate in the newest table of a run of the gate."""
    runs = sorted((TOP / "bench/results").glob("*-gate.md"))
    text = runs[-1].read_text(encoding="utf-8") if runs else ""
    rows = re.findall(r"^\| (\w+) \|.* ([\d,]+) \| [\d,]+ \|$", text, re.M)
    return {crate: float(took.replace(",", "")) for crate, took in rows}


def span(numbers: list[int]) -> str:
    """A number, or the least and the greatest of several."""
    least, most = min(numbers), max(numbers)
    return f"{least}" if least == most else f"{least} to {most}"


def table() -> str:
    """The table, its rows by how many crates stand above."""
    above, took = all_above(dependencies()), seconds()
    heads = ["A change in", "Crates above it", *["Minutes"] * bool(took)]
    rows = [heads]
    left = sorted(above)
    for band in BANDS:
        crates = [name for name in left if len(above[name]) >= band]
        left = [name for name in left if name not in crates]
        if crates:
            minutes = [
                round(sum(took.get(one, 0.0) for one in {name, *above[name]}) / 60)
                for name in crates
            ]
            counts = span([len(above[name]) for name in crates])
            rows.append([", ".join(crates), counts, *[span(minutes)] * bool(took)])
    lines = [f"| {' | '.join(row)} |" for row in rows]
    return "\n".join([lines[0], "|---" * len(heads) + "|", *lines[1:]]) + "\n"


def main() -> None:
    words = argparse.ArgumentParser(
        description=__doc__, formatter_class=argparse.RawDescriptionHelpFormatter
    )
    words.add_argument("--write", action="store_true", help="write the table anew")
    text = PAGE.read_text(encoding="utf-8")
    anew, found = TABLE.subn(lambda _: table(), text)
    if found != 1:
        sys.exit(f"CONTRIBUTING.md has {found} tables that begin with 'A change in'")
    if words.parse_args().write:
        PAGE.write_text(anew, encoding="utf-8")
    elif anew != text:
        sys.exit(
            "CONTRIBUTING.md: the table of crates isn't what crates.txt gives: "
            "`python3 checks/crates_above.py --write` makes it anew"
        )
    print(f"crates above: {len(dependencies())} crates")


if __name__ == "__main__":
    main()
