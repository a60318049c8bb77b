#!/usr/bin/env python3
"""Makes docs/definitions.md: which definitions the contract of `run` reaches, by crate and
module of specs/, and which that of `run_size` reaches beside them.

    definitions.py             the status is 1 where the page isn't what the sources give
    definitions.py --write     writes the page anew

A definition reaches another where its text has the other's name and its module imports that
name. The names of a call's contract are where it begins. A type of the code counts as reached,
and what its `impl Model` names with it.
"""
from __future__ import annotations

import argparse
import re
import sys
import textwrap
from collections.abc import Iterable
from dataclasses import dataclass, field
from pathlib import Path

TOP = Path(__file__).resolve().parent.parent.parent
PAGE = TOP / "docs" / "definitions.md"
# The calls of the two programs: the source of each, and how its contract begins there.
RUN = ("tap_engine", "pub fn run<")
RUN_SIZE = ("tap_sizes", "pub fn run_size<")
IMPORT = re.compile(r"^\s*(?:ghost )?use Rattle\.(\w+)\.specs\.([\w.]+)\.\{([^}]*)\}", re.M)
ALIAS = re.compile(r"^\s*(?:ghost )?use Rattle\.(\w+)\.specs\.([\w.]+) as (\w+)$", re.M)
HEAD = re.compile(
    r"^( *)(?:abbrev |unfoldable )?(?:pub )(?:abbrev |record |unfoldable |data )?([^\s:({]+)", re.M
)
NAME = re.compile(r"[^\s(){}\[\].,;:]+")

Place = tuple[str, str]  # a crate and a module of it; a module of types begins with `declared.`


@dataclass
class Module:
    """A file: its lines without comments and imports, where its imported names and modules come
    from, and the texts of its definitions."""

    length: int
    imports: dict[str, Place] = field(default_factory=dict)
    aliases: dict[str, Place] = field(default_factory=dict)
    texts: dict[str, str] = field(default_factory=dict)


def imports_of(text: str) -> dict[str, Place]:
    found = {}
    for crate, module, names in IMPORT.findall(text):
        for name in names.split(","):
            if name.strip():
                found[name.split(" as ")[-1].strip()] = (crate, module)
    return found


def aliases_of(text: str) -> dict[str, Place]:
    return {alias: (crate, module) for crate, module, alias in ALIAS.findall(text)}


def without_comments(text: str, mark: str) -> str:
    return re.sub(rf"(?m)(?:^|(?<=\s)){mark}.*", "", text)


def texts_of(text: str) -> dict[str, str]:
    """The definitions of a module that stand at its outermost level, or within an unnamed
    module, each with its text."""
    found = {}
    heads = [
        it
        for it in HEAD.finditer(text)
        if len(it[1]) <= 2 and (len(it[1]) == 0 or "module _" in text[: it.start()])
    ]
    tops = [it for it in heads if not re.match(r" +pub [a-z_]+ :", text[it.start() :])]
    for at, it in enumerate(tops):
        end = tops[at + 1].start() if at + 1 < len(tops) else len(text)
        found[it[2]] = text[it.start() : end]
    return found


def module_of(path: Path) -> Module:
    text = path.read_text(encoding="utf-8")
    bare = without_comments(text, "--")
    body = re.sub(r"(?m)^use .*", "", bare)
    length = sum(1 for line in body.splitlines() if line.strip())
    return Module(length, imports_of(bare), aliases_of(bare), texts_of(body))


def modules() -> dict[Place, Module]:
    """Those of specs/, and of its folder `inside`, which no public contract cites."""
    found = {}
    for specs in sorted(TOP.glob("crates/*/specs")):
        for path in sorted(specs.rglob("*.antt")):
            if path.stem not in ("Lib", "inside"):
                name = ".".join(path.relative_to(specs).with_suffix("").parts)
                found[(specs.parent.name, name)] = module_of(path)
    return found


def model_of(crate: str, module: str) -> Module | None:
    """What the `impl Model` of a type of the code names. The type's file is found by the first
    word of its module."""
    path = TOP / "crates" / crate / "src" / f"{module.split('.')[1]}.rt"
    if not path.is_file():
        return None
    blocks = re.findall(
        r"^impl.* Model for .*?^}", without_comments(path.read_text(encoding="utf-8"), "//"),
        re.M | re.S
    )
    text = "\n".join(blocks)
    return Module(
        0, imports_of(text), aliases_of(text), {"Model": re.sub(r"(?m)^\s*ghost use .*", "", text)}
    )


def contract(crate: str, begins: str) -> Module:
    """The clauses of a call, with the imports of its file."""
    path = TOP / "crates" / crate / "src" / "calls.rt"
    text = without_comments(path.read_text(encoding="utf-8"), "//")
    begin = text.index(begins)
    clauses = text[begin : text.index("\n{", begin)]
    return Module(0, imports_of(text), aliases_of(text), {"contract": clauses})


def reached(known: dict[Place, Module], call: tuple[str, str]) -> dict[Place, set[str]]:
    """The definitions that the contract of a call reaches, by their modules."""
    found: dict[Place, set[str]] = {}
    waiting: list[tuple[Module, str]] = [(contract(*call), "contract")]
    types: set[Place] = set()
    while waiting:
        module, name = waiting.pop()
        for alias, word in re.findall(r"\b(\w+)\.(\w+)", module.texts.get(name, "")):
            if alias in module.aliases:
                waiting += follow(module.aliases[alias], word, known, found, types)
        for word in set(NAME.findall(module.texts.get(name, ""))):
            if word in module.imports:
                waiting += follow(module.imports[word], word, known, found, types)
            elif word in module.texts and word != name:
                place = next((at for at, it in known.items() if it is module), None)
                waiting += follow(place, word, known, found, types) if place else []
    return {place: names for place, names in found.items() if names}


def follow(
    place: Place, word: str, known: dict[Place, Module], found: dict[Place, set[str]],
    types: set[Place]
) -> list[tuple[Module, str]]:
    """What is still to be looked into once a definition, or a type of the code, is reached."""
    if place[1].startswith("declared."):
        if place in types:
            return []
        types.add(place)
        model = model_of(*place)
        return [(model, "Model")] if model else []
    if place not in known or word in found.setdefault(place, set()):
        return []
    found[place].add(word)
    return [(known[place], word)]


def page() -> str:
    known = modules()
    of_run, of_size = reached(known, RUN), reached(known, RUN_SIZE)
    more = sum(len(names - of_run.get(place, set())) for place, names in of_size.items())
    alone = {place for place in of_size if place not in of_run}
    return "\n".join([
        *beginning(),
        *wrapped(
            f"The contract of `run` reaches {sum(map(len, of_run.values()))} definitions in "
            f"{len(of_run)} of {len(known)} modules, which have {lines_of(known, of_run):,} "
            "lines without comments and imports. Begin at the end, with `Headline` of tap_engine, "
            "then `Reports` of run_reports, `Joined` of fanout_group and `Ring` of ring_model; "
            "the rest is what these are made of. All others are for a crate's own contracts, "
            "theorems and proofs."
        ),
        "",
        *listed(known, set(of_run)),
        "", "## Of ringsize alone", "",
        *wrapped(
            f"The contract of `run_size` reaches {more} definitions that `run` doesn't. "
            f"{len(alone)} modules have such definitions alone, in {lines_of(known, alone):,} "
            "lines. Begin with `Answers` of tap_sizes and `LeastRings` of pace_laws."
        ),
        "",
        *listed(known, alone),
    ]) + "\n"


def beginning() -> list[str]:
    return [
        "# The definitions", "",
        *wrapped(
            "Made by `python3 checks/definitions.py --write`; `checks/outside/test_documents.py` "
            "says where it is out of date."
        ),
        "",
        *wrapped(
            "Contracts say that the code does what the definitions in the crates' `specs/` say: "
            "functions and records over plain lists and whole numbers, each under one sentence; "
            "a sentence at the head of a module says what it is about. You have to believe them, "
            "and nothing else of a proof. Places and sizes are in bytes, times in nanoseconds or "
            "milliseconds; blocks count from 1, CPUs, members, frames and instructions from 0."
        ),
        "",
    ]


def lines_of(known: dict[Place, Module], places: Iterable[Place]) -> int:
    return sum(known[place].length for place in places)


def listed(known: dict[Place, Module], places: set[Place]) -> list[str]:
    """The modules at these places, a list item for each crate."""
    lines = []
    for crate in sorted({place[0] for place in places}, key=order_of):
        links = (
            f"[{name}](../crates/{crate}/specs/{name.replace('.', '/')}.antt)"
            for which, name in known if which == crate and (which, name) in places
        )
        lines += wrapped(f"- {crate}: {', '.join(links)}")
    return lines


def wrapped(text: str) -> list[str]:
    """A paragraph, or an item of a list, in lines of at most 100 columns."""
    return textwrap.wrap(
        text, 100, subsequent_indent="  " * text.startswith("- "), break_long_words=False,
        break_on_hyphens=False
    )


def order_of(crate: str) -> int:
    """Where a crate stands in crates.txt, which has the lowest first."""
    names = [
        line.partition(":")[0].strip()
        for line in (TOP / "crates.txt").read_text(encoding="utf-8").splitlines()
    ]
    return names.index(crate)


def main() -> None:
    words = argparse.ArgumentParser(
        description=__doc__, formatter_class=argparse.RawDescriptionHelpFormatter
    )
    words.add_argument("--write", action="store_true", help="write the page anew")
    text = page()
    if words.parse_args().write:
        PAGE.write_text(text, encoding="utf-8")
    elif not PAGE.is_file() or PAGE.read_text(encoding="utf-8") != text:
        sys.exit(
            "docs/definitions.md isn't what the sources give: `python3 checks/definitions.py "
            "--write` makes it anew"
        )
    print(f"definitions: {text.count(chr(10) + '- ')} lists of modules")


if __name__ == "__main__":
    main()
