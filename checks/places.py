"""Where the repository, its tools and the programs to check are. Who imports this can import the
modules of the tools."""
from __future__ import annotations

import os
import sys
from pathlib import Path

TOP = Path(__file__).resolve().parent.parent
OUT = TOP / "crates" / "ringtap" / "out"
UNBUILT = Path("unbuilt")
# the other program, which the tools ask where it is beside ringtap
BUILT_SIZER = TOP / "crates" / "ringsize" / "out" / "ringsize"
RINGSIZE = Path(os.environ.get("RINGSIZE", BUILT_SIZER)).resolve()
sys.path.append(str(TOP / "tools"))


def programs() -> list[Path]:
    """Those that RINGTAP names, with colons between, or those of both compilers that were built."""
    if named := os.environ.get("RINGTAP"):
        return [Path(name).resolve() for name in named.split(":")]
    built = [
        path
        for path in (OUT / "ringtap", OUT / "ringtap.by-rattle") if os.access(path, os.X_OK)
    ]
    return built if OUT / "ringtap" in built else [UNBUILT]


PROGRAMS = programs()
