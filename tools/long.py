#!/usr/bin/env python3
"""The command long; ringtap_tools/long.py is what it does."""
import sys
from pathlib import Path

sys.path.insert(0, str(Path(__file__).resolve().parent))  # which `python3 -I` leaves out

from ringtap_tools.long import main  # noqa: E402
from ringtap_tools.files import run_main  # noqa: E402

if __name__ == "__main__":
    run_main(main)
