#!/usr/bin/env python3
"""Rings of ringtap beside those of a Linux kernel; `kernel/rings.py` says with which words it is
run."""
import sys

from kernel.rings import main

if __name__ == "__main__":
    sys.exit(main(sys.argv[1:]) > 0)
