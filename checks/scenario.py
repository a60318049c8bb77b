#!/usr/bin/env python3
"""Tests what scenarios of whole runs say; `scenarios/worked.py` says with which words it is run."""
import sys

from scenarios.worked import main

if __name__ == "__main__":
    main(sys.argv[1:])
