#!/usr/bin/env python3
"""A second program over the same rules; `second/program.py` says with which words it is run."""
import sys

from second.program import main

if __name__ == "__main__":
    main(sys.argv[1:])
