#!/usr/bin/env python3
"""Prints what inputs of one size cost beside a plain one, as a table; `second/hostile_costs.py`
says what is compared."""
from second.hostile_costs import main

if __name__ == "__main__":
    main()
