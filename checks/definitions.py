#!/usr/bin/env python3
"""Makes docs/definitions.md; `outside/definitions.py` says with which words it is run."""
from outside.definitions import main

if __name__ == "__main__":
    main()
