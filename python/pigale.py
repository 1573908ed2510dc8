#!/usr/bin/env python3
"""Runs a command of the package pigale, as `python3 python/pigale.py WORDS`; `import pigale` finds the package."""
import sys

from pigale.cli import main

if __name__ == "__main__":
    sys.exit(main())
