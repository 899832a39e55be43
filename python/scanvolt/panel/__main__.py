"""Runs the command: python3 -m scanvolt.panel."""

import sys

from .command import main

if __name__ == "__main__":
    sys.exit(main(name="python3 -m scanvolt.panel"))
