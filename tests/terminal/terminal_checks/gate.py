#!/usr/bin/env python3
"""A line that a test may stop: gate.py BLOCK LOG MS COMMAND [WORD ..]

While the file BLOCK is there no connection is made. Then the time stands in LOG, and this goes on as tools/delay MS COMMAND. Who stops this
process stops a connection that is there.
"""
import os
import runpy
import sys
import time
from pathlib import Path

SLOW = Path(__file__).resolve().parents[3] / "tools/delay"
NAP = 0.002  # seconds between two looks


def main():
    block, log, *words = sys.argv[1:]
    slow = runpy.run_path(str(SLOW))
    while os.path.exists(block):
        time.sleep(NAP)
    Path(log).write_text(str(time.monotonic()))
    sys.argv = [str(SLOW), *words]
    return slow["main"]()


if __name__ == "__main__":
    sys.exit(main())
